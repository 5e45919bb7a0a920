//! How the bytes of a record become a line: the letter case, digit by digit, and the line's end.

use crate::drive::rng::Rng;
use crate::hex::record::digits;

#[derive(Clone, Copy)]
enum Mix {
    Never,
    Always,
    Sometimes,
}

impl Mix {
    fn at_random(rng: &mut Rng) -> Mix {
        rng.pick(&[Mix::Never, Mix::Always, Mix::Sometimes])
    }

    fn now(self, rng: &mut Rng) -> bool {
        match self {
            Mix::Never => false,
            Mix::Always => true,
            Mix::Sometimes => rng.chance(50),
        }
    }
}

#[derive(Clone, Copy)]
pub struct Style {
    lower_case: Mix,
    carriage_return: Mix,
}

impl Style {
    /// "upper-case digits, line feed ends".
    pub const AS_WRITTEN: Style = Style {
        lower_case: Mix::Never,
        carriage_return: Mix::Never,
    };

    pub const CARRIAGE_RETURNS: Style = Style {
        lower_case: Mix::Never,
        carriage_return: Mix::Always,
    };

    /// "accepting either letter case .. and CR LF".
    pub fn at_random(rng: &mut Rng) -> Style {
        Style {
            lower_case: Mix::at_random(rng),
            carriage_return: Mix::at_random(rng),
        }
    }

    pub fn line(&self, bytes: &[u8], rng: &mut Rng) -> Vec<u8> {
        let mut line = vec![b':'];
        for mut digit in bytes.iter().flat_map(|&byte| digits(byte)) {
            if self.lower_case.now(rng) {
                digit.make_ascii_lowercase();
            }
            line.push(digit);
        }
        if self.carriage_return.now(rng) {
            line.push(b'\r');
        }
        line.push(b'\n');
        line
    }
}
