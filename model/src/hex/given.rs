//! The bytes that the records have given so far, each by its address.

use super::record::Record;
use crate::layout::{BASE, SIZE};
use crate::refusal::{unless, HEX_ADDRESS};

pub struct Given {
    /// 0 before the first address record.
    upper: u16,
    bytes: Vec<Option<u8>>,
}

pub enum Step {
    More,
    /// The end record was accepted: all that was given.
    Whole(Vec<u8>),
}

impl Given {
    pub fn nothing() -> Given {
        Given {
            upper: 0,
            bytes: vec![None; SIZE],
        }
    }

    /// "−32 address overlap or outside, and a gap, judged at the end record".
    pub fn take(&mut self, record: Record) -> Result<Step, i32> {
        match record {
            Record::Upper(half) => self.upper = half,
            Record::Data { address, bytes } => {
                let first = u64::from(self.upper) << 16 | u64::from(address);
                for (address, byte) in (first..).zip(bytes) {
                    self.give(address, byte)?;
                }
            }
            Record::End => {
                let whole: Option<Vec<u8>> = self.bytes.iter().copied().collect();
                return whole.map(Step::Whole).ok_or(HEX_ADDRESS);
            }
        }
        Ok(Step::More)
    }

    /// "no byte given twice", with the same value neither.
    fn give(&mut self, address: u64, byte: u8) -> Result<(), i32> {
        let place = address
            .checked_sub(u64::from(BASE))
            .and_then(|offset| self.bytes.get_mut(usize::try_from(offset).ok()?))
            .ok_or(HEX_ADDRESS)?;
        unless(place.is_none(), HEX_ADDRESS)?;
        *place = Some(byte);
        Ok(())
    }
}
