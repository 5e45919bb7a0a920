//! "A number is decimal (`18`) or hexadecimal (`0x20000500`, either letter case after `0x`), at most
//! 4294967295" (docs/USING.md).

pub enum NoNumber {
    Spelling,
    TooLarge,
}

/// A byte that is no digit makes it no number, however large the digits before it are; so all are
/// looked at before the size is judged. Leading zeros add nothing.
pub fn read(word: &[u8]) -> Result<u32, NoNumber> {
    let (digits, base) = match word {
        [b'0', b'x', digits @ ..] => (digits, 16),
        digits => (digits, 10),
    };
    if digits.is_empty() {
        return Err(NoNumber::Spelling);
    }
    let mut value = Some(0u32);
    for &byte in digits {
        let digit = char::from(byte).to_digit(base).ok_or(NoNumber::Spelling)?;
        value = value.and_then(|v| v.checked_mul(base)?.checked_add(digit));
    }
    value.ok_or(NoNumber::TooLarge)
}
