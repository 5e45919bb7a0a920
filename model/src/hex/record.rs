//! One record: its bytes, and the line that spells them. Its bytes are the length of its data, the
//! address in two, the type, the data, and a sum by which all of them add up to 0 mod 256.

use crate::refusal::{unless, HEX_LINE, HEX_SUM};

/// The types that are taken: "type other than 00, 01, 04" is refused.
pub const DATA: u8 = 0x00;
pub const END: u8 = 0x01;
pub const UPPER: u8 = 0x04;

/// What a line says. The address field of the other two types is not read.
pub enum Record {
    Data {
        address: u16,
        bytes: Vec<u8>,
    },
    End,
    /// The upper half of the addresses that follow.
    Upper(u16),
}

/// The record in a line, given with its end: every test of −30 before that of the sum, "within a
/// line in that order".
pub fn read(line: &[u8]) -> Result<Record, i32> {
    let bytes = spelled(line).ok_or(HEX_LINE)?;
    let record = meant(&bytes).ok_or(HEX_LINE)?;
    let sum = bytes.iter().fold(0u8, |sum, &byte| sum.wrapping_add(byte));
    unless(sum == 0, HEX_SUM)?;
    Ok(record)
}

/// "−30 character, line end": a colon, pairs of digits in either letter case, LF or CR LF.
fn spelled(line: &[u8]) -> Option<Vec<u8>> {
    let line = line.strip_suffix(b"\n")?;
    let line = line.strip_suffix(b"\r").unwrap_or(line);
    let digits = line.strip_prefix(b":")?;
    if digits.len() % 2 != 0 {
        return None;
    }
    let value = |digit: u8| char::from(digit).to_digit(16);
    digits
        .chunks(2)
        .map(|pair| Some((16 * value(pair[0])? + value(pair[1])?) as u8))
        .collect()
}

/// "length or type other than 00, 01, 04"; "any data length from 1 to 255".
fn meant(bytes: &[u8]) -> Option<Record> {
    let (address, kind, data) = match bytes {
        [length, high, low, kind, data @ .., _] if data.len() == usize::from(*length) => {
            (u16::from_be_bytes([*high, *low]), *kind, data)
        }
        _ => return None,
    };
    match (kind, data) {
        (DATA, [_, ..]) => Some(Record::Data {
            address,
            bytes: data.to_vec(),
        }),
        (END, []) => Some(Record::End),
        (UPPER, &[high, low]) => Some(Record::Upper(u16::from_be_bytes([high, low]))),
        _ => None,
    }
}

/// The bytes of a record of this type, at most 255 of them data.
pub fn bytes(kind: u8, address: u16, data: &[u8]) -> Vec<u8> {
    let [high, low] = address.to_be_bytes();
    let head = [data.len() as u8, high, low, kind];
    summed([&head, data].concat())
}

/// The bytes of a record for this upper half.
pub fn upper(half: u16) -> Vec<u8> {
    bytes(UPPER, 0, &half.to_be_bytes())
}

/// The bytes with the sum byte behind them that is right for them.
pub fn summed(mut bytes: Vec<u8>) -> Vec<u8> {
    let sum = bytes.iter().fold(0u8, |sum, &byte| sum.wrapping_add(byte));
    bytes.push(sum.wrapping_neg());
    bytes
}

/// A byte as two digits, upper case.
pub fn digits(byte: u8) -> [u8; 2] {
    const DIGITS: &[u8; 16] = b"0123456789ABCDEF";
    [byte >> 4, byte & 15].map(|value| DIGITS[usize::from(value)])
}
