//! Journals: numbers, records and the calls in them.

use crate::calls::{Call, NUMBERS};
use crate::refusals::Refusal;

/// The longest journal that is run, in bytes.
pub const LONGEST: usize = 65_536;

/// The number at the front of the bytes (unsigned LEB128, 64 bits) and how many it takes; none where it is cut off,
/// above 18,446,744,073,709,551,615, or longer than it need be.
#[inline]
pub fn number(bytes: &[u8]) -> Option<(u64, usize)> {
    let first = *bytes.first()?;
    if first < 0x80 {
        return Some((first.into(), 1));
    }
    let mut value = u64::from(first & 0x7f);
    for index in 1..9 {
        let byte = *bytes.get(index)?;
        value |= u64::from(byte & 0x7f) << (7 * index);
        if byte < 0x80 {
            let padded = byte == 0;
            return if padded { None } else { Some((value, index + 1)) };
        }
    }
    // Nine bytes have 63 bits: a tenth has one.
    match *bytes.get(9)? {
        1 => Some((value | 1 << 63, 10)),
        _ => None,
    }
}

/// Takes the number at the front of the bytes off them.
#[inline]
fn next_number(bytes: &mut &[u8]) -> Option<u64> {
    let (value, used) = number(bytes)?;
    *bytes = &bytes[used..];
    Some(value)
}

/// What stands in a record.
#[derive(Clone, Copy, Debug, PartialEq, Eq)]
pub enum Record {
    /// A code, and the call that it and its numbers are, or why there is none.
    Read { code: u64, call: Result<Call, Refusal> },
    /// A length is malformed or runs past the end: there is no record, and none follows.
    Broken,
}

/// The records of a journal, one after the other.
#[derive(Clone, Debug)]
pub struct Records<'a> {
    rest: &'a [u8],
}

impl<'a> Records<'a> {
    pub fn of(journal: &'a [u8]) -> Records<'a> {
        Records { rest: journal }
    }

    /// Cuts the next record's body off.
    fn body(&mut self) -> Option<&'a [u8]> {
        let length = next_number(&mut self.rest)?;
        let (body, rest) = self.rest.split_at_checked(usize::try_from(length).ok()?)?;
        self.rest = rest;
        Some(body)
    }
}

impl Iterator for Records<'_> {
    type Item = Record;

    fn next(&mut self) -> Option<Record> {
        if self.rest.is_empty() {
            return None;
        }
        match self.body() {
            Some(body) => Some(read(body)),
            None => {
                self.rest = &[];
                Some(Record::Broken)
            }
        }
    }
}

/// A record's body: code, then the call's numbers. The code is 0 where none was read.
fn read(mut body: &[u8]) -> Record {
    match next_number(&mut body) {
        Some(code) => Record::Read { code, call: call(code, body) },
        None => Record::Read { code: 0, call: Err(Refusal::RecordBroken) },
    }
}

fn call(code: u64, mut rest: &[u8]) -> Result<Call, Refusal> {
    let count = Call::numbers_of(code).ok_or(Refusal::UnknownCode)?;
    let mut numbers = [0; NUMBERS];
    for value in &mut numbers[..count] {
        *value = next_number(&mut rest).ok_or(Refusal::RecordBroken)?;
    }
    if !rest.is_empty() {
        return Err(Refusal::RecordBroken);
    }
    Call::new(code, numbers).ok_or(Refusal::UnknownCode)
}

#[cfg(test)]
mod tests {
    use super::*;

    fn value(bytes: &[u8]) -> Option<u64> {
        number(bytes).map(|(value, _)| value)
    }

    #[test]
    fn numbers_are_read() {
        assert_eq!(number(&[2, 9]), Some((2, 1)));
        assert_eq!(number(&[0xb9, 0x64, 7]), Some((12_857, 2)));
        assert_eq!(value(&[0x00]), Some(0));
        assert_eq!(value(&[0xff, 0xff, 0xff, 0xff, 0x0f]), Some(u64::from(u32::MAX)));
        assert_eq!(value(&[0x80, 0x80, 0x80, 0x80, 0x10]), Some(1 << 32));
        assert_eq!(value(&[0x80, 0x80, 0x80, 0x80, 0x80, 0x80, 0x80, 0x80, 0x80, 0x01]), Some(1 << 63));
        assert_eq!(value(&[0xff, 0xff, 0xff, 0xff, 0xff, 0xff, 0xff, 0xff, 0x7f]), Some(u64::MAX >> 1));
        assert_eq!(value(&[0xff, 0xff, 0xff, 0xff, 0xff, 0xff, 0xff, 0xff, 0xff, 0x01]), Some(u64::MAX));
    }

    #[test]
    fn malformed_numbers_are_told() {
        let nine = [0xff; 9];
        let (cut_off, longer_than_need_be) = ([0x80], [0x80, 0x00]);
        for bytes in [&[][..], &cut_off, &nine, &longer_than_need_be] {
            assert_eq!(number(bytes), None, "{bytes:02x?}");
        }
        // Longer than need be, above, above with a group more, and ten groups that are not the last.
        for tail in [&[0x00][..], &[0x02], &[0x03], &[0x7f], &[0x80, 0x00], &[0x81, 0x01], &[0xff]] {
            assert_eq!(number(&[&nine[..], tail].concat()), None, "{tail:02x?}");
        }
    }

    #[test]
    fn records_are_cut_and_read() {
        let broken = |code| Record::Read { code, call: Err(Refusal::RecordBroken) };
        let cases: [(&[u8], &[Record]); 10] = [
            (&[], &[]),
            (&[0x80, 0x00], &[Record::Broken]),
            (&[0x00], &[broken(0)]),
            (&[2, 12, 7], &[Record::Read { code: 12, call: Ok(Call::Exit { s: 7 }) }]),
            (&[1, 12, 3, 12, 7, 7], &[broken(12), broken(12)]),
            (&[3, 18, 7, 8], &[Record::Read { code: 18, call: Ok(Call::Thread { s: 7, c: 8 }) }]),
            (&[2, 18, 7, 4, 18, 7, 8, 9], &[broken(18), broken(18)]),
            (&[2, 99, 0x80], &[Record::Read { code: 99, call: Err(Refusal::UnknownCode) }]),
            (&[2, 12], &[Record::Broken]),
            // A length that is 1 if it is cut to 32 bits.
            (&[0x81, 0x80, 0x80, 0x80, 0x10, 0], &[Record::Broken]),
        ];
        for (journal, records) in cases {
            assert_eq!(Records::of(journal).collect::<Vec<Record>>(), records, "{journal:02x?}");
        }
    }
}
