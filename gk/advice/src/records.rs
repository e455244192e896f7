//! Records of a journal: cutting a journal into records, and why one is no call. Numbers are read by the proved
//! reader, and a call's record is written by the proved writer.

use gatekeeper::{read_number, write_record, Call, RECORD_ROOM};

use crate::calls::{call_of, shape_of_code};
use gk_names::number::shown;

/// The most bytes of a number (RULES J7).
const MOST_BYTES: usize = 10;

/// Why a number is malformed, to follow "the length" or "the number".
#[derive(Clone, Copy, Debug, PartialEq, Eq)]
pub enum Malformed {
    CutOff,
    TooLarge,
    Padded,
}

impl Malformed {
    /// RULES J4 to J6: why the proved reader finds no number at the front of these bytes.
    pub fn of(bytes: &[u8]) -> Malformed {
        match bytes.iter().position(|byte| byte & 0x80 == 0) {
            None => Malformed::CutOff,
            Some(last) if last > 0 && bytes[last] == 0 => Malformed::Padded,
            Some(_) => Malformed::TooLarge,
        }
    }

    pub fn words(self) -> &'static str {
        match self {
            Malformed::CutOff => "is cut off",
            Malformed::TooLarge => "is above 18,446,744,073,709,551,615",
            Malformed::Padded => "is longer than it need be",
        }
    }
}

/// RULES R11: what is wrong with a length.
#[derive(Clone, Copy, Debug, PartialEq, Eq)]
pub enum LengthFault {
    Malformed(Malformed),
    PastEnd { length: u64, left: usize },
}

impl LengthFault {
    /// Whether more bytes behind these, which start with the length, could make a record of them. A length goes on
    /// after each byte that has its highest bit, and takes at most ten.
    pub fn may_pass(self, bytes: usize) -> bool {
        match self {
            LengthFault::Malformed(malformed) => malformed == Malformed::CutOff && bytes < MOST_BYTES,
            LengthFault::PastEnd { .. } => true,
        }
    }
}

/// RULES R12: what is wrong with a body.
#[derive(Clone, Copy, Debug, PartialEq, Eq)]
pub enum BodyFault {
    /// The body is empty: there is no code.
    Empty,
    Code(Malformed),
    /// One of the call's numbers, counted from 0.
    Number(usize, Malformed),
    Missing(usize),
    /// All numbers are there, and this many bytes behind them.
    LeftOver(usize),
}

/// What a body holds.
#[derive(Clone, Copy, Debug, PartialEq, Eq)]
pub enum Body {
    Call(Call),
    /// RULES J14: what follows the code is not looked at.
    UnknownCode(u64),
    /// RULES R12, with the code, 0 where none was read.
    Bad(u64, BodyFault),
}

/// A record: where it starts, its body's bytes, and what they hold.
#[derive(Clone, Copy, Debug)]
pub struct Record<'a> {
    pub start: usize,
    /// The record's bytes, its length's among them.
    pub bytes: &'a [u8],
    pub body_bytes: &'a [u8],
    pub body: Body,
}

/// What stands at an offset of a journal where a record should.
pub type Entry<'a> = Result<Record<'a>, (usize, LengthFault)>;

/// The records of a journal, in order. After a fault there is nothing more to read (RULES R113).
#[derive(Clone, Debug)]
pub struct Records<'a> {
    journal: &'a [u8],
    offset: usize,
}

impl<'a> Records<'a> {
    pub fn new(journal: &'a [u8]) -> Records<'a> {
        Records { journal, offset: 0 }
    }
}

impl<'a> Iterator for Records<'a> {
    type Item = Entry<'a>;

    fn next(&mut self) -> Option<Entry<'a>> {
        let entry = entry_at(self.journal, self.offset)?;
        self.offset = entry.map_or(self.journal.len(), |record| record.start + record.bytes.len());
        Some(entry)
    }
}

/// What stands at an offset of a journal; none at its end.
pub fn entry_at(journal: &[u8], start: usize) -> Option<Entry<'_>> {
    let rest = journal.get(start..).filter(|rest| !rest.is_empty())?;
    let Some((length, taken)) = read_number(rest) else {
        return Some(Err((start, LengthFault::Malformed(Malformed::of(rest)))));
    };
    let left = rest.len() - taken;
    let Some(end) = usize::try_from(length).ok().filter(|&length| length <= left) else {
        return Some(Err((start, LengthFault::PastEnd { length, left })));
    };
    let body_bytes = &rest[taken..taken + end];
    Some(Ok(Record { start, bytes: &rest[..taken + end], body_bytes, body: read_body(body_bytes) }))
}

/// RULES J9, J13 to J16.
fn read_body(body: &[u8]) -> Body {
    if body.is_empty() {
        return Body::Bad(0, BodyFault::Empty);
    }
    let Some((code, mut taken)) = read_number(body) else {
        return Body::Bad(0, BodyFault::Code(Malformed::of(body)));
    };
    let Some(shape) = shape_of_code(code) else {
        return Body::UnknownCode(code);
    };
    let mut numbers = [0; 6];
    for (index, number) in numbers.iter_mut().take(shape.numbers.len()).enumerate() {
        let rest = &body[taken..];
        if rest.is_empty() {
            return Body::Bad(code, BodyFault::Missing(index));
        }
        let Some((value, bytes)) = read_number(rest) else {
            return Body::Bad(code, BodyFault::Number(index, Malformed::of(rest)));
        };
        *number = value;
        taken += bytes;
    }
    match (body.len() - taken, call_of(code, numbers)) {
        (0, Some(call)) => Body::Call(call),
        (0, None) => Body::UnknownCode(code),
        (left, _) => Body::Bad(code, BodyFault::LeftOver(left)),
    }
}

/// The bytes as a list of good numbers, if they are one.
pub fn all_numbers(mut bytes: &[u8]) -> Option<Vec<u64>> {
    let mut numbers = Vec::new();
    while !bytes.is_empty() {
        let (number, taken) = read_number(bytes)?;
        numbers.push(number);
        bytes = &bytes[taken..];
    }
    Some(numbers)
}

/// Writes a record with any code and any numbers at the end of a journal.
pub fn write_any(code: u64, numbers: &[u64], journal: &mut Vec<u8>) {
    let fits = shape_of_code(code).is_some_and(|shape| shape.numbers.len() == numbers.len());
    if fits {
        let mut six = [0; 6];
        six[..numbers.len()].copy_from_slice(numbers);
        let mut room = [0; RECORD_ROOM];
        if let Ok(bytes) = write_record(&mut room, code, six) {
            journal.extend_from_slice(&room[..bytes]);
            return;
        }
    }
    // No call of the rules: the proved writer refuses it.
    let mut body = Vec::new();
    for &number in [&code].into_iter().chain(numbers) {
        write_number(number, &mut body);
    }
    write_number(body.len() as u64, journal);
    journal.extend(body);
}

/// RULES J1, J2: a number in as few bytes as it needs.
fn write_number(mut number: u64, bytes: &mut Vec<u8>) {
    while number >= 128 {
        bytes.push((number % 128) as u8 | 0x80);
        number /= 128;
    }
    bytes.push(number as u8);
}

/// Why a journal breaks off, in words.
pub fn length_words(fault: LengthFault) -> String {
    match fault {
        LengthFault::Malformed(malformed) => format!("the length {}", malformed.words()),
        LengthFault::PastEnd { length, left: 1 } => {
            format!("the length is {}, and only 1 byte is left", shown(length))
        }
        LengthFault::PastEnd { length, left } => {
            format!("the length is {}, and only {left} bytes are left", shown(length))
        }
    }
}

/// Why a body is no call, in words; nothing for a call.
pub fn body_words(body: Body) -> String {
    let (code, fault) = match body {
        Body::Call(_) => return String::new(),
        Body::UnknownCode(code) => return format!("no call has the code {}", shown(code)),
        Body::Bad(code, fault) => (code, fault),
    };
    let shape = shape_of_code(code);
    let word = shape.map_or("the call", |shape| shape.word);
    let name = |index: usize| {
        shape.and_then(|shape| shape.numbers.get(index)).map_or("behind the code", |name| name)
    };
    match fault {
        BodyFault::Empty => "the body is empty, there is no code".to_string(),
        BodyFault::Code(malformed) => format!("the code {}", malformed.words()),
        BodyFault::Number(index, malformed) => {
            format!("the number {} of {word} {}", name(index), malformed.words())
        }
        BodyFault::Missing(index) => format!("the number {} of {word} is missing", name(index)),
        BodyFault::LeftOver(1) => format!("1 byte is left over behind {word}"),
        BodyFault::LeftOver(bytes) => format!("{bytes} bytes are left over behind {word}"),
    }
}

#[cfg(test)]
mod tests {
    use super::*;

    #[test]
    fn why_a_number_is_malformed_agrees_with_the_proved_reader() {
        let high = |last: u8| [[0x80; MOST_BYTES - 1].as_slice(), &[last]].concat();
        let (too_large, padded) = (high(2), [high(0x80), vec![0]].concat());
        for bytes in [&[][..], &[0x80], &[0x80, 0], &[0xff, 0x80, 0], &too_large, &padded] {
            assert_eq!(read_number(bytes), None, "{bytes:?}");
        }
        assert_eq!(Malformed::of(&[0x80]), Malformed::CutOff);
        assert_eq!(Malformed::of(&[0x80, 0]), Malformed::Padded);
        assert_eq!(Malformed::of(&too_large), Malformed::TooLarge);
        assert_eq!(Malformed::of(&padded), Malformed::Padded);
        assert_eq!(read_number(&high(1)), Some((1 << 63, MOST_BYTES)));
    }

    #[test]
    fn a_written_number_is_read_again() {
        for number in [0, 1, 127, 128, 16_383, 16_384, 1 << 32, u64::MAX] {
            let mut bytes = Vec::new();
            write_number(number, &mut bytes);
            assert_eq!(read_number(&bytes), Some((number, bytes.len())));
        }
    }
}
