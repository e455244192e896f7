//! Records of a journal: RULES J8 to J17, R11 and R12.
//!
//! `Reader` cuts a journal into records, `read_body` turns a record's body into a call's code and
//! numbers, `write` makes a record.

use crate::calls::{shape_of_code, Numbers, NUMBERS};
use crate::numbers::{self, Malformed};
use crate::variants::{Rules, Variant};

/// RULES R11: what is wrong with a length.
#[derive(Clone, Copy, Debug, PartialEq, Eq)]
pub enum LengthFault {
    Malformed(Malformed),
    PastEnd { length: u64, left: usize },
}

/// Where a record lies in its journal.
#[derive(Clone, Copy, Debug, PartialEq, Eq)]
pub struct Span {
    /// Offset of the record's first byte, the first of its length.
    pub start: usize,
    /// Offset of the body's first byte.
    pub body: usize,
    /// Offset behind the body.
    pub end: usize,
}

/// The journal and the offset of the next record.
#[derive(Clone, Debug)]
pub struct Reader<'a> {
    journal: &'a [u8],
    offset: usize,
    rules: Rules,
}

impl<'a> Reader<'a> {
    pub fn new(journal: &'a [u8], rules: Rules) -> Reader<'a> {
        Reader { journal, offset: 0, rules }
    }

    /// The offset of the next record.
    pub fn offset(&self) -> usize {
        self.offset
    }

    /// RULES J8, J11: the next record, or none at the journal's end. After a fault there is nothing more to
    /// read: RULES R113.
    pub fn next_record(&mut self) -> Option<Result<Span, LengthFault>> {
        let start = self.offset;
        let rest = self.journal.get(start..).filter(|rest| !rest.is_empty())?;
        let record = self.cut(start, rest);
        self.offset = match record {
            Ok(span) => span.end,
            Err(_) if self.rules.has(Variant::ElevenGoesOn) => start + 1,
            Err(_) => self.journal.len(),
        };
        Some(record)
    }

    fn cut(&self, start: usize, rest: &[u8]) -> Result<Span, LengthFault> {
        let (length, taken) = numbers::read(rest, self.rules).map_err(LengthFault::Malformed)?;
        let length = self.rules.bend_length(length);
        let left = rest.len() - taken;
        let body = start + taken;
        if length <= left as u64 {
            let end = body + length as usize;
            Ok(Span { start, body, end })
        } else if self.rules.has(Variant::PastEndClipped) {
            let end = body + left;
            Ok(Span { start, body, end })
        } else {
            Err(LengthFault::PastEnd { length, left })
        }
    }
}

/// RULES R12: what is wrong with a body.
#[derive(Clone, Copy, Debug, PartialEq, Eq)]
pub enum BodyFault {
    /// The body is empty: there is no code.
    Empty,
    /// The code itself is malformed.
    Code(Malformed),
    /// One of the call's numbers is malformed; they are counted from 0.
    Number(usize, Malformed),
    /// The body ends before this number.
    Missing(usize),
    /// All numbers are there, and this many bytes behind them.
    LeftOver { numbers: Numbers, bytes: usize },
}

/// What a body holds.
#[derive(Clone, Copy, Debug, PartialEq, Eq)]
pub enum Body {
    /// A known code and its numbers, 0 for those it does not use.
    Call { code: u64, numbers: Numbers },
    /// RULES J14: an unknown code; what follows it is not looked at.
    UnknownCode { code: u64 },
    /// RULES R12, with the code, 0 where none was read (RULES J13).
    Bad { code: u64, fault: BodyFault },
}

/// Reads the body of the record at `span`: RULES J9.
pub fn read_body(journal: &[u8], span: Span, rules: Rules) -> Body {
    let end = if rules.has(Variant::ReadsPastBody) { journal.len() } else { span.end };
    let body = journal.get(span.body..end).unwrap_or(&[]);
    let length = span.end - span.body;

    // RULES J13: no good code.
    if length == 0 {
        let fault = BodyFault::Empty;
        return Body::Bad { code: 0, fault };
    }
    let (code, mut taken) = match numbers::read(body, rules) {
        Ok(read) => read,
        Err(malformed) => {
            let fault = BodyFault::Code(malformed);
            return Body::Bad { code: 0, fault };
        }
    };

    // RULES J14: an unknown code.
    let Some(shape) = shape_of_code(rules.bend_code(code)) else {
        return rules.bend_unknown_code(code, &body[taken..]);
    };

    let mut numbers = [0; NUMBERS];
    for (index, number) in numbers.iter_mut().take(rules.bend_count(shape)).enumerate() {
        if taken >= length {
            if let Some(missing) = rules.bend_missing(code, index) {
                *number = missing;
                continue;
            }
            let fault = BodyFault::Missing(index);
            return Body::Bad { code, fault };
        }
        match numbers::read(&body[taken..], rules) {
            Ok((value, bytes)) => {
                *number = value;
                taken += bytes;
            }
            Err(malformed) => {
                let fault = BodyFault::Number(index, malformed);
                return Body::Bad { code, fault };
            }
        }
    }
    if taken < length && !rules.has(Variant::LeftOverIgnored) {
        let bytes = length - taken;
        let fault = BodyFault::LeftOver { numbers, bytes };
        return Body::Bad { code, fault };
    }
    Body::Call { code, numbers }
}

/// Writes a record with any code and any numbers at the end of the journal.
pub fn write(code: u64, numbers: &[u64], journal: &mut Vec<u8>) {
    let mut body = Vec::new();
    numbers::write(code, &mut body);
    for &number in numbers {
        numbers::write(number, &mut body);
    }
    write_body(&body, journal);
}

/// Writes a record with any body at the end of the journal.
pub fn write_body(body: &[u8], journal: &mut Vec<u8>) {
    numbers::write(body.len() as u64, journal);
    journal.extend_from_slice(body);
}

#[cfg(test)]
mod tests {
    use super::*;
    use crate::calls::{filled, SHAPES};

    #[test]
    fn a_written_call_is_read_again_and_has_at_most_62_bytes() {
        for shape in &SHAPES {
            for value in [0, 127, 128, 4_294_967_296, u64::MAX] {
                let mut journal = Vec::new();
                let given = vec![value; shape.numbers.len()];
                write(shape.code, &given, &mut journal);
                assert!(journal.len() <= 62);
                let mut reader = Reader::new(&journal, Rules::default());
                let span = reader.next_record().unwrap().unwrap();
                let call = Body::Call { code: shape.code, numbers: filled(&given) };
                assert_eq!(read_body(&journal, span, Rules::default()), call);
                assert_eq!(reader.next_record(), None);
            }
        }
    }

    #[test]
    fn a_number_does_not_reach_past_its_body() {
        // The body of the first record ends in the middle of a number.
        let journal = [0x03, 0x01, 0x00, 0x80, 0x01, 0x0c];
        let mut reader = Reader::new(&journal, Rules::default());
        let span = reader.next_record().unwrap().unwrap();
        let fault = BodyFault::Number(1, Malformed::CutOff);
        assert_eq!(read_body(&journal, span, Rules::default()), Body::Bad { code: 1, fault });
    }
}
