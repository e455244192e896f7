//! The eighteen calls by code, and what a call is answered with.

use crate::labels::Level;
use crate::refusals::Refusal;
use crate::tables::Direction;

/// What a call is answered with.
#[derive(Clone, Copy, Debug, PartialEq, Eq)]
pub enum Answer {
    Allowed(Level),
    /// Allowed, and a read, write, exec or map made a level smaller or took a shop mark away; with how many shop marks the
    /// thing has lost whose level it is.
    Lowered(Level, u8),
    /// Refused, with the refusal's number.
    Refused(u8),
}

impl From<Refusal> for Answer {
    fn from(refusal: Refusal) -> Answer {
        Answer::Refused(refusal as u8)
    }
}

/// A call with its numbers, any numbers.
#[derive(Clone, Copy, Debug, PartialEq, Eq)]
pub enum Call {
    Admit { s: u64, level: u64, shops: u64 },
    Register { o: u64, level: u64, shops: u64 },
    Create { s: u64, o: u64 },
    Pipe { s: u64, o: u64, r: u64, w: u64 },
    Open { s: u64, o: u64, p: u64, direction: Direction },
    Read { s: u64, p: u64 },
    Write { s: u64, p: u64 },
    Fork { s: u64, c: u64 },
    Exec { s: u64, o: u64 },
    Close { s: u64, p: u64 },
    Exit { s: u64 },
    Retire { o: u64 },
    Map { s: u64, o: u64, p: u64 },
    Mark { s: u64, p: u64 },
    Freeze { level: u64 },
    Connect { s: u64, t: u64, a: u64, b: u64, p: u64, q: u64 },
    Thread { s: u64, c: u64 },
}

/// The most numbers that a call takes.
pub const NUMBERS: usize = 6;

impl Call {
    /// How many numbers the call with this code takes; none for an unknown code.
    pub fn numbers_of(code: u64) -> Option<usize> {
        match code {
            17 => Some(6),
            4 => Some(4),
            1 | 2 | 5 | 6 | 14 => Some(3),
            3 | 7..=11 | 15 | 18 => Some(2),
            12 | 13 | 16 => Some(1),
            _ => None,
        }
    }

    /// The call with this code; numbers that it does not use are ignored.
    pub fn new(code: u64, [a, b, c, d, e, f]: [u64; NUMBERS]) -> Option<Call> {
        Some(match code {
            1 => Call::Admit { s: a, level: b, shops: c },
            2 => Call::Register { o: a, level: b, shops: c },
            3 => Call::Create { s: a, o: b },
            4 => Call::Pipe { s: a, o: b, r: c, w: d },
            5 => Call::Open { s: a, o: b, p: c, direction: Direction::Reading },
            6 => Call::Open { s: a, o: b, p: c, direction: Direction::Writing },
            7 => Call::Read { s: a, p: b },
            8 => Call::Write { s: a, p: b },
            9 => Call::Fork { s: a, c: b },
            10 => Call::Exec { s: a, o: b },
            11 => Call::Close { s: a, p: b },
            12 => Call::Exit { s: a },
            13 => Call::Retire { o: a },
            14 => Call::Map { s: a, o: b, p: c },
            15 => Call::Mark { s: a, p: b },
            16 => Call::Freeze { level: a },
            17 => Call::Connect { s: a, t: b, a: c, b: d, p: e, q: f },
            18 => Call::Thread { s: a, c: b },
            _ => return None,
        })
    }
}

#[cfg(test)]
mod tests {
    use super::*;

    #[test]
    fn a_code_that_takes_numbers_is_a_call() {
        for code in 0..20 {
            assert_eq!(Call::new(code, [0; NUMBERS]).is_some(), Call::numbers_of(code).is_some(), "{code}");
        }
    }
}
