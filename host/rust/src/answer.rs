//! What a call is answered with.

use std::error::Error;
use std::fmt;

use crate::archive;

/// The answer to a call. A host carries the call out where it is `Allowed` or `Lowered`, and nowhere else.
#[must_use = "a call may be refused: carry it out only where it is allowed or lowered"]
#[derive(Clone, Copy, Debug, PartialEq, Eq)]
pub enum Answer {
    /// Allowed, with a level: that of the new, opened, written or retired thing, or of the freeze, or else the
    /// subject's.
    Allowed(u8),
    /// Allowed, and a read, write, exec or map made a label smaller, in its level, in its set of shop marks or in both:
    /// with that thing's level after it, which may be as before, and how many shop marks it lost, 0 to 8. Only at a write
    /// to a file the level is the file's, which stays and loses none, and what fell is a subject that has the file mapped;
    /// on a monitor that started empty there is no such answer.
    Lowered { level: u8, lost: u8 },
    /// Refused. Nothing has changed.
    Refused(Refusal),
}

impl Answer {
    /// The level of a call that was not refused, for use with `?`.
    pub fn granted(self) -> Result<u8, Refusal> {
        match self {
            Answer::Allowed(level) | Answer::Lowered { level, .. } => Ok(level),
            Answer::Refused(refusal) => Err(refusal),
        }
    }

    /// An answer as the archive gives it: 256 times 256 times the number of shop marks lost, 256 times the outcome's
    /// letter, and the level or refusal number.
    pub(crate) fn from_number(number: u32) -> Answer {
        let [value, letter, lost, _] = number.to_le_bytes();
        match letter {
            b'A' => Answer::Allowed(value),
            b'L' => Answer::Lowered { level: value, lost },
            b'R' => Answer::Refused(Refusal::proved(value.into())),
            _ => panic!("{}", archive::OTHER_VERSION),
        }
    }
}

/// Why a call, a record, a journal or a line was refused. Where several hold, the smallest number is given, but 14 goes
/// before all others, 12 before 2 to 10 and 15 to 17, 16 right after 2, 17 right after 3, and 15 just before 9. So an
/// open that is `Flow` is one that no freeze forbids, and one that is `Frozen` may be `Flow` once the freeze is lifted.
#[non_exhaustive]
#[derive(Clone, Copy, Debug, PartialEq, Eq, PartialOrd, Ord, Hash)]
pub enum Refusal {
    UnknownCode = 1,
    NoSubject = 2,
    NumberTaken = 3,
    NoObject = 4,
    IsPipe = 5,
    LevelTooHigh = 6,
    PlaceUnfit = 7,
    WrongDirection = 8,
    Flow = 9,
    StillOpen = 10,
    JournalBroken = 11,
    RecordBroken = 12,
    RecordTooLong = 13,
    JournalTooLong = 14,
    Frozen = 15,
    SameSubject = 16,
    TooManyObjects = 17,
    LineBroken = 18,
    TooManyStages = 19,
}

impl Refusal {
    /// Every refusal, by number.
    pub const ALL: [Refusal; 19] = [
        Refusal::UnknownCode,
        Refusal::NoSubject,
        Refusal::NumberTaken,
        Refusal::NoObject,
        Refusal::IsPipe,
        Refusal::LevelTooHigh,
        Refusal::PlaceUnfit,
        Refusal::WrongDirection,
        Refusal::Flow,
        Refusal::StillOpen,
        Refusal::JournalBroken,
        Refusal::RecordBroken,
        Refusal::RecordTooLong,
        Refusal::JournalTooLong,
        Refusal::Frozen,
        Refusal::SameSubject,
        Refusal::TooManyObjects,
        Refusal::LineBroken,
        Refusal::TooManyStages,
    ];

    /// The number of the refusal in the rules, 1 to 19.
    pub fn number(self) -> u32 {
        self as u32
    }

    /// The refusal of this number.
    pub fn from_number(number: u32) -> Option<Refusal> {
        Refusal::ALL.into_iter().find(|refusal| refusal.number() == number)
    }

    /// The refusal of a number that the archive answers with: it is proved to be one of the rules'.
    pub(crate) fn proved(number: u32) -> Refusal {
        Refusal::from_number(number)
            .unwrap_or_else(|| unreachable!("the archive answers no refusal {number}"))
    }

    /// What it says, in plain words.
    pub fn words(self) -> &'static str {
        match self {
            Refusal::UnknownCode => "no call has this code",
            Refusal::NoSubject => "the step that asks, or is to be connected, is not there",
            Refusal::NumberTaken => "the number for the new thing cannot be used",
            Refusal::NoObject => "the file or pipe is not there",
            Refusal::IsPipe => "a pipe cannot be run, retired or mapped",
            Refusal::LevelTooHigh => "the level is above 15, the set above 255, or a freeze above 16",
            Refusal::PlaceUnfit => "the place does not fit",
            Refusal::WrongDirection => "the handle is for the other direction",
            Refusal::Flow => "data could reach a file of a higher level or with a shop mark that it lacks",
            Refusal::StillOpen => "a handle is still open on the file",
            Refusal::JournalBroken => "the journal breaks off here",
            Refusal::RecordBroken => "the record is not well formed",
            Refusal::RecordTooLong => "the record is longer than the buffer",
            Refusal::JournalTooLong => "the journal is longer than 65,536 bytes",
            Refusal::Frozen => "the file is frozen while the books are closed",
            Refusal::SameSubject => "a step cannot be connected to itself",
            Refusal::TooManyObjects => "only 64 files and pipes may be live: retire a file or end a pipe",
            Refusal::LineBroken => "the line is not well formed",
            Refusal::TooManyStages => "a pipeline has more than eight stages",
        }
    }
}

impl fmt::Display for Refusal {
    fn fmt(&self, f: &mut fmt::Formatter<'_>) -> fmt::Result {
        write!(f, "{} (refusal {})", self.words(), self.number())
    }
}

impl Error for Refusal {}

#[cfg(test)]
mod tests {
    use super::*;

    #[test]
    fn every_refusal_has_its_number() {
        for (number, refusal) in (1..).zip(Refusal::ALL) {
            assert_eq!(refusal.number(), number);
            assert_eq!(Refusal::from_number(number), Some(refusal));
        }
        assert_eq!(Refusal::from_number(0), None);
        assert_eq!(Refusal::from_number(20), None);
    }

    #[test]
    fn an_answer_is_read_from_its_number() {
        assert_eq!(Answer::from_number(256 * u32::from(b'A') + 15), Answer::Allowed(15));
        let lowered = |level, lost| Answer::Lowered { level, lost };
        assert_eq!(Answer::from_number(256 * u32::from(b'L')), lowered(0, 0));
        assert_eq!(Answer::from_number(256 * 256 * 8 + 256 * u32::from(b'L') + 15), lowered(15, 8));
        assert_eq!(Answer::from_number(256 * u32::from(b'R') + 9), Answer::Refused(Refusal::Flow));
    }

    #[test]
    #[should_panic(expected = "libhost.a is of another version")]
    fn a_wrong_length_is_no_answer() {
        let _ = Answer::from_number(0);
    }

    #[test]
    fn a_refusal_ends_a_chain_of_calls() {
        assert_eq!(Answer::Lowered { level: 2, lost: 8 }.granted(), Ok(2));
        let error: Box<dyn Error> = Answer::Refused(Refusal::Flow).granted().unwrap_err().into();
        assert_eq!(
            error.to_string(),
            "data could reach a file of a higher level or with a shop mark that it lacks (refusal 9)"
        );
    }
}
