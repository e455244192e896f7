//! Lines that clerks type, each in place of a list of calls.

use crate::answer::Refusal;
use crate::archive::{self, LineOutcome};
use crate::lent::State;
use crate::monitor::Monitor;

/// How many calls of a line were allowed, lowered and refused, each modulo 2 to the 64th.
#[derive(Clone, Copy, Debug, Default, PartialEq, Eq, Hash)]
pub struct Counts {
    pub allowed: u64,
    pub lowered: u64,
    pub refused: u64,
}

impl Counts {
    /// The counts as the archive gives them, or the refusal of the line.
    fn from_outcome(outcome: LineOutcome) -> Result<Counts, Refusal> {
        let LineOutcome { allowed, lowered, refused, refusal } = outcome;
        match refusal {
            0 => Ok(Counts { allowed, lowered, refused }),
            archive::NOT_A_STATE => panic!("{}", archive::OTHER_VERSION),
            _ => Err(Refusal::proved(u32::try_from(refusal).unwrap_or(u32::MAX))),
        }
    }
}

/// A typed line.
impl Monitor {
    /// Makes the calls of a line, with the numbers of the subject that is the shell, of the first child and of the first
    /// pipe. It is refused as [`Refusal::LineBroken`] or [`Refusal::TooManyStages`], and then no call is made.
    ///
    /// A line is one pipeline or several, with `;` between each two. A pipeline is one to eight stages, with `|` between
    /// each two, which binds tighter. A stage is the number of a program; `<` and the number of what it reads may follow,
    /// and then `>` and the number of what it writes. These are numbers of objects, in decimal, without a zero in front.
    /// Spaces may stand before and behind each number and each sign, and no other byte is in a line.
    ///
    /// In each pipeline the children have the numbers from `child` on, and the pipes those from `pipe` on, modulo 2 to
    /// the 64th. The shell first makes the pipes, and reads pipe i, counted from 0, at place 2 i and writes it at 2 i + 1.
    /// Then, stage by stage, it forks a child, which closes in rising order the ends that it does not use, opens what it
    /// reads at place 14 and what it writes at place 15, and runs its program. Then the shell closes its ends in rising
    /// order, and the children exit, the first one first.
    ///
    /// All calls are made, whichever of them are refused: they are calls like any other. So handles that the shell already
    /// has at these places are closed, and where a child's number is in use, its fork is refused, and the subject that has
    /// that number closes, opens, runs and exits, be it the shell: a host chooses numbers that are free. One that would
    /// have all of a line or nothing types it on a clone, and goes on with that where none was refused. Which calls were
    /// refused is not told; a host that starts the programs makes the calls itself. A newline is no part of a line.
    ///
    /// ```
    /// use gatekeeper::{Counts, Monitor, Refusal};
    ///
    /// let mut monitor = Monitor::new();
    /// monitor.admit(0, 12, 3).granted()?; // the shell
    /// monitor.register(1, 9, 3).granted()?; // hours of shop groups 0 and 1 that were checked
    /// monitor.register(2, 9, 3).granted()?; // their pay book
    /// monitor.register(3, 9, 2).granted()?; // hours that were not checked for group 0
    /// monitor.register(20, 12, 3).granted()?; // a program that adds
    /// monitor.register(21, 12, 3).granted()?; // and one that books
    ///
    /// // Children from number 1 on, pipes from number 100 on.
    /// let counts = monitor.line(b"20 <1 | 21 >2", 0, 1, 100)?;
    /// assert_eq!(counts, Counts { allowed: 13, lowered: 0, refused: 0 });
    /// // The open of the pay book is refused, and the rest is done.
    /// let counts = monitor.line(b"20 <3 | 21 >2", 0, 1, 100)?;
    /// assert_eq!(counts, Counts { allowed: 12, lowered: 0, refused: 1 });
    ///
    /// assert_eq!(monitor.line(b"20 <1 |", 0, 1, 100), Err(Refusal::LineBroken));
    /// # Ok::<(), Refusal>(())
    /// ```
    pub fn line(&mut self, line: &[u8], shell: u64, child: u64, pipe: u64) -> Result<Counts, Refusal> {
        Counts::from_outcome(archive::line(&mut self.state, line, shell, child, pipe))
    }
}

/// A typed line.
impl State {
    /// Makes the calls of a line, as [`Monitor::line`] says, with the same outcome.
    ///
    /// ```
    /// use gatekeeper::{Call, Counts, Refusal, State};
    ///
    /// let mut state = State::new();
    /// state.call(Call::Admit { subject: 0, level: 12, shops: 255 }).granted()?; // the shell
    /// state.call(Call::Register { object: 20, level: 9, shops: 255 }).granted()?; // a program of level 9
    ///
    /// // A fork, an exec, by which the child falls to level 9, and an exit; and so once more.
    /// let counts = state.line(b"20; 20", 0, 1, 100)?;
    /// assert_eq!(counts, Counts { allowed: 4, lowered: 2, refused: 0 });
    /// # Ok::<(), Refusal>(())
    /// ```
    pub fn line(&mut self, line: &[u8], shell: u64, child: u64, pipe: u64) -> Result<Counts, Refusal> {
        Counts::from_outcome(archive::monitor_line(self, line, shell, child, pipe))
    }
}

#[cfg(test)]
mod tests {
    use super::*;

    fn outcome(counts: [u64; 3], refusal: u64) -> LineOutcome {
        let [allowed, lowered, refused] = counts;
        LineOutcome { allowed, lowered, refused, refusal }
    }

    #[test]
    fn counts_are_read_from_an_outcome() {
        let counts = Counts { allowed: 7, lowered: u64::MAX, refused: 9 };
        assert_eq!(Counts::from_outcome(outcome([7, u64::MAX, 9], 0)), Ok(counts));
        assert_eq!(Counts::from_outcome(outcome([0; 3], 18)), Err(Refusal::LineBroken));
        assert_eq!(Counts::from_outcome(outcome([0; 3], 19)), Err(Refusal::TooManyStages));
    }

    #[test]
    #[should_panic(expected = "libhost.a is of another version")]
    fn a_wrong_length_is_no_outcome() {
        let _ = Counts::from_outcome(outcome([0; 3], archive::NOT_A_STATE));
    }

    /// Bytes and struct are answered alike, and a refused line changes neither.
    #[test]
    fn a_refused_line_changes_nothing() {
        let (mut monitor, mut state) = (Monitor::new(), State::new());
        let run = [(b"1".as_slice(), Ok(Counts { refused: 3, ..Counts::default() }))];
        let refused = [
            (b"".as_slice(), Err(Refusal::LineBroken)),
            (b"1;", Err(Refusal::LineBroken)),
            (b"1|1|1|1|1|1|1|1|1", Err(Refusal::TooManyStages)),
            (b"1|1|1|1|1|1|1|1|1|", Err(Refusal::LineBroken)),
        ];
        for (line, expected) in run.into_iter().chain(refused) {
            assert_eq!(monitor.line(line, 0, 1, 2), expected, "{line:?}");
            assert_eq!(state.line(line, 0, 1, 2), expected, "{line:?}");
        }
        assert_eq!(monitor, Monitor::new());
        assert_eq!(state, State::new());
    }
}
