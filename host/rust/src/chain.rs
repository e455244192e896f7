//! The chain behind a refusal 9.

use crate::archive::{self, LentChain};
use crate::call::Call;
use crate::lent::State;
use crate::look::PLACES;
use crate::monitor::Monitor;

/// How many steps a chain has at most.
pub const STEPS: usize = 95;

/// What stands at the front of a chain, by its number.
#[derive(Clone, Copy, Debug, PartialEq, Eq, Hash)]
pub enum Front {
    Subject(u64),
    Object(u64),
}

/// A step of a chain: the handle at a place of a subject, which is open or which the call asks for.
#[derive(Clone, Copy, Debug, PartialEq, Eq, Hash)]
pub struct Step {
    pub subject: u64,
    pub place: u64,
}

/// How what something live holds could get into a file whose label its own is not at least, had a call been let through
/// that is refused as [`Refusal::Flow`](crate::Refusal::Flow).
///
/// By a reading handle, or a mapping, data flows from its object to its subject, and by a writing handle from its subject
/// to its object. The first step takes from the front, each later one from what the one before it leads to, and the last
/// one leads into the file; for this the members of a group are one. Behind an exec the front is the program, and the
/// first step takes from the subject that runs it.
///
/// Had the call been let through, then a [`Call::Read`] on each reading handle and a [`Call::Write`] on each writing one,
/// in the order of the steps, would not be refused, and would carry what the front holds into the file. No such chain
/// behind the call has fewer steps. It has 1 to [`STEPS`] of them, behind an exec one fewer at most.
#[derive(Clone, Debug, PartialEq, Eq, Hash)]
pub struct Chain {
    pub front: Front,
    /// The number of the file at the end.
    pub file: u64,
    pub steps: Vec<Step>,
}

impl Chain {
    /// The chain that the archive has written over a lent one, with the count that it gave; none where that is 0.
    fn from_lent(lent: &LentChain, count: u32) -> Option<Chain> {
        let count = usize::try_from(count).ok().filter(|&count| count > 0)?;
        let front = match lent.kind {
            archive::FRONT_SUBJECT => Front::Subject(lent.low),
            _ => Front::Object(lent.low),
        };
        let step =
            |&step: &u16| Step { subject: u64::from(step) / PLACES, place: u64::from(step) % PLACES };
        Some(Chain { front, file: lent.high, steps: lent.steps.iter().take(count).map(step).collect() })
    }
}

/// Why a call is refused as [`Refusal::Flow`](crate::Refusal::Flow). No call is made.
impl Monitor {
    /// The chain behind that refusal; none where the call would not be so refused now. On a monitor that started empty
    /// every such refusal has one.
    ///
    /// ```
    /// use gatekeeper::{Answer, Call, Chain, Front, Monitor, Refusal, Step};
    ///
    /// let mut monitor = Monitor::new();
    /// monitor.admit(0, 9, 255).granted()?; // a step of level 9
    /// monitor.register(7, 9, 255).granted()?; // the pay book of March
    /// monitor.register(1, 2, 255).granted()?; // an hours sheet that nobody has checked
    /// monitor.open_write(0, 7, 0).granted()?;
    ///
    /// let call = Call::OpenRead { subject: 0, object: 1, place: 1 };
    /// assert_eq!(monitor.call(call), Answer::Refused(Refusal::Flow));
    /// // The sheet could be read at place 1, and what it says written into the pay book at place 0.
    /// let steps = vec![Step { subject: 0, place: 1 }, Step { subject: 0, place: 0 }];
    /// assert_eq!(monitor.why(call), Some(Chain { front: Front::Object(1), file: 7, steps }));
    ///
    /// // Without the first handle there is nothing to tell.
    /// monitor.close(0, 0).granted()?;
    /// assert_eq!(monitor.why(call), None);
    /// # Ok::<(), Refusal>(())
    /// ```
    pub fn why(&self, call: Call) -> Option<Chain> {
        self.why_direct(call.code(), call.numbers())
    }

    /// The same of the call with this code, whatever it is.
    pub fn why_direct(&self, code: u64, numbers: [u64; 6]) -> Option<Chain> {
        let mut lent = LentChain::NONE;
        let count = archive::why(&self.state, code, numbers, &mut lent);
        Chain::from_lent(&lent, count)
    }
}

/// Why a call is refused as [`Refusal::Flow`](crate::Refusal::Flow). No call is made.
impl State {
    /// The chain behind that refusal, as [`Monitor::why`] says.
    ///
    /// ```
    /// use gatekeeper::{Call, Front, Refusal, State};
    ///
    /// let mut state = State::new();
    /// state.call(Call::Admit { subject: 0, level: 9, shops: 1 }).granted()?; // vouched for by shop group 0
    /// state.call(Call::Register { object: 7, level: 9, shops: 3 }).granted()?; // a book of groups 0 and 1
    ///
    /// let call = Call::OpenWrite { subject: 0, object: 7, place: 0 };
    /// let chain = state.why(call).expect("the step lacks the mark of group 1");
    /// assert_eq!((chain.front, chain.file, chain.steps.len()), (Front::Subject(0), 7, 1));
    /// # Ok::<(), Refusal>(())
    /// ```
    pub fn why(&self, call: Call) -> Option<Chain> {
        self.why_direct(call.code(), call.numbers())
    }

    /// The same of the call with this code, whatever it is.
    pub fn why_direct(&self, code: u64, numbers: [u64; 6]) -> Option<Chain> {
        let mut lent = LentChain::NONE;
        let count = archive::monitor_why(self, code, numbers, &mut lent);
        Chain::from_lent(&lent, count)
    }
}

#[cfg(test)]
mod tests {
    use super::*;

    fn lent(kind: u8) -> LentChain {
        let mut lent = LentChain { low: 3, high: u64::MAX, kind, count: 2, ..LentChain::NONE };
        lent.steps[..3].copy_from_slice(&[511, 16, 7]);
        lent
    }

    #[test]
    fn a_chain_is_read_from_a_lent_one() {
        let steps = vec![Step { subject: 31, place: 15 }, Step { subject: 1, place: 0 }];
        let expected = |front| Some(Chain { front, file: u64::MAX, steps: steps.clone() });
        assert_eq!(Chain::from_lent(&lent(1), 2), expected(Front::Subject(3)));
        assert_eq!(Chain::from_lent(&lent(2), 2), expected(Front::Object(3)));
        assert_eq!(Chain::from_lent(&lent(2), 0), None);
    }

    /// On bytes and on the struct: nothing is told of a call that is not refused with 9, and what is lent stays.
    #[test]
    fn where_there_is_nothing_to_tell_nothing_is_touched() {
        let (mut monitor, mut state) = (Monitor::new(), State::new());
        for call in [
            Call::Admit { subject: 0, level: 9, shops: 255 },
            Call::Register { object: 7, level: 9, shops: 255 },
            Call::Register { object: 1, level: 2, shops: 255 },
            Call::OpenWrite { subject: 0, object: 7, place: 0 },
        ] {
            assert_eq!(monitor.call(call), state.call(call));
        }
        // Refused with 9, with 2, with 7 and with 1; and allowed.
        let calls = [
            (5, [0, 1, 1, 0, 0, 0], 2),
            (5, [1, 1, 1, 0, 0, 0], 0),
            (5, [0, 1, 0, 0, 0, 0], 0),
            (19, [0, 1, 1, 0, 0, 0], 0),
            (5, [0, 7, 1, 0, 0, 0], 0),
        ];
        for (code, numbers, count) in calls {
            let (mut one, mut other) = (lent(77), lent(77));
            assert_eq!(archive::why(monitor.as_bytes(), code, numbers, &mut one), count);
            assert_eq!(archive::monitor_why(&state, code, numbers, &mut other), count);
            assert_eq!(one, other);
            assert_eq!(one == lent(77), count == 0);
        }
    }
}
