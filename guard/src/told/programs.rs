//! Programs that are run: which handles they get, and the exec itself.

use gatekeeper::{Call, Way, PLACES};

use super::Told;
use crate::proc::Held;
use crate::words::fail;

/// What a step would do to its handles at an exec.
#[derive(Clone, Debug, Default)]
pub struct Ends {
    /// Handles that the program is not to get.
    marks: Vec<u64>,
    /// Handles that the process no longer has.
    gone: Vec<u64>,
}

impl Told {
    /// Handles that are marked and that the program would get all the same have their mark taken off: each is opened at
    /// another place. False where there is no place for one.
    pub fn unmark(&mut self, step: u64, held: &[Held]) -> bool {
        for place in 0..PLACES {
            let Some(handle) = self.state.handle(step, place).filter(|handle| handle.marked) else {
                continue;
            };
            let object = handle.object;
            let writes = handle.way == Way::Writes;
            let stays = |held: &Held| !held.ends && self.is_of(held, object, writes);
            if held.iter().any(stays) && self.hold(step, object, writes).is_none() {
                let Some(free) = self.free_place(step) else { return false };
                let call = Told::open_call(step, object, free, writes);
                if self.make(call).granted().is_err() {
                    fail("a handle that is held cannot be opened again");
                }
            }
        }
        true
    }

    /// What an exec would end, by what the process holds.
    pub fn ends(&self, step: u64, held: &[Held]) -> Ends {
        let mut ends = Ends::default();
        for place in 0..PLACES {
            let Some(handle) = self.state.handle(step, place) else { continue };
            let writes = handle.way == Way::Writes;
            let mut own = held.iter().filter(|held| self.is_of(held, handle.object, writes)).peekable();
            if own.peek().is_none() {
                ends.gone.push(place);
            } else if !handle.marked && own.all(|held| held.ends) {
                ends.marks.push(place);
            }
        }
        ends
    }

    fn exec_calls(step: u64, files: &[u64], ends: &Ends) -> Vec<Call> {
        let gone = ends.gone.iter().map(|&place| Call::Close { subject: step, place });
        let marks = ends.marks.iter().map(|&place| Call::Mark { subject: step, place });
        let runs = files.iter().map(|&object| Call::Exec { subject: step, object });
        gone.chain(marks).chain(runs).collect()
    }

    /// Whether an exec of these files, a script and then its interpreter, would be granted; asked of a copy.
    pub fn would_exec(&self, step: u64, files: &[u64], ends: &Ends) -> bool {
        let mut copy = self.state.clone();
        Told::exec_calls(step, files, ends).into_iter().all(|call| copy.call(call).granted().is_ok())
    }

    /// The exec for real; where it is refused, the call that was.
    pub fn exec(&mut self, step: u64, files: &[u64], ends: &Ends) -> Result<(), Call> {
        for call in Told::exec_calls(step, files, ends) {
            if self.make(call).granted().is_err() {
                return Err(call);
            }
        }
        Ok(())
    }
}

#[cfg(test)]
mod tests {
    use super::super::tests::{at, held, told};

    #[test]
    fn marks_come_from_what_is_held() {
        let mut told = told();
        let (low, book) =
            (told.file((1, 1), at(2), b"/low").unwrap(), told.file((1, 2), at(9), b"/book").unwrap());
        told.open(0, book, false, true).unwrap();
        let stays = told.ends(0, &[held((1, 2), false, true, true), held((1, 2), false, true, false)]);
        assert!(!told.would_exec(0, &[low], &stays));
        let ends = told.ends(0, &[held((1, 2), false, true, true)]);
        assert!(told.would_exec(0, &[low], &ends));
        let gone = told.ends(0, &[]);
        assert!(told.would_exec(0, &[low], &gone));
        // A refused exec leaves a mark; where the descriptor stays, it is taken off.
        let other = told.file((1, 3), at(9), b"/other").unwrap();
        told.open(0, other, false, true).unwrap();
        let both = told.ends(0, &[held((1, 2), false, true, true), held((1, 3), false, true, false)]);
        assert!(told.exec(0, &[low], &both).is_err());
        assert!(told.hold(0, book, true).is_none());
        assert!(told.unmark(0, &[held((1, 2), false, true, false)]) && told.hold(0, book, true).is_some());
    }
}
