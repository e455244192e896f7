//! A typed line tried (RULES L1 to L16): each of its calls with its answer, stage by stage.
//!
//! What a line comes to is the archive's to say, which makes its calls by `State::line`. What is read here, and the
//! calls that are shown, are not proved; so they are held to the archive before anything is said. The verdict on the
//! line must be the same, and the calls, made one by one on a copy of the tables, must lead to the same counts, tables
//! and tally. Where they do not, [`Differs`] is all that is given.

pub mod calls;
pub mod reading;
pub mod taken;
mod telling;

use gatekeeper::{Answer, Counts, Refusal, State as Monitor};
use gk_advice::things::{PLACES, STEPS};

use crate::trial::Start;
use calls::{calls_of, Numbers};
use reading::{read, Fault, Pipeline};

/// What the archive says of a line, and this program with it.
#[derive(Clone, Debug, PartialEq, Eq)]
pub enum Verdict {
    /// Its calls were made.
    Made(Made),
    /// RULES R18, R19: no call is made.
    Refused(Fault),
}

/// A line whose calls come to what the archive makes of it.
#[derive(Clone, Debug, PartialEq, Eq)]
pub struct Made {
    pub pipelines: Vec<Pipeline>,
    pub numbers: Numbers,
    pub counts: Counts,
}

/// Said where the archive and this program differ on a line: a fault of this program.
#[derive(Clone, Copy, Debug, PartialEq, Eq)]
pub enum Differs {
    /// On whether it is one.
    Verdict,
    /// On what its calls come to.
    Calls,
}

/// Tries a line on copies of the tables: as a whole by the archive, and call by call.
pub fn verdict(start: &Start, line: &[u8], numbers: Numbers) -> Result<Verdict, Differs> {
    let mut whole = start.monitor.clone();
    let counts = whole.line(line, numbers.shell, numbers.child, numbers.pipe);
    held(&start.monitor, read(line), numbers, counts, &whole)
}

/// What was read, held to what the archive has answered and to the monitor that it has left.
fn held(
    before: &Monitor,
    reading: Result<Vec<Pipeline>, Fault>,
    numbers: Numbers,
    answer: Result<Counts, Refusal>,
    after: &Monitor,
) -> Result<Verdict, Differs> {
    match (reading, answer) {
        (Ok(pipelines), Ok(counts)) => {
            let made = Made { pipelines, numbers, counts };
            let (one_by_one, monitor) = made.again(before);
            match one_by_one == counts && holds_same(&monitor, after) {
                true => Ok(Verdict::Made(made)),
                false => Err(Differs::Calls),
            }
        }
        (Err(fault), Err(refusal)) if fault.refusal == refusal => match holds_same(before, after) {
            true => Ok(Verdict::Refused(fault)),
            false => Err(Differs::Calls),
        },
        _ => Err(Differs::Verdict),
    }
}

impl Made {
    /// Makes the calls one by one: how they came out, and the monitor after them.
    fn again(&self, before: &Monitor) -> (Counts, Monitor) {
        let (mut counts, mut monitor) = (Counts::default(), before.clone());
        let Counts { allowed, lowered, refused } = &mut counts;
        for (_, call) in self.pipelines.iter().flat_map(|pipeline| calls_of(&pipeline.stages, self.numbers))
        {
            let count = match monitor.call(call) {
                Answer::Allowed(_) => &mut *allowed,
                Answer::Lowered { .. } => &mut *lowered,
                Answer::Refused(_) => &mut *refused,
            };
            *count = count.wrapping_add(1);
        }
        (counts, monitor)
    }
}

/// Whether two monitors hold the same: tables, groups, needs, freeze and tally. What stands where nothing is live is left
/// out.
fn holds_same(one: &Monitor, other: &Monitor) -> bool {
    let counts = |monitor: &Monitor| (monitor.made(), monitor.gone(), monitor.frozen_from());
    let step = |monitor: &Monitor, s: u64| {
        let handles: Vec<_> = (0..PLACES).map(|p| monitor.handle(s, p)).collect();
        (monitor.subject(s), monitor.need_of_subject(s), monitor.group(s), handles)
    };
    let objects = |monitor: &Monitor| -> Vec<_> {
        monitor.objects().map(|(o, object)| (o, object, monitor.need_of_object(o))).collect()
    };
    counts(one) == counts(other)
        && objects(one) == objects(other)
        && (0..STEPS).all(|s| step(one, s) == step(other, s))
}

#[cfg(test)]
mod tests {
    use super::*;
    use crate::assembly::assemble;
    use gatekeeper::Call;

    const NUMBERS: Numbers = Numbers { shell: 0, child: 1, pipe: 10 };

    fn start() -> Start {
        let text = b"register 0 9 all\nregister 1 2 all\nregister 3 15 all\nadmit 0 12 all\n";
        Start::after(&assemble(text).unwrap().journal).unwrap()
    }

    /// What the archive answers to a line, and the monitor that it leaves.
    fn answered(line: &[u8]) -> (Result<Counts, Refusal>, Monitor) {
        let mut monitor = start().monitor;
        let answer = monitor.line(line, NUMBERS.shell, NUMBERS.child, NUMBERS.pipe);
        (answer, monitor)
    }

    #[test]
    fn what_differs_from_the_archive_is_not_given() {
        let before = start().monitor;
        let line = b"3 < 1 | 3 > 0";
        let (answer, after) = answered(line);
        let hold = |reading, answer, after: &Monitor| held(&before, reading, NUMBERS, answer, after);
        let made = hold(read(line), answer, &after).unwrap();
        assert_eq!(Ok(made), verdict(&start(), line, NUMBERS));

        // Another verdict, whichever of the two has it.
        for other in [&b"3 |"[..], b"3|3|3|3|3|3|3|3|3"] {
            let (refused, same) = answered(other);
            assert_eq!(hold(read(line), refused, &same), Err(Differs::Verdict));
            assert_eq!(hold(read(other), answer, &after), Err(Differs::Verdict));
            assert!(matches!(hold(read(other), refused, &same), Ok(Verdict::Refused(_))));
            assert_eq!(hold(read(other), refused, &after), Err(Differs::Calls));
        }
        let (broken, same) = answered(b"3 |");
        assert_eq!(hold(read(b"3|3|3|3|3|3|3|3|3"), broken, &same), Err(Differs::Verdict));

        // Other counts, and another monitor with the same counts.
        let counts = answer.unwrap();
        for other in [
            Counts { allowed: counts.allowed + 1, ..counts },
            Counts { lowered: 1, ..counts },
            Counts { refused: 0, ..counts },
        ] {
            assert_eq!(hold(read(line), Ok(other), &after), Err(Differs::Calls));
        }
        assert_eq!(hold(read(line), answer, &before), Err(Differs::Calls));
        assert_eq!(hold(read(b"3 < 1 | 3 > 1"), answer, &after), Err(Differs::Calls));
    }

    #[test]
    fn monitors_that_hold_the_same_are_known() {
        let one = start().monitor;
        for call in [
            Call::Admit { subject: 5, level: 1, shops: 255 },
            Call::Register { object: 9, level: 1, shops: 255 },
            Call::Freeze { level: 3 },
            Call::OpenRead { subject: 0, object: 3, place: 2 },
            Call::Pipe { subject: 0, object: 9, reads: 0, writes: 1 },
            Call::Thread { subject: 0, member: 5 },
        ] {
            let mut other = one.clone();
            assert!(other.call(call).granted().is_ok());
            assert!(!holds_same(&one, &other) && holds_same(&other, &other.clone()), "{call:?}");
        }
        // A handle made and gone is seen in the tally alone.
        let mut other = one.clone();
        assert!(other.call(Call::OpenRead { subject: 0, object: 3, place: 2 }).granted().is_ok());
        assert!(other.call(Call::Close { subject: 0, place: 2 }).granted().is_ok());
        assert!(!holds_same(&one, &other));
        // A step by itself and a thread differ in their group alone.
        let [thread, alone] =
            [Call::Thread { subject: 0, member: 5 }, Call::Admit { subject: 5, level: 12, shops: 255 }]
                .map(|call| {
                    let mut other = one.clone();
                    assert!(other.call(call).granted().is_ok());
                    other
                });
        assert!(!holds_same(&thread, &alone));
    }
}
