//! The chain behind a refusal 9: how a thing of an insufficient label could reach a file if the call were let through. Its
//! level may be too low, or it may lack shop marks that the file has ([`Lack`]).
//!
//! The chain is the archive's own ([`State::why_direct`]), and PROVED (RULES A1 to A13): had the call been let through, the
//! reads and writes on its handles would have carried what the thing holds into the file, none of them would have been
//! refused, and no chain has fewer handles. What is made here are its links, one for each thing that it goes through. An
//! open which offends the freeze as well is refused with 15 (RULES R117); its chain is asked of a copy whose freeze is
//! lifted. `gk explain`, the duty screen, `gk trace` and the guard all show what [`behind`] and [`chain_of`] give.
//!
//! ```
//! use gatekeeper::{Answer, Call, Monitor, Refusal, State};
//! use gk_chain::{behind, By, Thing};
//!
//! let mut monitor = Monitor::new();
//! monitor.admit(0, 9, 255).granted()?; // a step of level 9, with all shop marks
//! monitor.register(0, 9, 255).granted()?; // the pay book
//! monitor.register(1, 2, 255).granted()?; // an hours sheet
//! monitor.open_write(0, 0, 0).granted()?;
//!
//! let call = Call::OpenRead { subject: 0, object: 1, place: 1 };
//! assert_eq!(monitor.call(call), Answer::Refused(Refusal::Flow));
//! let chain = behind(&State::from(&monitor), call.code(), call.numbers());
//! let things: Vec<Thing> = chain.iter().map(|link| link.thing).collect();
//! assert_eq!(things, [Thing::Object(1), Thing::Step(0), Thing::Object(0)]);
//! // The step reads the sheet at the place that it asks for, and writes the book at place 0.
//! assert_eq!(chain[1].by, By::Handle { step: 0, place: 1 });
//! assert_eq!(chain[2].by, By::Handle { step: 0, place: 0 });
//! # Ok::<(), Refusal>(())
//! ```

mod thing;

use gatekeeper::{Answer, Call, Chain, Front, Kind, Label, Refusal, State, Step, NO_FREEZE};

pub use thing::{flow, mates, shared, Thing, Things};

/// The codes of the calls that add a flow.
const OPEN_READ: u64 = 5;
const OPEN_WRITE: u64 = 6;
const EXEC: u64 = 10;
const MAP: u64 = 14;
const CONNECT: u64 = 17;

/// A thing of a chain.
#[derive(Clone, Copy, Debug, PartialEq, Eq)]
pub struct Link {
    pub thing: Thing,
    /// What it is where it is no step; a pipe that a connect would make is one, too.
    pub kind: Option<Kind>,
    pub label: Label,
    pub by: By,
}

/// How what the thing before it in a chain holds comes to a thing.
#[derive(Clone, Copy, Debug, PartialEq, Eq)]
pub enum By {
    /// It does not: the thing is at the front.
    Front,
    /// Through this step's handle at this place, which is open or sought by the call: where the thing is that step, it
    /// reads, else it writes.
    Handle { step: u64, place: u64 },
    /// The step runs it: the call is an exec.
    Run,
    /// They are threads of one step: what one of them has, the other has, too (RULES F22).
    Shared,
}

/// What a label lacks for another: the level, shop marks, or both; nothing where it is at least the other.
#[derive(Clone, Copy, Debug, PartialEq, Eq)]
pub struct Lack {
    pub level: bool,
    /// The set of the shop marks that are missing.
    pub shops: u8,
}

impl Lack {
    pub fn of(label: Label, wanted: Label) -> Lack {
        Lack { level: label.level < wanted.level, shops: wanted.shops & !label.shops }
    }

    /// What the thing at the front of a chain lacks for the file at its end.
    pub fn behind(chain: &[Link]) -> Option<Lack> {
        Some(Lack::of(chain.first()?.label, chain.last()?.label))
    }

    pub fn is_nothing(self) -> bool {
        !self.level && self.shops == 0
    }
}

/// The flows that a call would add; none for a call that adds none.
pub fn sought(code: u64, numbers: [u64; 6]) -> Vec<(Thing, Thing)> {
    let [s, other, to, from, ..] = numbers;
    let (step, object) = (Thing::Step(s), Thing::Object(other));
    match code {
        // Running a file is a flow from it to the step.
        OPEN_READ | MAP | EXEC => vec![(object, step)],
        OPEN_WRITE => vec![(step, object)],
        CONNECT => {
            let (peer, to, from) = (Thing::Step(other), Thing::Object(to), Thing::Object(from));
            vec![(step, to), (to, peer), (peer, from), (from, step)]
        }
        _ => Vec::new(),
    }
}

/// Whether a call that is refused with 15 would be refused with 9 once the books are open: of the two, the freeze is
/// said (RULES R117). It is asked of a copy of the monitor, and so the proved answer.
pub fn is_nine_once_open(monitor: &State, code: u64, numbers: [u64; 6]) -> bool {
    open_books(monitor).is_some_and(|mut open| open.direct(code, numbers) == Answer::Refused(Refusal::Flow))
}

/// The chain that is told of a refusal, in the monitor before the call: at a 9 the one behind it, at a 15 the one behind
/// the 9 that comes once the books are open, where it does. Other refusals have none.
pub fn chain_of(monitor: &State, refusal: Refusal, code: u64, numbers: [u64; 6]) -> Vec<Link> {
    match refusal {
        Refusal::Flow => behind(monitor, code, numbers),
        Refusal::Frozen => open_books(monitor).map_or(Vec::new(), |open| behind(&open, code, numbers)),
        _ => Vec::new(),
    }
}

/// A copy with no freeze.
fn open_books(monitor: &State) -> Option<State> {
    let mut open = monitor.clone();
    open.call(Call::Freeze { level: NO_FREEZE }).granted().ok()?;
    Some(open)
}

/// The chain behind a call that is refused with 9, in the monitor before the call, from a thing to a file that its label is
/// not at least the label of. It is empty where the call is not refused with 9.
///
/// It is the archive's, and has the fewest handles. Of several with as few it is the one from the lowest thing: steps
/// come first, by number, then files and pipes by the slots in which they stand; and at each thing it takes the lowest
/// place that leads nearer, those of step 0 first (RULES A13). It starts at a thing that is there. That of an exec starts at
/// the program file, and goes to the step that runs it.
pub fn behind(monitor: &State, code: u64, numbers: [u64; 6]) -> Vec<Link> {
    let chain = monitor.why_direct(code, numbers);
    chain.and_then(|chain| links(&chain, monitor, code, numbers)).unwrap_or_default()
}

/// The things that a chain goes through; none where one of its places holds nothing, and nothing is sought there.
fn links(chain: &Chain, monitor: &State, code: u64, numbers: [u64; 6]) -> Option<Vec<Link>> {
    let front = match chain.front {
        Front::Subject(s) => Thing::Step(s),
        Front::Object(o) => Thing::Object(o),
    };
    let link = |thing, by| link(monitor, code, numbers, thing, by);
    let mut links = vec![link(front, By::Front)?];
    if code == EXEC {
        links.push(link(Thing::Step(numbers[0]), By::Run)?);
    }
    for &Step { subject: step, place } in &chain.steps {
        let open = monitor.handle(step, place).map(|handle| flow(step, handle));
        let (from, to) = open.or_else(|| sought_at(code, numbers, step, place))?;
        if links.last()?.thing != from {
            links.push(link(from, By::Shared)?);
        }
        links.push(link(to, By::Handle { step, place })?);
    }
    Some(links)
}

/// The flow that a call would add at a place; none where it would add none there.
fn sought_at(code: u64, numbers: [u64; 6], step: u64, place: u64) -> Option<(Thing, Thing)> {
    let [s, other, third, _, reading, writing] = numbers;
    let places = match code {
        // In the order of `sought`.
        OPEN_READ | OPEN_WRITE | MAP => vec![(s, third)],
        CONNECT => vec![(s, writing), (other, reading), (other, writing), (s, reading)],
        _ => Vec::new(),
    };
    let at = places.iter().position(|&at| at == (step, place))?;
    sought(code, numbers).get(at).copied()
}

/// A thing as it is before the call; a pipe that a connect would make has its writer's label (RULES C17). None where it is
/// not there.
fn link(monitor: &State, code: u64, numbers: [u64; 6], thing: Thing, by: By) -> Option<Link> {
    let [s, peer, to, from, ..] = numbers;
    let (kind, label) = match thing {
        Thing::Step(s) => (None, monitor.subject(s)?),
        Thing::Object(o) if code == CONNECT && o == to => (Some(Kind::Pipe), monitor.subject(s)?),
        Thing::Object(o) if code == CONNECT && o == from => (Some(Kind::Pipe), monitor.subject(peer)?),
        Thing::Object(o) => monitor.object(o).map(|object| (Some(object.kind), object.label))?,
    };
    Some(Link { thing, kind, label, by })
}

#[cfg(test)]
mod tests {
    use super::*;
    use gatekeeper::Monitor;
    use Thing::{Object, Step};

    fn found(monitor: &mut Monitor, code: u64, numbers: [u64; 6]) -> Vec<(Thing, u8)> {
        let chain = behind(&State::from(&*monitor), code, numbers);
        assert_eq!(monitor.direct(code, numbers), Answer::Refused(Refusal::Flow));
        chain.iter().map(|link| (link.thing, link.label.level)).collect()
    }

    /// Step 0 of level 9 writes file 0 of level 9; file 1 has level 2.
    fn book() -> Result<Monitor, Refusal> {
        let mut monitor = Monitor::new();
        monitor.admit(0, 9, 255).granted()?;
        monitor.register(0, 9, 255).granted()?;
        monitor.register(1, 2, 255).granted()?;
        monitor.open_write(0, 0, 0).granted()?;
        Ok(monitor)
    }

    #[test]
    fn the_chain_of_each_call() -> Result<(), Refusal> {
        let mut monitor = book()?;
        let up = [(Object(1), 2), (Step(0), 9), (Object(0), 9)];
        assert_eq!(found(&mut monitor, OPEN_READ, [0, 1, 1, 0, 0, 0]), up);
        assert_eq!(found(&mut monitor, MAP, [0, 1, 1, 0, 0, 0]), up);
        assert_eq!(found(&mut monitor, EXEC, [0, 1, 0, 0, 0, 0]), up);

        monitor.admit(1, 5, 255).granted()?;
        assert_eq!(found(&mut monitor, OPEN_WRITE, [1, 0, 0, 0, 0, 0]), [(Step(1), 5), (Object(0), 9)]);
        let channel = found(&mut monitor, CONNECT, [0, 1, 5, 6, 1, 2]);
        assert_eq!(channel, [(Step(1), 5), (Object(6), 5), (Step(0), 9), (Object(0), 9)]);
        Ok(())
    }

    /// RULES R117: a 15 has the chain of the 9 behind it, and none where there is no 9.
    #[test]
    fn a_fifteen_has_the_chain_of_the_nine_behind_it() -> Result<(), Refusal> {
        let mut monitor = book()?;
        monitor.admit(1, 5, 255).granted()?;
        monitor.freeze(9).granted()?;
        let (own, low) = ([0, 0, 1, 0, 0, 0], [1, 0, 0, 0, 0, 0]);
        for numbers in [own, low] {
            assert_eq!(monitor.direct(OPEN_WRITE, numbers), Answer::Refused(Refusal::Frozen));
        }
        let things = |numbers| -> Vec<Thing> {
            let chain = chain_of(&State::from(&monitor), Refusal::Frozen, OPEN_WRITE, numbers);
            chain.iter().map(|link| link.thing).collect()
        };
        assert_eq!(things(own), []);
        assert_eq!(things(low), [Step(1), Object(0)]);
        // It is the chain that the 9 has then.
        let mut open = monitor.clone();
        open.freeze(NO_FREEZE).granted()?;
        let then = chain_of(&State::from(&open), Refusal::Flow, OPEN_WRITE, low);
        assert_eq!(chain_of(&State::from(&monitor), Refusal::Frozen, OPEN_WRITE, low), then);
        assert_eq!(open.direct(OPEN_WRITE, low), Answer::Refused(Refusal::Flow));
        // A refusal that says something else has none.
        assert!(chain_of(&State::from(&monitor), Refusal::PlaceUnfit, OPEN_WRITE, low).is_empty());
        Ok(())
    }

    /// What brings each thing of a chain what the one before it has.
    #[test]
    fn each_link_has_its_place() -> Result<(), Refusal> {
        let mut monitor = book()?;
        let by = |monitor: &Monitor, code, numbers| -> Vec<By> {
            behind(&State::from(monitor), code, numbers).iter().map(|link| link.by).collect()
        };
        let at = |step, place| By::Handle { step, place };
        assert_eq!(by(&monitor, OPEN_READ, [0, 1, 7, 0, 0, 0]), [By::Front, at(0, 7), at(0, 0)]);
        assert_eq!(by(&monitor, MAP, [0, 1, 7, 0, 0, 0]), [By::Front, at(0, 7), at(0, 0)]);
        assert_eq!(by(&monitor, EXEC, [0, 1, 0, 0, 0, 0]), [By::Front, By::Run, at(0, 0)]);
        monitor.thread(0, 3).granted()?;
        assert_eq!(
            by(&monitor, OPEN_READ, [3, 1, 7, 0, 0, 0]),
            [By::Front, at(3, 7), By::Shared, at(0, 0)]
        );
        // Step 1 writes the pipe at place 2, and step 0 reads it at place 1, whoever of them asks.
        monitor.admit(1, 5, 255).granted()?;
        assert_eq!(by(&monitor, OPEN_WRITE, [1, 0, 4, 0, 0, 0]), [By::Front, at(1, 4)]);
        assert_eq!(by(&monitor, CONNECT, [0, 1, 5, 6, 1, 2]), [By::Front, at(1, 2), at(0, 1), at(0, 0)]);
        assert_eq!(by(&monitor, CONNECT, [1, 0, 5, 6, 1, 2]), [By::Front, at(1, 2), at(0, 1), at(0, 0)]);
        // A thread that holds nothing is the front of no chain: the one is that has the handle.
        monitor.thread(1, 2).granted()?;
        assert_eq!(found(&mut monitor, OPEN_WRITE, [2, 0, 4, 0, 0, 0]), [(Step(2), 5), (Object(0), 9)]);
        Ok(())
    }

    #[test]
    fn each_link_has_its_kind() -> Result<(), Refusal> {
        let mut monitor = book()?;
        monitor.admit(1, 5, 255).granted()?;
        let chain = behind(&State::from(&monitor), CONNECT, [0, 1, 5, 6, 1, 2]);
        let kinds: Vec<Option<Kind>> = chain.iter().map(|link| link.kind).collect();
        assert_eq!(kinds, [None, Some(Kind::Pipe), None, Some(Kind::File)]);
        Ok(())
    }

    #[test]
    fn what_an_exec_leaves_out_is_in_no_chain() -> Result<(), Refusal> {
        let mut monitor = book()?;
        monitor.open_write(0, 0, 3).granted()?;
        monitor.mark(0, 0).granted()?;
        assert_eq!(found(&mut monitor, EXEC, [0, 1, 0, 0, 0, 0]).len(), 3);
        monitor.mark(0, 3).granted()?;
        assert!(behind(&State::from(&monitor), EXEC, [0, 1, 0, 0, 0, 0]).is_empty());
        assert_eq!(monitor.exec(0, 1), Answer::Lowered { level: 2, lost: 0 });
        Ok(())
    }

    #[test]
    fn an_exec_starts_at_the_file_alone() -> Result<(), Refusal> {
        let mut monitor = book()?;
        // Step 1 writes the file that is run; an exec does not ask who does.
        monitor.admit(1, 2, 255).granted()?;
        monitor.open_write(1, 1, 0).granted()?;
        let up = [(Object(1), 2), (Step(0), 9), (Object(0), 9)];
        assert_eq!(found(&mut monitor, EXEC, [0, 1, 0, 0, 0, 0]), up);
        Ok(())
    }

    /// RULES F22: what comes to one thread comes to the others.
    #[test]
    fn a_chain_goes_from_thread_to_thread() -> Result<(), Refusal> {
        let mut monitor = book()?;
        monitor.thread(0, 3).granted()?;
        monitor.thread(3, 2).granted()?;
        let up = [(Object(1), 2), (Step(2), 9), (Step(0), 9), (Object(0), 9)];
        assert_eq!(found(&mut monitor, OPEN_READ, [2, 1, 1, 0, 0, 0]), up);
        assert_eq!(found(&mut monitor, MAP, [2, 1, 1, 0, 0, 0]), up);
        // The other way round: a mate has the sheet open.
        monitor.close(0, 0).granted()?;
        monitor.open_read(3, 1, 1).granted()?;
        let up = [(Object(1), 2), (Step(3), 9), (Step(2), 9), (Object(0), 9)];
        assert_eq!(found(&mut monitor, OPEN_WRITE, [2, 0, 1, 0, 0, 0]), up);
        // A step that one of them has forked is by itself.
        monitor.fork(0, 4).granted()?;
        assert!(behind(&State::from(&monitor), OPEN_WRITE, [4, 0, 1, 0, 0, 0]).is_empty());
        assert_eq!(monitor.open_write(4, 0, 1), Answer::Allowed(9));
        Ok(())
    }

    /// RULES R110: the mates end with the exec, and their handles.
    #[test]
    fn what_the_mates_hold_is_in_no_chain_of_an_exec() -> Result<(), Refusal> {
        let mut monitor = book()?;
        monitor.thread(0, 3).granted()?;
        monitor.thread(0, 2).granted()?;
        let up = [(Object(1), 2), (Step(0), 9), (Object(0), 9)];
        assert_eq!(found(&mut monitor, EXEC, [0, 1, 0, 0, 0, 0]), up);
        assert!(behind(&State::from(&monitor), EXEC, [2, 1, 0, 0, 0, 0]).is_empty());
        // Threads of another step are a way like any other.
        monitor.pipe(2, 8, 0, 1).granted()?;
        monitor.close(2, 0).granted()?;
        monitor.admit(5, 9, 255).granted()?;
        monitor.thread(5, 6).granted()?;
        monitor.open_read(5, 8, 0).granted()?;
        monitor.open_write(6, 0, 0).granted()?;
        let up = [(Object(1), 2), (Step(2), 9), (Object(8), 9), (Step(5), 9), (Step(6), 9), (Object(0), 9)];
        assert_eq!(found(&mut monitor, EXEC, [2, 1, 0, 0, 0, 0]), up);
        monitor.close(6, 0).granted()?;
        assert_eq!(monitor.exec(2, 1), Answer::Lowered { level: 2, lost: 0 });
        Ok(())
    }

    /// RULES A13: of several as short the one from the lowest number, whatever its label, and by the lowest place.
    #[test]
    fn of_several_as_short_the_one_from_the_lowest_by_the_lowest_places() -> Result<(), Refusal> {
        let mut monitor = Monitor::new();
        for (step, level) in [(0, 9), (1, 6), (2, 4), (3, 4), (4, 12)] {
            monitor.admit(step, level, 255).granted()?;
        }
        monitor.register(0, 9, 255).granted()?;
        monitor.register(1, 9, 255).granted()?;
        monitor.pipe(4, 8, 0, 1).granted()?;
        monitor.close(4, 0).granted()?;
        for step in [3, 2, 1] {
            monitor.open_write(step, 8, 0).granted()?;
        }
        monitor.open_write(0, 1, 5).granted()?;
        monitor.open_write(0, 0, 6).granted()?;
        // Steps 1, 2 and 3 are too low. Of the two files of step 0, that at the lower place.
        let up = [(Step(1), 6), (Object(8), 12), (Step(0), 9), (Object(1), 9)];
        assert_eq!(found(&mut monitor, OPEN_READ, [0, 8, 1, 0, 0, 0]), up);
        // A file comes after all steps, however low.
        monitor.close(1, 0).granted()?;
        monitor.register(2, 0, 255).granted()?;
        monitor.open_read(4, 2, 9).granted()?;
        let up = [(Step(2), 4), (Object(8), 12), (Step(0), 9), (Object(1), 9)];
        assert_eq!(found(&mut monitor, OPEN_READ, [0, 8, 1, 0, 0, 0]), up);
        Ok(())
    }

    /// RULES A13: files and pipes come in the order of their slots. 65 stands in slot 1, and 2 in slot 2.
    #[test]
    fn of_several_files_the_one_in_the_lowest_slot() -> Result<(), Refusal> {
        let mut monitor = Monitor::new();
        for step in [0, 1] {
            monitor.admit(step, 9, 255).granted()?;
        }
        monitor.register(0, 9, 255).granted()?;
        monitor.pipe(1, 8, 0, 1).granted()?;
        monitor.close(1, 0).granted()?;
        for (file, place) in [(2, 3), (65, 4)] {
            monitor.register(file, 2, 255).granted()?;
            monitor.open_read(1, file, place).granted()?;
        }
        monitor.open_write(0, 0, 6).granted()?;
        let up = [(Object(65), 2), (Step(1), 9), (Object(8), 9), (Step(0), 9), (Object(0), 9)];
        assert_eq!(found(&mut monitor, OPEN_READ, [0, 8, 1, 0, 0, 0]), up);
        Ok(())
    }

    #[test]
    fn numbers_that_nothing_has_are_no_chain() {
        let monitor = Monitor::new();
        for code in 0..20 {
            assert!(behind(&State::from(&monitor), code, [u64::MAX; 6]).is_empty());
            assert!(behind(&State::from(&monitor), code, [64; 6]).is_empty());
        }
    }

    #[test]
    fn a_chain_has_any_numbers() -> Result<(), Refusal> {
        let mut monitor = Monitor::new();
        let (book, sheet) = (u64::MAX, 1 << 40);
        monitor.admit(0, 9, 255).granted()?;
        monitor.register(book, 9, 255).granted()?;
        monitor.register(sheet, 2, 255).granted()?;
        monitor.open_write(0, book, 0).granted()?;
        let up = [(Object(sheet), 2), (Step(0), 9), (Object(book), 9)];
        assert_eq!(found(&mut monitor, OPEN_READ, [0, sheet, 1, 0, 0, 0]), up);
        Ok(())
    }

    /// A chain may start at a thing whose level is high enough: it lacks a shop mark.
    #[test]
    fn a_chain_goes_by_labels() -> Result<(), Refusal> {
        let mut monitor = Monitor::new();
        monitor.admit(0, 9, 0b011).granted()?;
        monitor.register(0, 9, 0b001).granted()?;
        monitor.register(1, 15, 0b110).granted()?;
        monitor.register(2, 2, 0b001).granted()?;
        monitor.register(3, 2, 0b000).granted()?;
        monitor.open_write(0, 0, 0).granted()?;
        for (sheet, lack) in [
            (1, Lack { level: false, shops: 1 }),
            (2, Lack { level: true, shops: 0 }),
            (3, Lack { level: true, shops: 1 }),
        ] {
            let numbers = [0, sheet, 1, 0, 0, 0];
            let chain = behind(&State::from(&monitor), OPEN_READ, numbers);
            let things: Vec<Thing> = chain.iter().map(|link| link.thing).collect();
            assert_eq!(things, [Object(sheet), Step(0), Object(0)]);
            assert_eq!(Lack::behind(&chain), Some(lack));
            assert_eq!(monitor.direct(OPEN_READ, numbers), Answer::Refused(Refusal::Flow));
        }
        // A book that asks for fewer marks takes it.
        monitor.register(4, 15, 0b001).granted()?;
        assert!(behind(&State::from(&monitor), OPEN_READ, [0, 4, 1, 0, 0, 0]).is_empty());
        assert_eq!(monitor.open_read(0, 4, 1), Answer::Allowed(15));
        Ok(())
    }
}
