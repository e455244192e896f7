//! Steps, files and pipes by number, those of a moment in a list, and the flows that handles let through and that threads
//! share.

use gatekeeper::{Handle, State, Way, SUBJECTS};

/// A step, or a file or pipe, by number. In their order the steps come first.
#[derive(Clone, Copy, Debug, PartialEq, Eq, PartialOrd, Ord, Hash)]
pub enum Thing {
    Step(u64),
    Object(u64),
}

/// The things that a moment can be about, each with a place in one list: every step that can be, then the files and
/// pipes that are there, and those that some flows would make, in rising order.
#[derive(Clone, Debug, PartialEq, Eq)]
pub struct Things {
    objects: Vec<u64>,
}

impl Things {
    /// The things of a monitor, and those of some flows.
    pub fn of(monitor: &State, flows: &[(Thing, Thing)]) -> Things {
        let named = flows.iter().flat_map(|&(from, to)| [from, to]);
        let named = named.filter_map(|thing| match thing {
            Thing::Step(_) => None,
            Thing::Object(o) => Some(o),
        });
        let mut objects: Vec<u64> = monitor.objects().map(|(o, _)| o).chain(named).collect();
        objects.sort_unstable();
        objects.dedup();
        Things { objects }
    }

    pub fn count(&self) -> usize {
        SUBJECTS as usize + self.objects.len()
    }

    /// The place of a thing in the list; none where it is not in it.
    pub fn place(&self, thing: Thing) -> Option<usize> {
        match thing {
            Thing::Step(s) => (s < SUBJECTS).then_some(s as usize),
            Thing::Object(o) => self.objects.binary_search(&o).ok().map(|at| SUBJECTS as usize + at),
        }
    }

    /// All of them, in their order.
    pub fn all(&self) -> impl Iterator<Item = Thing> + '_ {
        (0..SUBJECTS).map(Thing::Step).chain(self.objects.iter().copied().map(Thing::Object))
    }
}

/// RULES F1, F2: from where to where data can flow through a handle of a step.
pub fn flow(step: u64, handle: Handle) -> (Thing, Thing) {
    let (step, object) = (Thing::Step(step), Thing::Object(handle.object));
    match handle.way {
        Way::Writes => (step, object),
        Way::Reads | Way::Maps => (object, step),
    }
}

/// RULES T45: the mates of a step, which are the other threads of one step with it, by number.
pub fn mates(monitor: &State, step: u64) -> impl Iterator<Item = u64> + '_ {
    let group = monitor.group(step);
    let is_mate = move |&other: &u64| other != step && group.is_some() && monitor.group(other) == group;
    (0..SUBJECTS).filter(is_mate)
}

/// RULES F22: the flows between the threads of a step, each to each other; and so of every step that has some.
pub fn shared(monitor: &State) -> Vec<(Thing, Thing)> {
    let groups: Vec<(u64, u64)> = (0..SUBJECTS).filter_map(|s| Some((s, monitor.group(s)?))).collect();
    let mut flows = Vec::new();
    for &(one, group) in &groups {
        let mates = groups.iter().filter(|&&(other, theirs)| other != one && theirs == group);
        flows.extend(mates.map(|&(other, _)| (Thing::Step(one), Thing::Step(other))));
    }
    flows
}

#[cfg(test)]
mod tests {
    use super::*;
    use gatekeeper::{Monitor, Refusal};

    #[test]
    fn each_thing_has_a_place_of_its_own() -> Result<(), Refusal> {
        let mut monitor = Monitor::new();
        for object in [u64::MAX, 7, 1 << 40] {
            monitor.register(object, 9, 255).granted()?;
        }
        let new = [(Thing::Step(0), Thing::Object(64)), (Thing::Object(7), Thing::Step(99))];
        let things = Things::of(&State::from(&monitor), &new);
        let all: Vec<Thing> = things.all().collect();
        assert!(all.is_sorted());
        assert_eq!(all.len(), things.count());
        assert_eq!(all[32..], [7, 64, 1 << 40, u64::MAX].map(Thing::Object));
        for (place, &thing) in all.iter().enumerate() {
            assert_eq!(things.place(thing), Some(place));
        }
        for none in [Thing::Step(32), Thing::Step(u64::MAX), Thing::Object(0), Thing::Object(65)] {
            assert_eq!(things.place(none), None, "{none:?}");
        }
        Ok(())
    }

    #[test]
    fn threads_of_one_step_are_mates() -> Result<(), Refusal> {
        let mut monitor = Monitor::new();
        monitor.admit(4, 9, 255).granted()?;
        monitor.thread(4, 1).granted()?;
        monitor.thread(1, 7).granted()?;
        monitor.fork(4, 2).granted()?;
        let state = State::from(&monitor);
        let of = |step: u64| mates(&state, step).collect::<Vec<u64>>();
        assert_eq!((of(4), of(1), of(7)), (vec![1, 7], vec![4, 7], vec![1, 4]));
        assert_eq!([2, 3, 32, u64::MAX].map(of), [const { Vec::new() }; 4]);
        let flows = [(1, 4), (1, 7), (4, 1), (4, 7), (7, 1), (7, 4)];
        assert_eq!(shared(&state), flows.map(|(from, to)| (Thing::Step(from), Thing::Step(to))));
        Ok(())
    }
}
