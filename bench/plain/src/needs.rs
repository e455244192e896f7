//! The need of every subject and object: the highest level among the files it reaches and all their shop marks, the least
//! label if it reaches none.
//!
//! One thing reaches another by a chain of flows: from a subject to what it writes, from what is read to its reader. A
//! group of subjects is one thing.

use crate::labels::{Label, Lack};
use crate::tables::{object_as_thing, Kind, Place, Subject, Tables, Thing, OBJECTS, SUBJECTS};

/// How many things there are.
const THINGS: usize = SUBJECTS + OBJECTS;

/// A need for every thing; the least label for those that are not live.
#[derive(Clone, Debug, PartialEq, Eq)]
pub struct Needs {
    /// By thing. It is longer than there are things, so that no index is out of its range.
    labels: [Label; Thing::MAX as usize + 1],
    /// What each of them lacks, kept beside it: so a flow that raises no need takes two reads and one test.
    lacks: [Lack; Thing::MAX as usize + 1],
}

impl Needs {
    pub const NONE: Needs = Needs {
        labels: [Label::LEAST; Thing::MAX as usize + 1],
        lacks: [Label::LEAST.lack(); Thing::MAX as usize + 1],
    };

    /// The need of a subject, which is that of its group.
    pub fn subject(&self, s: Subject) -> Label {
        self.labels[usize::from(s.group)]
    }

    /// The need of the object in a slot.
    pub fn object(&self, o: usize) -> Label {
        self.labels[usize::from(object_as_thing(o))]
    }

    /// Works every need out from nothing, in passes over all handles until none changes. What is sought counts as if it
    /// were held.
    pub fn work_out<const N: usize>(&mut self, tables: &Tables, sought: [Place; N]) {
        let (groups, objects) = self.labels[..THINGS].split_at_mut(SUBJECTS);
        groups.fill(Label::LEAST);
        // A file reaches itself.
        for (need, entry) in objects.iter_mut().zip(&tables.objects) {
            *need = match entry {
                Some(file) if file.kind == Kind::File => file.label,
                _ => Label::LEAST,
            };
        }
        for (lack, need) in self.lacks[..THINGS].iter_mut().zip(&self.labels) {
            *lack = need.lack();
        }
        // What is reached from the end of a flow is reached from its beginning.
        while self.pass(tables, sought) {}
    }

    /// The same for a subject that runs a program.
    pub fn work_out_at_exec(&mut self, tables: &Tables, s: Subject) {
        let all_counts = tables.marks[s.number] == 0 && tables.mates(s) == 0;
        if all_counts {
            self.work_out(tables, []);
        } else {
            self.work_out(&tables.at_exec(s), []);
        }
    }

    /// One pass over all handles; whether a need changed.
    fn pass<const N: usize>(&mut self, tables: &Tables, sought: [Place; N]) -> bool {
        let mut changed = false;
        for flow in sought {
            self.carry(flow, &mut changed);
        }
        for (subject, places) in tables.subjects.iter().zip(&tables.places) {
            if subject.is_some() {
                for &place in places {
                    self.carry(place, &mut changed);
                }
            }
        }
        changed
    }

    /// Joins the need at the end of a flow to the need at its beginning, and tells if it was not at least that.
    #[inline(always)]
    fn carry(&mut self, flow: Place, changed: &mut bool) {
        let need = self.labels[usize::from(flow.to)];
        if self.lacks[usize::from(flow.from)].has_of(need) {
            self.raise(flow.from, need);
            *changed = true;
        }
    }

    /// Few flows of a pass raise a need. As a function of its own, this is kept out of the loop.
    #[cold]
    #[inline(never)]
    fn raise(&mut self, thing: Thing, to: Label) {
        let thing = usize::from(thing);
        self.labels[thing] = self.labels[thing].joined(to);
        self.lacks[thing] = self.labels[thing].lack();
    }

    /// Whether every live subject and object has a label that is at least its need.
    pub fn are_met(&self, tables: &Tables) -> bool {
        let mut groups = tables.groups.iter().zip(&self.labels);
        let mut objects = tables.objects.iter().enumerate();
        // Nobody holds a handle for a group without members: it has no need.
        groups.all(|(group, &need)| group.label.is_at_least(need))
            && objects.all(|(o, entry)| entry.is_none_or(|entry| entry.label.is_at_least(self.object(o))))
    }
}

#[cfg(test)]
mod tests {
    use super::*;
    use crate::labels::ALL_SHOPS;
    use crate::tables::{Direction, Object};

    const TWELVE: Label = Label::new(12, ALL_SHOPS);
    const NINE: Label = Label::new(9, 0b11);

    /// Subject 3, who holds nothing, and subjects 0 to 2 in a ring of pipes 0 to 2, s reading pipe s and writing the next
    /// one, all of level 12 and with all shop marks; file 3 of level 9 with two.
    fn ring() -> (Tables, [Subject; 4]) {
        let mut tables = Tables::EMPTY;
        tables.bring(3, 3, Kind::File, NINE);
        let subjects = [0, 1, 2, 3].map(|s| tables.admit(s, TWELVE));
        for o in 0..3 {
            tables.bring(o, o as u64, Kind::Pipe, TWELVE);
        }
        for &s in &subjects[..3] {
            tables.fill(s, 0, s.number, Direction::Reading);
            tables.fill(s, 1, (s.number + 1) % 3, Direction::Writing);
        }
        (tables, subjects)
    }

    fn worked_out<const N: usize>(tables: &Tables, sought: [Place; N]) -> Needs {
        let mut needs = Needs::NONE;
        needs.work_out(tables, sought);
        needs
    }

    #[test]
    fn a_need_travels_round_a_ring_and_sinks_again() {
        let (mut tables, subjects) = ring();
        let none = Label::LEAST;
        // The same needs again and again, as each call does it.
        let mut needs = Needs::NONE;
        let mut of = |tables: &Tables| {
            needs.work_out(tables, []);
            assert_eq!(needs, worked_out(tables, []));
            (subjects.map(|s| needs.subject(s)), [0, 1, 2, 3].map(|o| needs.object(o)))
        };
        assert_eq!(of(&tables), ([none; 4], [none, none, none, NINE]));
        tables.fill(subjects[1], 2, 3, Direction::Writing);
        assert_eq!(of(&tables), ([NINE, NINE, NINE, none], [NINE; 4]));
        tables.empty(1, 2);
        assert_eq!(of(&tables), ([none; 4], [none, none, none, NINE]));
        // A file that is gone leaves no need.
        tables.end(3);
        assert_eq!(of(&tables), ([none; 4], [none; 4]));
    }

    #[test]
    fn a_need_has_the_highest_level_and_all_sets_of_what_is_reached() {
        let (mut tables, subjects) = ring();
        tables.bring(4, 4, Kind::File, Label::new(11, 0b100));
        tables.bring(5, 5, Kind::File, Label::new(0, 0b1010));
        tables.fill(subjects[0], 2, 3, Direction::Writing);
        tables.fill(subjects[1], 2, 4, Direction::Writing);
        tables.fill(subjects[3], 2, 5, Direction::Writing);
        let needs = worked_out(&tables, []);
        let of_ring = Label::new(11, 0b111);
        let own = Label::new(0, 0b1010);
        assert_eq!(subjects.map(|s| needs.subject(s)), [of_ring, of_ring, of_ring, own]);
        // And a way from subject 3 into the ring.
        let needs = worked_out(&tables, [Place::between(subjects[3], subjects[0])]);
        let both = Label::new(11, 0b1111);
        assert_eq!(subjects.map(|s| needs.subject(s)), [of_ring, of_ring, of_ring, both]);
    }

    #[test]
    fn a_sought_handle_counts_and_is_not_kept() {
        let (tables, subjects) = ring();
        let none = Label::LEAST;
        let write = Place::of(subjects[2].group, 3, Direction::Writing);
        let needs = worked_out(&tables, [write]);
        assert_eq!(subjects.map(|s| needs.subject(s)), [NINE, NINE, NINE, none]);
        assert_eq!(subjects.map(|s| worked_out(&tables, []).subject(s)), [none; 4]);
        // And a way from subject 3 into the ring.
        let needs = worked_out(&tables, [Place::between(subjects[3], subjects[0]), write]);
        assert_eq!(subjects.map(|s| needs.subject(s)), [NINE; 4]);
    }

    #[test]
    fn needs_are_met_by_level_and_by_set() {
        let cases = [
            ((8, 0b11), false),
            ((9, 0b11), true),
            ((15, 0b01), false),
            ((15, 0b1110), false),
            ((9, 255), true),
        ];
        for ((level, shops), met) in cases {
            let label = Label::new(level, shops);
            let (mut tables, subjects) = ring();
            tables.fill(subjects[1], 2, 3, Direction::Writing);
            tables.set_label(subjects[0], label);
            assert_eq!(worked_out(&tables, []).are_met(&tables), met, "{label:?}");
            // And for an object.
            tables.set_label(subjects[0], TWELVE);
            tables.objects[0] = tables.objects[0].map(|pipe| Object { label, ..pipe });
            assert_eq!(worked_out(&tables, []).are_met(&tables), met, "{label:?}");
        }
    }
}
