//! The tables: subjects by number, their groups, objects by slot, handles by subject and place, the marks, the mappings, the
//! freeze, and the tally of handles.
//!
//! A live object has one of 64 slots and any number. Inside, it goes by its slot.
//!
//! Data flows freely among the members of a group, and they have one label: for flows a group is one thing, and what its
//! members hold are the handles of that thing.

use std::iter;

use crate::labels::{Label, Level, LEVELS};

/// How many there are of each; of objects, how many are live at a time.
pub const SUBJECTS: usize = 32;
pub const OBJECTS: usize = 64;
pub const PLACES: usize = 16;

/// The freeze where there is none: it is above every level.
pub const NO_FREEZE: Level = LEVELS as Level;

/// A file's label never changes; a pipe's can fall.
#[derive(Clone, Copy, Debug, PartialEq, Eq)]
pub enum Kind {
    File,
    Pipe,
}

/// A file or a pipe.
#[derive(Clone, Copy, Debug, PartialEq, Eq)]
pub struct Object {
    pub kind: Kind,
    pub label: Label,
    /// How many handles are open on it.
    pub handles: u16,
}

/// What a handle is for.
#[derive(Clone, Copy, Debug, PartialEq, Eq)]
pub enum Direction {
    Reading,
    Writing,
}

/// A group of subjects or an object as one number: the groups, then the objects by slot.
pub type Thing = u8;

pub fn object_as_thing(o: usize) -> Thing {
    (SUBJECTS + o) as Thing
}

/// Subjects, subject s as bit s.
pub type Subjects = u32;

/// The numbers of some subjects, the lowest first.
pub fn numbers(mut subjects: Subjects) -> impl Iterator<Item = usize> {
    iter::from_fn(move || {
        let lowest = subjects.trailing_zeros() as usize;
        subjects &= subjects.wrapping_sub(1);
        (lowest < SUBJECTS).then_some(lowest)
    })
}

/// A subject or several that are threads of one step. One without members is free, and its label says nothing.
#[derive(Clone, Copy, Debug, PartialEq, Eq)]
pub struct Group {
    pub label: Label,
    pub members: Subjects,
}

impl Group {
    pub const FREE: Group = Group { label: Label::LEAST, members: 0 };
}

/// A live subject, with its group and the label of that.
#[derive(Clone, Copy, Debug, PartialEq, Eq)]
pub struct Subject {
    pub number: usize,
    pub group: Thing,
    pub label: Label,
}

/// What a place holds, kept as the flow that it makes: from its subject's group to an object that is written, from an
/// object that is read to the group. An empty place is a flow from a thing to itself, which carries nothing anywhere.
#[derive(Clone, Copy, Debug, PartialEq, Eq)]
pub struct Place {
    pub from: Thing,
    pub to: Thing,
}

impl Place {
    pub const EMPTY: Place = Place { from: 0, to: 0 };

    /// A handle of a member of a group on an object.
    pub fn of(group: Thing, o: usize, direction: Direction) -> Place {
        match direction {
            Direction::Reading => Place { from: object_as_thing(o), to: group },
            Direction::Writing => Place { from: group, to: object_as_thing(o) },
        }
    }

    /// The flow from one subject to another that a pipe makes which nobody else has a handle on. No place holds it: it
    /// is only ever sought.
    pub fn between(s: Subject, t: Subject) -> Place {
        Place { from: s.group, to: t.group }
    }

    /// The handle's object and its direction; none for an empty place.
    pub fn handle(self) -> Option<(usize, Direction)> {
        let (from, to) = (usize::from(self.from), usize::from(self.to));
        if from >= SUBJECTS {
            Some((from - SUBJECTS, Direction::Reading))
        } else if to >= SUBJECTS {
            Some((to - SUBJECTS, Direction::Writing))
        } else {
            None
        }
    }
}

/// Handles made and gone over all calls, modulo 2 to the 64th.
#[derive(Clone, Copy, Debug, Default, PartialEq, Eq)]
pub struct Tally {
    pub made: u64,
    pub gone: u64,
}

impl Tally {
    pub fn open(self) -> u64 {
        self.made.wrapping_sub(self.gone)
    }
}

/// Places of one subject, place p as bit p.
pub type Places = u16;

/// Slots of objects, slot i as bit i.
pub type Slots = u64;

/// The slot where an object's number is looked for first, and that a new object gets where it is free.
fn first_guess(o: u64) -> usize {
    (o % OBJECTS as u64) as usize
}

/// The slot that a new object gets of those that are free: the first guess, or else the lowest.
pub fn slot_among(free: Slots, o: u64) -> Option<usize> {
    let guess = first_guess(o);
    if free >> guess & 1 == 1 {
        Some(guess)
    } else {
        (free != 0).then_some(free.trailing_zeros() as usize)
    }
}

/// Every table. A subject that is not live holds no handle, every handle's object is live, and an empty place has no
/// mark and is no mapping. A mapping is a reading handle on a file whose label is at least its subject's. No two live
/// objects have the same number. The members of a group are the live subjects that are in it.
#[derive(Clone, Debug, PartialEq, Eq)]
pub struct Tables {
    /// The groups of the live subjects; none for a number that is free.
    pub subjects: [Option<Thing>; SUBJECTS],
    /// The groups by number, as many as there can be.
    pub groups: [Group; SUBJECTS],
    /// The live objects, by slot; none for a slot that is free.
    pub objects: [Option<Object>; OBJECTS],
    /// Their numbers, by slot. That of a free slot says nothing.
    pub numbers: [u64; OBJECTS],
    /// The slots that are free.
    pub free: Slots,
    /// By subject, then by place.
    pub places: [[Place; PLACES]; SUBJECTS],
    /// The places with a marked handle, by subject: an exec closes those.
    pub marks: [Places; SUBJECTS],
    /// The places with a mapping, by subject: an exec closes those, too.
    pub maps: [Places; SUBJECTS],
    /// The level from which on no file is opened for writing.
    pub freeze: Level,
    pub tally: Tally,
}

impl Tables {
    pub const EMPTY: Tables = Tables {
        subjects: [None; SUBJECTS],
        groups: [Group::FREE; SUBJECTS],
        objects: [None; OBJECTS],
        numbers: [0; OBJECTS],
        free: Slots::MAX,
        places: [[Place::EMPTY; PLACES]; SUBJECTS],
        marks: [0; SUBJECTS],
        maps: [0; SUBJECTS],
        freeze: NO_FREEZE,
        tally: Tally { made: 0, gone: 0 },
    };

    /// The live subject with a number.
    pub fn live(&self, number: usize) -> Option<Subject> {
        let group = (*self.subjects.get(number)?)?;
        Some(Subject { number, group, label: self.groups[usize::from(group)].label })
    }

    /// A new subject, without handles, in a group of its own. The group gets the number of the subject, or the lowest
    /// that is free where others still have that one: there are as many numbers as subjects.
    pub fn admit(&mut self, number: usize, label: Label) -> Subject {
        let is_free = |group: &usize| self.groups[*group].members == 0;
        let group = iter::once(number).chain(0..SUBJECTS).find(is_free).unwrap_or(number);
        self.groups[group] = Group { label, members: 1 << number };
        self.subjects[number] = Some(group as Thing);
        Subject { number, group: group as Thing, label }
    }

    /// A new subject, without handles, in the group of another.
    pub fn join(&mut self, s: Subject, c: usize) {
        self.groups[usize::from(s.group)].members |= 1 << c;
        self.subjects[c] = Some(s.group);
    }

    /// The others in the group of a subject.
    pub fn mates(&self, s: Subject) -> Subjects {
        self.groups[usize::from(s.group)].members & !(1 << s.number)
    }

    /// Sets the label of a subject, and so of its mates.
    pub fn set_label(&mut self, s: Subject, label: Label) {
        self.groups[usize::from(s.group)].label = label;
    }

    /// The subject is gone with its handles, and its number is free. Its mates stay.
    pub fn leave(&mut self, s: Subject) {
        for p in 0..PLACES {
            self.empty(s.number, p);
        }
        self.groups[usize::from(s.group)].members = self.mates(s);
        self.subjects[s.number] = None;
    }

    /// The slot of the live object with a number: the first guess, or else a scan finds it.
    pub fn slot_of(&self, o: u64) -> Option<usize> {
        let has = |slot: usize| self.numbers[slot] == o && self.objects[slot].is_some();
        let guess = first_guess(o);
        if has(guess) {
            return Some(guess);
        }
        (0..OBJECTS).find(|&slot| has(slot))
    }

    /// A new object, without handles, in a free slot.
    pub fn bring(&mut self, slot: usize, o: u64, kind: Kind, label: Label) {
        self.objects[slot] = Some(Object { kind, label, handles: 0 });
        self.numbers[slot] = o;
        self.free &= !(1 << slot);
    }

    /// The object is gone, and its number and slot are free.
    pub fn end(&mut self, slot: usize) {
        self.objects[slot] = None;
        self.free |= 1 << slot;
    }

    /// Places a handle on a live object at an empty place of a live subject. It has no mark and is no mapping.
    pub fn fill(&mut self, s: Subject, p: usize, o: usize, direction: Direction) {
        self.places[s.number][p] = Place::of(s.group, o, direction);
        if let Some(object) = &mut self.objects[o] {
            object.handles += 1;
        }
        self.tally.made = self.tally.made.wrapping_add(1);
    }

    /// Marks the handle at a place.
    pub fn mark(&mut self, s: usize, p: usize) {
        self.marks[s] |= 1 << p;
    }

    pub fn is_marked(&self, s: usize, p: usize) -> bool {
        self.marks[s] >> p & 1 == 1
    }

    /// Makes a mapping of the reading handle at a place.
    pub fn map(&mut self, s: usize, p: usize) {
        self.maps[s] |= 1 << p;
    }

    /// Whether an exec closes the handle at a place: it is marked, or a mapping.
    pub fn ends_at_exec(&self, s: usize, p: usize) -> bool {
        (self.marks[s] | self.maps[s]) >> p & 1 == 1
    }

    /// The places of a subject as they are without its marked handles.
    pub fn unmarked(&self, s: usize) -> [Place; PLACES] {
        let mut places = self.places[s];
        for (p, place) in places.iter_mut().enumerate() {
            if self.is_marked(s, p) {
                *place = Place::EMPTY;
            }
        }
        places
    }

    /// The tables as the need of a subject that runs a program goes by them: without its marked handles, and without its
    /// mates and all that they hold. Its mappings may stay, as a flow to it does not change its need.
    pub fn at_exec(&self, s: Subject) -> Tables {
        let mut tables = self.clone();
        tables.places[s.number] = self.unmarked(s.number);
        for mate in numbers(self.mates(s)) {
            tables.subjects[mate] = None;
            tables.places[mate] = [Place::EMPTY; PLACES];
        }
        tables
    }

    /// Empties a place; a mark or a mapping goes with its handle. A pipe ends when its last handle goes.
    pub fn empty(&mut self, s: usize, p: usize) {
        let Some((o, _)) = self.places[s][p].handle() else { return };
        self.places[s][p] = Place::EMPTY;
        self.marks[s] &= !(1 << p);
        self.maps[s] &= !(1 << p);
        if let Some(object) = &mut self.objects[o] {
            object.handles -= 1;
            if object.kind == Kind::Pipe && object.handles == 0 {
                self.end(o);
            }
        }
        self.tally.gone = self.tally.gone.wrapping_add(1);
    }
}

#[cfg(test)]
mod tests {
    use super::*;
    use crate::labels::ALL_SHOPS;

    const NINE: Label = Label::new(9, ALL_SHOPS);

    #[test]
    fn a_place_is_what_was_put_there() {
        assert_eq!(Place::EMPTY.handle(), None);
        for (group, o) in [(0, 0), (0, 63), (31, 0), (31, 63)] {
            for direction in [Direction::Reading, Direction::Writing] {
                assert_eq!(Place::of(group, o, direction).handle(), Some((o, direction)));
            }
        }
    }

    #[test]
    fn an_object_gets_the_slot_of_its_number_or_else_the_lowest() {
        assert_eq!(slot_among(Slots::MAX, u64::MAX), Some(63));
        assert_eq!(slot_among(!(1 << 63), u64::MAX), Some(0));
        assert_eq!(slot_among(1 << 40, 3), Some(40));
        assert_eq!(slot_among(0, 3), None);
    }

    #[test]
    fn an_object_is_found_by_its_number() {
        let mut tables = Tables::EMPTY;
        assert_eq!(tables.slot_of(0), None);
        // In the slot of its number, and in another one.
        tables.bring(3, 3, Kind::File, NINE);
        tables.bring(0, 1 << 32 | 3, Kind::File, NINE);
        assert_eq!([3, 1 << 32 | 3, 67, 0].map(|o| tables.slot_of(o)), [Some(3), Some(0), None, None]);
        // A number that is free and brought again elsewhere.
        tables.end(3);
        tables.end(0);
        assert_eq!([3, 1 << 32 | 3].map(|o| tables.slot_of(o)), [None; 2]);
        tables.bring(63, 3, Kind::Pipe, NINE);
        assert_eq!([3, 1 << 32 | 3].map(|o| tables.slot_of(o)), [Some(63), None]);
    }

    #[test]
    fn subjects_are_numbered_by_their_bits() {
        assert_eq!(numbers(0).count(), 0);
        assert!(numbers(1 | 1 << 4 | 1 << 31).eq([0, 4, 31]));
        assert!(numbers(Subjects::MAX).eq(0..SUBJECTS));
    }

    #[test]
    fn a_group_stays_until_its_last_member_leaves() {
        let mut tables = Tables::EMPTY;
        let first = tables.admit(5, NINE);
        tables.join(first, 31);
        let second = Subject { number: 31, ..first };
        assert_eq!((tables.live(5), tables.live(31), tables.live(0)), (Some(first), Some(second), None));
        assert_eq!((tables.mates(first), tables.mates(second)), (1 << 31, 1 << 5));
        tables.leave(first);
        assert_eq!((tables.live(5), tables.live(31), tables.mates(second)), (None, Some(second), 0));
        // The number of the group is the subject's where it is free.
        assert_eq!([tables.admit(5, NINE), tables.admit(3, NINE)].map(|s| s.group), [0, 3]);
        assert_eq!(tables.admit(0, NINE).group, 1);
        tables.leave(second);
        tables.leave(Subject { number: 5, group: 0, label: NINE });
        assert_eq!(tables.admit(5, NINE).group, 5);
    }

    #[test]
    fn a_label_is_all_members_label() {
        let mut tables = Tables::EMPTY;
        let (s, other) = (tables.admit(0, NINE), tables.admit(1, NINE));
        tables.join(s, 2);
        let fallen = Label::new(4, 1);
        tables.set_label(s, fallen);
        assert_eq!(
            [0, 1, 2].map(|s| tables.live(s).map(|s| s.label)),
            [Some(fallen), Some(NINE), Some(fallen)]
        );
        assert_eq!(tables.live(1), Some(other));
    }

    #[test]
    fn an_exec_is_tested_without_marked_handles_and_without_mates() {
        let mut tables = Tables::EMPTY;
        let (s, other) = (tables.admit(0, NINE), tables.admit(1, NINE));
        tables.join(s, 2);
        tables.bring(5, 5, Kind::File, NINE);
        let mate = Subject { number: 2, ..s };
        for (subject, p) in [(s, 0), (s, 1), (other, 0), (mate, 0)] {
            tables.fill(subject, p, 5, Direction::Writing);
        }
        tables.mark(0, 1);
        tables.mark(1, 0);
        let left = tables.at_exec(s);
        let write = |s: Subject| Place::of(s.group, 5, Direction::Writing);
        assert_eq!(left.places[0][..2], [write(s), Place::EMPTY]);
        assert_eq!((left.places[1][0], left.places[2][0]), (write(other), Place::EMPTY));
        assert_eq!([0, 1, 2].map(|s| left.live(s).is_some()), [true, true, false]);
    }

    #[test]
    fn a_mark_goes_with_its_handle() {
        let mut tables = Tables::EMPTY;
        let s = tables.admit(31, NINE);
        tables.bring(5, 5, Kind::File, NINE);
        for p in [0, 15] {
            tables.fill(s, p, 5, Direction::Writing);
            assert!(!tables.is_marked(31, p));
            tables.mark(31, p);
            assert!(tables.is_marked(31, p));
            assert_eq!((tables.unmarked(31)[p], tables.unmarked(31)[1]), (Place::EMPTY, Place::EMPTY));
            tables.empty(31, p);
            tables.fill(s, p, 5, Direction::Reading);
            assert_eq!(tables.unmarked(31)[p], Place::of(31, 5, Direction::Reading));
        }
        assert_eq!(tables.marks, [0; SUBJECTS]);
    }

    #[test]
    fn a_mapping_goes_with_its_handle() {
        let mut tables = Tables::EMPTY;
        let s = tables.admit(31, NINE);
        tables.bring(5, 5, Kind::File, NINE);
        for p in [0, 15] {
            tables.fill(s, p, 5, Direction::Reading);
            assert!(!tables.ends_at_exec(31, p));
            tables.map(31, p);
            assert!(tables.ends_at_exec(31, p) && !tables.is_marked(31, p) && !tables.ends_at_exec(31, 1));
            tables.empty(31, p);
            tables.fill(s, p, 5, Direction::Reading);
            assert!(!tables.ends_at_exec(31, p));
        }
        assert_eq!(tables.maps, [0; SUBJECTS]);
    }

    #[test]
    fn a_pipe_ends_with_its_last_handle_and_a_file_does_not() {
        for (kind, left) in [(Kind::Pipe, false), (Kind::File, true)] {
            let mut tables = Tables::EMPTY;
            let s = tables.admit(0, NINE);
            tables.bring(5, u64::MAX, kind, NINE);
            tables.fill(s, 0, 5, Direction::Reading);
            tables.fill(s, 1, 5, Direction::Writing);
            tables.empty(0, 0);
            assert_eq!(tables.objects[5], Some(Object { kind, label: NINE, handles: 1 }));
            tables.empty(0, 1);
            assert_eq!(tables.objects[5].is_some(), left);
            assert_eq!(tables.slot_of(u64::MAX), left.then_some(5));
            assert_eq!(tables.free, if left { !(1 << 5) } else { Slots::MAX });
            assert_eq!(tables.tally, Tally { made: 2, gone: 2 });
        }
    }
}
