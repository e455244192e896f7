//! The tables: RULES T1 to T20, T32, T33, T35, T37 and T45 to T49; and the tally: RULES Y1 to Y10.
//!
//! Subjects, objects and handles by number, what counts as a handle, who is in one group, the freeze, and the tally of
//! handles made and gone. No rule of a call is here; see `monitor` and `refusals`. Every number has 64 bits, levels and
//! sets too, and none is ever cut.

use std::collections::{BTreeMap, BTreeSet};

use crate::labels::{Label, ALL_SHOPS};

/// How many of each there may be, and how many levels and sets: RULES T1 to T4, T49. A subject's number is below their count;
/// an object's is any, and so many of them may be live at a time.
#[derive(Clone, Copy, Debug, PartialEq, Eq)]
pub struct Limits {
    pub subjects: u64,
    pub objects: u64,
    pub places: u64,
    pub levels: u64,
    pub sets: u64,
}

/// The limits of the rules.
pub const LIMITS: Limits =
    Limits { subjects: 32, objects: 64, places: 16, levels: 16, sets: ALL_SHOPS + 1 };

/// RULES T32: the freeze that says that no file is frozen.
pub const NO_FREEZE: u64 = 16;

/// RULES T1, T7: a running step, and its label: the level, and the set of shop marks.
#[derive(Clone, Copy, Debug, PartialEq, Eq)]
pub struct Subject {
    pub level: u64,
    pub shops: u64,
}

impl Subject {
    pub fn new(Label { level, shops }: Label) -> Subject {
        Subject { level, shops }
    }

    pub fn label(self) -> Label {
        Label { level: self.level, shops: self.shops }
    }
}

/// RULES T2: files and pipes share the numbers.
#[derive(Clone, Copy, Debug, PartialEq, Eq)]
pub enum Kind {
    File,
    Pipe,
}

/// RULES T8, T9: a file's label stays, a pipe's may fall.
#[derive(Clone, Copy, Debug, PartialEq, Eq)]
pub struct Object {
    pub kind: Kind,
    pub level: u64,
    pub shops: u64,
}

impl Object {
    pub fn new(kind: Kind, Label { level, shops }: Label) -> Object {
        Object { kind, level, shops }
    }

    pub fn label(self) -> Label {
        Label { level: self.level, shops: self.shops }
    }
}

/// RULES T10: one of the two.
#[derive(Clone, Copy, Debug, PartialEq, Eq)]
pub enum Direction {
    Reading,
    Writing,
}

/// RULES T10, T35, T37: what a handle is on, what for, whether it is marked, and whether it is a mapping, as only
/// one for reading can be. The place is where it stands in the table.
#[derive(Clone, Copy, Debug, PartialEq, Eq)]
pub struct Handle {
    pub object: u64,
    pub direction: Direction,
    pub marked: bool,
    pub mapped: bool,
}

impl Handle {
    /// RULES T35, T37: a handle that is placed anew is not marked, and a mapping only if C14 places it.
    pub fn new(object: u64, direction: Direction) -> Handle {
        Handle { object, direction, marked: false, mapped: false }
    }

    /// RULES C14: a mapping that is placed anew.
    pub fn mapping(object: u64) -> Handle {
        Handle { mapped: true, ..Handle::new(object, Direction::Reading) }
    }

    /// RULES C10: whether an exec of its subject closes it.
    pub fn ends_at_exec(self) -> bool {
        self.marked || self.mapped
    }
}

/// The three tables, the groups and the freeze. Every number may be asked for and set: at a subject or a place out of
/// range there is nothing, and setting it changes nothing.
#[derive(Clone, Debug, PartialEq, Eq)]
pub struct Tables {
    limits: Limits,
    subjects: Vec<Option<Subject>>,
    /// RULES T2, T6: those that are live, by their numbers.
    objects: BTreeMap<u64, Object>,
    handles: Vec<Option<Handle>>,
    /// RULES T45: each two live subjects that are in one group, both ways round. A group has no number.
    mates: BTreeSet<(u64, u64)>,
    freeze: u64,
}

impl Tables {
    /// RULES T12: empty tables.
    pub fn new(limits: Limits) -> Tables {
        Tables {
            limits,
            subjects: vec![None; limits.subjects as usize],
            objects: BTreeMap::new(),
            handles: vec![None; (limits.subjects * limits.places) as usize],
            mates: BTreeSet::new(),
            freeze: NO_FREEZE,
        }
    }

    pub fn limits(&self) -> Limits {
        self.limits
    }

    /// The live subject of this number.
    pub fn subject(&self, s: u64) -> Option<Subject> {
        *self.subjects.get(self.subject_index(s)?)?
    }

    /// The live object of this number.
    pub fn object(&self, o: u64) -> Option<Object> {
        self.objects.get(&o).copied()
    }

    /// The handle at this place. RULES T17, T18: one whose object or subject is not live counts as none.
    pub fn handle(&self, s: u64, p: u64) -> Option<Handle> {
        self.subject(s)?;
        let handle = (*self.handles.get(self.index(s, p)?)?)?;
        self.object(handle.object)?;
        Some(handle)
    }

    /// Every handle, with its subject and its place, in rising order of both.
    pub fn handles(&self) -> impl Iterator<Item = (u64, u64, Handle)> + '_ {
        let rows = (0..).zip(self.handles.chunks(self.limits.places as usize));
        rows.filter(|&(s, _)| self.subject(s).is_some()).flat_map(move |(s, row)| {
            (0..).zip(row).filter_map(move |(p, place)| {
                let handle = (*place)?;
                self.object(handle.object)?;
                Some((s, p, handle))
            })
        })
    }

    /// The handles of one subject, by place.
    pub fn handles_of(&self, s: u64) -> impl Iterator<Item = (u64, Handle)> + '_ {
        (0..self.limits.places).filter_map(move |p| Some((p, self.handle(s, p)?)))
    }

    /// The places of one subject with a marked handle.
    pub fn marked_places(&self, s: u64) -> impl Iterator<Item = u64> + '_ {
        self.handles_of(s).filter(|(_, handle)| handle.marked).map(|(p, _)| p)
    }

    /// RULES C10: the places of one subject that its exec empties.
    pub fn places_ending_at_exec(&self, s: u64) -> impl Iterator<Item = u64> + '_ {
        self.handles_of(s).filter(|(_, handle)| handle.ends_at_exec()).map(|(p, _)| p)
    }

    /// RULES C110, C111: the subjects that have the object mapped, each once, the lowest number first.
    pub fn mappers(&self, o: u64) -> impl Iterator<Item = u64> + '_ {
        let maps = move |handle: Handle| handle.mapped && handle.object == o;
        self.live_subjects().filter(move |&s| self.handles_of(s).any(|(_, handle)| maps(handle)))
    }

    /// Whether some handle is open on the object.
    pub fn is_held(&self, o: u64) -> bool {
        self.handles().any(|(_, _, handle)| handle.object == o)
    }

    /// How many handles are in the table.
    pub fn handle_count(&self) -> u64 {
        self.handles().count() as u64
    }

    /// The numbers of the live subjects.
    pub fn live_subjects(&self) -> impl Iterator<Item = u64> + '_ {
        (0..self.limits.subjects).filter(|&s| self.subject(s).is_some())
    }

    /// The numbers of the live objects, rising.
    pub fn live_objects(&self) -> impl Iterator<Item = u64> + '_ {
        self.objects.keys().copied()
    }

    /// RULES T45: the other members of the group that a live subject is in, the lowest number first.
    pub fn mates(&self, s: u64) -> impl Iterator<Item = u64> + '_ {
        self.mates.range((s, 0)..=(s, u64::MAX)).map(|&(_, mate)| mate)
    }

    /// Whether these are two members of one group.
    pub fn are_mates(&self, s: u64, t: u64) -> bool {
        self.mates.contains(&(s, t))
    }

    /// Each two members of one group, both ways round.
    pub fn pairs_of_mates(&self) -> impl Iterator<Item = (u64, u64)> + '_ {
        self.mates.iter().copied()
    }

    /// A live subject and its mates, the lowest number first.
    pub fn members(&self, s: u64) -> impl Iterator<Item = u64> + '_ {
        self.live_subjects().filter(move |&other| other == s || self.are_mates(s, other))
    }

    /// How many objects are live.
    pub fn object_count(&self) -> u64 {
        self.objects.len() as u64
    }

    /// The freeze as it is stored.
    pub fn freeze(&self) -> u64 {
        self.freeze
    }

    /// RULES T32, T33: the level from which on files are frozen; none where the freeze is 16 or above.
    pub fn frozen_from(&self) -> Option<u64> {
        (self.freeze < NO_FREEZE).then_some(self.freeze)
    }

    /// Whether this is a file that is frozen: its level is at or above the freeze, whatever its set.
    pub fn is_frozen(&self, o: u64) -> bool {
        let file = self.object(o).filter(|object| object.kind == Kind::File);
        file.zip(self.frozen_from()).is_some_and(|(file, freeze)| file.level >= freeze)
    }

    pub fn set_freeze(&mut self, freeze: u64) {
        self.freeze = freeze;
    }

    /// RULES T45: a subject that was not live is in a group of its own, one that was live stays in its group, and one
    /// that is gone is in none.
    pub fn set_subject(&mut self, s: u64, subject: Option<Subject>) {
        if let Some(index) = self.subject_index(s) {
            self.subjects[index] = subject;
        }
        if subject.is_none() {
            self.leave_group(s);
        }
    }

    /// RULES C18: the groups of two live subjects are one.
    pub fn join_groups(&mut self, s: u64, t: u64) {
        let (ours, theirs): (Vec<u64>, Vec<u64>) = (self.members(s).collect(), self.members(t).collect());
        for &one in &ours {
            for &other in &theirs {
                self.set_mates(one, other);
            }
        }
    }

    /// The subject is in a group of its own.
    pub fn leave_group(&mut self, s: u64) {
        self.mates.retain(|&(one, other)| one != s && other != s);
    }

    /// These two are in one group; nothing is said of their other mates.
    pub(crate) fn set_mates(&mut self, s: u64, t: u64) {
        if s != t && self.subject(s).is_some() && self.subject(t).is_some() {
            self.mates.extend([(s, t), (t, s)]);
        }
    }

    pub fn set_object(&mut self, o: u64, object: Option<Object>) {
        match object {
            Some(object) => self.objects.insert(o, object),
            None => self.objects.remove(&o),
        };
    }

    pub fn set_handle(&mut self, s: u64, p: u64, handle: Option<Handle>) {
        if let Some(index) = self.index(s, p) {
            self.handles[index] = handle;
        }
    }

    /// RULES C15: the handle at this place is marked, if there is one.
    pub fn mark(&mut self, s: u64, p: u64) {
        let marked = self.handle(s, p).map(|handle| Handle { marked: true, ..handle });
        if marked.is_some() {
            self.set_handle(s, p, marked);
        }
    }

    /// RULES T19: the places that only count as empty become empty. Tables
    /// made by calls have no such places.
    pub fn empty_uncounted_places(&mut self) {
        let Tables { limits, subjects, objects, handles, .. } = self;
        for (row, subject) in handles.chunks_mut(limits.places as usize).zip(subjects) {
            for place in row {
                let is_on_live = place.is_some_and(|handle| objects.contains_key(&handle.object));
                if subject.is_none() || !is_on_live {
                    *place = None;
                }
            }
        }
    }

    /// Where a subject stands in its table; none for a number out of range (RULES T1).
    fn subject_index(&self, s: u64) -> Option<usize> {
        (s < self.limits.subjects).then_some(s as usize)
    }

    /// Where a place stands in the table of handles; none where one of the two is out of range (RULES T1, T3).
    fn index(&self, s: u64, p: u64) -> Option<usize> {
        (s < self.limits.subjects && p < self.limits.places).then(|| (s * self.limits.places + p) as usize)
    }
}

/// Tables as a host stores them: each object stands in one of 64 slots, beside its number, a handle names a slot, and
/// beside each subject is a byte, its group. A subject and an object have their level and their set in a byte each (RULES
/// T21, T28). No call looks at them: [`StoredTables::tables`] says which tables they are.
#[derive(Clone, Debug)]
pub struct StoredTables {
    slots: Vec<Option<(u64, Object)>>,
    groups: Vec<u8>,
    /// All but the objects; the object of a handle is the slot that it names.
    rest: Tables,
}

impl Default for StoredTables {
    fn default() -> StoredTables {
        StoredTables::new()
    }
}

impl StoredTables {
    /// Every slot free, each subject's byte its own number, and all else as in empty tables.
    pub fn new() -> StoredTables {
        StoredTables {
            slots: vec![None; LIMITS.objects as usize],
            groups: (0..LIMITS.subjects as u8).collect(),
            rest: Tables::new(LIMITS),
        }
    }

    /// The number of the object in this slot, and the object; none for a free slot.
    pub fn set_slot(&mut self, slot: u64, entry: Option<(u64, Object)>) {
        if slot < LIMITS.objects {
            self.slots[slot as usize] = entry;
        }
    }

    /// A handle whose `object` is the slot that it names, be there such a slot or not.
    pub fn set_handle(&mut self, s: u64, p: u64, handle: Option<Handle>) {
        self.rest.set_handle(s, p, handle);
    }

    pub fn set_subject(&mut self, s: u64, subject: Option<Subject>) {
        self.rest.set_subject(s, subject);
    }

    /// RULES T47: every byte is one that a group can have.
    pub fn set_group(&mut self, s: u64, group: u8) {
        if s < LIMITS.subjects {
            self.groups[s as usize] = group;
        }
    }

    pub fn set_freeze(&mut self, freeze: u64) {
        self.rest.set_freeze(freeze);
    }

    /// Where a number stands in several slots, the first of them counts and the others count as free.
    fn counts(&self, slot: u64) -> Option<u64> {
        let number = |entry: &Option<(u64, Object)>| entry.map(|(number, _)| number);
        let own = number(self.slots.get(usize::try_from(slot).ok()?)?)?;
        let is_first =
            self.slots.iter().position(|entry| number(entry) == Some(own)) == Some(slot as usize);
        is_first.then_some(own)
    }

    /// The tables that these are. A handle on a slot that is free, that counts as free or that there is not is one
    /// on an object that is not live, and so counts as an empty place: RULES T17. Two live subjects are in one group
    /// where their bytes are equal: RULES T47.
    pub fn tables(&self) -> Tables {
        let mut tables = self.rest.clone();
        for (s, group) in (0..).zip(&self.groups) {
            for (t, other) in (0..s).zip(&self.groups) {
                if group == other {
                    tables.set_mates(s, t);
                }
            }
        }
        for (slot, entry) in (0..).zip(&self.slots) {
            if let (Some((number, object)), Some(_)) = (*entry, self.counts(slot)) {
                tables.set_object(number, Some(object));
            }
        }
        let not_live = (0..).find(|&o| tables.object(o).is_none()).unwrap_or(0);
        for handle in tables.handles.iter_mut().flatten() {
            handle.object = self.counts(handle.object).unwrap_or(not_live);
        }
        tables
    }
}

/// Handles made and gone, over the calls so far: RULES Y1, Y8, Y9.
#[derive(Clone, Copy, Debug, Default, PartialEq, Eq)]
pub struct Tally {
    pub made: u64,
    pub gone: u64,
}

impl Tally {
    /// RULES Y9, Y10: made minus gone.
    pub fn open(self) -> u64 {
        self.made.wrapping_sub(self.gone)
    }

    pub fn count_made(&mut self, handles: u64) {
        self.made = self.made.wrapping_add(handles);
    }

    pub fn count_gone(&mut self, handles: u64) {
        self.gone = self.gone.wrapping_add(handles);
    }
}
