//! Tables full of handles: which object each place of each subject holds, and for which direction.
//!
//! Subjects and pipes have level 12, and so has the highest file that anyone writes: no need is above 12. Files that
//! are only read have level 12 to 15. So every open of a round is allowed, and no read lowers its subject. Everything has
//! all shop marks, but in the layouts with mixed sets.
//!
//! In rings, each subject reads one pipe and writes another. The end of a ring writes the file of level 12, and from
//! there the need of 12 has to travel all the way round, from the reader of each pipe to its writer.
//!
//! Two layouts have the handles of others, but subjects that are threads of one step, four by four.
//!
//! With mixed sets, a ring needs the shop marks of four groups. They come to it one by one, each from a file that another of
//! its subjects writes, and the level of 12 comes from a file without any: the need is put together on its way round. What
//! the ring reads has these four and one that may be another; each subject, and the pipe that it makes, has one more.

use gatekeeper::Call;
use gatekeeper_plain::{calls, labels, tables};

/// How many there are of each in full tables.
const SUBJECTS: u64 = tables::SUBJECTS as u64;
const OBJECTS: u64 = tables::OBJECTS as u64;
const PLACES: u64 = tables::PLACES as u64;

/// The set of all shop marks.
pub const ALL_SHOPS: u64 = labels::ALL_SHOPS as u64;

/// The level of all subjects and pipes, and of the file that the end of a ring writes.
const LEVEL: u64 = 12;
const END_FILE: u64 = 32;

/// A file of level 0: nobody whose need is above 0 may open it for reading.
pub const LOW_FILE: u64 = 33;

/// The codes of the calls that make a file, and a thread.
pub const REGISTER: u64 = 2;
const THREAD: u64 = 18;

/// A call as each program takes it: its code and its numbers.
pub type Numbered = (u64, [u64; calls::NUMBERS]);

pub fn numbered(call: Call) -> Numbered {
    (call.code(), call.numbers())
}

/// What one place of a subject holds.
#[derive(Clone, Copy, Debug, PartialEq, Eq)]
pub struct Held {
    pub object: u64,
    pub writes: bool,
}

/// Which subjects hold which objects. Every one of the first `subjects` holds a handle at each of its places.
#[derive(Clone, Copy, Debug)]
pub struct Layout {
    pub name: &'static str,
    subjects: u64,
    shape: Shape,
    numbers: Numbers,
    groups: Groups,
}

/// Which subjects are threads of one step.
#[derive(Clone, Copy, Debug)]
enum Groups {
    /// Each is a step by itself.
    Single,
    /// Four neighbours are: 0 to 3, 4 to 7, and so on.
    Neighbours,
    /// Four that are eight apart are: 0, 8, 16 and 24, and so on.
    Apart,
}

/// The numbers by which the host knows the objects.
#[derive(Clone, Copy, Debug)]
enum Numbers {
    /// 0 to 63.
    Low,
    /// Of ten bytes, and all the same modulo 64.
    Far,
}

#[derive(Clone, Copy, Debug)]
enum Shape {
    /// Rings of so many subjects. A pass over the handles goes by rising subject, then place: with the order, it hands
    /// a need on from pipe to pipe; against it, each subject takes two more passes.
    Rings { size: u64, with_order: bool, files: Files },
    /// Rings of 8 against the order, and in each 4 pipes across it. Each subject of a ring writes a file of another level.
    Chords,
    /// No file is open: each subject reads 8 pipes and writes 8, those of its neighbours in one ring.
    Pipes,
    /// The same, but for one handle, of the last subject, which writes the only file.
    PipesAndOneFile,
    /// Rings of so many subjects against the order, with mixed sets.
    Mixed { size: u64 },
}

/// What the other places of a subject in a ring hold.
#[derive(Clone, Copy, Debug, PartialEq, Eq)]
enum Files {
    /// Files for reading: only the end of the ring writes one.
    One,
    /// By turns files of level 0 to 11 for writing, and files for reading.
    Several,
    /// The same, but everyone writes the file of level 12 too.
    Everyone,
}

const fn rings(name: &'static str, size: u64, with_order: bool, files: Files) -> Layout {
    full(name, Shape::Rings { size, with_order, files })
}

const fn full(name: &'static str, shape: Shape) -> Layout {
    Layout { name, subjects: SUBJECTS, shape, numbers: Numbers::Low, groups: Groups::Single }
}

/// Full tables: 32 subjects, 64 objects, 512 handles.
pub const LAYOUTS: [Layout; 12] = [
    rings("8 rings of 4", 4, false, Files::Several),
    full("4 rings of 8 with chords", Shape::Chords),
    rings("1 ring of 32, one file, against the order", 32, false, Files::One),
    rings("1 ring of 32, one file, with the order", 32, true, Files::One),
    rings("1 ring of 32, everyone writes a file", 32, false, Files::Everyone),
    full("pipes alone", Shape::Pipes),
    full("pipes and one file", Shape::PipesAndOneFile),
    Layout { numbers: Numbers::Far, ..rings("8 rings of 4, far objects", 4, false, Files::Several) },
    Layout { groups: Groups::Apart, ..rings("8 rings of 4, in 8 groups", 4, false, Files::Several) },
    Layout {
        groups: Groups::Neighbours,
        ..rings("1 ring of 32, one file, in 8 groups", 32, false, Files::One)
    },
    full("8 rings of 4, mixed sets", Shape::Mixed { size: 4 }),
    full("1 ring of 32, mixed sets", Shape::Mixed { size: 32 }),
];

/// Tables of so many subjects with 16 handles each, in rings of 4, or of fewer where there are not so many.
pub fn rings_of_4(subjects: u32) -> Layout {
    let subjects = u64::from(subjects);
    let shape = Shape::Rings { size: subjects.min(4), with_order: false, files: Files::Several };
    Layout { subjects, ..full("rings of 4", shape) }
}

/// The same, all in one ring, where one file is written.
pub fn one_ring(subjects: u32) -> Layout {
    let subjects = u64::from(subjects);
    let shape = Shape::Rings { size: subjects, with_order: false, files: Files::One };
    Layout { subjects, ..full("one ring", shape) }
}

/// Full tables, in rings of so many subjects, where one file is written.
pub fn rings_of(size: u32) -> Layout {
    rings("rings of one size", size.into(), false, Files::One)
}

impl Layout {
    /// Every subject and place that holds a handle, in the order of a pass.
    pub fn places(self) -> impl Iterator<Item = (u64, u64)> {
        (0..self.subjects).flat_map(|subject| (0..PLACES).map(move |place| (subject, place)))
    }

    /// What a place of a subject holds.
    pub fn held(self, subject: u64, place: u64) -> Held {
        match self.shape {
            Shape::Rings { size, with_order, files } => in_rings(subject, place, size, with_order, files),
            Shape::Chords => with_chords(subject, place),
            Shape::Pipes => on_pipes(subject, place),
            Shape::PipesAndOneFile => match on_pipes(subject, place) {
                held if held.object < LAST => held,
                Held { writes: true, .. } if subject == SUBJECTS - 1 => Held { object: LAST, writes: true },
                held => Held { object: LAST - 1, ..held },
            },
            Shape::Mixed { size } => with_mixed_sets(subject, place, size),
        }
    }

    /// The set of an object that is a file.
    fn set_of_file(self, object: u64) -> u64 {
        match self.shape {
            Shape::Mixed { size } => match object {
                ONE_SHOP..NO_SHOP => 1 << (object - ONE_SHOP),
                MIXED_READ.. => set_of_ring((object - MIXED_READ) / read_by_each(size)) | 1 << (object % 8),
                _ => 0,
            },
            _ => ALL_SHOPS,
        }
    }

    /// The set of a subject that comes from outside.
    fn set_of_subject(self, subject: u64) -> u64 {
        match self.shape {
            Shape::Mixed { size } => {
                let (ring, position) = (subject / size, subject % size);
                set_of_ring(ring) | 1 << ((ring + 4 + position % 4) % 8)
            }
            _ => ALL_SHOPS,
        }
    }

    /// The level of an object that is a file; none for a pipe.
    fn file(self, object: u64) -> Option<u64> {
        match self.shape {
            Shape::Rings { files, .. } => match object {
                ..END_FILE => None,
                END_FILE => Some(LEVEL),
                _ if object < first_read(files) => Some((object - LOW_FILE) % LEVEL),
                _ => Some(LEVEL + object % 4),
            },
            Shape::Chords => match object {
                ..CHORD_FILES => None,
                CHORD_FILES..CHORD_READ => Some(CHORD_LEVELS[(object - CHORD_FILES) as usize]),
                _ => Some(LEVEL + object % 4),
            },
            Shape::Pipes => None,
            Shape::PipesAndOneFile => (object == LAST).then_some(LEVEL),
            Shape::Mixed { .. } => match object {
                ..END_FILE => None,
                END_FILE => Some(LEVEL),
                ONE_SHOP..MIXED_READ => Some((object - ONE_SHOP) % LEVEL),
                _ => Some(LEVEL + object % 4),
            },
        }
    }

    /// The number by which the host knows an object.
    fn number(self, object: u64) -> u64 {
        match self.numbers {
            Numbers::Low => object,
            Numbers::Far => u64::MAX - 64 * object,
        }
    }

    /// The first member of a subject's group.
    fn first_member(self, subject: u64) -> u64 {
        match self.groups {
            Groups::Single => subject,
            Groups::Neighbours => subject - subject % 4,
            Groups::Apart => subject % 8,
        }
    }

    /// The call that brings a subject in: from outside, or as a thread of the first member of its group.
    fn bringing(self, subject: u64) -> Numbered {
        let first = self.first_member(subject);
        if first == subject {
            numbered(Call::Admit { subject, level: LEVEL, shops: self.set_of_subject(subject) })
        } else {
            (THREAD, [first, subject, 0, 0, 0, 0])
        }
    }

    /// The call that opens the handle at a place of a subject.
    pub fn opening(self, subject: u64, place: u64) -> Call {
        let Held { object, writes } = self.held(subject, place);
        let object = self.number(object);
        if writes {
            Call::OpenWrite { subject, object, place }
        } else {
            Call::OpenRead { subject, object, place }
        }
    }

    /// The calls that fill empty tables. A pipe is made by the first who writes it; the reading end that this subject
    /// gets with it, at a place that is still empty, is closed again.
    pub fn filling(self) -> Vec<Numbered> {
        let files = (0..OBJECTS).filter_map(|object| Some((object, self.file(object)?)));
        let register = |(object, level)| {
            let shops = self.set_of_file(object);
            Call::Register { object: self.number(object), level, shops }
        };
        let mut calls: Vec<Numbered> = files.map(register).map(numbered).collect();
        calls.extend((0..self.subjects).map(|subject| self.bringing(subject)));
        let mut made = Vec::new();
        for object in (0..OBJECTS).filter(|&object| self.file(object).is_none()) {
            let written = Held { object, writes: true };
            let Some((subject, writes)) = self.places().find(|&(s, p)| self.held(s, p) == written) else {
                continue;
            };
            made.push((subject, writes));
            let is_empty = |place: &u64| !made.contains(&(subject, *place));
            let Some(reads) = (0..PLACES).find(is_empty) else { continue };
            calls.push(numbered(Call::Pipe { subject, object: self.number(object), reads, writes }));
            calls.push(numbered(Call::Close { subject, place: reads }));
        }
        let others = self.places().filter(|place| !made.contains(place));
        calls.extend(others.map(|(subject, place)| numbered(self.opening(subject, place))));
        calls
    }

    /// A round: each handle is closed, and opened again at its place.
    pub fn round(self) -> Vec<Numbered> {
        let close_and_open =
            |(subject, place)| [Call::Close { subject, place }, self.opening(subject, place)].map(numbered);
        self.places().flat_map(close_and_open).collect()
    }
}

/// The first file that is only read, of those in the layouts of rings.
fn first_read(files: Files) -> u64 {
    match files {
        Files::One => LOW_FILE + 1,
        Files::Several | Files::Everyone => 48,
    }
}

/// Subject s writes pipe s.
fn in_rings(subject: u64, place: u64, size: u64, with_order: bool, files: Files) -> Held {
    let last = PLACES - 1;
    let (reads, writes) = if with_order { (last, 0) } else { (0, last) };
    // Needs travel against the flow: to a lower subject where the flow goes to a higher one.
    let (back, end) = if with_order { (1, 0) } else { (size - 1, size - 1) };
    let (first, position) = (subject - subject % size, subject % size);
    if place == writes {
        return Held { object: subject, writes: true };
    }
    if place == reads {
        return Held { object: first + (position + back) % size, writes: false };
    }
    if place == 1 && (position == end || files == Files::Everyone) {
        return Held { object: END_FILE, writes: true };
    }
    let turn = 7 * subject + place / 2;
    let read = first_read(files);
    if place % 2 == 1 && files != Files::One {
        Held { object: LOW_FILE + turn % (read - LOW_FILE), writes: true }
    } else {
        Held { object: read + turn % (OBJECTS - read), writes: false }
    }
}

/// In the layout with chords: the pipes across rings start here, then the files that are written, with their levels,
/// then those that are read.
const CHORDS: u64 = 32;
const CHORD_FILES: u64 = 48;
const CHORD_READ: u64 = 56;
const CHORD_LEVELS: [u64; 8] = [12, 3, 9, 0, 11, 5, 8, 2];

/// Chord j of a ring goes from its subject 2j to its subject 2j + 5.
fn with_chords(subject: u64, place: u64) -> Held {
    let (ring, position) = (subject / 8, subject % 8);
    match place {
        0 | 15 => in_rings(subject, place, 8, false, Files::One),
        1 => Held { object: CHORD_FILES + (position + 2 * ring) % 8, writes: true },
        14 if position % 2 == 0 => Held { object: CHORDS + 4 * ring + position / 2, writes: true },
        14 => Held { object: CHORDS + 4 * ring + (position + 3) % 8 / 2, writes: false },
        _ if place % 2 == 1 => {
            // The files of the three lowest levels.
            let low = [CHORD_FILES + 1, CHORD_FILES + 3, CHORD_FILES + 7];
            Held { object: low[((subject + place / 2) % 3) as usize], writes: true }
        }
        _ => Held { object: CHORD_READ + (subject + place / 2) % 8, writes: false },
    }
}

/// With mixed sets: the files that have one shop mark each start here, that of group 0 first, then those that have none,
/// then those that are read.
const ONE_SHOP: u64 = 33;
const NO_SHOP: u64 = 41;
const MIXED_READ: u64 = 48;

/// How many of the files that are read each ring has.
fn read_by_each(size: u64) -> u64 {
    (OBJECTS - MIXED_READ) * size / SUBJECTS
}

/// The shop marks of four groups, from the ring's own on.
fn set_of_ring(ring: u64) -> u64 {
    (0..4).map(|group| 1 << ((ring + group) % 8)).sum()
}

/// The last subject of each quarter of a ring writes a file of one shop mark, once; its end writes the file of level 12, once.
fn with_mixed_sets(subject: u64, place: u64, size: u64) -> Held {
    let (ring, position) = (subject / size, subject % size);
    let (quarter, in_quarter) = (4 * position / size, position % (size / 4));
    let turn = 7 * subject + place / 2;
    match place {
        0 | 15 => in_rings(subject, place, size, false, Files::One),
        1 if position == size - 1 => Held { object: END_FILE, writes: true },
        3 if in_quarter == size / 4 - 1 => Held { object: ONE_SHOP + (ring + quarter) % 8, writes: true },
        _ if place % 2 == 1 => Held { object: NO_SHOP + turn % (MIXED_READ - NO_SHOP), writes: true },
        _ => {
            let count = read_by_each(size);
            Held { object: MIXED_READ + ring * count + turn % count, writes: false }
        }
    }
}

/// The last object.
const LAST: u64 = OBJECTS - 1;

/// Subject s has pipes 2s and 2s + 1. It writes them and those of the next three subjects, and reads those of the four
/// subjects before it.
fn on_pipes(subject: u64, place: u64) -> Held {
    let (index, writes) = (place / 2, place % 2 == 1);
    let steps = if writes { index / 2 } else { SUBJECTS - 1 - index / 2 };
    let neighbour = (subject + steps) % SUBJECTS;
    Held { object: 2 * neighbour + index % 2, writes }
}

#[cfg(test)]
mod tests {
    use std::collections::BTreeSet;

    use super::*;
    use gatekeeper::{Answer, Monitor, State};
    use gatekeeper_independent::labels::Label as LabelBeside;
    use gatekeeper_independent::monitor::{Answer as AnswerBeside, Monitor as MonitorBeside};
    use gatekeeper_independent::needs::{Needs, Thing};
    use gatekeeper_plain::tables::{object_as_thing, Kind};
    use gatekeeper_plain::{Answer as PlainAnswer, Label, Monitor as PlainMonitor, When};

    /// How many passes over its handles it takes the plain program until no need changes, the last one counted.
    fn passes(layout: Layout) -> usize {
        let mut monitor = PlainMonitor::new(When::Asked);
        for (code, numbers) in layout.filling() {
            monitor.direct(code, numbers);
        }
        let tables = monitor.tables();
        let mut needs = [Label::LEAST; 256];
        for (slot, object) in tables.objects.iter().enumerate() {
            if let Some(file) = object.filter(|object| object.kind == Kind::File) {
                needs[usize::from(object_as_thing(slot))] = file.label;
            }
        }
        let raised = |needs: &mut [Label]| {
            let before = needs.to_vec();
            for place in tables.places.as_flattened() {
                let [from, to] = [place.from, place.to].map(usize::from);
                needs[from] = needs[from].joined(needs[to]);
            }
            before != needs
        };
        (1..).find(|_| !raised(&mut needs)).unwrap_or(0)
    }

    fn filled(layout: Layout) -> MonitorBeside {
        let mut monitor = MonitorBeside::new();
        for (code, numbers) in layout.filling() {
            let answer = monitor.call(code, numbers);
            assert!(matches!(answer, AnswerBeside::Allowed(_)), "{}: {code} {numbers:?}", layout.name);
        }
        monitor
    }

    /// The need of a subject: level 12, and all shop marks or those of its ring, where a file is written.
    fn need(layout: Layout, subject: u64) -> LabelBeside {
        match layout.shape {
            Shape::Pipes => LabelBeside { level: 0, shops: 0 },
            Shape::Mixed { size } => LabelBeside { level: LEVEL, shops: set_of_ring(subject / size) },
            _ => LabelBeside { level: LEVEL, shops: ALL_SHOPS },
        }
    }

    #[test]
    fn the_tables_are_full_and_needs_are_12_where_a_file_is_written() {
        for layout in LAYOUTS {
            let monitor = filled(layout);
            let tables = monitor.tables();
            assert_eq!(tables.live_subjects().count(), 32, "{}", layout.name);
            assert_eq!(tables.live_objects().count(), 64, "{}", layout.name);
            assert_eq!(tables.handle_count(), 512, "{}", layout.name);
            let needs = Needs::of_tables(tables);
            for s in 0..32 {
                assert_eq!(needs.of(Thing::Subject(s)), need(layout, s), "{}, subject {s}", layout.name);
            }
        }
    }

    #[test]
    fn the_layouts_differ_in_how_many_passes_they_take() {
        let passes = LAYOUTS.map(passes);
        assert_eq!(passes, [9, 12, 65, 2, 3, 1, 7, 9, 6, 17, 9, 65]);
    }

    /// The sets of the live things, without those that occur again.
    fn sets(layout: Layout) -> [BTreeSet<u64>; 2] {
        let monitor = filled(layout);
        let tables = monitor.tables();
        let subjects = tables.live_subjects().filter_map(|s| Some(tables.subject(s)?.shops));
        let objects = tables.live_objects().filter_map(|o| Some(tables.object(o)?.shops));
        [subjects.collect(), objects.collect()]
    }

    #[test]
    fn two_layouts_have_mixed_sets() {
        for layout in &LAYOUTS[..10] {
            assert!(sets(*layout).iter().all(|sets| sets.iter().eq([&ALL_SHOPS])), "{}", layout.name);
        }
        for (layout, counts) in [(LAYOUTS[10], [24, 38]), (LAYOUTS[11], [4, 14])] {
            assert_eq!(sets(layout).map(|sets| sets.len()), counts, "{}", layout.name);
        }
    }

    /// Each shop mark of a ring's need, and its level, comes from one handle: with that gone, it is gone.
    #[test]
    fn with_mixed_sets_a_need_is_put_together() {
        for layout in &LAYOUTS[10..] {
            let mut gone = Vec::new();
            for (s, p) in layout.places().filter(|&(s, p)| layout.held(s, p).writes && (p == 1 || p == 3)) {
                let mut monitor = filled(*layout);
                assert_eq!(monitor.call(11, [s, p, 0, 0, 0, 0]), AnswerBeside::Allowed(LEVEL));
                let left = Needs::of_tables(monitor.tables()).of(Thing::Subject(s));
                let whole = need(*layout, s);
                if left != whole {
                    gone.push((whole.level - left.level, whole.shops & !left.shops));
                }
            }
            let Shape::Mixed { size } = layout.shape else { panic!("{} has no mixed sets", layout.name) };
            assert_eq!(gone.len() as u64, 5 * SUBJECTS / size, "{}", layout.name);
            assert!(gone.iter().all(|&(level, shops)| (level == 0) != (shops == 0)), "{gone:?}");
            assert!(gone.iter().all(|&(_, shops)| shops.count_ones() < 2), "{gone:?}");
        }
    }

    /// The calls that fill the tables, but for those that bring subjects in.
    fn without_subjects(layout: Layout) -> Vec<Numbered> {
        let mut calls = layout.filling();
        calls.retain(|call| ![1, THREAD].contains(&call.0));
        calls
    }

    #[test]
    fn two_layouts_have_the_handles_of_others_in_8_groups_of_4() {
        for (layout, beside) in [(LAYOUTS[8], LAYOUTS[0]), (LAYOUTS[9], LAYOUTS[2])] {
            assert_eq!(layout.round(), beside.round());
            assert_eq!(without_subjects(layout), without_subjects(beside));
            for first in (0..SUBJECTS).map(|subject| layout.first_member(subject)) {
                let members = (0..SUBJECTS).filter(|&subject| layout.first_member(subject) == first);
                assert_eq!(members.count(), 4, "{}, {first}", layout.name);
            }
        }
    }

    #[test]
    fn every_call_of_a_round_is_allowed_and_answered_alike() {
        for layout in LAYOUTS {
            let mut proved = State::new();
            let mut bytes = Monitor::new();
            let mut plain = [PlainMonitor::new(When::EachCall), PlainMonitor::new(When::Asked)];
            let mut independent = MonitorBeside::new();
            for (code, numbers) in layout.filling().into_iter().chain(layout.round()) {
                let call = format!("{}: {code} {numbers:?}", layout.name);
                let Answer::Allowed(level) = proved.direct(code, numbers) else {
                    panic!("{call} is not allowed");
                };
                assert_eq!(bytes.direct(code, numbers), Answer::Allowed(level), "{call}");
                for plain in &mut plain {
                    assert_eq!(plain.direct(code, numbers), PlainAnswer::Allowed(level), "{call}");
                }
                let beside = independent.call(code, numbers);
                assert_eq!(beside, AnswerBeside::Allowed(level.into()), "{call}");
            }
            assert_eq!((proved.open(), bytes.open()), (512, 512));
            assert_eq!(plain.map(|plain| plain.tally().open()), [512; 2]);
        }
    }

    #[test]
    fn rings_of_32_are_the_ring_against_the_order() {
        assert_eq!(rings_of(32).round(), LAYOUTS[2].round());
        assert_eq!(rings_of(32).filling(), LAYOUTS[2].filling());
        let passes = [4, 8, 16, 32].map(|size| passes(rings_of(size)));
        assert_eq!(passes, [9, 17, 33, 65]);
    }

    #[test]
    fn tables_that_grow_have_16_handles_for_each_subject() {
        for subjects in [1, 2, 4, 8, 16, 32] {
            for layout in [rings_of_4(subjects), one_ring(subjects)] {
                let mut monitor = filled(layout);
                assert_eq!(monitor.tables().handle_count(), u64::from(16 * subjects), "{}", layout.name);
                // The low file is not for those whose need is 12.
                assert_eq!(monitor.call(11, [0, 2, 0, 0, 0, 0]), AnswerBeside::Allowed(12));
                assert_eq!(monitor.call(5, [0, LOW_FILE, 2, 0, 0, 0]), AnswerBeside::Refused(9));
            }
        }
    }
}
