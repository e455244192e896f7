//! What a monitor's tables hold, for a screen or a log: who is live, with which label and which handles, and how far
//! each may fall.

use std::iter;

use crate::archive;
use crate::label::Label;
use crate::monitor::Monitor;

/// How many subjects there may be; numbers start at 0.
pub const SUBJECTS: u64 = 32;
/// How many objects may be live at a time, files and pipes together; they have any numbers.
pub const OBJECTS: u64 = 64;
/// How many places for handles each subject has; numbers start at 0.
pub const PLACES: u64 = 16;

/// What an object is.
#[derive(Clone, Copy, Debug, PartialEq, Eq)]
pub enum Kind {
    File,
    Pipe,
}

/// A live object.
#[derive(Clone, Copy, Debug, PartialEq, Eq)]
pub struct Object {
    pub kind: Kind,
    pub label: Label,
}

/// What a handle is for.
#[derive(Clone, Copy, Debug, PartialEq, Eq)]
pub enum Way {
    Reads,
    Writes,
    /// A mapping: it reads.
    Maps,
}

/// A handle that is held.
#[derive(Clone, Copy, Debug, PartialEq, Eq)]
pub struct Handle {
    pub way: Way,
    /// The number of its object.
    pub object: u64,
    pub marked: bool,
}

/// What the tables hold. Any number may be given; out of range there is nothing.
///
/// ```
/// use gatekeeper::{Handle, Kind, Label, Monitor, Object, Refusal, Way};
///
/// let mut monitor = Monitor::new();
/// monitor.register(0, 7, 1).granted()?; // a book of level 7, of shop group 0
/// monitor.admit(3, 9, 5).granted()?; // a step of level 9, vouched for by shop groups 0 and 2
/// monitor.open_write(3, 0, 5).granted()?; // the book at place 5
/// monitor.pipe(3, 1 << 40, 0, 1).granted()?; // a pipe, which place 0 reads and place 1 writes
///
/// let label = Label { level: 7, shops: 1 };
/// assert_eq!(monitor.object(0), Some(Object { kind: Kind::File, label }));
/// let label = Label { level: 9, shops: 5 };
/// assert_eq!(monitor.object(1 << 40), Some(Object { kind: Kind::Pipe, label }));
/// assert_eq!(monitor.objects().map(|(number, _)| number).collect::<Vec<u64>>(), [0, 1 << 40]);
/// assert_eq!(monitor.handle(3, 5), Some(Handle { way: Way::Writes, object: 0, marked: false }));
/// assert_eq!(monitor.handle(3, 6), None);
///
/// // A line of a duty screen.
/// let line = |monitor: &Monitor, step| {
///     let (label, need) = monitor.subject(step).zip(monitor.need_of_subject(step))?;
///     Some(format!("step {step} has {label} and may fall to {need}"))
/// };
/// let said = "step 3 has level 9, shops 0 2 and may fall to level 7, shops 0";
/// assert_eq!(line(&monitor, 3).as_deref(), Some(said));
/// assert_eq!(line(&monitor, 4), None);
/// # Ok::<(), Refusal>(())
/// ```
impl Monitor {
    /// The label of a subject; none where it is not live.
    pub fn subject(&self, subject: u64) -> Option<Label> {
        let number = archive::subject(self.as_bytes(), subject);
        (number > 0).then(|| Label::from_number(number))
    }

    /// The group of a subject, by the lowest number that a member of it has; none where the subject is not live. Two
    /// subjects are threads of one step where it is the same for both.
    ///
    /// ```
    /// use gatekeeper::{Monitor, Refusal};
    ///
    /// let mut monitor = Monitor::new();
    /// monitor.admit(4, 9, 255).granted()?; // the tax step
    /// monitor.thread(4, 7).granted()?; // and a thread of it
    /// monitor.fork(7, 2).granted()?; // a step that the thread has forked
    /// assert_eq!([4, 7, 2, 5].map(|step| monitor.group(step)), [Some(4), Some(4), Some(2), None]);
    /// # Ok::<(), Refusal>(())
    /// ```
    pub fn group(&self, subject: u64) -> Option<u64> {
        let [first, live, ..] = archive::group(self.as_bytes(), subject).to_le_bytes();
        (live > 0).then_some(first.into())
    }

    /// An object; none where it is not live.
    pub fn object(&self, object: u64) -> Option<Object> {
        let number = archive::object(self.as_bytes(), object);
        let [_, kind, ..] = number.to_le_bytes();
        let kind = match kind {
            0 => return None,
            1 => Kind::File,
            2 => Kind::Pipe,
            _ => unreachable!("the archive has no object of kind {kind}"),
        };
        Some(Object { kind, label: Label::from_number(number) })
    }

    /// The live objects with their numbers, the lowest number first.
    pub fn objects(&self) -> impl Iterator<Item = (u64, Object)> + '_ {
        let mut next = Some(0);
        iter::from_fn(move || {
            let from = next?;
            let number = archive::object_from(self.as_bytes(), from);
            // Where there is none, the archive answers with 0, which may be live, too.
            let object = if number < from { None } else { self.object(number) };
            next = object.and_then(|_| number.checked_add(1));
            Some((number, object?))
        })
    }

    /// The handle at a place; none where it is empty, the subject not live, or the handle's object not live.
    pub fn handle(&self, subject: u64, place: u64) -> Option<Handle> {
        let [_, way, mark, _] = archive::handle(self.as_bytes(), subject, place).to_le_bytes();
        let way = match way {
            0 => return None,
            1 => Way::Reads,
            2 => Way::Writes,
            3 => Way::Maps,
            _ => unreachable!("the archive has no handle of way {way}"),
        };
        let object = archive::handle_object(self.as_bytes(), subject, place);
        Some(Handle { way, object, marked: mark > 0 })
    }

    /// The need of a subject, the lowest label that it may fall to while no handle goes; none where it is not live.
    ///
    /// The monitor keeps it ready, and nothing is worked out here. On a monitor from other bytes than those of
    /// [`Monitor::as_bytes`] it may be wrong until [`Monitor::put_right`]; no answer goes by it.
    pub fn need_of_subject(&self, subject: u64) -> Option<Label> {
        self.subject(subject)?;
        Some(Label::from_number(archive::subject_need(self.as_bytes(), subject)))
    }

    /// The need of an object: nothing of a label below it may reach it; none where it is not live.
    ///
    /// It is kept as that of a subject is ([`Monitor::need_of_subject`]).
    pub fn need_of_object(&self, object: u64) -> Option<Label> {
        self.object(object)?;
        Some(Label::from_number(archive::object_need(self.as_bytes(), object)))
    }
}

#[cfg(test)]
mod tests {
    use super::*;
    use crate::monitor::{GROUPS_AT, HANDLES_AT, NEEDS_AT, NUMBERS_AT, OBJECTS_AT};
    use crate::{Answer, Call, Refusal, ALL_SHOPS, STATE_BYTES};

    /// Where the kept needs of the objects stand in a monitor's bytes, behind those of the subjects.
    const OBJECT_NEEDS_AT: usize = NEEDS_AT + 2 * 32;

    /// The need of what reaches no file.
    const LEAST: Option<Label> = Some(Label::LEAST);

    /// This level with all shop marks.
    fn at(level: u8) -> Option<Label> {
        Some(Label { level, shops: 255 })
    }

    fn after(calls: &[Call]) -> Monitor {
        let mut monitor = Monitor::new();
        for &call in calls {
            assert!(monitor.call(call).granted().is_ok(), "{call:?}");
        }
        monitor
    }

    /// The same tables with other kept needs.
    fn with_needs(monitor: &Monitor, byte: u8) -> Monitor {
        let mut state = *monitor.as_bytes();
        state[NEEDS_AT..NUMBERS_AT].fill(byte);
        Monitor::from_bytes(state)
    }

    /// The kept needs of every subject and of the objects of low numbers, and of one number more each.
    fn needs(monitor: &Monitor) -> Vec<Option<Label>> {
        let subjects = (0..33).map(|s| monitor.need_of_subject(s));
        subjects.chain((0..65).map(|o| monitor.need_of_object(o))).collect()
    }

    /// All bytes but the kept needs.
    fn tables(monitor: &Monitor) -> [&[u8]; 2] {
        around_needs(monitor.as_bytes())
    }

    fn around_needs(state: &[u8; STATE_BYTES]) -> [&[u8]; 2] {
        [&state[..NEEDS_AT], &state[NUMBERS_AT..]]
    }

    fn needs_of_subjects<const N: usize>(monitor: &Monitor, subjects: [u64; N]) -> [Option<Label>; N] {
        subjects.map(|s| monitor.need_of_subject(s))
    }

    fn needs_of_objects<const N: usize>(monitor: &Monitor, objects: [u64; N]) -> [Option<Label>; N] {
        objects.map(|o| monitor.need_of_object(o))
    }

    /// Subject 0 at level 12 writes file 0, of level 7, at place 2. A pipe, object 5, comes to it from subject 1.
    fn chain() -> Monitor {
        after(&[
            Call::Register { object: 0, level: 7, shops: ALL_SHOPS },
            Call::Register { object: 1, level: 2, shops: ALL_SHOPS },
            Call::Admit { subject: 0, level: 12, shops: ALL_SHOPS },
            Call::Pipe { subject: 0, object: 5, reads: 0, writes: 1 },
            Call::Fork { subject: 0, child: 1 },
            Call::Close { subject: 0, place: 1 },
            Call::Close { subject: 1, place: 0 },
            Call::OpenWrite { subject: 0, object: 0, place: 2 },
        ])
    }

    #[test]
    fn the_tables_are_shown() {
        let mut monitor = chain();
        assert_eq!(
            [0, 1, 2, 31, 32, u64::MAX].map(|s| monitor.subject(s)),
            [at(12), at(12), None, None, None, None]
        );
        let label = |level| Label { level, shops: 255 };
        let object = |kind, level| Some(Object { kind, label: label(level) });
        let expected =
            [object(Kind::File, 7), object(Kind::File, 2), None, object(Kind::Pipe, 12), None, None];
        assert_eq!([0, 1, 2, 5, 64, u64::MAX].map(|o| monitor.object(o)), expected);

        assert_eq!(monitor.close(0, 2), Answer::Allowed(12));
        assert_eq!(monitor.map(0, 1, 15), Answer::Lowered { level: 2, lost: 0 });
        assert_eq!(monitor.mark(0, 0), Answer::Allowed(2));
        let handle = |way, object, marked| Some(Handle { way, object, marked });
        assert_eq!(monitor.handle(0, 0), handle(Way::Reads, 5, true));
        assert_eq!(monitor.handle(0, 15), handle(Way::Maps, 1, false));
        assert_eq!(monitor.handle(1, 1), handle(Way::Writes, 5, false));
        let empty = [(0, 1), (0, 2), (0, 16), (1, 0), (2, 0), (32, 0), (0, u64::MAX), (u64::MAX, 0)];
        assert_eq!(empty.map(|(s, p)| monitor.handle(s, p)), [None; 8]);
        assert_eq!(monitor.subject(0), at(2));
        let file = |level| Object { kind: Kind::File, label: label(level) };
        let pipe = Object { kind: Kind::Pipe, label: label(12) };
        assert!(monitor.objects().eq([(0, file(7)), (1, file(2)), (5, pipe)]));
    }

    #[test]
    fn objects_are_listed_by_their_numbers() {
        let mut monitor = Monitor::new();
        assert_eq!(monitor.objects().next(), None);
        // In slots 63, 0, 1 and 2, in this order.
        let numbers = [u64::MAX, 1 << 32, 65, 2];
        for (number, level) in numbers.into_iter().zip(3..) {
            assert_eq!(monitor.register(number, level, ALL_SHOPS), Answer::Allowed(level as u8));
        }
        let listed: Vec<(u64, u8)> =
            monitor.objects().map(|(number, object)| (number, object.label.level)).collect();
        assert_eq!(listed, [(2, 6), (65, 5), (1 << 32, 4), (u64::MAX, 3)]);

        // With the last one gone, nothing comes behind the one before it, though 0 is live.
        assert_eq!(monitor.register(0, 1, ALL_SHOPS), Answer::Allowed(1));
        assert_eq!(monitor.retire(u64::MAX), Answer::Allowed(3));
        let mut objects = monitor.objects().skip(3);
        assert_eq!(objects.next().map(|(number, _)| number), Some(1 << 32));
        assert_eq!((objects.next(), objects.next()), (None, None));
    }

    #[test]
    fn kept_needs_stand_behind_the_freeze() {
        let mut monitor = Monitor::new();
        assert_eq!(monitor.register(63, 7, ALL_SHOPS), Answer::Allowed(7));
        assert_eq!(monitor.register(0, 3, ALL_SHOPS), Answer::Allowed(3));
        assert_eq!(monitor.admit(31, 9, ALL_SHOPS), Answer::Allowed(9));
        assert_eq!(monitor.admit(0, 9, ALL_SHOPS), Answer::Allowed(9));
        assert_eq!(monitor.open_write(31, 63, 15), Answer::Allowed(7));
        assert_eq!(monitor.open_write(0, 0, 0), Answer::Allowed(3));
        let state = monitor.as_bytes();
        let kept = |at: usize| [state[at], state[at + 1]];
        assert_eq!([kept(NEEDS_AT), kept(NEEDS_AT + 2 * 31)], [[255, 3], [255, 7]]);
        assert_eq!([kept(OBJECT_NEEDS_AT), kept(OBJECT_NEEDS_AT + 2 * 63)], [[255, 3], [255, 7]]);
        assert_eq!((OBJECT_NEEDS_AT + 2 * 64, NUMBERS_AT + 8 * 64), (NUMBERS_AT, GROUPS_AT));

        // What is shown is what is kept, at each number its own.
        let mut state = *state;
        for (bytes, kept) in state[NEEDS_AT..NUMBERS_AT].chunks_exact_mut(2).zip(100..) {
            bytes.copy_from_slice(&[255 - kept, kept]);
        }
        let monitor = Monitor::from_bytes(state);
        let shown = |level| Some(Label { level, shops: 255 - level });
        assert_eq!(needs_of_subjects(&monitor, [0, 31, 1, 32]), [shown(100), shown(131), None, None]);
        assert_eq!(needs_of_objects(&monitor, [0, 63, 1, 64]), [shown(132), shown(195), None, None]);
    }

    #[test]
    fn a_need_is_what_the_chain_reaches() {
        let mut monitor = chain();
        assert_eq!(needs_of_subjects(&monitor, [0, 1, 2]), [at(7), at(7), None]);
        assert_eq!(needs_of_objects(&monitor, [0, 1, 2, 5]), [at(7), at(2), None, at(7)]);

        // A second way to a file of the same level, and one to a lower file, change nothing, nor does their end.
        let before = needs(&monitor);
        assert_eq!(monitor.open_write(0, 0, 3), Answer::Allowed(7));
        assert_eq!(monitor.open_write(1, 1, 3), Answer::Allowed(2));
        assert_eq!(needs(&monitor), before);
        assert_eq!(monitor.close(0, 2), Answer::Allowed(12));
        assert_eq!(needs(&monitor), before);
        // With the last way gone only the lower file is reached, and from subject 1 alone.
        assert_eq!(monitor.close(0, 3), Answer::Allowed(12));
        assert_eq!(needs_of_subjects(&monitor, [0, 1]), [LEAST, at(2)]);
        assert_eq!(needs_of_objects(&monitor, [0, 1, 5]), [at(7), at(2), LEAST]);

        // An end of a pipe is a way, too: one who reads it gives it a need, and one who writes it takes that over.
        let mut monitor = chain();
        assert_eq!(monitor.admit(2, 10, ALL_SHOPS), Answer::Allowed(10));
        assert_eq!(monitor.close(0, 0), Answer::Allowed(12));
        assert_eq!(needs_of_subjects(&monitor, [0, 1, 2]), [at(7), LEAST, LEAST]);
        assert_eq!(needs_of_objects(&monitor, [5]), [LEAST]);
        assert_eq!(monitor.open_read(0, 5, 0), Answer::Allowed(12));
        assert_eq!(needs_of_subjects(&monitor, [0, 1, 2]), [at(7), at(7), LEAST]);
        assert_eq!(needs_of_objects(&monitor, [5]), [at(7)]);
        assert_eq!(monitor.open_write(2, 5, 0), Answer::Allowed(12));
        assert_eq!(needs_of_subjects(&monitor, [0, 1, 2]), [at(7); 3]);
    }

    #[test]
    fn a_level_falls_to_the_need_and_no_lower() {
        let mut monitor = chain();
        for level in 0..16 {
            let mut monitor = monitor.clone();
            assert_eq!(monitor.register(9, level, ALL_SHOPS), Answer::Allowed(level as u8));
            let answer = monitor.open_read(1, 9, 2);
            let expected =
                if level < 7 { Answer::Refused(Refusal::Flow) } else { Answer::Allowed(level as u8) };
            assert_eq!(answer, expected, "level {level}");
        }
        // What falls keeps its need.
        assert_eq!(monitor.register(9, 7, ALL_SHOPS), Answer::Allowed(7));
        assert_eq!(monitor.open_read(1, 9, 2), Answer::Allowed(7));
        let before = needs(&monitor);
        assert_eq!(monitor.read(1, 2), Answer::Lowered { level: 7, lost: 0 });
        assert_eq!(monitor.write(1, 1), Answer::Lowered { level: 7, lost: 0 });
        assert_eq!(monitor.read(0, 0), Answer::Lowered { level: 7, lost: 0 });
        assert_eq!(needs(&monitor), before);
    }

    #[test]
    fn a_close_lets_the_needs_of_a_ring_sink() {
        // Steps 0, 1 and 2 in a ring of pipes 10, 11 and 12; step 0 writes file 0 too.
        let mut monitor = after(&[
            Call::Register { object: 0, level: 7, shops: ALL_SHOPS },
            Call::Admit { subject: 0, level: 12, shops: ALL_SHOPS },
            Call::Pipe { subject: 0, object: 10, reads: 0, writes: 1 },
            Call::Pipe { subject: 0, object: 11, reads: 2, writes: 3 },
            Call::Pipe { subject: 0, object: 12, reads: 4, writes: 5 },
            Call::Fork { subject: 0, child: 1 },
            Call::Fork { subject: 0, child: 2 },
        ]);
        for (step, kept) in [(0, [1, 4]), (1, [0, 3]), (2, [2, 5])] {
            for place in (0..6).filter(|place| !kept.contains(place)) {
                assert_eq!(monitor.close(step, place), Answer::Allowed(12));
            }
        }
        let ring = |monitor: &Monitor| {
            let [a, b, c] = needs_of_subjects(monitor, [0, 1, 2]);
            let [d, e, f] = needs_of_objects(monitor, [10, 11, 12]);
            [a, b, c, d, e, f]
        };
        assert_eq!(ring(&monitor), [LEAST; 6]);
        assert_eq!(monitor.open_write(0, 0, 15), Answer::Allowed(7));
        assert_eq!(ring(&monitor), [at(7); 6]);
        assert_eq!(monitor.close(0, 15), Answer::Allowed(12));
        assert_eq!(ring(&monitor), [LEAST; 6]);

        // And so does the end of one step, of two ways to the file.
        assert_eq!(monitor.open_write(0, 0, 15), Answer::Allowed(7));
        assert_eq!(monitor.open_write(2, 0, 14), Answer::Allowed(7));
        assert_eq!(monitor.exit(0), Answer::Allowed(12));
        assert_eq!(needs_of_subjects(&monitor, [0, 1, 2]), [None, at(7), at(7)]);
        assert_eq!(needs_of_objects(&monitor, [10, 11, 12]), [at(7), at(7), LEAST]);
        assert_eq!(monitor.exit(2), Answer::Allowed(12));
        assert_eq!(needs_of_subjects(&monitor, [0, 1, 2]), [None, LEAST, None]);
        assert_eq!(needs_of_objects(&monitor, [0, 10, 11, 12]), [at(7), LEAST, LEAST, None]);
    }

    #[test]
    fn a_channel_gives_both_the_same_need() {
        let mut monitor = chain();
        assert_eq!(monitor.admit(2, 9, ALL_SHOPS), Answer::Allowed(9));
        assert_eq!(monitor.connect(1, 2, 20, 21, 8, 9), Answer::Allowed(12));
        assert_eq!(needs_of_subjects(&monitor, [0, 1, 2]), [at(7); 3]);
        assert_eq!(needs_of_objects(&monitor, [5, 20, 21]), [at(7); 3]);
        // Step 2 writes no more: only what comes to it is left, and goes nowhere.
        assert_eq!(monitor.close(2, 9), Answer::Allowed(9));
        assert_eq!(needs_of_subjects(&monitor, [0, 1, 2]), [at(7), at(7), LEAST]);
        assert_eq!(needs_of_objects(&monitor, [5, 20, 21]), [at(7), LEAST, at(7)]);
    }

    #[test]
    fn a_child_has_the_need_of_its_parent() {
        let mut monitor = chain();
        assert_eq!(monitor.fork(0, 31), Answer::Allowed(12));
        assert_eq!(needs_of_subjects(&monitor, [0, 1, 31]), [at(7); 3]);
        // Each has its own handles from then on. Both read the pipe, so that its need is that of the higher one.
        assert_eq!(monitor.close(0, 2), Answer::Allowed(12));
        assert_eq!(needs_of_subjects(&monitor, [0, 1, 31]), [LEAST, at(7), at(7)]);
        assert_eq!(monitor.close(31, 2), Answer::Allowed(12));
        assert_eq!(needs_of_subjects(&monitor, [0, 1, 31]), [LEAST; 3]);
        assert_eq!(needs_of_objects(&monitor, [0, 5]), [at(7), LEAST]);
    }

    #[test]
    fn a_number_that_is_used_again_has_no_need_of_before() {
        let mut monitor = chain();
        assert_eq!(monitor.exit(1), Answer::Allowed(12));
        assert_eq!(needs_of_objects(&monitor, [5]), [at(7)]);
        assert_eq!(monitor.close(0, 0), Answer::Allowed(12));
        assert_eq!((monitor.object(5), monitor.need_of_object(5)), (None, None));

        // The ended pipe's number for a pipe that leads nowhere, then for a file.
        assert_eq!(monitor.admit(1, 4, ALL_SHOPS), Answer::Allowed(4));
        assert_eq!(needs_of_subjects(&monitor, [0, 1]), [at(7), LEAST]);
        assert_eq!(monitor.pipe(1, 5, 0, 1), Answer::Allowed(4));
        assert_eq!(needs_of_objects(&monitor, [5]), [LEAST]);
        assert_eq!(monitor.exit(1), Answer::Allowed(4));
        assert_eq!(monitor.register(5, 3, ALL_SHOPS), Answer::Allowed(3));
        assert_eq!(needs_of_objects(&monitor, [5]), [at(3)]);

        // A retired file's number, for a pipe; and a new file of a step's own.
        assert_eq!(monitor.retire(5), Answer::Allowed(3));
        assert_eq!(needs_of_objects(&monitor, [5]), [None]);
        assert_eq!(monitor.pipe(0, 5, 0, 1), Answer::Allowed(12));
        assert_eq!(needs_of_objects(&monitor, [5]), [at(7)]);
        assert_eq!(monitor.create(0, 6), Answer::Allowed(12));
        assert_eq!(needs_of_objects(&monitor, [6]), [at(12)]);
    }

    #[test]
    fn an_exec_lets_needs_sink_with_what_it_drops() {
        let mut monitor = chain();
        let before = monitor.clone();
        assert_eq!(monitor.exec(0, 1), Answer::Refused(Refusal::Flow));
        assert_eq!(monitor, before);

        // The marked way to the file.
        assert_eq!(monitor.mark(0, 2), Answer::Allowed(12));
        assert_eq!(needs(&monitor), needs(&before));
        assert_eq!(monitor.exec(0, 1), Answer::Lowered { level: 2, lost: 0 });
        assert_eq!(needs_of_subjects(&monitor, [0, 1]), [LEAST, LEAST]);
        assert_eq!(needs_of_objects(&monitor, [0, 1, 5]), [at(7), at(2), LEAST]);

        // A marked end of a pipe: what is behind it no longer reaches the file, and the step itself does.
        let mut monitor = before.clone();
        assert_eq!(monitor.mark(0, 0), Answer::Allowed(12));
        assert_eq!(monitor.exec(0, 0), Answer::Lowered { level: 7, lost: 0 });
        assert_eq!(needs_of_subjects(&monitor, [0, 1]), [at(7), LEAST]);
        assert_eq!(needs_of_objects(&monitor, [0, 5]), [at(7), LEAST]);

        // In bytes that no calls made a mapped file is below the need of the step that has it mapped.
        let mut monitor = before.clone();
        assert_eq!(monitor.register(2, 9, ALL_SHOPS), Answer::Allowed(9));
        assert_eq!(monitor.map(0, 2, 4), Answer::Lowered { level: 9, lost: 0 });
        let mut state = *monitor.as_bytes();
        state[OBJECTS_AT + 3 * 2 + 1] = 3;
        let mut monitor = Monitor::from_bytes(state);
        monitor.put_right();
        assert_eq!(needs_of_objects(&monitor, [2]), [at(7)]);
        assert_eq!(monitor.exec(0, 0), Answer::Lowered { level: 7, lost: 0 });
        assert_eq!(needs_of_objects(&monitor, [2]), [at(3)]);
        assert_eq!(needs_of_subjects(&monitor, [0]), [at(7)]);
    }

    #[test]
    fn no_answer_goes_by_a_kept_need() {
        let right = chain();
        let calls = [
            Call::OpenRead { subject: 1, object: 1, place: 2 },
            Call::Exec { subject: 1, object: 1 },
            Call::Admit { subject: 2, level: 3, shops: ALL_SHOPS },
            Call::Connect { subject: 1, peer: 2, to: 6, from: 7, reading: 3, writing: 4 },
            Call::Close { subject: 0, place: 2 },
            Call::OpenRead { subject: 1, object: 1, place: 2 },
            Call::Read { subject: 1, place: 2 },
            Call::Write { subject: 1, place: 1 },
            Call::OpenWrite { subject: 0, object: 0, place: 2 },
        ];
        for byte in 0..=255 {
            let (mut right, mut wrong) = (right.clone(), with_needs(&right, byte));
            for call in calls {
                assert_eq!(wrong.call(call), right.call(call), "{call:?}, needs of {byte}");
                assert_eq!(tables(&wrong), tables(&right), "{call:?}, needs of {byte}");
            }
            wrong.put_right();
            assert_eq!(tables(&wrong), tables(&right));
            assert_eq!(needs(&wrong), needs(&right), "needs of {byte}, put right");
        }
    }

    #[test]
    fn what_is_right_stays_as_it_is() {
        for monitor in [Monitor::new(), chain()] {
            let mut again = monitor.clone();
            again.put_right();
            assert_eq!((tables(&again), needs(&again)), (tables(&monitor), needs(&monitor)));
        }
        // What is put right stays right, of whatever bytes.
        for byte in 0..=255 {
            let state = [byte; STATE_BYTES];
            let mut monitor = Monitor::from_bytes(state);
            monitor.put_right();
            assert_eq!(tables(&monitor), around_needs(&state));
            let once = needs(&monitor);
            monitor.put_right();
            assert_eq!(needs(&monitor), once, "{byte}");
        }
    }

    #[test]
    fn a_handle_that_dangles_is_an_empty_place() {
        // Subject 0 has file 0 open for writing, but there is no such file; it reads pipe 1, which is there.
        let mut state = *after(&[Call::Admit { subject: 0, level: 9, shops: ALL_SHOPS }]).as_bytes();
        state[OBJECTS_AT + 3..][..3].copy_from_slice(&[2, 9, 255]);
        state[NUMBERS_AT + 8] = 1;
        state[HANDLES_AT..][..6].copy_from_slice(&[2, 0, 1, 1, 1, 0]);
        let mut monitor = Monitor::from_bytes(state);
        monitor.put_right();
        assert_eq!((monitor.handle(0, 0), needs_of_subjects(&monitor, [0])), (None, [LEAST]));
        assert_eq!(monitor.handle(0, 1), Some(Handle { way: Way::Reads, object: 1, marked: false }));
        assert_eq!(tables(&monitor), around_needs(&state));

        // When the number comes into use, the place is empty still, and the need is that of an empty place.
        assert_eq!(monitor.register(0, 8, ALL_SHOPS), Answer::Allowed(8));
        assert_eq!((monitor.handle(0, 0), needs_of_subjects(&monitor, [0])), (None, [LEAST]));
        assert_eq!(needs_of_objects(&monitor, [0, 1]), [at(8), LEAST]);
        assert_eq!(monitor.open_write(0, 0, 0), Answer::Allowed(8));
        assert_eq!(needs_of_subjects(&monitor, [0]), [at(8)]);
        assert_eq!(needs_of_objects(&monitor, [0, 1]), [at(8), at(8)]);

        // So it is with the handles of a subject that is not there, on objects that are.
        state[0] = 0;
        state[OBJECTS_AT..][..3].copy_from_slice(&[1, 8, 255]);
        let mut monitor = Monitor::from_bytes(state);
        monitor.put_right();
        assert_eq!((monitor.handle(0, 0), monitor.handle(0, 1)), (None, None));
        assert_eq!(needs_of_objects(&monitor, [0, 1]), [at(8), LEAST]);
        assert_eq!(monitor.admit(0, 9, ALL_SHOPS), Answer::Allowed(9));
        assert_eq!((monitor.handle(0, 0), needs_of_subjects(&monitor, [0])), (None, [LEAST]));
        assert_eq!(needs_of_objects(&monitor, [0, 1]), [at(8), LEAST]);
    }
}
