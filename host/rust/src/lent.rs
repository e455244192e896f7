//! The monitor as a struct, for speed: the calls on it, and what its tables hold.

use std::array::from_fn;
use std::fmt;
use std::mem::{align_of, offset_of, size_of};

use crate::answer::Answer;
use crate::archive;
use crate::call::{Call, NO_FREEZE};
use crate::label::Label;
use crate::look::{Handle, Kind, Object, Way, OBJECTS, PLACES, SUBJECTS};
use crate::monitor::{Monitor, GROUPS_AT, HANDLES_AT, NUMBERS_AT, OBJECTS_AT};

/// The codes of the calls that are tried in place first.
const OPEN_READ: u64 = 5;
const OPEN_WRITE: u64 = 6;
const CLOSE: u64 = 11;

/// A monitor with its tally of handles and its kept needs, as [`Monitor`](crate::Monitor) is one, and with the same
/// answers: but it is kept as a struct, and a call parses no bytes and lays none out. It is for speed; a `Monitor` has
/// bytes, which can be stored and sent.
///
/// It starts empty and only calls change it. So every answer is the rules', and its kept needs are right. It is a plain
/// value: a clone is a state of its own. Two are equal if their tables, their counts, their freeze, their kept needs and
/// the bytes of their groups are, what stands at numbers and slots that are not in use too.
///
/// ```
/// use gatekeeper::{Answer, Call, Label, Refusal, State};
///
/// let mut state = State::new();
/// let step = Label { level: 9, shops: 3 }; // with the marks of shop groups 0 and 1
/// state.call(Call::admit(0, step)).granted()?;
/// let book = Label { level: 9, shops: 1 };
/// state.call(Call::register(0, book)).granted()?; // the pay book of shop group 0
/// state.call(Call::Register { object: 1, level: 2, shops: 3 }).granted()?; // an hours sheet that nobody has checked
///
/// let open = Call::OpenWrite { subject: 0, object: 0, place: 0 };
/// assert_eq!(state.call(open), Answer::Allowed(9));
/// let open = Call::OpenRead { subject: 0, object: 1, place: 1 };
/// assert_eq!(state.call(open), Answer::Refused(Refusal::Flow));
/// assert_eq!((state.subject(0), state.need_of_subject(0), state.open()), (Some(step), Some(book), 1));
/// # Ok::<(), Refusal>(())
/// ```
#[repr(C)]
#[derive(Clone, PartialEq, Eq)]
pub struct State {
    /// The number of the object in each slot.
    pub(crate) numbers: [u64; OBJECTS as usize],
    /// The kept needs, of the subjects and then of the slots: 256 times the level, and the set.
    pub(crate) needs: [u16; (SUBJECTS + OBJECTS) as usize],
    pub(crate) subjects: [SubjectRecord; SUBJECTS as usize],
    pub(crate) objects: [ObjectRecord; OBJECTS as usize],
    pub(crate) handles: [HandleRecord; (SUBJECTS * PLACES) as usize],
    pub(crate) freeze: u8,
    /// Live subjects with the same byte are in one group.
    pub(crate) groups: [u8; SUBJECTS as usize],
    pub(crate) sure: u8,
    /// Handles made, and handles gone.
    pub(crate) counts: [u64; 2],
}

/// 0 where there is no such subject, its level, and its set of shop marks.
#[repr(C)]
#[derive(Clone, Copy, PartialEq, Eq)]
pub(crate) struct SubjectRecord {
    live: u8,
    level: u8,
    shops: u8,
}

/// A slot: 0 where no object stands in it, its level, and its set of shop marks.
#[repr(C)]
#[derive(Clone, Copy, PartialEq, Eq)]
pub(crate) struct ObjectRecord {
    kind: u8,
    level: u8,
    shops: u8,
}

/// 0 where the place is empty, its object's slot, and 0 where it is not marked. That of place p of subject s is number
/// 16 s + p.
#[repr(C)]
#[derive(Clone, Copy, PartialEq, Eq)]
pub(crate) struct HandleRecord {
    way: u8,
    slot: u8,
    mark: u8,
}

// `struct gatekeeper_monitor` of host/gatekeeper.h: what the archive is lent.
const _: () = {
    assert!(size_of::<State>() == 2584 && align_of::<State>() == 8);
    assert!(offset_of!(State, numbers) == 0);
    assert!(offset_of!(State, needs) == 512);
    assert!(offset_of!(State, subjects) == 704);
    assert!(offset_of!(State, objects) == 800);
    assert!(offset_of!(State, handles) == 992);
    assert!(offset_of!(State, freeze) == 2528);
    assert!(offset_of!(State, groups) == 2529);
    assert!(offset_of!(State, sure) == 2561);
    assert!(offset_of!(State, counts) == 2568);
};

impl State {
    /// Nothing live, nothing open, nothing counted, nothing frozen.
    pub fn new() -> State {
        // No call hands a length over, which an archive of another version would find wrong.
        let [major, minor, patch] = crate::archive_version();
        let version = format!("{major}.{minor}.{patch}");
        assert_eq!(version, crate::VERSION, "libhost.a is of another version than this crate");

        let mut state = State {
            numbers: [0; OBJECTS as usize],
            needs: [0; (SUBJECTS + OBJECTS) as usize],
            subjects: [SubjectRecord { live: 0, level: 0, shops: 0 }; SUBJECTS as usize],
            objects: [ObjectRecord { kind: 0, level: 0, shops: 0 }; OBJECTS as usize],
            handles: [HandleRecord { way: 0, slot: 0, mark: 0 }; (SUBJECTS * PLACES) as usize],
            freeze: 0,
            groups: [0; SUBJECTS as usize],
            sure: 0,
            counts: [0; 2],
        };
        archive::monitor_empty(&mut state);
        state
    }

    /// Makes a call.
    pub fn call(&mut self, call: Call) -> Answer {
        self.direct(call.code(), call.numbers())
    }

    /// Makes the call with this code, whatever it is. Numbers that the code does not use are ignored.
    #[inline]
    pub fn direct(&mut self, code: u64, numbers: [u64; 6]) -> Answer {
        let quick = self.quick(code, numbers);
        let number = if quick != 0 { quick } else { archive::monitor_call(self, code, numbers) };
        Answer::from_number(number)
    }

    /// The answer's number to an open or a close that changes no need, which is done in place; 0, and nothing is
    /// touched, where it is not that simple.
    #[inline]
    fn quick(&mut self, code: u64, numbers: [u64; 6]) -> u32 {
        // tools/step writes this: from here
        let [a, b, c, ..] = numbers;
        match code {
            OPEN_READ | OPEN_WRITE => archive::quick_open(self, code, a, b, c),
            CLOSE => archive::quick_close(self, a, b),
            _ => 0,
        }
        // tools/step writes this: to here
    }

    /// Handles made over all calls, modulo 2 to the 64th.
    pub fn made(&self) -> u64 {
        self.counts[0]
    }

    /// Handles gone over all calls, modulo 2 to the 64th.
    pub fn gone(&self) -> u64 {
        self.counts[1]
    }

    /// Made minus gone, modulo 2 to the 64th: the handles open.
    pub fn open(&self) -> u64 {
        self.made().wrapping_sub(self.gone())
    }

    /// The level from which on files are frozen; none where no file is.
    pub fn frozen_from(&self) -> Option<u8> {
        (u64::from(self.freeze) < NO_FREEZE).then_some(self.freeze)
    }

    /// Whether calls go by what the state keeps, and look for no dangling handle: the header's `sure`. They do, and
    /// every call leaves that so, but for a state that was filled from bytes in which some label is below its need
    /// ([`State::from`] a monitor), on which calls are slow.
    pub fn is_sure(&self) -> bool {
        self.sure == 1
    }
}

/// For the tests of this crate: each of the two ways that a call can take, by itself, and a state that is not sure.
#[doc(hidden)]
impl State {
    /// The call in place. None, and nothing is touched, where it is not that simple.
    pub fn quickly(&mut self, code: u64, numbers: [u64; 6]) -> Option<Answer> {
        let number = self.quick(code, numbers);
        (number != 0).then(|| Answer::from_number(number))
    }

    /// The call by `gatekeeper_monitor_call`, whatever it is.
    pub fn wholly(&mut self, code: u64, numbers: [u64; 6]) -> Answer {
        Answer::from_number(archive::monitor_call(self, code, numbers))
    }

    /// The same tables, of which nothing is said.
    pub fn unsure(&self) -> State {
        State { sure: 0, ..self.clone() }
    }
}

/// What the tables hold. Any number may be given; out of range there is nothing.
///
/// ```
/// use gatekeeper::{Call, Handle, Kind, Label, Object, Refusal, State, Way};
///
/// let mut state = State::new();
/// let (book, step) = (Label { level: 7, shops: 1 }, Label { level: 9, shops: 5 });
/// state.call(Call::register(0, book)).granted()?;
/// state.call(Call::admit(3, step)).granted()?;
/// state.call(Call::OpenWrite { subject: 3, object: 0, place: 5 }).granted()?; // the book at place 5
///
/// assert_eq!(state.object(0), Some(Object { kind: Kind::File, label: book }));
/// assert_eq!(state.handle(3, 5), Some(Handle { way: Way::Writes, object: 0, marked: false }));
/// assert_eq!(state.handle(3, 6), None);
/// assert_eq!((state.subject(3), state.need_of_subject(3)), (Some(step), Some(book)));
/// assert_eq!((state.subject(4), state.need_of_subject(4)), (None, None));
/// # Ok::<(), Refusal>(())
/// ```
impl State {
    /// The label of a subject; none where it is not live.
    pub fn subject(&self, subject: u64) -> Option<Label> {
        let &SubjectRecord { live, level, shops } = self.subjects.get(usize::try_from(subject).ok()?)?;
        (live > 0).then_some(Label { level, shops })
    }

    /// The group of a subject, by the lowest number that a member of it has; none where the subject is not live. Two
    /// subjects are threads of one step where it is the same for both.
    pub fn group(&self, subject: u64) -> Option<u64> {
        self.subject(subject)?;
        let byte = self.groups.get(usize::try_from(subject).ok()?)?;
        let is_member = |&s: &u64| self.groups[s as usize] == *byte && self.subject(s).is_some();
        (0..SUBJECTS).find(is_member)
    }

    /// An object; none where it is not live.
    pub fn object(&self, object: u64) -> Option<Object> {
        self.object_in(self.slot_of(object)?)
    }

    /// The live objects with their numbers, the lowest number first.
    pub fn objects(&self) -> impl Iterator<Item = (u64, Object)> + '_ {
        let mut numbers: Vec<u64> = self.numbers.to_vec();
        numbers.sort_unstable();
        numbers.dedup();
        numbers.into_iter().filter_map(|number| Some((number, self.object(number)?)))
    }

    /// The handle at a place; none where it is empty, the subject not live, or the handle's object not live.
    pub fn handle(&self, subject: u64, place: u64) -> Option<Handle> {
        self.subject(subject)?;
        let at = (place < PLACES).then(|| PLACES * subject + place)?;
        let &HandleRecord { way, slot, mark } = self.handles.get(at as usize)?;
        let way = match way {
            0 => return None,
            1 => Way::Reads,
            3 => Way::Maps,
            _ => Way::Writes,
        };
        let slot = usize::from(slot);
        let object = *self.numbers.get(slot)?;
        (self.slot_of(object) == Some(slot)).then_some(Handle { way, object, marked: mark > 0 })
    }

    /// The need of a subject, the lowest label that it may fall to while no handle goes; none where it is not live.
    ///
    /// The state keeps it ready, and nothing is worked out here.
    pub fn need_of_subject(&self, subject: u64) -> Option<Label> {
        self.subject(subject)?;
        self.need_at(usize::try_from(subject).ok()?)
    }

    /// The need of an object: nothing of a label below it may reach it; none where it is not live.
    ///
    /// It is kept as that of a subject is ([`State::need_of_subject`]).
    pub fn need_of_object(&self, object: u64) -> Option<Label> {
        let slot = self.slot_of(object)?;
        self.need_at(SUBJECTS as usize + slot)
    }

    /// A kept need.
    fn need_at(&self, at: usize) -> Option<Label> {
        let [shops, level] = self.needs.get(at)?.to_le_bytes();
        Some(Label { level, shops })
    }

    /// The slot of an object: the first in use that has its number.
    fn slot_of(&self, object: u64) -> Option<usize> {
        let mut slots = self.numbers.iter().zip(&self.objects);
        slots.position(|(&number, record)| number == object && record.kind > 0)
    }

    /// What stands in a slot.
    fn object_in(&self, slot: usize) -> Option<Object> {
        let &ObjectRecord { kind, level, shops } = self.objects.get(slot)?;
        let kind = match kind {
            0 => return None,
            1 => Kind::File,
            _ => Kind::Pipe,
        };
        Some(Object { kind, label: Label { level, shops } })
    }
}

/// The state of the same tables, freeze and counts, as from bytes that were kept. It is put right and made sure, so
/// that calls on it are as fast as on one that started empty; but where some label is below its need, which calls never
/// make, it stays one that is not sure ([`State::is_sure`]) and has the rules' answers slowly.
///
/// ```
/// use gatekeeper::{Label, Monitor, Refusal, State};
///
/// let mut monitor = Monitor::new();
/// monitor.admit(0, 9, 5).granted()?;
/// monitor.register(1, 7, 1).granted()?;
/// monitor.open_write(0, 1, 4).granted()?;
///
/// let state = State::from(&monitor);
/// assert!(state.is_sure());
/// assert_eq!(state.subject(0), Some(Label { level: 9, shops: 5 }));
/// assert_eq!((state.need_of_subject(0), state.open()), (Some(Label { level: 7, shops: 1 }), 1));
/// # Ok::<(), Refusal>(())
/// ```
impl From<&Monitor> for State {
    fn from(monitor: &Monitor) -> State {
        let mut state = State::new();
        // Each object keeps its slot, which the handles go by.
        let bytes = monitor.as_bytes();
        for slot in 0..OBJECTS as usize {
            state.numbers[slot] = u64::from_le_bytes(from_fn(|byte| bytes[NUMBERS_AT + 8 * slot + byte]));
            let [kind, level, shops] = from_fn(|byte| bytes[OBJECTS_AT + 3 * slot + byte]);
            state.objects[slot] = ObjectRecord { kind: if kind < 3 { kind } else { 0 }, level, shops };
        }
        state.groups.copy_from_slice(&bytes[GROUPS_AT..]);
        for s in 0..SUBJECTS {
            if let Some(Label { level, shops }) = monitor.subject(s) {
                state.subjects[s as usize] = SubjectRecord { live: 1, level, shops };
            }
            for p in 0..PLACES {
                if let Some(Handle { way, marked, .. }) = monitor.handle(s, p) {
                    let way = match way {
                        Way::Reads => 1,
                        Way::Writes => 2,
                        Way::Maps => 3,
                    };
                    let at = (PLACES * s + p) as usize;
                    let slot = bytes[HANDLES_AT + 3 * at + 1];
                    state.handles[at] = HandleRecord { way, slot, mark: marked.into() };
                }
            }
        }
        state.freeze = monitor.frozen_from().unwrap_or(NO_FREEZE as u8);
        state.counts = [monitor.made(), monitor.gone()];
        state.sure = 0;
        archive::monitor_assure(&mut state);
        state
    }
}

impl Default for State {
    fn default() -> State {
        State::new()
    }
}

impl fmt::Debug for State {
    fn fmt(&self, f: &mut fmt::Formatter<'_>) -> fmt::Result {
        f.debug_struct("State")
            .field("made", &self.made())
            .field("gone", &self.gone())
            .field("frozen_from", &self.frozen_from())
            .finish_non_exhaustive()
    }
}

#[cfg(test)]
mod tests {
    use super::*;
    use crate::{Refusal, ALL_SHOPS};

    /// The state after calls that are allowed.
    fn after(calls: &[Call]) -> State {
        let mut state = State::new();
        for &call in calls {
            assert!(state.call(call).granted().is_ok(), "{call:?}");
        }
        state
    }

    /// Every field, at the last number that it has.
    #[test]
    fn the_archive_writes_where_the_fields_are() {
        let mut state = after(&[
            Call::Register { object: 63, level: 7, shops: 6 },
            Call::Admit { subject: 31, level: 9, shops: ALL_SHOPS },
            Call::OpenWrite { subject: 31, object: 63, place: 15 },
            Call::Pipe { subject: 31, object: 62, reads: 13, writes: 14 },
            Call::Mark { subject: 31, place: 15 },
            Call::Close { subject: 31, place: 13 },
            Call::Freeze { level: 5 },
            Call::Admit { subject: 0, level: 3, shops: ALL_SHOPS },
            Call::Thread { subject: 31, member: 30 },
        ]);
        assert!(state.subjects[31] == SubjectRecord { live: 1, level: 9, shops: 255 });
        assert!(state.groups[31] == state.groups[30] && state.groups[31] != state.groups[0]);
        assert_eq!([0, 30, 31, 29, 32].map(|s| state.group(s)), [Some(0), Some(30), Some(30), None, None]);
        assert!(state.objects[62] == ObjectRecord { kind: 2, level: 9, shops: 255 });
        assert!(state.objects[63] == ObjectRecord { kind: 1, level: 7, shops: 6 });
        assert_eq!((state.numbers[62], state.numbers[63]), (62, 63));
        assert!(state.handles[16 * 31 + 13].way == 0);
        assert!(state.handles[16 * 31 + 14] == HandleRecord { way: 2, slot: 62, mark: 0 });
        assert!(state.handles[16 * 31 + 15] == HandleRecord { way: 2, slot: 63, mark: 1 });
        assert_eq!((state.needs[31], state.needs[32 + 63]), (256 * 7 + 6, 256 * 7 + 6));
        assert_eq!((state.freeze, state.sure, state.counts), (5, 1, [3, 1]));
        assert_eq!((state.open(), state.frozen_from()), (2, Some(5)));
        assert_eq!([16, u64::MAX].map(|place| state.handle(31, place)), [None; 2]);

        assert_eq!(state.call(Call::Freeze { level: NO_FREEZE }), Answer::Allowed(16));
        assert_eq!((state.freeze, state.frozen_from()), (16, None));
        assert_eq!(state.call(Call::Exit { subject: 31 }), Answer::Allowed(9));
        assert_eq!((state.subject(31), state.object(62), state.gone()), (None, None, 3));
        assert_eq!([30, 31].map(|s| state.group(s)), [Some(30), None]);
        assert!(state.is_sure());
    }

    #[test]
    fn a_new_state_is_empty() {
        let state = State::default();
        assert_eq!((state.made(), state.gone(), state.open(), state.frozen_from()), (0, 0, 0, None));
        assert_eq!((state.sure, state.is_sure(), state.unsure().is_sure()), (1, true, false));
        assert!(state != state.unsure() && state == State::new());
        assert!((0..=SUBJECTS).all(|s| state.subject(s).is_none() && state.need_of_subject(s).is_none()));
        assert!((0..=SUBJECTS).all(|s| state.group(s).is_none()) && state.group(u64::MAX).is_none());
        assert!((0..=OBJECTS).all(|o| state.object(o).is_none() && state.need_of_object(o).is_none()));
        assert!((0..=SUBJECTS).all(|s| (0..=PLACES).all(|p| state.handle(s, p).is_none())));
    }

    /// From a monitor that calls made: sure, with its tables and counts, and right.
    #[test]
    fn a_state_from_kept_bytes_is_sure() {
        let calls = [
            Call::Register { object: 0, level: 7, shops: ALL_SHOPS },
            Call::Admit { subject: 0, level: 12, shops: ALL_SHOPS },
            Call::Pipe { subject: 0, object: 5, reads: 0, writes: 1 },
            Call::OpenWrite { subject: 0, object: 0, place: 2 },
            Call::Mark { subject: 0, place: 0 },
            Call::Freeze { level: 5 },
        ];
        let mut monitor = Monitor::new();
        for call in calls {
            assert!(monitor.call(call).granted().is_ok());
        }
        let state = State::from(&monitor);
        assert!(state.is_sure() && state == after(&calls));
        assert!(State::from(&Monitor::new()) == State::new());
    }

    /// From a monitor in which a step is below its need, by its level or by a shop mark alone: not sure, and answered as
    /// the bytes are.
    #[test]
    fn a_state_below_its_need_is_not_sure() {
        for label in [[2, 255], [9, 254], [15, 0]] {
            let mut monitor = Monitor::new();
            for call in [
                Call::Register { object: 0, level: 9, shops: ALL_SHOPS },
                Call::Register { object: 1, level: 3, shops: 0 },
                Call::Admit { subject: 0, level: 9, shops: ALL_SHOPS },
                Call::OpenWrite { subject: 0, object: 0, place: 0 },
            ] {
                assert!(monitor.call(call).granted().is_ok());
            }
            let mut bytes = *monitor.as_bytes();
            bytes[1..3].copy_from_slice(&label); // the level and the set of subject 0
            let mut monitor = Monitor::from_bytes(bytes);
            assert_eq!(monitor.need_of_subject(0), Some(Label { level: 9, shops: 255 }));
            let mut state = State::from(&monitor);
            assert!(!state.is_sure());
            // An open whose flow falls by the needs is refused all the same, since a step is below its need.
            let open = Call::OpenWrite { subject: 0, object: 1, place: 1 };
            let refused = Answer::Refused(Refusal::Flow);
            assert_eq!((state.call(open), monitor.call(open)), (refused, refused), "{label:?}");
            assert!(!state.is_sure());
        }
    }

    /// Slots 2, 5 and 9 have one number, and subject 0 has a handle on each: the first slot in use counts, in the struct,
    /// in bytes of the same tables and in a struct that is filled from these.
    #[test]
    fn of_slots_with_one_number_the_first_in_use_counts() {
        let mut state = after(&[
            Call::Admit { subject: 0, level: 9, shops: ALL_SHOPS },
            Call::Register { object: 1, level: 9, shops: ALL_SHOPS },
        ]);
        let mut bytes = [0; crate::STATE_BYTES];
        bytes.copy_from_slice(after_on_bytes(&state).as_bytes());
        for (place, (slot, kind)) in [(2, 1), (5, 2), (9, 1)].into_iter().enumerate() {
            state.numbers[slot] = 1 << 40;
            state.objects[slot] = ObjectRecord { kind, level: 9, shops: 3 };
            state.handles[place] = HandleRecord { way: 1, slot: slot as u8, mark: 0 };
            bytes[NUMBERS_AT + 8 * slot..][..8].copy_from_slice(&(1u64 << 40).to_le_bytes());
            bytes[OBJECTS_AT + 3 * slot..][..3].copy_from_slice(&[kind, 9, 3]);
            bytes[HANDLES_AT + 3 * place..][..3].copy_from_slice(&[1, slot as u8, 0]);
        }
        state.sure = 0;
        for (used, kind) in [(2, Kind::File), (5, Kind::Pipe), (9, Kind::File)] {
            let monitor = Monitor::from_bytes(bytes);
            let mut assured = state.clone();
            assert!(archive::monitor_assure(&mut assured) && assured.is_sure());
            let filled = State::from(&monitor);
            assert!(filled == assured);
            let book = Object { kind: Kind::File, label: Label { level: 9, shops: 255 } };
            let there = Object { kind, label: Label { level: 9, shops: 3 } };
            let expected = [(1, book), (1 << 40, there)];
            assert!(monitor.objects().eq(expected));
            for state in [&state, &assured, &filled] {
                assert!(state.objects().eq(expected));
                assert_eq!(state.object(1 << 40), Some(there));
                for (place, slot) in (0..).zip([2, 5, 9]) {
                    let there = Handle { way: Way::Reads, object: 1 << 40, marked: false };
                    assert_eq!(state.handle(0, place), (slot == used).then_some(there), "slot {slot}");
                    assert_eq!(monitor.handle(0, place), state.handle(0, place), "slot {slot}");
                }
            }
            // What counts as free is free, and what counts as empty empty.
            let in_use = assured.objects.iter().filter(|record| record.kind > 0).count();
            assert_eq!((in_use, assured.handles.iter().filter(|record| record.way > 0).count()), (2, 1));
            // With the first one free, the next one counts.
            state.objects[used].kind = 0;
            bytes[OBJECTS_AT + 3 * used] = 0;
        }
        assert_eq!((state.object(1 << 40), state.objects().count()), (None, 1));
    }

    /// The monitor of bytes after the calls with which the test above begins, which has the same tables.
    fn after_on_bytes(state: &State) -> Monitor {
        let mut monitor = Monitor::new();
        assert_eq!(monitor.admit(0, 9, ALL_SHOPS), Answer::Allowed(9));
        assert_eq!(monitor.register(1, 9, ALL_SHOPS), Answer::Allowed(9));
        assert!(State::from(&monitor) == *state);
        monitor
    }

    #[test]
    fn the_tables_are_shown() {
        let state = after(&[
            Call::Register { object: 0, level: 7, shops: ALL_SHOPS },
            Call::Register { object: 1, level: 12, shops: ALL_SHOPS },
            Call::Admit { subject: 0, level: 12, shops: ALL_SHOPS },
            Call::Pipe { subject: 0, object: 5, reads: 0, writes: 1 },
            Call::OpenWrite { subject: 0, object: 0, place: 2 },
            Call::Map { subject: 0, object: 1, place: 15 },
            Call::Mark { subject: 0, place: 0 },
        ]);
        let label = |level| Label { level, shops: 255 };
        let object = |kind, level| Some(Object { kind, label: label(level) });
        assert_eq!(
            [0, 1, 2, 5, 64, u64::MAX].map(|o| state.object(o)),
            [object(Kind::File, 7), object(Kind::File, 12), None, object(Kind::Pipe, 12), None, None]
        );
        assert_eq!([0, 1, 32, u64::MAX].map(|s| state.subject(s)), [Some(label(12)), None, None, None]);
        let handle = |way, object, marked| Some(Handle { way, object, marked });
        assert_eq!(state.handle(0, 0), handle(Way::Reads, 5, true));
        assert_eq!(state.handle(0, 1), handle(Way::Writes, 5, false));
        assert_eq!(state.handle(0, 15), handle(Way::Maps, 1, false));
        let empty = [(0, 3), (0, 16), (1, 0), (32, 0), (0, u64::MAX), (u64::MAX, 0), (1 << 28, 0)];
        assert_eq!(empty.map(|(s, p)| state.handle(s, p)), [None; 7]);
        let [seven, twelve] = [7, 12].map(|level| Some(label(level)));
        assert_eq!([0, 1, 32, u64::MAX].map(|s| state.need_of_subject(s)), [seven, None, None, None]);
        assert_eq!([0, 1, 5, 6].map(|o| state.need_of_object(o)), [seven, twelve, seven, None]);
        assert_eq!(state.need_of_object(u64::MAX), None);
    }

    #[test]
    fn a_refused_call_changes_nothing() {
        let mut state = after(&[
            Call::Register { object: 0, level: 9, shops: ALL_SHOPS },
            Call::Register { object: 1, level: 2, shops: ALL_SHOPS },
            Call::Admit { subject: 0, level: 9, shops: ALL_SHOPS },
            Call::OpenWrite { subject: 0, object: 0, place: 0 },
        ]);
        let before = state.clone();
        let open = Call::OpenRead { subject: 0, object: 1, place: 1 };
        assert_eq!(state.call(open), Answer::Refused(Refusal::Flow));
        assert_eq!(state.direct(19, [0; 6]), Answer::Refused(Refusal::UnknownCode));
        assert_eq!(state, before);
    }

    /// Opens and closes of each kind: what is quick, and what is not.
    #[test]
    fn what_changes_no_need_is_quick() {
        let state = after(&[
            Call::Register { object: 0, level: 9, shops: ALL_SHOPS },
            Call::Register { object: 1, level: 2, shops: ALL_SHOPS },
            Call::Admit { subject: 0, level: 9, shops: ALL_SHOPS },
            Call::Pipe { subject: 0, object: 8, reads: 0, writes: 1 },
            Call::OpenRead { subject: 0, object: 0, place: 2 },
            Call::Map { subject: 0, object: 0, place: 3 },
            Call::Mark { subject: 0, place: 2 },
            Call::Freeze { level: 9 },
        ]);
        let tried = |call: Call| {
            let mut state = state.clone();
            (state.quickly(call.code(), call.numbers()), state)
        };

        // No need rises by a read of the file, and none falls by a close of one of the pipe's two handles.
        for (call, level, counts) in [
            (Call::OpenRead { subject: 0, object: 1, place: 4 }, 2, [5, 0]),
            (Call::OpenRead { subject: 0, object: 8, place: 15 }, 9, [5, 0]),
            (Call::Close { subject: 0, place: 0 }, 9, [4, 1]),
            (Call::Close { subject: 0, place: 2 }, 9, [4, 1]),
            (Call::Close { subject: 0, place: 3 }, 9, [4, 1]),
        ] {
            let (answer, left) = tried(call);
            assert_eq!((answer, left.counts), (Some(Answer::Allowed(level)), counts), "{call:?}");
        }
        // What is refused with another number than 9.
        for (call, refusal) in [
            (Call::OpenWrite { subject: 1, object: 0, place: 4 }, Refusal::NoSubject),
            (Call::OpenRead { subject: 0, object: 2, place: 4 }, Refusal::NoObject),
            (Call::OpenRead { subject: 0, object: 0, place: 16 }, Refusal::PlaceUnfit),
            (Call::OpenWrite { subject: 0, object: 0, place: 0 }, Refusal::PlaceUnfit),
            (Call::OpenWrite { subject: 0, object: 0, place: 4 }, Refusal::Frozen),
            (Call::Close { subject: 32, place: 0 }, Refusal::NoSubject),
            (Call::Close { subject: 0, place: 4 }, Refusal::PlaceUnfit),
        ] {
            let (answer, left) = tried(call);
            assert_eq!((answer, left), (Some(Answer::Refused(refusal)), state.clone()), "{call:?}");
        }
        // A need rises, or the call is another.
        for call in [
            Call::OpenWrite { subject: 0, object: 1, place: 4 },
            Call::Map { subject: 0, object: 0, place: 4 },
            Call::Read { subject: 0, place: 2 },
            Call::Exit { subject: 0 },
        ] {
            assert_eq!(tried(call), (None, state.clone()), "{call:?}");
        }

        // The last handle of a pipe is closed with the pipe, and the one that a need comes by with the need.
        let mut state = state;
        assert_eq!(state.call(Call::Close { subject: 0, place: 0 }), Answer::Allowed(9));
        let last = Call::Close { subject: 0, place: 1 };
        assert_eq!(state.quickly(last.code(), last.numbers()), None);
        assert_eq!((state.call(last), state.object(8)), (Answer::Allowed(9), None));
        assert_eq!(state.call(Call::Freeze { level: NO_FREEZE }), Answer::Allowed(16));
        let open = Call::OpenWrite { subject: 0, object: 0, place: 4 };
        let need = Some(Label { level: 9, shops: 255 });
        assert_eq!((state.call(open), state.need_of_subject(0)), (Answer::Allowed(9), need));
        // Now that the need is there, a second handle is quick; frozen is refused with the need and without it.
        let second = Call::OpenWrite { subject: 0, object: 0, place: 5 };
        let mut frozen = state.clone();
        assert_eq!(frozen.call(Call::Freeze { level: 9 }), Answer::Allowed(9));
        assert_eq!(frozen.quickly(second.code(), second.numbers()), Some(Answer::Refused(Refusal::Frozen)));
        assert_eq!(state.quickly(second.code(), second.numbers()), Some(Answer::Allowed(9)));
        let close = Call::Close { subject: 0, place: 5 };
        assert_eq!(state.quickly(close.code(), close.numbers()), None);
    }

    /// A close that changes no need, by level and by set: of the need at the flow's end, what the object of the handle does
    /// not demand by itself is a lower level than the flow's source needs, and no shop mark.
    #[test]
    fn a_close_is_quick_by_labels() {
        let closes = |state: &State, subject, place| {
            let close = Call::Close { subject, place };
            let (mut quick, mut whole) = (state.clone(), state.clone());
            let answer = quick.quickly(close.code(), close.numbers());
            assert_eq!(whole.call(close), Answer::Allowed(12));
            assert!(answer.is_none() || quick == whole);
            answer.is_some()
        };
        let base = [
            Call::Admit { subject: 0, level: 12, shops: ALL_SHOPS },
            Call::Register { object: 0, level: 9, shops: 0b011 }, // read at place 0
            Call::OpenRead { subject: 0, object: 0, place: 0 },
            Call::Pipe { subject: 0, object: 8, reads: 1, writes: 2 },
        ];
        let with = |level, shops| {
            let book = [
                Call::Register { object: 1, level, shops },
                Call::OpenWrite { subject: 0, object: 1, place: 3 },
            ];
            after(&[base.as_slice(), &book].concat())
        };
        for (level, shops) in [(9, 0b011), (9, 0b001), (2, 0b010), (0, 0)] {
            assert!(closes(&with(level, shops), 0, 0), "reading a file, with a need of {level}, {shops}");
        }
        // The pipe demands nothing by itself: what the step needs, it needs by this handle.
        assert!(closes(&after(&base), 0, 1));
        assert!(!closes(&with(9, 0b001), 0, 1));
        assert!(closes(&with(0, 0), 0, 1));
        // The way to a book with a mark.
        assert!(!closes(&with(9, 0b001), 0, 3));
    }

    /// Both ways that a call can take here say the same.
    #[test]
    fn an_open_that_offends_the_freeze_and_the_flow_is_frozen() {
        let mut state = State::new();
        assert_eq!(state.call(Call::Admit { subject: 0, level: 8, shops: ALL_SHOPS }), Answer::Allowed(8));
        assert_eq!(
            state.call(Call::Register { object: 0, level: 9, shops: ALL_SHOPS }),
            Answer::Allowed(9)
        );
        let open = Call::OpenWrite { subject: 0, object: 0, place: 0 };
        for (freeze, refusal) in
            [(9, Refusal::Frozen), (0, Refusal::Frozen), (10, Refusal::Flow), (16, Refusal::Flow)]
        {
            assert_eq!(state.call(Call::Freeze { level: freeze }), Answer::Allowed(freeze as u8));
            assert_eq!(state.call(open), Answer::Refused(refusal), "freeze {freeze}");
            let quick = state.quickly(open.code(), open.numbers());
            assert!(
                quick.is_none_or(|quick| quick == Answer::Refused(refusal)),
                "freeze {freeze}: {quick:?}"
            );
        }
    }
}
