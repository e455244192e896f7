//! The monitor: its bytes, and the calls on it.

use std::fmt;

use crate::answer::Answer;
use crate::archive;
use crate::call::{Call, NO_FREEZE};
use crate::label::ALL_SHOPS;

/// How many bytes a monitor, its tally, its kept needs and its groups take.
pub const STATE_BYTES: usize = 2577;

/// Where the slots of the objects stand, behind the subjects, and the handles: three bytes each.
pub(crate) const OBJECTS_AT: usize = 96;
pub(crate) const HANDLES_AT: usize = 288;

/// Where the kept needs stand, two bytes each; the numbers of the objects, eight bytes each; and the groups of the
/// subjects, one byte each.
pub(crate) const NEEDS_AT: usize = 1841;
pub(crate) const NUMBERS_AT: usize = 2033;
pub(crate) const GROUPS_AT: usize = 2545;

/// The bytes of before this version, in which subjects and slots had two bytes and a kept need one.
pub(crate) mod before {
    /// Where the handles stood. What came before them were subjects and slots alone.
    pub(crate) const HANDLES_AT: usize = 192;
    /// Where the kept needs stood; so many bytes a monitor took in versions 2.0.0 to 3.0.0.
    pub(crate) const NEEDS_AT: usize = 1745;
    /// Where the numbers of the objects stood; so many bytes a monitor took in versions 4.0.0 to 5.0.0.
    pub(crate) const NUMBERS_AT: usize = 1841;
    /// Where the groups of the subjects stood; so many bytes a monitor took in versions 6.0.0 and 6.1.0.
    pub(crate) const GROUPS_AT: usize = 2353;
    /// So many bytes a monitor took in version 7.0.0.
    pub(crate) const STATE_BYTES: usize = 2385;
}

/// A monitor with its tally of handles and its kept needs. It is a plain value: a clone is a monitor of its own.
///
/// Two are equal if their bytes are, which byte a group has and what stands at numbers and slots that are not in use among
/// them.
#[derive(Clone, PartialEq, Eq)]
pub struct Monitor {
    pub(crate) state: [u8; STATE_BYTES],
}

impl Monitor {
    /// Nothing live, nothing open, nothing counted, nothing frozen.
    pub fn new() -> Monitor {
        let mut state = [0; STATE_BYTES];
        assert!(archive::empty(&mut state), "{}", archive::OTHER_VERSION);
        Monitor { state }
    }

    /// The monitor that these bytes are. Any bytes are one; `host/gatekeeper.h` has the layout. On bytes that did not
    /// come from [`Monitor::as_bytes`] of this version, [`Monitor::put_right`] is to be called once: calls are answered
    /// by the rules without it, but needs may be shown wrong. [`Monitor::from_kept`] does so with those of before.
    pub fn from_bytes(state: [u8; STATE_BYTES]) -> Monitor {
        Monitor { state }
    }

    /// The monitor that a host kept as bytes: those of this version as they are; the 2,385 of version 7.0.0 with the shop
    /// marks of all groups ([`ALL_SHOPS`]) for each subject and object, put right; the 2,353 of version 6.0.0 or 6.1.0 with
    /// a group of its own for each subject as well; and the 1,841 of versions 4.0.0 to 5.0.0, or the 1,745 of version 2.0.0,
    /// 2.1.0 or 3.0.0, with the numbers 0 to 63 of its objects, too. None for bytes of any other length.
    ///
    /// With all shop marks everywhere, calls on the monitor are answered as those on the one of before.
    ///
    /// Those of a version before these lack the third byte of each handle, which is 0, and the last, which is
    /// [`NO_FREEZE`]; with them they are bytes of version 2.0.0.
    ///
    /// ```
    /// use gatekeeper::{Label, Monitor, Refusal};
    ///
    /// let mut monitor = Monitor::new();
    /// monitor.admit(0, 9, 3).granted()?; // a step of level 9, vouched for by shop groups 0 and 1
    /// monitor.register(0, 7, 1).granted()?; // a book of level 7, of shop group 0
    /// monitor.open_write(0, 0, 0).granted()?;
    ///
    /// let kept = monitor.as_bytes().to_vec();
    /// assert_eq!(Monitor::from_kept(&kept), Some(monitor));
    ///
    /// // As version 7.0.0 kept such a step and such a book, and as 6.1.0, 5.0.0 and 3.0.0 did.
    /// let mut kept = vec![0; 2385];
    /// kept[..2].copy_from_slice(&[1, 9]);
    /// kept[64..66].copy_from_slice(&[1, 7]);
    /// kept[192..195].copy_from_slice(&[2, 0, 0]);
    /// for bytes in [2385, 2353, 1841, 1745] {
    ///     let need = Monitor::from_kept(&kept[..bytes]).and_then(|monitor| monitor.need_of_subject(0));
    ///     assert_eq!(need, Some(Label { level: 7, shops: 255 }));
    /// }
    /// # Ok::<(), Refusal>(())
    /// ```
    pub fn from_kept(kept: &[u8]) -> Option<Monitor> {
        if let Ok(state) = kept.try_into() {
            return Some(Monitor::from_bytes(state));
        }
        let lengths = [before::STATE_BYTES, before::GROUPS_AT, before::NUMBERS_AT, before::NEEDS_AT];
        if !lengths.contains(&kept.len()) {
            return None;
        }
        let mut state = [0; STATE_BYTES];
        // Subjects and slots.
        let things = kept[..before::HANDLES_AT].chunks_exact(2);
        for (bytes, thing) in state[..HANDLES_AT].chunks_exact_mut(3).zip(things) {
            bytes.copy_from_slice(&[thing[0], thing[1], ALL_SHOPS as u8]);
        }
        // Handles, counts and the freeze.
        state[HANDLES_AT..NEEDS_AT].copy_from_slice(&kept[before::HANDLES_AT..before::NEEDS_AT]);
        // Numbers and groups. Before there were any, the object of number i stood at i, and each subject was by itself.
        for (bytes, number) in state[NUMBERS_AT..GROUPS_AT].chunks_exact_mut(8).zip(0u64..) {
            bytes.copy_from_slice(&number.to_le_bytes());
        }
        for (byte, group) in state[GROUPS_AT..].iter_mut().zip(0..) {
            *byte = group;
        }
        if let Some(rest) = kept.get(before::NUMBERS_AT..) {
            state[NUMBERS_AT..][..rest.len()].copy_from_slice(rest);
        }
        let mut monitor = Monitor::from_bytes(state);
        monitor.put_right();
        Some(monitor)
    }

    /// The monitor's bytes, to be kept by the host.
    pub fn as_bytes(&self) -> &[u8; STATE_BYTES] {
        &self.state
    }

    /// Works the kept needs out anew; all else stays as it is. Then the monitor is *right*: the kept need of each live
    /// subject and object is its need by the rules. [`Monitor::new`] is right, and a call on a right monitor, refused
    /// or not, leaves a right one. So this is for bytes that came from elsewhere ([`Monitor::from_bytes`]), once.
    ///
    /// ```
    /// use gatekeeper::{Label, Monitor, Refusal};
    ///
    /// let mut monitor = Monitor::new();
    /// monitor.admit(0, 9, 3).granted()?; // a step of level 9, vouched for by shop groups 0 and 1
    /// monitor.register(0, 7, 1).granted()?; // a book of level 7, of shop group 0
    /// monitor.open_write(0, 0, 0).granted()?;
    ///
    /// let mut bytes = *monitor.as_bytes();
    /// bytes[1842] = 3; // the level of the kept need of step 0, which no call made so
    /// let mut monitor = Monitor::from_bytes(bytes);
    /// assert_eq!(monitor.need_of_subject(0), Some(Label { level: 3, shops: 1 }));
    /// monitor.put_right();
    /// assert_eq!(monitor.need_of_subject(0), Some(Label { level: 7, shops: 1 }));
    /// # Ok::<(), Refusal>(())
    /// ```
    pub fn put_right(&mut self) {
        assert!(archive::put_right(&mut self.state), "{}", archive::OTHER_VERSION);
    }

    /// Makes a call.
    pub fn call(&mut self, call: Call) -> Answer {
        self.direct(call.code(), call.numbers())
    }

    /// Makes the call with this code, whatever it is. Numbers that the code does not use are ignored.
    #[inline]
    pub fn direct(&mut self, code: u64, numbers: [u64; 6]) -> Answer {
        Answer::from_number(archive::call(&mut self.state, code, numbers))
    }

    /// Handles made over all calls, modulo 2 to the 64th.
    pub fn made(&self) -> u64 {
        archive::made(&self.state)
    }

    /// Handles gone over all calls, modulo 2 to the 64th.
    pub fn gone(&self) -> u64 {
        archive::gone(&self.state)
    }

    /// Made minus gone, modulo 2 to the 64th: the handles open, on a monitor that started empty.
    pub fn open(&self) -> u64 {
        self.made().wrapping_sub(self.gone())
    }

    /// The level from which on files are frozen; none where no file is.
    ///
    /// ```
    /// use gatekeeper::{Answer, Monitor, NO_FREEZE};
    ///
    /// let mut monitor = Monitor::new();
    /// assert_eq!(monitor.freeze(9), Answer::Allowed(9));
    /// assert_eq!(monitor.frozen_from(), Some(9));
    /// assert_eq!(monitor.freeze(NO_FREEZE), Answer::Allowed(16));
    /// assert_eq!(monitor.frozen_from(), None);
    /// ```
    pub fn frozen_from(&self) -> Option<u8> {
        let level = archive::frozen_from(&self.state);
        (u64::from(level) < NO_FREEZE).then_some(level as u8)
    }
}

/// The calls by name; [`Call`] says what each does.
impl Monitor {
    /// ```
    /// use gatekeeper::{Answer, Label, Monitor, Refusal};
    ///
    /// let mut monitor = Monitor::new();
    /// assert_eq!(monitor.admit(0, 9, 0b101), Answer::Allowed(9)); // vouched for by shop groups 0 and 2
    /// assert_eq!(monitor.subject(0), Some(Label { level: 9, shops: 5 }));
    /// assert_eq!(monitor.admit(1, 9, 256), Answer::Refused(Refusal::LevelTooHigh)); // there are eight groups
    /// ```
    pub fn admit(&mut self, subject: u64, level: u64, shops: u64) -> Answer {
        self.call(Call::Admit { subject, level, shops })
    }

    pub fn register(&mut self, object: u64, level: u64, shops: u64) -> Answer {
        self.call(Call::Register { object, level, shops })
    }

    pub fn create(&mut self, subject: u64, object: u64) -> Answer {
        self.call(Call::Create { subject, object })
    }

    pub fn pipe(&mut self, subject: u64, object: u64, reads: u64, writes: u64) -> Answer {
        self.call(Call::Pipe { subject, object, reads, writes })
    }

    pub fn open_read(&mut self, subject: u64, object: u64, place: u64) -> Answer {
        self.call(Call::OpenRead { subject, object, place })
    }

    pub fn open_write(&mut self, subject: u64, object: u64, place: u64) -> Answer {
        self.call(Call::OpenWrite { subject, object, place })
    }

    pub fn read(&mut self, subject: u64, place: u64) -> Answer {
        self.call(Call::Read { subject, place })
    }

    pub fn write(&mut self, subject: u64, place: u64) -> Answer {
        self.call(Call::Write { subject, place })
    }

    pub fn fork(&mut self, subject: u64, child: u64) -> Answer {
        self.call(Call::Fork { subject, child })
    }

    pub fn exec(&mut self, subject: u64, object: u64) -> Answer {
        self.call(Call::Exec { subject, object })
    }

    pub fn close(&mut self, subject: u64, place: u64) -> Answer {
        self.call(Call::Close { subject, place })
    }

    pub fn exit(&mut self, subject: u64) -> Answer {
        self.call(Call::Exit { subject })
    }

    pub fn retire(&mut self, object: u64) -> Answer {
        self.call(Call::Retire { object })
    }

    /// ```
    /// use gatekeeper::{Answer, Monitor, Refusal};
    ///
    /// let mut monitor = Monitor::new();
    /// monitor.admit(0, 9, 3).granted()?; // an importer of level 9
    /// monitor.register(1, 2, 1).granted()?; // an hours sheet that nobody has checked
    /// // The importer's level, and how many shop marks it lost: it sees the sheet from now on.
    /// assert_eq!(monitor.map(0, 1, 0), Answer::Lowered { level: 2, lost: 1 });
    /// # Ok::<(), Refusal>(())
    /// ```
    pub fn map(&mut self, subject: u64, object: u64, place: u64) -> Answer {
        self.call(Call::Map { subject, object, place })
    }

    pub fn mark(&mut self, subject: u64, place: u64) -> Answer {
        self.call(Call::Mark { subject, place })
    }

    pub fn freeze(&mut self, level: u64) -> Answer {
        self.call(Call::Freeze { level })
    }

    /// ```
    /// use gatekeeper::{Answer, Monitor, Refusal};
    ///
    /// let mut monitor = Monitor::new();
    /// monitor.admit(0, 9, 255).granted()?; // the payslip step, of level 9
    /// monitor.admit(1, 5, 255).granted()?; // the print station, of level 5
    /// assert_eq!(monitor.connect(0, 1, 5, 6, 0, 1), Answer::Allowed(9)); // pipe 5 to the station, pipe 6 back
    /// monitor.write(1, 1).granted()?; // the station writes at its place 1,
    /// let lowered = Answer::Lowered { level: 5, lost: 0 };
    /// assert_eq!(monitor.read(0, 0), lowered); // which the payslip step reads at its place 0
    /// # Ok::<(), Refusal>(())
    /// ```
    pub fn connect(
        &mut self,
        subject: u64,
        peer: u64,
        to: u64,
        from: u64,
        reading: u64,
        writing: u64,
    ) -> Answer {
        self.call(Call::Connect { subject, peer, to, from, reading, writing })
    }

    /// ```
    /// use gatekeeper::{Answer, Label, Monitor, Refusal};
    ///
    /// let mut monitor = Monitor::new();
    /// monitor.admit(0, 9, 3).granted()?; // the tax step, of level 9
    /// assert_eq!(monitor.thread(0, 1), Answer::Allowed(9)); // and a thread of it
    /// monitor.register(0, 9, 1).granted()?; // the pay book
    /// monitor.register(1, 2, 1).granted()?; // an hours sheet that nobody has checked
    /// monitor.open_write(0, 0, 0).granted()?; // the one writes the pay book,
    /// assert_eq!(monitor.open_read(1, 1, 0), Answer::Refused(Refusal::Flow)); // so the other may not have the sheet
    ///
    /// monitor.close(0, 0).granted()?;
    /// monitor.open_read(1, 1, 0).granted()?;
    /// assert_eq!(monitor.read(1, 0), Answer::Lowered { level: 2, lost: 1 });
    /// let label = Label { level: 2, shops: 1 };
    /// assert_eq!([0, 1].map(|s| monitor.subject(s)), [Some(label); 2]); // what one has read, both have read
    /// # Ok::<(), Refusal>(())
    /// ```
    pub fn thread(&mut self, subject: u64, member: u64) -> Answer {
        self.call(Call::Thread { subject, member })
    }
}

impl Default for Monitor {
    fn default() -> Monitor {
        Monitor::new()
    }
}

impl fmt::Debug for Monitor {
    fn fmt(&self, f: &mut fmt::Formatter<'_>) -> fmt::Result {
        f.debug_struct("Monitor")
            .field("made", &self.made())
            .field("gone", &self.gone())
            .field("frozen_from", &self.frozen_from())
            .finish_non_exhaustive()
    }
}

#[cfg(test)]
mod tests {
    use super::*;
    use crate::{Kind, Label, Object, Refusal, State};

    /// Where the freeze stands in a monitor's bytes.
    const FREEZE_AT: usize = 1840;

    /// All bytes but the kept needs.
    fn tables(monitor: &Monitor) -> [&[u8]; 2] {
        let state = monitor.as_bytes();
        [&state[..NEEDS_AT], &state[NUMBERS_AT..]]
    }

    #[test]
    fn the_archive_is_of_this_version() {
        let parts: Vec<String> = crate::archive_version().iter().map(u32::to_string).collect();
        assert_eq!(parts.join("."), crate::VERSION);
    }

    #[test]
    fn the_archive_agrees_on_the_size() {
        assert_eq!(archive::state_bytes(), STATE_BYTES);
        let mut empty = [0; STATE_BYTES];
        empty[FREEZE_AT] = 16;
        assert_eq!(Monitor::new().as_bytes(), &empty);
    }

    #[test]
    fn every_call_by_name_has_its_effect() {
        let mut monitor = Monitor::new();
        assert_eq!(monitor.admit(0, 9, ALL_SHOPS), Answer::Allowed(9));
        assert_eq!(monitor.register(1, 2, ALL_SHOPS), Answer::Allowed(2));
        assert_eq!(monitor.create(0, 2), Answer::Allowed(9));
        assert_eq!(monitor.pipe(0, 3, 0, 1), Answer::Allowed(9));
        assert_eq!(monitor.fork(0, 1), Answer::Allowed(9));
        assert_eq!((monitor.made(), monitor.gone(), monitor.open()), (4, 0, 4));
        assert_eq!(monitor.close(1, 0), Answer::Allowed(9));
        assert_eq!(monitor.open_write(0, 2, 2), Answer::Allowed(9));
        assert_eq!(monitor.open_read(1, 1, 2), Answer::Refused(Refusal::Flow));
        assert_eq!(monitor.close(0, 2), Answer::Allowed(9));
        assert_eq!(monitor.open_read(1, 1, 2), Answer::Allowed(2));
        assert_eq!(monitor.read(1, 2), Answer::Lowered { level: 2, lost: 0 });
        assert_eq!(monitor.write(1, 1), Answer::Lowered { level: 2, lost: 0 });
        assert_eq!(monitor.exec(0, 1), Answer::Lowered { level: 2, lost: 0 });
        assert_eq!(monitor.retire(1), Answer::Refused(Refusal::StillOpen));
        assert_eq!(monitor.exit(1), Answer::Allowed(2));
        assert_eq!(monitor.retire(1), Answer::Allowed(2));
        assert_eq!((monitor.made(), monitor.gone(), monitor.open()), (6, 4, 2));
        assert_eq!(monitor.open_write(0, 2, 2), Answer::Refused(Refusal::Flow));
        assert_eq!(monitor.freeze(2), Answer::Allowed(2));
        assert_eq!(monitor.open_write(0, 2, 2), Answer::Refused(Refusal::Frozen));
        assert_eq!(monitor.register(1, 2, ALL_SHOPS), Answer::Allowed(2));
        assert_eq!(monitor.open_write(0, 1, 2), Answer::Refused(Refusal::Frozen));
        assert_eq!((monitor.made(), monitor.gone(), monitor.open()), (6, 4, 2));
        assert_eq!(monitor.mark(0, 0), Answer::Allowed(2));
        assert_eq!(monitor.exec(0, 1), Answer::Allowed(2));
        assert_eq!(monitor.read(0, 0), Answer::Refused(Refusal::PlaceUnfit));
        assert_eq!((monitor.made(), monitor.gone(), monitor.open()), (6, 5, 1));
        assert_eq!(monitor.admit(1, 9, ALL_SHOPS), Answer::Allowed(9));
        assert_eq!(monitor.map(1, 1, 0), Answer::Lowered { level: 2, lost: 0 });
        assert_eq!(monitor.exec(1, 1), Answer::Allowed(2));
        assert_eq!((monitor.made(), monitor.gone(), monitor.open()), (7, 6, 1));
        assert_eq!(monitor.connect(0, 1, 4, 5, 2, 3), Answer::Allowed(2));
        assert_eq!((monitor.made(), monitor.gone(), monitor.open()), (11, 6, 5));
        assert_eq!(monitor.thread(1, 2), Answer::Allowed(2));
        assert_eq!((monitor.made(), monitor.gone(), monitor.open()), (11, 6, 5));
        assert_eq!([0, 1, 2, 3].map(|s| monitor.group(s)), [Some(0), Some(1), Some(1), None]);
    }

    /// Subject 0 at level 9; file 0 at level 9, which it has open for writing at place 0; file 1 at level 2.
    fn launcher() -> Monitor {
        let mut monitor = Monitor::new();
        assert_eq!(monitor.admit(0, 9, ALL_SHOPS), Answer::Allowed(9));
        assert_eq!(monitor.register(0, 9, ALL_SHOPS), Answer::Allowed(9));
        assert_eq!(monitor.register(1, 2, ALL_SHOPS), Answer::Allowed(2));
        assert_eq!(monitor.open_write(0, 0, 0), Answer::Allowed(9));
        monitor
    }

    #[test]
    fn a_marked_handle_ends_at_exec() {
        let mut monitor = launcher();
        assert_eq!(monitor.exec(0, 1), Answer::Refused(Refusal::Flow));
        assert_eq!(monitor.mark(0, 0), Answer::Allowed(9));

        // Until then it is a handle like any other, and marked it stays.
        assert_eq!(monitor.write(0, 0), Answer::Allowed(9));
        assert_eq!(monitor.mark(0, 0), Answer::Allowed(9));
        assert_eq!(monitor.open_read(0, 1, 1), Answer::Refused(Refusal::Flow));
        assert_eq!((monitor.made(), monitor.gone()), (1, 0));

        assert_eq!(monitor.exec(0, 1), Answer::Lowered { level: 2, lost: 0 });
        assert_eq!((monitor.made(), monitor.gone(), monitor.open()), (1, 1, 0));
        assert_eq!(monitor.write(0, 0), Answer::Refused(Refusal::PlaceUnfit));
        assert_eq!(monitor.retire(0), Answer::Allowed(9));

        // The next handle at that place is not marked.
        assert_eq!(monitor.open_write(0, 1, 0), Answer::Allowed(2));
        assert_eq!(monitor.exec(0, 1), Answer::Allowed(2));
        assert_eq!(monitor.write(0, 0), Answer::Allowed(2));
    }

    #[test]
    fn a_mark_is_for_one_handle_and_goes_with_a_fork() {
        let mut monitor = launcher();
        assert_eq!(monitor.open_write(0, 0, 15), Answer::Allowed(9));
        assert_eq!(monitor.mark(0, 0), Answer::Allowed(9));

        // The other handle stays, so that the exec is refused; it closes nothing.
        let before = monitor.clone();
        assert_eq!(monitor.exec(0, 1), Answer::Refused(Refusal::Flow));
        assert_eq!(monitor, before);

        assert_eq!(monitor.fork(0, 1), Answer::Allowed(9));
        assert_eq!(monitor.close(1, 15), Answer::Allowed(9));
        assert_eq!(monitor.exec(1, 1), Answer::Lowered { level: 2, lost: 0 });
        assert_eq!((monitor.made(), monitor.gone(), monitor.open()), (4, 2, 2));
        assert_eq!(monitor.write(0, 0), Answer::Allowed(9));
    }

    #[test]
    fn a_pipe_ends_with_its_last_handle_at_exec() {
        let mut monitor = launcher();
        assert_eq!(monitor.pipe(0, 2, 1, 2), Answer::Allowed(9));
        for place in 0..3 {
            assert_eq!(monitor.mark(0, place), Answer::Allowed(9));
        }
        assert_eq!(monitor.exec(0, 1), Answer::Lowered { level: 2, lost: 0 });
        assert_eq!((monitor.made(), monitor.gone(), monitor.open()), (3, 3, 0));
        assert_eq!(monitor.open_read(0, 2, 0), Answer::Refused(Refusal::NoObject));
        assert_eq!(monitor.register(2, 2, ALL_SHOPS), Answer::Allowed(2));
    }

    #[test]
    fn only_a_handle_that_is_there_is_marked() {
        let mut monitor = launcher();
        let before = monitor.clone();
        assert_eq!(monitor.mark(0, 1), Answer::Refused(Refusal::PlaceUnfit));
        assert_eq!(monitor.mark(0, 16), Answer::Refused(Refusal::PlaceUnfit));
        assert_eq!(monitor.mark(1, 16), Answer::Refused(Refusal::NoSubject));
        assert_eq!(monitor.mark(32, 0), Answer::Refused(Refusal::NoSubject));
        assert_eq!(monitor, before);
    }

    #[test]
    fn a_mark_is_a_byte_of_the_handle() {
        let mut monitor = Monitor::new();
        assert_eq!(monitor.admit(31, 9, ALL_SHOPS), Answer::Allowed(9));
        assert_eq!(monitor.register(63, 9, ALL_SHOPS), Answer::Allowed(9));
        assert_eq!(monitor.open_write(31, 63, 15), Answer::Allowed(9));
        let handle = HANDLES_AT + 3 * (16 * 31 + 15);
        assert_eq!(monitor.as_bytes()[handle..handle + 3], [2, 63, 0]);
        assert_eq!(monitor.mark(31, 15), Answer::Allowed(9));
        assert_eq!(monitor.as_bytes()[handle..handle + 3], [2, 63, 1]);

        // Any other value of it is none.
        assert_eq!(monitor.register(0, 2, ALL_SHOPS), Answer::Allowed(2));
        for byte in 0..=255 {
            let mut state = *monitor.as_bytes();
            state[handle + 2] = byte;
            let answer = if byte == 1 {
                Answer::Lowered { level: 2, lost: 0 }
            } else {
                Answer::Refused(Refusal::Flow)
            };
            assert_eq!(Monitor::from_bytes(state).exec(31, 0), answer, "a mark of {byte}");
        }
    }

    #[test]
    fn a_map_is_a_read_at_that_moment() {
        let mut monitor = Monitor::new();
        assert_eq!(monitor.register(0, 9, ALL_SHOPS), Answer::Allowed(9));
        assert_eq!(monitor.admit(0, 12, ALL_SHOPS), Answer::Allowed(12));
        assert_eq!(monitor.map(0, 0, 0), Answer::Lowered { level: 9, lost: 0 });
        assert_eq!(monitor.map(0, 0, 1), Answer::Allowed(9));
        assert_eq!((monitor.made(), monitor.gone()), (2, 0));

        // The level is the subject's, not the file's.
        assert_eq!(monitor.admit(1, 2, ALL_SHOPS), Answer::Allowed(2));
        assert_eq!(monitor.map(1, 0, 0), Answer::Allowed(2));

        // In all else a mapping is a reading handle.
        assert_eq!(monitor.read(0, 0), Answer::Allowed(9));
        assert_eq!(monitor.write(0, 0), Answer::Refused(Refusal::WrongDirection));
        assert_eq!(monitor.map(0, 0, 0), Answer::Refused(Refusal::PlaceUnfit));
        assert_eq!(monitor.retire(0), Answer::Refused(Refusal::StillOpen));
        assert_eq!(monitor.exit(1), Answer::Allowed(2));
        assert_eq!(monitor.close(0, 1), Answer::Allowed(9));
        assert_eq!(monitor.close(0, 0), Answer::Allowed(9));
        assert_eq!(monitor.retire(0), Answer::Allowed(9));
        assert_eq!((monitor.made(), monitor.gone(), monitor.open()), (3, 3, 0));
    }

    #[test]
    fn a_map_is_refused_as_an_open_for_reading_and_on_a_pipe() {
        let mut monitor = launcher();
        assert_eq!(monitor.pipe(0, 2, 1, 2), Answer::Allowed(9));
        let before = monitor.clone();
        assert_eq!(monitor.map(1, 64, 16), Answer::Refused(Refusal::NoSubject));
        assert_eq!(monitor.map(32, 64, 16), Answer::Refused(Refusal::NoSubject));
        assert_eq!(monitor.map(0, 64, 16), Answer::Refused(Refusal::NoObject));
        assert_eq!(monitor.map(0, 3, 16), Answer::Refused(Refusal::NoObject));
        assert_eq!(monitor.map(0, 2, 16), Answer::Refused(Refusal::IsPipe));
        assert_eq!(monitor.map(0, 1, 16), Answer::Refused(Refusal::PlaceUnfit));
        assert_eq!(monitor.map(0, 1, 0), Answer::Refused(Refusal::PlaceUnfit));
        assert_eq!(monitor.map(0, 1, 3), Answer::Refused(Refusal::Flow));
        assert_eq!(monitor.open_read(0, 1, 3), Answer::Refused(Refusal::Flow));
        assert_eq!(monitor, before);

        // A freeze asks nothing of it, and the flow rule nothing once the way up is closed.
        assert_eq!(monitor.freeze(0), Answer::Allowed(0));
        assert_eq!(monitor.map(0, 0, 3), Answer::Allowed(9));
        assert_eq!(monitor.close(0, 0), Answer::Allowed(9));
        assert_eq!(monitor.map(0, 1, 0), Answer::Lowered { level: 2, lost: 0 });
    }

    #[test]
    fn who_has_a_file_mapped_reads_it_after_each_write() {
        // Subject 0 writes file 1; subjects 1 and 2 have it mapped, and 3 has it open for reading.
        let mut monitor = Monitor::new();
        assert_eq!(monitor.register(1, 2, ALL_SHOPS), Answer::Allowed(2));
        for subject in 0..4 {
            assert_eq!(monitor.admit(subject, 9, ALL_SHOPS), Answer::Allowed(9));
        }
        assert_eq!(monitor.open_write(0, 1, 0), Answer::Allowed(2));
        assert_eq!(monitor.map(1, 1, 0), Answer::Lowered { level: 2, lost: 0 });
        assert_eq!(monitor.map(2, 1, 0), Answer::Lowered { level: 2, lost: 0 });
        assert_eq!(monitor.open_read(3, 1, 0), Answer::Allowed(2));

        // They fell when they mapped it, so that the write changes nothing.
        let before = monitor.clone();
        assert_eq!(monitor.write(0, 0), Answer::Allowed(2));
        assert_eq!(tables(&monitor), tables(&before));

        // In bytes that no calls made one of them is higher. It falls, and the answer has the file's level.
        let mut state = *monitor.as_bytes();
        state[3 * 2 + 1] = 12;
        let mut monitor = Monitor::from_bytes(state);
        assert_eq!(monitor.write(0, 0), Answer::Lowered { level: 2, lost: 0 });
        assert_eq!(tables(&monitor), tables(&before));
        assert_eq!(monitor.write(0, 0), Answer::Allowed(2));

        // The writer is one of them where it has the file mapped.
        assert_eq!(monitor.map(0, 1, 1), Answer::Lowered { level: 2, lost: 0 });
        let before = monitor.clone();
        let mut state = *monitor.as_bytes();
        state[1] = 12;
        let mut monitor = Monitor::from_bytes(state);
        assert_eq!(monitor.write(0, 0), Answer::Lowered { level: 2, lost: 0 });
        assert_eq!(tables(&monitor), tables(&before));
    }

    #[test]
    fn mappings_go_with_a_fork_and_end_at_exec() {
        let mut monitor = Monitor::new();
        assert_eq!(monitor.register(0, 9, ALL_SHOPS), Answer::Allowed(9));
        assert_eq!(monitor.register(1, 2, ALL_SHOPS), Answer::Allowed(2));
        assert_eq!(monitor.admit(0, 9, ALL_SHOPS), Answer::Allowed(9));
        assert_eq!(monitor.map(0, 0, 0), Answer::Allowed(9));
        assert_eq!(monitor.map(0, 0, 1), Answer::Allowed(9));
        assert_eq!(monitor.open_read(0, 0, 2), Answer::Allowed(9));
        assert_eq!(monitor.open_write(0, 0, 3), Answer::Allowed(9));

        // An exec that is refused closes none.
        let before = monitor.clone();
        assert_eq!(monitor.exec(0, 1), Answer::Refused(Refusal::Flow));
        assert_eq!(monitor, before);

        // The child's exec closes the child's own.
        assert_eq!(monitor.fork(0, 1), Answer::Allowed(9));
        assert_eq!(monitor.close(1, 3), Answer::Allowed(9));
        assert_eq!((monitor.made(), monitor.gone()), (8, 1));
        assert_eq!(monitor.exec(1, 1), Answer::Lowered { level: 2, lost: 0 });
        assert_eq!((monitor.made(), monitor.gone()), (8, 3));
        assert_eq!(monitor.read(1, 0), Answer::Refused(Refusal::PlaceUnfit));
        assert_eq!(monitor.read(1, 1), Answer::Refused(Refusal::PlaceUnfit));
        assert_eq!(monitor.read(1, 2), Answer::Allowed(2));
        assert_eq!(monitor.read(0, 0), Answer::Allowed(9));

        // A mapping that is marked as well is one handle; what is opened in its place is no mapping.
        assert_eq!(monitor.mark(0, 0), Answer::Allowed(9));
        assert_eq!(monitor.exec(0, 0), Answer::Allowed(9));
        assert_eq!((monitor.made(), monitor.gone(), monitor.open()), (8, 5, 3));
        assert_eq!(monitor.open_read(0, 0, 0), Answer::Allowed(9));
        assert_eq!(monitor.exec(0, 0), Answer::Allowed(9));
        assert_eq!(monitor.read(0, 0), Answer::Allowed(9));
    }

    #[test]
    fn a_mapping_is_a_first_byte_of_a_handle() {
        let mut monitor = Monitor::new();
        assert_eq!(monitor.admit(31, 9, ALL_SHOPS), Answer::Allowed(9));
        assert_eq!(monitor.register(63, 9, ALL_SHOPS), Answer::Allowed(9));
        assert_eq!(monitor.map(31, 63, 15), Answer::Allowed(9));
        let handle = HANDLES_AT + 3 * (16 * 31 + 15);
        assert_eq!(monitor.as_bytes()[handle..handle + 3], [3, 63, 0]);

        // What other values of it are: whether it is read, whether written, and whether an exec closes it.
        for byte in 0..=255 {
            let mut state = *monitor.as_bytes();
            state[handle] = byte;
            let mut monitor = Monitor::from_bytes(state);
            let reads = monitor.read(31, 15).granted().is_ok();
            let writes = monitor.write(31, 15).granted().is_ok();
            let gone = monitor.gone();
            assert_eq!(monitor.exec(31, 63), Answer::Allowed(9));
            let closed = monitor.gone() > gone;
            let expected = match byte {
                1 => (true, false, false),
                2 => (false, true, false),
                3 => (true, false, true),
                _ => (false, false, false),
            };
            assert_eq!((reads, writes, closed), expected, "a first byte of {byte}");
        }
    }

    #[test]
    fn a_freeze_is_for_opens_of_files_for_writing() {
        let mut monitor = Monitor::new();
        assert_eq!(monitor.admit(0, 9, ALL_SHOPS), Answer::Allowed(9));
        assert_eq!(monitor.register(0, 9, ALL_SHOPS), Answer::Allowed(9));
        assert_eq!(monitor.register(1, 8, ALL_SHOPS), Answer::Allowed(8));
        assert_eq!(monitor.open_write(0, 0, 0), Answer::Allowed(9));
        assert_eq!(monitor.freeze(9), Answer::Allowed(9));
        assert_eq!(monitor.open_write(0, 0, 1), Answer::Refused(Refusal::Frozen));

        // What is not refused: a file below the freeze, a handle that is held, reading, a pipe, a new file, a fork.
        assert_eq!(monitor.open_write(0, 1, 1), Answer::Allowed(8));
        assert_eq!(monitor.write(0, 0), Answer::Allowed(9));
        assert_eq!(monitor.open_read(0, 0, 2), Answer::Allowed(9));
        assert_eq!(monitor.pipe(0, 2, 3, 4), Answer::Allowed(9));
        assert_eq!(monitor.open_write(0, 2, 5), Answer::Allowed(9));
        assert_eq!(monitor.create(0, 3), Answer::Allowed(9));
        assert_eq!(monitor.fork(0, 1), Answer::Allowed(9));
        assert_eq!(monitor.write(1, 0), Answer::Allowed(9));
        assert_eq!(monitor.open_write(1, 3, 6), Answer::Refused(Refusal::Frozen));

        // The new freeze is in the place of the old one, above it too.
        assert_eq!(monitor.freeze(10), Answer::Allowed(10));
        assert_eq!(monitor.open_write(1, 3, 6), Answer::Allowed(9));
        assert_eq!(monitor.freeze(0), Answer::Allowed(0));
        assert_eq!(monitor.open_write(1, 1, 7), Answer::Refused(Refusal::Frozen));
        assert_eq!(monitor.freeze(17), Answer::Refused(Refusal::LevelTooHigh));
        assert_eq!(monitor.frozen_from(), Some(0));
        assert_eq!(monitor.freeze(NO_FREEZE), Answer::Allowed(16));
        assert_eq!(monitor.open_write(1, 1, 7), Answer::Allowed(8));
    }

    #[test]
    fn an_open_that_offends_the_freeze_and_the_flow_is_frozen() {
        let mut monitor = Monitor::new();
        assert_eq!(monitor.admit(0, 8, ALL_SHOPS), Answer::Allowed(8));
        assert_eq!(monitor.register(0, 9, ALL_SHOPS), Answer::Allowed(9));
        for (freeze, refusal) in
            [(9, Refusal::Frozen), (0, Refusal::Frozen), (10, Refusal::Flow), (16, Refusal::Flow)]
        {
            assert_eq!(monitor.freeze(freeze), Answer::Allowed(freeze as u8));
            let before = monitor.clone();
            assert_eq!(monitor.open_write(0, 0, 0), Answer::Refused(refusal), "freeze {freeze}");
            // What comes before both is said first.
            assert_eq!(
                monitor.open_write(0, 0, 16),
                Answer::Refused(Refusal::PlaceUnfit),
                "freeze {freeze}"
            );
            assert_eq!(monitor, before);
        }
    }

    /// Subjects 0 at level 9 and 1 at level 5; file 0 at level 9; subject 0 has it open for writing at place 2.
    fn station() -> Monitor {
        let mut monitor = Monitor::new();
        assert_eq!(monitor.admit(0, 9, ALL_SHOPS), Answer::Allowed(9));
        assert_eq!(monitor.admit(1, 5, ALL_SHOPS), Answer::Allowed(5));
        assert_eq!(monitor.register(0, 9, ALL_SHOPS), Answer::Allowed(9));
        assert_eq!(monitor.open_write(0, 0, 2), Answer::Allowed(9));
        monitor
    }

    #[test]
    fn a_channel_goes_both_ways() {
        let mut monitor = station();
        assert_eq!(monitor.close(0, 2), Answer::Allowed(9));
        assert_eq!(monitor.connect(0, 1, 62, 63, 14, 15), Answer::Allowed(9));
        assert_eq!((monitor.made(), monitor.gone(), monitor.open()), (5, 1, 4));

        // Two pipes, each at the level of the one that writes it, and handles that are not marked.
        let state = monitor.as_bytes();
        assert_eq!(state[OBJECTS_AT + 3 * 62..HANDLES_AT], [2, 9, 255, 2, 5, 255]);
        assert_eq!(state[HANDLES_AT + 3 * 14..][..6], [1, 63, 0, 2, 62, 0]);
        assert_eq!(state[HANDLES_AT + 3 * (16 + 14)..][..6], [1, 62, 0, 2, 63, 0]);

        // What the first writes comes to the second, which is lower and stays; what the second writes lowers the first.
        assert_eq!(monitor.write(0, 15), Answer::Allowed(9));
        assert_eq!(monitor.read(1, 14), Answer::Allowed(5));
        assert_eq!(monitor.write(1, 15), Answer::Allowed(5));
        assert_eq!(monitor.read(0, 14), Answer::Lowered { level: 5, lost: 0 });
        assert_eq!(monitor.write(0, 15), Answer::Lowered { level: 5, lost: 0 });
        assert_eq!(monitor.read(0, 15), Answer::Refused(Refusal::WrongDirection));
        assert_eq!(monitor.write(0, 14), Answer::Refused(Refusal::WrongDirection));

        // The answer has the level of the one that asks, the lower one too; a freeze asks nothing of a channel.
        assert_eq!(monitor.admit(2, 12, ALL_SHOPS), Answer::Allowed(12));
        assert_eq!(monitor.freeze(0), Answer::Allowed(0));
        assert_eq!(monitor.connect(1, 2, 0, 1, 0, 1), Answer::Refused(Refusal::NumberTaken));
        assert_eq!(monitor.connect(1, 2, 1, 2, 0, 1), Answer::Allowed(5));
        assert_eq!(monitor.read(1, 0), Answer::Allowed(5));
        assert_eq!(monitor.read(2, 0), Answer::Lowered { level: 5, lost: 0 });
    }

    #[test]
    fn a_connect_is_refused_whole_and_in_order() {
        let mut monitor = station();
        assert_eq!(monitor.open_read(1, 0, 3), Answer::Allowed(9));
        let before = monitor.clone();
        let taken = 0;
        let refused = |[s, t, a, b, p, q]: [u64; 6], refusal| {
            let mut monitor = before.clone();
            let answer = monitor.connect(s, t, a, b, p, q);
            assert_eq!(answer, Answer::Refused(refusal), "{:?}", [s, t, a, b, p, q]);
            assert_eq!(monitor, before);
        };
        // Each with all that is refused after it.
        refused([32, 32, taken, taken, 16, 16], Refusal::NoSubject);
        refused([2, 2, taken, taken, 16, 16], Refusal::NoSubject);
        refused([2, 1, taken, taken, 16, 16], Refusal::NoSubject);
        refused([0, 2, taken, taken, 16, 16], Refusal::NoSubject);
        refused([0, 32, taken, taken, 16, 16], Refusal::NoSubject);
        refused([0, 0, taken, taken, 16, 16], Refusal::SameSubject);
        refused([1, 1, 5, 6, 0, 1], Refusal::SameSubject);
        refused([0, 1, taken, 6, 16, 16], Refusal::NumberTaken);
        refused([0, 1, 5, taken, 16, 16], Refusal::NumberTaken);
        refused([0, 1, 5, 5, 16, 16], Refusal::NumberTaken);
        refused([0, 1, 5, 6, 16, 1], Refusal::PlaceUnfit);
        refused([0, 1, 5, 6, 0, 16], Refusal::PlaceUnfit);
        refused([0, 1, 5, 6, 1, 1], Refusal::PlaceUnfit);
        // A place of the one, and a place of the other.
        for place in [2, 3] {
            refused([0, 1, 5, 6, place, 0], Refusal::PlaceUnfit);
            refused([0, 1, 5, 6, 0, place], Refusal::PlaceUnfit);
        }
        // The station is below the file that the first subject writes, whoever asks.
        refused([0, 1, 5, 6, 0, 1], Refusal::Flow);
        refused([1, 0, 5, 6, 0, 1], Refusal::Flow);

        assert_eq!(monitor.close(0, 2), Answer::Allowed(9));
        assert_eq!(monitor.connect(0, 1, 5, 6, 0, 1), Answer::Allowed(9));
        // With the channel there, it is the open that is refused.
        assert_eq!(monitor.open_write(0, 0, 2), Answer::Refused(Refusal::Flow));
    }

    #[test]
    fn each_pipe_of_a_channel_ends_with_its_last_handle() {
        let mut monitor = station();
        assert_eq!(monitor.close(0, 2), Answer::Allowed(9));
        assert_eq!(monitor.connect(0, 1, 5, 6, 0, 1), Answer::Allowed(9));

        // Pipe 5 from subject 0 to 1: first its writing end goes, then its reading one. Pipe 6 stays.
        assert_eq!(monitor.close(0, 1), Answer::Allowed(9));
        assert_eq!(monitor.register(5, 3, ALL_SHOPS), Answer::Refused(Refusal::NumberTaken));
        assert_eq!(monitor.read(1, 0), Answer::Allowed(5));
        assert_eq!(monitor.close(1, 0), Answer::Allowed(5));
        assert_eq!(monitor.register(5, 3, ALL_SHOPS), Answer::Allowed(3));
        assert_eq!(monitor.write(1, 1), Answer::Allowed(5));

        // A fork's handle holds pipe 6, and an exec closes the one that is marked.
        assert_eq!(monitor.fork(0, 2), Answer::Allowed(9));
        assert_eq!(monitor.exit(0), Answer::Allowed(9));
        assert_eq!(monitor.exit(1), Answer::Allowed(5));
        assert_eq!(monitor.mark(2, 0), Answer::Allowed(9));
        assert_eq!(monitor.read(2, 0), Answer::Lowered { level: 5, lost: 0 });
        assert_eq!(monitor.exec(2, 0), Answer::Allowed(5));
        assert_eq!(monitor.register(6, 3, ALL_SHOPS), Answer::Allowed(3));
        assert_eq!((monitor.made(), monitor.gone(), monitor.open()), (6, 6, 0));
    }

    #[test]
    fn bytes_of_before_are_taken_up_with_marks_and_a_freeze() {
        // As a version before 2.0.0 kept them: subject 1, file 2 and pipe 63, at level 9; subject 1 writes the file at
        // place 0, reads the pipe at 1 and writes it at 15; five handles made, two gone.
        let mut kept = [0; 1232];
        kept[2..4].copy_from_slice(&[1, 9]);
        kept[68..70].copy_from_slice(&[1, 9]);
        kept[190..192].copy_from_slice(&[2, 9]);
        kept[224..228].copy_from_slice(&[2, 2, 1, 63]);
        kept[254..256].copy_from_slice(&[2, 63]);
        kept[1216] = 5;
        kept[1224] = 2;

        let (things, rest) = kept.split_at(before::HANDLES_AT);
        let (handles, counts) = rest.split_at(2 * 512);
        let mut state = things.to_vec();
        for handle in handles.chunks_exact(2) {
            state.extend([handle[0], handle[1], 0]);
        }
        state.extend(counts);
        state.push(NO_FREEZE as u8);
        let mut monitor = Monitor::from_kept(&state).expect("the bytes of a monitor of version 2.0.0");

        assert_eq!((monitor.made(), monitor.gone(), monitor.open()), (5, 2, 3));
        assert_eq!(monitor.frozen_from(), None);
        let label = Some(Label { level: 9, shops: 255 });
        assert_eq!((monitor.need_of_subject(1), monitor.need_of_object(63)), (label, label));
        assert_eq!(monitor.write(1, 0), Answer::Allowed(9));
        assert_eq!(monitor.exec(1, 2), Answer::Allowed(9));
        assert_eq!(monitor.read(1, 1), Answer::Allowed(9));
        assert_eq!(monitor.write(1, 15), Answer::Allowed(9));
        assert_eq!(monitor.exit(1), Answer::Allowed(9));
        assert_eq!((monitor.made(), monitor.gone(), monitor.open()), (5, 5, 0));
    }

    /// The bytes that version 7.0.0 kept of such a monitor, whose sets it does not keep, with these kept needs.
    fn as_version_7_kept(monitor: &Monitor, need: u8) -> Vec<u8> {
        let state = monitor.as_bytes();
        let things = state[..HANDLES_AT].chunks_exact(3).flat_map(|thing| [thing[0], thing[1]]);
        let mut kept: Vec<u8> = things.collect();
        kept.extend(&state[HANDLES_AT..NEEDS_AT]);
        kept.extend([need; 96]);
        kept.extend(&state[NUMBERS_AT..]);
        kept
    }

    #[test]
    fn kept_bytes_are_taken_up_by_their_length() {
        let mut monitor = station();
        assert_eq!(monitor.pipe(0, 63, 0, 1), Answer::Allowed(9));
        assert_eq!(monitor.mark(0, 2), Answer::Allowed(9));
        assert_eq!(monitor.freeze(12), Answer::Allowed(12));
        assert_eq!(Monitor::from_kept(monitor.as_bytes()).as_ref(), Some(&monitor));

        // Those of before are the same monitor, and right, whatever their kept needs were.
        let least = Some(Label::LEAST);
        let upper = Some(Label { level: 9, shops: 255 });
        for need in [0, 7, 255] {
            let kept = as_version_7_kept(&monitor, need);
            assert_eq!(kept.len(), before::STATE_BYTES);
            let lengths = [before::STATE_BYTES, before::GROUPS_AT, before::NUMBERS_AT, before::NEEDS_AT];
            for len in lengths {
                let again = Monitor::from_kept(&kept[..len]).expect("bytes of a version before");
                assert_eq!((again.need_of_subject(0), again.need_of_subject(1)), (upper, least), "{len}");
                assert_eq!((again.need_of_object(0), again.need_of_object(63)), (upper, upper), "{len}");
                // Free or not, each subject and slot has all shop marks.
                let sets = |state: &[u8]| state[..HANDLES_AT].chunks_exact(3).all(|thing| thing[2] == 255);
                assert!(sets(again.as_bytes()) && !sets(monitor.as_bytes()));
                assert_eq!(
                    again.as_bytes()[HANDLES_AT..NEEDS_AT],
                    monitor.as_bytes()[HANDLES_AT..NEEDS_AT]
                );
                assert!(again.objects().eq(monitor.objects()));
                assert_eq!([0, 1, 2].map(|s| again.subject(s)), [0, 1, 2].map(|s| monitor.subject(s)));
                assert_eq!([0, 1, 2].map(|s| again.group(s)), [Some(0), Some(1), None]);
                assert!(State::from(&again).is_sure());
            }
        }

        // Numbers and groups stand as they were.
        let mut monitor = station();
        assert_eq!(monitor.register(1 << 40, 3, ALL_SHOPS), Answer::Allowed(3));
        assert_eq!(monitor.thread(1, 7), Answer::Allowed(5));
        let again = Monitor::from_kept(&as_version_7_kept(&monitor, 0)).expect("bytes of 7.0.0");
        assert_eq!(again.as_bytes()[NUMBERS_AT..], monitor.as_bytes()[NUMBERS_AT..]);
        assert!(again.objects().eq(monitor.objects()));
        assert_eq!([0, 1, 7].map(|s| again.group(s)), [Some(0), Some(1), Some(1)]);

        // Bytes of this version are taken as they are, right or not.
        let wrong = [7; STATE_BYTES];
        assert_eq!(Monitor::from_kept(&wrong), Some(Monitor::from_bytes(wrong)));

        let long = [1; STATE_BYTES + 1];
        let lengths =
            [before::NEEDS_AT, before::NUMBERS_AT, before::GROUPS_AT, before::STATE_BYTES, STATE_BYTES];
        let others = lengths.into_iter().flat_map(|len| [len - 1, len + 1]);
        for len in others.chain([0, 1, 1232]) {
            assert_eq!(Monitor::from_kept(&long[..len]), None, "{len} bytes");
        }
    }

    /// Subject 0 of level 9 with the marks of shop groups 0 and 1; file 0 of level 9, for group 0; file 1 of level 9, for
    /// group 1; file 2 of level 12, for group 0.
    fn shops() -> Monitor {
        let mut monitor = Monitor::new();
        assert_eq!(monitor.admit(0, 9, 0b11), Answer::Allowed(9));
        assert_eq!(monitor.register(0, 9, 0b01), Answer::Allowed(9));
        assert_eq!(monitor.register(1, 9, 0b10), Answer::Allowed(9));
        assert_eq!(monitor.register(2, 12, 0b01), Answer::Allowed(12));
        monitor
    }

    #[test]
    fn a_shop_mark_alone_is_lost() {
        let mut monitor = shops();
        assert_eq!(monitor.open_read(0, 2, 0), Answer::Allowed(12));
        assert_eq!(monitor.open_read(0, 1, 1), Answer::Allowed(9));
        let label = |level, shops| Some(Label { level, shops });
        assert_eq!(monitor.subject(0), label(9, 0b11));
        assert_eq!(monitor.read(0, 0), Answer::Lowered { level: 9, lost: 1 });
        assert_eq!(monitor.subject(0), label(9, 0b01));
        assert_eq!(monitor.read(0, 0), Answer::Allowed(9));
        // What both have is left, which is nothing.
        assert_eq!(monitor.read(0, 1), Answer::Lowered { level: 9, lost: 1 });
        assert_eq!(monitor.subject(0), label(9, 0));

        // A pipe loses them at a write, and a child has those of its parent.
        assert_eq!(monitor.admit(1, 9, ALL_SHOPS), Answer::Allowed(9));
        assert_eq!(monitor.pipe(1, 5, 0, 1), Answer::Allowed(9));
        assert_eq!(monitor.open_write(0, 5, 2), Answer::Allowed(9));
        assert_eq!(monitor.write(0, 2), Answer::Lowered { level: 9, lost: 8 });
        assert_eq!(monitor.object(5).map(|pipe| pipe.label), label(9, 0));
        assert_eq!(monitor.fork(1, 2), Answer::Allowed(9));
        assert_eq!(monitor.subject(2), label(9, 255));
        assert_eq!(monitor.read(2, 0), Answer::Lowered { level: 9, lost: 8 });
        assert_eq!((monitor.subject(1), monitor.subject(2)), (label(9, 255), label(9, 0)));
        // An exec and a map take them, too.
        assert_eq!(monitor.admit(3, 15, 0b111), Answer::Allowed(15));
        assert_eq!(monitor.exec(3, 2), Answer::Lowered { level: 12, lost: 2 });
        assert_eq!(monitor.map(3, 1, 0), Answer::Lowered { level: 9, lost: 1 });
        assert_eq!(monitor.subject(3), label(9, 0));
    }

    #[test]
    fn each_of_two_labels_is_below_the_other() {
        // File 0 lacks the mark of file 1, and file 1 that of file 0: a step that writes the one may not have the other.
        for (written, read) in [(0, 1), (1, 0)] {
            let mut monitor = shops();
            assert_eq!(monitor.open_write(0, written, 0), Answer::Allowed(9));
            assert_eq!(monitor.open_read(0, read, 1), Answer::Refused(Refusal::Flow));
            assert_eq!(monitor.map(0, read, 1), Answer::Refused(Refusal::Flow));
            assert_eq!(monitor.exec(0, read), Answer::Refused(Refusal::Flow));
            assert_eq!(monitor.close(0, 0), Answer::Allowed(9));
            assert_eq!(monitor.exec(0, read), Answer::Lowered { level: 9, lost: 1 });
            assert_eq!(monitor.open_write(0, written, 0), Answer::Refused(Refusal::Flow));
        }
        // A higher level is no help against a mark that is lacking, nor all marks against a lower level.
        let mut monitor = shops();
        assert_eq!(monitor.admit(1, 15, 0b10), Answer::Allowed(15));
        assert_eq!(monitor.open_write(1, 0, 0), Answer::Refused(Refusal::Flow));
        assert_eq!(monitor.admit(2, 8, ALL_SHOPS), Answer::Allowed(8));
        assert_eq!(monitor.open_write(2, 0, 0), Answer::Refused(Refusal::Flow));
        // Both files may be written by one that has both marks; its need has both.
        assert_eq!(monitor.open_write(0, 0, 0), Answer::Allowed(9));
        assert_eq!(monitor.open_write(0, 1, 1), Answer::Allowed(9));
        assert_eq!(monitor.need_of_subject(0), Some(Label { level: 9, shops: 0b11 }));
        assert_eq!(monitor.close(0, 0), Answer::Allowed(9));
        assert_eq!(monitor.need_of_subject(0), Some(Label { level: 9, shops: 0b10 }));
    }

    #[test]
    fn a_set_is_at_most_255() {
        let mut monitor = shops();
        let before = monitor.clone();
        let refused = Answer::Refused(Refusal::LevelTooHigh);
        for set in [256, 257, 511, 1 << 32, (1 << 32) + 255, u64::MAX] {
            assert_eq!(monitor.admit(1, 9, set), refused, "{set}");
            assert_eq!(monitor.register(3, 9, set), refused, "{set}");
            assert_eq!(monitor.register(3, 16, set), refused, "{set}");
            // A number that is in use is said first.
            assert_eq!(monitor.admit(0, 16, set), Answer::Refused(Refusal::NumberTaken), "{set}");
        }
        assert_eq!(monitor.admit(1, 16, 0), refused);
        assert_eq!(monitor, before);
        for set in [0, 1, 128, 255] {
            assert_eq!(monitor.admit(1, 9, set), Answer::Allowed(9), "{set}");
            assert_eq!(monitor.subject(1), Some(Label { level: 9, shops: set as u8 }));
            assert_eq!(monitor.register(3, 9, set), Answer::Allowed(9), "{set}");
            assert_eq!(monitor.object(3).map(|file| file.label), monitor.subject(1));
            monitor = before.clone();
        }
    }

    #[test]
    fn a_freeze_looks_at_levels_only() {
        let mut monitor = Monitor::new();
        assert_eq!(monitor.admit(0, 15, ALL_SHOPS), Answer::Allowed(15));
        assert_eq!(monitor.freeze(9), Answer::Allowed(9));
        for (file, set) in (0..).zip([0, 1, 254, 255]) {
            assert_eq!(monitor.register(2 * file, 9, set), Answer::Allowed(9));
            assert_eq!(monitor.open_write(0, 2 * file, file), Answer::Refused(Refusal::Frozen), "{set}");
            assert_eq!(monitor.register(2 * file + 1, 8, set), Answer::Allowed(8));
            assert_eq!(monitor.open_write(0, 2 * file + 1, file), Answer::Allowed(8), "{set}");
        }
        // It is said before the flow, which a lacking mark alone offends.
        assert_eq!(monitor.admit(1, 15, 0), Answer::Allowed(15));
        assert_eq!(monitor.open_write(1, 2, 0), Answer::Refused(Refusal::Frozen));
        assert_eq!(monitor.open_write(1, 3, 0), Answer::Refused(Refusal::Flow));
    }

    #[test]
    fn a_set_is_a_byte_of_a_thing_and_of_its_need() {
        let mut monitor = Monitor::new();
        assert_eq!(monitor.admit(31, 9, 0b1110), Answer::Allowed(9));
        assert_eq!(monitor.register(63, 7, 0b0110), Answer::Allowed(7));
        assert_eq!(monitor.open_write(31, 63, 15), Answer::Allowed(7));
        let state = monitor.as_bytes();
        assert_eq!(state[3 * 31..OBJECTS_AT], [1, 9, 0b1110]);
        assert_eq!(state[OBJECTS_AT + 3 * 63..HANDLES_AT], [1, 7, 0b0110]);
        assert_eq!(state[NEEDS_AT + 2 * 31..][..2], [0b0110, 7]);
        assert_eq!(state[NUMBERS_AT - 2..NUMBERS_AT], [0b0110, 7]);
    }

    #[test]
    fn a_refused_call_changes_no_byte() {
        let mut monitor = Monitor::new();
        assert_eq!(monitor.admit(0, 9, ALL_SHOPS), Answer::Allowed(9));
        let before = monitor.clone();
        assert_eq!(monitor.admit(0, 9, ALL_SHOPS), Answer::Refused(Refusal::NumberTaken));
        assert_eq!(monitor.freeze(17), Answer::Refused(Refusal::LevelTooHigh));
        assert_eq!(monitor.mark(0, 0), Answer::Refused(Refusal::PlaceUnfit));
        assert_eq!(monitor.map(0, 0, 0), Answer::Refused(Refusal::NoObject));
        assert_eq!(monitor.connect(0, 1, 0, 1, 0, 1), Answer::Refused(Refusal::NoSubject));
        assert_eq!(monitor.thread(0, 0), Answer::Refused(Refusal::NumberTaken));
        for code in [0, 19] {
            assert_eq!(monitor.direct(code, [0; 6]), Answer::Refused(Refusal::UnknownCode));
        }
        assert_eq!(monitor, before);

        // Nor where the kept needs are wrong: what is refused puts nothing right.
        let mut state = *launcher().as_bytes();
        state[NEEDS_AT..NUMBERS_AT].fill(0xa5);
        let mut monitor = Monitor::from_bytes(state);
        assert_eq!(monitor.open_read(0, 1, 1), Answer::Refused(Refusal::Flow));
        assert_eq!(monitor.exec(0, 1), Answer::Refused(Refusal::Flow));
        assert_eq!(monitor.close(0, 1), Answer::Refused(Refusal::PlaceUnfit));
        assert_eq!(monitor.exit(1), Answer::Refused(Refusal::NoSubject));
        assert_eq!(monitor.as_bytes(), &state);
    }

    #[test]
    fn bytes_are_kept_and_taken_up_again() {
        let mut monitor = Monitor::new();
        assert_eq!(monitor.admit(0, 9, ALL_SHOPS), Answer::Allowed(9));
        assert_eq!(monitor.pipe(0, 0, 0, 1), Answer::Allowed(9));
        let mut again = Monitor::from_bytes(*monitor.as_bytes());
        assert_eq!(again, monitor);
        assert_eq!(again.exit(0), Answer::Allowed(9));
        assert_eq!((again.open(), monitor.open()), (0, 2));
    }

    #[test]
    fn any_bytes_are_a_monitor() {
        let mut monitor = Monitor::from_bytes([0xff; STATE_BYTES]);
        assert_eq!((monitor.made(), monitor.open()), (u64::MAX, 0));
        assert_eq!(monitor.admit(31, 15, ALL_SHOPS), Answer::Allowed(15));
        assert_eq!(monitor.pipe(31, 63, 0, 15), Answer::Allowed(15));
        assert_eq!((monitor.made(), monitor.open()), (1, 2));
        // A freeze above every level freezes nothing, and stays as it is.
        assert_eq!(monitor.create(31, 0), Answer::Allowed(15));
        assert_eq!(monitor.open_write(31, 0, 1), Answer::Allowed(15));
        assert_eq!((monitor.frozen_from(), monitor.as_bytes()[FREEZE_AT]), (None, 0xff));

        // Nothing is live in bytes that are all 0, and every file is frozen.
        let mut monitor = Monitor::from_bytes([0; STATE_BYTES]);
        assert_eq!(monitor.frozen_from(), Some(0));
        assert_eq!(monitor.admit(0, 15, ALL_SHOPS), Answer::Allowed(15));
        assert_eq!(monitor.register(0, 0, ALL_SHOPS), Answer::Allowed(0));
        assert_eq!(monitor.open_write(0, 0, 0), Answer::Refused(Refusal::Frozen));

        // In bytes that are all 1 every slot has the same number, so that the first alone counts, and no handle is on it.
        let monitor = Monitor::from_bytes([1; STATE_BYTES]);
        let file = Object { kind: Kind::File, label: Label { level: 1, shops: 1 } };
        assert!(monitor.objects().eq([(0x0101_0101_0101_0101, file)]));
        assert_eq!(monitor.handle(0, 0), None);

        // With other numbers every handle is there and marked, but not one that is opened anew.
        let mut monitor = Monitor::from_kept(&[1; before::NUMBERS_AT]).expect("bytes of 5.0.0");
        let gone = monitor.gone();
        assert_eq!(monitor.close(0, 5), Answer::Allowed(1));
        assert_eq!(monitor.open_read(0, 2, 5), Answer::Allowed(1));
        assert_eq!(monitor.exec(0, 3), Answer::Allowed(1));
        assert_eq!(monitor.gone() - gone, 16);
        assert_eq!(monitor.read(0, 4), Answer::Refused(Refusal::PlaceUnfit));
        assert_eq!(monitor.read(0, 5), Answer::Allowed(1));
        assert_eq!(monitor.read(1, 4), Answer::Allowed(1));

        // In bytes that are all 3 every place has a mapping, but its subject and object are not live: it is none.
        let mut monitor = Monitor::from_bytes([3; STATE_BYTES]);
        assert_eq!(monitor.register(3, 2, ALL_SHOPS), Answer::Allowed(2));
        assert_eq!(monitor.admit(0, 9, ALL_SHOPS), Answer::Allowed(9));
        assert_eq!(monitor.read(0, 0), Answer::Refused(Refusal::PlaceUnfit));
        assert_eq!(monitor.map(0, 3, 0), Answer::Lowered { level: 2, lost: 0 });
        assert_eq!(monitor.open(), 1);
    }
}
