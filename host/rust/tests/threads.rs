//! Threads of one step: each call is made on bytes and on the struct. Who is in which group is followed here, by what the
//! calls make and end, and compared after each. And what version 6.1.0 kept, which goes on as before.

use gatekeeper::{Answer, Call, Handle, Label, Monitor, Refusal, State, Way};
use gatekeeper::{ALL_SHOPS, PLACES, STATE_BYTES, SUBJECTS};
use gatekeeper_independent::random::Random;

mod kept;

/// Where the groups stand in a monitor's bytes.
const GROUPS_AT: usize = 2545;

/// A monitor of bytes, and one that is a struct.
#[derive(Default)]
struct Both {
    monitor: Monitor,
    state: State,
}

impl Both {
    /// After calls that are not refused.
    #[track_caller]
    fn after(calls: &[Call]) -> Both {
        let mut both = Both::default();
        for &call in calls {
            assert!(both.call(call).granted().is_ok(), "{call:?}");
        }
        both
    }

    #[track_caller]
    fn call(&mut self, call: Call) -> Answer {
        let before = (self.monitor.clone(), self.state.clone());
        let answer = self.monitor.call(call);
        assert_eq!(self.state.call(call), answer, "{call:?} on the struct");
        if answer.granted().is_err() {
            assert!((&self.monitor, &self.state) == (&before.0, &before.1), "{call:?} changed something");
        }
        assert!(self.state.is_sure());
        answer
    }

    #[track_caller]
    fn allowed(&mut self, call: Call, level: u8) {
        assert_eq!(self.call(call), Answer::Allowed(level), "{call:?}");
    }

    #[track_caller]
    fn lowered(&mut self, call: Call, level: u8) {
        assert_eq!(self.call(call), Answer::Lowered { level: level, lost: 0 }, "{call:?}");
    }

    #[track_caller]
    fn refused(&mut self, call: Call, refusal: Refusal) {
        assert_eq!(self.call(call), Answer::Refused(refusal), "{call:?}");
    }

    #[track_caller]
    fn labels<const N: usize>(&self, subjects: [u64; N]) -> [Option<Label>; N] {
        let shown = subjects.map(|s| self.monitor.subject(s));
        assert_eq!(subjects.map(|s| self.state.subject(s)), shown);
        shown
    }

    #[track_caller]
    fn levels<const N: usize>(&self, subjects: [u64; N]) -> [Option<u8>; N] {
        self.labels(subjects).map(level_of)
    }

    #[track_caller]
    fn whole_needs<const N: usize>(&self, subjects: [u64; N]) -> [Option<Label>; N] {
        let shown = subjects.map(|s| self.monitor.need_of_subject(s));
        assert_eq!(subjects.map(|s| self.state.need_of_subject(s)), shown);
        shown
    }

    /// The levels of their needs.
    #[track_caller]
    fn needs<const N: usize>(&self, subjects: [u64; N]) -> [Option<u8>; N] {
        self.whole_needs(subjects).map(level_of)
    }

    #[track_caller]
    fn groups<const N: usize>(&self, subjects: [u64; N]) -> [Option<u64>; N] {
        let shown = subjects.map(|s| self.monitor.group(s));
        assert_eq!(subjects.map(|s| self.state.group(s)), shown);
        shown
    }

    #[track_caller]
    fn counts(&self) -> [u64; 3] {
        let counts = [self.monitor.made(), self.monitor.gone(), self.monitor.open()];
        assert_eq!([self.state.made(), self.state.gone(), self.state.open()], counts);
        counts
    }
}

fn level_of(label: Option<Label>) -> Option<u8> {
    label.map(|label| label.level)
}

fn thread(subject: u64, member: u64) -> Call {
    Call::Thread { subject, member }
}

fn read(subject: u64, place: u64) -> Call {
    Call::Read { subject, place }
}

/// The tax step, subject 0 at level 9, with threads 1 and 2; subject 3 at level 9 by itself; file 0 at level 9, and files 1
/// and 2 at level 2.
fn tax() -> Both {
    Both::after(&[
        Call::Register { object: 0, level: 9, shops: ALL_SHOPS },
        Call::Register { object: 1, level: 2, shops: ALL_SHOPS },
        Call::Register { object: 2, level: 2, shops: ALL_SHOPS },
        Call::Admit { subject: 0, level: 9, shops: ALL_SHOPS },
        thread(0, 1),
        thread(1, 2),
        Call::Admit { subject: 3, level: 9, shops: ALL_SHOPS },
    ])
}

const BOOK: Call = Call::OpenWrite { subject: 0, object: 0, place: 5 };
const SHEET: Call = Call::OpenRead { subject: 2, object: 1, place: 5 };

#[test]
fn a_thread_is_a_new_member_without_handles() {
    let mut both = Both::after(&[
        Call::Admit { subject: 5, level: 9, shops: ALL_SHOPS },
        Call::Pipe { subject: 5, object: 7, reads: 0, writes: 15 },
        Call::Mark { subject: 5, place: 0 },
    ]);
    both.allowed(thread(5, 31), 9);
    both.allowed(thread(31, 0), 9);
    assert_eq!(both.counts(), [2, 0, 2]);
    assert_eq!(both.groups([0, 5, 31, 1, 32, u64::MAX]), [Some(0), Some(0), Some(0), None, None, None]);
    assert_eq!(both.levels([0, 5, 31]), [Some(9); 3]);
    for member in [0, 31] {
        assert!((0..PLACES).all(|place| both.monitor.handle(member, place).is_none()));
        both.refused(read(member, 0), Refusal::PlaceUnfit);
    }
    // The places of its mates are other places.
    both.allowed(Call::OpenRead { subject: 31, object: 7, place: 0 }, 9);
    assert_eq!(both.counts(), [3, 0, 3]);
}

#[test]
fn a_thread_is_refused_by_its_numbers() {
    let mut both = tax();
    for far in [32, 64, 1 << 32, u64::MAX] {
        both.refused(thread(far, far), Refusal::NoSubject);
        both.refused(thread(0, far), Refusal::NumberTaken);
    }
    both.refused(thread(4, 0), Refusal::NoSubject);
    both.refused(thread(4, 4), Refusal::NoSubject);
    both.refused(thread(0, 0), Refusal::NumberTaken);
    both.refused(thread(0, 1), Refusal::NumberTaken);
    both.refused(thread(0, 3), Refusal::NumberTaken);
    both.allowed(thread(2, 4), 9);
}

#[test]
fn what_lowers_one_lowers_all() {
    let mut both = tax();
    both.allowed(SHEET, 2);
    assert_eq!(both.levels([0, 1, 2, 3]), [Some(9); 4]);
    both.lowered(read(2, 5), 2);
    assert_eq!(both.levels([0, 1, 2, 3]), [Some(2), Some(2), Some(2), Some(9)]);

    let mut both = tax();
    both.lowered(Call::Map { subject: 1, object: 1, place: 0 }, 2);
    assert_eq!(both.levels([0, 1, 2, 3]), [Some(2), Some(2), Some(2), Some(9)]);
    // A thread that is made later starts where the others are, and what comes to them from a pipe comes to it.
    both.allowed(thread(0, 4), 2);
    assert_eq!(both.levels([4]), [Some(2)]);
}

#[test]
fn a_shop_mark_that_one_loses_all_lose() {
    let mut both = Both::after(&[
        Call::Admit { subject: 0, level: 9, shops: 0b111 },
        thread(0, 1),
        Call::Register { object: 0, level: 9, shops: 0b011 },
        Call::Register { object: 1, level: 9, shops: 0b110 },
        Call::OpenRead { subject: 1, object: 1, place: 0 },
    ]);
    assert_eq!(both.call(read(1, 0)), Answer::Lowered { level: 9, lost: 1 });
    assert_eq!(both.labels([0, 1]), [Some(Label { level: 9, shops: 0b110 }); 2]);
    // The mark of group 0 is gone, and with it the way to the book for either.
    both.refused(Call::OpenWrite { subject: 0, object: 0, place: 5 }, Refusal::Flow);
    both.allowed(thread(1, 2), 9);
    assert_eq!(both.labels([2]), [Some(Label { level: 9, shops: 0b110 })]);
    // What one needs all need.
    both.allowed(Call::Register { object: 2, level: 3, shops: 0b100 }, 3);
    both.allowed(Call::OpenWrite { subject: 2, object: 2, place: 0 }, 3);
    assert_eq!(both.whole_needs([0, 1, 2]), [Some(Label { level: 3, shops: 0b100 }); 3]);
    both.allowed(Call::Register { object: 3, level: 15, shops: 0b011 }, 15);
    both.refused(Call::OpenRead { subject: 0, object: 3, place: 0 }, Refusal::Flow);
}

#[test]
fn data_flows_among_threads() {
    // One writes the pay book, and another asks for the sheet; and the other way round.
    let mut both = tax();
    both.allowed(BOOK, 9);
    assert_eq!(both.needs([0, 1, 2, 3]), [Some(9), Some(9), Some(9), Some(0)]);
    both.refused(SHEET, Refusal::Flow);
    both.refused(Call::Map { subject: 2, object: 1, place: 5 }, Refusal::Flow);
    both.allowed(Call::OpenRead { subject: 3, object: 1, place: 5 }, 2);
    both.allowed(Call::Close { subject: 0, place: 5 }, 9);
    assert_eq!(both.needs([0, 1, 2]), [Some(0); 3]);
    both.allowed(SHEET, 2);
    both.refused(BOOK, Refusal::Flow);
    both.refused(Call::OpenWrite { subject: 2, object: 0, place: 0 }, Refusal::Flow);
    both.allowed(Call::OpenWrite { subject: 3, object: 2, place: 0 }, 2);

    // Through a pipe of one and the file of another; a channel to a step that reads the sheet.
    let mut both = tax();
    both.allowed(BOOK, 9);
    both.allowed(Call::OpenRead { subject: 3, object: 1, place: 0 }, 2);
    let connect = Call::Connect { subject: 1, peer: 3, to: 8, from: 9, reading: 1, writing: 2 };
    both.refused(connect, Refusal::Flow);
    both.allowed(Call::Close { subject: 0, place: 5 }, 9);
    both.allowed(connect, 9);
    both.refused(BOOK, Refusal::Flow);
}

#[test]
fn a_fork_is_by_itself() {
    let mut both = tax();
    both.allowed(BOOK, 9);
    both.allowed(Call::Fork { subject: 1, child: 4 }, 9);
    assert_eq!(both.groups([0, 1, 2, 4]), [Some(0), Some(0), Some(0), Some(4)]);
    // It has the handles of the one that forked it, which are none, and so it needs nothing.
    assert_eq!(both.needs([0, 1, 4]), [Some(9), Some(9), Some(0)]);
    both.allowed(Call::OpenRead { subject: 4, object: 1, place: 0 }, 2);
    both.lowered(read(4, 0), 2);
    assert_eq!(both.levels([0, 1, 2, 4]), [Some(9), Some(9), Some(9), Some(2)]);
    // Of the one that writes the book it has that.
    both.allowed(Call::Fork { subject: 0, child: 5 }, 9);
    assert_eq!(both.needs([5]), [Some(9)]);
    both.refused(Call::OpenRead { subject: 5, object: 1, place: 0 }, Refusal::Flow);
    both.allowed(thread(5, 6), 9);
    assert_eq!(both.groups([0, 4, 5, 6]), [Some(0), Some(4), Some(5), Some(5)]);
}

#[test]
fn an_exit_ends_one_member() {
    let mut both = tax();
    both.allowed(BOOK, 9);
    both.allowed(Call::Pipe { subject: 1, object: 8, reads: 0, writes: 1 }, 9);
    both.allowed(Call::OpenRead { subject: 2, object: 8, place: 0 }, 9);
    // The one that the others came from goes, and its handles alone.
    both.allowed(Call::Exit { subject: 0 }, 9);
    assert_eq!(both.groups([0, 1, 2]), [None, Some(1), Some(1)]);
    assert_eq!((both.needs([1, 2]), both.counts()), ([Some(0); 2], [4, 1, 3]));
    both.allowed(Call::Exit { subject: 1 }, 9);
    both.allowed(read(2, 0), 9);
    // Its number may be another step's, or a thread of the same one again.
    both.allowed(Call::Admit { subject: 0, level: 5, shops: ALL_SHOPS }, 5);
    both.allowed(thread(2, 1), 9);
    assert_eq!(both.groups([0, 1, 2]), [Some(0), Some(1), Some(1)]);
    both.allowed(Call::Exit { subject: 2 }, 9);
    both.allowed(Call::Exit { subject: 1 }, 9);
    assert_eq!((both.groups([0, 1, 2]), both.monitor.object(8)), ([Some(0), None, None], None));
}

#[test]
fn an_exec_ends_the_others() {
    let mut both = tax();
    both.allowed(BOOK, 9);
    both.allowed(Call::OpenRead { subject: 1, object: 0, place: 3 }, 9);
    both.allowed(Call::Pipe { subject: 2, object: 8, reads: 0, writes: 1 }, 9);
    both.allowed(Call::OpenRead { subject: 1, object: 8, place: 4 }, 9);
    // The one that writes the book may not run the sheet: nobody ends, and no handle goes.
    both.refused(Call::Exec { subject: 0, object: 1 }, Refusal::Flow);
    assert_eq!((both.groups([0, 1, 2]), both.counts()), ([Some(0); 3], [5, 0, 5]));
    // A mate may: the book goes with the one that writes it.
    both.lowered(Call::Exec { subject: 1, object: 1 }, 2);
    assert_eq!(both.groups([0, 1, 2, 3]), [None, Some(1), None, Some(3)]);
    assert_eq!((both.levels([1, 3]), both.needs([1])), ([Some(2), Some(9)], [Some(0)]));
    assert_eq!(both.counts(), [5, 3, 2]);
    both.allowed(read(1, 3), 2);
    both.allowed(read(1, 4), 2);
    // What nobody has open any more can go, and the numbers are free.
    both.refused(Call::Retire { object: 0 }, Refusal::StillOpen);
    both.allowed(Call::Close { subject: 1, place: 3 }, 2);
    both.allowed(Call::Retire { object: 0 }, 9);
    both.allowed(thread(1, 0), 2);
    both.allowed(Call::Admit { subject: 2, level: 5, shops: ALL_SHOPS }, 5);
    assert_eq!(both.groups([0, 1, 2]), [Some(0), Some(0), Some(2)]);
}

#[test]
fn a_pipe_ends_with_its_last_handle_at_the_exec_of_a_mate() {
    let mut both = tax();
    both.allowed(Call::Pipe { subject: 1, object: 8, reads: 0, writes: 1 }, 9);
    both.allowed(Call::OpenRead { subject: 0, object: 8, place: 2 }, 9);
    both.allowed(Call::Mark { subject: 0, place: 2 }, 9);
    both.allowed(Call::Exec { subject: 0, object: 0 }, 9);
    assert_eq!((both.monitor.object(8), both.state.object(8)), (None, None));
    assert_eq!(both.counts(), [3, 3, 0]);
    both.allowed(Call::Register { object: 8, level: 3, shops: ALL_SHOPS }, 3);
}

#[test]
fn two_members_may_be_connected() {
    let mut both = tax();
    let connect = |peer| Call::Connect { subject: 0, peer, to: 8, from: 9, reading: 0, writing: 1 };
    both.refused(connect(0), Refusal::SameSubject);
    both.allowed(connect(2), 9);
    both.allowed(Call::Write { subject: 0, place: 1 }, 9);
    both.allowed(read(2, 0), 9);
    let there = Handle { way: Way::Reads, object: 9, marked: false };
    assert_eq!((both.monitor.handle(0, 0), both.state.handle(0, 0)), (Some(there), Some(there)));
}

/// RULES T48, C114. No list of calls leads to such bytes.
#[test]
fn members_of_different_levels_have_each_their_own() {
    let mut state = *tax().monitor.as_bytes();
    state[3 * 1 + 1] = 4; // the level of subject 1
    state[3 * 2 + 1] = 12;
    let shown = |monitor: &Monitor| [0, 1, 2, 3].map(|s| level_of(monitor.subject(s)));
    let mut monitor = Monitor::from_bytes(state);
    assert_eq!(shown(&monitor), [Some(9), Some(4), Some(12), Some(9)]);
    assert_eq!(monitor.register(7, 5, ALL_SHOPS), Answer::Allowed(5));
    // Each takes the smaller of its own level and that of the file; the answer has that of the one that reads.
    assert_eq!(monitor.open_read(1, 7, 0), Answer::Allowed(5));
    assert_eq!(monitor.read(1, 0), Answer::Lowered { level: 4, lost: 0 });
    assert_eq!(shown(&monitor), [Some(5), Some(4), Some(5), Some(9)]);
    assert_eq!(monitor.read(1, 0), Answer::Allowed(4));
    assert_eq!(monitor.thread(2, 8), Answer::Allowed(5));
    // Who has the file mapped reads it after a write, and with it its mates.
    let mut monitor = Monitor::from_bytes(state);
    assert_eq!(monitor.register(7, 5, ALL_SHOPS), Answer::Allowed(5));
    assert_eq!(monitor.open_write(3, 7, 0), Answer::Allowed(5));
    assert_eq!(monitor.map(1, 7, 0), Answer::Lowered { level: 4, lost: 0 });
    let mut bytes = *monitor.as_bytes();
    bytes[1] = 9; // the level of subject 0, which has it not mapped
    let mut monitor = Monitor::from_bytes(bytes);
    assert_eq!(monitor.write(3, 0), Answer::Lowered { level: 5, lost: 0 });
    assert_eq!(shown(&monitor), [Some(5), Some(4), Some(5), Some(9)]);
}

/// Any byte is a group, of any live subject, and no other subject is in any.
#[test]
fn any_bytes_are_groups() {
    for byte in 0..=255 {
        let mut state = *tax().monitor.as_bytes();
        state[GROUPS_AT..].fill(byte);
        let monitor = Monitor::from_bytes(state);
        let state = State::from(&monitor);
        for s in 0..=SUBJECTS {
            let expected = (s < 4).then_some(0);
            assert_eq!(
                (monitor.group(s), state.group(s)),
                (expected, expected),
                "byte {byte}, subject {s}"
            );
        }
    }
    // A new step is by itself, whatever stands beside those that are not live.
    for byte in 0..=255 {
        let mut state = *tax().monitor.as_bytes();
        state[GROUPS_AT + 4..].fill(byte);
        for (mut monitor, call) in [
            (Monitor::from_bytes(state), Call::Admit { subject: 4, level: 9, shops: ALL_SHOPS }),
            (Monitor::from_bytes(state), Call::Fork { subject: 1, child: 4 }),
        ] {
            assert_eq!(monitor.call(call), Answer::Allowed(9));
            assert_eq!([0, 3, 4].map(|s| monitor.group(s)), [Some(0), Some(3), Some(4)], "byte {byte}");
        }
    }
    // And where all others are there, each with a byte of its own.
    let mut state = [0; STATE_BYTES];
    for s in 0..31 {
        state[3 * s..][..3].copy_from_slice(&[1, 9, 255]);
        state[GROUPS_AT + s] = s as u8 + u8::from(s >= 7);
    }
    let mut monitor = Monitor::from_bytes(state);
    assert_eq!(monitor.admit(31, 9, ALL_SHOPS), Answer::Allowed(9));
    assert!((0..SUBJECTS).all(|s| monitor.group(s) == Some(s)));
}

/// Who is in which group, by what calls have made and ended.
#[derive(Default)]
struct Followed {
    /// For each subject that is there the group that it is in.
    groups: [Option<u64>; SUBJECTS as usize],
    made: u64,
}

impl Followed {
    fn follow(&mut self, call: Call) {
        match call {
            Call::Admit { subject: new, .. } | Call::Fork { child: new, .. } => {
                self.made += 1;
                self.groups[new as usize] = Some(self.made);
            }
            Call::Thread { subject, member } => {
                self.groups[member as usize] = self.groups[subject as usize];
            }
            Call::Exit { subject } => self.groups[subject as usize] = None,
            Call::Exec { subject, .. } => {
                let own = self.groups[subject as usize];
                self.groups.iter_mut().filter(|group| **group == own).for_each(|group| *group = None);
                self.groups[subject as usize] = own;
            }
            _ => {}
        }
    }

    /// The group of a subject by the lowest number of a member.
    fn group(&self, subject: u64) -> Option<u64> {
        let own = self.groups[subject as usize]?;
        (0..).zip(self.groups).find(|(_, group)| *group == Some(own)).map(|(first, _)| first)
    }
}

/// A call, with threads or without, and with sets that differ or with all shop marks, that is often allowed.
fn drawn_call(random: &mut Random, has_threads: bool, has_shops: bool) -> Call {
    let [subject, peer, member] = [(); 3].map(|()| random.below(12));
    let [object, from] = [(); 2].map(|()| random.below(20));
    let [place, level] = [random.below(16), random.below(16)];
    // Many with all shop marks: what version 6.1.0 kept has no other.
    let shops = if has_shops { ALL_SHOPS - random.below(4) } else { ALL_SHOPS };
    match random.below(if has_threads { 26 } else { 22 }) {
        0 | 1 => Call::Admit { subject, level, shops },
        2..5 => Call::Register { object, level, shops },
        5 => Call::Create { subject, object },
        6 | 7 => Call::Pipe { subject, object, reads: place, writes: random.below(16) },
        8 | 9 => Call::OpenRead { subject, object, place },
        10 | 11 => Call::OpenWrite { subject, object, place },
        12 => Call::Read { subject, place },
        13 => Call::Write { subject, place },
        14 => Call::Fork { subject, child: member },
        15 => Call::Exec { subject, object },
        16 => Call::Close { subject, place },
        17 => Call::Exit { subject },
        18 => Call::Retire { object },
        19 => Call::Map { subject, object, place },
        20 => Call::Mark { subject, place },
        21 => Call::Connect { subject, peer, to: object, from, reading: place, writing: random.below(16) },
        _ => thread(subject, member),
    }
}

#[test]
fn groups_are_those_that_calls_have_made() {
    let mut random = Random::new(1, 8);
    let (mut threads, mut ended, mut shared_falls) = (0, 0, 0);
    for list in 0..100 {
        let has_shops = list % 2 == 0;
        let (mut both, mut followed) = (Both::default(), Followed::default());
        for _ in 0..400 {
            let call = drawn_call(&mut random, true, has_shops);
            let before = both.labels([0, 1, 2, 3, 4, 5, 6, 7, 8, 9, 10, 11]);
            let answer = both.call(call);
            if answer.granted().is_err() {
                continue;
            }
            followed.follow(call);
            let after = both.labels([0, 1, 2, 3, 4, 5, 6, 7, 8, 9, 10, 11]);
            for s in 0..12 {
                assert_eq!(both.groups([s]), [followed.group(s)], "subject {s} after {call:?}");
            }
            // The members of a group have one label and one need.
            for s in 0..12 {
                if let Some(first) = followed.group(s) {
                    assert_eq!(both.labels([s]), both.labels([first]), "after {call:?}");
                    assert_eq!(both.whole_needs([s]), both.whole_needs([first]), "after {call:?}");
                }
            }
            let gone = before.iter().zip(after).filter(|(old, new)| old.is_some() && new.is_none()).count();
            let is_fall = |(old, new): &(&Option<Label>, Option<Label>)| {
                old.zip(*new).is_some_and(|(old, new)| !new.at_least(old))
            };
            let fell = before.iter().zip(after).filter(is_fall).count();
            threads += usize::from(matches!(call, Call::Thread { .. }));
            ended += if matches!(call, Call::Exec { .. }) { gone } else { 0 };
            shared_falls += usize::from(fell > 1);
        }
    }
    assert!(threads > 400 && ended > 50 && shared_falls > 50, "{threads}, {ended}, {shared_falls}");
}

#[test]
fn what_version_6_kept_goes_on_as_before() {
    let mut random = Random::new(1, 9);
    let mut allowed = 0;
    for _ in 0..12 {
        let (mut monitor, mut again, mut state) = (Monitor::new(), Monitor::new(), State::new());
        for turn in 0..300 {
            if turn % 60 == 0 {
                let kept = kept::by_version_7(&monitor);
                again = Monitor::from_kept(&kept[..2353]).expect("bytes of version 6.1.0");
                state = State::from(&again);
                assert!(state.is_sure());
            }
            let call = drawn_call(&mut random, turn % 60 > 30, false);
            let answer = monitor.call(call);
            assert_eq!((again.call(call), state.call(call)), (answer, answer), "{call:?}");
            allowed += usize::from(answer.granted().is_ok());
            for s in 0..12 {
                let shown = (monitor.subject(s), monitor.need_of_subject(s), monitor.group(s));
                assert_eq!((again.subject(s), again.need_of_subject(s), again.group(s)), shown);
                assert_eq!((state.subject(s), state.need_of_subject(s), state.group(s)), shown);
            }
            if turn % 60 == 59 {
                // Threads end before the bytes are cut: that version had none.
                for subject in 0..12 {
                    let _ = monitor.exit(subject);
                }
            }
        }
    }
    assert!(allowed > 600, "few calls were allowed: {allowed}");
}
