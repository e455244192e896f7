//! Objects of any number of 64 bits, 64 of them live at a time: each call is made on bytes and on the struct. And what
//! version 5.0.0 kept, which goes on as before.

use gatekeeper::{Answer, Call, Handle, Kind, Label, Monitor, Object, Refusal, State, Way};
use gatekeeper::{ALL_SHOPS, NO_FREEZE};
use gatekeeper_independent::random::Random;

mod kept;

/// The first number that needs more than 32 bits.
const WIDE: u64 = 1 << 32;

/// A monitor of bytes, and one that is a struct.
#[derive(Default)]
struct Both {
    monitor: Monitor,
    state: State,
}

impl Both {
    fn call(&mut self, call: Call) -> Answer {
        let answer = self.monitor.call(call);
        assert_eq!(self.state.call(call), answer, "{call:?} on the struct");
        answer
    }

    #[track_caller]
    fn allowed(&mut self, call: Call) {
        assert!(matches!(self.call(call), Answer::Allowed(_)), "{call:?}");
    }

    #[track_caller]
    fn refused(&mut self, call: Call, refusal: Refusal) {
        assert_eq!(self.call(call), Answer::Refused(refusal), "{call:?}");
    }

    /// The numbers of the live objects, which both have to show alike.
    fn numbers(&self) -> Vec<u64> {
        let objects: Vec<(u64, Object)> = self.monitor.objects().collect();
        assert!(self.state.objects().eq(objects.iter().copied()), "{objects:?}");
        objects.into_iter().map(|(number, _)| number).collect()
    }

    fn object(&self, object: u64) -> Option<Object> {
        let shown = self.monitor.object(object);
        assert_eq!(self.state.object(object), shown, "object {object}");
        shown
    }

    fn handle(&self, subject: u64, place: u64) -> Option<Handle> {
        let shown = self.monitor.handle(subject, place);
        assert_eq!(self.state.handle(subject, place), shown, "place {place} of subject {subject}");
        shown
    }

    fn need_of_object(&self, object: u64) -> Option<Label> {
        let need = self.monitor.need_of_object(object);
        assert_eq!(self.state.need_of_object(object), need, "the need of object {object}");
        need
    }
}

/// This level with all shop marks.
fn label(level: u8) -> Label {
    Label { level, shops: 255 }
}

fn register(object: u64) -> Call {
    Call::Register { object, level: 9, shops: ALL_SHOPS }
}

#[test]
fn an_object_has_any_number() {
    let mut both = Both::default();
    let numbers = [0, 63, 64, WIDE, u64::MAX];
    both.allowed(Call::Admit { subject: 0, level: 9, shops: ALL_SHOPS });
    for (place, object) in (0..).zip(numbers) {
        let open = Call::OpenRead { subject: 0, object, place };
        both.refused(open, Refusal::NoObject);
        both.allowed(register(object));
        both.refused(register(object), Refusal::NumberTaken);
        both.refused(Call::Create { subject: 0, object }, Refusal::NumberTaken);
        both.allowed(open);
        assert_eq!(both.handle(0, place), Some(Handle { way: Way::Reads, object, marked: false }));
        assert_eq!(both.object(object), Some(Object { kind: Kind::File, label: label(9) }));
    }
    assert_eq!(both.numbers(), numbers);
    both.refused(Call::Retire { object: u64::MAX }, Refusal::StillOpen);
    both.allowed(Call::Close { subject: 0, place: 4 });
    both.allowed(Call::Retire { object: u64::MAX });
    both.refused(Call::Retire { object: u64::MAX }, Refusal::NoObject);
    assert_eq!(both.numbers(), numbers[..4]);

    // Pipes, a channel and a program have such numbers, too.
    both.allowed(Call::Pipe { subject: 0, object: u64::MAX, reads: 5, writes: 6 });
    both.allowed(Call::Fork { subject: 0, child: 1 });
    let [to, from] = [u64::MAX - 1, WIDE + 1];
    let connect = |to, from, reading| {
        let writing = reading + 1;
        Call::Connect { subject: 0, peer: 1, to, from, reading, writing }
    };
    both.allowed(connect(to, from, 7));
    assert_eq!(both.handle(1, 7), Some(Handle { way: Way::Reads, object: to, marked: false }));
    assert_eq!(both.handle(0, 7), Some(Handle { way: Way::Reads, object: from, marked: false }));
    both.refused(connect(7, 7, 9), Refusal::NumberTaken);
    both.refused(connect(u64::MAX, 7, 9), Refusal::NumberTaken);
    both.refused(Call::Retire { object: u64::MAX }, Refusal::IsPipe);
    both.refused(Call::Exec { subject: 0, object: to }, Refusal::IsPipe);
    both.allowed(Call::Exec { subject: 0, object: WIDE });
    both.allowed(Call::Exit { subject: 0 });
    both.allowed(Call::Exit { subject: 1 });
    assert_eq!(both.numbers(), numbers[..4]);
}

#[test]
fn so_many_objects_are_live_at_a_time() {
    let mut both = Both::default();
    both.allowed(Call::Admit { subject: 0, level: 9, shops: ALL_SHOPS });
    both.allowed(Call::Admit { subject: 1, level: 5, shops: ALL_SHOPS });
    let connect = |subject, to, from, reading| {
        let writing = reading + 1;
        Call::Connect { subject, peer: 1, to, from, reading, writing }
    };
    for object in 0..63 {
        both.allowed(register(WIDE * object));
    }
    // With 63 there is room for one, and with 62 for two.
    both.refused(connect(0, 7, u64::MAX, 0), Refusal::TooManyObjects);
    both.allowed(Call::Retire { object: WIDE });
    both.allowed(connect(0, 7, u64::MAX, 0));
    assert_eq!(both.numbers().len(), 64);

    let full = Refusal::TooManyObjects;
    both.refused(register(8), full);
    both.refused(Call::Create { subject: 0, object: 8 }, full);
    both.refused(Call::Pipe { subject: 0, object: 8, reads: 2, writes: 3 }, full);
    both.refused(connect(0, 8, 9, 2), full);
    // What comes before it is said first, and what comes after it is not.
    both.refused(register(0), Refusal::NumberTaken);
    both.refused(connect(0, 8, 8, 2), Refusal::NumberTaken);
    both.refused(connect(1, 8, 9, 2), Refusal::SameSubject);
    both.refused(Call::Create { subject: 2, object: 8 }, Refusal::NoSubject);
    both.refused(Call::Register { object: 8, level: 16, shops: ALL_SHOPS }, full);
    both.refused(Call::Pipe { subject: 0, object: 8, reads: 16, writes: 16 }, full);
    both.refused(connect(0, 8, 9, 16), full);

    // A retired file makes space, and so does an ended pipe.
    both.allowed(Call::Retire { object: 0 });
    both.allowed(register(8));
    both.refused(register(9), full);
    both.allowed(Call::Close { subject: 0, place: 1 });
    both.refused(register(9), full);
    both.allowed(Call::Close { subject: 1, place: 0 });
    both.allowed(Call::Pipe { subject: 0, object: 9, reads: 2, writes: 3 });
    both.refused(register(10), full);
    assert_eq!(full.number(), 17);
    let words = "only 64 files and pipes may be live: retire a file or end a pipe (refusal 17)";
    assert_eq!(full.to_string(), words);
}

#[test]
fn what_has_a_range_keeps_it() {
    let mut both = Both::default();
    both.allowed(Call::Admit { subject: 0, level: 9, shops: ALL_SHOPS });
    both.allowed(register(0));
    both.allowed(Call::OpenRead { subject: 0, object: 0, place: 0 });
    // Cut to 32 bits, each of these numbers would be one that is there, or fits.
    for far in [WIDE, WIDE << 31] {
        both.refused(Call::Admit { subject: far + 1, level: 9, shops: ALL_SHOPS }, Refusal::NumberTaken);
        both.refused(Call::Fork { subject: 0, child: far + 1 }, Refusal::NumberTaken);
        both.refused(Call::OpenRead { subject: far, object: 0, place: 1 }, Refusal::NoSubject);
        both.refused(Call::Close { subject: far, place: 0 }, Refusal::NoSubject);
        both.refused(Call::Exit { subject: far }, Refusal::NoSubject);
        both.refused(Call::Read { subject: 0, place: far }, Refusal::PlaceUnfit);
        both.refused(Call::Close { subject: 0, place: far }, Refusal::PlaceUnfit);
        both.refused(Call::OpenWrite { subject: 0, object: 0, place: far + 1 }, Refusal::PlaceUnfit);
        both.refused(Call::Mark { subject: 0, place: far }, Refusal::PlaceUnfit);
        both.refused(Call::Admit { subject: 1, level: far + 9, shops: ALL_SHOPS }, Refusal::LevelTooHigh);
        both.refused(
            Call::Register { object: 1, level: far + NO_FREEZE, shops: ALL_SHOPS },
            Refusal::LevelTooHigh,
        );
        both.refused(Call::Freeze { level: far + NO_FREEZE }, Refusal::LevelTooHigh);
        both.refused(Call::OpenRead { subject: 0, object: far, place: 1 }, Refusal::NoObject);
        for code in [far + 1, far + 5, far + 11] {
            let unknown = Answer::Refused(Refusal::UnknownCode);
            assert_eq!(both.monitor.direct(code, [0; 6]), unknown);
            assert_eq!(both.state.direct(code, [0; 6]), unknown);
        }
        assert_eq!((both.monitor.subject(far), both.state.subject(far)), (None, None));
        assert_eq!((both.object(far), both.handle(far, 0), both.handle(0, far)), (None, None, None));
        assert_eq!((both.need_of_object(far), both.state.need_of_subject(far)), (None, None));
    }
    assert_eq!(both.numbers(), [0]);
}

#[test]
fn a_slot_that_is_used_again_has_nothing_of_the_object_before() {
    let mut both = Both::default();
    both.allowed(Call::Admit { subject: 0, level: 15, shops: ALL_SHOPS });
    // All slots but one are in use for good.
    for object in 0..63 {
        both.allowed(Call::Register { object, level: 0, shops: ALL_SHOPS });
    }
    both.allowed(register(WIDE));
    let open = |object| Call::OpenWrite { subject: 0, object, place: 0 };
    both.allowed(open(WIDE));
    both.allowed(Call::Mark { subject: 0, place: 0 });
    let nine = Some(label(9));
    assert_eq!((both.need_of_object(WIDE), both.state.need_of_subject(0)), (nine, nine));
    both.allowed(Call::Close { subject: 0, place: 0 });
    both.allowed(Call::Freeze { level: 9 });
    both.refused(open(WIDE), Refusal::Frozen);
    both.allowed(Call::Retire { object: WIDE });

    // A pipe in its slot: not frozen, with a level and a need of its own, and handles without a mark.
    both.allowed(Call::Pipe { subject: 0, object: u64::MAX, reads: 0, writes: 1 });
    assert_eq!((both.object(WIDE), both.need_of_object(WIDE)), (None, None));
    assert_eq!(both.object(u64::MAX), Some(Object { kind: Kind::Pipe, label: label(15) }));
    let least = Some(Label::LEAST);
    assert_eq!((both.need_of_object(u64::MAX), both.state.need_of_subject(0)), (least, least));
    assert_eq!(both.handle(0, 0), Some(Handle { way: Way::Reads, object: u64::MAX, marked: false }));
    both.refused(Call::OpenRead { subject: 0, object: WIDE, place: 2 }, Refusal::NoObject);
    both.allowed(Call::OpenWrite { subject: 0, object: u64::MAX, place: 2 });
    both.allowed(Call::Exit { subject: 0 });

    // And a file of level 2.
    both.allowed(Call::Register { object: 63, level: 2, shops: ALL_SHOPS });
    assert_eq!((both.object(u64::MAX), both.need_of_object(63)), (None, Some(label(2))));
    both.allowed(Call::Admit { subject: 0, level: 2, shops: ALL_SHOPS });
    both.allowed(open(63));
    assert_eq!(both.handle(0, 0), Some(Handle { way: Way::Writes, object: 63, marked: false }));
}

/// A call of version 5.0.0: with an object of 0 to 63, and often one that is allowed.
fn drawn_call(random: &mut Random) -> Call {
    let [subject, peer, child] = [(); 3].map(|()| random.below(5));
    let [object, from] = [(); 2].map(|()| random.below(64));
    let [place, level] = [random.below(16), random.below(17)];
    match random.below(24) {
        0 => Call::Admit { subject, level, shops: ALL_SHOPS },
        1..6 => Call::Register { object, level, shops: ALL_SHOPS },
        6 => Call::Create { subject, object },
        7 | 8 => Call::Pipe { subject, object, reads: place, writes: random.below(16) },
        9 | 10 => Call::OpenRead { subject, object, place },
        11 | 12 => Call::OpenWrite { subject, object, place },
        13 => Call::Read { subject, place },
        14 => Call::Write { subject, place },
        15 => Call::Fork { subject, child },
        16 => Call::Exec { subject, object },
        17 => Call::Close { subject, place },
        18 => Call::Exit { subject },
        19 => Call::Retire { object },
        20 => Call::Map { subject, object, place },
        21 => Call::Mark { subject, place },
        22 => Call::Freeze { level: 12 + random.below(5) },
        _ => Call::Connect { subject, peer, to: object, from, reading: place, writing: random.below(16) },
    }
}

/// All that two monitors show.
fn assert_shown_alike(one: &Monitor, other: &Monitor) {
    assert_eq!(
        (one.made(), one.gone(), one.frozen_from()),
        (other.made(), other.gone(), other.frozen_from())
    );
    for s in 0..5 {
        assert_eq!(one.subject(s), other.subject(s));
        assert_eq!(one.need_of_subject(s), other.need_of_subject(s));
        assert!((0..16).all(|p| one.handle(s, p) == other.handle(s, p)));
    }
    let objects: Vec<(u64, Object)> = one.objects().collect();
    assert!(other.objects().eq(objects.iter().copied()), "{objects:?}");
    assert!(objects.iter().all(|&(o, _)| one.need_of_object(o) == other.need_of_object(o)));
}

#[test]
fn what_version_5_kept_goes_on_as_before() {
    let mut random = Random::new(1, 6);
    let mut allowed = 0;
    for _ in 0..12 {
        let mut monitor = Monitor::new();
        let mut again = Monitor::new();
        let mut state = State::new();
        for turn in 0..300 {
            if turn % 60 == 0 {
                // Its bytes are those before the numbers.
                let kept = kept::by_version_7(&monitor);
                again = Monitor::from_kept(&kept[..1841]).expect("bytes of version 5.0.0");
                state = State::from(&again);
                assert!(state.is_sure());
                assert_shown_alike(&monitor, &again);
            }
            let call = drawn_call(&mut random);
            let answer = monitor.call(call);
            assert_eq!((again.call(call), state.call(call)), (answer, answer), "{call:?}");
            allowed += usize::from(answer.granted().is_ok());
        }
        assert_shown_alike(&monitor, &again);
        assert!(state.objects().eq(monitor.objects()));
    }
    assert!(allowed > 600, "few calls were allowed: {allowed}");
}
