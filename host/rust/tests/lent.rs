//! The monitor as a struct beside the monitor as bytes: every call is made on both, and the answers and the counts are
//! compared after each, and after many all that is shown of the tables and of the kept needs. And the two ways that a call
//! on the struct can take, in place or by `gatekeeper_monitor_call`, beside each other: the answers and every field. The
//! calls come from generated journals, and are drawn, with objects of numbers all over the range, and other numbers a
//! little out of theirs.

use gatekeeper::{
    Answer, Kind, Monitor, Object, Refusal, State, Way, ALL_SHOPS, NO_FREEZE, OBJECTS, PLACES, SUBJECTS,
};
use gatekeeper_independent::calls::{filled, Numbers, SHAPES};
use gatekeeper_independent::generate::{self, Wish};
use gatekeeper_independent::random::Random;
use gatekeeper_independent::records::{self, Body, Reader};
use gatekeeper_independent::variants::Rules;

const SEED: u64 = 1;

/// How many calls each comparison makes, and how many of the drawn ones go to the same monitor.
const CALLS_OF_JOURNALS: usize = 60_000;
const DRAWN_CALLS: usize = 60_000;
const DRAWN_CALLS_IN_A_ROW: usize = 1_500;
/// After how many calls all that is shown is compared: what a monitor of bytes shows takes it longer than a call.
const CALLS_TO_A_LOOK: usize = 150;
/// The objects that are drawn: more than can be live.
const DRAWN_OBJECTS: u64 = 80;

/// The same monitor as a struct and as bytes.
struct Pair {
    state: State,
    monitor: Monitor,
    /// How many calls were made on both.
    calls: usize,
}

impl Pair {
    fn empty() -> Pair {
        let pair = Pair { state: State::new(), monitor: Monitor::new(), calls: 0 };
        pair.compare();
        pair
    }

    /// Makes a call on both, which have to agree.
    fn call(&mut self, code: u64, numbers: Numbers) -> Answer {
        let before = self.state.clone();
        let answer = self.state.direct(code, numbers);
        assert_eq!(answer, self.monitor.direct(code, numbers), "code {code}, numbers {numbers:?}");
        if answer.granted().is_err() {
            assert!(self.state == before, "a refused call changed a field: {code} {numbers:?}");
        }
        assert!(self.state.is_sure());
        assert_eq!(
            (self.state.made(), self.state.gone(), self.state.frozen_from()),
            (self.monitor.made(), self.monitor.gone(), self.monitor.frozen_from())
        );
        self.calls += 1;
        if self.calls % CALLS_TO_A_LOOK == 0 {
            self.compare();
        }
        answer
    }

    /// Makes a call on clones in each way, which have to agree; what it is answered in place.
    fn each_way(&self, code: u64, numbers: Numbers) -> Option<Answer> {
        let call = format!("code {code}, numbers {numbers:?}");
        let mut whole = self.state.clone();
        let expected = whole.wholly(code, numbers);
        let mut quick = self.state.clone();
        let answer = quick.quickly(code, numbers);
        match answer {
            Some(answer) => assert!(answer == expected && quick == whole, "in place it differs: {call}"),
            None => assert!(quick == self.state, "not done, and a field changed: {call}"),
        }
        assert!(quick.is_sure() && whole.is_sure(), "{call}");

        // What is not sure is not done in place, and answered alike.
        let before = self.state.unsure();
        let mut unsure = before.clone();
        assert!(unsure.quickly(code, numbers).is_none() && unsure == before, "it is not sure: {call}");
        assert_eq!(unsure.direct(code, numbers), expected, "{call}");
        assert!(!unsure.is_sure(), "{call}");
        answer
    }

    /// Compares all that is shown, and a number of each that is out of range.
    fn compare(&self) {
        let Pair { state, monitor, .. } = self;
        assert_eq!((state.made(), state.gone()), (monitor.made(), monitor.gone()));
        assert_eq!((state.open(), state.frozen_from()), (monitor.open(), monitor.frozen_from()));
        for s in 0..=SUBJECTS {
            let subjects = [state.subject(s), monitor.subject(s)];
            assert_eq!(subjects[0], subjects[1], "subject {s}");
            let needs = [state.need_of_subject(s), monitor.need_of_subject(s)];
            assert_eq!(needs[0], needs[1], "the need of subject {s}");
            assert_eq!(state.group(s), monitor.group(s), "the group of subject {s}");
            for p in 0..=PLACES {
                assert_eq!(state.handle(s, p), monitor.handle(s, p), "place {p} of subject {s}");
            }
        }
        let live: Vec<(u64, Object)> = monitor.objects().collect();
        assert!(state.objects().eq(live.iter().copied()), "the objects are not {live:?}");
        for &(o, object) in &live {
            assert_eq!((state.object(o), monitor.object(o)), (Some(object), Some(object)), "object {o}");
            assert_eq!(state.need_of_object(o), monitor.need_of_object(o), "the need of object {o}");
        }
        for o in [OBJECTS, 1 << 32, u64::MAX].into_iter().filter(|o| live.iter().all(|(live, _)| live != o))
        {
            assert_eq!([state.object(o), monitor.object(o)], [None; 2], "object {o}");
            assert_eq!([state.need_of_object(o), monitor.need_of_object(o)], [None; 2], "object {o}");
        }
    }
}

/// How many calls came out in each way.
#[derive(Default)]
struct Seen {
    allowed: usize,
    lowered: usize,
    /// Those of the lowered at which a shop mark was lost.
    lost: usize,
    /// By number.
    refused: [usize; 18],
    /// The most handles that were open.
    open: u64,
    quick: Quick,
}

/// Opens and closes: how many there were, and how many were done in place.
#[derive(Default)]
struct Quick {
    opens: usize,
    closes: usize,
    opened: usize,
    closed: usize,
    /// Those that were refused in place, by number.
    refused: [usize; 18],
    /// Those that were allowed in place while there was a freeze, a marked handle, a mapping, and ten pipes or more, and for
    /// a subject with mates; and of the closes, those of a marked handle, of a mapping, and of a handle on a pipe.
    under_freeze: usize,
    beside_marked: usize,
    beside_mapping: usize,
    beside_pipes: usize,
    with_mates: usize,
    of_marked: usize,
    of_mapping: usize,
    of_pipe: usize,
}

impl Quick {
    fn call(&mut self, pair: &Pair, code: u64, numbers: Numbers) {
        let answer = pair.each_way(code, numbers);
        let state = &pair.state;
        let closes = code == 11;
        match code {
            5 | 6 => self.opens += 1,
            11 => self.closes += 1,
            _ => return assert!(answer.is_none(), "code {code} is no open and no close"),
        }
        match answer.map(Answer::granted) {
            None => return,
            Some(Err(refusal)) => return self.refused[refusal.number() as usize] += 1,
            Some(Ok(_)) if closes => self.closed += 1,
            Some(Ok(_)) => self.opened += 1,
        }
        let handles = || (0..SUBJECTS).flat_map(|s| (0..PLACES).filter_map(move |p| state.handle(s, p)));
        let is_pipe = |o| state.object(o).is_some_and(|object| object.kind == Kind::Pipe);
        self.under_freeze += usize::from(state.frozen_from().is_some());
        self.beside_marked += usize::from(handles().any(|handle| handle.marked));
        self.beside_mapping += usize::from(handles().any(|handle| handle.way == Way::Maps));
        let pipes = state.objects().filter(|(_, object)| object.kind == Kind::Pipe);
        self.beside_pipes += usize::from(pipes.count() >= 10);
        let is_mate = |&s: &u64| s != numbers[0] && state.group(s) == state.group(numbers[0]);
        self.with_mates += usize::from((0..SUBJECTS).any(|s| is_mate(&s)));
        if let Some(handle) = state.handle(numbers[0], numbers[1]).filter(|_| closes) {
            self.of_marked += usize::from(handle.marked);
            self.of_mapping += usize::from(handle.way == Way::Maps);
            self.of_pipe += usize::from(is_pipe(handle.object));
        }
    }

    /// Both ways were taken, by opens and by closes, in states of every kind.
    fn report(&self) {
        let Quick { opens, closes, opened, closed, .. } = *self;
        let refused: usize = self.refused.iter().sum();
        println!(
            "beside: in place {opened} of {opens} opens and {closed} of {closes} closes, and {refused} that were refused; \
             {} under a freeze, {} beside a marked handle, {} beside a mapping, {} beside ten pipes or more, {} with mates; \
             closed {} marked ones, {} mappings, {} on pipes",
            self.under_freeze,
            self.beside_marked,
            self.beside_mapping,
            self.beside_pipes,
            self.with_mates,
            self.of_marked,
            self.of_mapping,
            self.of_pipe
        );
        assert!(opened > 100 && closed > 100, "few were done in place");
        assert!(opened + closed + refused < opens + closes, "none was not done in place");
        let kinds = [
            self.under_freeze,
            self.beside_marked,
            self.beside_mapping,
            self.beside_pipes,
            self.with_mates,
        ];
        assert!(kinds.iter().all(|&count| count > 20), "few were done in place in states of some kind");
        let closes = [self.of_marked, self.of_mapping, self.of_pipe];
        assert!(closes.iter().all(|&count| count > 0), "no close of some kind was done in place");
        for refusal in [Refusal::NoSubject, Refusal::NoObject, Refusal::PlaceUnfit, Refusal::Frozen] {
            assert!(
                self.refused[refusal.number() as usize] > 0,
                "none was refused in place as {refusal:?}"
            );
        }
        assert_eq!(self.refused[Refusal::Flow.number() as usize], 0, "a flow was refused in place");
    }
}

impl Seen {
    fn call(&mut self, pair: &mut Pair, code: u64, numbers: Numbers) {
        self.quick.call(pair, code, numbers);
        match pair.call(code, numbers) {
            Answer::Allowed(_) => self.allowed += 1,
            Answer::Lowered { lost, .. } => {
                self.lowered += 1;
                self.lost += usize::from(lost > 0);
            }
            Answer::Refused(refusal) => self.refused[refusal.number() as usize] += 1,
        }
        self.open = self.open.max(pair.state.open());
    }

    fn calls(&self) -> usize {
        self.allowed + self.lowered + self.refused.iter().sum::<usize>()
    }

    /// Every refusal that a call can have was met, and enough of the rest.
    fn report(&self, what: &str) {
        let (calls, allowed, lowered, open) = (self.calls(), self.allowed, self.lowered, self.open);
        let lost = self.lost;
        println!(
            "beside: {calls} {what} on the struct and on bytes: {allowed} allowed, {lowered} lowered, {lost} of them with \
             a shop mark lost, at most {open} handles open"
        );
        assert!(allowed > calls / 10 && lowered > 100 && lost > 50, "few calls were allowed or lowered");
        for number in [1, 2, 3, 4, 5, 6, 7, 8, 9, 10, 15, 16, 17] {
            assert!(self.refused[number] > 0, "no call was refused with {number}");
        }
        self.quick.report();
    }
}

/// The calls of a journal's records, those with an unknown code among them.
fn calls_of(journal: &[u8]) -> Vec<(u64, Numbers)> {
    let mut calls = Vec::new();
    let mut reader = Reader::new(journal, Rules::default());
    while let Some(Ok(span)) = reader.next_record() {
        match records::read_body(journal, span, Rules::default()) {
            Body::Call { code, numbers } => calls.push((code, numbers)),
            Body::UnknownCode { code } => calls.push((code, filled(&[]))),
            Body::Bad { .. } => {}
        }
    }
    calls
}

/// Mostly one of the numbers below `most` that fit; now and then any up to `most`, which is just out of range itself, and
/// seldom one further out.
fn drawn(random: &mut Random, most: u64, fits: impl Fn(u64) -> bool) -> u64 {
    if random.once_in(200) {
        return random.pick(&[most + 2, 255, 256, 1 << 32, 1 << 63, u64::MAX]).unwrap_or(u64::MAX);
    }
    if random.once_in(12) {
        return random.between(0, most);
    }
    let fitting: Vec<u64> = (0..most).filter(|&number| fits(number)).collect();
    random.pick(&fitting).unwrap_or_else(|| random.between(0, most))
}

/// A number for the object that is drawn as `small`: all over the range, and four of them with the same lowest bits.
fn number_of(small: u64) -> u64 {
    let [near, far] = [small % 20, small / 20];
    [near, 64 + near, (1 << 32) + near, u64::MAX - 63 + near].get(far as usize).copied().unwrap_or(small)
}

/// A call that often fits the tables. Execs, closes, exits and freezes are rarer than the others, so that the tables fill.
fn drawn_call(random: &mut Random, state: &State) -> (u64, Numbers) {
    // Numbers that the code does not use are ignored, whatever they are.
    let mut numbers = filled(&[]).map(|_| random.below(u64::MAX));
    let mut code = random.pick(&SHAPES.each_ref()).map_or(0, |shape| shape.code);
    if matches!(code, 10 | 11 | 12 | 16) && !random.once_in(4) {
        code = random.pick(&[4, 5, 6, 7, 8, 14, 15, 17]).unwrap_or(5);
    }
    if random.once_in(300) {
        return (random.pick(&[0, 19, 20, 256, (1 << 32) + 5, u64::MAX]).unwrap_or(0), numbers);
    }
    let Some(shape) = SHAPES.iter().find(|shape| shape.code == code) else { return (code, numbers) };
    let subject = drawn(random, SUBJECTS, |s| state.subject(s).is_some());
    for (number, name) in numbers.iter_mut().zip(shape.numbers) {
        let makes = matches!(code, 1..=4 | 17);
        *number = match *name {
            "s" if code == 1 => drawn(random, SUBJECTS, |s| state.subject(s).is_none()),
            "s" => subject,
            "c" => drawn(random, SUBJECTS, |s| state.subject(s).is_none()),
            "t" => drawn(random, SUBJECTS, |s| s != subject && state.subject(s).is_some()),
            "o" | "a" | "b" => {
                number_of(drawn(random, DRAWN_OBJECTS, |o| makes != state.object(number_of(o)).is_some()))
            }
            "level" if code == 16 => random.between(8, NO_FREEZE + 1),
            "level" => random.between(0, 16),
            // Mostly nearly all shop marks, in places all of them; seldom one too many.
            "set" if random.once_in(8) => random.between(0, ALL_SHOPS + 1),
            "set" => ALL_SHOPS - random.pick(&[0, 0, 0, 1, 2, 3]).unwrap_or(0),
            _ => {
                let names_a_handle = matches!(code, 7 | 8 | 11 | 15);
                drawn(random, PLACES, |p| names_a_handle == state.handle(subject, p).is_some())
            }
        };
    }
    (code, numbers)
}

#[test]
fn the_calls_of_generated_journals_come_out_alike() {
    let mut seen = Seen::default();
    for index in 0.. {
        let mut pair = Pair::empty();
        for (code, numbers) in calls_of(&generate::journal(SEED, index, Wish::default())) {
            seen.call(&mut pair, code, numbers);
        }
        if seen.calls() >= CALLS_OF_JOURNALS {
            break;
        }
    }
    seen.report("calls of generated journals");
}

#[test]
fn drawn_calls_come_out_alike() {
    let mut random = Random::new(SEED, 5);
    let mut seen = Seen::default();
    for _ in 0..DRAWN_CALLS / DRAWN_CALLS_IN_A_ROW {
        let mut pair = Pair::empty();
        for _ in 0..DRAWN_CALLS_IN_A_ROW {
            let (code, numbers) = drawn_call(&mut random, &pair.state);
            seen.call(&mut pair, code, numbers);
        }
    }
    seen.report("drawn calls");
    assert!(seen.open > 100, "the tables stayed nearly empty");
}
