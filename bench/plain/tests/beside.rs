//! The plain program beside the independent one: the same replies to every journal, and after each direct call the
//! same answer, the same tally, labels, groups, marks, mappings and freeze, and the needs as the independent program works
//! them out.

use gatekeeper_independent::calls::{Numbers, Shape, NUMBERS, SHAPES};
use gatekeeper_independent::cases;
use gatekeeper_independent::generate::{self, Style, Wish, STYLES};
use gatekeeper_independent::labels::Label as LabelBeside;
use gatekeeper_independent::monitor::{Answer as AnswerBeside, Monitor as MonitorBeside};
use gatekeeper_independent::needs::{Needs, Thing};
use gatekeeper_independent::random::Random;
use gatekeeper_independent::records::{self, Body, Reader};
use gatekeeper_independent::replies::replies as replies_beside;
use gatekeeper_independent::variants::Rules;
use gatekeeper_plain::tables::{numbers, Subjects};
use gatekeeper_plain::{replies, Answer, Label, Monitor, When};

const SEED: u64 = 1;

/// How many generated journals of each style are replayed, and how many calls are made directly.
const JOURNALS: u64 = 60;
const CALLS: u32 = 20_000;

/// How many lists the calls of steps with threads are in.
const THREAD_LISTS: u64 = 400;

const BOTH: [When; 2] = [When::EachCall, When::Asked];

fn reply(journal: &[u8], when: When) -> String {
    let mut text = Vec::new();
    replies(journal, when, &mut text);
    String::from_utf8(text).expect("letters, digits and spaces")
}

fn beside(answer: AnswerBeside) -> Answer {
    match answer {
        AnswerBeside::Allowed(level) => Answer::Allowed(level as u8),
        AnswerBeside::Lowered(level, lost) => Answer::Lowered(level as u8, lost as u8),
        AnswerBeside::Refused(number) => Answer::Refused(number as u8),
    }
}

fn label_beside(label: Label) -> LabelBeside {
    LabelBeside { level: label.level().into(), shops: label.shops().into() }
}

#[test]
fn the_worked_cases_get_their_replies() {
    for case in cases::all() {
        for when in BOTH {
            assert_eq!(reply(&case.journal, when), case.replies, "{}: {}", case.name, case.what);
        }
    }
}

#[test]
fn generated_journals_get_the_same_replies() {
    for &(style, name, _) in STYLES {
        let journals = if style == Style::Long { JOURNALS / 10 } else { JOURNALS };
        for index in 0..journals {
            let journal = generate::journal(SEED, index, Wish { style, ..Wish::default() });
            let replies = replies_beside(&journal);
            for when in BOTH {
                assert_eq!(reply(&journal, when), replies, "{name}, seed {SEED}, index {index}, {when:?}");
            }
        }
    }
}

/// A monitor of each program, in the same state.
struct Pair {
    plain: Monitor,
    independent: MonitorBeside,
}

impl Pair {
    fn new(when: When) -> Pair {
        Pair { plain: Monitor::new(when), independent: MonitorBeside::new() }
    }

    fn call(&mut self, code: u64, numbers: Numbers) -> Answer {
        let before = self.plain.tables().clone();
        let answer = self.plain.direct(code, numbers);
        assert_eq!(
            answer,
            beside(self.independent.call(code, numbers)),
            "code {code}, numbers {numbers:?}"
        );
        let (tally, tally_beside) = (self.plain.tally(), self.independent.tally());
        assert_eq!((tally.made, tally.gone), (tally_beside.made, tally_beside.gone));
        assert_eq!(tally.open(), self.independent.tables().handle_count());
        assert_eq!(u64::from(self.plain.tables().freeze), self.independent.tables().freeze());
        self.compare_handles();
        self.compare_labels();
        self.compare_groups();
        if let Answer::Refused(_) = answer {
            assert_eq!(self.plain.tables(), &before, "a refused call changed a table");
        }
        answer
    }

    /// Sees that the same handles are marked, and the same are mappings.
    fn compare_handles(&self) {
        for s in 0..32 {
            let (mut marks, mut maps) = (0, 0);
            for (p, handle) in self.independent.tables().handles_of(s) {
                marks |= u16::from(handle.marked) << p;
                maps |= u16::from(handle.mapped) << p;
            }
            assert_eq!(self.plain.tables().marks[s as usize], marks, "marks of subject {s}");
            assert_eq!(self.plain.tables().maps[s as usize], maps, "mappings of subject {s}");
        }
    }

    /// Sees that the same subjects and objects are live, with the same labels.
    fn compare_labels(&self) {
        let (plain, tables) = (self.plain.tables(), self.independent.tables());
        for s in 0..32 {
            let label = plain.live(s).map(|subject| label_beside(subject.label));
            assert_eq!(label, tables.subject(s as u64).map(|subject| subject.label()), "subject {s}");
        }
        let mut live = 0;
        for (slot, o) in self.objects() {
            let label = plain.objects[slot].map(|object| label_beside(object.label));
            assert_eq!(label, tables.object(o).map(|object| object.label()), "object {o}");
            assert_eq!(plain.slot_of(o), Some(slot), "object {o}");
            live += 1;
        }
        assert_eq!(live, tables.live_objects().count());
        assert_eq!(live, plain.free.count_zeros() as usize);
    }

    /// Sees that the same subjects are mates.
    fn compare_groups(&self) {
        for s in 0..32 {
            let mates = numbers(self.mates(s)).map(|mate| mate as u64);
            assert!(mates.eq(self.independent.tables().mates(s)), "mates of subject {s}");
        }
    }

    /// The mates of a subject, none where it is not live.
    fn mates(&self, s: u64) -> Subjects {
        let tables = self.plain.tables();
        tables.live(s as usize).map_or(0, |s| tables.mates(s))
    }

    /// The slots in use, each with its object's number.
    fn objects(&self) -> impl Iterator<Item = (usize, u64)> {
        let tables = self.plain.tables().clone();
        let numbers = tables.numbers.into_iter().enumerate();
        numbers.filter(move |&(slot, _)| tables.objects[slot].is_some())
    }

    /// Sees that the needs worked out last are those of the tables.
    fn compare_needs(&self) {
        let needs = Needs::of_tables(self.independent.tables());
        for s in 0..32 {
            let need = self.plain.tables().live(s).map_or(Label::LEAST, |s| self.plain.needs().subject(s));
            assert_eq!(label_beside(need), needs.of(Thing::Subject(s as u64)), "need of subject {s}");
        }
        for (slot, o) in self.objects() {
            let need = self.plain.needs().object(slot);
            assert_eq!(label_beside(need), needs.of(Thing::Object(o)), "need of object {o}");
        }
    }
}

/// The calls of a generated journal; records that hold none are left out.
fn calls_of(journal: &[u8]) -> Vec<(u64, Numbers)> {
    let mut reader = Reader::new(journal, Rules::default());
    let mut calls = Vec::new();
    while let Some(Ok(span)) = reader.next_record() {
        if let Body::Call { code, numbers } = records::read_body(journal, span, Rules::default()) {
            calls.push((code, numbers));
        }
    }
    calls
}

#[test]
fn direct_calls_get_the_same_answers_and_needs() {
    for style in [Style::Full, Style::Rings, Style::Payrun, Style::Edges] {
        for index in 0..4 {
            let journal = generate::journal(SEED, index, Wish { style, ..Wish::default() });
            let mut pair = Pair::new(When::EachCall);
            for (code, numbers) in calls_of(&journal) {
                pair.call(code, numbers);
                // Code 12 for a subject out of range: a refused call that seeks no handle.
                pair.call(12, [32, 0, 0, 0, 0, 0]);
                pair.compare_needs();
            }
        }
    }
}

/// A number of a call: mostly small, sometimes just in or out of a range, sometimes one of those that are small if they
/// are cut to 32 bits, and hardly ever any.
fn drawn(random: &mut Random) -> u64 {
    match random.below(120) {
        0 => random.between(0, u64::MAX),
        1..10 => random.pick(&[15, 16, 31, 32, 63, 64, 255, 256, 1 << 32, u64::MAX]).unwrap_or(0),
        10..30 => (1 << 32) | (64 * random.below(200)),
        _ => random.below(9),
    }
}

#[test]
fn any_numbers_get_the_same_answers() {
    let largest = SHAPES.iter().map(|shape| shape.code).max().unwrap_or(0);
    for when in BOTH {
        let mut random = Random::new(SEED, 0);
        let mut pair = Pair::new(when);
        let mut refused = [0; 18];
        let mut lost = 0;
        for _ in 0..CALLS {
            let code = random.between(0, largest + 1);
            let numbers = [0; NUMBERS].map(|_: u64| drawn(&mut random));
            match pair.call(code, numbers) {
                Answer::Refused(number) => refused[usize::from(number)] += 1,
                Answer::Lowered(_, 1..) => lost += 1,
                _ => {}
            }
        }
        // 11 to 14 are not said of a direct call.
        let drawn = (1..=17).filter(|&number| refused[number] > 0);
        assert!(drawn.eq((1..=10).chain([15, 16, 17])), "a refusal was never drawn: {refused:?}");
        assert!(lost > 20, "shop marks were lost {lost} times");
    }
}

/// What is there before the calls of steps with threads: two steps, of three threads and of two, and three files. The
/// second step and the files lack shop marks.
const STEPS: [(u64, Numbers); 8] = [
    (1, [0, 12, 255, 0, 0, 0]),
    (18, [0, 1, 0, 0, 0, 0]),
    (18, [1, 2, 0, 0, 0, 0]),
    (1, [3, 12, 0b0111, 0, 0, 0]),
    (18, [3, 4, 0, 0, 0, 0]),
    (2, [0, 3, 0b0001, 0, 0, 0]),
    (2, [1, 9, 0b0110, 0, 0, 0]),
    (2, [2, 12, 0b0011, 0, 0, 0]),
];

/// How often each of their calls is drawn. No freeze is, as it would keep the upper files out.
fn weight(shape: &Shape) -> u64 {
    match shape.code {
        5..=7 | 18 => 12,
        1 | 8 | 9 | 10 | 11 => 3,
        16 => 0,
        _ => 2,
    }
}

/// A number for such a call: few subjects meet at few objects and places.
fn drawn_few(random: &mut Random, name: &str) -> u64 {
    match name {
        "s" | "t" | "c" => random.below(6),
        "p" | "q" | "r" | "w" => random.below(3),
        "level" => random.pick(&[3, 9, 12, 12]).unwrap_or(0),
        "set" => random.pick(&[0b0001, 0b0011, 0b0110, 0b0111, 255, 255]).unwrap_or(0),
        _ => random.below(4),
    }
}

/// How often subjects with mates fell at a read or a map, lost shop marks there, ended them by an exec, and were refused one
/// for the flow.
#[derive(Debug, Default)]
struct Met {
    fell: u32,
    lost: u32,
    ended: u32,
    stayed: u32,
}

#[test]
fn threads_get_the_same_answers() {
    let weights: Vec<u64> = SHAPES.iter().map(weight).collect();
    let mut met = Met::default();
    for index in 0..THREAD_LISTS {
        let mut random = Random::new(SEED, index);
        let mut pair = Pair::new(When::EachCall);
        for (code, numbers) in STEPS {
            pair.call(code, numbers);
        }
        for _ in 0..CALLS / THREAD_LISTS as u32 {
            let shape = &SHAPES[random.weighted(&weights)];
            let mut numbers = [0; NUMBERS];
            for (number, name) in numbers.iter_mut().zip(shape.numbers) {
                *number = drawn_few(&mut random, name);
            }
            let has_mates = pair.mates(numbers[0]) != 0;
            match (shape.code, pair.call(shape.code, numbers)) {
                (7 | 14, Answer::Lowered(_, lost)) if has_mates => {
                    met.fell += 1;
                    met.lost += u32::from(lost > 0);
                }
                (10, Answer::Allowed(_) | Answer::Lowered(..)) if has_mates => met.ended += 1,
                (10, Answer::Refused(9)) if has_mates => met.stayed += 1,
                _ => {}
            }
            // A refused call that seeks no handle.
            pair.call(12, [32, 0, 0, 0, 0, 0]);
            pair.compare_needs();
        }
    }
    // A comparison that met little says little.
    assert!([met.fell, met.lost, met.ended, met.stayed].into_iter().all(|met| met > 20), "{met:?}");
}
