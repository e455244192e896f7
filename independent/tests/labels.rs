//! What holds of labels, over generated journals and made-up tables: RULES T49 to T53, C104, C118, C119, B28 and J25.

use std::collections::BTreeMap;

use gatekeeper_independent::calls::Call;
use gatekeeper_independent::generate::{journal, Wish};
use gatekeeper_independent::labels::{Label, ALL_SHOPS};
use gatekeeper_independent::monitor::{Answer, Monitor};
use gatekeeper_independent::needs::{label, live_things, Needs, Thing};
use gatekeeper_independent::records::{self, Body, BodyFault, Reader};
use gatekeeper_independent::replies::{replies, replies_by, Content, Run, LONGEST_JOURNAL};
use gatekeeper_independent::tables::{
    Direction, Handle, Kind, Object, StoredTables, Subject, Tables, LIMITS,
};
use gatekeeper_independent::variants::Rules;

const SEED: u64 = 21;

fn mixed(count: u64) -> impl Iterator<Item = Vec<u8>> {
    (0..count).map(|index| journal(SEED, index, Wish::default()))
}

/// Every call of a journal by these rules, with its answer and the tables before and after it.
fn each_call(journal: &[u8], rules: Rules, mut look: impl FnMut(Call, Answer, &Tables, &Tables)) {
    let mut run = Run::new(journal, rules);
    loop {
        let before = run.monitor().tables().clone();
        let Some(step) = run.next_step() else {
            break;
        };
        if let Content::Body(_, Body::Call { code, numbers }) = step.content {
            look(Call::new(code, numbers).unwrap(), step.answer, &before, run.monitor().tables());
        }
    }
}

/// A label, mark by mark.
#[derive(Clone, Copy, Debug, PartialEq)]
struct Plain {
    level: u64,
    marks: [bool; 8],
}

impl Plain {
    fn of(level: u64, set: u64) -> Plain {
        let mut marks = [false; 8];
        let mut rest = set;
        for mark in &mut marks {
            *mark = rest % 2 == 1;
            rest /= 2;
        }
        assert_eq!(rest, 0);
        Plain { level, marks }
    }

    fn falls_to(&mut self, to: Plain) {
        if to.level < self.level {
            self.level = to.level;
        }
        for (mark, other) in self.marks.iter_mut().zip(to.marks) {
            *mark = *mark && other;
        }
    }

    fn lost(self, after: Plain) -> u64 {
        self.marks.into_iter().zip(after.marks).map(|(was, is)| u64::from(was && !is)).sum()
    }
}

/// RULES C1 to C18, T51: the labels of all things, kept beside the journal by its calls and what they hold, mark by mark;
/// RULES C104, C118, C119: a call is lowered where one of them changed, and the number is that of the thing whose level
/// is given.
#[test]
fn labels_fall_as_the_calls_say() {
    let mut lowered = [0, 0, 0];
    for journal in mixed(250) {
        let mut subjects: BTreeMap<u64, Plain> = BTreeMap::new();
        let mut objects: BTreeMap<u64, Plain> = BTreeMap::new();
        each_call(&journal, Rules::default(), |call, answer, before, after| {
            if matches!(answer, Answer::Refused(_)) {
                return;
            }
            let (old_subjects, old_objects) = (subjects.clone(), objects.clone());
            let held = |s, p| before.handle(s, p).unwrap().object;
            let mut falls: Vec<(u64, Plain)> = Vec::new();
            let mut shown = None;
            match call {
                Call::Admit { s, level, shops } => drop(subjects.insert(s, Plain::of(level, shops))),
                Call::Register { o, level, shops } => drop(objects.insert(o, Plain::of(level, shops))),
                Call::Create { s, o } | Call::Pipe { s, o, .. } => drop(objects.insert(o, subjects[&s])),
                Call::Connect { s, t, a, b, .. } => {
                    objects.insert(a, subjects[&s]);
                    objects.insert(b, subjects[&t]);
                }
                Call::Fork { s, c } | Call::Thread { s, c } => drop(subjects.insert(c, subjects[&s])),
                Call::Read { s, p } => {
                    falls.extend(before.members(s).map(|member| (member, objects[&held(s, p)])));
                    shown = Some(Thing::Subject(s));
                }
                Call::Map { s, o, .. } => {
                    falls.extend(before.members(s).map(|member| (member, objects[&o])));
                    shown = Some(Thing::Subject(s));
                }
                Call::Exec { s, o } => {
                    falls.push((s, objects[&o]));
                    shown = Some(Thing::Subject(s));
                }
                Call::Write { s, p } => {
                    let o = held(s, p);
                    if before.object(o).unwrap().kind == Kind::Pipe {
                        objects.get_mut(&o).unwrap().falls_to(subjects[&s]);
                    }
                    shown = Some(Thing::Object(o));
                }
                _ => {}
            }
            for (s, to) in falls {
                subjects.get_mut(&s).unwrap().falls_to(to);
            }
            subjects.retain(|&s, _| after.subject(s).is_some());
            objects.retain(|&o, _| after.object(o).is_some());
            let plain = |Label { level, shops }: Label| Plain::of(level, shops);
            assert!(subjects.keys().copied().eq(after.live_subjects()), "{call:?}");
            assert!(objects.keys().copied().eq(after.live_objects()), "{call:?}");
            for (&s, &own) in &subjects {
                assert_eq!(plain(after.subject(s).unwrap().label()), own, "{call:?}");
            }
            for (&o, &own) in &objects {
                assert_eq!(plain(after.object(o).unwrap().label()), own, "{call:?}");
            }
            let changed = old_subjects.iter().any(|(s, old)| subjects.get(s).is_some_and(|new| new != old))
                || old_objects.iter().any(|(o, old)| objects.get(o).is_some_and(|new| new != old));
            let Answer::Lowered(level, lost) = answer else {
                assert!(!changed, "{call:?}");
                return;
            };
            assert!(changed, "{call:?}");
            let (was, is) = match shown.unwrap() {
                Thing::Subject(s) => (old_subjects[&s], subjects[&s]),
                Thing::Object(o) => (old_objects[&o], objects[&o]),
            };
            assert_eq!((level, lost), (is.level, was.lost(is)), "{call:?}");
            let kind = if lost == 0 { 0 } else { 1 + usize::from(was.level == is.level) };
            lowered[kind] += 1;
        });
    }
    // By the level alone, by both, and by marks alone.
    assert!(lowered.iter().all(|&times| times >= 200), "{lowered:?}");
}

/// What was brought in where, as far as it can have come to a thing: the label that all of it is at least.
fn is_protected(journal: &[u8], rules: Rules) -> bool {
    const NOTHING: Label = Label::new(15, ALL_SHOPS);
    let (mut subjects, mut objects) = (BTreeMap::new(), BTreeMap::new());
    let mut is_kept = true;
    each_call(journal, rules, |call, answer, before, after| {
        if matches!(answer, Answer::Refused(_)) {
            return;
        }
        let held = |s, p| before.handle(s, p).map_or(u64::MAX, |handle| handle.object);
        let mut reads: Vec<(u64, u64)> = Vec::new();
        match call {
            Call::Admit { s, level, shops } => drop(subjects.insert(s, Label { level, shops })),
            Call::Register { o, level, shops } => drop(objects.insert(o, Label { level, shops })),
            Call::Create { o, .. } | Call::Pipe { o, .. } => drop(objects.insert(o, NOTHING)),
            Call::Connect { a, b, .. } => objects.extend([(a, NOTHING), (b, NOTHING)]),
            Call::Fork { s, c } | Call::Thread { s, c } => drop(subjects.insert(c, subjects[&s])),
            Call::Read { s, p } => reads.push((s, held(s, p))),
            Call::Map { s, o, .. } | Call::Exec { s, o } => reads.push((s, o)),
            Call::Write { s, p } => {
                let o = held(s, p);
                objects.insert(o, objects[&o].fallen_to(subjects[&s]));
                reads.extend(before.mappers(o).map(|mapper| (mapper, o)));
            }
            _ => {}
        }
        for (s, o) in reads {
            for member in before.members(s) {
                subjects.insert(member, subjects[&member].fallen_to(objects[&o]));
            }
        }
        let mut is_below = |thing, came: Label| {
            is_kept &= label(after, thing).is_none_or(|label| came.is_at_least(label));
        };
        subjects.iter().for_each(|(&s, &came)| is_below(Thing::Subject(s), came));
        objects.iter().for_each(|(&o, &came)| is_below(Thing::Object(o), came));
    });
    is_kept
}

/// RULES B28: whatever can have come to a thing was brought in under labels that are at least its own, so that what is
/// brought in under a label that is not at least some label leaves all things at or above that one the same.
#[test]
fn what_comes_to_a_thing_was_brought_in_under_labels_at_least_its_own() {
    for journal in mixed(250) {
        assert!(is_protected(&journal, Rules::default()));
    }
    let wrong = [
        "level-alone",
        "set-alone",
        "below-is-less",
        "level-first",
        "compared-as-numbers",
        "exec-sets-untested",
        "upstream-by-level",
        "need-without-sets",
        "fall-joins-sets",
        "fall-keeps-set",
        "fall-only-comparable",
        "marks-fall-with-level",
        "pipe-keeps-set",
        "mates-keep-sets",
    ];
    for name in wrong {
        let rules = Rules::named(name).unwrap();
        assert!(mixed(250).any(|journal| !is_protected(&journal, rules)), "{name}");
    }
}

/// The journal with this set in each of its records of calls 1 and 2 that has a set of 0 to 255 or none, or without
/// sets there.
fn with_sets(journal: &[u8], set: Option<u64>) -> Vec<u8> {
    let rules = Rules::default();
    let before = Rules::named("before-request-l").unwrap();
    let mut reader = Reader::new(journal, rules);
    let mut changed = Vec::new();
    loop {
        let start = reader.offset();
        let Some(record) = reader.next_record() else {
            return changed;
        };
        let by = |rules| record.map(|span| records::read_body(journal, span, rules));
        let has_no_set = matches!(by(rules), Ok(Body::Bad { code: 1 | 2, fault: BodyFault::Missing(2) }));
        match by(if has_no_set { before } else { rules }) {
            Ok(Body::Call { code: code @ (1 | 2), numbers: [number, level, old, ..] })
                if old <= ALL_SHOPS =>
            {
                let numbers: Vec<u64> = [number, level].into_iter().chain(set).collect();
                records::write(code, &numbers, &mut changed);
            }
            _ => changed.extend_from_slice(&journal[start..reader.offset()]),
        }
    }
}

/// RULES T53: where every set is 255, all that can be told of a journal goes by levels. No wrong program that differs
/// from the rules in its handling of sets alone can be told apart.
#[test]
fn with_every_mark_everything_goes_by_levels() {
    let names = [
        "sets-ignored",
        "level-alone",
        "below-is-less",
        "level-first",
        "compared-as-numbers",
        "sets-as-numbers",
        "sets-by-count",
        "one-mark-enough",
        "group-0-untested",
        "group-7-untested",
        "open-read-by-level",
        "open-write-by-level",
        "map-by-level",
        "connect-by-level",
        "exec-sets-untested",
        "asker-by-level",
        "upstream-by-level",
        "subjects-by-level",
        "pipes-by-level",
        "files-by-level",
        "need-meets-sets",
        "need-of-highest",
        "need-of-largest",
        "need-taken-whole",
        "need-without-sets",
        "need-largest-set",
        "need-seven-groups",
        "passes-by-level",
        "fall-joins-sets",
        "fall-keeps-set",
        "fall-takes-set",
        "fall-takes-smaller-set",
        "fall-only-comparable",
        "fall-takes-whole",
        "marks-fall-with-level",
        "fall-keeps-group-0",
        "fall-keeps-group-7",
        "reader-keeps-set",
        "pipe-keeps-set",
        "exec-keeps-set",
        "map-keeps-set",
        "mates-keep-sets",
        "create-full-set",
        "pipe-full-set",
        "fork-full-set",
        "thread-full-set",
        "connect-full-sets",
        "connect-sets-swapped",
        "connect-common-set",
        "freeze-full-sets",
        "freeze-not-empty-sets",
        "marks-alone-unsaid",
        "lost-of-other",
        "lost-reversed",
        "lost-of-both",
        "lost-of-all",
        "lost-as-set",
        "lost-as-lacking",
        "admit-ignores-set",
        "register-ignores-set",
    ];
    let mut apart = 0;
    for journal in mixed(60) {
        let full = with_sets(&journal, Some(ALL_SHOPS));
        let right = replies(&full);
        for name in names {
            let rules = Rules::named(name).unwrap();
            assert_eq!(replies_by(&full, rules), right, "{name}");
            apart += usize::from(replies_by(&journal, rules) != replies(&journal));
        }
        // Any other set would do as well, where the journal is not too long with 255.
        if full.len() <= LONGEST_JOURNAL {
            assert_eq!(replies(&with_sets(&journal, Some(0))), right);
        }
        assert!(right.lines().all(|line| line.split(' ').nth(4).is_none_or(|lost| lost == "0")));
    }
    assert!(apart >= 500, "{apart}");
}

/// The replies without the fifth field.
fn without_fifth(replies: &str) -> String {
    let cut = |line: &str| {
        let fields: Vec<&str> = line.split(' ').take(4).collect();
        format!("{}\n", fields.join(" "))
    };
    replies.lines().map(cut).collect()
}

/// RULES J25: a journal of before sets, with 255 behind the level of each admit and register.
#[test]
fn a_journal_of_before_gets_its_replies_with_set_255_added() {
    let before = Rules::named("before-request-l").unwrap();
    let mut compared = 0;
    for journal in mixed(250) {
        let old = with_sets(&journal, None);
        let was = replies_by(&old, before);
        let new = with_sets(&journal, Some(ALL_SHOPS));
        let has_malformed = was.lines().any(|line| line.ends_with(" R 11") || line.ends_with(" R 12"));
        if has_malformed || new.len() > LONGEST_JOURNAL {
            continue;
        }
        assert_eq!(without_fifth(&replies(&new)), was);
        compared += 1;
    }
    assert!(compared >= 80, "{compared}");
}

fn file(label: Label) -> Option<Object> {
    Some(Object::new(Kind::File, label))
}

/// RULES C7, C118, C119, T51: at every two sets, and levels on either side.
#[test]
fn a_read_at_every_two_sets() {
    let mut tables = Tables::new(LIMITS);
    tables.set_handle(0, 0, Some(Handle::new(0, Direction::Reading)));
    for own in 0..=ALL_SHOPS {
        for other in 0..=ALL_SHOPS {
            let level = 5 + (own + other) % 3;
            tables.set_subject(0, Some(Subject { level: 6, shops: own }));
            tables.set_object(0, file(Label::new(level, other)));
            let mut monitor = Monitor::of_tables(tables.clone(), Rules::default());
            let lost = (0..8).filter(|&group| own >> group & 1 > other >> group & 1).count() as u64;
            let falls = lost > 0 || level < 6;
            let right = if falls { Answer::Lowered(level.min(6), lost) } else { Answer::Allowed(6) };
            assert_eq!(monitor.call(7, [0, 0, 0, 0, 0, 0]), right, "{own} {other}");
            assert_eq!(monitor.tables().subject(0).map(|subject| subject.shops), Some(own & other));
            assert_eq!(monitor.tables().object(0), file(Label::new(level, other)));
        }
    }
}

/// RULES R9, T50: an open for writing at every two sets.
#[test]
fn an_open_for_writing_at_every_two_sets() {
    let mut tables = Tables::new(LIMITS);
    for own in 0..=ALL_SHOPS {
        for other in 0..=ALL_SHOPS {
            tables.set_subject(0, Some(Subject { level: 9, shops: own }));
            tables.set_object(0, file(Label::new(9, other)));
            let mut monitor = Monitor::of_tables(tables.clone(), Rules::default());
            let includes = (0..8).all(|group| own >> group & 1 >= other >> group & 1);
            let right = if includes { Answer::Allowed(9) } else { Answer::Refused(9) };
            assert_eq!(monitor.call(6, [0, 0, 0, 0, 0, 0]), right, "{own} {other}");
        }
    }
}

/// RULES F5, F7: a need has the marks of all files that are reached, and a close lets those go that no file holds up any
/// more, in a ring of pipes too.
#[test]
fn the_marks_of_a_need_sink_with_a_close() {
    let mut monitor = Monitor::new();
    let mut call =
        |code, numbers: [u64; 6]| assert!(!matches!(monitor.call(code, numbers), Answer::Refused(_)));
    call(1, [0, 9, 255, 0, 0, 0]);
    call(2, [0, 3, 0b0011, 0, 0, 0]);
    call(2, [1, 9, 0b0110, 0, 0, 0]);
    call(4, [0, 5, 0, 1, 0, 0]);
    call(9, [0, 1, 0, 0, 0, 0]);
    call(6, [0, 0, 2, 0, 0, 0]);
    call(6, [1, 1, 2, 0, 0, 0]);
    let things = [Thing::Subject(0), Thing::Subject(1), Thing::Object(5)];
    let needs = |monitor: &Monitor| things.map(|thing| Needs::of_tables(monitor.tables()).of(thing));
    assert_eq!(needs(&monitor), [Label::new(9, 0b0111); 3]);
    let mut other = monitor.clone();
    assert_eq!(monitor.call(11, [1, 2, 0, 0, 0, 0]), Answer::Allowed(9));
    assert_eq!(needs(&monitor), [Label::new(3, 0b0011); 3]);
    assert_eq!(monitor.call(11, [0, 2, 0, 0, 0, 0]), Answer::Allowed(9));
    assert_eq!(needs(&monitor), [Label::LEAST; 3]);
    assert_eq!(other.call(12, [0, 0, 0, 0, 0, 0]), Answer::Allowed(9));
    assert_eq!(needs(&other), [Label::LEAST, Label::new(9, 0b0110), Label::new(9, 0b0110)]);
}

/// RULES C8, C104, C118, T38: a write to a mapped file whose mapper has marks that the file lacks, which no calls lead to.
/// It is lowered, and the file has lost none.
#[test]
fn a_write_that_lowers_a_mapper_says_that_the_file_lost_no_mark() {
    let mut stored = StoredTables::new();
    for (s, label) in [(0, Label::new(9, 0b0001)), (1, Label::new(5, 0b1111)), (2, Label::new(5, 0b0111))] {
        stored.set_subject(s, Some(Subject::new(label)));
    }
    stored.set_group(2, 1);
    let label = Label::new(5, 0b0001);
    stored.set_slot(63, Some((7, Object::new(Kind::File, label))));
    stored.set_handle(0, 0, Some(Handle::new(63, Direction::Writing)));
    stored.set_handle(1, 0, Some(Handle::mapping(63)));
    let mut monitor = Monitor::of_tables(stored.tables(), Rules::default());
    assert_eq!(monitor.call(8, [0, 0, 0, 0, 0, 0]), Answer::Lowered(5, 0));
    let labels = |monitor: &Monitor| [0, 1, 2].map(|s| monitor.tables().subject(s).unwrap().label());
    assert_eq!(labels(&monitor), [Label::new(9, 0b0001), label, label]);
    assert_eq!(monitor.tables().object(7), file(label));
    assert_eq!(monitor.call(8, [0, 0, 0, 0, 0, 0]), Answer::Allowed(5));
}

/// RULES C104, C118: a read by which a mate alone falls, which no calls lead to: lowered, and the caller lost no mark.
#[test]
fn a_read_that_lowers_a_mate_alone_says_that_the_caller_lost_no_mark() {
    let mut tables = Tables::new(LIMITS);
    tables.set_subject(0, Some(Subject { level: 5, shops: 1 }));
    tables.set_subject(1, Some(Subject { level: 5, shops: 255 }));
    tables.join_groups(0, 1);
    tables.set_object(0, file(Label::new(5, 1)));
    tables.set_handle(0, 0, Some(Handle::new(0, Direction::Reading)));
    let mut monitor = Monitor::of_tables(tables, Rules::default());
    assert_eq!(monitor.call(7, [0, 0, 0, 0, 0, 0]), Answer::Lowered(5, 0));
    assert_eq!(monitor.tables().subject(1), Some(Subject { level: 5, shops: 1 }));
    assert_eq!(monitor.call(7, [0, 0, 0, 0, 0, 0]), Answer::Allowed(5));
}

/// What labels come to in a call.
fn labels_met(call: Call, answer: Answer, before: &Tables) -> Option<&'static str> {
    let new = call.label();
    Some(match (call, answer) {
        (Call::Admit { .. } | Call::Register { .. }, Answer::Refused(6)) => match new.unwrap() {
            Label { level, shops } if level > 15 && shops > 255 => "6, for both",
            Label { level, .. } if level > 15 => "6, for the level",
            Label { shops: 256, .. } => "6, for 256",
            _ => "6, for a set above 256",
        },
        (_, Answer::Allowed(_)) if new.is_some_and(|label| label.shops == 0) => "new, without a mark",
        (_, Answer::Allowed(_)) if new.is_some_and(|label| label.shops == 255) => "new, with all marks",
        (_, Answer::Allowed(_)) if new.is_some() => "new, with some marks",
        (Call::Read { .. }, Answer::Lowered(_, 0)) => "read, the level alone",
        (Call::Read { .. }, Answer::Lowered(..)) => "read, marks",
        (Call::Write { .. }, Answer::Lowered(_, 0)) => "write, the level alone",
        (Call::Write { .. }, Answer::Lowered(..)) => "write, marks",
        (Call::Map { .. }, Answer::Lowered(_, 0)) => "map, the level alone",
        (Call::Map { .. }, Answer::Lowered(..)) => "map, marks",
        (Call::Exec { .. }, Answer::Lowered(_, 0)) => "exec, the level alone",
        (Call::Exec { .. }, Answer::Lowered(..)) => "exec, marks",
        (Call::Exec { s, o }, Answer::Refused(9)) => {
            let level = before.object(o).unwrap().level;
            let mut without = before.clone();
            before.mates(s).for_each(|mate| without.set_subject(mate, None));
            before.places_ending_at_exec(s).for_each(|p| without.set_handle(s, p, None));
            let need = Needs::of_tables(&without).of(Thing::Subject(s));
            if level < need.level {
                "9 of an exec, for the level"
            } else {
                "9 of an exec, for marks alone"
            }
        }
        (
            Call::OpenRead { s, o, p } | Call::OpenWrite { s, o, p } | Call::Map { s, o, p },
            Answer::Refused(9),
        ) => {
            let direction = match call {
                Call::OpenWrite { .. } => Direction::Writing,
                _ => Direction::Reading,
            };
            let mut after = before.clone();
            after.set_handle(s, p, Some(Handle::new(o, direction)));
            let needs = Needs::of_tables(&after);
            let short = |thing| label(before, thing).unwrap().level < needs.of(thing).level;
            match (live_things(before).any(short), direction) {
                (true, _) => "9 of an open, for a level",
                (false, Direction::Reading) => "9 of an open for reading, for marks alone",
                (false, Direction::Writing) => "9 of an open for writing, for marks alone",
            }
        }
        _ => return None,
    })
}

/// What labels can come to stands in the journals often enough to be compared.
#[test]
fn labels_are_met_often() {
    let mut met = BTreeMap::new();
    for journal in mixed(400) {
        each_call(&journal, Rules::default(), |call, answer, before, _| {
            if let Some(what) = labels_met(call, answer, before) {
                *met.entry(what).or_insert(0) += 1;
            }
        });
    }
    assert_eq!(met.len(), 20, "{met:?}");
    assert!(met.values().all(|&times| times >= 5), "{met:?}");
}
