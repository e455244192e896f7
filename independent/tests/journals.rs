//! What holds of every journal, over generated ones.

use std::cmp::Ordering;
use std::collections::{BTreeMap, BTreeSet};

use gatekeeper_independent::calls::Call;
use gatekeeper_independent::generate::{journal, Wish};
use gatekeeper_independent::labels::Label;
use gatekeeper_independent::monitor::Answer;
use gatekeeper_independent::needs::{label, live_things, Flow, Needs, Thing};
use gatekeeper_independent::numbers::Malformed;
use gatekeeper_independent::records::{Body, LengthFault};
use gatekeeper_independent::refusals::{conditions, needs_for};
use gatekeeper_independent::replies::{replies, replies_by, Content, Run};
use gatekeeper_independent::tables::{Direction, Handle, Kind, Object, Subject, Tables};
use gatekeeper_independent::variants::Rules;
use gatekeeper_independent::words::{journal_of, words_of};

const SEED: u64 = 20;

fn mixed(count: u64) -> impl Iterator<Item = Vec<u8>> {
    (0..count).map(|index| journal(SEED, index, Wish::default()))
}

#[test]
fn a_journal_in_words_is_the_same_journal() {
    for journal in mixed(600) {
        let text = words_of(&journal);
        assert_eq!(journal_of(&text), Some(journal), "{text}");
    }
}

#[test]
fn made_minus_gone_equals_the_handles_open_after_every_call() {
    for journal in mixed(300) {
        let mut run = Run::new(&journal, Rules::default());
        while run.next_step().is_some() {
            assert_eq!(run.tally().open(), run.monitor().tables().handle_count());
        }
    }
}

#[test]
fn every_label_is_at_least_the_need_after_every_call() {
    for journal in mixed(300) {
        let mut run = Run::new(&journal, Rules::default());
        while run.next_step().is_some() {
            let tables = run.monitor().tables();
            assert_eq!(Needs::of_tables(tables).unmet(tables).next(), None);
        }
    }
}

#[test]
fn a_refused_call_changes_nothing() {
    for journal in mixed(300) {
        let mut run = Run::new(&journal, Rules::default());
        loop {
            let before = (run.monitor().tables().clone(), run.tally());
            match run.next_step() {
                None => break,
                Some(step) if matches!(step.answer, Answer::Refused(_)) => {
                    assert_eq!((run.monitor().tables(), run.tally()), (&before.0, before.1));
                }
                Some(_) => {}
            }
        }
    }
}

/// Every call of a journal, with its answer and the tables before it.
fn each_call(journal: &[u8], mut look: impl FnMut(Call, Answer, &Tables)) {
    let mut run = Run::new(journal, Rules::default());
    loop {
        let before = run.monitor().tables().clone();
        match run.next_step() {
            None => break,
            Some(step) => {
                if let Content::Body(_, Body::Call { code, numbers }) = step.content {
                    look(Call::new(code, numbers).unwrap(), step.answer, &before);
                }
            }
        }
    }
}

/// RULES B27.
#[test]
fn no_read_or_write_is_refused_on_a_handle_that_is_held() {
    for journal in mixed(150) {
        each_call(&journal, |call, answer, before| {
            let (s, p, direction) = match call {
                Call::Read { s, p } => (s, p, Direction::Reading),
                Call::Write { s, p } => (s, p, Direction::Writing),
                _ => return,
            };
            if before.handle(s, p).is_some_and(|handle| handle.direction == direction) {
                assert!(!matches!(answer, Answer::Refused(_)), "{call:?}");
            }
        });
    }
}

/// RULES C16, R15: an open for writing comes through exactly where the last freeze lets it, and 15 is said of
/// nothing else.
#[test]
fn the_last_freeze_that_was_allowed_is_the_one_that_counts() {
    for journal in mixed(150) {
        let mut freeze = 16;
        each_call(&journal, |call, answer, before| match (call, answer) {
            (Call::Freeze { level }, Answer::Allowed(said)) => {
                assert_eq!(level, said);
                freeze = level;
            }
            (Call::OpenWrite { o, .. }, Answer::Allowed(_) | Answer::Refused(15)) => {
                let frozen = matches!(before.object(o), Some(Object { kind: Kind::File, level, .. }) if level >= freeze);
                assert_eq!(answer == Answer::Refused(15), frozen, "{call:?}");
            }
            _ => assert!(answer != Answer::Refused(15), "{call:?}"),
        });
    }
}

/// What a freeze comes to in a call; `newer` has the files that are newer than the freeze.
fn freeze_met(call: Call, answer: Answer, before: &Tables, newer: &[u64]) -> Option<&'static str> {
    let freeze = before.frozen_from();
    let is_file = |o| before.object(o).is_some_and(|object| object.kind == Kind::File);
    let writes_frozen = |s, p| {
        let handle = before.handle(s, p);
        handle.is_some_and(|held| held.direction == Direction::Writing && before.is_frozen(held.object))
    };
    Some(match (call, answer) {
        (Call::Freeze { level: 16 }, _) if freeze.is_none() => "lifted where there is none",
        (Call::Freeze { level: 16 }, _) => "lifted",
        (_, _) if freeze.is_none() => return None,
        (Call::Freeze { .. }, Answer::Refused(_)) => "refused while there is one",
        (Call::Freeze { level }, _) if Some(level) > freeze => "raised",
        (Call::Freeze { level }, _) if Some(level) < freeze => "made lower",
        (Call::OpenWrite { o, .. }, Answer::Refused(15)) if newer.contains(&o) => "15, of a newer file",
        (Call::OpenWrite { .. }, Answer::Refused(15)) => "15",
        (Call::OpenWrite { o, .. }, Answer::Allowed(_)) if is_file(o) => "a lower file opened",
        (Call::OpenWrite { .. }, Answer::Allowed(_)) => "a pipe opened",
        (Call::OpenRead { o, .. }, Answer::Allowed(_)) if before.is_frozen(o) => "opened for reading",
        (Call::Write { s, p }, Answer::Allowed(_)) if writes_frozen(s, p) => "written to",
        (Call::Fork { s, .. }, Answer::Allowed(_)) if (0..16).any(|p| writes_frozen(s, p)) => "forked",
        (Call::Create { .. }, Answer::Allowed(_)) => "a file created",
        (Call::Exec { .. }, Answer::Allowed(_)) => "exec",
        (Call::Exit { .. }, Answer::Allowed(_)) => "exit",
        _ => return None,
    })
}

/// What the freeze touches, and what it must not touch, stands in the journals often enough to be compared.
#[test]
fn the_freeze_is_met_often() {
    let mut met = BTreeMap::new();
    for journal in mixed(300) {
        let mut newer = Vec::new();
        each_call(&journal, |call, answer, before| {
            if let Some(what) = freeze_met(call, answer, before, &newer) {
                *met.entry(what).or_insert(0) += 1;
            }
            match (call, answer) {
                (Call::Freeze { .. }, Answer::Allowed(_)) => newer.clear(),
                (Call::Register { o, .. } | Call::Create { o, .. }, Answer::Allowed(_)) => newer.push(o),
                _ => {}
            }
        });
    }
    assert_eq!(met.len(), 15, "{met:?}");
    assert!(met.values().all(|&times| times >= 10), "{met:?}");
}

/// What a call is about that offends the flow rule while there is a freeze; `holding` has the numbers of all
/// refusals that hold.
fn flow_met(call: Call, answer: Answer, before: &Tables, holding: &[u32]) -> Option<&'static str> {
    let freeze = before.frozen_from()?;
    if !holding.contains(&9) {
        return None;
    }
    let (kind, level) = match call.named_object().and_then(|o| before.object(o)) {
        Some(Object { kind, level, .. }) => (Some(kind), level),
        None => (None, 0),
    };
    let is_file = kind == Some(Kind::File);
    Some(match (call, answer) {
        (Call::OpenWrite { .. }, Answer::Refused(15)) => "15, and 9 holds",
        (Call::OpenWrite { .. }, Answer::Refused(7)) if holding.contains(&15) => "7, and 15 and 9 hold",
        (_, Answer::Refused(number)) if number != 9 => return None,
        (Call::OpenWrite { .. }, _) if is_file => "9 of a lower file",
        (Call::OpenWrite { .. }, _) if level >= freeze => "9 of a pipe at or above the freeze",
        (Call::OpenWrite { .. }, _) => "9 of a lower pipe",
        (Call::OpenRead { .. }, _) if is_file && level >= freeze => "9 of a frozen file, for reading",
        (Call::Map { .. }, _) if level >= freeze => "9 of a frozen file, mapped",
        (Call::Exec { .. }, _) if level >= freeze => "9 of a frozen file, run",
        (Call::Connect { .. }, _) => "9 of a connect",
        _ => return None,
    })
}

/// RULES R117: opens that offend both the freeze and the flow rule stand in the journals often enough to be
/// compared, and so do all calls that offend the flow rule alone while there is a freeze.
#[test]
fn the_freeze_and_the_flow_rule_are_met_together_often() {
    let mut met = BTreeMap::new();
    for journal in mixed(450) {
        each_call(&journal, |call, answer, before| {
            let needs = needs_for(before, call, Rules::default(), &Needs::none(before));
            let rows = conditions(before, call, &needs);
            let holding: Vec<u32> = rows.iter().filter(|row| row.1).map(|row| row.0).collect();
            if let Some(what) = flow_met(call, answer, before, &holding) {
                *met.entry(what).or_insert(0) += 1;
            }
        });
    }
    assert_eq!(met.len(), 9, "{met:?}");
    assert!(met.values().all(|&times| times >= 5), "{met:?}");
}

/// Request (j): opens for writing that offend both the freeze and the flow rule change from 9 to 15, and no other
/// reply does. A refused call leaves everything as it was, so that the two runs stay side by side.
#[test]
fn request_j_changed_9_to_15_for_opens_for_writing_and_nothing_else() {
    let as_before = Rules::named("order-15-9").unwrap();
    let mut changed = 0;
    for journal in mixed(600) {
        let (old, new) = (replies_by(&journal, as_before), replies(&journal));
        assert_eq!(old.lines().count(), new.lines().count());
        for (old, new) in old.lines().zip(new.lines()).filter(|(old, new)| old != new) {
            let position = old.strip_suffix(" 6 R 9");
            assert!(position.is_some() && position == new.strip_suffix(" 6 R 15"), "{old}, then {new}");
            changed += 1;
        }
    }
    assert!(changed >= 100, "{changed}");
}

/// RULES T35, C9, C15: the marks, kept beside the journal by its calls and their answers alone.
#[test]
fn handles_are_marked_as_the_calls_say() {
    for journal in mixed(150) {
        let mut marked = BTreeSet::new();
        each_call(&journal, |call, answer, before| {
            let held: BTreeSet<(u64, u64)> =
                before.handles().filter(|(_, _, handle)| handle.marked).map(|(s, p, _)| (s, p)).collect();
            assert_eq!(held, marked, "{call:?}");
            if matches!(answer, Answer::Refused(_)) {
                return;
            }
            match call {
                Call::Mark { s, p } => {
                    marked.insert((s, p));
                }
                Call::Close { s, p } => {
                    marked.remove(&(s, p));
                }
                Call::Exec { s, .. } => {
                    marked.retain(|&(other, _)| other != s && !before.are_mates(s, other));
                }
                Call::Exit { s } => marked.retain(|&(other, _)| other != s),
                Call::Fork { s, c } => {
                    let own: Vec<u64> =
                        marked.iter().filter(|mark| mark.0 == s).map(|mark| mark.1).collect();
                    marked.extend(own.into_iter().map(|p| (c, p)));
                }
                _ => {}
            }
        });
    }
}

/// RULES C10, C116, R110, Y13: an exec goes by the need of the tables without its marked handles, its mappings and its
/// mates, found by a search; it closes these and ends those and no others, or none if it is refused.
#[test]
fn an_exec_closes_the_marked_handles_and_mappings_of_its_caller_ends_its_mates_and_no_others() {
    for journal in mixed(150) {
        let mut run = Run::new(&journal, Rules::default());
        loop {
            let (before, tally) = (run.monitor().tables().clone(), run.tally());
            let Some(step) = run.next_step() else {
                break;
            };
            let Content::Body(_, Body::Call { code: 10, numbers: [s, o, ..] }) = step.content else {
                continue;
            };
            let after = run.monitor().tables();
            let mut without_marked = before.clone();
            let mut without = before.clone();
            for p in 0..16 {
                if before.handle(s, p).is_some_and(|handle| handle.marked) {
                    without_marked.set_handle(s, p, None);
                }
                if before.handle(s, p).is_some_and(|handle| handle.marked || handle.mapped) {
                    without.set_handle(s, p, None);
                }
            }
            for mate in before.mates(s) {
                without_marked.set_subject(mate, None);
                without.set_subject(mate, None);
            }
            let handles = |tables: &Tables| tables.handles().collect::<Vec<_>>();
            let subjects = |tables: &Tables| tables.live_subjects().collect::<Vec<_>>();
            let closes = !matches!(step.answer, Answer::Refused(_));
            assert_eq!(handles(after), handles(if closes { &without } else { &before }));
            assert_eq!(subjects(after), subjects(if closes { &without } else { &before }));
            assert_eq!(run.tally().gone - tally.gone, before.handle_count() - after.handle_count());
            // RULES C102.
            for o in before.live_objects() {
                let is_pipe = before.object(o).is_some_and(|object| object.kind == Kind::Pipe);
                let ends = is_pipe && before.is_held(o) && !after.is_held(o);
                assert_eq!(after.object(o).is_none(), ends);
            }
            if closes || step.answer == Answer::Refused(9) {
                let need = need_by_search(&without, Thing::Subject(s));
                assert_eq!(closes, !is_below(&before, Thing::Object(o), need), "exec {s} {o}");
                // RULES R110: the mappings make no difference to it.
                assert_eq!(need, need_by_search(&without_marked, Thing::Subject(s)));
            }
        }
    }
}

/// What a mark comes to in a call.
fn marks_met(
    call: Call,
    answer: Answer,
    before: &Tables,
    left: &BTreeSet<(u64, u64)>,
) -> Vec<&'static str> {
    let mut met = Vec::new();
    let is_marked = |s, p| before.handle(s, p).is_some_and(|handle: Handle| handle.marked);
    let allowed = !matches!(answer, Answer::Refused(_));
    match call {
        Call::Mark { .. } if answer == Answer::Refused(2) => met.push("2"),
        Call::Mark { p, .. } if answer == Answer::Refused(7) => {
            met.push(if p < 16 { "7, an empty place" } else { "7, a place above 15" });
        }
        Call::Mark { s, p } if is_marked(s, p) => met.push("marked again"),
        Call::Mark { s, p } => match before.handle(s, p).map(|handle| handle.direction) {
            Some(Direction::Reading) => met.push("a reading handle marked"),
            _ => met.push("a writing handle marked"),
        },
        Call::Read { s, p } | Call::Write { s, p } if is_marked(s, p) && allowed => met.push("used"),
        Call::Close { s, p } if is_marked(s, p) => met.push("closed"),
        Call::OpenRead { s, p, .. } | Call::OpenWrite { s, p, .. } if allowed && left.contains(&(s, p)) => {
            met.push("opened where exec closed one");
        }
        Call::Fork { s, .. } if allowed && before.marked_places(s).next().is_some() => met.push("forked"),
        Call::Exit { s } if before.marked_places(s).next().is_some() => met.push("exit"),
        Call::Exec { s, o } if before.marked_places(s).next().is_some() => {
            let need = Needs::of_tables(before).of(Thing::Subject(s));
            match answer {
                Answer::Refused(9) => met.push("exec refused with 9"),
                Answer::Refused(_) => met.push("exec refused otherwise"),
                _ if is_below(before, Thing::Object(o), need) => met.push("exec allowed by the mark alone"),
                _ => met.push("exec"),
            }
            let own = |o| before.handles().filter(move |(_, _, handle)| handle.object == o);
            let ends = |o| own(o).all(|(other, _, handle)| other == s && handle.marked);
            let pipes =
                before.marked_places(s).filter_map(|p| before.handle(s, p)).map(|handle| handle.object);
            let mut pipes =
                pipes.filter(|&o| before.object(o).is_some_and(|object| object.kind == Kind::Pipe));
            if allowed && pipes.any(ends) {
                met.push("a pipe ends by exec");
            }
        }
        Call::Exec { s, .. } => {
            let others = before.handles().any(|(other, _, handle)| other != s && handle.marked);
            match answer {
                Answer::Refused(9) if others => met.push("exec refused, others have marks"),
                Answer::Refused(_) => {}
                _ if others => met.push("exec without marks beside others'"),
                _ => {}
            }
        }
        _ => {}
    }
    met
}

/// What marks do, and what they must not do, stands in the journals often enough to be compared.
#[test]
fn marks_are_met_often() {
    let mut met = BTreeMap::new();
    for journal in mixed(200) {
        let mut left = BTreeSet::new();
        each_call(&journal, |call, answer, before| {
            for what in marks_met(call, answer, before, &left) {
                *met.entry(what).or_insert(0) += 1;
            }
            match call {
                Call::Exec { s, .. } if !matches!(answer, Answer::Refused(_)) => {
                    left.extend(before.marked_places(s).map(|p| (s, p)));
                }
                _ => {}
            }
        });
    }
    assert_eq!(met.len(), 18, "{met:?}");
    assert!(met.values().all(|&times| times >= 10), "{met:?}");
}

/// RULES T37, C9, C10, C14: the mappings, kept beside the journal by its calls and their answers alone.
#[test]
fn handles_are_mappings_as_the_calls_say() {
    for journal in mixed(150) {
        let mut mapped = BTreeSet::new();
        each_call(&journal, |call, answer, before| {
            let held: BTreeSet<(u64, u64, u64)> = before
                .handles()
                .filter(|(_, _, handle)| handle.mapped)
                .map(|(s, p, handle)| (s, p, handle.object))
                .collect();
            assert_eq!(held, mapped, "{call:?}");
            if matches!(answer, Answer::Refused(_)) {
                return;
            }
            match call {
                Call::Map { s, o, p } => {
                    mapped.insert((s, p, o));
                }
                Call::Close { s, p } => mapped.retain(|&(other, place, _)| (other, place) != (s, p)),
                Call::Exec { s, .. } => {
                    mapped.retain(|&(other, ..)| other != s && !before.are_mates(s, other));
                }
                Call::Exit { s } => mapped.retain(|&(other, ..)| other != s),
                Call::Fork { s, c } => {
                    let own: Vec<(u64, u64, u64)> =
                        mapped.iter().copied().filter(|mapping| mapping.0 == s).collect();
                    mapped.extend(own.into_iter().map(|(_, p, o)| (c, p, o)));
                }
                _ => {}
            }
        });
    }
}

/// RULES T38: who has a file mapped fell when it mapped it, and so no write to a file lowers anyone.
#[test]
fn no_mapper_is_above_its_file_and_no_write_to_a_file_lowers() {
    for journal in mixed(150) {
        each_call(&journal, |call, answer, before| {
            for (s, _, handle) in before.handles().filter(|(_, _, handle)| handle.mapped) {
                let (subject, object) = (before.subject(s).unwrap(), before.object(handle.object).unwrap());
                assert_eq!((object.kind, handle.direction), (Kind::File, Direction::Reading));
                assert!(object.label().is_at_least(subject.label()));
            }
            if let Call::Write { s, p } = call {
                let object = before.handle(s, p).and_then(|handle| before.object(handle.object));
                if object.is_some_and(|object| object.kind == Kind::File) {
                    assert!(!matches!(answer, Answer::Lowered(..)), "{call:?}");
                }
            }
        });
    }
}

/// RULES C14, R119: a map of a file is refused as an open for reading is; else it leaves what that and a read
/// leave, with a mapping in the place of the handle, and is answered as the read is.
#[test]
fn a_map_is_an_open_for_reading_and_a_read() {
    let mut maps = 0;
    for journal in mixed(150) {
        let mut run = Run::new(&journal, Rules::default());
        loop {
            let before = run.monitor().clone();
            let Some(step) = run.next_step() else {
                break;
            };
            let Content::Body(_, Body::Call { code: 14, numbers }) = step.content else {
                continue;
            };
            let [s, o, p, ..] = numbers;
            let mut copy = before.clone();
            let opened = copy.call(5, numbers);
            let is_pipe = before.tables().object(o).is_some_and(|object| object.kind == Kind::Pipe);
            if is_pipe && before.tables().subject(s).is_some() {
                assert_eq!(step.answer, Answer::Refused(5));
            } else if let Answer::Refused(_) = opened {
                assert_eq!(step.answer, opened);
            } else {
                assert_eq!(step.answer, copy.call(7, [s, p, 0, 0, 0, 0]));
                let mut tables = copy.tables().clone();
                tables.set_handle(s, p, Some(Handle::mapping(o)));
                assert_eq!((run.monitor().tables(), run.tally()), (&tables, copy.tally()));
                maps += 1;
            }
            if step.answer == Answer::Refused(9) {
                // RULES R119: with s under the file's label it is refused as well.
                let mut tables = before.tables().clone();
                let own = |thing| label(before.tables(), thing).unwrap();
                let lower = own(Thing::Subject(s)).fallen_to(own(Thing::Object(o)));
                for member in before.tables().members(s) {
                    tables.set_subject(member, Some(Subject::new(lower)));
                }
                tables.set_handle(s, p, Some(Handle::mapping(o)));
                assert!(Needs::of_tables(&tables).unmet(&tables).next().is_some());
            }
        }
    }
    assert!(maps >= 500, "{maps}");
}

/// What mappings come to in a call.
fn maps_met(call: Call, answer: Answer, before: &Tables) -> Vec<&'static str> {
    let mut met = Vec::new();
    let is_mapping = |s, p| before.handle(s, p).is_some_and(|handle: Handle| handle.mapped);
    let mappings = |s| before.handles_of(s).filter(|(_, handle)| handle.mapped).count();
    let frozen = |o| before.is_frozen(o);
    match (call, answer) {
        (Call::Map { .. }, Answer::Refused(2)) => met.push("2"),
        (Call::Map { .. }, Answer::Refused(4)) => met.push("4"),
        (Call::Map { p, .. }, Answer::Refused(5)) if p > 15 => met.push("5, with a place above 15"),
        (Call::Map { .. }, Answer::Refused(5)) => met.push("5"),
        (Call::Map { p, .. }, Answer::Refused(7)) if p > 15 => met.push("7, a place above 15"),
        (Call::Map { s, p, .. }, Answer::Refused(7)) if is_mapping(s, p) => {
            met.push("7, a mapping's place")
        }
        (Call::Map { .. }, Answer::Refused(7)) => met.push("7"),
        (Call::Map { .. }, Answer::Refused(_)) => met.push("9"),
        (Call::Map { s, o, .. }, _) => {
            let mappers: Vec<u64> = before.mappers(o).collect();
            let level = label(before, Thing::Object(o)).map(|label| label.level);
            met.push(match answer {
                Answer::Lowered(..) => "lowered",
                Answer::Allowed(own) if Some(own) < level => "allowed, from below",
                _ => "allowed, from the same level",
            });
            if mappers.contains(&s) {
                met.push("mapped again");
            }
            if mappers.iter().any(|&mapper| mapper != s) {
                met.push("mapped by others, too");
            }
            if frozen(o) {
                met.push("a frozen file mapped");
            }
            if before.handles_of(s).any(|(_, handle)| handle.object == o && !handle.mapped) {
                met.push("mapped and open");
            }
        }
        (Call::Read { s, p }, Answer::Allowed(_)) if is_mapping(s, p) => met.push("read"),
        (Call::Write { s, p }, Answer::Refused(8)) if is_mapping(s, p) => met.push("8"),
        (Call::Write { s, p }, Answer::Allowed(_)) => {
            let file = before.handle(s, p).map(|handle| handle.object);
            let mappers: Vec<u64> = file.map_or_else(Vec::new, |o| before.mappers(o).collect());
            match mappers.as_slice() {
                [] => {}
                [_] => met.push("written to, mapped by one"),
                _ => met.push("written to, mapped by several"),
            }
            if mappers.contains(&s) {
                met.push("written to by a mapper");
            }
            let levels = |thing| label(before, thing).map(|label| label.level);
            if !mappers.is_empty()
                && file.is_some_and(|o| levels(Thing::Subject(s)) > levels(Thing::Object(o)))
            {
                met.push("written to from above");
            }
        }
        (Call::Mark { s, p }, _) if is_mapping(s, p) => met.push("marked"),
        (Call::Close { s, p }, _) if is_mapping(s, p) => met.push("closed"),
        (Call::Retire { o }, Answer::Refused(10)) => {
            let mapped = before.handles().all(|(_, _, handle)| handle.object != o || handle.mapped);
            met.extend(mapped.then_some("10, for mappings alone"));
        }
        (Call::Fork { s, .. }, Answer::Allowed(_)) if mappings(s) > 0 => met.push("forked"),
        (Call::Exit { s }, Answer::Allowed(_)) if mappings(s) > 0 => met.push("exit"),
        (Call::Exec { s, .. }, Answer::Refused(number)) if mappings(s) > 0 => {
            met.push(if number == 9 { "exec refused with 9" } else { "exec refused otherwise" });
        }
        (Call::Exec { s, .. }, _) => {
            met.extend((mappings(s) > 0).then_some("exec"));
            met.extend((mappings(s) > 1).then_some("exec with several"));
            met.extend(
                before.marked_places(s).any(|p| is_mapping(s, p)).then_some("exec with a marked one"),
            );
            met.extend(
                before
                    .handles()
                    .any(|(t, p, _)| t != s && is_mapping(t, p))
                    .then_some("exec beside others'"),
            );
        }
        _ => {}
    }
    met
}

/// What mappings do, and what they must not do, stands in the journals often enough to be compared.
#[test]
fn mappings_are_met_often() {
    let mut met = BTreeMap::new();
    for journal in mixed(300) {
        each_call(&journal, |call, answer, before| {
            for what in maps_met(call, answer, before) {
                *met.entry(what).or_insert(0) += 1;
            }
        });
    }
    assert_eq!(met.len(), 32, "{met:?}");
    assert!(met.values().all(|&times| times >= 10), "{met:?}");
}

/// The tables with what a connect that is allowed makes.
fn with_channel(before: &Tables, [s, t, a, b, p, q]: [u64; 6]) -> Tables {
    let mut after = before.clone();
    for (holder, writes, reads) in [(s, a, b), (t, b, a)] {
        let label = before.subject(holder).unwrap().label();
        assert!(before.object(writes).is_none());
        after.set_object(writes, Some(Object::new(Kind::Pipe, label)));
        for (place, object, direction) in [(p, reads, Direction::Reading), (q, writes, Direction::Writing)]
        {
            assert!(before.handle(holder, place).is_none());
            after.set_handle(holder, place, Some(Handle::new(object, direction)));
        }
    }
    after
}

/// RULES C17, R9: a connect that nothing else refuses is allowed exactly where, with both pipes and all four
/// handles, no live thing is below its need, as a search finds it. Asked of the two flows one by one it comes
/// to the same.
#[test]
fn a_connect_goes_by_both_flows() {
    let (mut connects, mut both) = ([0, 0], 0);
    for journal in mixed(200) {
        each_call(&journal, |call, answer, before| {
            let Call::Connect { s, t, a, b, p, q } = call else {
                return;
            };
            let refused = match answer {
                Answer::Allowed(_) => false,
                Answer::Refused(9) => true,
                _ => return,
            };
            let after = with_channel(before, [s, t, a, b, p, q]);
            let is_short = |thing| is_below(&after, thing, need_by_search(&after, thing));
            assert_eq!(refused, live_things(&after).any(is_short), "{call:?}");
            let offends = |from: u64, to: u64| {
                let need = need_by_search(before, Thing::Subject(to));
                live_things(before)
                    .filter(|&thing| reached_from(before, thing).contains(&Thing::Subject(from)))
                    .any(|thing| is_below(before, thing, need))
            };
            assert_eq!(refused, offends(s, t) || offends(t, s), "{call:?}");
            // Of both only where each end lacks what the other needs: a level here, a mark there.
            both += usize::from(offends(s, t) && offends(t, s));
            connects[usize::from(refused)] += 1;
        });
    }
    assert!(connects[0] >= 200 && connects[1] >= 50 && both >= 1, "{connects:?}, {both}");
}

/// RULES C17: a connect that is allowed makes two pipes and four handles, which are counted, and changes
/// nothing else.
#[test]
fn a_connect_makes_two_pipes_and_four_handles() {
    for journal in mixed(150) {
        let mut run = Run::new(&journal, Rules::default());
        loop {
            let (before, tally) = (run.monitor().tables().clone(), run.tally());
            let Some(step) = run.next_step() else {
                break;
            };
            let Content::Body(_, Body::Call { code: 17, numbers }) = step.content else {
                continue;
            };
            if let Answer::Allowed(level) = step.answer {
                assert_eq!(Some(level), before.subject(numbers[0]).map(|subject| subject.level));
                assert_eq!(*run.monitor().tables(), with_channel(&before, numbers));
                assert_eq!((run.tally().made - tally.made, run.tally().gone), (4, tally.gone));
            } else {
                assert!(
                    matches!(step.answer, Answer::Refused(2 | 3 | 7 | 9 | 16 | 17)),
                    "{:?}",
                    step.answer
                );
            }
        }
    }
}

/// What channels come to in a call; `pipes` are those that connects made.
fn channels_met(call: Call, answer: Answer, before: &Tables, pipes: &BTreeSet<u64>) -> Vec<&'static str> {
    let mut met = Vec::new();
    let at_channel =
        |s, p| before.handle(s, p).is_some_and(|handle: Handle| pipes.contains(&handle.object));
    let level_of = |s| before.subject(s).map(|subject| subject.level);
    match (call, answer) {
        (Call::Connect { s, t, .. }, Answer::Refused(2)) => {
            met.push(match (before.subject(s), before.subject(t)) {
                (None, None) if s == t => "2, and both are the same",
                (None, _) => "2, of s",
                _ => "2, of t",
            });
        }
        (Call::Connect { a, b, p, q, .. }, Answer::Refused(16)) => {
            met.push("16");
            let is_unfit = |o| before.object(o).is_some();
            met.extend((is_unfit(a) || is_unfit(b) || a == b).then_some("16 and 3"));
            met.extend((p > 15 || q > 15 || p == q).then_some("16 and 7"));
        }
        (Call::Connect { a, b, .. }, Answer::Refused(3)) => {
            met.push(match (before.object(a), before.object(b)) {
                (Some(_), _) => "3, the first in use",
                (_, Some(_)) => "3, the second in use",
                _ => "3, both the same",
            })
        }
        (Call::Connect { s, t, p, q, .. }, Answer::Refused(7)) => {
            let taken = |holder| before.handle(holder, p).is_some() || before.handle(holder, q).is_some();
            met.push(match (taken(s), taken(t)) {
                _ if p > 15 || q > 15 => "7, above 15",
                _ if p == q => "7, both the same",
                (true, false) => "7, taken at s alone",
                (false, true) => "7, taken at t alone",
                _ => "7, taken at both",
            });
        }
        (Call::Connect { .. }, Answer::Refused(17)) => {
            met.push(if before.object_count() == 63 { "17, with 63 live" } else { "17, with 64 live" });
        }
        (Call::Connect { s, t, .. }, Answer::Refused(_)) => {
            let needs = [s, t].map(|s| need_by_search(before, Thing::Subject(s)));
            let is_short = |s, need| is_below(before, Thing::Subject(s), need);
            met.push(match (is_short(s, needs[1]), is_short(t, needs[0])) {
                (true, _) => "9, s below the need of t",
                (_, true) => "9, t below the need of s",
                _ => "9, something upstream",
            });
        }
        (Call::Connect { s, t, .. }, _) => met.push(match level_of(s).cmp(&level_of(t)) {
            Ordering::Less => "connected to a higher one",
            Ordering::Equal => "connected to an equal",
            Ordering::Greater => "connected to a lower one",
        }),
        (Call::Read { s, p }, Answer::Lowered(..)) if at_channel(s, p) => met.push("read, lowered"),
        (Call::Read { s, p }, Answer::Allowed(_)) if at_channel(s, p) => met.push("read"),
        (Call::Write { s, p }, Answer::Lowered(..)) if at_channel(s, p) => met.push("written to, lowered"),
        (Call::Write { s, p }, Answer::Allowed(_)) if at_channel(s, p) => met.push("written to"),
        (Call::Close { s, p }, _) if at_channel(s, p) => met.push("closed"),
        (Call::Mark { s, p }, _) if at_channel(s, p) => met.push("marked"),
        (Call::Exit { s } | Call::Exec { s, .. } | Call::Fork { s, .. }, Answer::Allowed(_))
            if (0..16).any(|p| at_channel(s, p)) =>
        {
            met.push(match call {
                Call::Exit { .. } => "exit",
                Call::Exec { .. } => "exec",
                _ => "forked",
            });
        }
        (Call::OpenRead { o, .. } | Call::OpenWrite { o, .. }, Answer::Allowed(_))
            if pipes.contains(&o) =>
        {
            met.push("opened by its number");
        }
        _ => {}
    }
    met
}

/// What channels do, and what they must not do, stands in the journals often enough to be compared.
#[test]
fn channels_are_met_often() {
    let mut met = BTreeMap::new();
    for journal in mixed(300) {
        let mut pipes = BTreeSet::new();
        each_call(&journal, |call, answer, before| {
            let live = pipes.len();
            pipes.retain(|&o| before.object(o).is_some());
            if pipes.len() < live {
                *met.entry("a pipe ended").or_insert(0) += 1;
            }
            for what in channels_met(call, answer, before, &pipes) {
                *met.entry(what).or_insert(0) += 1;
            }
            if let (Call::Connect { a, b, .. }, Answer::Allowed(_)) = (call, answer) {
                pipes.extend([a, b]);
            }
        });
    }
    assert_eq!(met.len(), 33, "{met:?}");
    assert!(met.values().all(|&times| times >= 10), "{met:?}");
}

/// RULES C18, C113, C115, C116: who is in one group, kept beside the journal by its calls and their answers alone: a
/// number for each group.
#[test]
fn subjects_are_in_groups_as_the_calls_say() {
    for journal in mixed(200) {
        let mut group_of: BTreeMap<u64, u64> = BTreeMap::new();
        let mut groups = 0;
        each_call(&journal, |call, answer, before| {
            assert!(before.live_subjects().eq(group_of.keys().copied()), "{call:?}");
            for (s, group) in &group_of {
                let is_mate = |(t, other): &(&u64, &u64)| *t != s && *other == group;
                let mates: Vec<u64> = group_of.iter().filter(is_mate).map(|(t, _)| *t).collect();
                assert_eq!(before.mates(*s).collect::<Vec<u64>>(), mates, "{call:?}");
            }
            if matches!(answer, Answer::Refused(_)) {
                return;
            }
            groups += 1;
            match call {
                Call::Admit { s, .. } => drop(group_of.insert(s, groups)),
                Call::Fork { c, .. } => drop(group_of.insert(c, groups)),
                Call::Thread { s, c } => drop(group_of.insert(c, group_of[&s])),
                Call::Exit { s } => drop(group_of.remove(&s)),
                Call::Exec { s, .. } => {
                    let own = group_of[&s];
                    group_of.retain(|&t, &mut group| t == s || group != own);
                }
                _ => {}
            }
        });
    }
}

/// RULES F22, T48: the members of a group have one label and one need. The need is that of one subject which has all
/// their handles, as a search finds it.
#[test]
fn the_members_of_a_group_have_one_label_and_one_need() {
    let mut groups = 0;
    for journal in mixed(150) {
        each_call(&journal, |call, _, before| {
            let firsts = before.live_subjects().filter(|&s| before.members(s).min() == Some(s));
            let firsts: Vec<u64> = firsts.filter(|&s| before.mates(s).next().is_some()).collect();
            if firsts.is_empty() {
                return;
            }
            let needs = Needs::of_tables(before);
            for s in firsts {
                let need = need_of_one(before, s);
                for member in before.members(s) {
                    assert_eq!(before.subject(member), before.subject(s), "{call:?}");
                    assert_eq!(needs.of(Thing::Subject(member)), need, "{call:?}");
                }
                groups += 1;
            }
        });
    }
    assert!(groups >= 5000, "{groups}");
}

/// The need of a group, in a graph in which each group is one thing: the lowest of its members.
fn need_of_one(tables: &Tables, s: u64) -> Label {
    let one = |thing: Thing| match thing {
        Thing::Subject(s) => Thing::Subject(tables.members(s).min().unwrap_or(s)),
        Thing::Object(_) => thing,
    };
    let flows = tables.handles().map(|(s, _, handle)| Flow::of(s, handle));
    let flows: Vec<(Thing, Thing)> = flows.map(|flow| (one(flow.from), one(flow.to))).collect();
    let mut reached = vec![one(Thing::Subject(s))];
    let mut next = 0;
    while next < reached.len() {
        let ends = flows.iter().filter(|(from, _)| *from == reached[next]).map(|(_, to)| *to);
        for end in ends.collect::<Vec<Thing>>() {
            if !reached.contains(&end) {
                reached.push(end);
            }
        }
        next += 1;
    }
    join_of_files(tables, &reached)
}

/// RULES F18: an open for reading that nothing else refuses is refused exactly where the file is below the need of its
/// subject, and so of all its mates.
#[test]
fn an_open_of_a_file_for_reading_goes_by_the_need_of_its_subject() {
    let mut opens = [0, 0];
    for journal in mixed(250) {
        each_call(&journal, |call, answer, before| {
            let (Call::OpenRead { s, o, .. } | Call::Map { s, o, .. }) = call else {
                return;
            };
            let refused = match answer {
                Answer::Refused(9) => true,
                Answer::Refused(_) => return,
                _ => false,
            };
            if file_label(before, Thing::Object(o)).is_some() {
                assert_eq!(refused, is_below(before, Thing::Object(o), need_of_one(before, s)), "{call:?}");
                opens[usize::from(refused)] += usize::from(before.mates(s).next().is_some());
            }
        });
    }
    assert!(opens.iter().all(|&times| times >= 200), "{opens:?}");
}

/// RULES R9, R109: an open by a member that nothing else refuses is refused exactly where, with the new handle, some
/// live thing's label is below its need, as a search finds it.
#[test]
fn an_open_by_a_member_goes_by_all_live_things() {
    let mut opens = [0, 0];
    for journal in mixed(150) {
        each_call(&journal, |call, answer, before| {
            let Call::OpenWrite { s, o, p } = call else {
                return;
            };
            let refused = match answer {
                Answer::Allowed(_) => false,
                Answer::Refused(9) => true,
                _ => return,
            };
            if before.mates(s).next().is_none() {
                return;
            }
            let mut after = before.clone();
            after.set_handle(s, p, Some(Handle::new(o, Direction::Writing)));
            let is_short = |thing| is_below(&after, thing, need_by_search(&after, thing));
            assert_eq!(refused, live_things(&after).any(is_short), "{call:?}");
            opens[usize::from(refused)] += 1;
        });
    }
    assert!(opens.iter().all(|&times| times >= 50), "{opens:?}");
}

/// What threads come to in a call; `left` has numbers of members that are gone, with a mate that stayed, and `first`
/// those who have made a thread and are none.
fn threads_met(
    call: Call,
    answer: Answer,
    before: &Tables,
    left: &BTreeSet<(u64, u64)>,
    first: &BTreeSet<u64>,
) -> Vec<&'static str> {
    let mut met = Vec::new();
    let allowed = !matches!(answer, Answer::Refused(_));
    let has_mates = |s: u64| before.mates(s).next().is_some();
    let holds = |s: u64| before.handles_of(s).next().is_some();
    let again = call.new_subject().is_some_and(|c| left.iter().any(|&(gone, _)| gone == c));
    match call {
        Call::Thread { .. } if answer == Answer::Refused(2) => met.push("2"),
        Call::Thread { s, c } if !allowed => met.push(match before.subject(c) {
            _ if s == c => "3, its own number",
            Some(_) => "3, a number in use",
            None => "3, a number above 31",
        }),
        Call::Thread { s, c } => {
            met.push(if has_mates(s) { "one more member" } else { "a first thread" });
            met.extend(holds(s).then_some("made by one that has handles"));
            met.extend((has_mates(s) && !first.contains(&s)).then_some("made by a thread"));
            met.extend((before.members(s).count() >= 8).then_some("made in a group of eight"));
            if again {
                let own =
                    left.iter().any(|&(gone, stayed)| gone == c && before.members(s).any(|t| t == stayed));
                met.push(if own { "a number in its group again" } else { "a number in another group" });
            }
        }
        Call::Admit { .. } if allowed && again => met.push("admitted with a member's number"),
        Call::Fork { .. } if allowed && again => met.push("forked with a member's number"),
        _ => {}
    }
    let Some(s) = call.asker().filter(|&s| has_mates(s)) else {
        return met;
    };
    match (call, answer) {
        (Call::Read { .. }, Answer::Lowered(..)) => met.push("all fall by a read"),
        (Call::Map { .. }, Answer::Lowered(..)) => met.push("all fall by a map"),
        (Call::OpenRead { .. } | Call::OpenWrite { .. } | Call::Map { .. }, _) => {
            let mut alone = before.clone();
            alone.leave_group(s);
            let needs = needs_for(&alone, call, Rules::default(), &Needs::none(&alone));
            let by_mates = answer == Answer::Refused(9) && needs.unmet(&alone).next().is_none();
            met.extend(by_mates.then_some(match call {
                Call::OpenWrite { .. } => "9, for what a mate reads",
                Call::Map { .. } => "9 of a map, for what a mate writes",
                _ => "9, for what a mate writes",
            }));
        }
        (Call::Write { p, .. }, Answer::Allowed(_)) => {
            let file = before.handle(s, p).map(|handle| handle.object);
            let mappers = file.map_or(0, |o| before.mappers(o).filter(|&t| before.are_mates(s, t)).count());
            met.extend((mappers > 0).then_some("written to, and mates have it mapped"));
        }
        (Call::Fork { .. }, Answer::Allowed(_)) => {
            met.push("forked");
            met.extend(before.mates(s).any(holds).then_some("forked, and mates have handles"));
        }
        (Call::Exit { .. }, _) => {
            met.push(if first.contains(&s) { "the first leaves" } else { "a thread leaves" })
        }
        (Call::Connect { t, .. }, Answer::Allowed(_)) if before.are_mates(s, t) => {
            met.push("mates connected")
        }
        (Call::Exec { .. }, Answer::Refused(number)) => {
            met.push(if number == 9 { "exec refused with 9" } else { "exec refused otherwise" });
        }
        (Call::Exec { o, .. }, _) => {
            let need = need_by_search(before, Thing::Subject(s));
            met.push(if is_below(before, Thing::Object(o), need) {
                "exec, though a mate writes higher"
            } else {
                "exec"
            });
            met.push(if matches!(answer, Answer::Lowered(..)) { "exec, lowered" } else { "exec, allowed" });
            met.extend(before.mates(s).any(holds).then_some("exec, and mates have handles"));
            met.extend(before.mates(s).any(|mate| first.contains(&mate)).then_some("exec ends the first"));
            let by_mates = |o: u64| {
                let on = |t: u64| before.handles_of(t).any(|(_, handle)| handle.object == o);
                before.mates(s).any(on) && before.live_subjects().all(|t| !on(t) || before.are_mates(s, t))
            };
            let is_pipe = |o: u64| before.object(o).is_some_and(|object| object.kind == Kind::Pipe);
            let ends = before.live_objects().any(|o| is_pipe(o) && by_mates(o));
            met.extend(ends.then_some("exec ends a pipe of mates"));
        }
        _ => {}
    }
    met
}

/// What threads do, and what they must not do, stands in the journals often enough to be compared.
#[test]
fn threads_are_met_often() {
    let mut met = BTreeMap::new();
    for journal in mixed(350) {
        let (mut left, mut first) = (BTreeSet::new(), BTreeSet::new());
        each_call(&journal, |call, answer, before| {
            for what in threads_met(call, answer, before, &left, &first) {
                *met.entry(what).or_insert(0) += 1;
            }
            if matches!(answer, Answer::Refused(_)) {
                return;
            }
            match call {
                Call::Thread { s, .. } if before.mates(s).next().is_none() => drop(first.insert(s)),
                Call::Exit { s } => {
                    first.remove(&s);
                    left.extend(before.mates(s).map(|mate| (s, mate)));
                }
                Call::Exec { s, .. } => {
                    first.retain(|&t| t == s || !before.are_mates(s, t));
                    left.extend(before.mates(s).map(|mate| (mate, s)));
                }
                _ => {}
            }
            left.retain(|&(gone, _)| call.new_subject() != Some(gone));
        });
    }
    assert_eq!(met.len(), 33, "{met:?}");
    assert!(met.values().all(|&times| times >= 10), "{met:?}");
}

/// Request (i): a journal without a record of code 18 gets the replies that it got before.
#[test]
fn request_i_left_journals_without_threads_as_they_were() {
    let as_before = Rules::named("code-18-unknown").unwrap();
    let mut same = [0, 0];
    for journal in mixed(300) {
        let is_same = replies_by(&journal, as_before) == replies(&journal);
        let mut run = Run::new(&journal, Rules::default());
        let mut threads = 0;
        while let Some(step) = run.next_step() {
            threads += u64::from(step.code == 18);
        }
        assert!(is_same == (threads == 0));
        same[usize::from(is_same)] += 1;
    }
    assert!(same.iter().all(|&times| times >= 50), "{same:?}");
}

/// RULES R3, R17: 17 is said exactly where nothing before it holds and the new objects would make more than 64 live,
/// which there never are.
#[test]
fn no_more_than_64_objects_are_live_and_17_keeps_it_so() {
    for journal in mixed(300) {
        each_call(&journal, |call, answer, before| {
            assert!(before.object_count() <= 64);
            let new = call.new_objects();
            let subjects = [call.asker(), call.partner()];
            let is_unfit = |&o: &u64| before.object(o).is_some();
            let before_it = subjects.iter().flatten().any(|&s| before.subject(s).is_none())
                || call.partner().is_some() && call.asker() == call.partner()
                || new.iter().any(is_unfit)
                || new.len() == 2 && new[0] == new[1];
            let too_many = !new.is_empty() && before.object_count() + new.len() as u64 > 64;
            assert_eq!(answer == Answer::Refused(17), too_many && !before_it, "{call:?}");
        });
    }
}

/// What the store comes to in a call; `gone` has the objects that are no longer there, with the kind of each.
fn stores_met(
    call: Call,
    answer: Answer,
    before: &Tables,
    gone: &BTreeMap<u64, Kind>,
) -> Vec<&'static str> {
    let mut met = Vec::new();
    let live = before.object_count();
    let allowed = !matches!(answer, Answer::Refused(_));
    let new = call.new_objects();
    let upper = |o: u64| o >> 32 > 0;
    let like = |o: u64| before.live_objects().any(|other| other != o && other as u32 == o as u32);
    match (call, answer) {
        (Call::Register { .. }, Answer::Refused(17)) => met.push("17, of a register"),
        (Call::Create { .. }, Answer::Refused(17)) => met.push("17, of a create"),
        (Call::Pipe { .. }, Answer::Refused(17)) => met.push("17, of a pipe"),
        (Call::Connect { .. }, Answer::Refused(17)) if live == 63 => {
            met.push("17, of a connect with 63 live")
        }
        (Call::Connect { .. }, Answer::Refused(17)) => met.push("17, of a connect with 64 live"),
        (Call::Connect { .. }, Answer::Allowed(_)) if live == 62 => met.push("the last two, by a connect"),
        (_, Answer::Allowed(_)) if new.len() == 1 && live == 63 => met.push("the last one"),
        (_, Answer::Refused(3)) if live == 64 && !new.is_empty() => met.push("3, with 64 live"),
        (_, Answer::Refused(4)) if call.named_object().is_some_and(like) => {
            met.push("4, and one is like it")
        }
        (_, Answer::Refused(2)) if call.asker().is_some_and(upper) => met.push("2, above 32 bits"),
        (_, Answer::Refused(3)) if call.new_subject().is_some_and(upper) => met.push("3, above 32 bits"),
        (Call::Freeze { level }, _) if upper(level) => met.push("6, a freeze above 32 bits"),
        (_, Answer::Refused(6)) if call.label().is_some_and(|label| upper(label.level)) => {
            met.push("6, a level above 32 bits");
        }
        (_, Answer::Refused(6)) if call.label().is_some_and(|label| upper(label.shops)) => {
            met.push("6, a set above 32 bits");
        }
        (Call::Read { p, .. } | Call::OpenRead { p, .. }, Answer::Refused(7)) if upper(p) => {
            met.push("7, a place above 32 bits");
        }
        _ => {}
    }
    for &o in new.iter().filter(|_| allowed) {
        met.extend(like(o).then_some("new beside one that is like it"));
        if live >= 62 {
            met.push(match gone.get(&o) {
                Some(Kind::File) => "the space used again, by the number of a file",
                Some(Kind::Pipe) => "the space used again, by the number of a pipe",
                None => "the space used again, by another number",
            });
        }
    }
    if allowed && call.named_object().is_some_and(upper) {
        met.push("named, above 32 bits");
    }
    if live == 64 && allowed {
        met.extend(match call {
            Call::Retire { .. } => Some("full, and a file goes"),
            Call::OpenRead { .. } | Call::OpenWrite { .. } => Some("full, and one is opened"),
            Call::Fork { .. } => Some("full, and one forks"),
            _ => None,
        });
    }
    met
}

/// What the store does, and what it must not do, stands in the journals often enough to be compared; and so do objects
/// whose numbers have each length in bytes.
#[test]
fn the_store_is_met_often() {
    let mut met = BTreeMap::new();
    let mut lengths = [0; 10];
    for journal in mixed(450) {
        let mut gone = BTreeMap::new();
        let mut known: BTreeMap<u64, Kind> = BTreeMap::new();
        each_call(&journal, |call, answer, before| {
            let left: Vec<u64> = known.keys().copied().filter(|&o| before.object(o).is_none()).collect();
            gone.extend(left.into_iter().filter_map(|o| Some((o, known.remove(&o)?))));
            known.extend(before.live_objects().map(|o| (o, before.object(o).unwrap().kind)));
            for what in stores_met(call, answer, before, &gone) {
                *met.entry(what).or_insert(0) += 1;
            }
            for &o in call.new_objects().iter().filter(|_| !matches!(answer, Answer::Refused(_))) {
                let mut bytes = Vec::new();
                gatekeeper_independent::numbers::write(o, &mut bytes);
                lengths[bytes.len() - 1] += 1;
            }
        });
    }
    assert_eq!(met.len(), 23, "{met:?}");
    assert!(met.values().all(|&times| times >= 10), "{met:?}");
    assert!(lengths.iter().all(|&times| times >= 50), "{lengths:?}");
    assert!(2 * lengths[0] > lengths.iter().sum::<u64>(), "{lengths:?}");
}

/// Whether a journal has objects 0 to 63 alone, and no number above 4,294,967,295 that is read.
fn is_small(journal: &[u8]) -> bool {
    let mut run = Run::new(journal, Rules::default());
    while let Some(step) = run.next_step() {
        let small = match step.content {
            Content::Body(_, Body::Call { code, numbers }) => {
                let call = Call::new(code, numbers).unwrap();
                let objects = call.named_object().into_iter().chain(call.new_objects());
                objects.max().is_none_or(|o| o < 64) && numbers.iter().all(|&number| number < 1 << 32)
            }
            Content::Body(_, Body::UnknownCode { code }) => code < 1 << 32,
            Content::Body(span, Body::Bad { .. }) => journal[span.body..span.end].len() < 5,
            Content::Stop(_, LengthFault::PastEnd { length, .. }) => length < 1 << 32,
            Content::Stop(_, LengthFault::Malformed(fault)) => fault != Malformed::TooLarge,
            Content::TooLong => true,
        };
        if !small {
            return false;
        }
    }
    true
}

/// Request (h): such a journal gets the replies that it got before.
#[test]
fn request_h_left_journals_of_small_numbers_as_they_were() {
    let as_before = Rules::named("before-request-h").unwrap();
    let mut small = [0, 0];
    for journal in mixed(600) {
        let is_same = replies_by(&journal, as_before) == replies(&journal);
        assert!(is_same || !is_small(&journal));
        small[usize::from(is_same)] += 1;
    }
    // Of the others, most show what is new.
    assert!(small.iter().all(|&times| times >= 100), "{small:?}");
}

/// RULES F5, F6: the need, by a search from the thing.
fn need_by_search(tables: &Tables, start: Thing) -> Label {
    let reached = reached_from(tables, start);
    join_of_files(tables, &reached)
}

/// The highest level of the files among these things, and each mark that one of them has.
fn join_of_files(tables: &Tables, things: &[Thing]) -> Label {
    let files: Vec<Label> = things.iter().filter_map(|&thing| file_label(tables, thing)).collect();
    let level = files.iter().map(|label| label.level).max().unwrap_or(0);
    let has = |group: u32| files.iter().any(|label| label.shops >> group & 1 == 1);
    let shops = (0..8).filter(|&group| has(group)).map(|group| 1 << group).sum();
    Label { level, shops }
}

/// The label of a file.
fn file_label(tables: &Tables, thing: Thing) -> Option<Label> {
    match thing {
        Thing::Object(o) => {
            tables.object(o).filter(|object| object.kind == Kind::File).map(|file| file.label())
        }
        Thing::Subject(_) => None,
    }
}

/// Whether a live thing's label is not at least a need.
fn is_below(tables: &Tables, thing: Thing, need: Label) -> bool {
    label(tables, thing).is_some_and(|label| !label.is_at_least(need))
}

/// RULES F4, F22: what a chain of flows leads to.
fn reached_from(tables: &Tables, start: Thing) -> Vec<Thing> {
    let mut reached = vec![start];
    let mut next = 0;
    while next < reached.len() {
        let held = tables.handles().map(|(s, _, handle)| Flow::of(s, handle));
        let mates = match reached[next] {
            Thing::Subject(s) => tables.mates(s).map(Thing::Subject).collect(),
            Thing::Object(_) => Vec::new(),
        };
        let ends = held.filter(|flow| flow.from == reached[next]).map(|flow| flow.to);
        for end in ends.chain(mates).collect::<Vec<Thing>>() {
            if !reached.contains(&end) {
                reached.push(end);
            }
        }
        next += 1;
    }
    reached
}

#[test]
fn needs_worked_out_in_passes_are_those_of_a_search() {
    for journal in mixed(150) {
        let mut run = Run::new(&journal, Rules::default());
        while run.next_step().is_some() {}
        let tables = run.monitor().tables();
        let needs = Needs::of_tables(tables);
        for thing in live_things(tables) {
            assert_eq!(needs.of(thing), need_by_search(tables, thing));
            assert!(label(tables, thing).is_some());
        }
    }
}

#[test]
fn replies_have_a_line_for_each_record_and_an_end() {
    for journal in mixed(300) {
        let text = replies(&journal);
        let lines: Vec<&str> = text.lines().collect();
        for (index, line) in lines.iter().take(lines.len() - 1).enumerate() {
            assert!(line.starts_with(&format!("{} ", index + 1)), "{line}");
            let letter = line.split(' ').nth(2);
            assert_eq!(line.split(' ').count(), if letter == Some("L") { 5 } else { 4 }, "{line}");
        }
        assert!(lines[lines.len() - 1].starts_with("end "));
        assert!(text.ends_with('\n'));
    }
}

#[test]
fn the_examples_belong_together() {
    let journal = include_bytes!("../examples/march.journal");
    assert_eq!(replies(journal), include_str!("../examples/march.replies"));
}
