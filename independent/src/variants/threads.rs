//! Variants of threads: what refuses one, what it makes, and what the test of a call takes its group for (RULES C18,
//! F22, R3, R7, R9, R16, R110, T46).

use super::Variant;
use crate::calls::Call;
use crate::labels::Label;
use crate::monitor::{Answer, Monitor};
use crate::needs::{Needs, Thing};
use crate::refusals::Condition;
use crate::tables::{Handle, Subject, Tables};

/// How many members a group has at most, for a variant.
const SMALL_GROUP: usize = 8;

/// Whether data flows from one of these mates to the other.
pub fn joins(variant: Variant, (s, t): (u64, u64)) -> bool {
    match variant {
        Variant::MatesNoFlow => false,
        Variant::MatesFlowDown => s < t,
        Variant::MatesFlowUp => s > t,
        _ => true,
    }
}

/// The mates that the test of a call leaves out.
pub fn bend_mates_left_out(variant: Variant, tables: &Tables, call: Call, mates: &mut Vec<u64>) {
    match (variant, call) {
        (Variant::ExecMatesTested, Call::Exec { .. }) => mates.clear(),
        (Variant::ExecOneMateTested, Call::Exec { .. }) => drop(mates.pop()),
        (Variant::ExecLowerMatesTested, Call::Exec { s, .. }) => mates.retain(|&mate| mate > s),
        (Variant::ExecAllGroupsLeftOut, Call::Exec { s, .. }) => {
            let in_groups = tables.live_subjects().filter(|&t| tables.mates(t).next().is_some());
            *mates = in_groups.filter(|&t| t != s).collect();
        }
        (Variant::OpensLeaveMatesOut, Call::OpenRead { s, .. } | Call::OpenWrite { s, .. }) => {
            *mates = tables.mates(s).collect();
        }
        _ => {}
    }
}

/// A condition that the variant holds to be other than it is, where it speaks of this call.
pub fn bend_threaded(variant: Variant, tables: &Tables, call: Call) -> Option<Condition> {
    let is_above = |c: u64| c >= tables.limits().subjects;
    let is_live = |s: u64| tables.subject(s).is_some();
    let has_mates = |s: u64| tables.mates(s).next().is_some();
    match (variant, call) {
        (Variant::ThreadCallerUntested, Call::Thread { .. }) => Some((2, false)),
        (Variant::ThreadItselfAllowed, Call::Thread { s, c }) if s == c => Some((3, false)),
        (Variant::ThreadItself16, Call::Thread { s, c }) => Some((16, s == c)),
        (Variant::Thread32Allowed, Call::Thread { c, .. }) if is_above(c) => Some((3, false)),
        (Variant::ThreadTakesLive, Call::Thread { s, c }) if s != c && is_live(c) => Some((3, false)),
        (Variant::ThreadOfHolder7, Call::Thread { s, .. }) => {
            Some((7, tables.handles_of(s).next().is_some()))
        }
        (Variant::GroupOf8, Call::Thread { s, .. }) if tables.members(s).count() >= SMALL_GROUP => {
            Some((3, true))
        }
        (Variant::MatesRunAll, Call::Exec { s, .. }) if has_mates(s) => Some((9, false)),
        (Variant::MatesRunNone, Call::Exec { s, .. }) if has_mates(s) => Some((10, true)),
        (Variant::ConnectMates16, Call::Connect { s, t, .. }) => {
            Some((16, s == t || tables.are_mates(s, t)))
        }
        (Variant::MatesPlacesTaken, _) => taken_by_mate(tables, call).then_some((7, true)),
        _ => None,
    }
}

/// Whether a mate has a handle at a place that a call asks to be empty.
fn taken_by_mate(tables: &Tables, call: Call) -> bool {
    let places = match call {
        Call::OpenRead { s, p, .. } | Call::OpenWrite { s, p, .. } | Call::Map { s, p, .. } => vec![(s, p)],
        Call::Pipe { s, r, w, .. } => vec![(s, r), (s, w)],
        _ => Vec::new(),
    };
    let taken = |(s, p): (u64, u64)| tables.mates(s).any(|mate| tables.handle(mate, p).is_some());
    places.into_iter().any(taken)
}

/// A call at an empty place, with the mate in the place of its subject that has a handle there.
pub fn bend_caller(variant: Variant, tables: &Tables, mut call: Call) -> Call {
    if let Call::Read { s, p } | Call::Write { s, p } | Call::Close { s, p } | Call::Mark { s, p } =
        &mut call
    {
        let has = |member: u64| tables.handle(member, *p).is_some();
        let found = tables.mates(*s).find(|&mate| has(mate));
        if variant == Variant::MatesHandlesUsed && !has(*s) {
            *s = found.unwrap_or(*s);
        }
    }
    call
}

/// What a thread that is not refused makes.
pub fn bend_thread(variant: Variant, before: &Monitor, after: &mut Monitor, call: Call) {
    let Call::Thread { s, c } = call else {
        return;
    };
    let old = &before.tables;
    let held: Vec<(u64, Handle)> = old.handles_of(s).collect();
    let tables = &mut after.tables;
    match variant {
        Variant::ThreadOwnGroup => tables.leave_group(c),
        Variant::ThreadJoinsMakerOnly => {
            tables.leave_group(c);
            tables.set_mates(s, c);
        }
        Variant::OneGroupForAll => {
            let in_groups = old.live_subjects().filter(|&t| old.mates(t).next().is_some());
            in_groups.for_each(|t| tables.join_groups(c, t));
        }
        Variant::ThreadCopiesHandles => {
            held.iter().for_each(|&(p, handle)| tables.set_handle(c, p, Some(handle)));
            after.tally.count_made(held.len() as u64);
        }
        Variant::ThreadMovesHandles => {
            for (p, handle) in held {
                tables.set_handle(c, p, Some(handle));
                tables.set_handle(s, p, None);
            }
        }
        Variant::ThreadAtLowest => {
            let lowest = old.members(s).filter_map(|t| old.subject(t)).min_by_key(|subject| subject.level);
            tables.set_subject(c, lowest);
        }
        Variant::ThreadEvens => old.mates(s).for_each(|mate| tables.set_subject(mate, old.subject(s))),
        Variant::ThreadTopLevel => set_level(tables, c, 15),
        Variant::ThreadAtZero => set_level(tables, c, 0),
        Variant::ThreadCounted => after.tally.count_made(held.len() as u64),
        _ => {}
    }
}

fn set_level(tables: &mut Tables, s: u64, level: u64) {
    tables.set_subject(s, tables.subject(s).map(|subject| Subject { level, ..subject }));
}

/// What a thread is answered with, and other calls where the variant refuses them for their group.
pub fn bend_thread_answer(
    variant: Variant,
    before: &Monitor,
    after: &mut Monitor,
    call: Call,
    answer: Answer,
) -> Answer {
    let refused = match (variant, call, answer) {
        (Variant::ThreadAnswersZero, Call::Thread { .. }, Answer::Allowed(_)) => return Answer::Allowed(0),
        (Variant::ThreadAnswersNumber, Call::Thread { c, .. }, Answer::Allowed(_)) => {
            return Answer::Allowed(c)
        }
        (Variant::ThreadInUse7, Call::Thread { .. }, Answer::Refused(3)) => return Answer::Refused(7),
        (_, _, Answer::Refused(_)) => return answer,
        (Variant::ThreadByFirstOnly, Call::Thread { s, .. }, _) if before.threads.contains(&s) => 2,
        (_, Call::OpenRead { s, o, .. } | Call::Map { s, o, .. } | Call::Exec { s, o }, _)
            if is_below_floor(before, s, o) =>
        {
            9
        }
        _ => return answer,
    };
    *after = before.clone();
    Answer::Refused(refused)
}

/// For a variant: a child that needs what its parent's group needed when it was forked.
pub fn note_floor(variant: Variant, before: &Monitor, after: &mut Monitor, call: Call) {
    let tables = &before.tables;
    match (variant, call) {
        (Variant::ForkKeepsNeed, Call::Fork { s, c }) if tables.mates(s).next().is_some() => {
            let need = Needs::of_tables(tables).of(Thing::Subject(s));
            after.floors.push((c, need));
        }
        _ => {}
    }
    let tables = &after.tables;
    after.floors.retain(|&(c, _)| tables.subject(c).is_some());
}

/// Whether the object is below what the subject is held to need.
fn is_below_floor(before: &Monitor, s: u64, o: u64) -> bool {
    let label = before.tables.object(o).map_or(Label::LEAST, |object| object.label());
    before.floors.iter().any(|&(c, need)| c == s && !label.is_at_least(need))
}
