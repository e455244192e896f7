//! Variants of marks: what an exec's test leaves out (RULES R110), which calls a mark refuses, and what becomes
//! of marks and of marked handles (RULES C9, C10, C15, T35, Y13).

use super::outcomes::restore_pipes;
use super::Variant;
use crate::calls::Call;
use crate::monitor::{Answer, Monitor};
use crate::refusals::Condition;
use crate::tables::{Direction, Handle, Kind, Subject, Tables};

/// The places that the test of a call leaves out.
pub fn bend_left_out(variant: Variant, tables: &Tables, call: Call, left_out: &mut Vec<(u64, u64)>) {
    let marked = |s: u64| tables.marked_places(s).map(move |p| (s, p));
    match (variant, call) {
        (Variant::MarkedTested, Call::Exec { .. }) => left_out.clear(),
        (Variant::OthersLeftOut, Call::Exec { .. }) => {
            *left_out = tables.live_subjects().flat_map(marked).collect();
        }
        (Variant::OneLeftOut, Call::Exec { s, .. }) => *left_out = marked(s).take(1).collect(),
        (Variant::FilesLeftOut, Call::Exec { .. }) => {
            left_out.retain(|&(s, p)| kind_at(tables, s, p) == Some(Kind::File));
        }
        (Variant::AllLeftOut, Call::Exec { s, .. }) if marked(s).next().is_some() => {
            *left_out = tables.handles_of(s).map(|(p, _)| (s, p)).collect();
        }
        (Variant::OpensLeaveOut, Call::OpenRead { s, .. } | Call::OpenWrite { s, .. }) => {
            *left_out = marked(s).collect();
        }
        _ => {}
    }
}

/// A condition that the variant holds to be other than it is, where it speaks of this call.
pub fn bend_marked(variant: Variant, tables: &Tables, call: Call) -> Option<Condition> {
    let above = |p: u64| p >= tables.limits().places;
    let is_marked = |s, p| tables.handle(s, p).is_some_and(|handle| handle.marked);
    let is_for = |s, p, direction| tables.handle(s, p).is_some_and(|handle| handle.direction == direction);
    match (variant, call) {
        (Variant::MarkTwiceRefused, Call::Mark { s, p }) if is_marked(s, p) => Some((7, true)),
        (Variant::MarkEmptyAllowed, Call::Mark { p, .. }) if !above(p) => Some((7, false)),
        (Variant::MarkPlace16Allowed, Call::Mark { p, .. }) if above(p) => Some((7, false)),
        (Variant::MarkWritingOnly, Call::Mark { s, p }) if is_for(s, p, Direction::Reading) => {
            Some((8, true))
        }
        (Variant::MarkReadingOnly, Call::Mark { s, p }) if is_for(s, p, Direction::Writing) => {
            Some((8, true))
        }
        (Variant::MarkFilesOnly, Call::Mark { s, p }) if kind_at(tables, s, p) == Some(Kind::Pipe) => {
            Some((5, true))
        }
        (Variant::FreezeMarks, Call::Mark { s, p }) => {
            tables.handle(s, p).filter(|handle| tables.is_frozen(handle.object)).map(|_| (15, true))
        }
        (Variant::MarkedCutOff, Call::Read { s, p } | Call::Write { s, p }) if is_marked(s, p) => {
            Some((7, true))
        }
        (Variant::MarkedNotClosed, Call::Close { s, p }) if is_marked(s, p) => Some((7, true)),
        (Variant::MarkedAsFree, Call::OpenRead { s, p, .. } | Call::OpenWrite { s, p, .. })
            if is_marked(s, p) =>
        {
            Some((7, false))
        }
        (Variant::MarkedRetired, Call::Retire { o }) => {
            let held = tables.handles().any(|(_, _, handle)| handle.object == o && !handle.marked);
            (!held).then_some((10, false))
        }
        (Variant::MarkedRunsAll, Call::Exec { s, .. }) if tables.marked_places(s).next().is_some() => {
            Some((9, false))
        }
        _ => None,
    }
}

/// What a refused exec does to the caller's marked handles.
pub fn bend_refused_exec(variant: Variant, after: &mut Monitor, call: Call, number: u32) {
    let Call::Exec { s, .. } = call else {
        return;
    };
    let marked: Vec<u64> = after.tables.marked_places(s).collect();
    match (variant, number) {
        (Variant::RefusedExecCloses, 9) => close(after, s, &marked),
        (Variant::UnfitExecCloses, 4 | 5) => close(after, s, &marked),
        (Variant::RefusedExecUnmarks, 9) => set_marks(&mut after.tables, s, false),
        (Variant::RefusedExecCounted, 9) => after.tally.count_gone(marked.len() as u64),
        _ => {}
    }
}

/// What a call that is not refused does to marks and marked handles.
pub fn bend_marks(variant: Variant, before: &Monitor, after: &mut Monitor, call: Call) {
    let old = &before.tables;
    let tables = &mut after.tables;
    match (variant, call) {
        (Variant::MarkIgnored, Call::Mark { s, p }) => tables.set_handle(s, p, old.handle(s, p)),
        (Variant::MarkToggles, Call::Mark { s, p }) => {
            let handle = old.handle(s, p).map(|handle| Handle { marked: !handle.marked, ..handle });
            tables.set_handle(s, p, handle);
        }
        (Variant::MarkOfSubject, Call::Mark { s, .. }) => set_marks(tables, s, true),
        (Variant::MarkOfObject, Call::Mark { s, p }) => {
            let object = old.handle(s, p).map(|handle| handle.object);
            for (s, p, handle) in old.handles() {
                if Some(handle.object) == object {
                    tables.mark(s, p);
                }
            }
        }
        (Variant::MarkLowers, Call::Mark { s, p }) => {
            let object = old.handle(s, p).and_then(|handle| old.object(handle.object));
            if let (Some(subject), Some(object)) = (old.subject(s), object) {
                tables.set_subject(s, Some(Subject::new(subject.label().fallen_to(object.label()))));
            }
        }
        (Variant::MarkCloses, Call::Mark { s, p }) => close(after, s, &[p]),
        (Variant::UseUnmarks, Call::Read { s, p } | Call::Write { s, p }) => {
            let handle = old.handle(s, p).map(|handle| Handle { marked: false, ..handle });
            tables.set_handle(s, p, handle);
        }
        (Variant::ForkDropsMarks, Call::Fork { c, .. }) => set_marks(tables, c, false),
        (Variant::ForkMarksAll, Call::Fork { c, .. }) => set_marks(tables, c, true),
        (Variant::ForkMovesMarks, Call::Fork { s, .. }) => set_marks(tables, s, false),
        (Variant::ForkLeavesMarked, Call::Fork { s, c }) => {
            for p in old.marked_places(s) {
                tables.set_handle(c, p, None);
                after.tally.made = after.tally.made.wrapping_sub(1);
            }
        }
        (Variant::ExecKeepsMarked, Call::Exec { s, .. }) => reopen(before, after, s, |_, held| held.marked),
        (Variant::ExecUnmarks, Call::Exec { s, .. }) => {
            reopen(before, after, s, |_, held| held.marked);
            set_marks(&mut after.tables, s, false);
        }
        (Variant::ExecKeepsReading, Call::Exec { s, .. }) => {
            reopen(before, after, s, |_, held| held.marked && held.direction == Direction::Reading);
        }
        (Variant::ExecClosesOthers, Call::Exec { .. }) => {
            for s in old.live_subjects() {
                let marked: Vec<u64> = after.tables.marked_places(s).collect();
                close(after, s, &marked);
            }
        }
        (Variant::ExecClosesRest, Call::Exec { s, .. }) if old.marked_places(s).next().is_some() => {
            let rest: Vec<u64> = after.tables.handles_of(s).map(|(p, _)| p).collect();
            close(after, s, &rest);
        }
        (Variant::ExecKeepsPipes, Call::Exec { .. }) => restore_pipes(old, tables),
        (Variant::ExecEndsPipes, Call::Exec { s, .. }) => {
            for p in old.marked_places(s).filter(|&p| kind_at(old, s, p) == Some(Kind::Pipe)) {
                if let Some(handle) = old.handle(s, p) {
                    tables.set_object(handle.object, None);
                }
            }
        }
        _ => {}
    }
    bend_left_marks(variant, old, after, call);
}

/// Marks that outlive their handles: the next handle at the place has them.
fn bend_left_marks(variant: Variant, old: &Tables, after: &mut Monitor, call: Call) {
    let stays = matches!(
        (variant, call),
        (Variant::MarkStaysAtClose, Call::Close { .. })
            | (Variant::MarkStaysAtExec, Call::Exec { .. })
            | (Variant::MarkStaysAtExit, Call::Exit { .. })
    );
    if stays {
        let gone = old.handles().filter(|&(s, p, held)| held.marked && after.tables.handle(s, p).is_none());
        let gone: Vec<(u64, u64)> = gone.map(|(s, p, _)| (s, p)).collect();
        after.left_marks.extend(gone);
    }
    let placed = match call {
        Call::OpenRead { s, p, .. } | Call::OpenWrite { s, p, .. } => vec![(s, p)],
        Call::Pipe { s, r, w, .. } => vec![(s, r), (s, w)],
        _ => Vec::new(),
    };
    for (s, p) in placed {
        if after.left_marks.contains(&(s, p)) {
            after.tables.mark(s, p);
        }
    }
}

/// What marks and marked handles add to the tally.
pub fn bend_counts(variant: Variant, before: &Monitor, after: &mut Monitor, call: Call) {
    let gone = after.tally.gone.wrapping_sub(before.tally.gone);
    match (variant, call) {
        (Variant::ExecNotCounted, Call::Exec { .. }) => after.tally.gone = before.tally.gone,
        (Variant::ExecCountedOnce, Call::Exec { .. }) if gone > 0 => {
            after.tally.gone = before.tally.gone.wrapping_add(1);
        }
        (Variant::ExecCountsAll, Call::Exec { s, .. }) => {
            let held = before.tables.handles_of(s).count() as u64;
            after.tally.gone = before.tally.gone.wrapping_add(held);
        }
        (Variant::MarkCounted, Call::Mark { .. }) => after.tally.count_gone(1),
        _ => {}
    }
}

/// What a mark, or an exec that closes, is answered with.
pub fn bend_marked_answer(variant: Variant, before: &Monitor, call: Call, answer: Answer) -> Answer {
    let old = &before.tables;
    match (variant, call, answer) {
        (Variant::MarkAnswersObject, Call::Mark { s, p }, Answer::Allowed(_)) => {
            let object = old.handle(s, p).and_then(|handle| old.object(handle.object));
            object.map_or(answer, |object| Answer::Allowed(object.level))
        }
        (Variant::MarkAnswersPlace, Call::Mark { p, .. }, Answer::Allowed(_)) => Answer::Allowed(p),
        (Variant::ClosingAsLowered, Call::Exec { s, .. }, Answer::Allowed(level)) => {
            match old.places_ending_at_exec(s).next() {
                Some(_) => Answer::Lowered(level, 0),
                None => answer,
            }
        }
        _ => answer,
    }
}

/// The kind of the object at a place.
fn kind_at(tables: &Tables, s: u64, p: u64) -> Option<Kind> {
    tables.handle(s, p).and_then(|handle| tables.object(handle.object)).map(|object| object.kind)
}

pub(super) fn close(monitor: &mut Monitor, s: u64, places: &[u64]) {
    for &p in places {
        monitor.remove_handle(s, p);
    }
}

/// Takes an exec's closing of such handles back: with the pipes that ended with them, and the count.
pub(super) fn reopen(before: &Monitor, after: &mut Monitor, s: u64, which: impl Fn(u64, Handle) -> bool) {
    let old = &before.tables;
    for (p, handle) in old.handles_of(s).filter(|&(p, handle)| which(p, handle)) {
        after.tables.set_object(handle.object, old.object(handle.object));
        after.tables.set_handle(s, p, Some(handle));
        after.tally.gone = after.tally.gone.wrapping_sub(1);
    }
}

/// Marks every handle of a subject, or none.
fn set_marks(tables: &mut Tables, s: u64, marked: bool) {
    let handles: Vec<(u64, Handle)> = tables.handles_of(s).collect();
    for (p, handle) in handles {
        tables.set_handle(s, p, Some(Handle { marked, ..handle }));
    }
}
