//! Variants of what a call does and answers: each is a change to the outcome of the right rules.

use super::channels::{bend_channels, bend_connect_answer, bend_refused_connect};
use super::groups::{bend_groups, bend_mates_of_refused};
use super::labels::bend_labels;
use super::maps::{bend_map_counts, bend_mapped_answer, bend_maps, bend_refused_map};
use super::marks::{bend_counts, bend_marked_answer, bend_marks, bend_refused_exec};
use super::Variant;
use crate::calls::Call;
use crate::monitor::{Answer, Monitor};
use crate::tables::{Direction, Kind, Object, Subject, Tables, NO_FREEZE};

/// What a refused call leaves behind.
pub fn bend_refused(variant: Variant, after: &mut Monitor, call: Call, number: u32) {
    bend_refused_exec(variant, after, call, number);
    bend_refused_map(variant, after, call, number);
    bend_refused_connect(variant, after, call, number);
    bend_mates_of_refused(variant, after, call, number);
    match (variant, call) {
        (Variant::RefusedOpenStays, Call::OpenRead { .. } | Call::OpenWrite { .. }) if number == 9 => {
            place_sought(&mut after.tables, call);
        }
        (Variant::RefusedMapStays, Call::Map { .. }) if number == 9 => {
            place_sought(&mut after.tables, call);
        }
        (Variant::FifteenStays, _) if number == 15 => place_sought(&mut after.tables, call),
        (Variant::FifteenLifts, _) if number == 15 => after.tables.set_freeze(NO_FREEZE),
        (Variant::RefusedFreezeLifts, Call::Freeze { .. }) => after.tables.set_freeze(NO_FREEZE),
        (Variant::RefusedFreezeSets, Call::Freeze { .. }) => after.tables.set_freeze(15),
        (Variant::RefusedExecLowers, Call::Exec { s, o }) if number == 9 => {
            let label = after.tables.object(o).map(|object| object.label());
            after.tables.set_subject(s, label.map(Subject::new));
        }
        (Variant::RefusedCounted, Call::OpenRead { .. } | Call::OpenWrite { .. }) => {
            after.tally.count_made(1);
        }
        _ => {}
    }
}

/// Places the handle that an open or a map asks for.
fn place_sought(tables: &mut Tables, call: Call) {
    let Some((s, handle)) = call.sought() else {
        return;
    };
    if let Call::OpenRead { p, .. } | Call::OpenWrite { p, .. } | Call::Map { p, .. } = call {
        tables.set_handle(s, p, Some(handle));
    }
}

/// What an allowed call does to the tables and the tally.
pub fn bend_effect(variant: Variant, before: &Monitor, after: &mut Monitor, call: Call) {
    bend_marks(variant, before, after, call);
    bend_counts(variant, before, after, call);
    bend_maps(variant, before, after, call);
    bend_map_counts(variant, before, after, call);
    bend_channels(variant, before, after, call);
    bend_groups(variant, before, after, call);
    bend_labels(variant, before, after, call);
    let made = after.tally.made.wrapping_sub(before.tally.made);
    let gone = after.tally.gone.wrapping_sub(before.tally.gone);
    let old = &before.tables;
    let tables = &mut after.tables;
    let object_at = |s, p| {
        let o = old.handle(s, p)?.object;
        Some((o, old.object(o)?))
    };
    match (variant, call) {
        (Variant::LowerAtOpen, Call::OpenRead { s, o, .. }) => {
            if let (Some(subject), Some(object)) = (old.subject(s), old.object(o)) {
                let label = subject.label().fallen_to(object.label());
                tables.set_subject(s, Some(Subject::new(label)));
            }
        }
        (Variant::LowerPipeAtOpen, Call::OpenWrite { s, o, .. }) => {
            if let (Some(subject), Some(object)) = (old.subject(s), old.object(o)) {
                if object.kind == Kind::Pipe {
                    let label = subject.label().fallen_to(object.label());
                    tables.set_object(o, Some(Object::new(Kind::Pipe, label)));
                }
            }
        }
        (Variant::ReaderKeepsLevel, Call::Read { s, .. }) => tables.set_subject(s, old.subject(s)),
        (Variant::ReadTakesLevel, Call::Read { s, p }) => {
            if let Some((_, object)) = object_at(s, p) {
                tables.set_subject(s, Some(Subject::new(object.label())));
            }
        }
        (Variant::PipeKeepsLevel, Call::Write { s, p }) => {
            if let Some((o, object)) = object_at(s, p) {
                tables.set_object(o, Some(object));
            }
        }
        (Variant::PipeTakesLevel, Call::Write { s, p }) => {
            if let (Some((o, object)), Some(subject)) = (object_at(s, p), old.subject(s)) {
                if object.kind == Kind::Pipe {
                    tables.set_object(o, Some(Object::new(Kind::Pipe, subject.label())));
                }
            }
        }
        (Variant::ExecKeepsLevel, Call::Exec { s, .. }) => tables.set_subject(s, old.subject(s)),
        (Variant::ExecTakesLevel, Call::Exec { s, o }) => {
            tables.set_subject(s, old.object(o).map(|object| Subject::new(object.label())));
        }
        (Variant::ExecCloses, Call::Exec { s, .. }) => {
            for (p, _) in old.handles_of(s).filter(|(_, handle)| !handle.ends_at_exec()) {
                tables.set_handle(s, p, None);
                after.tally.count_gone(1);
            }
        }
        (Variant::ForkNoHandles, Call::Fork { s, c }) => {
            for (p, _) in old.handles_of(s) {
                tables.set_handle(c, p, None);
            }
            after.tally.made = before.tally.made;
        }
        (Variant::ForkReadingOnly, Call::Fork { s, c }) => {
            for (p, handle) in old.handles_of(s) {
                if handle.direction == Direction::Writing {
                    tables.set_handle(c, p, None);
                }
            }
        }
        (Variant::ForkTopLevel, Call::Fork { c, .. }) => {
            tables.set_subject(c, tables.subject(c).map(|subject| Subject { level: 15, ..subject }));
        }
        (Variant::PipeNeverEnds, Call::Close { .. } | Call::Exit { .. } | Call::Exec { .. }) => {
            restore_pipes(old, tables);
        }
        (Variant::PipeEndsWithWriter, Call::Close { .. } | Call::Exit { .. } | Call::Exec { .. }) => {
            end_pipes_without(tables, Direction::Writing);
        }
        (Variant::PipeEndsWithReader, Call::Close { .. } | Call::Exit { .. } | Call::Exec { .. }) => {
            end_pipes_without(tables, Direction::Reading);
        }
        (Variant::ExitKeepsPipes, Call::Exit { .. }) => restore_pipes(old, tables),
        (Variant::ExitKeepsNumber, Call::Exit { s }) => tables.set_subject(s, old.subject(s)),
        (Variant::RetireKeepsNumber, Call::Retire { o }) => tables.set_object(o, old.object(o)),
        (Variant::CreateAtZero, Call::Create { o, .. }) => {
            tables.set_object(o, tables.object(o).map(|object| Object { level: 0, ..object }));
        }
        (Variant::PipeAtFifteen, Call::Pipe { o, .. }) => {
            tables.set_object(o, tables.object(o).map(|object| Object { level: 15, ..object }));
        }
        (Variant::PipeEndsSwapped, Call::Pipe { s, r, w, .. }) => {
            let (reading, writing) = (tables.handle(s, r), tables.handle(s, w));
            tables.set_handle(s, r, writing);
            tables.set_handle(s, w, reading);
        }
        (Variant::FreezeTakesSmaller, Call::Freeze { level }) if level < NO_FREEZE => {
            tables.set_freeze(level.min(old.freeze()));
        }
        (Variant::FreezeNotReplaced, Call::Freeze { level }) if level < NO_FREEZE => {
            tables.set_freeze(old.frozen_from().unwrap_or(level));
        }
        (Variant::FreezeNotLifted, Call::Freeze { level: NO_FREEZE }) => tables.set_freeze(old.freeze()),
        (Variant::FreezeCloses, Call::Freeze { .. }) => {
            for (s, p, handle) in
                old.handles().filter(|(_, _, handle)| handle.direction == Direction::Writing)
            {
                if tables.is_frozen(handle.object) {
                    tables.set_handle(s, p, None);
                    after.tally.count_gone(1);
                }
            }
        }
        (Variant::ExitLiftsFreeze, Call::Exit { .. }) => tables.set_freeze(NO_FREEZE),
        (Variant::ExecLiftsFreeze, Call::Exec { .. }) => tables.set_freeze(NO_FREEZE),
        (Variant::OldMonitor, _) => *after = before.clone(),
        (Variant::PipeCountedOnce, Call::Pipe { .. }) => {
            after.tally.made = before.tally.made.wrapping_add(1);
        }
        (Variant::ForkNotCounted, Call::Fork { .. }) => after.tally.made = before.tally.made,
        (Variant::ForkCountedOnce, Call::Fork { .. }) if made > 0 => {
            after.tally.made = before.tally.made.wrapping_add(1);
        }
        (Variant::ExitCountedOnce, Call::Exit { .. }) if gone > 0 => {
            after.tally.gone = before.tally.gone.wrapping_add(1);
        }
        (Variant::CloseNotCounted, Call::Close { .. }) => after.tally.gone = before.tally.gone,
        (Variant::RetireCounted, Call::Retire { .. }) => after.tally.count_gone(1),
        (Variant::FreezeCounted, Call::Freeze { .. }) => after.tally.count_made(1),
        _ => {}
    }
}

/// Brings back the pipes that a call has ended.
pub(super) fn restore_pipes(old: &Tables, tables: &mut Tables) {
    for o in old.live_objects() {
        if tables.object(o).is_none() {
            tables.set_object(o, old.object(o));
        }
    }
}

/// Ends every pipe that has no handle of this direction.
fn end_pipes_without(tables: &mut Tables, direction: Direction) {
    let pipes: Vec<u64> = tables
        .live_objects()
        .filter(|&o| tables.object(o).is_some_and(|object| object.kind == Kind::Pipe))
        .filter(|&o| {
            !tables.handles().any(|(_, _, handle)| handle.object == o && handle.direction == direction)
        })
        .collect();
    for o in pipes {
        tables.set_object(o, None);
    }
}

/// What a call is answered with.
pub fn bend_answer(variant: Variant, before: &Monitor, call: Call, answer: Answer) -> Answer {
    let with = |level: Option<u64>| match (answer, level) {
        (Answer::Allowed(_), Some(level)) => Answer::Allowed(level),
        (Answer::Lowered(_, lost), Some(level)) => Answer::Lowered(level, lost),
        _ => answer,
    };
    let old = &before.tables;
    let subject_level = |s| old.subject(s).map(|subject| subject.level);
    let object_level = |o| old.object(o).map(|object| object.level);
    let answer = bend_marked_answer(variant, before, call, answer);
    let answer = bend_mapped_answer(variant, before, call, answer);
    let answer = bend_connect_answer(variant, before, call, answer);
    match (variant, call) {
        (Variant::OpenAnswersSubject, Call::OpenRead { s, .. } | Call::OpenWrite { s, .. }) => {
            with(subject_level(s))
        }
        (Variant::ReadAnswersObject, Call::Read { s, p }) => {
            with(old.handle(s, p).and_then(|handle| object_level(handle.object)))
        }
        (Variant::WriteAnswersSubject, Call::Write { s, .. }) => with(subject_level(s)),
        (Variant::ExecAnswersObject, Call::Exec { o, .. }) => with(object_level(o)),
        (Variant::ExitAnswersZero, Call::Exit { .. }) => with(Some(0)),
        (Variant::FreezeAnswersOld, Call::Freeze { .. }) => with(Some(old.freeze())),
        (Variant::Freeze16Answers15, Call::Freeze { level: NO_FREEZE }) => with(Some(15)),
        (Variant::FreezeAsLowered, Call::Freeze { level }) if level < old.freeze() => {
            Answer::Lowered(level, 0)
        }
        (Variant::LoweredAsAllowed, _) => match answer {
            Answer::Lowered(level, _) => Answer::Allowed(level),
            _ => answer,
        },
        (Variant::PipeLoweredAsAllowed, Call::Write { .. }) => match answer {
            Answer::Lowered(level, _) => Answer::Allowed(level),
            _ => answer,
        },
        (Variant::EqualAsLowered, Call::Read { s, p }) => {
            let level = old.handle(s, p).and_then(|handle| object_level(handle.object));
            match answer {
                Answer::Allowed(own) if level == Some(own) => Answer::Lowered(own, 0),
                _ => answer,
            }
        }
        _ => answer,
    }
}
