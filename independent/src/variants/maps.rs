//! Variants of mappings: which calls a map or a mapping refuses, and what becomes of mappings (RULES C8 to C10,
//! C14, C110, T37, Y3, Y13).

use super::marks::{close, reopen};
use super::{Rules, Variant};
use crate::calls::Call;
use crate::labels::Label;
use crate::monitor::{Answer, Monitor};
use crate::needs::{Flow, Needs, Thing};
use crate::refusals::{sought_flow, Condition};
use crate::tables::{Direction, Handle, Kind, Subject, Tables};

/// A condition that the variant holds to be other than it is, where it speaks of this call.
pub fn bend_mapped(variant: Variant, tables: &Tables, call: Call, needs: &Needs) -> Option<Condition> {
    let above = |p: u64| p >= tables.limits().places;
    let is_mapping = |s, p| is_mapping(tables, s, p);
    let is_written = |o| tables.handles().any(|(_, _, held)| held.object == o && !reads(held));
    match (variant, call) {
        (Variant::MapUntested, Call::Map { .. }) => Some((9, false)),
        (Variant::MapperOnly, Call::Map { s, .. }) => {
            let is_short = needs.unmet(tables).any(|thing| thing == Thing::Subject(s));
            sought_flow(tables, call).map(|_| (9, is_short))
        }
        (Variant::MapAsWriting, Call::Map { s, o, .. }) => {
            let flow = Flow::of(s, Handle::new(o, Direction::Writing));
            let needs = Needs::work_out(tables, &[flow], Rules::default(), &Needs::none(tables));
            sought_flow(tables, call).map(|_| (9, needs.unmet(tables).next().is_some()))
        }
        (Variant::MapPipe, Call::Map { .. }) => Some((5, false)),
        (Variant::MapTakenPlace, Call::Map { p, .. }) => Some((7, above(p))),
        (Variant::MapPlace16Allowed, Call::Map { p, .. }) if above(p) => Some((7, false)),
        (Variant::MapTwiceRefused, Call::Map { s, o, .. }) if maps(tables, s, o) => Some((7, true)),
        (Variant::MapSharedRefused, Call::Map { s, o, .. }) => {
            tables.mappers(o).any(|other| other != s).then_some((10, true))
        }
        (Variant::MapWrittenRefused, Call::Map { o, .. }) if is_written(o) => Some((10, true)),
        (Variant::MappedCutOff, Call::Read { s, p }) if is_mapping(s, p) => Some((8, true)),
        (Variant::MappedWritten, Call::Write { s, p }) if is_mapping(s, p) => Some((8, false)),
        (Variant::MappedNotClosed, Call::Close { s, p }) if is_mapping(s, p) => Some((7, true)),
        (Variant::MappedNotMarked, Call::Mark { s, p }) if is_mapping(s, p) => Some((7, true)),
        (Variant::MappedAsFree, Call::OpenRead { s, p, .. } | Call::OpenWrite { s, p, .. })
            if is_mapping(s, p) =>
        {
            Some((7, false))
        }
        (Variant::MappedRetired, Call::Retire { o }) => {
            let held = tables.handles().any(|(_, _, handle)| handle.object == o && !handle.mapped);
            (!held).then_some((10, false))
        }
        (Variant::MappedWriteRefused, Call::Write { s, p }) => {
            written_file(tables, s, p).and_then(|(o, _)| tables.mappers(o).next()).map(|_| (10, true))
        }
        _ => None,
    }
}

/// What a refused map, or the mappings at a refused exec, leave behind.
pub fn bend_refused_map(variant: Variant, after: &mut Monitor, call: Call, number: u32) {
    match (variant, call, number) {
        (Variant::RefusedMapLowers, Call::Map { s, o, .. }, 9) => {
            let label = after.tables.object(o).map_or(Label::LEAST, |object| object.label());
            lower(&mut after.tables, s, label);
        }
        (Variant::RefusedMapCounted, Call::Map { .. }, _) => after.tally.count_made(1),
        (Variant::RefusedExecClosesMapped, Call::Exec { s, .. }, 9) => close_mappings(after, s),
        (Variant::UnfitExecClosesMapped, Call::Exec { s, .. }, 4 | 5) => close_mappings(after, s),
        (Variant::RefusedExecCountsMaps, Call::Exec { s, .. }, 9) => {
            after.tally.count_gone(mapped_places(&after.tables, s).len() as u64);
        }
        _ => {}
    }
}

/// What a call that is not refused does to mappings, and what a mapping does.
pub fn bend_maps(variant: Variant, before: &Monitor, after: &mut Monitor, call: Call) {
    let old = &before.tables;
    let tables = &mut after.tables;
    match (variant, call) {
        (Variant::MapKeepsLevel, Call::Map { s, .. }) => tables.set_subject(s, old.subject(s)),
        (Variant::MapTakesLevel, Call::Map { s, o, .. }) => {
            tables.set_subject(s, old.object(o).map(|object| Subject::new(object.label())));
        }
        (Variant::MapPlacesNone, Call::Map { s, p, .. }) => {
            tables.set_handle(s, p, None);
            after.tally.made = before.tally.made;
        }
        (Variant::MapAsOpen, Call::Map { s, p, .. }) => set_mapped(tables, s, p, false),
        (Variant::OpenAsMap, Call::OpenRead { s, p, .. }) => set_mapped(tables, s, p, true),
        (Variant::OpenOfMappedMaps, Call::OpenRead { s, o, p }) if maps(old, s, o) => {
            set_mapped(tables, s, p, true);
        }
        (Variant::ReadUnmaps, Call::Read { s, p }) => set_mapped(tables, s, p, false),
        (Variant::CloseUnmapsFile, Call::Close { s, p }) => {
            let file = old.handle(s, p).filter(|handle| handle.mapped).map(|handle| handle.object);
            close_mappings_of(after, file, |other| other == s);
        }
        (Variant::CloseUnmapsAll, Call::Close { s, p }) => {
            let file = old.handle(s, p).filter(|handle| handle.mapped).map(|handle| handle.object);
            close_mappings_of(after, file, |_| true);
        }
        (Variant::ForkUnmaps, Call::Fork { c, .. }) => set_mappings(tables, c, |_| false),
        (Variant::ForkMovesMapping, Call::Fork { s, .. }) => set_mappings(tables, s, |_| false),
        (Variant::ForkMapsAll, Call::Fork { c, .. }) => set_mappings(tables, c, reads),
        (Variant::ForkLeavesMapped, Call::Fork { s, c }) => {
            for p in mapped_places(old, s) {
                tables.set_handle(c, p, None);
                after.tally.made = after.tally.made.wrapping_sub(1);
            }
        }
        (Variant::ExecKeepsMapped, Call::Exec { s, .. }) => reopen(before, after, s, |_, held| held.mapped),
        (Variant::ExecUnmaps, Call::Exec { s, .. }) => {
            reopen(before, after, s, |_, held| held.mapped);
            set_mappings(&mut after.tables, s, |_| false);
        }
        (Variant::ExecClosesOneMapping, Call::Exec { s, .. }) => {
            let first = mapped_places(old, s).first().copied();
            reopen(before, after, s, |p, held| held.mapped && Some(p) != first);
        }
        (Variant::ExecClosesMappedFile, Call::Exec { s, .. }) => {
            let left = after.tables.handles_of(s).filter(|&(_, handle)| maps(old, s, handle.object));
            let left: Vec<u64> = left.map(|(p, _)| p).collect();
            close(after, s, &left);
        }
        (Variant::ExecClosesOthersMappings, Call::Exec { .. }) => {
            for s in old.live_subjects() {
                close_mappings(after, s);
            }
        }
        _ => {}
    }
    bend_rereads(variant, old, after, call);
    bend_left_maps(variant, old, after, call);
}

/// What a write to a file does beside the reads of those who have it mapped.
fn bend_rereads(variant: Variant, old: &Tables, after: &mut Monitor, call: Call) {
    let Call::Write { s, p } = call else {
        return;
    };
    let Some((o, label)) = written_file(old, s, p) else {
        return;
    };
    match variant {
        Variant::WriteUnmaps => close_mappings_of(after, Some(o), |_| true),
        Variant::WriteLowersWriter if old.mappers(o).next().is_some() => lower(&mut after.tables, s, label),
        Variant::WriteLowersReaders => {
            for (reader, _, _) in old.handles().filter(|&(_, _, held)| held.object == o && reads(held)) {
                lower(&mut after.tables, reader, label);
            }
        }
        Variant::RereadCounted => after.tally.count_made(old.mappers(o).count() as u64),
        _ => {}
    }
}

/// Mappings that outlive their handles: the next reading handle at the place is one, too.
fn bend_left_maps(variant: Variant, old: &Tables, after: &mut Monitor, call: Call) {
    let stays = matches!(
        (variant, call),
        (Variant::MapStaysAtClose, Call::Close { .. })
            | (Variant::MapStaysAtExec, Call::Exec { .. })
            | (Variant::MapStaysAtExit, Call::Exit { .. })
    );
    if stays {
        let gone = old.handles().filter(|&(s, p, held)| held.mapped && after.tables.handle(s, p).is_none());
        let gone: Vec<(u64, u64)> = gone.map(|(s, p, _)| (s, p)).collect();
        after.left_maps.extend(gone);
    }
    match call {
        Call::OpenRead { s, p, .. } if after.left_maps.contains(&(s, p)) => {
            set_mapped(&mut after.tables, s, p, true);
        }
        _ => {}
    }
}

/// What maps and mappings add to the tally.
pub fn bend_map_counts(variant: Variant, before: &Monitor, after: &mut Monitor, call: Call) {
    let old = &before.tables;
    let tally = &mut after.tally;
    let mapped = |s: u64| mapped_places(old, s).len() as u64;
    match (variant, call) {
        (Variant::MapNotCounted, Call::Map { .. }) => tally.made = before.tally.made,
        (Variant::MapCountedTwice, Call::Map { .. }) => tally.count_made(1),
        (Variant::CloseMapNotCounted, Call::Close { s, p }) if is_mapping(old, s, p) => {
            tally.gone = before.tally.gone;
        }
        (Variant::ExitMapsNotCounted, Call::Exit { s }) => tally.gone = tally.gone.wrapping_sub(mapped(s)),
        (Variant::ExecMapsNotCounted, Call::Exec { s, .. }) => {
            tally.gone = tally.gone.wrapping_sub(mapped(s));
        }
        (Variant::ExecCountsFiles, Call::Exec { s, .. }) => {
            let files = old.live_objects().filter(|&o| maps(old, s, o)).count() as u64;
            tally.gone = tally.gone.wrapping_sub(mapped(s)).wrapping_add(files);
        }
        _ => {}
    }
}

/// What a map, or a write to a mapped file, is answered with.
pub fn bend_mapped_answer(variant: Variant, before: &Monitor, call: Call, answer: Answer) -> Answer {
    let old = &before.tables;
    let subject_level = |s| old.subject(s).map_or(0, |subject| subject.level);
    let object_level = |o| old.object(o).map_or(0, |object| object.level);
    let mapper = |s, p| {
        let (o, _) = written_file(old, s, p)?;
        old.mappers(o).last()
    };
    match (variant, call, answer) {
        (Variant::MapAnswersFile, Call::Map { o, .. }, Answer::Allowed(_)) => {
            Answer::Allowed(object_level(o))
        }
        (Variant::MapAnswersOld, Call::Map { s, .. }, Answer::Lowered(_, lost)) => {
            Answer::Lowered(subject_level(s), lost)
        }
        (Variant::MapLoweredAsAllowed, Call::Map { .. }, Answer::Lowered(level, _)) => {
            Answer::Allowed(level)
        }
        (Variant::MapEqualAsLowered, Call::Map { o, .. }, Answer::Allowed(level))
            if level == object_level(o) =>
        {
            Answer::Lowered(level, 0)
        }
        (Variant::RereadAsLowered, Call::Write { s, p }, Answer::Allowed(level)) => {
            mapper(s, p).map_or(answer, |_| Answer::Lowered(level, 0))
        }
        (Variant::RereadAnswersMapper, Call::Write { s, p }, Answer::Allowed(_)) => {
            mapper(s, p).map_or(answer, |last| Answer::Allowed(subject_level(last)))
        }
        _ => answer,
    }
}

fn reads(handle: Handle) -> bool {
    handle.direction == Direction::Reading
}

fn is_mapping(tables: &Tables, s: u64, p: u64) -> bool {
    tables.handle(s, p).is_some_and(|handle| handle.mapped)
}

/// Whether the subject has the object mapped.
fn maps(tables: &Tables, s: u64, o: u64) -> bool {
    tables.mappers(o).any(|mapper| mapper == s)
}

fn mapped_places(tables: &Tables, s: u64) -> Vec<u64> {
    tables.handles_of(s).filter(|(_, handle)| handle.mapped).map(|(p, _)| p).collect()
}

/// The file that a write at this place is to, with its label.
fn written_file(tables: &Tables, s: u64, p: u64) -> Option<(u64, Label)> {
    let handle = tables.handle(s, p).filter(|&handle| !reads(handle))?;
    let file = tables.object(handle.object).filter(|object| object.kind == Kind::File)?;
    Some((handle.object, file.label()))
}

fn lower(tables: &mut Tables, s: u64, label: Label) {
    let lowered = tables.subject(s).map(|subject| Subject::new(subject.label().fallen_to(label)));
    tables.set_subject(s, lowered);
}

/// Makes a mapping of a handle, or a plain one.
fn set_mapped(tables: &mut Tables, s: u64, p: u64, mapped: bool) {
    tables.set_handle(s, p, tables.handle(s, p).map(|handle| Handle { mapped, ..handle }));
}

/// Makes mappings of those handles of a subject, and plain ones of the others.
fn set_mappings(tables: &mut Tables, s: u64, mapped: impl Fn(Handle) -> bool) {
    let handles: Vec<(u64, Handle)> = tables.handles_of(s).collect();
    for (p, handle) in handles {
        set_mapped(tables, s, p, mapped(handle));
    }
}

fn close_mappings(monitor: &mut Monitor, s: u64) {
    let places = mapped_places(&monitor.tables, s);
    close(monitor, s, &places);
}

/// Closes the mappings of a file by those subjects.
fn close_mappings_of(monitor: &mut Monitor, file: Option<u64>, by: impl Fn(u64) -> bool) {
    let mappings = monitor.tables.handles().filter(|&(s, _, held)| held.mapped && by(s));
    let mappings = mappings.filter(|(_, _, held)| Some(held.object) == file).map(|(s, p, _)| (s, p));
    for (s, p) in mappings.collect::<Vec<(u64, u64)>>() {
        monitor.remove_handle(s, p);
    }
}
