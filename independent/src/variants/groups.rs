//! Variants of what becomes of a group: who falls with whom, whom an exec and an exit end, and who is in it afterwards
//! (RULES C104, C113 to C117, T48, Y13).

use super::marks::close;
use super::threads::{bend_thread, note_floor};
use super::Variant;
use crate::calls::Call;
use crate::labels::Label;
use crate::monitor::{Answer, Monitor};
use crate::tables::{Handle, Kind, Subject, Tables};

/// What a call that is not refused does to groups.
pub fn bend_groups(variant: Variant, before: &Monitor, after: &mut Monitor, call: Call) {
    bend_thread(variant, before, after, call);
    bend_falls(variant, before, after, call);
    bend_rereads(variant, before, after, call);
    bend_fork(variant, before, after, call);
    bend_exec(variant, before, after, call);
    bend_mates_counts(variant, before, after, call);
    bend_exit(variant, before, after, call);
    bend_numbers_again(variant, before, after, call);
    note_floor(variant, before, after, call);
    if let Call::Thread { c, .. } = call {
        after.threads.push(c);
    }
    let tables = &after.tables;
    after.threads.retain(|&c| tables.subject(c).is_some());
}

/// What a refused exec does to the mates of its caller.
pub fn bend_mates_of_refused(variant: Variant, after: &mut Monitor, call: Call, number: u32) {
    let Call::Exec { s, .. } = call else {
        return;
    };
    let mates: Vec<u64> = after.tables.mates(s).collect();
    match (variant, number) {
        (Variant::RefusedExecEndsMates, 9) => mates.into_iter().for_each(|mate| after.end_subject(mate)),
        (Variant::UnfitExecEndsMates, 4 | 5) => mates.into_iter().for_each(|mate| after.end_subject(mate)),
        (Variant::RefusedExecClosesMates, 9) => mates.into_iter().for_each(|mate| close_all(after, mate)),
        (Variant::RefusedExecSplits, 9) => after.tables.leave_group(s),
        (Variant::RefusedExecCountsMates, 9) => after.tally.count_gone(held_by(&after.tables, &mates)),
        _ => {}
    }
}

/// The mates that do not fall with the one that reads or maps, or that take another level.
fn bend_falls(variant: Variant, before: &Monitor, after: &mut Monitor, call: Call) {
    let old = &before.tables;
    let (s, object) = match call {
        Call::Read { s, p } => (s, old.handle(s, p).map(|handle| handle.object)),
        Call::Map { s, o, .. } => (s, Some(o)),
        _ => return,
    };
    let is_first = |member: u64| !before.threads.contains(&member);
    let highest = old.members(s).max();
    let lowest = old.mates(s).min();
    for mate in old.mates(s) {
        let stays = match variant {
            Variant::FallsAlone => true,
            Variant::ReaderFallsAlone => matches!(call, Call::Read { .. }),
            Variant::MapperFallsAlone => matches!(call, Call::Map { .. }),
            Variant::HighestKeepsLevel => Some(mate) == highest,
            Variant::OneMateFalls => Some(mate) != lowest,
            Variant::HigherMatesFall => mate < s,
            Variant::FirstKeepsLevel => is_first(mate),
            Variant::FirstLowersAll => !is_first(s),
            Variant::HoldersFall => old.handles_of(mate).next().is_none(),
            _ => false,
        };
        if stays {
            after.tables.set_subject(mate, old.subject(mate));
        }
        match (variant, object.and_then(|o| old.object(o))) {
            (Variant::MatesTakeLevel, Some(object)) => {
                after.tables.set_subject(mate, Some(Subject::new(object.label())));
            }
            (Variant::FallEvens, _) => after.tables.set_subject(mate, after.tables.subject(s)),
            _ => {}
        }
    }
}

/// The mappers of a file that is written to, and the mates of these, that do not fall.
fn bend_rereads(variant: Variant, before: &Monitor, after: &mut Monitor, call: Call) {
    let old = &before.tables;
    let mappers = mappers_at(old, call);
    let has_lower = |s: u64| mappers.iter().any(|&mapper| mapper < s && old.are_mates(s, mapper));
    for s in old.live_subjects() {
        let is_mapper = mappers.contains(&s);
        let stays = match variant {
            Variant::RereadLowersNobody => {
                is_mapper || mappers.iter().any(|&mapper| old.are_mates(s, mapper))
            }
            Variant::RereadLowersMappers => !is_mapper,
            Variant::RereadLowersLowest => !is_mapper || has_lower(s),
            _ => false,
        };
        if stays && !mappers.is_empty() {
            after.tables.set_subject(s, old.subject(s));
        }
    }
}

/// Who has the file mapped that a call writes to.
fn mappers_at(tables: &Tables, call: Call) -> Vec<u64> {
    let Call::Write { s, p } = call else {
        return Vec::new();
    };
    let is_file = |o: &u64| tables.object(*o).is_some_and(|object| object.kind == Kind::File);
    let file = tables.handle(s, p).map(|handle| handle.object).filter(is_file);
    file.map_or_else(Vec::new, |o| tables.mappers(o).collect())
}

/// What a call is answered with by which members of different levels may fall.
pub fn bend_fall_answer(
    variant: Variant,
    before: &Monitor,
    after: &Monitor,
    call: Call,
    answer: Answer,
) -> Answer {
    let (old, new) = (&before.tables, &after.tables);
    let fell = |s: u64| old.subject(s) != new.subject(s);
    match (variant, call, answer) {
        (
            Variant::MateFallUnsaid,
            Call::Read { s, .. } | Call::Map { s, .. },
            Answer::Lowered(level, _),
        ) if !fell(s) => Answer::Allowed(level),
        (Variant::RereadOfMateUnsaid, Call::Write { .. }, Answer::Lowered(level, _)) => {
            let mappers = mappers_at(old, call);
            let is_said = mappers.is_empty() || mappers.into_iter().any(fell);
            if is_said {
                answer
            } else {
                Answer::Allowed(level)
            }
        }
        (Variant::ReadAnswersLowest, Call::Read { s, .. } | Call::Map { s, .. }, _) => {
            let lowest = new.members(s).filter_map(|t| new.subject(t)).map(|subject| subject.level).min();
            match (answer, lowest) {
                (Answer::Allowed(_), Some(lowest)) => Answer::Allowed(lowest),
                (Answer::Lowered(_, lost), Some(lowest)) => Answer::Lowered(lowest, lost),
                _ => answer,
            }
        }
        _ => answer,
    }
}

/// What a fork by a member makes.
fn bend_fork(variant: Variant, before: &Monitor, after: &mut Monitor, call: Call) {
    let Call::Fork { s, c } = call else {
        return;
    };
    match variant {
        Variant::ForkJoinsGroup => after.tables.join_groups(s, c),
        Variant::ForkLeavesGroup => after.tables.leave_group(s),
        Variant::ForkCopiesMates => {
            let handles = before.tables.mates(s).flat_map(|mate| before.tables.handles_of(mate));
            for (p, handle) in handles {
                if after.tables.handle(c, p).is_none() {
                    after.tables.set_handle(c, p, Some(handle));
                    after.tally.count_made(1);
                }
            }
        }
        _ => {}
    }
}

/// Whom an exec ends, and what goes with them.
fn bend_exec(variant: Variant, before: &Monitor, after: &mut Monitor, call: Call) {
    let Call::Exec { s, .. } = call else {
        return;
    };
    let old = &before.tables;
    let is_first = |member: u64| !before.threads.contains(&member);
    let lowest = old.mates(s).min();
    let fell = after.tables.subject(s) != old.subject(s);
    match variant {
        Variant::ExecKeepsMates => revive(before, after, s, |_| true),
        Variant::ExecKeepsOneMate => revive(before, after, s, |mate| Some(mate) == lowest),
        Variant::ExecKeepsFirst => revive(before, after, s, is_first),
        Variant::ExecKeepsHolders => revive(before, after, s, |mate| old.handles_of(mate).next().is_some()),
        Variant::ExecEqualKeepsMates if !fell => revive(before, after, s, |_| true),
        Variant::ExecByFirstEnds if !is_first(s) => revive(before, after, s, |_| true),
        Variant::ExecEmptiesMates => {
            revive(before, after, s, |_| true);
            old.mates(s).for_each(|mate| close_all(after, mate));
        }
        Variant::ExecKeepsMatesPipes => {
            let held = old.mates(s).flat_map(|mate| old.handles_of(mate)).map(|(_, handle)| handle.object);
            held.for_each(|o| after.tables.set_object(o, old.object(o)));
        }
        Variant::ExecEndsMatesPipes => end_mates_pipes(old, after, s),
        Variant::ExecEndsAllGroups => {
            let in_groups = old.live_subjects().filter(|&t| t != s && old.mates(t).next().is_some());
            in_groups.for_each(|t| after.end_subject(t));
        }
        _ => {}
    }
}

/// A pipe on which a mate had a handle ends, whoever else has one.
fn end_mates_pipes(old: &Tables, after: &mut Monitor, s: u64) {
    let is_pipe = |o: u64| old.object(o).is_some_and(|object| object.kind == Kind::Pipe);
    let held = old.mates(s).flat_map(|mate| old.handles_of(mate)).map(|(_, handle)| handle.object);
    held.filter(|&o| is_pipe(o)).for_each(|o| after.tables.set_object(o, None));
}

/// What an exec adds to the tally for the mates that it ends.
fn bend_mates_counts(variant: Variant, before: &Monitor, after: &mut Monitor, call: Call) {
    let Call::Exec { s, .. } = call else {
        return;
    };
    let old = &before.tables;
    let mates: Vec<u64> = old.mates(s).collect();
    let handles = || mates.iter().flat_map(|&mate| old.handles_of(mate)).map(|(_, handle)| handle);
    let counted = match variant {
        Variant::ExecMatesNotCounted => 0,
        Variant::ExecMatesCountedOnce => mates.len() as u64,
        Variant::ExecCountsMatesMarked => {
            handles().filter(|&handle| Handle::ends_at_exec(handle)).count() as u64
        }
        Variant::ExecCountsMatesUnmarked => {
            handles().filter(|&handle| !Handle::ends_at_exec(handle)).count() as u64
        }
        _ => return,
    };
    after.tally.gone = after.tally.gone.wrapping_sub(held_by(old, &mates)).wrapping_add(counted);
}

/// What the exit of a member does to its mates.
fn bend_exit(variant: Variant, before: &Monitor, after: &mut Monitor, call: Call) {
    let Call::Exit { s } = call else {
        return;
    };
    let old = &before.tables;
    let is_first = !before.threads.contains(&s);
    let is_lowest = old.members(s).min() == Some(s);
    let mates: Vec<u64> = old.mates(s).collect();
    let each = |after: &mut Monitor, change: fn(&mut Monitor, u64)| {
        mates.iter().for_each(|&mate| change(after, mate));
    };
    match variant {
        Variant::ExitEndsGroup => each(after, Monitor::end_subject),
        Variant::FirstExitEndsGroup if is_first => each(after, Monitor::end_subject),
        Variant::LowestExitEndsGroup if is_lowest => each(after, Monitor::end_subject),
        Variant::FirstExitLevel0 if is_first => {
            each(after, |after, mate| {
                let lowest = after.tables.subject(mate).map(|subject| Subject { level: 0, ..subject });
                after.tables.set_subject(mate, lowest);
            });
        }
        Variant::FirstExitSplits if is_first => each(after, |after, mate| after.tables.leave_group(mate)),
        Variant::LowestExitSplits if is_lowest => each(after, |after, mate| after.tables.leave_group(mate)),
        Variant::ExitClosesMates => each(after, close_all),
        Variant::ExitCountsGroup => after.tally.count_gone(held_by(old, &mates)),
        _ => {}
    }
}

/// Numbers that come back to the group in which they were.
fn bend_numbers_again(variant: Variant, before: &Monitor, after: &mut Monitor, call: Call) {
    let rejoins = matches!(
        (variant, call),
        (Variant::AdmitRejoins, Call::Admit { .. })
            | (Variant::ForkRejoins, Call::Fork { .. })
            | (Variant::ThreadRejoins, Call::Thread { .. })
    );
    if let Some(new) = call.new_subject() {
        let left = after.left_mates.iter().filter(|&&(gone, _)| rejoins && gone == new);
        for &(_, stayed) in left {
            after.tables.join_groups(new, stayed);
        }
        after.left_mates.retain(|&(gone, _)| gone != new);
    }
    let tables = &after.tables;
    let has_left = |&(s, mate): &(u64, u64)| tables.subject(s).is_none() && tables.subject(mate).is_some();
    after.left_mates.retain(|&(_, stayed)| tables.subject(stayed).is_some());
    after.left_mates.extend(before.tables.pairs_of_mates().filter(has_left));
}

/// Takes an exec's ending of such mates back: with their handles, the pipes that ended, and the count. They fall with
/// the caller.
fn revive(before: &Monitor, after: &mut Monitor, s: u64, which: impl Fn(u64) -> bool) {
    let old = &before.tables;
    let label = after.tables.subject(s).map_or(Label::LEAST, |subject| subject.label());
    for mate in old.mates(s).filter(|&mate| which(mate)) {
        let fallen = old.subject(mate).map(|subject| Subject::new(subject.label().fallen_to(label)));
        after.tables.set_subject(mate, fallen);
        after.tables.join_groups(s, mate);
        for (p, handle) in old.handles_of(mate) {
            after.tables.set_object(handle.object, old.object(handle.object));
            after.tables.set_handle(mate, p, Some(handle));
            after.tally.gone = after.tally.gone.wrapping_sub(1);
        }
    }
}

/// How many handles these subjects have.
fn held_by(tables: &Tables, subjects: &[u64]) -> u64 {
    subjects.iter().map(|&s| tables.handles_of(s).count() as u64).sum()
}

fn close_all(monitor: &mut Monitor, s: u64) {
    let places: Vec<u64> = monitor.tables.handles_of(s).map(|(p, _)| p).collect();
    close(monitor, s, &places);
}
