//! Variants of what the freeze refuses, and of what it is said of: RULES R15, R117 and R118.

use super::Variant;
use crate::calls::Call;
use crate::tables::{Direction, Kind, Tables};

/// Whether 15 holds of a call, `offends_flow` being whether 9 does; none where the variant leaves that as it is, or
/// there is no freeze.
pub fn bend_frozen(variant: Variant, tables: &Tables, call: Call, offends_flow: bool) -> Option<bool> {
    let freeze = tables.frozen_from()?;
    let subject_level = |s| tables.subject(s).map(|subject| subject.level);
    let object_level = |o| tables.object(o).map(|object| object.level);
    let file_level = |o| tables.object(o).filter(|object| object.kind == Kind::File).map(|file| file.level);
    match (variant, call) {
        (Variant::FreezeIgnored, _) => Some(false),
        (Variant::FreezeAboveOnly, Call::OpenWrite { o, .. }) => file_level(o).map(|level| level > freeze),
        (Variant::FreezeBelow, Call::OpenWrite { o, .. }) => file_level(o).map(|level| level < freeze),
        (Variant::FreezeBySubject, Call::OpenWrite { s, o, .. }) => {
            file_level(o).and(subject_level(s)).map(|level| level >= freeze)
        }
        (Variant::Freeze0AsNone, _) if freeze == 0 => Some(false),
        (Variant::Freeze15AsNone, _) if freeze == 15 => Some(false),
        (Variant::FreezePipes, Call::OpenWrite { o, .. }) => object_level(o).map(|level| level >= freeze),
        (Variant::FreezeReads, Call::OpenRead { o, .. }) => Some(tables.is_frozen(o)),
        (Variant::FreezeCutsOff, Call::Write { s, p }) => {
            tables.handle(s, p).map(|handle| tables.is_frozen(handle.object))
        }
        (Variant::FreezeForks, Call::Fork { s, .. }) => Some(writes_to_frozen(tables, s)),
        (Variant::FreezeThreads, Call::Thread { s, .. }) => subject_level(s).map(|level| level >= freeze),
        (Variant::FreezeCreates, Call::Create { s, .. }) => subject_level(s).map(|level| level >= freeze),
        (Variant::FreezeRegisters, Call::Register { level, .. }) => Some(level >= freeze),
        (Variant::FreezeExecs, Call::Exec { o, .. }) => Some(tables.is_frozen(o)),
        (Variant::FreezeMaps, Call::Map { o, .. }) => Some(tables.is_frozen(o)),
        (Variant::FreezeRetires, Call::Retire { o }) => Some(tables.is_frozen(o)),
        (Variant::Reads15, Call::OpenRead { o, .. }) => Some(offends_flow && tables.is_frozen(o)),
        (Variant::Maps15, Call::Map { o, .. }) => Some(offends_flow && tables.is_frozen(o)),
        (Variant::Execs15, Call::Exec { o, .. }) => Some(offends_flow && tables.is_frozen(o)),
        (Variant::Pipes15, Call::OpenWrite { o, .. }) if file_level(o).is_none() => {
            object_level(o).map(|level| offends_flow && level >= freeze)
        }
        (Variant::Lower15, Call::OpenWrite { o, .. }) => {
            file_level(o).map(|level| offends_flow || level >= freeze)
        }
        (Variant::Connects15, Call::Connect { .. }) => Some(offends_flow),
        (Variant::FreezeWithFlow, Call::OpenWrite { o, .. }) => Some(offends_flow && tables.is_frozen(o)),
        _ => None,
    }
}

/// Whether the subject has a frozen file open for writing.
fn writes_to_frozen(tables: &Tables, s: u64) -> bool {
    tables
        .handles_of(s)
        .any(|(_, handle)| handle.direction == Direction::Writing && tables.is_frozen(handle.object))
}
