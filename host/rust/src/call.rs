//! The eighteen calls.

use crate::journal;
use crate::label::Label;

/// The freeze that freezes no file: it is above every level.
pub const NO_FREEZE: u64 = 16;

/// A call with its numbers. Any number may be given; one that does not fit is refused.
///
/// A subject is a running step, 0 to 31; an object a file or a pipe, of any number, and 64 of them may be live at a
/// time; a place holds one handle of a subject, 0 to 15; a level is 0, the lowest, to 15. `shops` is a set of shop marks,
/// 0 to 255, for those of eight shop groups that are vouched for: bit i is the mark of group i. Level and set are the
/// [`Label`] of a thing. To fall to a label is to take the smaller level and the common set.
#[non_exhaustive]
#[derive(Clone, Copy, Debug, PartialEq, Eq, Hash)]
pub enum Call {
    /// A new subject from outside, without handles.
    Admit { subject: u64, level: u64, shops: u64 },
    /// A new file from outside. Its label never changes.
    Register { object: u64, level: u64, shops: u64 },
    /// A new empty file with the subject's label, without a handle.
    Create { subject: u64, object: u64 },
    /// A new pipe with the subject's label, with a handle to read it and one to write it.
    Pipe { subject: u64, object: u64, reads: u64, writes: u64 },
    /// A reading handle. No label falls.
    OpenRead { subject: u64, object: u64, place: u64 },
    /// A writing handle. No label falls.
    OpenWrite { subject: u64, object: u64, place: u64 },
    /// The subject falls to the object's label.
    Read { subject: u64, place: u64 },
    /// A pipe falls to the subject's label; a file keeps its own, and each subject that has it mapped ([`Call::Map`])
    /// reads it once, the lowest number first.
    Write { subject: u64, place: u64 },
    /// A new subject with the label of the first, and its handles, marks and mappings at the same places.
    Fork { subject: u64, child: u64 },
    /// A file is run; the subject falls to its label. The flow rule is asked as if it did not have its
    /// marked handles and its mappings, and if the call is not refused they are closed; it keeps the others. Its mates
    /// ([`Call::Thread`]) end as by an exit before that: neither they nor their handles count for the flow rule. A refused
    /// exec closes nothing, and ends nobody.
    Exec { subject: u64, object: u64 },
    /// The place is empty.
    Close { subject: u64, place: u64 },
    /// All handles of the subject are closed, and its number is free.
    Exit { subject: u64 },
    /// The file is gone, and its number is free.
    Retire { object: u64 },
    /// The file is mapped into the subject's memory. The handle is a *mapping*, which reads; it is refused where an open
    /// for reading with the same numbers would be, and on a pipe. No call to read follows, so the map itself is a read:
    /// the subject falls to the file's label, and the answer has the subject's level. The memory shows what is written to
    /// the file later, so each write to it is followed by a read by the subject; the host does nothing for that, and on a
    /// monitor that started empty no subject falls there. A close or an exec ends the mapping; at an exec it goes with the
    /// memory that it is in. In all else a mapping is a reading handle.
    Map { subject: u64, object: u64, place: u64 },
    /// The handle is marked: it ends when the subject runs a program ([`Call::Exec`]), and the host that carries that
    /// out closes it, too. A new handle is not marked, and no call takes a mark off. This is no shop mark.
    Mark { subject: u64, place: u64 },
    /// From now on, for all subjects, no file at or above the level is opened for writing, whatever its shop marks; with
    /// [`NO_FREEZE`], which lifts the freeze, any may be. Handles that are held, pipes, channels, opens for reading and
    /// maps go on as without it.
    Freeze { level: u64 },
    /// A *channel* between two subjects, as a local socket is one: two new pipes with four handles, or nothing. The
    /// pipe `to` goes from the subject to its peer and has the subject's label; the pipe `from` comes from the peer and
    /// has the peer's label. Each of the two reads at its place `reading` what the other writes at its place `writing`.
    /// The flow rule is asked once, of both directions together. No label falls; the answer has the subject's level. From
    /// then on these are pipes and handles like any other: each handle is marked, copied by a fork and closed by
    /// itself, and each pipe ends with its last handle. Where a step closes a socket that is its end of a channel, the
    /// host closes both places.
    Connect { subject: u64, peer: u64, to: u64, from: u64, reading: u64, writing: u64 },
    /// A new subject that shares the memory of the first, as a *thread* of one step with it: a member of its *group*, at
    /// its label and without handles. The members of a group have one label and one need, and data flows among them
    /// freely: what one of them reads, maps or runs lowers all of them. A handle is one member's own: where threads share
    /// their descriptors, the host says of each which member holds it, and reads and writes as that one. A fork's child is
    /// in a group by itself. An exit ends one member, and its mates stay; an exec that is not refused ends the mates of
    /// the one that makes it, so that what the program is to keep, that one holds.
    Thread { subject: u64, member: u64 },
}

impl Call {
    /// A new subject from outside with this label.
    pub fn admit(subject: u64, label: Label) -> Call {
        Call::Admit { subject, level: label.level.into(), shops: label.shops.into() }
    }

    /// A new file from outside with this label.
    pub fn register(object: u64, label: Label) -> Call {
        Call::Register { object, level: label.level.into(), shops: label.shops.into() }
    }

    /// The call's code, one of 1 to 18.
    pub fn code(self) -> u64 {
        match self {
            Call::Admit { .. } => 1,
            Call::Register { .. } => 2,
            Call::Create { .. } => 3,
            Call::Pipe { .. } => 4,
            Call::OpenRead { .. } => 5,
            Call::OpenWrite { .. } => 6,
            Call::Read { .. } => 7,
            Call::Write { .. } => 8,
            Call::Fork { .. } => 9,
            Call::Exec { .. } => 10,
            Call::Close { .. } => 11,
            Call::Exit { .. } => 12,
            Call::Retire { .. } => 13,
            Call::Map { .. } => 14,
            Call::Mark { .. } => 15,
            Call::Freeze { .. } => 16,
            Call::Connect { .. } => 17,
            Call::Thread { .. } => 18,
        }
    }

    /// The call's numbers in the order of the journal, then 0 for those that it does not use.
    pub fn numbers(self) -> [u64; 6] {
        match self {
            Call::Admit { subject, level, shops } => [subject, level, shops, 0, 0, 0],
            Call::Register { object, level, shops } => [object, level, shops, 0, 0, 0],
            Call::Create { subject, object } => [subject, object, 0, 0, 0, 0],
            Call::Pipe { subject, object, reads, writes } => [subject, object, reads, writes, 0, 0],
            Call::OpenRead { subject, object, place } => [subject, object, place, 0, 0, 0],
            Call::OpenWrite { subject, object, place } => [subject, object, place, 0, 0, 0],
            Call::Read { subject, place } => [subject, place, 0, 0, 0, 0],
            Call::Write { subject, place } => [subject, place, 0, 0, 0, 0],
            Call::Fork { subject, child } => [subject, child, 0, 0, 0, 0],
            Call::Exec { subject, object } => [subject, object, 0, 0, 0, 0],
            Call::Close { subject, place } => [subject, place, 0, 0, 0, 0],
            Call::Exit { subject } => [subject, 0, 0, 0, 0, 0],
            Call::Retire { object } => [object, 0, 0, 0, 0, 0],
            Call::Map { subject, object, place } => [subject, object, place, 0, 0, 0],
            Call::Mark { subject, place } => [subject, place, 0, 0, 0, 0],
            Call::Freeze { level } => [level, 0, 0, 0, 0, 0],
            Call::Connect { subject, peer, to, from, reading, writing } => {
                [subject, peer, to, from, reading, writing]
            }
            Call::Thread { subject, member } => [subject, member, 0, 0, 0, 0],
        }
    }

    /// Writes the call's record at the end of a journal.
    pub fn write_record(self, journal: &mut Vec<u8>) {
        let end = journal.len();
        journal.resize(end + journal::RECORD_ROOM, 0);
        let written = journal::write_record(&mut journal[end..], self.code(), self.numbers());
        // The code is known and there is room for every record.
        journal.truncate(end + written.unwrap_or(0));
    }
}
