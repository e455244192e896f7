//! The journal as it grows: each record goes out before its answer is used, and the run never outgrows it. Its names go
//! out before the record from which on they hold, so that who follows the run has them.

use std::fs::{File, Metadata, OpenOptions};
use std::io::{self, Write};
use std::os::unix::fs::{FileExt, MetadataExt, OpenOptionsExt};
use std::path::{Path, PathBuf};

use gatekeeper::{Answer, Call, JOURNAL_BYTES};
use gk_trace::names::{Kind, Names};

use crate::proc::Key;
use crate::sys::{O_NOCTTY, O_NOFOLLOW};

/// Bytes that are kept for what cannot be refused once no new thing is let in: 32 steps and 64 pipes fall at most 23
/// times each, by a level or by a shop mark, 512 handles are closed, 32 steps exit; 5 bytes are more than each of these
/// records takes.
pub const RESERVE: usize = 5 * (96 * (15 + 8) + 512 + 32);

pub struct Journal {
    output: Option<(File, PathBuf)>,
    names_output: Option<(File, PathBuf)>,
    /// Why a name could not be written: the run goes on, and it is said at the end.
    names_fault: Option<String>,
    pub names: Names,
    length: usize,
    records: u64,
    replies: Option<String>,
}

impl Journal {
    /// No journal is written.
    pub fn none() -> Journal {
        let names = Names::default();
        Journal {
            output: None,
            names_output: None,
            names_fault: None,
            names,
            length: 0,
            records: 0,
            replies: None,
        }
    }

    /// A journal in this file, which is made or emptied; its names stand beside it.
    pub fn create(path: &Path) -> io::Result<Journal> {
        let names = gk_names::beside(path);
        if let Some(fault) = gk_names::files::no_names(&names) {
            return Err(io::Error::other(format!(
                "what stands where its names would is no names file ({fault})"
            )));
        }
        let output = Some((emptied(path)?, path.to_path_buf()));
        let mut journal =
            Journal { output, names_output: Some((emptied(&names)?, names)), ..Journal::none() };
        journal.note(&format!("{}\n", gk_names::FIRST_LINE));
        Ok(journal)
    }

    /// Keeps the answers, as the gatekeeper's program writes them.
    pub fn keep_replies(&mut self) {
        self.replies = Some(String::new());
    }

    /// The files themselves, which no step may write to.
    pub fn keys(&self) -> Vec<Key> {
        let files = [&self.output, &self.names_output];
        files.into_iter().flatten().filter_map(|(file, _)| file.metadata().ok()).map(key_of).collect()
    }

    pub fn records(&self) -> u64 {
        self.records
    }

    pub fn length(&self) -> usize {
        self.length
    }

    /// Whether there is room for this many more records of new things, beside what is kept back.
    pub fn has_room(&self, records: usize) -> bool {
        self.output.is_none() || self.length + 32 * records + RESERVE <= JOURNAL_BYTES
    }

    /// Writes a record. Where that fails, what is there ends with the last whole record.
    pub fn write(&mut self, call: Call) -> Result<(), String> {
        let mut record = Vec::new();
        call.write_record(&mut record);
        if let Some((file, path)) = &self.output {
            if self.length + record.len() > JOURNAL_BYTES {
                return Err(format!("{}: the journal is full", path.display()));
            }
            if let Err(error) = file.write_all_at(&record, self.length as u64) {
                let _ = file.set_len(self.length as u64);
                return Err(format!("cannot write {}: {error}", path.display()));
            }
        }
        self.length += record.len();
        self.records += 1;
        Ok(())
    }

    /// Keeps an answer to the record that was written last.
    pub fn answered(&mut self, call: Call, answer: Answer) {
        let outcome = match answer {
            Answer::Allowed(level) => format!("A {level}"),
            Answer::Lowered { level, lost } => format!("L {level} {lost}"),
            Answer::Refused(refusal) => format!("R {}", refusal.number()),
        };
        if let Some(replies) = &mut self.replies {
            replies.push_str(&format!("{} {} {outcome}\n", self.records, call.code()));
        }
    }

    /// The answers that were gone by.
    pub fn replies(&self) -> Option<&str> {
        self.replies.as_deref()
    }

    /// Gives shop groups the names that the levels file has for them.
    pub fn name_shops(&mut self, shops: &gk_names::Names) {
        for entry in shops.entries() {
            self.names.give_shop(entry.number, &entry.name);
            self.note(&gk_names::line(Kind::Shop, entry.number, 1, entry.name.as_str()));
        }
    }

    /// Gives a thing a name from the next record on.
    pub fn name(&mut self, kind: Kind, number: u64, text: &str) {
        if self.output.is_some() {
            let from = self.records + 1;
            let name = self.names.give_new(kind, number, from, text);
            self.note(&gk_names::line(kind, number, from, &name));
        }
    }

    /// Writes a line of the names.
    fn note(&mut self, line: &str) {
        let Some((file, path)) = &mut self.names_output else { return };
        if let Err(error) = file.write_all(line.as_bytes()) {
            self.names_fault.get_or_insert(format!("cannot write {}: {error}", path.display()));
        }
    }

    /// At the end: whether the journal is still where it was, and whether all names stand beside it.
    pub fn close(&self) -> Result<(), String> {
        for (file, path) in [&self.output, &self.names_output].into_iter().flatten() {
            let there = std::fs::metadata(path).ok().map(key_of);
            if there.is_none() || there != file.metadata().ok().map(key_of) {
                return Err(format!("{} is no longer of this run: somebody moved it", path.display()));
            }
        }
        self.names_fault.clone().map_or(Ok(()), Err)
    }
}

fn key_of(meta: Metadata) -> Key {
    (meta.dev(), meta.ino())
}

/// A file that is made or emptied, and that bytes stay in.
fn emptied(path: &Path) -> io::Result<File> {
    let flags = (O_NOFOLLOW | O_NOCTTY) as i32;
    let file = OpenOptions::new().write(true).create(true).truncate(true).custom_flags(flags).open(path)?;
    if !file.metadata()?.is_file() {
        return Err(io::Error::other("it is no file that records could stay in"));
    }
    Ok(file)
}

#[cfg(test)]
mod tests {
    use super::*;

    #[test]
    fn a_journal_is_what_is_replayed() {
        let path = std::env::temp_dir().join(format!("guard-journal-{}", std::process::id()));
        let mut journal = Journal::create(&path).unwrap();
        journal.keep_replies();
        let mut state = gatekeeper::State::new();
        let calls = [
            Call::Admit { subject: 0, level: 9, shops: 7 },
            Call::Register { object: 3, level: 9, shops: 1 },
            Call::OpenRead { subject: 0, object: 3, place: 0 },
            Call::Read { subject: 0, place: 0 },
        ];
        for call in calls {
            journal.write(call).unwrap();
            journal.answered(call, state.call(call));
        }
        let records = [4, 1, 0, 9, 7, 4, 2, 3, 9, 1, 4, 5, 0, 3, 0, 3, 7, 0, 0];
        assert_eq!(std::fs::read(&path).unwrap(), records);
        assert_eq!(journal.replies(), Some("1 1 A 9\n2 2 A 9\n3 5 A 9\n4 7 L 9 2\n"));
        assert!(gatekeeper::replay(&records).starts_with(journal.replies().unwrap()));
        assert!(journal.has_room(1));
        journal.length = JOURNAL_BYTES - RESERVE;
        assert!(!journal.has_room(1));
        // Names are there as they are given.
        journal.name(Kind::File, 3, "hours");
        let names = gk_names::beside(&path);
        assert_eq!(std::fs::read_to_string(&names).unwrap(), "names 1\nfile 3 5 hours\n");
        assert_eq!(std::fs::read_to_string(&names).unwrap(), journal.names.text());
        assert_eq!((journal.close(), journal.keys().len()), (Ok(()), 2));
        std::fs::remove_file(&names).unwrap();
        assert!(journal.close().is_err());
        std::fs::remove_file(&path).unwrap();
        assert!(journal.close().is_err());
    }

    #[test]
    fn a_full_disk_is_said() {
        let mut journal = Journal::none();
        let full = OpenOptions::new().write(true).open("/dev/full").unwrap();
        journal.output = Some((full, PathBuf::from("full")));
        assert!(journal.write(Call::Exit { subject: 0 }).unwrap_err().starts_with("cannot write full"));
    }
}
