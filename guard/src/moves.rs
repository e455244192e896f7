//! Names that move: rename and link where the label stays; and truncate, which is an open for writing.

use std::fs::File;
use std::os::fd::AsFd;

use crate::calls::{EACCES, EINVAL, EISDIR, EXDEV, LINK, RENAME, RENAMEAT2};
use crate::files::Standing;
use crate::guard::Guard;
use crate::open::Target;
use crate::paths::{Named, Seen};
use crate::sys::{self, Errno, Tid, AT_FDCWD, O_NOFOLLOW, O_WRONLY};

/// Of rename: only where the new name is free.
const NO_REPLACE: u64 = 1;
/// Of link: the file behind a link.
const FOLLOW: u64 = 0x400;

impl Guard {
    fn named(&self, tid: Tid, folder: i32, at: u64) -> Result<Named, Errno> {
        let process = self.tasks.get(&tid).map_or(tid, |task| task.process);
        Named::read(tid, process, folder, at, 0, &self.processes())
    }

    /// A file goes to another name of the same label. To one of another label it does not: EXDEV, so that programs copy
    /// it, which is seen. A folder neither: what is in it would change its label with its path.
    pub fn renames(&mut self, tid: Tid, call: u32, arguments: &[u64; 6]) -> Result<(), Errno> {
        let [a, b, c, d, e, _] = *arguments;
        let (old, new, flags) = match call {
            RENAME => (self.named(tid, AT_FDCWD, a)?, self.named(tid, AT_FDCWD, b)?, 0),
            _ => {
                let flags = if call == RENAMEAT2 { e as u32 as u64 } else { 0 };
                (self.named(tid, a as i32, b)?, self.named(tid, c as i32, d)?, flags)
            }
        };
        if flags & !NO_REPLACE != 0 {
            return Err(Errno(EINVAL));
        }
        let (from, to) = (old.spot()?, new.spot()?);
        let seen = from.find()?;
        if seen.meta.is_dir() {
            return Err(Errno(EXDEV));
        }
        self.may_move(tid, &seen, &from.path, &to.path)?;
        if let Ok(there) = to.find() {
            self.may_replace(&there)?;
        }
        sys::rename(from.folder.as_fd(), &from.name, to.folder.as_fd(), &to.name, flags as u32)
    }

    /// Another name for a file, of the same label.
    pub fn links(&mut self, tid: Tid, call: u32, arguments: &[u64; 6]) -> Result<(), Errno> {
        let [a, b, c, d, e, _] = *arguments;
        let (old, new, flags) = match call {
            LINK => (self.named(tid, AT_FDCWD, a)?, self.named(tid, AT_FDCWD, b)?, 0),
            _ => (self.named(tid, a as i32, b)?, self.named(tid, c as i32, d)?, e),
        };
        if flags & !FOLLOW != 0 {
            return Err(Errno(EINVAL));
        }
        let seen = old.find(if flags & FOLLOW == 0 { O_NOFOLLOW } else { 0 })?;
        let to = new.spot()?;
        if !seen.meta.is_file() {
            return Err(Errno(EXDEV));
        }
        self.may_move(tid, &seen, &seen.path.clone(), &to.path)?;
        sys::link(&seen.own_path()?, to.folder.as_fd(), &to.name)
    }

    /// Whether a file may have another name. Where a copy of it would be refused, it is said here: programs that copy
    /// it after EXDEV would remove what has the new name first.
    fn may_move(&mut self, tid: Tid, seen: &Seen, from: &[u8], to: &[u8]) -> Result<(), Errno> {
        self.may_replace(seen)?;
        let (old, new) = (self.files.at(from, seen.key()), self.files.at(to, seen.key()));
        if !seen.meta.is_file() || old == new {
            return Ok(());
        }
        let step = self.must_step(tid);
        let own = self.told.label(step);
        match (old, new) {
            (Standing::At(old), Standing::At(new)) if !old.fallen_to(own).at_least(new) && !self.is_dry => {
                let told = &self.told;
                let (who, from, to) = (self.who(tid), told.short(from), told.short(to));
                let names =
                    format!("{from} ({}) the name {to} ({})", told.label_words(old), told.label_words(new));
                let why = match old.at_least(new) {
                    false => told.insufficient((old, &from), (new, &to)),
                    true => told.insufficient((own, told.program(step)), (new, &to)),
                };
                self.say_once(format!("refused: {who} may not give {names}; {why}"));
                Err(Errno(EACCES))
            }
            _ => Err(Errno(EXDEV)),
        }
    }

    fn may_replace(&self, seen: &Seen) -> Result<(), Errno> {
        if self.files.journal.contains(&seen.key()) {
            Err(Errno(EACCES))
        } else {
            Ok(())
        }
    }

    /// To cut a file is to write it.
    pub fn truncates(&mut self, tid: Tid, step: u64, arguments: &[u64; 6]) -> Result<(), Errno> {
        let [at, length, ..] = *arguments;
        let seen = self.named(tid, AT_FDCWD, at)?.find(0)?;
        if seen.meta.is_dir() {
            return Err(Errno(EISDIR));
        }
        if !seen.meta.is_file() || i64::try_from(length).is_err() {
            return Err(Errno(EINVAL));
        }
        let is_proc = seen.is_on(&self.proc_devices);
        match self.files.standing(&seen.path, &seen.meta, is_proc, true) {
            Standing::No(why) => {
                let (program, path) = (self.told.program(step).to_string(), self.told.short(&seen.path));
                self.say_once(format!("refused: {program} may not cut {path}: {why}"));
                return Err(Errno(EACCES));
            }
            Standing::Absent | Standing::Harmless => {}
            Standing::Out => self.files.left_out += 1,
            Standing::At(label) => {
                let target = Target::There { key: seen.key(), label };
                self.ask(tid, step, &target, &seen.path, false, true)?;
            }
        }
        // The handle that was opened for it is closed when tables are put right.
        Ok(File::from(seen.open(O_WRONLY)?).set_len(length)?)
    }
}
