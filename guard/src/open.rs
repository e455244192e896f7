//! Opens: the guard asks the gatekeeper, opens the very file that it asked about, and gives it to the step.

use std::os::fd::{AsFd, AsRawFd, OwnedFd};
use std::os::unix::fs::{FileTypeExt, MetadataExt};

use gatekeeper::{Call, Label};
use gk_trace::{Level, TOP};

use crate::calls::{
    CREAT, EACCES, EEXIST, EINVAL, EISDIR, ELOOP, EMFILE, ENFILE, ENOENT, ENOSPC, ENXIO, EOPNOTSUPP, OPEN,
    OPENAT2,
};
use crate::files::Standing;
use crate::guard::Guard;
use crate::paths::{refuse_magic, Named, Seen};
use crate::proc::{umask_of, Key};
use crate::sys::{
    self, Errno, Tid, AT_FDCWD, O_CLOEXEC, O_CREAT, O_DIRECTORY, O_EXCL, O_KNOWN, O_NOCTTY, O_NOFOLLOW,
    O_NONBLOCK, O_PATH, O_TMPFILE, O_TRUNC, O_WRONLY,
};

/// What a step wants to open.
struct Wish {
    named: Named,
    flags: u64,
    mode: u64,
}

impl Wish {
    fn reads(&self) -> bool {
        self.flags & 3 != 1
    }

    /// To empty a file is to write it.
    fn writes(&self) -> bool {
        self.flags & 3 != 0 || self.flags & O_TRUNC != 0
    }
}

/// The file that an open is about, for the gatekeeper.
pub enum Target {
    There {
        key: Key,
        label: Label,
    },
    /// Not made yet: its label, or none for that of the step that makes it.
    New {
        label: Option<Label>,
    },
    /// A pipe, or a stream that the run was started with.
    Known(u64),
}

impl Guard {
    /// Opens a file in a step's place. With it, the flags that the step's descriptor is to have.
    pub fn opens(
        &mut self,
        tid: Tid,
        step: u64,
        call: u32,
        arguments: &[u64; 6],
    ) -> Result<(OwnedFd, u64), Errno> {
        let wish = self.wish(tid, call, arguments)?;
        if wish.flags & O_TMPFILE != 0 {
            return Err(Errno(EOPNOTSUPP)); // programs make a file with a name then
        }
        for _ in 0..8 {
            match wish.named.find(wish.flags) {
                Ok(seen) => return Ok((self.open_seen(tid, step, seen, &wish)?, wish.flags)),
                Err(Errno(ENOENT)) if wish.flags & O_CREAT != 0 && wish.flags & O_PATH == 0 => {
                    if let Some(file) = self.open_new(tid, step, &wish)? {
                        return Ok((file, wish.flags));
                    }
                }
                Err(error) => return Err(refuse_magic(error, &wish.named)),
            }
        }
        Err(Errno(ELOOP))
    }

    fn wish(&self, tid: Tid, call: u32, arguments: &[u64; 6]) -> Result<Wish, Errno> {
        let [a, b, c, d, ..] = *arguments;
        let (folder, at, flags, mode, resolve) = match call {
            OPEN => (AT_FDCWD, a, b & O_KNOWN, c, 0),
            CREAT => (AT_FDCWD, a, O_WRONLY | O_CREAT | O_TRUNC, b, 0),
            OPENAT2 => {
                let mut how = [0u8; 24];
                if d != 24 || sys::memory(tid, c, &mut how) != 24 {
                    return Err(Errno(EINVAL));
                }
                let word = |at: usize| u64::from_le_bytes(how[at..at + 8].try_into().unwrap_or_default());
                if word(0) & !O_KNOWN != 0 {
                    return Err(Errno(EINVAL));
                }
                (a as i32, b, word(0), word(8), word(16))
            }
            _ => (a as i32, b, c & O_KNOWN, d, 0),
        };
        let process = self.tasks.get(&tid).map_or(tid, |task| task.process);
        let named = Named::read(tid, process, folder, at, resolve, &self.processes())?;
        Ok(Wish { named, flags, mode: mode & 0o7777 })
    }

    fn open_seen(&mut self, tid: Tid, step: u64, seen: Seen, wish: &Wish) -> Result<OwnedFd, Errno> {
        let kind = seen.meta.file_type();
        let flags = wish.flags & !(O_CREAT | O_EXCL | O_NOFOLLOW | O_CLOEXEC) | O_NOCTTY;
        if wish.flags & O_PATH != 0 {
            return Ok(seen.file.into()); // it neither reads nor writes
        }
        if wish.flags & O_CREAT != 0 && wish.flags & O_EXCL != 0 {
            return Err(Errno(EEXIST));
        }
        if kind.is_symlink() {
            return Err(Errno(ELOOP));
        }
        if kind.is_dir() {
            let is_made = wish.flags & O_CREAT != 0;
            return if is_made { Err(Errno(EISDIR)) } else { seen.open(flags) };
        }
        if kind.is_fifo() {
            return self.open_pipe(tid, step, &seen, wish, flags);
        }
        let is_proc = seen.is_on(&self.proc_devices);
        match self.files.standing(&seen.path, &seen.meta, is_proc, wish.writes()) {
            Standing::No(why) => {
                let (program, path) = (self.told.program(step).to_string(), self.told.short(&seen.path));
                self.say_once(format!("refused: {program} may not open {path}: {why}"));
                return Err(Errno(EACCES));
            }
            Standing::Absent => return Err(Errno(ENXIO)),
            Standing::Harmless => {}
            Standing::Out => self.files.left_out += 1,
            Standing::At(label) => {
                let target = Target::There { key: seen.key(), label };
                self.ask(tid, step, &target, &seen.path, wish.reads(), wish.writes())?;
            }
        }
        if kind.is_char_device() {
            return unwaiting(&seen, flags);
        }
        seen.open(flags)
    }

    /// A pipe by /proc is an open of that pipe. A named one is not followed.
    fn open_pipe(
        &mut self,
        tid: Tid,
        step: u64,
        seen: &Seen,
        wish: &Wish,
        flags: u64,
    ) -> Result<OwnedFd, Errno> {
        let is_outside = self.files.outside.contains(&seen.key());
        match self.told.number(seen.key()) {
            Some(object) => {
                let target = Target::Known(object);
                self.ask(tid, step, &target, &seen.path, wish.reads(), wish.writes())?;
            }
            None if is_outside && !wish.reads() => {}
            None => {
                let (program, path) = (self.told.program(step).to_string(), self.told.short(&seen.path));
                let why = "named pipes, and pipes from outside, are not followed";
                self.say_once(format!("refused: {program} may not open {path}: {why}"));
                return Err(Errno(EACCES));
            }
        }
        unwaiting(seen, flags)
    }

    /// A new file: its folder is held, and it is made only if it is not there. None where it is there by now.
    fn open_new(&mut self, tid: Tid, step: u64, wish: &Wish) -> Result<Option<OwnedFd>, Errno> {
        let spot = wish.named.spot_of_new()?;
        // None where the levels file leaves it out; that of the step that makes it where it says so.
        let label = match self.files.at_new(&spot.path) {
            Level::At(label) => Some(Some(label)),
            Level::Step => Some(None),
            Level::Out => None,
        };
        let object = match label {
            Some(label) => {
                let target = Target::New { label };
                self.ask(tid, step, &target, &spot.path, wish.reads(), wish.writes())?
            }
            None => {
                self.files.left_out += 1;
                None
            }
        };
        let own_mask = sys::set_umask(umask_of(tid).unwrap_or(0o77));
        let flags = wish.flags & !O_DIRECTORY | O_EXCL | O_NOFOLLOW | O_NOCTTY;
        let made = sys::open(spot.folder.as_raw_fd(), &spot.name, flags, wish.mode, 0);
        sys::set_umask(own_mask);
        let file = match made {
            Ok(file) => file,
            Err(Errno(EEXIST)) if wish.flags & O_EXCL == 0 => return Ok(None),
            Err(error) => return Err(error),
        };
        let meta = std::fs::File::from(file.try_clone()?).metadata()?;
        let key = (meta.dev(), meta.ino());
        match label {
            None => self.files.forget(key),
            Some(Some(label)) => self.files.was_made(key, label, false),
            Some(None) => self.files.was_made(key, self.told.label(step), true),
        }
        if let Some(object) = object {
            self.told.seat(object, key);
        }
        Ok(Some(file))
    }

    /// Asks the gatekeeper for an open. It is asked of a copy first; where that refuses, or a number or place is lacking,
    /// the tables are made exact, and it is asked for real. The number of the file, where it has one.
    pub fn ask(
        &mut self,
        tid: Tid,
        step: u64,
        target: &Target,
        path: &[u8],
        reads: bool,
        writes: bool,
    ) -> Result<Option<u64>, Errno> {
        // A file of the top that is only read is harmless: that is proved (docs/TRACE.md).
        if let (Target::There { label: TOP, .. } | Target::New { label: Some(TOP) }, false) =
            (target, writes)
        {
            return Ok(None);
        }
        let limit = |guard: &mut Guard, error, what: &str| {
            let program = guard.told.program(step).to_string();
            guard.say_once(format!("refused: {program} may not open {}: {what}", guard.told.short(path)));
            Err(Errno(error))
        };
        if !self.told.journal.has_room(4) {
            return limit(self, ENOSPC, "the journal has no room for it (65,536 bytes)");
        }
        let mut object = self.number_for(step, target, path);
        let is_sure = |guard: &Guard, object: Option<u64>| {
            object.is_some_and(|object| guard.told.would_open(step, object, reads, writes))
        };
        if !is_sure(self, object) {
            self.put_right(tid);
            if object.is_none() || !matches!(target, Target::New { .. }) {
                object = self.number_for(step, target, path);
            }
        }
        let Some(object) = object else {
            return limit(self, ENFILE, "it would be the 65th file or pipe that is open at once");
        };
        if !self.told.has_places(step, self.told.adds(step, object, reads, writes)) {
            return limit(self, EMFILE, "it would be the 17th handle of one step");
        }
        let opened = self.told.open(step, object, reads, writes);
        self.settle(tid);
        match opened {
            Ok(()) => Ok(Some(object)),
            Err(call) => {
                self.say_refused(tid, call, path);
                if self.is_dry {
                    Ok(None)
                } else {
                    Err(Errno(EACCES))
                }
            }
        }
    }

    fn number_for(&mut self, step: u64, target: &Target, path: &[u8]) -> Option<u64> {
        match *target {
            Target::There { key, label } => self.told.file(key, label, path),
            Target::New { label } => self.told.new_file(step, label, path),
            Target::Known(object) => Some(object),
        }
    }

    /// One line for a refusal: how data could get to a file, and what is insufficient.
    pub fn say_refused(&mut self, tid: Tid, call: Call, path: &[u8]) {
        let what = match call {
            Call::OpenRead { .. } => "open for reading",
            Call::OpenWrite { .. } => "open for writing",
            _ => "run",
        };
        let word = if self.is_dry { "would be refused" } else { "refused" };
        let (who, how) = (self.who(tid), self.told.how(call));
        let path = self.told.short(path);
        self.say_once(format!("{word}: {who} may not {what} {path}: {how}"));
    }
}

/// Opens without waiting for anybody, which the guard must not; the step's descriptor waits as it wants.
fn unwaiting(seen: &Seen, flags: u64) -> Result<OwnedFd, Errno> {
    let file = seen.open(flags | O_NONBLOCK)?;
    if flags & O_NONBLOCK == 0 {
        sys::make_blocking(file.as_fd(), flags)?;
    }
    Ok(file)
}
