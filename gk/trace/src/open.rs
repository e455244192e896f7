//! Opens: open, openat, openat2, creat, memfd_create, and pipes and pairs of sockets.

use gatekeeper::{Call, Way};

use crate::call::{fd, field, has_flag, noted_path, pair, string, Outcome, Sys};
use crate::levels::{Level, TOP};
use crate::paths::{Key, START};
use crate::report::{Left, Note};
use crate::text::shown;
use crate::world::{Descriptor, Done, End, World};

impl World<'_> {
    /// open, openat, openat2 and creat that have come out well.
    pub fn opens(&mut self, step: u64, call: &Sys, number: i32, result: &str) -> Done {
        let (folder, path, flags) = match call.name {
            "open" => ("AT_FDCWD", call.arg(0), call.arg(1)),
            "creat" => ("AT_FDCWD", call.arg(0), "O_WRONLY|O_CREAT|O_TRUNC"),
            "openat2" => (call.arg(0), call.arg(1), field(call.arg(2), "flags").unwrap_or("")),
            _ => (call.arg(0), call.arg(1), call.arg(2)),
        };
        if flags.is_empty() {
            return self.stop("the flags of the open are not in the trace".to_string());
        }
        let named = self.named(step, folder, path)?;
        let descriptor = match self.own_descriptor(step, &named)? {
            Some(own) => self.open_again(step, &own, flags)?,
            None => {
                // The path that strace -y writes is the real one.
                let real = noted_path(fd(result).and_then(|fd| fd.note)).map(|path| self.paths.key(&path));
                self.open_key(step, real.unwrap_or(named), flags)?
            }
        };
        self.put(step, number, descriptor)?;
        if has_flag(flags, "O_CLOEXEC") {
            self.end_at_exec(step, number)?;
        }
        Ok(())
    }

    /// The key of a path argument that is named from a folder argument.
    pub fn named(&mut self, step: u64, folder: &str, path: &str) -> Done<Key> {
        let Some(path) = string(path) else {
            return self.stop("the path of the call is not in the trace".to_string());
        };
        if path.starts_with(b"/") {
            self.learn_folder(step, folder)?;
            return Ok(self.paths.resolve(b"/", &path));
        }
        if folder.starts_with("AT_FDCWD") {
            self.learn_folder(step, folder)?;
            let folder = self.step(step)?.folder.clone();
            return Ok(self.paths.resolve(&folder, &path));
        }
        let found = fd(folder);
        let noted = found.and_then(|fd| noted_path(fd.note));
        let known = found.and_then(|fd| self.step(step).ok()?.table.get(&fd.number)?.path.clone());
        match noted.or(known) {
            Some(folder) => Ok(self.paths.resolve(&folder, &path)),
            None => self.stop(
                "the folder that the path starts in is not in the trace: trace with strace -y".to_string(),
            ),
        }
    }

    /// Learns from AT_FDCWD</folder>, as strace -y writes it, where the run was started.
    fn learn_folder(&mut self, step: u64, folder: &str) -> Done {
        let Some(note) = folder.strip_prefix("AT_FDCWD<").and_then(|note| note.strip_suffix('>')) else {
            return Ok(());
        };
        match noted_path(Some(note)) {
            Some(folder) => self.is_in(step, &folder),
            None => Ok(()),
        }
    }

    /// Says that a step is in this folder.
    pub fn is_in(&mut self, step: u64, folder: &[u8]) -> Done {
        if self.paths.start().is_none() && self.step(step)?.folder == START {
            self.paths.set_start(folder);
            if let Err(key) = self.files.rekey(&self.paths) {
                let key = shown(&key);
                return self.stop(format!(
                    "\"{key}\" has come under two paths before the trace says which folder the run was started in. \
                     Give it with --folder"
                ));
            }
            for step in self.by_age() {
                let folder = self.paths.key(&self.step(step)?.folder);
                self.step_mut(step)?.folder = folder;
            }
        }
        let key = self.paths.key(folder);
        self.step_mut(step)?.folder = key;
        Ok(())
    }

    /// The descriptor that a path as /dev/fd/63 or /dev/stdin stands for.
    pub fn own_descriptor(&self, step: u64, key: &[u8]) -> Done<Option<Descriptor>> {
        let fronts: [&[u8]; 3] = [b"/dev/fd/", b"/proc/self/fd/", b"/proc/thread-self/fd/"];
        let number = match key {
            b"/dev/stdin" => Some(0),
            b"/dev/stdout" => Some(1),
            b"/dev/stderr" => Some(2),
            _ => fronts
                .iter()
                .find_map(|front| key.strip_prefix(*front))
                .and_then(|digits| std::str::from_utf8(digits).ok()?.parse().ok()),
        };
        let table = &self.step(step)?.table;
        Ok(number.and_then(|number: i32| table.get(&number).cloned()))
    }

    /// Opens what a descriptor is on once more.
    fn open_again(&mut self, step: u64, own: &Descriptor, flags: &str) -> Done<Descriptor> {
        if let (false, Some(key)) = (own.is_held(), &own.path) {
            return self.open_key(step, key.clone(), flags);
        }
        let (reads, writes) = ways(flags);
        let object = match own.file.filter(|_| writes) {
            Some(file) => Some(self.object_to_write(file)?),
            None => own.reads.or(own.writes).map(|end| end.object),
        };
        match self.open_both(step, object.filter(|_| reads), object.filter(|_| writes))? {
            Some((reads, writes)) if own.is_held() => {
                Ok(Descriptor { file: own.file, ..Descriptor::held(reads, writes, own.path.clone()) })
            }
            Some(_) => Ok(Descriptor::left(own.left, own.path.clone())),
            None => Ok(Descriptor::left(Left::Refused, own.path.clone())),
        }
    }

    /// Opens a path.
    pub fn open_key(&mut self, step: u64, key: Key, flags: &str) -> Done<Descriptor> {
        let (reads, writes) = ways(flags);
        let found = self.level_of(&key)?;
        if has_flag(flags, "O_TMPFILE") {
            return self.open_nameless(step, writes, reads);
        }
        if has_flag(flags, "O_PATH") || has_flag(flags, "O_DIRECTORY") {
            self.left(Left::Attributes);
            return Ok(Descriptor::left(Left::Attributes, Some(key)));
        }
        let known = self.files.find(&key);
        let is_written = known.is_some_and(|id| self.files.file(id).is_written);
        let level = known.map_or(found.level, |id| Level::At(self.files.file(id).label));
        let is_top = level == Level::At(TOP) && !writes && !is_written && !self.options.all_files;
        let why = match found.level {
            _ if found.line.is_none() && special(&key).is_some() => special(&key),
            Level::Out => Some(Left::ByLevels),
            _ if is_top => Some(Left::Top),
            _ => None,
        };
        if let Some(why) = why {
            self.left(why);
            return Ok(Descriptor::left(why, Some(key)));
        }
        let is_made =
            has_flag(flags, "O_CREAT") && (has_flag(flags, "O_EXCL") || has_flag(flags, "O_TRUNC"));
        let id = self.file_at(step, &key, found.level, is_made)?;
        let object = if writes { self.object_to_write(id)? } else { self.object_of(id)? };
        match self.open_both(step, reads.then_some(object), writes.then_some(object))? {
            Some((reads, writes)) => {
                Ok(Descriptor { file: Some(id), ..Descriptor::held(reads, writes, Some(key)) })
            }
            None => Ok(Descriptor::left(Left::Refused, Some(key))),
        }
    }

    /// Makes a file without a name and opens it.
    pub fn open_nameless(&mut self, step: u64, writes: bool, reads: bool) -> Done<Descriptor> {
        let id = self.create(step, None)?;
        let object = self.object_of(id)?;
        match self.open_both(step, reads.then_some(object), writes.then_some(object))? {
            Some((reads, writes)) => Ok(Descriptor::held(reads, writes, None)),
            None => Ok(Descriptor::left(Left::Refused, None)),
        }
    }

    /// Opens for reading, for writing, or both; none where one of them is refused.
    pub fn open_both(
        &mut self,
        step: u64,
        from: Option<u64>,
        to: Option<u64>,
    ) -> Done<Option<(Option<End>, Option<End>)>> {
        let mut reads = None;
        if let Some(object) = from {
            reads = self.open(step, object, Way::Reads)?;
            if reads.is_none() {
                self.reap()?;
                return Ok(None);
            }
        }
        let Some(object) = to else { return Ok(Some((reads, None))) };
        // The second place must be another one than the first.
        let wanted = self.files.called(object);
        let taken: Vec<u64> = reads.iter().map(|end| end.place).collect();
        let place = self.free_place_but(step, &taken, &wanted)?;
        if self.make(Call::OpenWrite { subject: step, object, place })? {
            return Ok(Some((reads, Some(End { place, object }))));
        }
        if let Some(end) = reads {
            self.close(step, end)?;
        }
        self.reap()?;
        Ok(None)
    }

    /// pipe and pipe2.
    pub fn pipes(&mut self, step: u64, call: &Sys) -> Done {
        let Some((from, to)) = pair(call.arg(0)) else {
            return self.stop(
                "the descriptors of the pipe are not in the trace: trace with strace -s 2 or more"
                    .to_string(),
            );
        };
        let (reads, writes) = self.new_pipe(step, None)?;
        self.put(step, from, Descriptor::held(Some(reads), None, None))?;
        self.put(step, to, Descriptor::held(None, Some(writes), None))?;
        if has_flag(call.arg(1), "O_CLOEXEC") {
            self.end_at_exec(step, from)?;
            self.end_at_exec(step, to)?;
        }
        Ok(())
    }

    /// A pair of sockets is two pipes. Both ends are in the one step that makes them, so that call 17, which joins two
    /// different steps, does not fit; but its two pipes do.
    pub fn socket_pair(&mut self, step: u64, call: &Sys) -> Done {
        let Some((one, other)) = pair(call.arg(3)) else {
            return self.stop(
                "the descriptors of the pair are not in the trace: trace with strace -s 2 or more"
                    .to_string(),
            );
        };
        self.note(Note::Pairs);
        let there = self.new_pipe(step, None)?;
        let back = self.new_pipe(step, Some(there))?;
        self.put(step, one, Descriptor::held(Some(back.0), Some(there.1), None))?;
        self.put(step, other, Descriptor::held(Some(there.0), Some(back.1), None))?;
        if has_flag(call.arg(1), "SOCK_CLOEXEC") {
            self.end_at_exec(step, one)?;
            self.end_at_exec(step, other)?;
        }
        Ok(())
    }

    /// Makes a pipe; its ends are not in the table yet, nor are those of the pipe that was made just before.
    fn new_pipe(&mut self, step: u64, before: Option<(End, End)>) -> Done<(End, End)> {
        let object = self.pipe_number()?;
        let mut taken: Vec<u64> =
            before.iter().flat_map(|(reads, writes)| [reads.place, writes.place]).collect();
        let reads = self.free_place_but(step, &taken, "a pipe")?;
        taken.push(reads);
        let writes = self.free_place_but(step, &taken, "a pipe")?;
        self.make(Call::Pipe { subject: step, object, reads, writes })?;
        self.seat_pipe(object);
        Ok((End { place: reads, object }, End { place: writes, object }))
    }

    /// The descriptor is closed by the step's next exec.
    pub fn end_at_exec(&mut self, step: u64, fd: i32) -> Done {
        let own = self.step(step)?.table.get(&fd).filter(|own| !own.ends_at_exec);
        let Some((reads, writes)) = own.map(|own| (own.reads, own.writes)) else { return Ok(()) };
        let apart = match reads {
            Some(end) => self.marked_handle(step, fd, end)?,
            None => None,
        };
        if let Some(own) = self.step_mut(step)?.table.get_mut(&fd) {
            own.ends_at_exec = true;
            own.reads = apart.or(reads);
        }
        if let (Some(_), Some(old)) = (apart, reads) {
            self.close(step, old)?;
        }
        for end in [reads.filter(|_| apart.is_none()), writes].into_iter().flatten() {
            self.make(Call::Mark { subject: step, place: end.place })?;
        }
        Ok(())
    }

    /// The descriptor is kept at an exec. No call takes a mark off, so its handles are opened again at other places.
    pub fn stay_at_exec(&mut self, step: u64, fd: i32) -> Done {
        let Some(mut descriptor) = self.step(step)?.table.get(&fd).cloned() else { return Ok(()) };
        if !std::mem::replace(&mut descriptor.ends_at_exec, false) {
            return Ok(());
        }
        let (from, to) = (descriptor.reads.map(|end| end.object), descriptor.writes.map(|end| end.object));
        let Some((reads, writes)) = self.open_both(step, from, to)? else {
            return self.stop("gk trace is at fault here: a handle that is held is refused".to_string());
        };
        (descriptor.reads, descriptor.writes) = (reads, writes);
        self.put(step, fd, descriptor)
    }

    /// memfd_create: a file without a name, for reading and writing.
    pub fn memory_file(&mut self, step: u64, call: &Sys, number: i32) -> Done {
        let descriptor = self.open_nameless(step, true, true)?;
        self.put(step, number, descriptor)?;
        if has_flag(call.arg(1), "MFD_CLOEXEC") {
            self.end_at_exec(step, number)?;
        }
        Ok(())
    }
}

/// Whether an open is for reading and for writing.
fn ways(flags: &str) -> (bool, bool) {
    let (only_reads, only_writes) = (has_flag(flags, "O_RDONLY"), has_flag(flags, "O_WRONLY"));
    (!only_writes, !only_reads)
}

/// Why a path is no file of the run, if no line of the levels file names it.
fn special(key: &[u8]) -> Option<Left> {
    match key {
        _ if key.starts_with(b"/dev/shm/") => None,
        _ if key.starts_with(b"/dev/") => Some(Left::Devices),
        _ if key.starts_with(b"/proc/") || key.starts_with(b"/sys/") => Some(Left::Kernel),
        _ => None,
    }
}

/// The folder and the path that a call names first.
pub fn path_args<'a>(call: &Sys<'a>) -> (&'a str, &'a str) {
    match call.name {
        name if name.ends_with("at") => (call.arg(0), call.arg(1)),
        _ => ("AT_FDCWD", call.arg(0)),
    }
}

/// The number of a descriptor that a call gives back.
pub fn new_fd<'a>(outcome: Outcome<'a>) -> Option<(i32, &'a str)> {
    match outcome {
        Outcome::Done(_, text) => fd(text).map(|fd| (fd.number, text)),
        _ => None,
    }
}
