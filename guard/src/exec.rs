//! Calls that stop at their entry: pipes, forks, and programs that are run.

use std::fs::{self, File};
use std::io::Read;
use std::os::unix::ffi::OsStringExt;

use gatekeeper::Label;

use crate::calls::{
    CLONE, CLONE_VFORK, CLONE_VM, EACCES, EAGAIN, ELOOP, EMFILE, ENFILE, ENOSPC, ENOSYS, EXECVE, EXECVEAT,
    FORK, PIPE, PIPE2, VFORK,
};
use crate::files::Standing;
use crate::guard::{Guard, Outcome};
use crate::paths::{refuse_magic, Named, Seen};
use crate::proc::{self, key_of, Key};
use crate::sys::{self, CallInfo, Errno, Tid, AT_FDCWD, O_NOFOLLOW};
use crate::words::shown;

/// A file that is run: a program, or a script and then its interpreter.
struct Run {
    key: Key,
    label: Label,
    path: Vec<u8>,
    /// As it was called.
    name: Vec<u8>,
}

/// Of execveat: the descriptor itself is run; links are not followed.
const EMPTY_PATH: u64 = 0x1000;
const NO_FOLLOW: u64 = 0x100;
/// Interpreters of interpreters that the kernel allows.
const DEEPEST: usize = 5;

impl Guard {
    /// A thread stands at the entry of a call that the filter stops.
    pub fn traced(&mut self, tid: Tid, info: &CallInfo) {
        let outcome = match u32::try_from(info.number) {
            Ok(PIPE | PIPE2) => self.pipes(tid, info),
            Ok(call @ (CLONE | FORK | VFORK)) => self.forks(tid, call, info),
            Ok(EXECVE | EXECVEAT) => self.runs(tid, info),
            _ => Err(Errno(ENOSYS)),
        };
        match outcome {
            Ok(next) => self.resume(next, 0),
            Err(Errno(error)) => {
                sys::fail_call(tid, error);
                self.resume(tid, 0);
            }
        }
    }

    fn process(&self, tid: Tid) -> Tid {
        self.tasks.get(&tid).map_or(tid, |task| task.process)
    }

    fn limit(&mut self, step: u64, error: i32, what: &str) -> Errno {
        let program = self.told.program(step).to_string();
        self.say_once(format!("refused: {program}: {what}"));
        Errno(error)
    }

    /// A pipe. Other threads stand still until it is told: none forks with it before.
    fn pipes(&mut self, tid: Tid, info: &CallInfo) -> Result<Tid, Errno> {
        let (step, process) = (self.must_step(tid), self.process(tid));
        self.halt_others(process, tid);
        if !self.told.has_places(step, 2) || !self.told.has_room() {
            self.put_right(tid);
        }
        if !self.told.has_places(step, 2) {
            return Err(self.limit(step, EMFILE, "a pipe would be its 17th handle"));
        }
        if !self.told.has_room() {
            return Err(self.limit(
                step,
                ENFILE,
                "its pipe would be the 65th file or pipe that is open at once",
            ));
        }
        if !self.told.journal.has_room(3) {
            return Err(self.limit(step, ENOSPC, "the journal has no room for a pipe (65,536 bytes)"));
        }
        if let Outcome::Back(0) = self.see_through(tid) {
            let mut ends = [0u8; 4];
            let is_read = sys::memory(tid, info.arguments[0], &mut ends) == 4;
            match key_of(tid, i32::from_le_bytes(ends)) {
                Ok(Some(key)) if is_read => self.told.pipe(step, key),
                _ => self.end(process, "a pipe of it cannot be looked at"),
            }
            self.settle(tid);
        }
        Ok(tid)
    }

    /// A new process. One that would share its maker's memory gets a copy of it: what it reads is its own.
    fn forks(&mut self, tid: Tid, call: u32, info: &CallInfo) -> Result<Tid, Errno> {
        let step = self.must_step(tid);
        if self.told.free_step().is_none() {
            self.reap();
            self.tell_exits(tid);
        }
        if self.told.free_step().is_none() {
            let number = self.tasks.values_mut().find_map(|task| task.number.take());
            self.give_up(number);
        }
        if self.told.free_step().is_none() {
            return Err(self.limit(step, EAGAIN, "it would make the 33rd step at once"));
        }
        if !self.told.journal.has_room(2) {
            return Err(self.limit(step, EAGAIN, "the journal has no room for a step (65,536 bytes)"));
        }
        match call {
            VFORK => {
                sys::set_call(tid, FORK);
            }
            CLONE => {
                let flags = info.arguments[0];
                if flags & (CLONE_VM | CLONE_VFORK) != 0 {
                    sys::set_first_argument(tid, flags & !(CLONE_VM | CLONE_VFORK));
                }
            }
            _ => {}
        }
        if let Outcome::Forked(child) = self.see_through(tid) {
            self.forked(tid, child, child);
        }
        Ok(tid)
    }

    /// A program: asked about at its entry, told when it is certain, before its first instruction.
    fn runs(&mut self, tid: Tid, info: &CallInfo) -> Result<Tid, Errno> {
        let (step, process) = (self.must_step(tid), self.process(tid));
        self.halt_others(process, tid);
        let runs = self.to_run(tid, process, step, info)?;
        if !self.told.journal.has_room(24) {
            return Err(self.limit(step, ENOSPC, "the journal has no room for a program (65,536 bytes)"));
        }
        let unseen = "what it holds cannot be looked at";
        let held = proc::held(process).ok_or_else(|| self.limit(step, EACCES, unseen))?;
        if !self.told.unmark(step, &held) {
            return Err(self.limit(step, EMFILE, "a handle that its program gets would be its 17th"));
        }
        let mut files = self.numbers(&runs);
        let mut ends = self.told.ends(step, &held);
        if !files.as_ref().is_some_and(|files| self.told.would_exec(step, files, &ends)) {
            self.put_right(tid);
            ends = self.told.ends(step, &held);
            files = self.numbers(&runs);
        }
        let Some(files) = files else {
            return Err(self.limit(
                step,
                ENFILE,
                "its program would be the 65th file or pipe that is open at once",
            ));
        };
        let is_granted = self.told.would_exec(step, &files, &ends);
        if !is_granted {
            if let Err(call) = self.told.exec(step, &files, &ends) {
                self.say_refused(tid, call, &runs[0].path);
            }
            self.settle(tid);
            if !self.is_dry {
                return Err(Errno(EACCES));
            }
        }
        if let Outcome::Ran = self.see_through(tid) {
            self.told.name_step(step, &shown(&runs[0].name));
            if is_granted {
                if self.told.exec(step, &files, &ends).is_err() {
                    crate::words::fail("an exec is refused that was granted before");
                }
                // It has ended the other threads.
                let threads = self.tasks.values_mut().filter(|task| task.process == process);
                threads.for_each(|task| task.number = None);
            }
            if let Some(why) = self.is_other(process, &runs) {
                self.end(process, why);
            }
            self.settle(process);
            return Ok(process);
        }
        Ok(tid)
    }

    /// The numbers of all files that are run, each still there when the last one has its own.
    fn numbers(&mut self, runs: &[Run]) -> Option<Vec<u64>> {
        let files: Option<Vec<u64>> =
            runs.iter().map(|run| self.told.file(run.key, run.label, &run.path)).collect();
        let is_there = |(run, file): (&Run, &u64)| self.told.number(run.key) == Some(*file);
        files.filter(|files| runs.iter().zip(files).all(is_there))
    }

    /// The program, or the script and its interpreters.
    fn to_run(&mut self, tid: Tid, process: Tid, step: u64, info: &CallInfo) -> Result<Vec<Run>, Errno> {
        let [a, b, _, _, e, _] = info.arguments;
        let is_at = info.number == u64::from(EXECVEAT);
        let (folder, at, flags) = if is_at { (a as i32, b, e) } else { (AT_FDCWD, a, 0) };
        let mut first = [0u8; 1];
        let is_empty = sys::memory(tid, at, &mut first) == 1 && first == [0];
        let mut named = match flags & EMPTY_PATH != 0 && is_empty {
            true => Named::descriptor(tid, folder),
            false => Named::read(tid, process, folder, at, 0, &self.processes())?,
        };
        let mut find = if flags & NO_FOLLOW != 0 { O_NOFOLLOW } else { 0 };
        let mut runs = Vec::new();
        for _ in 0..DEEPEST {
            let seen = named.find(find).map_err(|error| refuse_magic(error, &named))?;
            let (run, script) = self.run_of(step, &seen, named.last())?;
            runs.push(run);
            match script {
                None => return Ok(runs),
                Some(interpreter) => named = Named::plain(tid, &interpreter)?,
            }
            find = 0;
        }
        Err(Errno(ELOOP))
    }

    /// A file to run, and the interpreter that its first line names.
    fn run_of(&mut self, step: u64, seen: &Seen, name: &[u8]) -> Result<(Run, Option<Vec<u8>>), Errno> {
        if !seen.meta.is_file() {
            return Err(Errno(EACCES));
        }
        let refused = |guard: &mut Guard, why: &str| {
            let program = guard.told.program(step).to_string();
            let path = guard.told.short(&seen.path);
            guard.say_once(format!("refused: {program} may not run {path}: {why}"));
            Errno(EACCES)
        };
        let is_proc = seen.is_on(&self.proc_devices);
        let label = match self.files.standing(&seen.path, &seen.meta, is_proc, false) {
            Standing::At(label) => label,
            Standing::Out => gk_trace::TOP,
            Standing::Absent | Standing::Harmless => return Err(Errno(EACCES)),
            Standing::No(why) => return Err(refused(self, why)),
        };
        let Ok(file) = seen.open(0) else {
            return Err(refused(self, "it cannot be read, and then /proc does not show what it does"));
        };
        let mut front = Vec::new();
        File::from(file).take(256).read_to_end(&mut front)?;
        Ok((
            Run { key: seen.key(), label, path: seen.path.clone(), name: name.to_vec() },
            interpreter(&front),
        ))
    }

    /// Why what runs now is not what was asked about.
    fn is_other(&self, process: Tid, runs: &[Run]) -> Option<&'static str> {
        use std::os::unix::fs::MetadataExt;
        let last = runs.last()?;
        let link = format!("/proc/{process}/exe");
        let path = fs::read_link(&link).map(|path| path.into_os_string().into_vec());
        let key = fs::metadata(&link).map(|meta| (meta.dev(), meta.ino()));
        if key.ok() != Some(last.key) || path.ok().as_ref() != Some(&last.path) {
            return Some("it runs another program than was asked about");
        }
        // The kernel has mapped the program's loader, too, which no open tells of.
        let Some(mapped) = proc::mappings(process) else { return Some("its memory cannot be looked at") };
        let is_low = |held: &proc::Held| {
            let path = held.path.as_deref().unwrap_or_default();
            path != last.path
                && matches!(self.files.at(path, held.key), Standing::At(label) if label != gk_trace::TOP)
        };
        mapped
            .iter()
            .any(is_low)
            .then_some("its loader is below level 15 with all shop marks, and nobody was asked")
    }
}

/// The interpreter that a script's first line names, as the kernel reads it.
fn interpreter(front: &[u8]) -> Option<Vec<u8>> {
    let line = front.strip_prefix(b"#!")?;
    let line = line.split(|&byte| byte == b'\n').next()?;
    let is_space = |byte: &u8| *byte == b' ' || *byte == b'\t';
    let start = line.iter().position(|byte| !is_space(byte))?;
    let word = line[start..].split(|byte| is_space(byte) || *byte == 0).next()?;
    (!word.is_empty()).then(|| word.to_vec())
}

#[cfg(test)]
mod tests {
    use super::*;

    #[test]
    fn the_first_line_names_the_interpreter() {
        assert_eq!(interpreter(b"#!/bin/sh\necho").as_deref(), Some(&b"/bin/sh"[..]));
        assert_eq!(interpreter(b"#! \t/usr/bin/env  python3 -x").as_deref(), Some(&b"/usr/bin/env"[..]));
        assert_eq!(interpreter(b"#!\n"), None);
        assert_eq!(interpreter(b"\x7fELF"), None);
    }
}
