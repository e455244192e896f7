//! What each call of a trace is handed to, when it begins and when it has come to its end.

use crate::call::{self, Outcome, Sys};
use crate::kinds::{gives_descriptor, kind_of};
use crate::open::new_fd;
use crate::report::Left;
use crate::steps::FORKS;
use crate::world::{Child, Descriptor, Done, Pending, World};

impl World<'_> {
    /// The processes that have begun a fork whose child has not shown up.
    pub fn makers(&self) -> Vec<u32> {
        let waits = |pending: &Pending| pending.child.is_some_and(|child| !child.is_bound);
        let makers = self.tasks.iter().filter(|(_, task)| task.pending.as_ref().is_some_and(waits));
        makers.map(|(&process, _)| process).collect()
    }

    /// The child of a fork shows up before the fork's second line.
    pub fn meet_child(&mut self, process: u32, maker: u32) -> Done {
        let pending = self.tasks.get_mut(&maker).and_then(|task| task.pending.as_mut());
        let Some(pending) = pending else { return Ok(()) };
        let Some(child) = pending.child.as_mut() else { return Ok(()) };
        child.is_bound = true;
        let child = *child;
        let touched = pending.touched.clone();
        self.bind(process, maker, child, &touched)
    }

    /// A call that had begun does not come to its end: what it may have done counts as done.
    pub fn abandon(&mut self, process: u32) -> Done {
        let Some(pending) = self.tasks.get_mut(&process).and_then(|task| task.pending.take()) else {
            return Ok(());
        };
        self.left(Left::Unresumed);
        if let Some(child) = pending.child.filter(|child| !child.is_bound) {
            self.orphans.push(child);
        }
        let Some(step) = self.tasks.get(&process).map(|task| task.step) else { return Ok(()) };
        pending.moves.into_iter().try_for_each(|next| self.moves_on(step, next))
    }

    /// The first line of a call.
    pub fn begin(&mut self, process: u32, name: &str, text: &str, goes_on_as: Option<u32>) -> Done {
        let Some(step) = self.tasks.get(&process).map(|task| task.step) else { return Ok(()) };
        match name {
            "exit_group" | "exit" => return self.exits(process),
            _ => {}
        }
        let (args, _) = call::arguments(text);
        let moves = self.moves_of(step, name, &args);
        let birth = if name == "close" { self.birth_of(step, &args) } else { None };
        let child = if FORKS.contains(&name) { Some(self.forks(process, step, name, text)?) } else { None };
        let births = self.births_of(step, name, &args);
        let (name, text) = (name.to_string(), text.to_string());
        let pending = Pending { name, text, moves, child, birth, births, touched: Vec::new() };
        if let Some(leader) = goes_on_as {
            self.takes_number(leader, process)?;
        }
        if let Some(task) = self.tasks.get_mut(&goes_on_as.unwrap_or(process)) {
            task.pending = Some(pending);
        }
        Ok(())
    }

    /// A whole call.
    pub fn complete(&mut self, process: u32, call: &Sys, pending: Option<&Pending>) -> Done {
        let Some(step) = self.tasks.get(&process).map(|task| task.step) else { return Ok(()) };
        let child = pending.and_then(|pending| pending.child);
        match (call.name, call.outcome) {
            ("exit_group" | "exit", _) => self.exits(process),
            // The kernel closes a descriptor whatever else fails.
            ("close", Outcome::Failed(error)) if error != "EBADF" => {
                self.closes(step, call.arg(0), pending.and_then(|pending| pending.birth))
            }
            (_, Outcome::Failed(_)) => {
                self.left(Left::Failed);
                match child {
                    Some(child) => self.unforks(child, step),
                    None => Ok(()),
                }
            }
            (name, Outcome::Done(value, _)) if FORKS.contains(&name) => {
                let touched = pending.map_or(&[][..], |pending| &pending.touched);
                self.forked(process, step, call, value, child, touched)
            }
            (_, Outcome::Unsaid) => {
                self.settle()?;
                pending.into_iter().for_each(|pending| self.look_for_race(step, pending));
                if !self.moves_data(step, call)? {
                    // One that carries no data where it ends carries none where it does not.
                    let kind = kind_of(call.name).filter(|kind| !kind.is_unseen());
                    self.left(kind.unwrap_or(Left::Unresumed));
                }
                Ok(())
            }
            (_, Outcome::Done(value, _)) => {
                self.settle()?;
                pending.into_iter().for_each(|pending| self.look_for_race(step, pending));
                self.done(process, step, call, value, pending)
            }
        }
    }

    /// A fork that has come out well.
    fn forked(
        &mut self,
        process: u32,
        step: u64,
        call: &Sys,
        value: i64,
        child: Option<Child>,
        touched: &[i32],
    ) -> Done {
        let Some(number) = u32::try_from(value).ok().filter(|&number| number > 0) else { return Ok(()) };
        let child = match child {
            Some(child) if child.is_bound => return Ok(()),
            Some(child) => child,
            None => self.forks(process, step, call.name, &format!("{})", call.args.join(", ")))?,
        };
        self.bind(number, process, child, touched)
    }

    /// A call that has come out well, with this number.
    fn done(&mut self, process: u32, step: u64, call: &Sys, value: i64, pending: Option<&Pending>) -> Done {
        let made = new_fd(call.outcome);
        match (call.name, made) {
            ("open" | "openat" | "openat2" | "creat", Some((number, text))) => {
                self.opens(step, call, number, text)
            }
            ("memfd_create", Some((number, _))) => self.memory_file(step, call, number),
            ("pipe" | "pipe2", _) => self.pipes(step, call),
            ("socketpair", _) => self.socket_pair(step, call),
            ("dup" | "dup2", Some((to, _))) => self.duplicates(step, call.arg(0), to, false),
            ("dup3", Some((to, _))) => {
                self.duplicates(step, call.arg(0), to, call::has_flag(call.arg(2), "O_CLOEXEC"))
            }
            ("fcntl" | "fcntl64", _) => self.fcntl(step, call, value),
            ("close", _) => self.closes(step, call.arg(0), pending.and_then(|pending| pending.birth)),
            ("close_range", _) => self.closes_range(step, call),
            ("ioctl", _) => self.controls(step, call),
            ("execve" | "execveat", _) => self.execs(process, call, pending),
            ("mmap" | "mmap2", _) => self.maps(step, call, value as u64),
            ("munmap", _) => self.unmaps(step, call),
            ("mremap", _) => self.remaps(step, call),
            ("unlink" | "unlinkat", _) => self.unlinks(step, call),
            ("rename" | "renameat" | "renameat2", _) => self.renames(step, call),
            ("link" | "linkat", _) => self.links(step, call),
            ("symlink" | "symlinkat", _) => self.symlinks(step, call),
            ("truncate" | "truncate64", _) => self.truncates(step, call),
            ("chdir" | "fchdir" | "getcwd", _) => self.folders(step, call),
            (name, _) => {
                if self.moves_data(step, call)? {
                    return Ok(());
                }
                if let (Some(kind), Some((number, _))) = (gives_descriptor(name), made) {
                    self.put(step, number, Descriptor::left(kind, None))?;
                }
                match kind_of(name) {
                    Some(kind) => self.left(kind),
                    None => self.report.strange(name, self.line),
                }
                Ok(())
            }
        }
    }
}
