//! Steps that come and go: fork and its kin, exec, exit.

use gatekeeper::{Call, Label, Way};

use crate::call::{arguments, fd, field, has_flag, noted_path, string, Sys};
use crate::levels::Level;
use crate::names::Kind;
use crate::paths::{last_name, Key, START};
use crate::report::{Left, Note};
use crate::text::shown;
use crate::world::{Child, Descriptor, Done, Pending, Step, Task, World, PLACES};

/// The names that strace has for calls which make a process or thread.
pub const FORKS: [&str; 4] = ["fork", "vfork", "clone", "clone3"];

impl World<'_> {
    /// Admits the first process, or one whose start is not in the trace: the first one of a whole trace starts with an
    /// exec.
    pub fn admit(&mut self, process: u32, is_start: bool) -> Done {
        if self.journal.next() > 1 || !is_start {
            self.left(Left::Outside);
        }
        let step = self.free_step(&format!("process {process}"))?;
        self.make(Call::admit(step, self.options.start))?;
        let admitted = self.journal.next() - 1;
        let memory = self.tick();
        self.steps[step as usize] = Some(Step {
            table: Default::default(),
            maps: Vec::new(),
            folder: START.to_vec(),
            memory,
            birth: memory,
            program: "start of the run".to_string(),
            unnamed_from: Some(admitted),
            used: [false; PLACES as usize],
        });
        let task = Task { step, thread: None, group: process, pending: None, is_shown: true };
        self.tasks.insert(process, task);
        for (number, which) in ["stdin", "stdout", "stderr"].into_iter().enumerate() {
            let descriptor = match self.levels.standard(number) {
                None => Descriptor::left(Left::Standard, None),
                Some(label) => self.standard(step, which, label)?,
            };
            self.put(step, number as i32, descriptor)?;
        }
        Ok(())
    }

    /// What a step was started with, where the levels file has a level for it.
    fn standard(&mut self, step: u64, which: &str, label: Label) -> Done<Descriptor> {
        let object = match self.files.find(format!("<{which}>").as_bytes()) {
            Some(id) => self.object_of(id)?,
            None => self.register(which, label)?,
        };
        let way = if which == "stdin" { Way::Reads } else { Way::Writes };
        match (self.open(step, object, way)?, way) {
            (None, _) => Ok(Descriptor::left(Left::Refused, None)),
            (end, Way::Reads) => Ok(Descriptor::held(end, None, None)),
            (end, _) => Ok(Descriptor::held(None, end, None)),
        }
    }

    /// A fork has begun: the new step is there, or the new thread.
    pub fn forks(&mut self, process: u32, step: u64, name: &str, text: &str) -> Done<Child> {
        let (args, _) = arguments(text);
        let first = args.first().copied().unwrap_or("");
        let named = args.iter().find_map(|arg| arg.strip_prefix("flags="));
        let flags = named.or_else(|| field(first, "flags")).unwrap_or("");
        let has = |flag| has_flag(flags, flag);
        let (is_thread, shares_table) = (has("CLONE_THREAD"), has("CLONE_FILES"));
        let mut shares_memory = name == "vfork" || has("CLONE_VM") || is_thread;
        let (step, thread) = match (shares_table, shares_memory) {
            (true, true) => (step, self.start_thread(process, step)?),
            // It has a memory of its own. That it has its maker's shows more flow.
            (true, false) => {
                self.note(Note::Threads);
                shares_memory = true;
                (step, None)
            }
            (false, _) => {
                self.settle()?;
                (self.copy_step(process, step)?, None)
            }
        };
        Ok(Child { step, thread, is_thread, shares_memory, is_bound: false })
    }

    /// A step with the same handles, and for now with the same memory.
    fn copy_step(&mut self, process: u32, step: u64) -> Done<u64> {
        let program = shown(self.step(step)?.program.as_bytes());
        let child = self.free_step(&format!("the process that process {process} ({program}) starts"))?;
        self.make(Call::Fork { subject: step, child })?;
        let birth = self.tick();
        let mut copy = Step { birth, ..self.step(step)?.clone() };
        copy.used = [false; PLACES as usize];
        copy.unnamed_from = None;
        let from = self.journal.next() - 1;
        self.journal.names.give_new(Kind::Step, child, from, &copy.program);
        self.steps[child as usize] = Some(copy);
        Ok(child)
    }

    /// A process shows up, by its own first line or in the answer to the fork, and is bound to its step.
    pub fn bind(&mut self, process: u32, parent: u32, child: Child, touched: &[i32]) -> Done {
        let group = self.tasks.get(&parent).filter(|_| child.is_thread).map_or(process, |task| task.group);
        if process == parent {
            return self.stop(format!("process {process} cannot have made itself"));
        }
        if self.tasks.contains_key(&process) {
            // Its end was not seen, and the number is used again.
            self.ends(process)?;
        }
        self.gone.remove(&process);
        let Child { step, thread, .. } = child;
        self.tasks.insert(process, Task { step, thread, group, pending: None, is_shown: false });
        if !child.shares_memory {
            self.step_mut(step)?.memory = self.tick();
        }
        let Some(maker) = self.tasks.get(&parent).map(|task| task.step).filter(|&maker| maker != step)
        else {
            return Ok(());
        };
        self.catch_up(maker, step, touched)
    }

    /// A fork that had begun has failed: nobody was made.
    pub fn unforks(&mut self, child: Child, maker: u64) -> Done {
        if child.is_bound {
            return Ok(());
        }
        self.end_thread(child.thread)?;
        if child.step == maker {
            return Ok(());
        }
        self.leave(child.step)
    }

    /// A process or thread has ended. The step ends with the last one of it.
    pub fn ends(&mut self, process: u32) -> Done {
        // Who is killed in the middle of a write may have written.
        self.settle()?;
        self.breaks_off(process)?;
        let Some(task) = self.tasks.remove(&process) else { return Ok(()) };
        self.end_thread(task.thread)?;
        let is_last = self.tasks.values().all(|other| other.step != task.step);
        if let Some(pending) = task.pending {
            let child = pending.child.filter(|child| !child.is_bound);
            if let Some(child) = child.filter(|child| !is_last || child.step != task.step) {
                // Its child is still to show up.
                self.orphans.push(child);
                if !pending.touched.is_empty() {
                    self.left(Left::Raced);
                }
            }
        }
        match is_last {
            true => self.leave(task.step),
            false => Ok(()),
        }
    }

    fn leave(&mut self, step: u64) -> Done {
        self.end_threads(step)?;
        self.make(Call::Exit { subject: step })?;
        self.steps[step as usize] = None;
        self.orphans.retain(|child| child.step != step);
        self.reap()
    }

    /// exit and exit_group: from here on it makes no call. Its other threads may, until their own ends are seen.
    pub fn exits(&mut self, process: u32) -> Done {
        self.gone.insert(process);
        self.ends(process)
    }

    /// A thread that runs a program has the number of its process from now on, whose own thread has ended.
    pub fn takes_number(&mut self, leader: u32, thread: u32) -> Done {
        if leader == thread || !self.tasks.contains_key(&thread) {
            return Ok(());
        }
        self.ends(leader)?;
        if let Some(task) = self.tasks.remove(&thread) {
            self.gone.remove(&leader);
            self.tasks.insert(leader, task);
        }
        Ok(())
    }

    /// The kernel ends the other threads of a process that runs a program.
    fn end_others(&mut self, process: u32, group: u32, step: u64) -> Done {
        let is_other = |(number, other): &(&u32, &Task)| **number != process && other.group == group;
        let others: Vec<u32> = self.tasks.iter().filter(is_other).map(|(&number, _)| number).collect();
        for other in others {
            self.exits(other)?;
        }
        // Nor is a thread there that one of them was about to make.
        let is_lost = |child: &Child| child.is_thread && child.step == step;
        let lost: Vec<Child> = self.orphans.iter().copied().filter(is_lost).collect();
        self.orphans.retain(|child| !is_lost(child));
        lost.into_iter().try_for_each(|child| self.end_thread(child.thread))
    }

    /// Another process may share the descriptors, and keeps them: then one that runs a program has a step of its own.
    fn part(&mut self, process: u32, step: u64, touched: &[i32]) -> Done<u64> {
        let is_shared = self.tasks.iter().any(|(&number, other)| number != process && other.step == step)
            || self.orphans.iter().any(|child| child.step == step);
        if !is_shared {
            return Ok(step);
        }
        let own = self.tasks.get_mut(&process).and_then(|task| task.thread.take());
        self.end_thread(own)?;
        let child = self.copy_step(process, step)?;
        if let Some(task) = self.tasks.get_mut(&process) {
            task.step = child;
        }
        self.catch_up(step, child, touched)?;
        Ok(child)
    }

    /// execve and execveat that have come out well.
    pub fn execs(&mut self, process: u32, call: &Sys, pending: Option<&Pending>) -> Done {
        let Some(task) = self.tasks.get(&process) else { return Ok(()) };
        let (group, step) = (task.group, task.step);
        self.end_others(process, group, step)?;
        let step = self.part(process, step, pending.map_or(&[], |pending| &pending.touched))?;
        let (key, object) = self.program_of(step, call)?;
        let is_granted = match (object, self.level_of(&key)?.level) {
            (Some(object), _) => self.make(Call::Exec { subject: step, object })?,
            (None, Level::Out) => {
                self.left(Left::Hidden);
                false
            }
            (None, level) => {
                let id = self.file_at(step, &key, level, false)?;
                // A program keeps its own name.
                self.unfold(id)?;
                let object = self.object_of(id)?;
                self.make(Call::Exec { subject: step, object })?
            }
        };
        match is_granted {
            // The gatekeeper has ended the other threads of the step.
            true => self.threads.retain(|_, thread| thread.holder != step),
            false => self.end_threads(step)?,
        }
        self.shed(step, is_granted)?;
        let memory = self.tick();
        let program = String::from_utf8_lossy(last_name(&key)).into_owned();
        // The first program gives its name to the step from its start on.
        let next = self.journal.next();
        let from = self.step_mut(step)?.unnamed_from.take().unwrap_or(next);
        self.journal.names.give_new(Kind::Step, step, from, &program);
        let own = self.step_mut(step)?;
        (own.memory, own.program) = (memory, program);
        Ok(())
    }

    /// The path of the program's file. One that is run by a descriptor and has no path has its number.
    fn program_of(&mut self, step: u64, call: &Sys) -> Done<(Key, Option<u64>)> {
        let (folder, path) = match call.name {
            "execveat" => (call.arg(0), call.arg(1)),
            _ => ("AT_FDCWD", call.arg(0)),
        };
        let own = if string(path).is_some_and(|path| path.is_empty()) {
            let found = fd(folder);
            if let Some(path) = found.and_then(|fd| noted_path(fd.note)) {
                return Ok((self.paths.key(&path), None));
            }
            found.and_then(|fd| self.step(step).ok()?.table.get(&fd.number).cloned())
        } else {
            let key = self.named(step, folder, path)?;
            match self.own_descriptor(step, &key)? {
                None => return Ok((key, None)),
                own => own,
            }
        };
        let object = own.as_ref().and_then(|own| own.reads.or(own.writes)).map(|end| end.object);
        match (own.and_then(|own| own.path), object.filter(|&object| !self.journal.is_pipe(object))) {
            (Some(key), _) => Ok((key, None)),
            (None, Some(object)) => Ok((b"a program without a name".to_vec(), Some(object))),
            (None, None) => {
                self.stop("the file of the program is not in the trace: trace with strace -y".to_string())
            }
        }
    }

    /// What an exec closes is gone. Where the gatekeeper did not close it, as it refused the exec, it is closed
    /// here: in the run, it was.
    fn shed(&mut self, step: u64, is_closed: bool) -> Done {
        let own = self.step_mut(step)?;
        let gone: Vec<i32> = own.table.iter().filter(|(_, d)| d.ends_at_exec).map(|(&fd, _)| fd).collect();
        let maps = std::mem::take(&mut own.maps);
        if is_closed {
            own.table.retain(|_, descriptor| !descriptor.ends_at_exec);
            return self.reap();
        }
        for fd in gone {
            self.drop_fd(step, fd)?;
        }
        for end in maps.into_iter().flat_map(|mapping| [Some(mapping.reads), mapping.writes]).flatten() {
            self.close(step, end)?;
        }
        Ok(())
    }
}
