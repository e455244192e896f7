//! Reads and writes, and their kin.
//!
//! A call that a trace shows in two lines may have moved its data at any moment between them. So before anything is
//! read, what such calls may have moved already is written down where it lowers somebody: see [`World::settle`].

use gatekeeper::{Call, Way};

use crate::call::{arguments, fd, field, noted_path, Fd, Sys};
use crate::report::{Left, Note};
use crate::world::{Descriptor, Done, End, Move, World};

/// Which argument of a call is read from, and which is written to.
pub type Args = (Option<usize>, Option<usize>);

/// The calls that move data over descriptors.
pub fn data_args(name: &str) -> Option<Args> {
    Some(match name {
        "read" | "pread64" | "pread" | "readv" | "preadv" | "preadv2" => (Some(0), None),
        "recv" | "recvfrom" | "recvmsg" | "recvmmsg" | "recvmmsg_time64" => (Some(0), None),
        "write" | "pwrite64" | "pwrite" | "writev" | "pwritev" | "pwritev2" => (None, Some(0)),
        "send" | "sendto" | "sendmsg" | "sendmmsg" => (None, Some(0)),
        "ftruncate" | "ftruncate64" | "fallocate" => (None, Some(0)),
        "sendfile" | "sendfile64" => (Some(1), Some(0)),
        "splice" | "copy_file_range" => (Some(0), Some(2)),
        "tee" => (Some(0), Some(1)),
        _ => return None,
    })
}

impl World<'_> {
    /// A read, a write or one of their kin that has come out well. Whether it was one.
    pub fn moves_data(&mut self, step: u64, call: &Sys) -> Done<bool> {
        if call.args.iter().any(|arg| arg.contains("SCM_RIGHTS")) {
            self.left(Left::Passed);
        }
        if call.name == "vmsplice" {
            self.gives_memory(step, call.arg(0))?;
            return Ok(true);
        }
        let Some((from, to)) = data_args(call.name) else { return Ok(false) };
        for (arg, way) in [(from, Way::Reads), (to, Way::Writes)] {
            match arg.map(|arg| fd(call.arg(arg))) {
                None => {}
                Some(Some(fd)) => self.moves(step, fd, way)?,
                Some(None) => self.left(Left::UnknownData),
            }
        }
        Ok(true)
    }

    /// A process or thread ends, and the call that it has begun with it: what that may have moved over descriptors of
    /// which nothing is in the journal counts as moved.
    pub fn breaks_off(&mut self, process: u32) -> Done {
        let Some(task) = self.tasks.get(&process) else { return Ok(()) };
        let (step, Some(pending)) = (task.step, &task.pending) else { return Ok(()) };
        let (name, text) = (pending.name.clone(), pending.text.clone());
        let (from, to) = match name.as_str() {
            "mmap" | "mmap2" => (Some(4), None),
            "vmsplice" => (Some(0), Some(0)),
            _ => data_args(&name).unwrap_or((None, None)),
        };
        let (args, _) = arguments(&text);
        for (arg, way) in [(from, Way::Reads), (to, Way::Writes)] {
            let Some(fd) = arg.and_then(|arg| fd(args.get(arg)?)) else { continue };
            let own = self.step(step)?.table.get(&fd.number);
            if !own.is_some_and(Descriptor::is_held) {
                self.moves(step, fd, way)?;
            }
        }
        Ok(())
    }

    /// vmsplice writes to a pipe's writing end, and reads from its reading end.
    fn gives_memory(&mut self, step: u64, arg: &str) -> Done {
        let Some(found) = fd(arg) else { return Ok(()) };
        let is_write = self.step(step)?.table.get(&found.number).is_some_and(|own| own.writes.is_some());
        self.moves(step, found, if is_write { Way::Writes } else { Way::Reads })
    }

    /// Reads from, or writes to, a descriptor.
    pub fn moves(&mut self, step: u64, fd: Fd, way: Way) -> Done {
        match (self.end_for(step, fd, way)?, way) {
            (None, _) => Ok(()),
            (Some(end), Way::Writes) => self.write(step, end),
            (Some(end), _) => {
                self.show_writers(end.object)?;
                self.read(step, end)
            }
        }
    }

    /// Who has begun to write to a pipe that is read now has written to it.
    fn show_writers(&mut self, object: u64) -> Done {
        let begun = self.tasks.values().filter_map(|task| Some((task.step, task.pending.as_ref()?)));
        let writes: Vec<(u64, End)> = begun
            .flat_map(|(step, pending)| pending.moves.iter().map(move |next| (step, *next)))
            .filter_map(|(step, next)| match next {
                Move::Write(end) if end.object == object => Some((step, end)),
                _ => None,
            })
            .collect();
        for (step, end) in writes {
            if !self.step(step)?.used[end.place as usize] {
                self.moves_on(step, Move::Write(end))?;
            }
        }
        Ok(())
    }

    /// The handle behind a descriptor. What the run was started with is opened when strace -y says what it is.
    pub fn end_for(&mut self, step: u64, fd: Fd, way: Way) -> Done<Option<End>> {
        let birth = self.tick();
        let unknown = || Descriptor { birth, ..Descriptor::left(Left::Unknown, None) };
        let own = self.step_mut(step)?.table.entry(fd.number).or_insert_with(unknown).clone();
        let end = own.end(way);
        if end.is_some() {
            return Ok(end);
        }
        let is_from_before = matches!(own.left, Left::Standard | Left::Unknown);
        if let (true, Some(path)) = (is_from_before, noted_path(fd.note)) {
            let key = self.paths.key(&path);
            let flags = if way == Way::Writes { "O_WRONLY" } else { "O_RDONLY" };
            let opened = self.open_key(step, key, flags)?;
            let end = opened.reads.or(opened.writes);
            let descriptor = self.step_mut(step)?.table.entry(fd.number).or_insert_with(unknown);
            descriptor.reads = descriptor.reads.or(opened.reads);
            descriptor.writes = descriptor.writes.or(opened.writes);
            (descriptor.path, descriptor.file) = (opened.path, opened.file);
            if end.is_none() {
                descriptor.left = opened.left;
            }
            let moved = opened.left.moved(way, descriptor.path.as_deref());
            if end.is_none() && moved.is_unseen() {
                self.left(moved);
            }
            let descriptor = self.step_mut(step)?.table.entry(fd.number).or_insert_with(unknown);
            let is_marked = descriptor.ends_at_exec;
            if let (Some(end), true) = (end, is_marked) {
                self.make(Call::Mark { subject: step, place: end.place })?;
            }
            // A descriptor that the run was not started with was opened by a call which is not in the trace.
            if own.left == Left::Unknown {
                self.left(Left::UnknownData);
            }
            if end.is_some() {
                self.note(Note::Named);
            }
            return Ok(end);
        }
        self.left(own.left.moved(way, own.path.as_deref()));
        Ok(None)
    }

    /// Writes a read down: the first on a handle, and each that lowers the step.
    pub fn read(&mut self, step: u64, end: End) -> Done {
        let lowers = !self.journal.object_label(end.object).at_least(self.journal.step_label(step));
        if self.is_worth(step, end, lowers)? {
            self.make(Call::Read { subject: step, place: end.place })?;
        }
        self.tell(step, end, false)?;
        self.peers_read(step, end.object)
    }

    /// Writes a write down: the first on a handle, and each that lowers a pipe.
    pub fn write(&mut self, step: u64, end: End) -> Done {
        let is_pipe = self.journal.is_pipe(end.object);
        let lowers =
            is_pipe && !self.journal.step_label(step).at_least(self.journal.object_label(end.object));
        if self.is_worth(step, end, lowers)? {
            self.make(Call::Write { subject: step, place: end.place })?;
        }
        self.tell(step, end, true)
    }

    fn is_worth(&mut self, step: u64, end: End, lowers: bool) -> Done<bool> {
        let is_first = !std::mem::replace(&mut self.step_mut(step)?.used[end.place as usize], true);
        let is_worth = is_first || lowers || self.options.repeats;
        if !is_worth {
            self.left(Left::Repeats);
        }
        Ok(is_worth)
    }

    fn tell(&mut self, step: u64, end: End, is_write: bool) -> Done {
        let program = self.step(step)?.program.clone();
        self.files.moved_data(end.object, &program, is_write);
        Ok(())
    }

    /// Who shares the step's memory has read what it has read.
    pub fn peers_read(&mut self, step: u64, object: u64) -> Done {
        let memory = self.step(step)?.memory;
        for peer in self.by_age() {
            if peer == step || self.step(peer)?.memory != memory {
                continue;
            }
            if self.journal.object_label(object).at_least(self.journal.step_label(peer)) {
                continue;
            }
            self.note(Note::SharedRead);
            let held = self
                .step(peer)?
                .table
                .values()
                .filter_map(|own| own.reads)
                .find(|end| end.object == object);
            match held {
                Some(end) => drop(self.make(Call::Read { subject: peer, place: end.place })?),
                None => {
                    if let Some(end) = self.open(peer, object, Way::Reads)? {
                        self.make(Call::Read { subject: peer, place: end.place })?;
                        self.make(Call::Close { subject: peer, place: end.place })?;
                    }
                }
            }
        }
        Ok(())
    }

    /// What a call that has begun may do from now on.
    pub fn moves_of(&self, step: u64, name: &str, args: &[&str]) -> Vec<Move> {
        let Some((from, to)) = data_args(name) else { return Vec::new() };
        let own = |arg: Option<usize>| {
            let fd = fd(args.get(arg?)?)?;
            self.step(step).ok()?.table.get(&fd.number)
        };
        let reads = own(from).filter(|own| own.reads.is_some()).map(|own| Move::Read(own.birth));
        let writes = own(to).and_then(|own| own.writes).map(Move::Write);
        reads.into_iter().chain(writes).collect()
    }

    /// Writes down what calls that have begun may have moved by now, as far as it lowers somebody.
    pub fn settle(&mut self) -> Done {
        loop {
            let moves: Vec<(u64, Move)> = self
                .tasks
                .values()
                .filter_map(|task| Some((task.step, task.pending.as_ref()?)))
                .flat_map(|(step, pending)| pending.moves.iter().map(move |&next| (step, next)))
                .filter(|&(step, next)| self.lowers(step, next))
                .collect();
            if moves.is_empty() {
                return Ok(());
            }
            for (step, next) in moves {
                if self.lowers(step, next) {
                    self.moves_on(step, next)?;
                }
            }
        }
    }

    /// Whether a handle is still there, and its use would lower the step or the pipe.
    fn lowers(&self, step: u64, next: Move) -> bool {
        let Some(end) = self.handle_of(step, next) else { return false };
        let step_label = self.journal.step_label(step);
        let object_label = self.journal.object_label(end.object);
        match next {
            Move::Read(_) => !object_label.at_least(step_label),
            Move::Write(_) => self.journal.is_pipe(end.object) && !step_label.at_least(object_label),
        }
    }

    /// The handle by which a call that has begun moves data, where it is still there.
    fn handle_of(&self, step: u64, next: Move) -> Option<End> {
        match next {
            Move::Read(birth) => self.step(step).ok()?.table.values().find(|own| own.birth == birth)?.reads,
            Move::Write(end) => {
                let handle = self.journal.handle(step, end.place)?;
                (handle.object == end.object && handle.way == Way::Writes).then_some(end)
            }
        }
    }

    /// A call that has begun moves its data, where the handle is still there.
    pub fn moves_on(&mut self, step: u64, next: Move) -> Done {
        match (self.handle_of(step, next), next) {
            (None, _) => Ok(()),
            (Some(end), Move::Read(_)) => self.read(step, end),
            (Some(end), Move::Write(_)) => self.write(step, end),
        }
    }

    /// ioctl: a copy of one file to another, or a mark; other ones carry no contents of files.
    pub fn controls(&mut self, step: u64, call: &Sys) -> Done {
        let command = call.arg(1);
        let Some(target) = fd(call.arg(0)) else { return Ok(()) };
        if command.contains("FICLONE") {
            let source = fd(call.arg(2)).or_else(|| fd(field(call.arg(2), "src_fd")?));
            if let Some(source) = source {
                self.moves(step, source, Way::Reads)?;
            }
            return self.moves(step, target, Way::Writes);
        }
        match command {
            "FIOCLEX" => self.end_at_exec(step, target.number),
            "FIONCLEX" => self.stay_at_exec(step, target.number),
            _ => {
                self.left(Left::Attributes);
                Ok(())
            }
        }
    }
}
