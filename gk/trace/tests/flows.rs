//! Soundness against a small kernel: random runs, in which data is followed byte for byte as a kernel would carry it,
//! written as strace would write them, with calls that take two lines and act at any moment between. Threads share a
//! memory and a table of descriptors, and act while others are in the middle of a call. A run ends where something low
//! has really come into a higher file, and then its journal must have a refusal.

mod common;

use std::collections::BTreeMap;

use common::{attempt, plain, refused};
use gk_trace::{Failure, Options, Verdict};

const LEVELS: &str = "f1 1\nf2 5\nf3 9\nf4 12\np1 5\nelse 15\n";
/// The lowest file, from which everything can leak and to which nothing can, is left out.
const WITHOUT_LOWEST: &str = "f1 out\nf2 5\nf3 9\nf4 12\np1 5\nelse 15\n";
const FILES: [(&str, u8); 6] = [("f1", 1), ("f2", 5), ("f3", 9), ("f4", 12), ("p1", 5), ("p2", 15)];

struct Random(u64);

impl Random {
    fn below(&mut self, bound: usize) -> usize {
        self.0 = self.0.wrapping_mul(6_364_136_223_846_793_005).wrapping_add(1_442_695_040_888_963_407);
        ((self.0 >> 33) % bound.max(1) as u64) as usize
    }

    fn is_once_in(&mut self, times: usize) -> bool {
        self.below(times) == 0
    }
}

/// A descriptor: what it reads and what it writes, and whether an exec closes it.
#[derive(Clone, Copy)]
struct Fd {
    reads: Option<usize>,
    writes: Option<usize>,
    ends_at_exec: bool,
}

/// A table of descriptors and a memory, as the threads of a process share them.
#[derive(Clone)]
struct Space {
    fds: BTreeMap<i32, Fd>,
    /// What it has in memory; a vfork's child has its maker's.
    memory: usize,
    /// Objects that show in its memory, and those that its memory shows in.
    maps: Vec<(usize, bool)>,
}

/// A process's own thread, or another one of it.
#[derive(Clone)]
struct Task {
    process: u32,
    /// The process that it belongs to.
    group: u32,
    space: usize,
    is_alive: bool,
    /// A process's own thread that has exited is waited for until the others have.
    has_exited: bool,
    /// The call that it is in the middle of.
    begun: Option<&'static str>,
}

/// What a call does to data, at one moment.
#[derive(Clone, Copy)]
enum Act {
    Read(usize),
    Write(usize),
    Copy(usize, usize),
}

/// Whom a clone makes: another thread; a thread with a table of its own; a process that has both from its maker.
const CLONES: [(&str, bool, bool); 4] = [
    ("CLONE_VM|CLONE_FS|CLONE_FILES|CLONE_THREAD", true, true),
    ("CLONE_VM|CLONE_FS|CLONE_FILES|CLONE_THREAD", true, true),
    ("CLONE_VM|CLONE_THREAD", true, false),
    ("CLONE_VM|CLONE_FILES|SIGCHLD", false, true),
];

#[derive(Default)]
struct Kernel {
    lines: Vec<String>,
    tasks: Vec<Task>,
    spaces: Vec<Space>,
    /// The level of the lowest thing that has come into each file or pipe, and into each memory.
    objects: Vec<u8>,
    memories: Vec<u8>,
    paths: BTreeMap<&'static str, usize>,
    next: u32,
    has_leaked: bool,
}

impl Kernel {
    fn new() -> Kernel {
        let mut kernel = Kernel { next: 101, ..Kernel::default() };
        for (path, level) in FILES {
            kernel.paths.insert(path, kernel.objects.len());
            kernel.objects.push(level);
        }
        kernel.memories.push(15);
        kernel.spaces.push(Space { fds: BTreeMap::new(), memory: 0, maps: Vec::new() });
        kernel.add(100, 100, 0);
        // What every program does when it starts: without it the trace is taken for a filtered one.
        for line in [
            "execve(\"p2\", [], 0x1) = 0",
            "brk(NULL) = 0x1000",
            "openat(AT_FDCWD, \"/lib/libc.so\", O_RDONLY) = 3",
            "read(3, \"\", 832) = 832",
            "mmap(NULL, 4096, PROT_READ, MAP_PRIVATE, 3, 0) = 0x1000",
            "close(3) = 0",
        ] {
            kernel.lines.push(format!("100 {line}"));
        }
        kernel
    }

    fn add(&mut self, process: u32, group: u32, space: usize) {
        let (is_alive, has_exited) = (true, false);
        self.tasks.push(Task { process, group, space, is_alive, has_exited, begun: None });
    }

    fn level(path: &str) -> u8 {
        FILES.iter().find(|(name, _)| *name == path).map_or(15, |(_, level)| *level)
    }

    fn says(&mut self, task: usize, what: &str) {
        self.lines.push(format!("{} {what}", self.tasks[task].process));
    }

    fn space(&mut self, task: usize) -> &mut Space {
        &mut self.spaces[self.tasks[task].space]
    }

    /// Those that run, of which this holds.
    fn running(&self, is_meant: impl Fn(&Task) -> bool) -> Vec<usize> {
        let is_meant = |&task: &usize| self.tasks[task].is_alive && is_meant(&self.tasks[task]);
        (0..self.tasks.len()).filter(is_meant).collect()
    }

    /// Carries data until nothing changes: memory that is mapped shows at once.
    fn spread(&mut self) {
        loop {
            let before = (self.objects.clone(), self.memories.clone());
            for task in self.running(|task| !task.has_exited) {
                let space = &self.spaces[self.tasks[task].space];
                for &(object, is_written) in &space.maps {
                    let memory = self.memories[space.memory];
                    self.memories[space.memory] = memory.min(self.objects[object]);
                    if is_written {
                        self.objects[object] = self.objects[object].min(memory);
                    }
                }
            }
            if before == (self.objects.clone(), self.memories.clone()) {
                break;
            }
        }
        for (path, &object) in &self.paths {
            self.has_leaked |= self.objects[object] < Kernel::level(path);
        }
    }

    fn act(&mut self, task: usize, act: Act) {
        let memory = self.space(task).memory;
        match act {
            Act::Read(object) => self.memories[memory] = self.memories[memory].min(self.objects[object]),
            Act::Write(object) => self.objects[object] = self.objects[object].min(self.memories[memory]),
            Act::Copy(from, to) => {
                let low = self.objects[from].min(self.memories[memory]);
                self.memories[memory] = low;
                self.objects[to] = self.objects[to].min(low);
            }
        }
        self.spread();
    }

    fn free_fd(&mut self, task: usize) -> i32 {
        let fds = &self.space(task).fds;
        (3..).find(|fd| !fds.contains_key(fd)).unwrap_or(3)
    }

    fn put(&mut self, task: usize, reads: Option<usize>, writes: Option<usize>) -> i32 {
        let fd = self.free_fd(task);
        self.space(task).fds.insert(fd, Fd { reads, writes, ends_at_exec: false });
        fd
    }

    /// One call of one thread, which may take two lines with calls of others between.
    fn step(&mut self, random: &mut Random, depth: usize) {
        let free = self.running(|task| !task.has_exited && task.begun.is_none());
        if self.has_leaked || free.is_empty() {
            return;
        }
        let task = free[random.below(free.len())];
        let fds = self.space(task).fds.clone();
        let any = |random: &mut Random, way: fn(&Fd) -> Option<usize>| {
            let fit: Vec<(i32, usize)> =
                fds.iter().filter_map(|(fd, entry)| Some((*fd, way(entry)?))).collect();
            (!fit.is_empty()).then(|| fit[random.below(fit.len())])
        };
        let (path, _) = FILES[random.below(4)];
        let file = self.paths.get(path).copied();
        match (random.below(26), any(random, |fd| fd.reads), any(random, |fd| fd.writes)) {
            (0..=2, ..) if fds.len() < 5 => self.open(random, task, path),
            (3, ..) if fds.len() < 4 => {
                let object = self.objects.len();
                self.objects.push(15);
                let ends = [self.put(task, Some(object), None), self.put(task, None, Some(object))];
                self.says(task, &format!("pipe2({ends:?}, 0) = 0"));
            }
            (4, ..) if fds.len() < 3 => {
                let object = self.objects.len();
                self.objects.extend([15, 15]);
                let one = self.put(task, Some(object), Some(object + 1));
                let other = self.put(task, Some(object + 1), Some(object));
                self.says(task, &format!("socketpair(AF_UNIX, SOCK_STREAM, 0, [{one}, {other}]) = 0"));
            }
            (5, Some((from, _)), _) => {
                let to = 3 + random.below(6) as i32;
                if to != from && fds.len() < 6 {
                    let entry = Fd { ends_at_exec: false, ..fds[&from] };
                    self.space(task).fds.insert(to, entry);
                    self.says(task, &format!("dup2({from}, {to}) = {to}"));
                }
            }
            (6 | 7, Some((from, _)), _) => {
                self.space(task).fds.remove(&from);
                self.says(task, &format!("close({from}) = 0"));
            }
            (8..=10, Some((from, object)), _) => {
                self.moves(random, depth, task, ("read", &format!("{from}, \"\", 1)")), Act::Read(object));
            }
            (11..=13, _, Some((to, object))) => {
                self.moves(random, depth, task, ("write", &format!("{to}, \"\", 1)")), Act::Write(object));
            }
            (14, Some((from, source)), Some((to, target))) => {
                let text = format!("{from}, NULL, {to}, NULL, 1, 0)");
                self.moves(random, depth, task, ("splice", &text), Act::Copy(source, target));
            }
            (15 | 16, ..) if self.running(|_| true).len() < 8 => self.fork(random, depth, task),
            (17, ..) => self.exec(random, depth, task),
            (18, ..) if self.tasks[task].group != 100 => self.kill(random, task),
            (19, Some((from, object)), _) if object < 4 => {
                let is_written = fds[&from].writes.is_some() && random.is_once_in(2);
                let flags = if is_written { "MAP_SHARED" } else { "MAP_PRIVATE" };
                let address = 16 + self.lines.len();
                self.says(
                    task,
                    &format!("mmap(NULL, 4096, PROT_READ, {flags}, {from}, 0) = 0x{address}000"),
                );
                self.space(task).maps.push((object, is_written));
                self.spread();
            }
            (20, ..) if depth == 0 && random.is_once_in(4) => {
                let (to, _) = FILES[random.below(4)];
                let Some(file) = file.filter(|_| path != to) else { return };
                self.says(task, &format!("rename(\"{path}\", \"{to}\") = 0"));
                self.paths.remove(path);
                self.paths.insert(to, file);
                self.spread();
            }
            (21..=23, ..) if self.running(|_| true).len() < 8 => self.thread(random, depth, task),
            (24, ..) => self.exit(random, task),
            _ => {}
        }
    }

    fn open(&mut self, random: &mut Random, task: usize, path: &str) {
        let Some(file) = self.paths.get(path).copied() else { return };
        let (flags, reads, writes) =
            [("O_RDONLY", true, false), ("O_WRONLY", false, true), ("O_RDWR", true, true)][random.below(3)];
        let ends_at_exec = random.is_once_in(4);
        let mark = if ends_at_exec { "|O_CLOEXEC" } else { "" };
        let fd = self.free_fd(task);
        self.says(task, &format!("openat(AT_FDCWD, \"{path}\", {flags}{mark}) = {fd}"));
        let entry = Fd { reads: reads.then_some(file), writes: writes.then_some(file), ends_at_exec };
        self.space(task).fds.insert(fd, entry);
    }

    /// Calls of others, while this one is in the middle of its own; whether it is still there.
    fn others(&mut self, random: &mut Random, depth: usize, task: usize, most: usize) -> bool {
        for _ in 0..random.below(most) {
            self.step(random, depth + 1);
        }
        self.tasks[task].is_alive
    }

    /// A call that moves data: in one line, or in two with calls of others before and after the moment itself.
    fn moves(
        &mut self,
        random: &mut Random,
        depth: usize,
        task: usize,
        (name, text): (&'static str, &str),
        act: Act,
    ) {
        if depth > 2 || random.is_once_in(2) {
            self.act(task, act);
            return self.says(task, &format!("{name}({text} = 1"));
        }
        // Reads are written with their buffer, which is known at the end alone.
        let cut = text.find("\"").filter(|_| name == "read").unwrap_or(text.len() - 1);
        self.says(task, &format!("{name}({} <unfinished ...>", &text[..cut]));
        self.tasks[task].begun = Some(name);
        if !self.others(random, depth, task, 4) {
            return;
        }
        self.act(task, act);
        if self.others(random, depth, task, 4) {
            self.tasks[task].begun = None;
            self.says(task, &format!("<... {name} resumed>{} = 1", &text[cut..]));
        }
    }

    /// A fork, whose child may act before the fork's second line.
    fn fork(&mut self, random: &mut Random, depth: usize, task: usize) {
        let is_vfork = random.is_once_in(3);
        let (name, text) =
            if is_vfork { ("vfork", "") } else { ("clone", "child_stack=NULL, flags=SIGCHLD") };
        let is_whole = depth > 2 || random.is_once_in(4);
        if !is_whole {
            self.says(task, &format!("{name}({text} <unfinished ...>"));
            self.tasks[task].begun = Some(name);
            if !self.others(random, depth, task, 4) {
                return;
            }
        }
        let child = self.next;
        self.next += 1;
        let mut copy = self.space(task).clone();
        if !is_vfork {
            let low = self.memories[copy.memory];
            copy.memory = self.memories.len();
            self.memories.push(low);
        }
        self.spaces.push(copy);
        self.add(child, child, self.spaces.len() - 1);
        if is_whole {
            return self.says(task, &format!("{name}({text}) = {child}"));
        }
        if self.others(random, depth, task, 5) {
            self.tasks[task].begun = None;
            self.says(task, &format!("<... {name} resumed>) = {child}"));
        }
    }

    /// Another thread, which may act before the clone's second line, too.
    fn thread(&mut self, random: &mut Random, depth: usize, task: usize) {
        let (flags, is_thread, has_table) = CLONES[random.below(CLONES.len())];
        let is_whole = depth > 2 || random.is_once_in(2);
        if !is_whole {
            self.says(task, &format!("clone3({{flags={flags}}} <unfinished ...>"));
            self.tasks[task].begun = Some("clone3");
            if !self.others(random, depth, task, 3) {
                return;
            }
        }
        let thread = self.next;
        self.next += 1;
        let Task { group, mut space, .. } = self.tasks[task];
        if !has_table {
            self.spaces.push(self.spaces[space].clone());
            space = self.spaces.len() - 1;
        }
        self.add(thread, if is_thread { group } else { thread }, space);
        if is_whole {
            return self.says(task, &format!("clone3({{flags={flags}}}, 88) = {thread}"));
        }
        if self.others(random, depth, task, 3) {
            self.tasks[task].begun = None;
            self.says(task, &format!("<... clone3 resumed>, 88) = {thread}"));
        }
    }

    /// The end of one that the kernel ends, as strace writes it.
    fn dies(&mut self, random: &mut Random, task: usize, line: &str) {
        if let Some(name) = self.tasks[task].begun.filter(|_| random.is_once_in(2)) {
            self.says(task, &format!("<... {name} resumed> <unfinished ...>) = ?"));
        }
        self.says(task, line);
        self.tasks[task].is_alive = false;
    }

    fn kill(&mut self, random: &mut Random, task: usize) {
        let group = self.tasks[task].group;
        for other in self.running(|other| other.group == group) {
            self.dies(random, other, "+++ killed by SIGTERM +++");
        }
    }

    /// A thread exits. Its process's own is waited for.
    fn exit(&mut self, random: &mut Random, task: usize) {
        let Task { process, group, .. } = self.tasks[task];
        let others = self.running(|other| other.group == group && other.process != process);
        if others.iter().all(|&other| self.tasks[other].has_exited) && group == 100 {
            return;
        }
        if random.is_once_in(2) || process == group {
            self.says(task, "exit(0) = ?");
        }
        self.tasks[task].has_exited = true;
        if process != group {
            self.dies(random, task, "+++ exited with 0 +++");
        }
        if self.running(|other| other.group == group && !other.has_exited).is_empty() {
            for last in self.running(|other| other.group == group) {
                self.dies(random, last, "+++ exited with 0 +++");
            }
        }
    }

    /// A program is run: the other threads of the process end, and this one has the process's number.
    fn exec(&mut self, random: &mut Random, depth: usize, task: usize) {
        let (program, level) = FILES[4 + random.below(2)];
        let Task { process, group, space, .. } = self.tasks[task];
        let call = format!("execve(\"{program}\", [], 0x1");
        let mates =
            |kernel: &Kernel| kernel.running(|other| other.group == group && other.process != process);
        let is_whole = mates(self).is_empty() && (depth > 2 || random.is_once_in(2));
        // strace writes it so where nothing comes between.
        let is_idle = mates(self).iter().all(|&other| self.tasks[other].begun.is_none());
        let is_moved = mates(self).len() == 1 && is_idle && process != group && random.is_once_in(2);
        if !is_whole && !is_moved {
            self.says(task, &format!("{call} <unfinished ...>"));
            self.tasks[task].begun = Some("execve");
            if !self.others(random, depth, task, 4) {
                return;
            }
        }
        if is_moved {
            self.says(task, &format!("{call} <pid changed to {group} ...>"));
        }
        for other in mates(self) {
            if self.tasks[other].process != group {
                self.dies(random, other, "+++ exited with 0 +++");
            }
        }
        for leader in mates(self) {
            let line = format!("+++ superseded by execve in pid {process} +++");
            self.dies(random, leader, &line);
        }
        self.tasks[task].process = group;
        self.tasks[task].begun = None;
        let mut own = self.spaces[space].clone();
        own.fds.retain(|_, entry| !entry.ends_at_exec);
        own.maps.clear();
        let low = self.memories[own.memory].min(level);
        own.memory = self.memories.len();
        self.memories.push(low);
        self.spaces.push(own);
        self.tasks[task].space = self.spaces.len() - 1;
        match is_whole {
            true => self.says(task, &format!("{call}) = 0")),
            false => self.says(task, "<... execve resumed>) = 0"),
        }
    }

    /// The rest of the trace: all end.
    fn ends(&mut self) {
        for is_leader in [false, true] {
            for task in self.running(|task| (task.process == task.group) == is_leader) {
                self.says(task, "+++ exited with 0 +++");
                self.tasks[task].is_alive = false;
            }
        }
    }
}

#[test]
fn what_really_leaks_is_refused() {
    let mut random = Random(5);
    let (mut leaks, mut quiet, mut stopped, mut clean_refusals, mut unseen) = (0, 0, 0, 0, 0);
    let (mut hidden, mut clear) = (0, 0);
    for round in 0..2000 {
        let mut kernel = Kernel::new();
        for _ in 0..10 + random.below(60) {
            kernel.step(&mut random, 0);
        }
        kernel.ends();
        let trace = kernel.lines.join("\n") + "\n";
        // Where a file is left out, what leaks from it is not refused; but nobody takes that for an all-clear.
        if let Ok(written) = attempt(trace.as_bytes(), WITHOUT_LOWEST, Options::default()) {
            match (kernel.has_leaked, written.report.verdict()) {
                (true, Verdict::Clear) => panic!("round {round}: a leak without a word\n{trace}"),
                (true, Verdict::Unseen) => hidden += 1,
                (false, Verdict::Clear) => clear += 1,
                _ => {}
            }
        }
        let one_step = Options { one_step: true, ..Options::default() };
        match (
            attempt(trace.as_bytes(), LEVELS, Options::default()),
            attempt(trace.as_bytes(), LEVELS, one_step),
        ) {
            (Ok(written), Ok(one)) => {
                let verdict = written.report.verdict();
                let refused = refused(&written.journal);
                assert!(refused.iter().all(|(_, number)| *number == 9), "round {round}\n{trace}");
                // With threads and without, every other call has the same answer.
                assert_eq!(plain(&written.journal), plain(&one.journal), "round {round}\n{trace}");
                assert_eq!(verdict, one.report.verdict(), "round {round}\n{trace}");
                match (kernel.has_leaked, verdict) {
                    (true, Verdict::Clear) => panic!("round {round}: a leak without a refusal\n{trace}"),
                    (true, Verdict::Refused) => leaks += 1,
                    (true, Verdict::Unseen) => unseen += 1,
                    (false, Verdict::Refused) => clean_refusals += 1,
                    (false, _) => quiet += 1,
                }
            }
            // Too many places or steps at once.
            (Err(Failure::Stopped(stop)), Err(Failure::Stopped(other))) => {
                assert_eq!((stop.line, &stop.message), (other.line, &other.message));
                assert!(
                    stop.message.contains(" at once")
                        || stop.message.contains("a 17th place")
                        || stop.message.contains("does not tell which of several processes made it"),
                    "{}\n{trace}",
                    stop.message
                );
                stopped += 1;
            }
            (one, other) => panic!("{:?}, {:?}\n{trace}", one.err(), other.err()),
        }
    }
    let counts = format!(
        "{leaks} leaks, {unseen} of them not seen, {quiet} quiet, {clean_refusals} only could have leaked, {stopped} \
         stopped"
    );
    assert!(leaks > 500 && quiet > 200 && clean_refusals > 100 && stopped < 100, "{counts}");
    assert!(hidden > 100 && clear > 100, "{hidden} leaks from what is left out, {clear} clear");
}
