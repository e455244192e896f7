//! The loop: calls that ask, threads that stop, and processes that end.

use std::os::fd::{AsFd, BorrowedFd};

use crate::calls::{self, rule_with, Rule, ENOSYS, EPERM};
use crate::guard::{Guard, Step, Task};
use crate::proc::{parent_of, process_of};
use crate::sys::{self, Asked, Errno, Stop, Tid};
use crate::words::{fail, say};

impl Guard {
    /// Follows the run until its last process has ended.
    pub fn run(&mut self, signals: BorrowedFd) {
        let mut has_listeners = true;
        self.reap();
        while !self.tasks.is_empty() {
            if let Some((tid, stop)) = self.backlog.pop_front() {
                self.handle(tid, stop);
                continue;
            }
            let listener = has_listeners.then(|| self.listener.as_fd());
            let (asks, has_signals, is_deserted) = sys::await_either(listener, signals);
            has_listeners &= !is_deserted;
            if has_signals {
                while let Some(number) = sys::next_signal(signals) {
                    // What people send to the guard is meant for the command; the terminal tells both by itself.
                    if number == sys::SIGTERM || number == sys::SIGHUP {
                        sys::send_signal(self.first, number);
                    }
                }
                self.reap();
            } else if asks {
                if let Some(asked) = sys::receive(self.listener()) {
                    self.asked(&asked);
                }
            }
        }
    }

    /// Takes the stops that there are.
    pub fn reap(&mut self) {
        while let Some((tid, stop)) = sys::wait(None, false) {
            self.stopped(tid);
            self.backlog.push_back((tid, stop));
        }
    }

    /// What a thread stopped for.
    pub fn handle(&mut self, tid: Tid, stop: Stop) {
        if let Stop::Exited(_) | Stop::Killed(_) = stop {
            return self.ended(tid, stop);
        }
        let Some(task) = self.tasks.get_mut(&tid) else {
            if let Stop::Event(sys::EVENT_EXIT, _) = stop {
                // Killed with its maker, before that could tell of it.
                sys::go_on(tid, 0);
            } else {
                // A new one, of which its maker's event will tell.
                self.parked.insert(tid);
                self.end_orphans();
            }
            return;
        };
        task.runs = false;
        let process = task.process;
        match stop {
            // Forks are seen through at their entry; this is a thread.
            Stop::Event(sys::EVENT_FORK | sys::EVENT_VFORK | sys::EVENT_CLONE, _) => {
                if let Some(made) = sys::made_by(tid) {
                    self.forked(tid, made, process);
                }
                self.resume(tid, 0);
            }
            Stop::Event(sys::EVENT_EXEC, _) => {
                self.end(process, "it runs a program that nobody was asked about")
            }
            Stop::Event(sys::EVENT_EXIT, _) => {
                task.leaves = true;
                let number = task.number.take();
                self.give_up(number);
                if self.tasks.values().all(|task| task.process != process || task.leaves) {
                    self.left(process);
                }
                sys::go_on(tid, 0);
            }
            Stop::Event(sys::EVENT_SECCOMP, _) => self.traced(tid, &sys::call_info(tid)),
            Stop::Event(sys::EVENT_STOP, signal) if signal != sys::SIGTRAP => {
                task.runs = true;
                sys::stay_stopped(tid);
            }
            Stop::Call => {
                let info = sys::call_info(tid);
                if info.is_entry() {
                    self.enters(tid, &info);
                }
                self.resume(tid, 0);
            }
            Stop::Signal(signal) => self.resume(tid, signal),
            Stop::Event(..) => self.resume(tid, 0),
            Stop::Exited(_) | Stop::Killed(_) => {}
        }
    }

    /// A new thread of a process; or a new process, of which it is the first.
    pub fn forked(&mut self, maker: Tid, child: Tid, process: Tid) {
        // Its first stop may have come before: then it stands still until that is dealt with.
        let is_parked = self.parked.remove(&child);
        let runs = !is_parked && self.backlog.iter().all(|&(tid, _)| tid != child);
        self.tasks.insert(child, Task::of(process, runs));
        if process != child {
            self.take_number(child, process);
        } else {
            let parent = self.must_step(maker);
            // Its entry has seen to a number.
            let Some(number) = self.told.free_step() else {
                fail("a 33rd step has come by an unknown way")
            };
            self.told.fork(parent, number);
            self.counts.steps += 1;
            self.steps.insert(child, Step { number, loud: Default::default(), is_over: false });
        }
        self.settle(maker);
        if self.dead.remove(&child) {
            return self.ended(child, Stop::Killed(sys::SIGKILL));
        }
        if is_parked {
            self.resume(child, 0);
        }
    }

    /// Ends new processes whose maker was killed as it made them: nobody will tell of them, and they have done nothing yet.
    fn end_orphans(&mut self) {
        let is_orphan = |tid: &Tid| {
            process_of(*tid) == Some(*tid)
                && parent_of(*tid).is_some_and(|maker| !self.steps.contains_key(&maker))
        };
        let orphans: Vec<Tid> = self.parked.iter().copied().filter(is_orphan).collect();
        for tid in orphans {
            self.parked.remove(&tid);
            say(&format!("process {tid}: its maker was killed as it made it: it is ended"));
            sys::send_signal(tid, sys::SIGKILL);
        }
    }

    /// A thread has a number of its own where there is one; else it is taken for its process, with the same answers. One
    /// that is killed as it comes, with all of its process, needs none.
    fn take_number(&mut self, tid: Tid, process: Tid) {
        let step = self.steps.get(&process).filter(|step| !step.is_over).map(|step| step.number);
        let free = self.told.free_step().filter(|_| self.told.journal.has_room(1));
        let (Some(step), Some(number)) = (step, free) else { return };
        self.told.thread(step, number);
        if let Some(task) = self.tasks.get_mut(&tid) {
            task.number = Some(number);
        }
    }

    /// Gives a thread's number up: it ends, or another process needs it.
    pub fn give_up(&mut self, number: Option<u64>) {
        if let Some(number) = number {
            self.told.exit(number);
        }
    }

    /// The last thread of a process begins to exit: that is told before the kernel closes anything.
    fn left(&mut self, process: Tid) {
        let Some(step) = self.steps.get_mut(&process) else { return };
        if !std::mem::replace(&mut step.is_over, true) {
            let number = step.number;
            self.told.exit(number);
        }
    }

    fn ended(&mut self, tid: Tid, stop: Stop) {
        self.parked.remove(&tid);
        if tid == self.first {
            self.status = match stop {
                Stop::Killed(signal) => 128 + signal,
                Stop::Exited(status) => status,
                _ => self.status,
            };
        }
        let Some(task) = self.tasks.remove(&tid) else {
            self.dead.insert(tid);
            return;
        };
        self.give_up(task.number);
        if tid == task.process {
            // The kernel tells of a process's end when all its threads have ended.
            for other in self.threads(tid) {
                let other = self.tasks.remove(&other);
                self.give_up(other.and_then(|other| other.number));
            }
        }
        if !self.tasks.values().any(|other| other.process == task.process) {
            self.left(task.process);
            self.steps.remove(&task.process);
            self.end_orphans();
        }
    }

    /// A call that waits for an answer.
    fn asked(&mut self, asked: &Asked) {
        self.counts.asked += 1;
        let tid = asked.tid as Tid;
        let result = match self.step_of(tid) {
            Some(step) => self.answer(asked, tid, step),
            None => Some(Err(Errno(EPERM))),
        };
        if let Some(result) = result {
            sys::respond(self.listener(), asked.id, result);
        }
    }

    /// The answer; none where it has been given.
    fn answer(&mut self, asked: &Asked, tid: Tid, step: u64) -> Option<Result<(), Errno>> {
        let call = asked.call as u32;
        match (rule_with(call, &asked.arguments), call) {
            (Rule::Refused(error, why), _) => {
                let (name, program) = (calls::name(call), self.told.program(step).to_string());
                self.say_once(format!("refused: {program} may not use {name}: {why}"));
                Some(Err(Errno(error)))
            }
            (Rule::Ask, calls::TRUNCATE) => Some(self.truncates(tid, step, &asked.arguments)),
            (Rule::Ask, calls::RENAME | calls::RENAMEAT | calls::RENAMEAT2) => {
                Some(self.renames(tid, call, &asked.arguments))
            }
            (Rule::Ask, calls::LINK | calls::LINKAT) => Some(self.links(tid, call, &asked.arguments)),
            (Rule::Ask, _) => match self.opens(tid, step, call, &asked.arguments) {
                Ok((file, flags)) => {
                    sys::give(self.listener(), asked.id, file.as_fd(), flags).err().map(Err)
                }
                Err(error) => Some(Err(error)),
            },
            _ => Some(Err(Errno(ENOSYS))),
        }
    }
}
