//! Steps and their threads: who runs, who stands still, and how each goes on.
//!
//! A step is *loud* while a read or write on one of its handles would lower somebody; else it is quiet, and its reads and
//! writes change nothing. Quiet steps run without a stop at their data calls. Before a call goes on that makes a step
//! loud, all its threads stand still: a read that was waiting begins again, and is seen.

use std::collections::{HashMap, HashSet, VecDeque};
use std::os::fd::{AsFd, BorrowedFd, OwnedFd};

use crate::files::Files;
use crate::proc;
use crate::sys::{self, Stop, Tid, EVENT_EXIT};
use crate::told::{Loud, Told};
use crate::words::{fail, say};

/// A thread.
pub struct Task {
    pub process: Tid,
    /// It is not stopped, as far as the guard knows.
    pub runs: bool,
    /// It has begun to exit, and makes no call any more.
    pub leaves: bool,
    /// Its own number, where it is not the first thread of its process and there was one for it.
    pub number: Option<u64>,
}

impl Task {
    pub fn of(process: Tid, runs: bool) -> Task {
        Task { process, runs, leaves: false, number: None }
    }
}

/// A process: one step of the gatekeeper.
pub struct Step {
    pub number: u64,
    pub loud: Loud,
    /// Its exit has been told.
    pub is_over: bool,
}

pub struct Guard {
    pub told: Told,
    pub files: Files,
    pub tasks: HashMap<Tid, Task>,
    pub steps: HashMap<Tid, Step>,
    /// New threads that stopped before their maker's event, and those that even ended.
    pub parked: HashSet<Tid>,
    pub dead: HashSet<Tid>,
    /// Stops that are still to be dealt with, in their order.
    pub backlog: VecDeque<(Tid, Stop)>,
    pub listener: OwnedFd,
    pub proc_devices: Vec<u64>,
    /// Refuse nothing that the gatekeeper would, but say it.
    pub is_dry: bool,
    pub first: Tid,
    pub status: i32,
    /// What was said once and is not said again.
    pub said: HashSet<String>,
    pub counts: Counts,
}

/// What the report has.
#[derive(Default)]
pub struct Counts {
    pub steps: u64,
    pub asked: u64,
    pub scans: u64,
    pub interrupts: u64,
}

/// What a call came to that the guard saw through.
pub enum Outcome {
    /// It came back with this.
    Back(i64),
    /// A new process, or thread.
    Forked(Tid),
    /// Another program runs.
    Ran,
    /// The thread is gone, or about to go.
    Gone,
}

impl Guard {
    pub fn listener(&self) -> BorrowedFd<'_> {
        self.listener.as_fd()
    }

    /// The step of a thread.
    pub fn step_of(&self, tid: Tid) -> Option<u64> {
        let task = self.tasks.get(&tid)?;
        self.steps.get(&task.process).map(|step| step.number)
    }

    /// The threads of a process.
    pub fn threads(&self, process: Tid) -> Vec<Tid> {
        self.tasks.iter().filter(|(_, task)| task.process == process).map(|(&tid, _)| tid).collect()
    }

    pub fn processes(&self) -> HashSet<Tid> {
        self.steps.keys().copied().collect()
    }

    /// A line that is said once.
    pub fn say_once(&mut self, text: String) {
        if self.said.insert(text.clone()) {
            say(&text);
        }
    }

    /// A step as people know it.
    pub fn who(&self, tid: Tid) -> String {
        let process = self.tasks.get(&tid).map_or(tid, |task| task.process);
        let name = self.step_of(tid).map_or("", |step| self.told.program(step));
        format!("{name} (process {process})")
    }

    /// Lets a thread go on: to its next call where its step is loud. One whose next stop waits already stays.
    pub fn resume(&mut self, tid: Tid, signal: i32) {
        if self.backlog.iter().any(|&(other, _)| other == tid) {
            return;
        }
        let Some(task) = self.tasks.get_mut(&tid) else { return };
        task.runs = true;
        let is_loud = self.steps.get(&task.process).is_some_and(|step| !step.loud.is_quiet());
        if is_loud {
            sys::go_to_call(tid, signal);
        } else {
            sys::go_on(tid, signal);
        }
    }

    /// Makes a thread stand still; what it stopped for is dealt with later.
    fn halt(&mut self, tid: Tid) {
        if !self.tasks.get(&tid).is_some_and(|task| task.runs && !task.leaves) || !sys::interrupt(tid) {
            return;
        }
        let Some((_, stop)) = sys::wait(Some(tid), true) else { return };
        self.counts.interrupts += 1;
        if let Some(task) = self.tasks.get_mut(&tid) {
            task.runs = false;
        }
        self.backlog.push_back((tid, stop));
    }

    /// Makes all threads of a process stand still, but for the one that asks.
    pub fn halt_others(&mut self, process: Tid, current: Tid) {
        for tid in self.threads(process) {
            if tid != current {
                self.halt(tid);
            }
        }
    }

    /// After the gatekeeper was told something: steps for which a read or write on some handle would lower somebody from
    /// now on stand still before the call of `current` goes on, then run from call to call. Also those that do so
    /// already: one of them may wait in a read that was quiet when it began.
    pub fn settle(&mut self, current: Tid) {
        let processes: Vec<Tid> = self.steps.keys().copied().collect();
        for process in processes {
            let step = &self.steps[&process];
            if step.is_over {
                continue;
            }
            let loud = self.told.loud(step.number);
            let is_louder = loud.exceeds(&step.loud);
            let own = self.tasks.get(&current).is_some_and(|task| task.process == process);
            if is_louder {
                self.halt_others(process, current);
                if own && self.tasks[&current].runs {
                    // It waits for the answer to an open, and stops on its way back to the program.
                    self.counts.interrupts += 1;
                    sys::interrupt(current);
                }
            } else if !loud.is_quiet() && own {
                // Another thread may be on its way to a descriptor that this call makes anew.
                self.halt_others(process, current);
            }
            if let Some(step) = self.steps.get_mut(&process) {
                step.loud = loud;
            }
        }
    }

    /// Makes the tables exact: all steps stand still, exits under way are told, and so is what each process no longer
    /// holds.
    pub fn put_right(&mut self, current: Tid) {
        self.counts.scans += 1;
        let all: Vec<Tid> = self.tasks.keys().copied().collect();
        for tid in all {
            if tid != current {
                self.halt(tid);
            }
        }
        self.tell_exits(current);
        let steps: Vec<(Tid, u64)> = self
            .steps
            .iter()
            .filter(|(_, step)| !step.is_over)
            .map(|(&pid, step)| (pid, step.number))
            .collect();
        for (process, number) in steps {
            // One that cannot be looked at keeps what it has.
            if let Some(held) = proc::held(process) {
                self.told.put_right(number, &held);
            }
        }
    }

    /// Deals with the ends that wait: who stands at its exit makes no call any more.
    pub fn tell_exits(&mut self, current: Tid) {
        let is_end =
            |stop: &Stop| matches!(stop, Stop::Event(EVENT_EXIT, _) | Stop::Exited(_) | Stop::Killed(_));
        let (ends, rest): (Vec<_>, Vec<_>) = self.backlog.drain(..).partition(|(_, stop)| is_end(stop));
        self.backlog = rest.into();
        for (tid, stop) in ends {
            if tid != current {
                self.handle(tid, stop);
            } else {
                self.backlog.push_back((tid, stop));
            }
        }
    }

    /// Lets a thread make the call at whose entry it stands, and waits for what comes of it. Nothing else is dealt with
    /// meanwhile but the ends of threads, which an exec waits for.
    pub fn see_through(&mut self, tid: Tid) -> Outcome {
        let process = self.tasks.get(&tid).map_or(tid, |task| task.process);
        if !sys::go_to_call(tid, 0) {
            return Outcome::Gone;
        }
        loop {
            let Some((who, stop)) = sys::wait(None, true) else { return Outcome::Gone };
            let is_mine = who == tid || who == process && matches!(stop, Stop::Event(sys::EVENT_EXEC, _));
            match stop {
                Stop::Event(sys::EVENT_EXEC, _) if is_mine => {
                    self.become_leader(tid, process);
                    return Outcome::Ran;
                }
                Stop::Event(sys::EVENT_FORK | sys::EVENT_VFORK | sys::EVENT_CLONE, _) if is_mine => {
                    self.stopped(tid);
                    return sys::made_by(tid).map_or(Outcome::Gone, Outcome::Forked);
                }
                Stop::Call if is_mine => {
                    let info = sys::call_info(tid);
                    if info.is_exit() {
                        self.stopped(tid);
                        return Outcome::Back(info.number as i64);
                    }
                    sys::go_to_call(tid, 0);
                }
                Stop::Exited(_) | Stop::Killed(_) | Stop::Event(EVENT_EXIT, _) if is_mine => {
                    self.stopped(tid);
                    self.backlog.push_back((who, stop));
                    return Outcome::Gone;
                }
                Stop::Event(sys::EVENT_STOP, _) if is_mine => {
                    sys::go_to_call(tid, 0);
                }
                Stop::Signal(signal) if is_mine => {
                    sys::go_to_call(tid, signal);
                }
                Stop::Exited(_) | Stop::Killed(_) | Stop::Event(EVENT_EXIT, _)
                    if self.tasks.get(&who).is_some_and(|task| task.process == process) =>
                {
                    self.handle(who, stop);
                }
                _ => {
                    self.stopped(who);
                    self.backlog.push_back((who, stop));
                }
            }
        }
    }

    pub fn stopped(&mut self, tid: Tid) {
        if let Some(task) = self.tasks.get_mut(&tid) {
            task.runs = false;
        }
    }

    /// After an exec the process has one thread, with the process's number, whichever made the call; that one's own
    /// number is gone without a word. Others are about to end, or have.
    fn become_leader(&mut self, tid: Tid, process: Tid) {
        if let Some(task) = self.tasks.remove(&tid) {
            self.give_up(task.number);
        }
        self.tasks.insert(process, Task::of(process, false));
        self.backlog.retain(|&(who, stop)| {
            let is_old = who == tid || who == process;
            !is_old || matches!(stop, Stop::Killed(_) | Stop::Exited(_))
        });
    }

    /// A process that cannot be followed is ended, in words.
    pub fn end(&mut self, process: Tid, why: &str) {
        say(&format!("{}: {why}: it is ended", self.who(process)));
        sys::send_signal(process, sys::SIGKILL);
    }

    /// The number of the step that a thread belongs to, which it must have.
    pub fn must_step(&self, tid: Tid) -> u64 {
        self.step_of(tid).unwrap_or_else(|| fail("a thread of no step has made a call"))
    }
}
