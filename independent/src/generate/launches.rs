//! Launchers: steps that open a high file, mark the handle as a rule, and run a low program (RULES C10, C15).

use super::Draft;
use crate::tables::{Kind, LIMITS};

/// Who launches, the high file and the low program.
#[derive(Clone, Copy)]
struct Launch {
    s: u64,
    high: u64,
    low: u64,
}

impl Draft {
    /// A launcher's calls: alone, with a step that it forks, or beside a step with marks of its own.
    pub(super) fn launch(&mut self) {
        let odd = std::mem::replace(&mut self.odd_numbers, 0);
        let launch = self.launcher();
        if self.random.once_in(4) {
            self.launch_beside(launch);
        } else {
            self.launch_alone(launch);
        }
        self.odd_numbers = odd;
    }

    /// A subject, new every second time, with a file that it may write to and a program below that.
    fn launcher(&mut self) -> Launch {
        let top = self.levels.last().copied().unwrap_or(15);
        let low = self.levels.first().copied().unwrap_or(0);
        let s = if self.random.once_in(2) { self.live_subject() } else { self.free_subject() };
        if self.picture.tables().subject(s).is_none() {
            self.admit(s, top);
        }
        let level = self.picture.tables().subject(s).map_or(top, |subject| subject.level);
        let high = self.file_at(level);
        let low = self.file_at(low);
        Launch { s, high, low }
    }

    /// A file of this level, registered if there is none.
    pub(super) fn file_at(&mut self, level: u64) -> u64 {
        let tables = self.picture.tables();
        let is_fit = |&o: &u64| {
            tables.object(o).is_some_and(|object| object.kind == Kind::File && object.level == level)
        };
        let files: Vec<u64> = tables.live_objects().filter(is_fit).collect();
        self.random.pick(&files).unwrap_or_else(|| {
            let o = self.free_object();
            self.register(o, level);
            o
        })
    }

    /// The launcher opens the high file and runs the program; marks, a second handle, a pipe and a fork come
    /// between, and what is left is used after it.
    fn launch_alone(&mut self, Launch { s, high, low }: Launch) {
        let p = self.free_place(s);
        self.record(6, &[s, high, p]);
        let pipe = if self.random.once_in(3) { self.marked_pipe(s) } else { high };
        if self.random.once_in(4) {
            let code = self.random.between(5, 6);
            let numbers = [s, self.file_or(high, low), self.free_place(s)];
            self.record(code, &numbers);
        }
        if !self.random.once_in(5) {
            self.record(15, &[s, p]);
        }
        if self.random.once_in(6) {
            let code = self.random.pick(&[8, 15]).unwrap_or(15);
            self.record(code, &[s, p]);
        }
        let mut runner = s;
        if self.random.once_in(3) {
            let c = self.free_subject();
            self.record(9, &[s, c]);
            runner = if self.random.once_in(3) { s } else { c };
        }
        self.record(10, &[runner, low]);
        for _ in 0..self.random.between(1, 4) {
            self.after_launch(Launch { s: runner, high, low }, p, pipe);
        }
    }

    /// A pipe of which one end or both are marked; its number.
    fn marked_pipe(&mut self, s: u64) -> u64 {
        let o = self.free_object();
        let (r, w) = (self.free_place(s), self.free_place(s));
        self.record(4, &[s, o, r, w]);
        let ends = self.random.below(4);
        if ends != 1 {
            self.record(15, &[s, r]);
        }
        if ends != 2 {
            self.record(15, &[s, w]);
        }
        o
    }

    fn file_or(&mut self, one: u64, other: u64) -> u64 {
        self.random.pick(&[one, other]).unwrap_or(one)
    }

    /// What follows an exec, allowed or refused: the place is used or opened again, the pipe's number is asked
    /// for, the program is run once more.
    fn after_launch(&mut self, Launch { s, high, low }: Launch, p: u64, pipe: u64) {
        match self.random.below(8) {
            0 => self.record(8, &[s, p]),
            1 => self.record(11, &[s, p]),
            2 | 3 => {
                // Opened where a handle was closed, this one has no mark: another exec leaves it.
                let code = self.random.between(5, 6);
                let o = self.file_or(low, high);
                self.record(code, &[s, o, p]);
                self.record(10, &[s, low]);
                self.record(if code == 5 { 7 } else { 8 }, &[s, p]);
            }
            4 => self.register(pipe, self.levels[0]),
            5 => self.record(15, &[s, p]),
            6 => {
                // Every handle is marked: nothing is in the way any more.
                for p in 0..LIMITS.places {
                    let held = self.picture.tables().handle(s, p);
                    if held.is_some_and(|handle| !handle.marked) {
                        self.record(15, &[s, p]);
                    }
                }
                self.record(10, &[s, low]);
            }
            _ => self.any_call(),
        }
    }

    /// The launcher writes to a pipe that another step reads. That one has the high file open, marked: its mark
    /// does not help the launcher, whose own would.
    fn launch_beside(&mut self, Launch { s, high, low }: Launch) {
        let pipe = self.free_object();
        let (r, w) = (self.free_place(s), self.free_place(s));
        self.record(4, &[s, pipe, r, w]);
        let t = self.free_subject();
        self.record(9, &[s, t]);
        self.record(11, &[s, r]);
        self.record(11, &[t, w]);
        let p = self.free_place(t);
        self.record(6, &[t, high, p]);
        self.record(15, &[t, p]);
        if self.random.once_in(3) {
            self.record(15, &[s, w]);
        }
        self.record(10, &[s, low]);
        self.record(8, &[t, p]);
        let runner = if self.random.once_in(2) { s } else { t };
        self.after_launch(Launch { s: runner, high, low }, p, pipe);
    }
}
