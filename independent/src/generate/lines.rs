//! Typed lines by seed, each with calls that come before it and with the three numbers of RULES L7.
//!
//! The calls make something for the line to do: files of several levels, a shell that holds handles already or has mates,
//! other steps, a freeze, or tables that are nearly full; or they are tidy, so that most of the line is allowed. The
//! numbers for children and pipes are free as a rule; else some of them are in use, too high, or go on from
//! 18446744073709551615 to 0.

mod clerk;

use std::fmt;

use super::{Draft, Style};
use crate::calls::Numbers;
use crate::lines::{run_by, Ran, Start};
use crate::monitor::Monitor;
use crate::random::Random;
use crate::records::{read_body, Body, Reader};
use crate::tables::LIMITS;
use crate::variants::lines::LineRules;
use crate::variants::Rules;
use crate::words::call_in_words;
use clerk::Clerk;

/// A line, what comes before it, and the numbers that come with it.
#[derive(Clone, Debug, PartialEq, Eq)]
pub struct Trial {
    /// Direct calls from empty tables, some of them refused: a code and six numbers each.
    pub setup: Vec<(u64, Numbers)>,
    pub line: Vec<u8>,
    pub shell: u64,
    pub child: u64,
    pub pipe: u64,
}

impl Trial {
    /// The monitor after the calls that come before the line.
    pub fn monitor(&self) -> Monitor {
        after(&self.setup)
    }

    /// RULES L7: the numbers that come with the line.
    pub fn start(&self) -> Start {
        let Trial { shell, child, pipe, .. } = *self;
        Start { shell, child, pipe }
    }

    /// Runs the line: the monitor after it, and what came of it.
    pub fn run(&self, rules: LineRules) -> (Monitor, Ran) {
        let mut monitor = self.monitor();
        let ran = run_by(&mut monitor, &self.line, self.start(), rules);
        (monitor, ran)
    }
}

/// The calls before it in words, then the line and its numbers.
impl fmt::Display for Trial {
    fn fmt(&self, out: &mut fmt::Formatter) -> fmt::Result {
        for (code, numbers) in &self.setup {
            writeln!(out, "{}", call_in_words(*code, numbers))?;
        }
        let Trial { line, shell, child, pipe, .. } = self;
        let line = line.escape_ascii();
        writeln!(out, "\"{line}\" with shell {shell}, first child {child}, first pipe {pipe}")
    }
}

/// The trial `index` of a seed.
pub fn trial(seed: u64, index: u64) -> Trial {
    let mut draft = Draft::new(Random::new(seed, index));
    let setting = draft.random.below(20);
    let is_tidy = setting > 15;
    let shell = match setting {
        // From nothing.
        0 => 0,
        1..=4 => draft.any_setting(),
        _ => draft.counting_house(is_tidy),
    };
    let setup = calls_in(&draft.journal);
    draft.picture = after(&setup);
    let shell = if is_tidy { shell } else { draft.shell_or_odd(shell) };
    let child = draft.first_child(shell, is_tidy);
    let pipe = draft.first_pipe(is_tidy);
    let line = Clerk::new(&mut draft, Start { shell, child, pipe }, is_tidy).line();
    Trial { setup, line, shell, child, pipe }
}

/// The trials of a seed, without end.
pub fn trials(seed: u64) -> impl Iterator<Item = Trial> {
    (0..).map(move |index| trial(seed, index))
}

/// The monitor after these calls, from empty tables.
fn after(calls: &[(u64, Numbers)]) -> Monitor {
    let mut monitor = Monitor::new();
    for &(code, numbers) in calls {
        // A refused call is as good for a comparison.
        let _ = monitor.call(code, numbers);
    }
    monitor
}

/// The calls of a journal's good records.
fn calls_in(journal: &[u8]) -> Vec<(u64, Numbers)> {
    let rules = Rules::default();
    let mut reader = Reader::new(journal, rules);
    let mut calls = Vec::new();
    while let Some(Ok(span)) = reader.next_record() {
        if let Body::Call { code, numbers } = read_body(journal, span, rules) {
            calls.push((code, numbers));
        }
    }
    calls
}

impl Draft {
    /// A journal's calls, and a shell that holds handles if there is one.
    fn any_setting(&mut self) -> u64 {
        let styles = [Style::Payrun, Style::Calls, Style::Calls, Style::Full, Style::Rings];
        let style = self.random.pick(&styles).unwrap_or(Style::Calls);
        let calls = self.random.between(5, 120) as u32;
        self.fill(style, calls);
        let tables = self.picture.tables();
        let holders: Vec<u64> = tables.handles().map(|(s, _, _)| s).collect();
        let live: Vec<u64> = tables.live_subjects().collect();
        let holder = self.random.pick(&holders);
        let any = self.random.pick(&live).unwrap_or(0);
        if self.random.once_in(2) {
            any
        } else {
            holder.unwrap_or(any)
        }
    }

    /// Files of a few levels and a shell; and what may be in a line's way, unless it is tidy.
    fn counting_house(&mut self, is_tidy: bool) -> u64 {
        let top = self.levels[self.levels.len() - 1];
        // With one set for all, sets are in no line's way.
        if is_tidy && !self.random.once_in(4) {
            self.sets = vec![self.all_marks()];
        }
        for level in self.levels.clone() {
            for _ in 0..self.random.between(1, 2) {
                let o = self.free_object();
                self.register(o, level);
            }
        }
        let shell = match self.random.below(8) {
            0 => LIMITS.subjects - 1,
            1 => self.random.below(LIMITS.subjects),
            2 => 1,
            _ => 0,
        };
        let level = if !is_tidy && self.random.once_in(5) { self.level() } else { top };
        self.admit(shell, level);
        if !is_tidy {
            self.obstacles(shell);
        }
        shell
    }

    /// Other steps, any calls, handles of the shell, tables without room, a freeze.
    fn obstacles(&mut self, shell: u64) {
        for _ in 0..self.random.pick(&[0, 0, 1, 3]).unwrap_or(0) {
            let numbers = self.numbers_for(1);
            self.record(1, &numbers);
        }
        if self.random.once_in(3) {
            for _ in 0..self.random.between(1, 10) {
                self.any_call();
            }
        }
        if self.random.once_in(2) {
            self.held_by_shell(shell);
        }
        if self.random.once_in(5) {
            self.mates_of_shell(shell);
        }
        if self.random.once_in(5) {
            let room = self.random.pick(&[0, 1, 1, 2, 2, 3, 5]).unwrap_or(0);
            while self.space() > room {
                let numbers = self.numbers_for(2);
                self.record(2, &numbers);
            }
        }
        if self.random.once_in(10) {
            let room = self.random.below(6);
            while self.free_subjects().len() as u64 > room {
                let numbers = self.numbers_for(1);
                self.record(1, &numbers);
            }
        }
        if self.random.once_in(7) {
            let level = self.level();
            self.record(16, &[level]);
        }
    }

    /// Handles of the shell, at places that a line uses and at others; some are marked, some are mappings.
    fn held_by_shell(&mut self, shell: u64) {
        for _ in 0..self.random.between(1, 4) {
            let place = match self.random.below(8) {
                0..=2 => self.random.below(4),
                3 => 14,
                4 => 15,
                5 => 13,
                _ => self.random.below(LIMITS.places),
            };
            let file = self.live_object(None);
            match self.random.below(8) {
                0 => {
                    let numbers = [shell, self.free_object(), place, self.free_place(shell)];
                    self.record(4, &numbers);
                }
                1 => self.record(14, &[shell, file, place]),
                2 | 3 => self.record(6, &[shell, file, place]),
                _ => self.record(5, &[shell, file, place]),
            }
            if self.random.once_in(3) {
                self.record(15, &[shell, place]);
            }
        }
    }

    /// Threads beside the shell, which hold handles of their own.
    fn mates_of_shell(&mut self, shell: u64) {
        for _ in 0..self.random.between(1, 3) {
            let mate = self.free_subject();
            self.record(18, &[shell, mate]);
            if !self.random.once_in(3) {
                self.open_something(mate);
            }
        }
    }

    fn free_subjects(&self) -> Vec<u64> {
        let tables = self.picture.tables();
        (0..LIMITS.subjects).filter(|&s| tables.subject(s).is_none()).collect()
    }

    /// This shell, or now and then one that is not live.
    fn shell_or_odd(&mut self, shell: u64) -> u64 {
        match self.random.below(40) {
            0 => LIMITS.subjects,
            1 => shell.wrapping_add(1 << 32),
            2 => self.random.pick(&self.free_subjects()).unwrap_or(shell),
            _ => shell,
        }
    }

    /// The first child's number: eight free ones from there on, most often.
    fn first_child(&mut self, shell: u64, is_tidy: bool) -> u64 {
        let free = self.free_subjects();
        let is_free = |from: u64| (from..from + 8).all(|s| free.contains(&s));
        let fit: Vec<u64> = (0..LIMITS.subjects).filter(|&s| is_free(s)).collect();
        let first = fit.first().or(free.first()).copied().unwrap_or(0);
        match self.random.below(16) {
            _ if is_tidy => first,
            0 => self.random.below(LIMITS.subjects),
            1 => self.random.between(LIMITS.subjects - 7, LIMITS.subjects + 1),
            2 => u64::MAX - self.random.below(7),
            3 => shell.wrapping_sub(self.random.below(4)),
            4 => self.random.pick(&[(1 << 32) - 2, 1 << 32, (1 << 32) + first]).unwrap_or(0),
            5 | 6 => self.random.pick(&free).unwrap_or(0),
            7 | 8 => self.random.pick(&fit).unwrap_or(first),
            9 => {
                let mates: Vec<u64> = self.picture.tables().mates(shell).collect();
                self.random.pick(&mates).unwrap_or(first)
            }
            _ => first,
        }
    }

    /// The first pipe's number: seven free ones from there on, most often.
    fn first_pipe(&mut self, is_tidy: bool) -> u64 {
        let tables = self.picture.tables();
        let live: Vec<u64> = tables.live_objects().collect();
        let firsts = [64, 64, 64, 100, 1000, (1 << 32) - 3, 1 << 63];
        let first = self.random.pick(&firsts).unwrap_or(64);
        let is_free = |from: u64| (0..7).all(|i| !live.contains(&from.wrapping_add(i)));
        let first = (first..).find(|&from| is_free(from)).unwrap_or(first);
        match self.random.below(12) {
            _ if is_tidy => first,
            0 | 1 => u64::MAX - self.random.below(7),
            2 | 3 => {
                let object = self.random.pick(&live).unwrap_or(0);
                object.wrapping_sub(self.random.below(6))
            }
            4 => (1 << 32) - self.random.below(6),
            _ => first,
        }
    }
}

#[cfg(test)]
mod tests {
    use super::*;

    #[test]
    fn a_seed_gives_the_same_trials_again() {
        let first: Vec<Trial> = trials(5).take(40).collect();
        let again: Vec<Trial> = trials(5).take(40).collect();
        assert_eq!(first, again);
        assert_eq!(first[7], trial(5, 7));
        assert_ne!(first[0], trial(6, 0));
    }

    #[test]
    fn the_setup_is_of_known_calls() {
        for trial in trials(1).take(200) {
            for (code, numbers) in &trial.setup {
                let words = call_in_words(*code, numbers);
                assert!((1..=18).contains(code), "{words}");
            }
            assert!(trial.to_string().lines().count() == trial.setup.len() + 1);
        }
    }
}
