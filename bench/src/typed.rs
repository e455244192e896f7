//! Typed lines: on which tables each is run, and with which numbers. It leaves the tables as it finds them.

use std::hint::black_box;

use gatekeeper::{Call, Counts, Monitor, Refusal, State};
use gatekeeper_plain::lines::{Counts as PlainCounts, Start};
use gatekeeper_plain::refusals::Refusal as PlainRefusal;
use gatekeeper_plain::{Monitor as PlainMonitor, When};

use crate::inputs::Input;
use crate::layouts::{numbered, rings_of_4, Numbered, ALL_SHOPS, LOW_FILE, REGISTER};

/// How often the line is typed in a round.
const LINES: usize = 50;

/// The level of the shell.
const LEVEL: u64 = 12;

/// A file of level 14, 15, 12 or 13, which is a program or read, and one of level 9, which is written.
const READ: u64 = 50;
const WRITTEN: u64 = LOW_FILE + 9;

/// A line to be typed: pipelines of so many stages.
#[derive(Clone, Copy, Debug)]
pub struct Typed {
    pub name: &'static str,
    pipelines: usize,
    stages: usize,
    files: Files,
    /// Whether a byte stands at its end that is in no line.
    is_bad: bool,
    /// How many subjects are live beside the shell, each with 16 handles.
    others: u32,
}

/// Which stages have files beside their programs.
#[derive(Clone, Copy, Debug)]
enum Files {
    /// Each reads one and writes one.
    Each,
    /// The first reads one, the last writes one.
    Ends,
}

const fn line(name: &'static str, pipelines: usize, stages: usize) -> Typed {
    Typed { name, pipelines, stages, files: Files::Each, is_bad: false, others: 0 }
}

/// Each with the number of its calls, all of which are allowed.
pub const TYPED: [Typed; 7] = [
    line("line, 1 stage, 5 calls", 1, 1),
    line("line, 2 stages, 15 calls", 1, 2),
    Typed { files: Files::Ends, ..line("line, 8 stages, one < and one >, 145 calls", 1, 8) },
    line("line, 8 stages, 159 calls", 1, 8),
    Typed { others: 16, ..line("line, 8 stages, 159 calls, beside 256 handles", 1, 8) },
    line("line, 10 pipelines of 2 stages, 150 calls", 10, 2),
    Typed { is_bad: true, ..line("line, bad at its 1,000th byte", 40, 2) },
];

impl Typed {
    /// The calls before the line: files, the others' handles, and the shell.
    fn filling(self) -> Vec<Numbered> {
        let mut calls = rings_of_4(self.others.max(1)).filling();
        if self.others == 0 {
            calls.retain(|call| call.0 == REGISTER);
        }
        let shell = self.start().shell;
        calls.push(numbered(Call::Admit { subject: shell, level: LEVEL, shops: ALL_SHOPS }));
        calls
    }

    /// The shell comes behind the others, and the children behind the shell. Pipes have numbers that no object has.
    fn start(self) -> Start {
        let shell = self.others.into();
        Start { shell, child: shell + 1, pipe: 64 + u64::from(self.others) }
    }

    fn line(self) -> Vec<u8> {
        let stages: Vec<String> = (0..self.stages).map(|i| self.stage(i)).collect();
        let mut line = vec![stages.join(" | "); self.pipelines].join("; ");
        if self.is_bad {
            line += " &";
        }
        line.into_bytes()
    }

    fn stage(self, i: usize) -> String {
        let mut stage = (READ + i as u64).to_string();
        let (reads, writes) = match self.files {
            Files::Each => (true, true),
            Files::Ends => (i == 0, i == self.stages - 1),
        };
        if reads {
            stage += &format!(" <{READ}");
        }
        if writes {
            stage += &format!(" >{WRITTEN}");
        }
        stage
    }

    /// The line, run on each program's monitor again and again.
    pub fn input(self) -> Input {
        let (mut proved, mut bytes) = (State::new(), Monitor::new());
        for (code, numbers) in self.filling() {
            for answer in [proved.direct(code, numbers), bytes.direct(code, numbers)] {
                answer.granted().expect("the calls that fill the tables are allowed");
            }
        }
        let (start, line) = (self.start(), self.line());
        let Start { shell, child, pipe } = start;
        let [line_proved, line_bytes] = [line.clone(), line.clone()];
        let plain = |when| {
            let (mut monitor, line) = (self.plain(when), line.clone());
            repeated(move || plain_figure(monitor.line(black_box(&line), start)))
        };
        Input {
            calls: LINES,
            plain: plain(When::EachCall),
            sparing: Some(plain(When::Asked)),
            proved: repeated(move || figure(proved.line(black_box(&line_proved), shell, child, pipe))),
            bytes: Some(repeated(move || figure(bytes.line(black_box(&line_bytes), shell, child, pipe)))),
        }
    }

    fn plain(self, when: When) -> PlainMonitor {
        let mut monitor = PlainMonitor::new(when);
        for (code, numbers) in self.filling() {
            monitor.direct(code, numbers);
        }
        monitor
    }
}

/// A round.
fn repeated(mut line: impl FnMut() -> u64 + 'static) -> Box<dyn FnMut() -> u64> {
    Box::new(move || (0..LINES).map(|_| line()).sum())
}

/// What came of a line as one number.
fn figure(outcome: Result<Counts, Refusal>) -> u64 {
    match outcome {
        Ok(Counts { allowed, lowered, refused }) => as_one(allowed, lowered, refused),
        Err(refusal) => refusal.number().into(),
    }
}

/// The same of the plain program's.
fn plain_figure(outcome: Result<PlainCounts, PlainRefusal>) -> u64 {
    match outcome {
        Ok(PlainCounts { allowed, lowered, refused }) => as_one(allowed, lowered, refused),
        Err(refusal) => refusal as u64,
    }
}

fn as_one(allowed: u64, lowered: u64, refused: u64) -> u64 {
    1_000_000 * allowed + 1_000 * lowered + refused
}

#[cfg(test)]
mod tests {
    use super::*;

    /// RULES L15.
    fn calls(typed: Typed) -> usize {
        let n = typed.stages;
        let files = match typed.files {
            Files::Each => 2 * n,
            Files::Ends => 2,
        };
        typed.pipelines * (2 * (n - 1) * (n - 1) + 3 * (n - 1) + 3 * n + files)
    }

    #[test]
    fn every_call_is_allowed_and_the_tables_stay() {
        for typed in TYPED {
            let mut monitor = typed.plain(When::EachCall);
            let before = monitor.tables().clone();
            assert_eq!(before.tally.open(), u64::from(16 * typed.others), "{}", typed.name);
            let outcome = monitor.line(&typed.line(), typed.start());
            if typed.is_bad {
                assert_eq!(outcome, Err(PlainRefusal::LineBroken));
            } else {
                let allowed = calls(typed) as u64;
                assert_eq!(
                    outcome,
                    Ok(PlainCounts { allowed, ..PlainCounts::default() }),
                    "{}",
                    typed.name
                );
                assert!(typed.name.contains(&format!(", {allowed} calls")), "{}", typed.name);
            }
            let after = monitor.tables();
            assert_eq!(after.tally.open(), before.tally.open());
            assert_eq!((after.subjects, after.objects), (before.subjects, before.objects));
            assert_eq!((after.free, after.places), (before.free, before.places));
        }
    }

    #[test]
    fn the_bad_line_goes_wrong_at_its_last_byte() {
        let bad = TYPED[6];
        let line = bad.line();
        assert_eq!(line.len(), 1000);
        let mut monitor = bad.plain(When::Asked);
        assert_eq!(monitor.line(&line, bad.start()), Err(PlainRefusal::LineBroken));
        assert!(monitor.line(&line[..999], bad.start()).is_ok());
    }
}
