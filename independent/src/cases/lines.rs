//! Worked cases of typed lines: RULES L1 to L15, R18, R19 and R125.
//!
//! What is answered stands here as the rules settle it; it is not worked out by this program.

use crate::lines::Start;
use crate::monitor::Monitor;
use crate::replies::monitor_after;
use crate::words;

/// A line with the calls before it, the numbers that come with it, and its calls with their answers.
#[derive(Clone, Copy, Debug)]
pub struct LineCase {
    pub name: &'static str,
    /// What it shows.
    pub what: &'static str,
    /// The calls before it in words, with `;` between them.
    pub before: &'static str,
    pub line: &'static str,
    pub start: Start,
    /// Each call with its answer, with `;` between them; then the counts or the refusal.
    pub answers: &'static str,
}

impl LineCase {
    /// The journal of the calls before the line.
    pub fn journal(&self) -> Vec<u8> {
        let words = self.before.replace(';', "\n");
        words::journal_of(&words).unwrap_or_else(|| panic!("a case is no journal: {words}"))
    }

    /// The monitor before the line.
    pub fn monitor(&self) -> Monitor {
        monitor_after(&self.journal())
    }

    /// What `second line` prints.
    pub fn replies(&self) -> String {
        lines(self.answers)
    }

    /// The case for people.
    pub fn text(&self) -> String {
        let LineCase { name, what, line, start: Start { shell, child, pipe }, .. } = self;
        let indented =
            |text: &str| -> String { text.lines().map(|line| format!("    {line}\n")).collect() };
        let before = if self.before.is_empty() { String::new() } else { indented(&lines(self.before)) };
        let numbers = format!("shell {shell}, first child {child}, first pipe {pipe}");
        let answers = indented(&self.replies());
        format!("{name}: {what}\n{before}  typed: \"{line}\" ({numbers})\n{answers}\n")
    }
}

fn lines(text: &str) -> String {
    text.split(';').map(|line| format!("{}\n", line.trim())).collect()
}

const fn start(shell: u64, child: u64, pipe: u64) -> Start {
    Start { shell, child, pipe }
}

/// RULES K0, and file 2 at level 9, a program.
const PROGRAM: &str = "register 0 9 255; register 1 2 255; admit 0 9 255; register 2 9 255";

/// Every case of a line.
pub const LINE_CASES: &[LineCase] = &[
    LineCase {
        name: "line-k6",
        what: "K6's two files, as far as a line has it: the step that reads file 1 writes to the pipe, and the step that \
               is to write file 0 reads it, so that file 1 would reach file 0: 9. In K6 the step that reads file 1 has \
               kept an end that it does not use; here each child closes those",
        before: PROGRAM,
        line: "2<1 | 2>0",
        start: start(0, 1, 5),
        answers: "pipe 0 5 0 1: A 9; \
                  fork 0 1: A 9; close 1 0: A 9; open-read 1 1 14: A 2; exec 1 2: A 9; \
                  fork 0 2: A 9; close 2 1: A 9; open-write 2 0 15: R 9; exec 2 2: A 9; \
                  close 0 0: A 9; close 0 1: A 9; exit 1: A 9; exit 2: A 9; counts 12 0 1",
    },
    LineCase {
        name: "line-k7",
        what: "K7: the step that writes file 0 is the one before the pipe, the step that reads file 1 the one behind it, \
               and each has closed the end that it does not use: allowed",
        before: PROGRAM,
        line: "2>0 | 2<1",
        start: start(0, 1, 5),
        answers: "pipe 0 5 0 1: A 9; \
                  fork 0 1: A 9; close 1 0: A 9; open-write 1 0 15: A 9; exec 1 2: A 9; \
                  fork 0 2: A 9; close 2 1: A 9; open-read 2 1 14: A 2; exec 2 2: A 9; \
                  close 0 0: A 9; close 0 1: A 9; exit 1: A 9; exit 2: A 9; counts 13 0 0",
    },
    LineCase {
        name: "line-k7-held",
        what: "K7 with file 0 open for writing by the shell itself, which its children get: 9",
        before: "register 0 9 255; register 1 2 255; admit 0 9 255; register 2 9 255; open-write 0 0 9",
        line: "2 | 2<1",
        start: start(0, 1, 5),
        answers: "pipe 0 5 0 1: A 9; \
                  fork 0 1: A 9; close 1 0: A 9; exec 1 2: A 9; \
                  fork 0 2: A 9; close 2 1: A 9; open-read 2 1 14: R 9; exec 2 2: A 9; \
                  close 0 0: A 9; close 0 1: A 9; exit 1: A 9; exit 2: A 9; counts 11 0 1",
    },
    LineCase {
        name: "line-goes-on",
        what: "a first pipeline that is refused in places, and a second one that is allowed: it has the same numbers",
        before: PROGRAM,
        line: "2<1|2>0;2>0|2<1",
        start: start(0, 1, 5),
        answers: "pipe 0 5 0 1: A 9; \
                  fork 0 1: A 9; close 1 0: A 9; open-read 1 1 14: A 2; exec 1 2: A 9; \
                  fork 0 2: A 9; close 2 1: A 9; open-write 2 0 15: R 9; exec 2 2: A 9; \
                  close 0 0: A 9; close 0 1: A 9; exit 1: A 9; exit 2: A 9; \
                  pipe 0 5 0 1: A 9; \
                  fork 0 1: A 9; close 1 0: A 9; open-write 1 0 15: A 9; exec 1 2: A 9; \
                  fork 0 2: A 9; close 2 1: A 9; open-read 2 1 14: A 2; exec 2 2: A 9; \
                  close 0 0: A 9; close 0 1: A 9; exit 1: A 9; exit 2: A 9; counts 25 0 1",
    },
    LineCase {
        name: "line-lowered",
        what: "a low program lowers the child and not the shell; with file 0 open for writing it is not run",
        before: PROGRAM,
        line: " 1 ; 1 >0 ; 2 >0 ",
        start: start(0, 1, 5),
        answers: "fork 0 1: A 9; exec 1 1: L 2 0; exit 1: A 2; \
                  fork 0 1: A 9; open-write 1 0 15: A 9; exec 1 1: R 9; exit 1: A 9; \
                  fork 0 1: A 9; open-write 1 0 15: A 9; exec 1 2: A 9; exit 1: A 9; counts 9 1 1",
    },
    LineCase {
        name: "line-three",
        what: "the one in the middle uses an end of each pipe",
        before: PROGRAM,
        line: "2|2|2<0>0",
        start: start(0, 1, 5),
        answers: "pipe 0 5 0 1: A 9; pipe 0 6 2 3: A 9; \
                  fork 0 1: A 9; close 1 0: A 9; close 1 2: A 9; close 1 3: A 9; exec 1 2: A 9; \
                  fork 0 2: A 9; close 2 1: A 9; close 2 2: A 9; exec 2 2: A 9; \
                  fork 0 3: A 9; close 3 0: A 9; close 3 1: A 9; close 3 3: A 9; \
                  open-read 3 0 14: A 9; open-write 3 0 15: A 9; exec 3 2: A 9; \
                  close 0 0: A 9; close 0 1: A 9; close 0 2: A 9; close 0 3: A 9; \
                  exit 1: A 9; exit 2: A 9; exit 3: A 9; counts 25 0 0",
    },
    LineCase {
        name: "line-held",
        what: "the shell has a handle at place 0: the pipe is not made, and that handle is closed like an end of it; one \
               at place 14 is in the way of `<`, and stays",
        before: "register 0 9 255; register 1 2 255; admit 0 9 255; register 2 9 255; open-read 0 0 0; open-read 0 0 14",
        line: "2|2<0",
        start: start(0, 1, 5),
        answers: "pipe 0 5 0 1: R 7; \
                  fork 0 1: A 9; close 1 0: A 9; exec 1 2: A 9; \
                  fork 0 2: A 9; close 2 1: R 7; open-read 2 0 14: R 7; exec 2 2: A 9; \
                  close 0 0: A 9; close 0 1: R 7; exit 1: A 9; exit 2: A 9; counts 8 0 4",
    },
    LineCase {
        name: "line-child-in-use",
        what: "a child's number that is in use is not forked, but the calls are made by whoever has it, who leaves",
        before: "register 0 9 255; register 1 2 255; admit 0 9 255; register 2 9 255; admit 1 2 255",
        line: "2;2",
        start: start(0, 1, 5),
        answers: "fork 0 1: R 3; exec 1 2: A 2; exit 1: A 2; \
                  fork 0 1: A 9; exec 1 2: A 9; exit 1: A 9; counts 5 0 1",
    },
    LineCase {
        name: "line-shell-as-child",
        what: "the shell's own number for a child: it runs the program and leaves, and the next pipeline has no shell",
        before: PROGRAM,
        line: "2;2",
        start: start(0, 0, 5),
        answers: "fork 0 0: R 3; exec 0 2: A 9; exit 0: A 9; \
                  fork 0 0: R 2; exec 0 2: R 2; exit 0: R 2; counts 2 0 4",
    },
    LineCase {
        name: "line-mates",
        what: "a mate of the shell has file 0 open for writing: the children have groups of their own, and read and run \
               file 1 all the same",
        before: "register 0 9 255; register 1 2 255; admit 0 9 255; register 2 9 255; thread 0 1; open-write 1 0 0",
        line: "1<1;2|2<1",
        start: start(0, 2, 5),
        answers: "fork 0 2: A 9; open-read 2 1 14: A 2; exec 2 1: L 2 0; exit 2: A 2; \
                  pipe 0 5 0 1: A 9; \
                  fork 0 2: A 9; close 2 0: A 9; exec 2 2: A 9; \
                  fork 0 3: A 9; close 3 1: A 9; open-read 3 1 14: A 2; exec 3 2: A 9; \
                  close 0 0: A 9; close 0 1: A 9; exit 2: A 9; exit 3: A 9; counts 15 1 0",
    },
    LineCase {
        name: "line-mate-as-child",
        what: "a mate's number for a child: its exec ends the shell, whose pipe ends with it, and the rest has no shell",
        before: "register 0 9 255; register 1 2 255; admit 0 9 255; register 2 9 255; thread 0 1",
        line: "2|2",
        start: start(0, 1, 5),
        answers: "pipe 0 5 0 1: A 9; \
                  fork 0 1: R 3; close 1 0: R 7; exec 1 2: A 9; \
                  fork 0 2: R 2; close 2 1: R 2; exec 2 2: R 2; \
                  close 0 0: R 2; close 0 1: R 2; exit 1: A 9; exit 2: R 2; counts 3 0 8",
    },
    LineCase {
        name: "line-wraps",
        what: "after 18446744073709551615 comes 0, for pipes, of which 0 is a file's number, and for children, of which 0 \
               is free",
        before: "register 0 9 255; register 1 2 255; admit 7 9 255; register 2 9 255",
        line: "2|2|2",
        start: start(7, 18_446_744_073_709_551_615, 18_446_744_073_709_551_615),
        answers: "pipe 7 18446744073709551615 0 1: A 9; pipe 7 0 2 3: R 3; \
                  fork 7 18446744073709551615: R 3; close 18446744073709551615 0: R 2; \
                  close 18446744073709551615 2: R 2; close 18446744073709551615 3: R 2; \
                  exec 18446744073709551615 2: R 2; \
                  fork 7 0: A 9; close 0 1: A 9; close 0 2: R 7; exec 0 2: A 9; \
                  fork 7 1: A 9; close 1 0: A 9; close 1 1: A 9; close 1 3: R 7; exec 1 2: A 9; \
                  close 7 0: A 9; close 7 1: A 9; close 7 2: R 7; close 7 3: R 7; \
                  exit 18446744073709551615: R 2; exit 0: A 9; exit 1: A 9; counts 12 0 11",
    },
    LineCase {
        name: "line-no-shell",
        what: "from nothing, every call is refused, and all are made",
        before: "",
        line: "0<1>2",
        start: start(0, 1, 64),
        answers: "fork 0 1: R 2; open-read 1 1 14: R 2; open-write 1 2 15: R 2; exec 1 0: R 2; exit 1: R 2; \
                  counts 0 0 5",
    },
    LineCase {
        name: "line-18",
        what: "a line that goes wrong at its last byte makes no call",
        before: PROGRAM,
        line: "2;2;",
        start: start(0, 1, 5),
        answers: "refusal 18",
    },
    LineCase {
        name: "line-19",
        what: "a pipeline of nine stages makes none either, nor do those before it",
        before: PROGRAM,
        line: "2;2|2|2|2|2|2|2|2|2",
        start: start(0, 1, 5),
        answers: "refusal 19",
    },
    LineCase {
        name: "line-18-before-19",
        what: "where both apply, 18 is said",
        before: PROGRAM,
        line: "2|2|2|2|2|2|2|2|2;2>1<1",
        start: start(0, 1, 5),
        answers: "refusal 18",
    },
    LineCase {
        name: "line-marks",
        what: "a program that lacks marks takes them from the child alone, which is lowered at the same level; it is \
               refused where the child writes to a file that has one of them",
        before: "register 0 9 3; register 1 9 2; admit 0 9 255",
        line: "0 > 1; 1 > 0; 1",
        start: start(0, 1, 5),
        answers: "fork 0 1: A 9; open-write 1 1 15: A 9; exec 1 0: L 9 6; exit 1: A 9; \
                  fork 0 1: A 9; open-write 1 0 15: A 9; exec 1 1: R 9; exit 1: A 9; \
                  fork 0 1: A 9; exec 1 1: L 9 7; exit 1: A 9; counts 8 2 1",
    },
];
