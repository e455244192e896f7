//! Random and mutated traces: no panic, no refusal but 9, and no word of a fault of the program itself.

mod common;

use common::random::{line, Random};
use common::{attempt, refused};
use gk_trace::{Failure, Options};

const LEVELS: &str = "sheets/*.csv 2\npaybook.csv 9\nbank.csv 12\nf1 3\nf2 7\nf[3-5] 15\nlow* 2\nt* step\n\
                      <stdin> 4\nd/out out\nelse 15\n";

/// How a trace came out: whether a journal was written.
fn tried(trace: &[u8], options: Options, what: &str) -> bool {
    match attempt(trace, LEVELS, options) {
        Ok(written) => {
            assert!(written.journal.len() <= 65_536, "{what}");
            for (call, number) in refused(&written.journal) {
                assert_eq!(number, 9, "{what}: {call}");
            }
            let names = written.names + &written.report.text(0);
            assert!(!names.chars().any(|sign| sign.is_control() && sign != '\n'), "{what}");
            true
        }
        Err(Failure::Stopped(stop)) => {
            assert!(!stop.message.contains("at fault"), "{what}: line {}: {}", stop.line, stop.message);
            assert!(!stop.message.chars().any(char::is_control), "{what}: {}", stop.message);
            false
        }
        Err(Failure::Empty | Failure::Malformed { .. }) => false,
        Err(Failure::Unread(error)) => panic!("{what}: {error}"),
    }
}

fn recorded(run: &str) -> Vec<u8> {
    let path = format!("{}/tests/runs/{run}.trace", env!("CARGO_MANIFEST_DIR"));
    std::fs::read(&path).unwrap_or_else(|error| panic!("{path}: {error}"))
}

#[test]
fn mutated_traces_are_taken_or_refused() {
    let mut random = Random(1);
    let (mut written, mut stopped) = (0, 0);
    for run in ["pay", "plain", "apart", "files", "steps", "threads"] {
        let whole = recorded(run);
        for round in 0..60 {
            let mut lines: Vec<Vec<u8>> = whole.split(|&byte| byte == b'\n').map(<[u8]>::to_vec).collect();
            for _ in 0..1 + random.below(12) {
                let (one, other) = (random.below(lines.len()), random.below(lines.len()));
                match random.below(7) {
                    0 => drop(lines.remove(one)),
                    1 => lines.swap(one, other),
                    2 => lines.insert(one, lines[other].clone()),
                    3 => {
                        let near = (one + 1 + random.below(4)).min(lines.len() - 1);
                        lines.swap(one, near);
                    }
                    4 if !lines[one].is_empty() => {
                        let at = random.below(lines[one].len());
                        lines[one][at] = random.next() as u8;
                    }
                    5 if !lines[one].is_empty() => {
                        let at = random.below(lines[one].len());
                        lines[one].truncate(at);
                    }
                    _ => {
                        // Another process says it, or the same one another number.
                        let digits: Vec<usize> =
                            (0..lines[one].len()).filter(|&at| lines[one][at].is_ascii_digit()).collect();
                        if !digits.is_empty() {
                            let at = *random.pick(&digits);
                            lines[one][at] = b'0' + random.below(10) as u8;
                        }
                    }
                }
            }
            let mut trace = lines.join(&b'\n');
            if random.below(4) == 0 {
                trace.truncate(random.below(trace.len()));
            }
            let all = Options {
                all_files: random.below(3) == 0,
                repeats: random.below(3) == 0,
                one_step: random.below(3) == 0,
                fold: random.below(3) == 0,
                ..Options::default()
            };
            match tried(&trace, all, &format!("{run}, round {round}")) {
                true => written += 1,
                false => stopped += 1,
            }
        }
    }
    // Both come out: neither is every change an error, nor none.
    assert!(written > 30 && stopped > 30, "{written} written, {stopped} stopped");
}

#[test]
fn random_calls_are_taken_or_refused() {
    let mut random = Random(2);
    let (mut written, mut stopped, mut longest) = (0, 0, 0);
    for round in 0..4000 {
        let count = 1 + random.below(80);
        let lines: Vec<String> = (0..count).map(|_| line(&mut random, 9)).collect();
        let trace = lines.join("\n") + "\n";
        let options = Options {
            all_files: round % 3 == 0,
            repeats: round % 5 == 0,
            one_step: round % 7 == 0,
            fold: round % 2 == 0,
            ..Options::default()
        };
        match tried(trace.as_bytes(), options, &format!("round {round}\n{trace}")) {
            true => {
                written += 1;
                longest = longest.max(count);
            }
            false => stopped += 1,
        }
    }
    assert!(
        written > 400 && stopped > 400 && longest > 30,
        "{written} written, {stopped} stopped, {longest}"
    );
}

#[test]
fn random_bytes_are_no_trace() {
    let mut random = Random(3);
    for round in 0..2000 {
        let signs = b"0123456789 (),=<>\"[]{}.+-?_abcdexo\\/|\n\x1b\xff";
        let length = random.below(200);
        let mut trace: Vec<u8> = (0..length).map(|_| *random.pick(signs)).collect();
        trace.push(b'\n');
        tried(&trace, Options::default(), &format!("round {round}"));
    }
}
