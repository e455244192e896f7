//! Typed lines: RULES L1 to L14, R18, R19 and R125.
//!
//! A line of bytes is read in `reader`, `calls` says which calls a pipeline stands for, and here they are made on a
//! monitor, one after the other.

mod calls;
mod reader;

use crate::calls::Numbers;
use crate::monitor::{Answer, Monitor};
use crate::variants::lines::LineRules;
use crate::words::call_in_words;

pub use calls::calls_of;
pub(crate) use calls::{Child, DirectCall, Parts, READING_PLACE, WRITING_PLACE};
pub use reader::{read, written};

/// RULES R19: how many stages a pipeline may have.
pub const MOST_STAGES: usize = 8;

/// RULES L3: the object that is the program, and those behind `<` and `>`.
#[derive(Clone, Copy, Debug, PartialEq, Eq)]
pub struct Stage {
    pub program: u64,
    pub input: Option<u64>,
    pub output: Option<u64>,
}

/// RULES L7: the three numbers that come with a line.
#[derive(Clone, Copy, Debug, PartialEq, Eq)]
pub struct Start {
    /// The subject that is the shell.
    pub shell: u64,
    /// The first child's number.
    pub child: u64,
    /// The first pipe's number.
    pub pipe: u64,
}

/// RULES L14: how many calls were allowed, lowered and refused, each modulo 2 to the 64th.
#[derive(Clone, Copy, Debug, Default, PartialEq, Eq)]
pub struct Counts {
    pub allowed: u64,
    pub lowered: u64,
    pub refused: u64,
}

impl Counts {
    pub fn count(&mut self, answer: Answer) {
        let count = match answer {
            Answer::Allowed(_) => &mut self.allowed,
            Answer::Lowered(..) => &mut self.lowered,
            Answer::Refused(_) => &mut self.refused,
        };
        *count = count.wrapping_add(1);
    }
}

/// A call of a line that was made, and its answer.
#[derive(Clone, Copy, Debug, PartialEq, Eq)]
pub struct Made {
    /// Which pipeline it belongs to, from 0.
    pub pipeline: usize,
    pub code: u64,
    pub numbers: Numbers,
    pub answer: Answer,
}

/// What came of a line: the calls that were made, and its counts or the number of its refusal.
#[derive(Clone, Debug, PartialEq, Eq)]
pub struct Ran {
    pub made: Vec<Made>,
    pub outcome: Result<Counts, u8>,
}

impl Ran {
    /// A text line for each call, with its answer as in RULES P7 and P8; then the counts, or the refusal.
    pub fn text(&self) -> String {
        let mut text = String::new();
        for Made { code, numbers, answer, .. } in &self.made {
            let words = call_in_words(*code, numbers);
            text.push_str(&format!("{words}: {answer}\n"));
        }
        text.push_str(&match self.outcome {
            Ok(Counts { allowed, lowered, refused }) => format!("counts {allowed} {lowered} {refused}\n"),
            Err(number) => format!("refusal {number}\n"),
        });
        text
    }
}

/// The pipelines of a line, or the number of its refusal. RULES R125: R18 is tested over all bytes before R19.
pub fn judge(line: &[u8]) -> Result<Vec<Vec<Stage>>, u8> {
    // RULES R18.
    let pipelines = read(line).ok_or(18)?;
    // RULES R19.
    if pipelines.iter().any(|stages| stages.len() > MOST_STAGES) {
        return Err(19);
    }
    Ok(pipelines)
}

/// Makes the calls of a line on the monitor, whose tally they count in; the counts, or the refusal's number.
pub fn run(monitor: &mut Monitor, line: &[u8], shell: u64, child: u64, pipe: u64) -> Result<Counts, u8> {
    run_by(monitor, line, Start { shell, child, pipe }, LineRules::default()).outcome
}

/// The same, with the calls, and by other rules if they are given; see `variants::lines`.
pub fn run_by(monitor: &mut Monitor, line: &[u8], start: Start, rules: LineRules) -> Ran {
    let before = (!rules.are_right()).then(|| monitor.clone());
    // RULES R125: neither refusal makes a call.
    let (pipelines, refusal) = match rules.bend_judged(line, judge(line)) {
        Ok(pipelines) => (pipelines, None),
        Err((number, pipelines)) => (pipelines, Some(number)),
    };
    let mut made: Vec<Made> = Vec::new();
    // RULES L12: from left to right. RULES L7: each pipeline has the same first numbers.
    for (pipeline, stages) in pipelines.iter().enumerate() {
        let parts = Parts::of(stages, rules.bend_start(start, &pipelines[..pipeline]));
        // RULES L13: all of them are made, whichever are refused.
        for (code, numbers) in rules.bend_parts(parts, start) {
            if rules.skips(&made, pipeline, (code, numbers)) {
                continue;
            }
            let answer = monitor.call(code, numbers);
            made.push(Made { pipeline, code, numbers, answer });
        }
    }
    // RULES L14.
    let mut counts = Counts::default();
    for call in &made {
        counts.count(call.answer);
    }
    let counts = rules.bend_counts(&made, counts);
    if let Some(before) = before {
        rules.bend_monitor(before, monitor);
    }
    Ran { made, outcome: refusal.map_or(Ok(counts), Err) }
}

#[cfg(test)]
mod tests {
    use super::*;

    #[test]
    fn a_line_of_bad_bytes_is_18_before_it_is_19() {
        let nine = b"0|0|0|0|0|0|0|0|0".as_slice();
        assert_eq!(judge(nine), Err(19));
        assert_eq!(judge(&nine[2..]).map(|pipelines| pipelines[0].len()), Ok(8));
        assert_eq!(judge(&[nine, b";"].concat()), Err(18));
        assert_eq!(judge(&[b"0;", nine, b";0"].concat()), Err(19));
        assert_eq!(judge(b""), Err(18));
    }

    #[test]
    fn neither_refusal_makes_a_call() {
        let mut monitor = Monitor::new();
        let _ = monitor.call(1, [0, 9, 0, 0, 0, 0]);
        let before = monitor.tables().clone();
        for (line, number) in [("0;0|", 18), ("0;0|0|0|0|0|0|0|0|0", 19)] {
            assert_eq!(run(&mut monitor, line.as_bytes(), 0, 1, 0), Err(number));
            assert_eq!((monitor.tables(), monitor.tally().made), (&before, 0));
        }
    }

    #[test]
    fn the_counts_go_on_modulo_2_to_the_64th() {
        let mut counts = Counts { allowed: u64::MAX, lowered: u64::MAX, refused: u64::MAX };
        counts.count(Answer::Allowed(9));
        assert_eq!(counts, Counts { allowed: 0, ..counts });
        counts.count(Answer::Lowered(2, 0));
        counts.count(Answer::Refused(9));
        assert_eq!(counts, Counts::default());
    }
}
