//! Typed lines: the calls that a line stands for, made one after the other.
//!
//! A line is read twice, once to tell whether it is refused and once for its calls, so that nothing of it is kept but the
//! stages of one pipeline.

mod reader;

use crate::calls::{Answer, Call};
use crate::monitor::Monitor;
use crate::refusals::Refusal;
use crate::tables::Direction;
use reader::{End, Reader, Stage};

/// How many stages a pipeline may have (RULES R19).
const MOST_STAGES: usize = 8;

/// Where a child opens what it reads, and what it writes (RULES L9).
const INPUT: u64 = 14;
const OUTPUT: u64 = 15;

/// The numbers that come with a line: the shell's, the first child's and the first pipe's (RULES L7).
#[derive(Clone, Copy, Debug, PartialEq, Eq)]
pub struct Start {
    pub shell: u64,
    pub child: u64,
    pub pipe: u64,
}

/// How many calls were allowed, lowered and refused, each modulo 2 to the 64th (RULES L14).
#[derive(Clone, Copy, Debug, Default, PartialEq, Eq)]
pub struct Counts {
    pub allowed: u64,
    pub lowered: u64,
    pub refused: u64,
}

/// Refusals 18 and 19: the bytes are a line, and no pipeline has too many stages; 18 goes first (RULES R125).
fn judge(line: &[u8]) -> Result<(), Refusal> {
    let mut reader = Reader::of(line);
    let (mut stages, mut most) = (0, 0);
    loop {
        let (_, end) = reader.stage().ok_or(Refusal::LineBroken)?;
        stages += 1;
        most = most.max(stages);
        match end {
            End::Stage => {}
            End::Pipeline => stages = 0,
            End::Line if most > MOST_STAGES => return Err(Refusal::TooManyStages),
            End::Line => return Ok(()),
        }
    }
}

impl Monitor {
    /// Makes the calls of a line. Where it is refused, none is made.
    pub fn line(&mut self, line: &[u8], start: Start) -> Result<Counts, Refusal> {
        judge(line)?;
        let mut shell = Shell { monitor: self, start, counts: Counts::default() };
        let mut reader = Reader::of(line);
        let mut stages = [Stage::default(); MOST_STAGES];
        let mut count = 0;
        while let Some((stage, end)) = reader.stage() {
            stages[count] = stage;
            count += 1;
            if end != End::Stage {
                shell.pipeline(&stages[..count]);
                count = 0;
            }
        }
        Ok(shell.counts)
    }
}

/// Who makes the calls of a line, and counts them.
struct Shell<'a> {
    monitor: &'a mut Monitor,
    start: Start,
    counts: Counts,
}

impl Shell<'_> {
    /// RULES L8 to L11: the pipes, the stages, the shell's ends, and the children's exits.
    fn pipeline(&mut self, stages: &[Stage]) {
        let Start { shell, child, pipe } = self.start;
        let count = stages.len() as u64;
        let ends = 2 * (count - 1);
        for i in 0..count - 1 {
            self.make(Call::Pipe { s: shell, o: pipe.wrapping_add(i), r: 2 * i, w: 2 * i + 1 });
        }
        for (i, stage) in (0..).zip(stages) {
            self.stage(stage, i, child.wrapping_add(i), ends);
        }
        for p in 0..ends {
            self.make(Call::Close { s: shell, p });
        }
        for i in 0..count {
            self.make(Call::Exit { s: child.wrapping_add(i) });
        }
    }

    /// RULES L9: child i, with number c, of a shell that has so many ends of pipes.
    fn stage(&mut self, stage: &Stage, i: u64, c: u64, ends: u64) {
        self.make(Call::Fork { s: self.start.shell, c });
        for p in 0..ends {
            let (reads_before, writes_behind) = (p + 2 == 2 * i, p == 2 * i + 1);
            if !reads_before && !writes_behind {
                self.make(Call::Close { s: c, p });
            }
        }
        if let Some(o) = stage.input {
            self.make(Call::Open { s: c, o, p: INPUT, direction: Direction::Reading });
        }
        if let Some(o) = stage.output {
            self.make(Call::Open { s: c, o, p: OUTPUT, direction: Direction::Writing });
        }
        self.make(Call::Exec { s: c, o: stage.program });
    }

    /// A refused call does not stop the others (RULES L13).
    fn make(&mut self, call: Call) {
        let count = match self.monitor.call(call) {
            Answer::Allowed(_) => &mut self.counts.allowed,
            Answer::Lowered(..) => &mut self.counts.lowered,
            Answer::Refused(_) => &mut self.counts.refused,
        };
        *count = count.wrapping_add(1);
    }
}

#[cfg(test)]
mod tests {
    use super::*;
    use crate::monitor::When;

    #[test]
    fn eighteen_is_said_before_nineteen() {
        let nine = b"0|0|0|0|0|0|0|0|0".as_slice();
        assert_eq!(judge(nine), Err(Refusal::TooManyStages));
        assert_eq!(judge(&nine[2..]), Ok(()));
        assert_eq!(judge(&[&nine[2..], b";", &nine[2..]].concat()), Ok(()));
        assert_eq!(judge(&[nine, b";"].concat()), Err(Refusal::LineBroken));
        assert_eq!(judge(&[b"0;", nine, b";0"].concat()), Err(Refusal::TooManyStages));
    }

    /// RULES L15.
    #[test]
    fn so_many_calls_a_pipeline_has() {
        for (n, most) in (1..).zip([5, 15, 29, 47, 69, 95, 125, 159]) {
            let line = ["7<8>9"].repeat(n).join("|");
            let mut monitor = Monitor::new(When::EachCall);
            let counts = monitor.line(line.as_bytes(), Start { shell: 0, child: 1, pipe: 100 });
            assert_eq!(counts, Ok(Counts { refused: most, ..Counts::default() }));
        }
    }
}
