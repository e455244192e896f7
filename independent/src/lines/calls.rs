//! The calls that a pipeline stands for: RULES L7 to L11.

use super::{Stage, Start};
use crate::calls::{filled, Numbers};

/// A code and its numbers.
pub(crate) type DirectCall = (u64, Numbers);

/// RULES L9: where a child opens the object of `<`.
pub(crate) const READING_PLACE: u64 = 14;

/// RULES L9: where it opens that of `>`.
pub(crate) const WRITING_PLACE: u64 = 15;

/// The calls of one pipeline, in the order in which they are made.
pub fn calls_of(stages: &[Stage], shell: u64, child: u64, pipe: u64) -> Vec<(u64, Numbers)> {
    Parts::of(stages, Start { shell, child, pipe }).in_order()
}

/// The calls of one pipeline by what they do.
#[derive(Clone, Debug)]
pub(crate) struct Parts {
    /// RULES L8.
    pub pipes: Vec<DirectCall>,
    /// RULES L9.
    pub children: Vec<Child>,
    /// RULES L10: the shell's.
    pub closes: Vec<DirectCall>,
    /// RULES L11.
    pub exits: Vec<DirectCall>,
}

/// RULES L9: the calls for one stage.
#[derive(Clone, Debug)]
pub(crate) struct Child {
    pub fork: DirectCall,
    pub closes: Vec<DirectCall>,
    pub opens: Vec<DirectCall>,
    pub exec: DirectCall,
}

impl Parts {
    pub fn of(stages: &[Stage], Start { shell, child, pipe }: Start) -> Parts {
        // RULES L7: modulo 2 to the 64th.
        let child = |i: u64| child.wrapping_add(i);
        let pipe = |i: u64| pipe.wrapping_add(i);
        let pipes = (stages.len() as u64).saturating_sub(1);
        let ends = 2 * pipes;
        Parts {
            // RULES L8: pipe i reads at place 2i and writes at 2i + 1.
            pipes: (0..pipes).map(|i| (4, filled(&[shell, pipe(i), 2 * i, 2 * i + 1]))).collect(),
            children: (0..)
                .zip(stages)
                .map(|(i, stage)| child_of(stage, i, shell, child(i), ends))
                .collect(),
            // RULES L10.
            closes: (0..ends).map(|place| (11, filled(&[shell, place]))).collect(),
            // RULES L11.
            exits: (0..).zip(stages).map(|(i, _)| (12, filled(&[child(i)]))).collect(),
        }
    }

    /// The pipes, the children one after the other, the shell's closes, the exits.
    pub fn in_order(self) -> Vec<DirectCall> {
        let children = self.children.into_iter().flat_map(Child::in_order);
        self.pipes.into_iter().chain(children).chain(self.closes).chain(self.exits).collect()
    }
}

/// RULES L9: child i of a shell that has so many ends of pipes.
fn child_of(stage: &Stage, i: u64, shell: u64, child: u64, ends: u64) -> Child {
    let Stage { program, input, output } = *stage;
    // The child uses two: 2(i − 1) reads the pipe before it, and 2i + 1 writes the pipe behind it. The first has none
    // before it, and the last none behind it.
    let is_used = |place: u64| place + 2 == 2 * i || place == 2 * i + 1;
    let reading = input.map(|o| (5, filled(&[child, o, READING_PLACE])));
    let writing = output.map(|o| (6, filled(&[child, o, WRITING_PLACE])));
    Child {
        fork: (9, filled(&[shell, child])),
        closes: (0..ends).filter(|&p| !is_used(p)).map(|p| (11, filled(&[child, p]))).collect(),
        opens: reading.into_iter().chain(writing).collect(),
        exec: (10, filled(&[child, program])),
    }
}

impl Child {
    pub fn in_order(self) -> Vec<DirectCall> {
        [vec![self.fork], self.closes, self.opens, vec![self.exec]].concat()
    }
}

#[cfg(test)]
mod tests {
    use super::*;
    use crate::words::call_in_words;

    fn full(program: u64) -> Stage {
        Stage { program, input: Some(1), output: Some(0) }
    }

    fn bare(program: u64) -> Stage {
        Stage { program, input: None, output: None }
    }

    fn words(stages: &[Stage], shell: u64, child: u64, pipe: u64) -> Vec<String> {
        let calls = calls_of(stages, shell, child, pipe);
        calls.iter().map(|(code, numbers)| call_in_words(*code, numbers)).collect()
    }

    #[test]
    fn one_stage_has_no_pipe() {
        let expected = ["fork 3 7", "open-read 7 1 14", "open-write 7 0 15", "exec 7 5", "exit 7"];
        assert_eq!(words(&[full(5)], 3, 7, 100), expected);
        assert_eq!(words(&[bare(5)], 3, 7, 100), ["fork 3 7", "exec 7 5", "exit 7"]);
        assert!(words(&[], 3, 7, 100).is_empty());
    }

    #[test]
    fn three_stages_have_two_pipes() {
        let expected = "pipe 0 100 0 1; pipe 0 101 2 3; \
            fork 0 1; close 1 0; close 1 2; close 1 3; open-read 1 1 14; open-write 1 0 15; exec 1 5; \
            fork 0 2; close 2 1; close 2 2; exec 2 6; \
            fork 0 3; close 3 0; close 3 1; close 3 3; exec 3 7; \
            close 0 0; close 0 1; close 0 2; close 0 3; exit 1; exit 2; exit 3";
        assert_eq!(words(&[full(5), bare(6), bare(7)], 0, 1, 100).join("; "), expected);
    }

    #[test]
    fn numbers_go_on_modulo_2_to_the_64th() {
        let calls = words(&[bare(5), bare(5), bare(5)], 0, u64::MAX, u64::MAX);
        assert_eq!(calls[..2], ["pipe 0 18446744073709551615 0 1", "pipe 0 0 2 3"]);
        assert_eq!(
            calls[calls.len() - 3..],
            ["exit 18446744073709551615".to_string(), "exit 0".to_string(), "exit 1".to_string()]
        );
    }

    /// RULES L15.
    #[test]
    fn so_many_calls_a_pipeline_has() {
        let most = [5, 15, 29, 47, 69, 95, 125, 159];
        for (n, most) in (1..).zip(most) {
            assert_eq!(calls_of(&vec![full(5); n], 0, 1, 100).len(), most);
            assert_eq!(calls_of(&vec![bare(5); n], 0, 1, 100).len(), most - 2 * n);
            assert_eq!(2 * (n - 1) * (n - 1) + 3 * (n - 1) + 5 * n, most);
        }
    }
}
