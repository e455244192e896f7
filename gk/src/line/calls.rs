//! The calls that a line stands for (RULES L7 to L12), with the part of the pipeline to which each belongs.
//!
//! They are not proved to be those that the archive makes; `line` makes them one by one, and holds what comes of them
//! to what the archive makes of the whole line.

use gatekeeper::Call;

use super::reading::Stage;

/// Where a child opens what it reads, and what it writes.
const INPUT: u64 = 14;
const OUTPUT: u64 = 15;

/// RULES L7: the numbers that come with a line.
#[derive(Clone, Copy, Debug, PartialEq, Eq)]
pub struct Numbers {
    pub shell: u64,
    /// Those of the first child and of the first pipe.
    pub child: u64,
    pub pipe: u64,
}

/// A part of a pipeline's calls.
#[derive(Clone, Copy, Debug, PartialEq, Eq)]
pub enum Part {
    Pipes,
    /// A stage, counted from 0.
    Stage(usize),
    /// The ends of the pipes that the shell closes.
    Ends,
    Exits,
}

/// The calls of a pipeline, in order.
pub fn calls_of(stages: &[Stage], numbers: Numbers) -> Vec<(Part, Call)> {
    let Numbers { shell, child, pipe } = numbers;
    let pipes = stages.len() as u64 - 1;
    let ends = 0..2 * pipes;
    let mut calls = Vec::new();
    for i in 0..pipes {
        let object = pipe.wrapping_add(i);
        calls.push((Part::Pipes, Call::Pipe { subject: shell, object, reads: 2 * i, writes: 2 * i + 1 }));
    }
    for (i, stage) in (0..).zip(stages) {
        let subject = child.wrapping_add(i);
        // It reads the pipe before it and writes the one behind it.
        let uses = |place: u64| place + 2 == 2 * i || place == 2 * i + 1;
        let closed = ends.clone().filter(|&place| !uses(place));
        let close = closed.map(|place| Call::Close { subject, place });
        let input = stage.input.map(|object| Call::OpenRead { subject, object, place: INPUT });
        let output = stage.output.map(|object| Call::OpenWrite { subject, object, place: OUTPUT });
        let own = std::iter::once(Call::Fork { subject: shell, child: subject })
            .chain(close)
            .chain(input)
            .chain(output)
            .chain([Call::Exec { subject, object: stage.program }]);
        calls.extend(own.map(|call| (Part::Stage(i as usize), call)));
    }
    calls.extend(ends.map(|place| (Part::Ends, Call::Close { subject: shell, place })));
    let children = (0..stages.len() as u64).map(|i| child.wrapping_add(i));
    calls.extend(children.map(|subject| (Part::Exits, Call::Exit { subject })));
    calls
}

#[cfg(test)]
mod tests {
    use super::*;
    use crate::line::reading::read;

    fn words(line: &str, numbers: Numbers) -> Vec<String> {
        let calls = calls_of(&read(line.as_bytes()).unwrap()[0].stages, numbers);
        calls.into_iter().map(|(_, call)| gk_advice::calls::assembly_of(call)).collect()
    }

    #[test]
    fn a_pipeline_is_its_calls() {
        let expected = "pipe 0 9 0 1, pipe 0 10 2 3, \
                        fork 0 4, close 4 0, close 4 2, close 4 3, open-read 4 7 14, exec 4 5, \
                        fork 0 5, close 5 1, close 5 2, exec 5 6, \
                        fork 0 6, close 6 0, close 6 1, close 6 3, open-write 6 8 15, exec 6 5, \
                        close 0 0, close 0 1, close 0 2, close 0 3, \
                        exit 4, exit 5, exit 6";
        let numbers = Numbers { shell: 0, child: 4, pipe: 9 };
        assert_eq!(words("5 < 7 | 6 | 5 > 8", numbers).join(", "), expected);
        let numbers = Numbers { shell: 31, child: u64::MAX, pipe: u64::MAX };
        let calls = words("1 | 1", numbers);
        assert_eq!(calls[0], format!("pipe 31 {} 0 1", u64::MAX));
        assert_eq!(calls[1..].iter().filter(|call| call.starts_with("fork 31 0")).count(), 1);
    }

    /// RULES L15.
    #[test]
    fn a_pipeline_has_so_many_calls() {
        let numbers = Numbers { shell: 0, child: 1, pipe: 0 };
        for n in 1..=8usize {
            let line = vec!["1 < 2 > 3"; n].join("|");
            assert_eq!(words(&line, numbers).len(), 2 * (n - 1) * (n - 1) + 3 * (n - 1) + 5 * n);
        }
    }
}
