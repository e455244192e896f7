//! What the tests share: a trace in, the journal in words out.

pub mod random;

use std::collections::BTreeMap;

use gk_advice::calls::shape_of_code;
use gk_trace::{journal_of, Failure, Levels, Options, Written};

/// The calls of a journal, a line each, as `gk disassemble` has them; but that the set of an admit or register is left out
/// where it has all shop marks.
pub fn words(journal: &[u8]) -> Vec<String> {
    let mut rest = journal;
    let number = |bytes: &mut &[u8]| {
        let (value, length) = gatekeeper::read_number(bytes).expect("a good number");
        *bytes = &bytes[length..];
        value
    };
    let mut lines = Vec::new();
    while !rest.is_empty() {
        let length = number(&mut rest) as usize;
        let (mut body, behind) = rest.split_at(length);
        rest = behind;
        let mut line = shape_of_code(number(&mut body)).expect("a call").word.to_string();
        while !body.is_empty() {
            line.push_str(&format!(" {}", number(&mut body)));
        }
        let is_labelled = line.starts_with("admit") || line.starts_with("register");
        lines.push(match line.strip_suffix(" 255") {
            Some(front) if is_labelled => front.to_string(),
            _ => line,
        });
    }
    lines
}

pub fn attempt(trace: &[u8], levels: &str, options: Options) -> Result<Written, Failure> {
    let levels = Levels::read(levels.as_bytes()).expect("good levels");
    journal_of(trace, &levels, options, None)
}

/// What a trace comes to; its lines, each without the line feed.
#[allow(dead_code)]
pub fn told(lines: &str, levels: &str) -> Written {
    let failed = |failure| panic!("{failure:?}");
    attempt(format!("{lines}\n").as_bytes(), levels, Options::default()).unwrap_or_else(failed)
}

/// The line and the words of the fault that a trace stops at.
#[allow(dead_code)]
pub fn stop(lines: &str, levels: &str) -> (u64, String) {
    match attempt(format!("{lines}\n").as_bytes(), levels, Options::default()) {
        Err(Failure::Stopped(stop)) => (stop.line, stop.message),
        Err(Failure::Malformed { line, column, expected }) => {
            (line, format!("column {column}: expected {expected}"))
        }
        Err(failure) => panic!("{failure:?}"),
        Ok(written) => panic!("written: {:?}", words(&written.journal)),
    }
}

/// The records that are refused, in words, with the refusal.
#[allow(dead_code)]
pub fn refused(journal: &[u8]) -> Vec<(String, u32)> {
    let words = words(journal);
    let replies = gatekeeper::replay(journal);
    let fields = replies.lines().map(|line| line.split(' ').collect::<Vec<_>>());
    let refused = fields.filter(|fields| fields.get(2) == Some(&"R"));
    let number = |word: &str| word.parse::<u32>().expect("a number");
    refused.map(|fields| (words[number(fields[0]) as usize - 1].clone(), number(fields[3]))).collect()
}

/// A journal and its replies as they are without threads: each call but those that make a thread or end one by itself,
/// with its answer. A step is called by its turn, as threads take numbers, too.
#[allow(dead_code)]
pub fn plain(journal: &[u8]) -> Vec<(String, String)> {
    let replies = gatekeeper::replay(journal);
    let mut turns = 0;
    let mut steps: BTreeMap<u64, u64> = BTreeMap::new();
    // Threads, each with the step that they are threads of.
    let mut threads: BTreeMap<u64, u64> = BTreeMap::new();
    let mut lines = Vec::new();
    for (words, reply) in words(journal).iter().zip(replies.lines()) {
        let (name, numbers) = words.split_once(' ').expect("a call has numbers");
        let mut numbers: Vec<u64> =
            numbers.split(' ').map(|word| word.parse().expect("a number")).collect();
        let answer = reply.split(' ').skip(2).collect::<Vec<_>>().join(" ");
        match name {
            "thread" => {
                let of = threads.get(&numbers[0]).copied().unwrap_or(numbers[0]);
                threads.insert(numbers[1], of);
                continue;
            }
            "exit" if threads.remove(&numbers[0]).is_some() => continue,
            "exec" if !answer.starts_with('R') => threads.retain(|_, of| *of != numbers[0]),
            "admit" | "fork" => {
                let made = if name == "admit" { numbers[0] } else { numbers[1] };
                steps.insert(made, turns);
                turns += 1;
            }
            _ => {}
        }
        let of_steps = match name {
            "register" | "retire" | "freeze" => 0,
            "fork" => 2,
            _ => 1,
        };
        for number in &mut numbers[..of_steps] {
            *number = steps[number];
        }
        lines.push((format!("{name} {numbers:?}"), answer));
    }
    lines
}
