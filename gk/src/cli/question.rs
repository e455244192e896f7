//! The questions of `explain`: which records are asked for.

use gatekeeper::Refusal;
use gk_advice::calls::{shape_of_word, SHAPES};
use gk_names::number::of_text;

use super::arguments::Arguments;
use super::Failure;
use crate::explain::question::{Question, Sought};
use crate::explain::Which;
use crate::text::{meant, shown};

/// The options that narrow what is told.
pub const OPTIONS: [&str; 6] = ["--step", "--file", "--code", "--refusal", "--from", "--to"];

/// What the command line asks for.
pub fn question(arguments: &Arguments) -> Result<Question, Failure> {
    let which = if arguments.has("--refused") { Which::Refused } else { Which::All };
    let question = Question {
        step: sought(arguments, "--step")?,
        file: sought(arguments, "--file")?,
        code: code(arguments)?,
        refusal: refusal(arguments)?,
        from: record(arguments, "--from")?.unwrap_or(1),
        to: record(arguments, "--to")?.unwrap_or(u64::MAX),
        which,
    };
    match question.to < question.from {
        true => Err(arguments.wrong("--to is a record before that of --from: nothing would be told")),
        false => Ok(question),
    }
}

fn sought(arguments: &Arguments, option: &str) -> Result<Option<Sought>, Failure> {
    let Some(value) = arguments.value(option) else {
        return Ok(None);
    };
    let wrong = || arguments.wrong(&format!("{option} needs a name or a number behind it, found \"\""));
    Sought::of_text(&value.to_string_lossy()).map(Some).ok_or_else(wrong)
}

/// The code of a call, by its number or its word.
fn code(arguments: &Arguments) -> Result<Option<u64>, Failure> {
    let Some(value) = arguments.value("--code") else {
        return Ok(None);
    };
    let text = value.to_string_lossy();
    let code = of_text(&text).or_else(|| shape_of_word(&text).map(|shape| shape.code));
    code.map(Some).ok_or_else(|| {
        let words: Vec<&str> = SHAPES.iter().map(|shape| shape.word).collect();
        let advice = match meant(&text, &words).as_slice() {
            [] => String::new(),
            meant => format!(": did you mean {}?", meant.join(" or ")),
        };
        let found = shown(&text);
        let needs = "--code needs a number or the word of a call behind it";
        arguments.wrong(&format!("{needs}, found \"{found}\"{advice}"))
    })
}

fn refusal(arguments: &Arguments) -> Result<Option<u32>, Failure> {
    let Some(number) = arguments.number("--refusal")? else {
        return Ok(None);
    };
    let known = u32::try_from(number).ok().filter(|&number| Refusal::from_number(number).is_some());
    let wrong =
        || arguments.wrong(&format!("--refusal needs the number of a refusal, 1 to 19, not {number}"));
    known.map(Some).ok_or_else(wrong)
}

/// The position of a record, from 1.
fn record(arguments: &Arguments, option: &str) -> Result<Option<u64>, Failure> {
    match arguments.number(option)? {
        Some(0) => {
            Err(arguments.wrong(&format!("{option} needs a record behind it, and the first one is 1")))
        }
        record => Ok(record),
    }
}
