//! The command `try`, and what is said where nothing can be tried.

use std::ffi::{OsStr, OsString};
use std::os::unix::ffi::OsStrExt;

use gatekeeper::Call;
use gk_advice::refused::answer_words;

use super::arguments::Arguments;
use super::commands::{read_journal, read_names, write_result};
use super::files::name_of;
use super::{Done, Failure};
use crate::assembly::call_of;
use crate::explain::Which;
use crate::names::Names;
use crate::text::{marked, paragraph};
use crate::trial::{Start, Trial, Unfit};

pub const REPORT: &str = "That is a fault of gk: please report it";

pub fn try_calls(arguments: Vec<OsString>) -> Done {
    let mut arguments = Arguments::sort("try", arguments, &["--at", "--names", "-o"], &["--refused"])?;
    let at = arguments.number("--at")?;
    let typed = arguments.behind_file();
    if typed.is_empty() {
        return Err(arguments.wrong("expected a journal, and calls behind it, each in quotes"));
    }
    let file = arguments.file()?;
    let journal = read_journal("try", file)?;
    let names = read_names(&arguments, file)?;
    let start = match at {
        Some(records) => Start::at(&journal, records),
        None => Start::after(&journal),
    };
    let start = start.map_err(|unfit| untried(&arguments, file, "call", unfit))?;
    // What the journal names later is not there yet.
    let names = names.until(start.records + 1);
    let calls: Result<Vec<Call>, Failure> =
        (1..).zip(&typed).map(|(count, typed)| call(count, typed, &names)).collect();

    let which = if arguments.has("--refused") { Which::Refused } else { Which::All };
    let mut trial = Trial::new(&start, &names, which);
    let mut text = paragraph("", &start.words());
    text.extend(calls?.into_iter().filter_map(|call| trial.call(call)));
    write_result(&arguments, &(text + &trial.end("calls")))
}

/// A call that was typed; which of them it is, counted from 1.
fn call(count: usize, typed: &OsStr, names: &Names) -> Result<Call, Failure> {
    call_of(typed.as_bytes(), names).map_err(|fault| {
        Failure::Failed(format!(
            "try: call {count}, column {}: {}\n{}{}",
            fault.column,
            fault.expected,
            marked(&typed.to_string_lossy(), fault.column, 1),
            fault.advice
        ))
    })
}

/// Why nothing of this kind, a line or a call, is tried after a journal.
pub fn untried(arguments: &Arguments, file: Option<&OsStr>, what: &str, unfit: Unfit) -> Failure {
    let (command, name) = (arguments.command(), name_of(file));
    Failure::Failed(match unfit {
        Unfit::Refused(refusal) => {
            format!("{command}: {name}: {} No {what} is tried after it", answer_words(refusal))
        }
        Unfit::Shorter(records) => return arguments.beyond(records),
        Unfit::Differs => format!(
            "{command}: {name}: record by record it got other replies than as a whole, and no {what} is tried after \
             it. {REPORT}"
        ),
    })
}
