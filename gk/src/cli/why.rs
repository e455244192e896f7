//! The command `why`.

use std::ffi::{OsStr, OsString};

use gatekeeper::Refusal;
use gk_advice::refused::answer_words;

use super::arguments::Arguments;
use super::commands::{read_journal, read_names, write_result};
use super::files::name_of;
use super::trying::REPORT;
use super::{remark, Done, Failure};
use crate::why::{self, Answer, Silent, Wanted};

pub fn why(arguments: Vec<OsString>) -> Done {
    let mut arguments = Arguments::sort("why", arguments, &["--at", "--names", "-o"], &[])?;
    let at = arguments.number("--at")?;
    let typed = arguments.behind_file();
    let Some(wanted) = Wanted::of_text(&typed.join(OsStr::new(" ")).to_string_lossy()) else {
        return Err(
            arguments.wrong("expected a journal, and a thing behind it, as: step 17, pipe 37, or a name")
        );
    };
    let file = arguments.file()?;
    let journal = read_journal("why", file)?;
    let names = read_names(&arguments, file)?;
    let answer = why::why(&journal, &names, &wanted, at);
    let Answer { text, broken } = answer.map_err(|silent| silence(&arguments, file, silent))?;
    if let Some(broken) = broken {
        remark(&format!("why: {}, {broken} What comes before it is looked at", name_of(file)));
    }
    write_result(&arguments, &text)
}

fn silence(arguments: &Arguments, file: Option<&OsStr>, silent: Silent) -> Failure {
    let name = name_of(file);
    Failure::Failed(match silent {
        Silent::TooLong => format!("why: {name}: {} Nothing is told", answer_words(Refusal::JournalTooLong)),
        Silent::Shorter(records) => return arguments.beyond(records),
        Silent::Never(words) => format!("why: {name}: {words}"),
        Silent::Differs => format!(
            "why: {name}: record by record it got other replies than as a whole, and nothing is told. {REPORT}"
        ),
    })
}
