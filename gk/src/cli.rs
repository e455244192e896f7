//! The command line: one table of commands. Errors go to standard error; `help::WHOLE` has the exit statuses.

mod arguments;
mod audit;
mod commands;
mod convert;
mod files;
mod line;
mod question;
mod trying;
mod why;

use std::ffi::OsString;
use std::io::{self, Write};
use std::process::ExitCode;

use crate::help;
use crate::text::{meant, shown};
use files::write_output;

/// Why the program ends with a status other than 0.
#[derive(Debug, PartialEq, Eq)]
pub enum Failure {
    /// Who reads the output has stopped: status 141, as of a program that the broken pipe ends, and no word.
    Unread,
    /// The command line is wrong: status 2.
    Usage(String),
    /// A text that is none, or a read or a write that failed: status 1.
    Failed(String),
    /// A command has said all that is to be said, and ends with this status.
    Status(u8),
}

/// How a command ends.
pub type Done = Result<(), Failure>;

/// How a command is run and what its help is.
pub enum Work {
    /// With its arguments; the help stands in `help`.
    Here(fn(Vec<OsString>) -> Done, &'static str),
    /// By a library of its own, which gives back an exit status and has its own help: `--help` is handed to it.
    There(fn(&[String]) -> i32),
    /// Likewise, with its arguments as they are: they are another program's.
    AsIs(fn(Vec<OsString>) -> i32),
}

/// A command: its word, what it does in a few words, and how it is run.
pub struct Command {
    pub word: &'static str,
    pub what: &'static str,
    pub work: Work,
}

const fn command(word: &'static str, what: &'static str, work: Work) -> Command {
    Command { word, what, work }
}

/// Every command, in the order of the help. One that a library of its own has is one line here.
pub const COMMANDS: &[Command] = &[
    command("run", "the replies to a journal", Work::Here(commands::run, help::RUN)),
    command("explain", "the replies in plain words", Work::Here(commands::explain, help::EXPLAIN)),
    command("why", "where the level of a step or pipe comes from", Work::Here(why::why, help::WHY)),
    command("assemble", "from words to a journal", Work::Here(commands::assemble, help::ASSEMBLE)),
    command("disassemble", "from a journal to words", Work::Here(commands::disassemble, help::DISASSEMBLE)),
    command(
        "convert",
        "a journal from before shop marks, with sets",
        Work::Here(convert::convert_journal, help::CONVERT),
    ),
    command("line", "a typed line, each call with its answer", Work::Here(line::line, help::LINE)),
    command(
        "try",
        "some calls after a journal, with their answers",
        Work::Here(trying::try_calls, help::TRY),
    ),
    command("audit", "many journals: what was refused, where", Work::Here(audit::audit, help::AUDIT)),
    command("trace", "the trace of a real run as a journal", Work::There(gk_trace::main)),
    command("screen", "the run to look at: a screen, or a page", Work::There(gk_screen::main)),
    command("guard", "real programs under the gatekeeper", Work::AsIs(guard::cli::main)),
];

/// Runs the program with these arguments; `is_open` says whether it was started with its standard output open.
pub fn main(arguments: Vec<OsString>, is_open: bool) -> ExitCode {
    let outcome = match is_open {
        true => dispatch(arguments),
        false => Err(Failure::Failed("standard output is closed: nothing is done".to_string())),
    };
    let (message, status) = match outcome {
        Ok(()) => return ExitCode::SUCCESS,
        Err(Failure::Unread) => return ExitCode::from(141),
        Err(Failure::Status(status)) => return ExitCode::from(status),
        Err(Failure::Usage(message)) => (message, 2),
        Err(Failure::Failed(message)) => (message, 1),
    };
    remark(&message);
    ExitCode::from(status)
}

fn dispatch(arguments: Vec<OsString>) -> Done {
    let mut arguments = arguments.into_iter();
    let Some(word) = arguments.next() else {
        return Err(Failure::Usage("expected a command. Type: gk help".to_string()));
    };
    let rest: Vec<OsString> = arguments.collect();
    let word = word.to_string_lossy().into_owned();
    match word.as_str() {
        "--version" => return version_command(&rest),
        "help" | "--help" | "-h" => return help_command(&rest),
        _ => {}
    }
    start(&named(&word)?.work, rest)
}

/// Runs a command with its arguments.
fn start(work: &Work, arguments: Vec<OsString>) -> Done {
    let before_dashes = arguments.iter().take_while(|argument| *argument != "--");
    match work {
        Work::Here(_, text) if before_dashes.clone().any(|word| word == "--help" || word == "-h") => {
            write_output(text.as_bytes())
        }
        Work::Here(work, _) => work(arguments),
        Work::There(work) => {
            let words: Vec<String> =
                arguments.iter().map(|argument| argument.to_string_lossy().into_owned()).collect();
            ended(work(&words))
        }
        Work::AsIs(work) => ended(work(arguments)),
    }
}

fn ended(status: i32) -> Done {
    match status {
        0 => Ok(()),
        status => Err(Failure::Status(u8::try_from(status).unwrap_or(1))),
    }
}

fn named(word: &str) -> Result<&'static Command, Failure> {
    COMMANDS.iter().find(|command| command.word == word).ok_or_else(|| unknown("command", word))
}

fn unknown(what: &str, word: &str) -> Failure {
    let mut words: Vec<&str> = COMMANDS.iter().map(|command| command.word).chain(["help"]).collect();
    if what != "command" {
        words.extend(help::TOPICS.iter().map(|(topic, _)| *topic));
    }
    let advice = match meant(word, &words).as_slice() {
        [] => format!("There are: {}", words.join(", ")),
        meant => format!("Did you mean: {}", meant.join(" or ")),
    };
    Failure::Usage(format!("there is no {what} \"{}\". {advice}", shown(word)))
}

fn version_command(rest: &[OsString]) -> Done {
    if let Some(second) = rest.first() {
        let second = shown(&second.to_string_lossy());
        return Err(Failure::Usage(format!("--version: expected nothing behind it, found \"{second}\"")));
    }
    write_output(format!("gk {}\n", gatekeeper::VERSION).as_bytes())
}

fn help_command(rest: &[OsString]) -> Done {
    let Some(topic) = rest.first() else {
        return write_output(whole_help().as_bytes());
    };
    if let Some(second) = rest.get(1) {
        let second = shown(&second.to_string_lossy());
        return Err(Failure::Usage(format!("help: expected one word, found \"{second}\" as well")));
    }
    let topic = topic.to_string_lossy();
    if let Some((_, text)) = help::TOPICS.iter().find(|(word, _)| *word == topic) {
        return write_output(text.as_bytes());
    }
    if topic == "help" {
        return write_output(whole_help().as_bytes());
    }
    let command = named(&topic).map_err(|_| unknown("help on", &topic))?;
    start(&command.work, vec!["--help".into()])
}

/// The help of the whole program, with a line for each command.
pub fn whole_help() -> String {
    let lines: String =
        COMMANDS.iter().map(|command| format!("  {:<12} {}\n", command.word, command.what)).collect();
    help::WHOLE.replace("COMMANDS\n", &lines)
}

/// Every command's own help, by its word.
pub fn helps() -> Vec<(&'static str, &'static str)> {
    let text = |command: &Command| match command.work {
        Work::Here(_, text) => Some((command.word, text)),
        Work::There(_) | Work::AsIs(_) => None,
    };
    COMMANDS.iter().filter_map(text).collect()
}

/// A word on standard error. Where it cannot be written, the exit status still tells.
fn remark(text: &str) {
    let _ = writeln!(io::stderr(), "gk: {text}");
}

#[cfg(test)]
mod tests {
    use super::*;
    use std::os::unix::ffi::{OsStrExt, OsStringExt};

    #[test]
    fn a_library_of_its_own_gets_the_words_and_gives_the_status() {
        let work = Work::There(|words| match words {
            [one] if one == "--help" => 0,
            [one, other] if one == "a" && other == "b" => 7,
            _ => -1,
        });
        assert_eq!(start(&work, vec!["--help".into()]), Ok(()));
        assert_eq!(start(&work, vec!["a".into(), "b".into()]), Err(Failure::Status(7)));
        assert_eq!(start(&work, Vec::new()), Err(Failure::Status(1)));
        let bytes = OsString::from_vec(vec![b'a', 0xff]);
        let work = Work::AsIs(|words| i32::from(words[0].as_bytes()[1]));
        assert_eq!(start(&work, vec![bytes]), Err(Failure::Status(255)));
    }
}
