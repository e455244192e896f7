//! The command line.

use std::ffi::{CString, OsString};
use std::fs;
use std::io::{self, Write};
use std::os::fd::AsFd;
use std::os::unix::ffi::{OsStrExt, OsStringExt};
use std::path::{Path, PathBuf};

use gatekeeper::Label;
use gk_names::files::{replaces, REPLACES};
use gk_trace::{counted, Levels, LONGEST_FILE, TOP};

use crate::files::Files;
use crate::guard::Guard;
use crate::journal::Journal;
use crate::told::Told;
use crate::words::{say, shown, FAULT};
use crate::{proc, screen, start, sys};

pub const HELP: &str = "\
gk guard - runs programs under the proved gatekeeper

Usage: gk guard --levels FILE [OPTIONS] -- COMMAND [ARGUMENTS]

  gk guard --levels pay.levels -o pay.journal -- sh pay.sh
  gk explain --refused pay.journal
  gk screen --follow pay.journal        # in another terminal, while it runs

COMMAND and everything that it starts run unchanged. Each process is a step. An open that would let something of a
lower level reach a file of a higher one, or something without a shop mark a file that has it, fails with \"Permission
denied\" before anything is opened, and a line on standard error says how data could get there, which is proved (RULES
A1 to A12). Reads and writes are never refused.
Calls that would pass contents on without the gatekeeper (sockets, shared memory and the like) fail, each in words.

  --levels FILE   which level each file has, and which shop marks, as for gk trace (gk trace --help says how to write
                  it); needed
  -o JOURNAL      write each call there before it is answered; names go to the same path with the ending .names.
                  gk run JOURNAL and gk explain JOURNAL give the same answers
  --start LEVEL   the level of the first step (15)
  --shops SET     its shop marks (all): names of shop groups joined by commas, all, none, or a number, 0 to 255
  --screen        show the run on the duty screen while it goes on; needs -o and a terminal. Standard input is empty
                  then, where it is the terminal. What would be written to the terminal is kept, and shown once the
                  run has ended and the screen was left (Q), which does not end the run
  --dry-run       refuse nothing that the gatekeeper refuses, and say what it would have been. What cannot be followed
                  is refused all the same
  --replies FILE  write the answers there, as gk run prints them
  --report        at the end, what was told and how often anybody was stopped

Standard input that is no file has the level of the line <stdin>; without one it is empty for the run. Standard output
and error that are no files have those of <stdout> and <stderr>; without one, what goes there has left the run.

Not seen: names, sizes, times and other attributes of files; positions in a file that steps share; locks; signals; exit
statuses; how long something takes. Files that the levels file leaves out (out) are not seen either. docs/GUARD.md.

It needs Linux 5.19 or later on x86-64, and no rights: as root it does not run. Exit status: the command's; 126 it
cannot be run, 127 it is not found; 125 the guard's own fault, in words, and 2 bad usage: nothing is run.
";

/// What is asked for.
#[derive(Default)]
struct Arguments {
    levels: Option<PathBuf>,
    journal: Option<PathBuf>,
    replies: Option<PathBuf>,
    start: Option<u8>,
    shops: Option<String>,
    has_screen: bool,
    is_dry: bool,
    has_report: bool,
    command: Vec<CString>,
}

/// Why nothing is run.
enum Failure {
    Usage(String),
    Fault(String),
}

/// Runs `guard`; the exit status.
pub fn main(arguments: Vec<OsString>) -> i32 {
    let before_dashes = arguments.iter().take_while(|argument| *argument != "--");
    if before_dashes.clone().any(|argument| argument == "--help" || argument == "-h") {
        return match io::stdout().write_all(HELP.as_bytes()) {
            Ok(()) => 0,
            Err(_) => 1,
        };
    }
    let outcome = parsed(arguments).and_then(|arguments| match arguments.has_screen {
        true => beside(&arguments),
        false => run(arguments),
    });
    match outcome {
        Ok(status) => status,
        Err(Failure::Usage(message)) => {
            say(&format!("{message}. Type: gk guard --help"));
            2
        }
        Err(Failure::Fault(message)) => {
            say(&message);
            FAULT
        }
    }
}

fn parsed(arguments: Vec<OsString>) -> Result<Arguments, Failure> {
    let mut parsed = Arguments::default();
    let mut rest = arguments.into_iter();
    while let Some(argument) = rest.next() {
        let word = argument.to_string_lossy().into_owned();
        let mut value = || {
            rest.next().ok_or_else(|| Failure::Usage(format!("{} needs a value", shown(word.as_bytes()))))
        };
        match word.as_str() {
            "--levels" => parsed.levels = Some(value()?.into()),
            "-o" => parsed.journal = Some(value()?.into()),
            "--replies" => parsed.replies = Some(value()?.into()),
            "--start" => parsed.start = Some(level(&value()?)?),
            "--shops" => parsed.shops = Some(value()?.to_string_lossy().into_owned()),
            "--screen" => parsed.has_screen = true,
            "--dry-run" => parsed.is_dry = true,
            "--report" => parsed.has_report = true,
            "--" => {
                let words: Result<Vec<CString>, _> =
                    rest.map(|word| CString::new(word.into_vec())).collect();
                parsed.command = words.unwrap_or_default();
                break;
            }
            option if option.starts_with('-') => {
                return Err(Failure::Usage(format!("there is no option \"{}\"", shown(option.as_bytes()))));
            }
            _ => {
                let message =
                    format!("expected -- before the command, found \"{}\"", shown(word.as_bytes()));
                return Err(Failure::Usage(message));
            }
        }
    }
    if parsed.levels.is_none() {
        return Err(Failure::Usage("expected --levels FILE".to_string()));
    }
    if parsed.command.is_empty() {
        return Err(Failure::Usage("expected -- and a command behind it".to_string()));
    }
    if parsed.has_screen && parsed.journal.is_none() {
        return Err(Failure::Usage("--screen shows the journal: expected -o JOURNAL".to_string()));
    }
    Ok(parsed)
}

fn level(value: &OsString) -> Result<u8, Failure> {
    let text = value.to_string_lossy();
    let is_number = !text.is_empty() && text.bytes().all(|byte| byte.is_ascii_digit());
    text.parse().ok().filter(|&level: &u8| is_number && level <= TOP.level).ok_or_else(|| {
        Failure::Usage(format!("--start needs a level, 0 to 15, not \"{}\"", shown(text.as_bytes())))
    })
}

/// The label of the first step.
fn start_label(arguments: &Arguments, levels: &Levels) -> Result<Label, Failure> {
    let shops = arguments.shops.as_deref().map_or(Ok(TOP.shops), |set| levels.set_of(set));
    let shops = shops.map_err(|expected| Failure::Usage(format!("--shops: {expected}")))?;
    Ok(Label { level: arguments.start.unwrap_or(TOP.level), shops })
}

/// The run as a process of its own, and the duty screen on its journal, which has the terminal.
fn beside(arguments: &Arguments) -> Result<i32, Failure> {
    let levels = prepared(arguments)?;
    start_label(arguments, &levels)?;
    // Emptied before anybody looks: what the screen follows gets no shorter.
    let Some(path) = &arguments.journal else { return Ok(FAULT) };
    drop(journal_at(path)?);
    screen::beside(path).map_err(Failure::Fault)
}

/// What has to be in order before anything is run; the levels.
fn prepared(arguments: &Arguments) -> Result<Levels, Failure> {
    if sys::is_root() || proc::has_capabilities() {
        let message =
            "not as root, nor with capabilities: the kernel has too many ways for them. Run it as an \
                       ordinary user, as: setpriv --reuid 65534 --regid 65534 --clear-groups guard …";
        return Err(Failure::Fault(message.to_string()));
    }
    if !proc::is_one_user() {
        let message =
            "not with the rights of two users or groups: a step could change from one to the other";
        return Err(Failure::Fault(message.to_string()));
    }
    let levels = read_levels(arguments)?;
    let outputs: Vec<PathBuf> =
        arguments.journal.iter().flat_map(|path| [path.clone(), gk_names::beside(path)]).collect();
    let outputs: Vec<&Path> = outputs.iter().chain(&arguments.replies).map(PathBuf::as_path).collect();
    if replaces(&outputs, &[arguments.levels.as_deref().unwrap_or(Path::new(""))]) {
        return Err(Failure::Usage(REPLACES.to_string()));
    }
    Ok(levels)
}

fn journal_at(path: &Path) -> Result<Journal, Failure> {
    Journal::create(path).map_err(|error| {
        Failure::Fault(format!("cannot write {}: {error}", shown(path.as_os_str().as_bytes())))
    })
}

fn run(arguments: Arguments) -> Result<i32, Failure> {
    let levels = prepared(&arguments)?;
    let start = start_label(&arguments, &levels)?;
    let shops = levels.names().clone();
    let folder = fs::canonicalize(".")
        .map_err(|error| Failure::Fault(format!("cannot find the folder: {error}")))?;
    let folder = folder.into_os_string().into_vec();
    let mut files = Files::new(levels, folder.clone());
    let mut journal = match &arguments.journal {
        None => Journal::none(),
        Some(path) => journal_at(path)?,
    };
    journal.name_shops(&shops);
    files.journal = journal.keys();
    if arguments.replies.is_some() {
        journal.keep_replies();
    }
    let told = Told::new(journal, folder);
    let (mut guard, signals, first) =
        start::start(told, files, start, &arguments.command, arguments.is_dry);
    guard.run(signals.file.as_fd());
    let status = start::unrun(&first, &arguments.command).unwrap_or(guard.status);
    finish(&guard, &arguments)?;
    Ok(status)
}

fn read_levels(arguments: &Arguments) -> Result<Levels, Failure> {
    let path = arguments.levels.clone().unwrap_or_default();
    let name = shown(path.as_os_str().as_bytes());
    let bytes = fs::read(&path).map_err(|error| Failure::Fault(format!("cannot read {name}: {error}")))?;
    if bytes.len() > LONGEST_FILE {
        return Err(Failure::Fault(format!("{name} is longer than 1,048,576 bytes")));
    }
    Levels::read(&bytes).map_err(|fault| {
        Failure::Fault(format!("{name}, line {}, column {}: {}", fault.line, fault.column, fault.message))
    })
}

fn finish(guard: &Guard, arguments: &Arguments) -> Result<(), Failure> {
    guard.told.journal.close().map_err(Failure::Fault)?;
    if let (Some(path), Some(replies)) = (&arguments.replies, guard.told.journal.replies()) {
        fs::write(path, format!("{replies}{}", guard.told.tally())).map_err(|error| {
            Failure::Fault(format!("cannot write {}: {error}", shown(path.as_os_str().as_bytes())))
        })?;
    }
    if guard.told.refused > 0 {
        let word = if guard.is_dry { "would have been refused" } else { "refused" };
        say(&format!("{} calls {word} in all", counted(guard.told.refused)));
    }
    if guard.files.left_out > 0 {
        say(&format!(
            "NOT SEEN: {} opens of files that the levels file leaves out",
            counted(guard.files.left_out)
        ));
    }
    if arguments.has_report {
        let (counts, journal) = (&guard.counts, &guard.told.journal);
        say(&format!(
            "{} steps; {} calls told, {} bytes, {} refused; {} asked, {} threads interrupted, all looked at {} times",
            counted(counts.steps),
            counted(journal.records()),
            counted(journal.length() as u64),
            counted(guard.told.refused),
            counted(counts.asked),
            counted(counts.interrupts),
            counted(counts.scans),
        ));
    }
    Ok(())
}
