//! The command line of `gk trace`.

use std::fs::File;
use std::io::{self, BufRead, BufReader, Read, Write};
use std::path::{Path, PathBuf};

use gk_names::files::{is_input_open, no_names, replaces, INPUT, INPUT_CLOSED, REPLACES};

use crate::levels::{Levels, LEVEL, LONGEST_FILE};
use crate::output::write_whole;
use crate::propose::proposed;
use crate::report::Verdict;
use crate::run::{journal_of, Failure as RunFailure};
use crate::text::shown;
use crate::world::Options;

pub const HELP: &str = "\
gk trace - the trace of a real run as a journal

Usage: gk trace [OPTIONS] --levels FILE [TRACE] > JOURNAL

Trace the run first. This is the line to type; sh pay.sh is the run:
  strace -f -y -s 2 -o pay.trace sh pay.sh
Then:
  gk trace pay.trace --levels pay.levels -o pay.journal
  gk explain pay.journal --refused

TRACE is what strace -f -o TRACE has written, with or without -y; - or nothing is standard input. Each process
becomes a step, and its threads become threads of that step; each file and pipe has one number for the whole run, and
the calls are written in their order. -y has strace write real paths, and -s 2 no more of what is read and written
than two characters; less is not enough.

A report goes to standard error: which calls were written, which of them the gatekeeper refuses, what was NOT SEEN
and what was left out, with the first line of each kind.

  --levels FILE   which level each file has, and which shop marks; needed
  -o FILE         write the journal there; the names go to the same path with .names in the place of its ending
  --names FILE    write the names of steps, files, pipes and shop groups there
  --folder PATH   the folder that the run was started in, where the trace does not say it; absolute
  --start LEVEL   the level of the first step (15)
  --shops SET     its shop marks (all)
  --until LINE    read the trace up to this line
  --all-files     keep files of level 15 with all shop marks that are only read (harmless: docs/TRACE.md says why)
  --repeats       keep reads and writes that come again and lower nobody
  --fold          let files of one line of the levels file that are only read stand as one from the start, and
                  not only where they do not fit; all other answers are the same
  --one-step      take threads for their process, without numbers of their own; all other answers are the same
  --propose       in the report, changes of the levels file after which nothing is refused, each tried on the trace,
                  and what each gives up; the trace is read into memory and run some dozen times
  --report-only   status 0 wherever the journal is written, whatever was refused or not seen
  --quiet         no report

The levels file has a line for each pattern; the first that fits counts:
  name shop 0 north          # names for the eight shop groups, 0 to 7
  name shop 1 east
  sheets/north/*.csv 2 north,east    # unchecked hours, of shops that are vouched for: north and east
  sheets/*.csv     2 none   # of shops that nobody vouches for
  paybook.csv      9
  bank.csv         12
  \"month end/**\"   step     # files that the run makes: the level of the step that makes them
  /var/log/**      out      # left out; where the run reads one, that is reported as NOT SEEN
  <stdin>          2        # what the run is started with: <stdin>, <stdout>, <stderr>
  else             15       # every other file; the last line
Behind a level stands a set of shop marks: names of shop groups joined by commas, all, none, or a number, 0 to 255.
A line without one means all of them.
A pattern is matched with the path from the starting folder and with the absolute path: * and ? are any
characters but /, ** is any at all, [a-z] is one of a set, \\ takes the next character as it is.

Exit status: 0 nothing is refused, and everything was seen; 3 there are refusals; 4 nothing is refused of what
was seen, and something was NOT SEEN: the report says what. The journal is written in these three cases, and with
--report-only the status is 0. 1 something could not be read or written, or the trace does not fit into a journal:
then nothing is written; 2 bad usage; 141, without a word, where the reader of the output has stopped.
";

enum Failure {
    Unread,
    Usage(String),
    Failed(String),
}

/// Runs `gk trace` with what stands behind it on the command line; the exit status.
pub fn main(arguments: &[String]) -> i32 {
    let (message, status) = match command(arguments) {
        Ok(Verdict::Clear) => return 0,
        Ok(Verdict::Refused) => return 3,
        Ok(Verdict::Unseen) => return 4,
        Err(Failure::Unread) => return 141,
        Err(Failure::Usage(message)) => (format!("gk trace: {message}. Type: gk trace --help"), 2),
        Err(Failure::Failed(message)) => (format!("gk trace: {message}"), 1),
    };
    // Where standard error cannot be written to, the status still tells.
    let _ = writeln!(io::stderr(), "{message}");
    status
}

#[derive(Default)]
struct Arguments {
    trace: Option<String>,
    levels: Option<String>,
    journal: Option<String>,
    names: Option<String>,
    shops: Option<String>,
    until: Option<u64>,
    is_quiet: bool,
    is_report_only: bool,
    is_proposing: bool,
    options: Options,
}

fn command(arguments: &[String]) -> Result<Verdict, Failure> {
    let before_dashes = arguments.iter().take_while(|argument| *argument != "--");
    if before_dashes.clone().any(|argument| argument == "--help" || argument == "-h") {
        return write_output(HELP.as_bytes()).map(|()| Verdict::Clear);
    }
    let mut arguments = sorted(arguments)?;
    let Some(path) = &arguments.levels.clone() else {
        return Err(Failure::Usage("expected --levels FILE".to_string()));
    };
    let (levels_text, levels) = read_levels(path)?;
    if let Some(set) = &arguments.shops {
        let set = levels.set_of(set).map_err(|expected| Failure::Usage(format!("--shops: {expected}")))?;
        arguments.options.start.shops = set;
    }
    let name = arguments.trace.as_deref().filter(|name| *name != "-");
    if name.is_none() && !is_input_open() {
        return Err(Failure::Failed(INPUT_CLOSED.to_string()));
    }
    let (mut trace, title): (Box<dyn BufRead>, String) = match name {
        None => (Box::new(io::stdin().lock()), "standard input".to_string()),
        Some(name) => (Box::new(BufReader::with_capacity(1 << 16, open(name)?)), shown(name.as_bytes())),
    };
    let mut whole = Vec::new();
    let written = match arguments.is_proposing {
        true => {
            let read = trace.read_to_end(&mut whole);
            read.map_err(|error| Failure::Failed(format!("cannot read {title}: {error}")))?;
            journal(&whole[..], &title, &levels, &arguments)?
        }
        false => journal(trace, &title, &levels, &arguments)?,
    };
    let mut files: Vec<(&Path, &[u8])> = Vec::new();
    let beside = arguments.journal.as_ref().map(|path| gk_names::beside(Path::new(path)));
    let names = arguments.names.as_ref().map(PathBuf::from).or(beside);
    let outputs: Vec<&Path> =
        names.iter().map(PathBuf::as_path).chain(arguments.journal.iter().map(Path::new)).collect();
    if replaces(&outputs, &[Path::new(path), Path::new(name.unwrap_or(INPUT))]) {
        return Err(Failure::Usage(REPLACES.to_string()));
    }
    if let Some((path, fault)) = names.as_deref().and_then(|path| Some((path, no_names(path)?))) {
        let path = shown(path.to_string_lossy().as_bytes());
        return Err(Failure::Failed(format!(
            "{path} is there and is no names file ({fault}): nothing is written"
        )));
    }
    // Who reads the journal from standard output finds the names there.
    files.extend(names.iter().map(|path| (path.as_path(), written.names.as_bytes())));
    files.extend(arguments.journal.iter().map(|path| (Path::new(path), &written.journal[..])));
    write_whole(&files).map_err(|(path, error)| {
        let name = match path.as_os_str().is_empty() {
            true => "\"\"".to_string(),
            false => shown(path.to_string_lossy().as_bytes()),
        };
        Failure::Failed(format!("cannot write {name}: {error}"))
    })?;
    if arguments.journal.is_none() {
        write_output(&written.journal)?;
    }
    if !arguments.is_quiet {
        let mut text = written.report.text(written.journal.len());
        if arguments.is_proposing {
            let run = |levels: &Levels| {
                journal_of(&whole[..], levels, arguments.options.clone(), arguments.until).ok()
            };
            text.push_str(&proposed(&levels_text, &levels, &written, run));
        }
        let _ = io::stderr().write_all(text.as_bytes());
    }
    Ok(if arguments.is_report_only { Verdict::Clear } else { written.report.verdict() })
}

fn sorted(arguments: &[String]) -> Result<Arguments, Failure> {
    let mut sorted = Arguments::default();
    let mut files = Vec::new();
    let mut rest = arguments.iter();
    while let Some(argument) = rest.next() {
        let mut value = || {
            let missing = || Failure::Usage(format!("{} needs a value", shown(argument.as_bytes())));
            rest.next().cloned().ok_or_else(missing)
        };
        match argument.as_str() {
            "--levels" => sorted.levels = Some(value()?),
            "-o" => sorted.journal = Some(value()?).filter(|path| path != "-"),
            "--names" => {
                sorted.names = Some(value()?).filter(|path| path != "-");
                if sorted.names.is_none() {
                    return Err(Failure::Usage("--names needs a file, not standard output".to_string()));
                }
            }
            "--folder" => {
                let folder = value()?;
                if !folder.starts_with('/') {
                    return Err(Failure::Usage(format!(
                        "--folder needs an absolute path, not \"{}\"",
                        shown(folder.as_bytes())
                    )));
                }
                sorted.options.folder = Some(folder.into_bytes());
            }
            "--start" => sorted.options.start.level = number(argument, &value()?, LEVEL)? as u8,
            "--shops" => sorted.shops = Some(value()?),
            "--until" => sorted.until = Some(number(argument, &value()?, u64::MAX)?),
            "--all-files" => sorted.options.all_files = true,
            "--repeats" => sorted.options.repeats = true,
            "--fold" => sorted.options.fold = true,
            "--one-step" => sorted.options.one_step = true,
            "--quiet" => sorted.is_quiet = true,
            "--report-only" => sorted.is_report_only = true,
            "--propose" => sorted.is_proposing = true,
            "--" => files.extend(rest.by_ref().cloned()),
            option if option.starts_with('-') && option != "-" => {
                return Err(Failure::Usage(format!("there is no option \"{}\"", shown(option.as_bytes()))));
            }
            _ => files.push(argument.clone()),
        }
    }
    if let [_, second, ..] = files.as_slice() {
        return Err(Failure::Usage(format!(
            "expected one trace, found \"{}\" as well",
            shown(second.as_bytes())
        )));
    }
    sorted.trace = files.pop();
    let is_names = |path: &String| Path::new(path).extension().is_some_and(|ending| ending == "names");
    if sorted.journal.is_some() && sorted.journal == sorted.names
        || sorted.names.is_none() && sorted.journal.as_ref().is_some_and(is_names)
    {
        return Err(Failure::Usage("the journal and the names need two files".to_string()));
    }
    Ok(sorted)
}

fn number(option: &str, value: &str, most: u64) -> Result<u64, Failure> {
    let digits = value.bytes().all(|byte| byte.is_ascii_digit());
    let number = value.parse().ok().filter(|&number: &u64| digits && number <= most);
    let bound = if most == u64::MAX { String::new() } else { format!(", 0 to {most}") };
    number.ok_or_else(|| {
        Failure::Usage(format!("{option} needs a number{bound}, not \"{}\"", shown(value.as_bytes())))
    })
}

fn open(name: &str) -> Result<File, Failure> {
    let failed = |why: String| Failure::Failed(format!("cannot read {}: {why}", shown(name.as_bytes())));
    if Path::new(name).is_dir() {
        return Err(failed("it is a folder".to_string()));
    }
    File::open(name).map_err(|error| failed(error.to_string()))
}

fn read_levels(name: &str) -> Result<(Vec<u8>, Levels), Failure> {
    let shown_name = shown(name.as_bytes());
    let mut bytes = Vec::new();
    let read = open(name)?.take(LONGEST_FILE as u64 + 1).read_to_end(&mut bytes);
    read.map_err(|error| Failure::Failed(format!("cannot read {shown_name}: {error}")))?;
    if bytes.len() > LONGEST_FILE {
        return Err(Failure::Failed(format!("{shown_name} is longer than 1,048,576 bytes")));
    }
    let levels = Levels::read(&bytes).map_err(|fault| {
        let (line, column, message) = (fault.line, fault.column, fault.message);
        Failure::Failed(format!("{shown_name}, line {line}, column {column}: {message}"))
    })?;
    Ok((bytes, levels))
}

fn journal(
    trace: impl BufRead,
    name: &str,
    levels: &Levels,
    arguments: &Arguments,
) -> Result<crate::run::Written, Failure> {
    journal_of(trace, levels, arguments.options.clone(), arguments.until).map_err(|failure| {
        Failure::Failed(match failure {
            RunFailure::Unread(error) => format!("cannot read {name}: {error}"),
            RunFailure::Empty => format!("{name}: the trace is empty"),
            RunFailure::Malformed { line, column, expected } => {
                format!("{name}, line {line}, column {column}: expected {expected}")
            }
            RunFailure::Stopped(stop) => format!("{name}, line {}: {}", stop.line, stop.message),
        })
    })
}

fn write_output(bytes: &[u8]) -> Result<(), Failure> {
    let mut output = io::stdout().lock();
    output.write_all(bytes).and_then(|()| output.flush()).map_err(|error| match error.kind() {
        io::ErrorKind::BrokenPipe => Failure::Unread,
        _ => Failure::Failed(format!("cannot write standard output: {error}")),
    })
}
