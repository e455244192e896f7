//! The command `line`.

use std::ffi::{OsStr, OsString};
use std::io::{self, BufRead, IsTerminal, Read};
use std::os::unix::ffi::OsStrExt;
use std::path::Path;

use gatekeeper::{Call, JOURNAL_BYTES};
use gk_advice::records::Records;
use gk_advice::refused::answer_words;
use gk_names::number::shown as with_commas;

use super::arguments::Arguments;
use super::commands::{assembled, names_beside, read_journal, read_names};
use super::files::{name_of, read_input, write_output, write_whole};
use super::trying::{untried, REPORT};
use super::{remark, Done, Failure};
use crate::explain::Which;
use crate::line::reading::{read, Fault};
use crate::line::taken::{taken, Given};
use crate::line::{verdict, Differs, Verdict};
use crate::names::files::{is_input_open, replaces, INPUT, REPLACES};
use crate::names::Names;
use crate::text::marked;
use crate::trial::Start;

/// The longest line that is tried, in bytes: nobody types so much, and input without end is no line.
const LONGEST_LINE: usize = 1 << 16;

const VALUED: [&str; 8] =
    ["--after", "--set-up", "--shell", "--child", "--pipe", "--names", "--append", "-o"];

pub fn line(arguments: Vec<OsString>) -> Done {
    let arguments = Arguments::sort("line", arguments, &VALUED, &["--refused"])?;
    let given = Given {
        shell: arguments.number("--shell")?,
        child: arguments.number("--child")?,
        pipe: arguments.number("--pipe")?,
    };
    let typed = arguments.one("line", ": put the line in quotes")?;
    let base = Base::of(&arguments, typed)?;
    base.keep_inputs(&arguments, typed)?;
    let (journal, names) = base.read(&arguments)?;
    let start = Start::after(&journal).map_err(|unfit| untried(&arguments, base.file(), "line", unfit))?;
    let line = read_line(typed)?;

    let (numbers, words) = taken(given, &start, &read(&line).unwrap_or_default(), &names);
    let made = match verdict(&start, &line, numbers).map_err(differs)? {
        Verdict::Made(made) => made,
        Verdict::Refused(fault) => return Err(refused(&line, &fault)),
    };
    match (&base, start.refused) {
        (Base::Nothing, _) => {
            remark("line: tried on empty tables; --after JOURNAL or --set-up TEXT gives others");
        }
        (Base::SetUp(_), Some((record, refusal))) => {
            remark(&format!("line: the set-up's record {record}: {}", answer_words(refusal)));
        }
        _ => {}
    }
    let which = if arguments.has("--refused") { Which::Refused } else { Which::All };
    let text = words + &made.text(&start, &names, which);
    write(&arguments, &base, &journal, text, &made.calls())
}

/// What a line is tried after.
enum Base<'a> {
    Nothing,
    /// A file; none is standard input.
    Journal(Option<&'a OsStr>),
    SetUp(Option<&'a OsStr>),
}

impl<'a> Base<'a> {
    fn of(arguments: &'a Arguments, typed: Option<&OsStr>) -> Result<Base<'a>, Failure> {
        let file = |path: &'a OsStr| (path != "-").then_some(path);
        let append = arguments.value("--append");
        if append.is_some_and(|path| path == "-") {
            return Err(arguments.wrong("--append needs a file, not standard output"));
        }
        let base = match (arguments.value("--after"), arguments.value("--set-up")) {
            (None, None) => append.map_or(Base::Nothing, |journal| Base::Journal(Some(journal))),
            (Some(journal), None) => Base::Journal(file(journal)),
            (None, Some(text)) => Base::SetUp(file(text)),
            (Some(_), Some(_)) => return Err(arguments.wrong("--after and --set-up do not go together")),
        };
        if arguments.value("--names").is_some() && !matches!(base, Base::Journal(_)) {
            return Err(arguments.wrong("--names goes with a journal; a set-up has its names in it"));
        }
        match (typed, &base) {
            (None, Base::Journal(None) | Base::SetUp(None)) => {
                Err(arguments
                    .wrong("standard input cannot be two things: give the line behind the options"))
            }
            _ => Ok(base),
        }
    }

    /// The records, and the names that go with them.
    fn read(&self, arguments: &Arguments) -> Result<(Vec<u8>, Names), Failure> {
        match *self {
            Base::Nothing => Ok((Vec::new(), Names::new())),
            Base::Journal(file) => Ok((read_journal("line", file)?, read_names(arguments, file)?)),
            Base::SetUp(file) => assembled(file).map(|assembled| (assembled.journal, assembled.names)),
        }
    }

    /// The file that is read.
    fn file(&self) -> Option<&'a OsStr> {
        match *self {
            Base::Nothing => None,
            Base::Journal(file) | Base::SetUp(file) => file,
        }
    }

    /// That the output is the file of no input.
    fn keep_inputs(&self, arguments: &Arguments, typed: Option<&OsStr>) -> Done {
        let is_piped = typed.is_none() || matches!(self, Base::Journal(None) | Base::SetUp(None));
        let input = is_piped.then_some(OsStr::new(INPUT));
        let beside = match *self {
            Base::Journal(file) => names_beside(file),
            _ => None,
        };
        let given = [self.file(), arguments.value("--names"), arguments.value("--append"), input];
        let inputs = given.into_iter().flatten().map(Path::new).chain(beside.as_deref());
        match arguments.out() {
            Some(out) if replaces(&[Path::new(out)], &inputs.collect::<Vec<&Path>>()) => {
                Err(arguments.wrong(REPLACES))
            }
            _ => Ok(()),
        }
    }
}

/// What is typed, without the end of a line that stands behind it on standard input.
fn read_line(typed: Option<&OsStr>) -> Result<Vec<u8>, Failure> {
    let mut line = match typed {
        Some(line) => line.as_bytes().to_vec(),
        None if is_input_open() && io::stdin().is_terminal() => {
            let mut line = Vec::new();
            let read = io::stdin().lock().take(LONGEST_LINE as u64 + 3).read_until(b'\n', &mut line);
            read.map_err(|error| Failure::Failed(format!("cannot read standard input: {error}")))?;
            line
        }
        None => read_input(None, LONGEST_LINE + 3)?,
    };
    for end in [b'\n', b'\r'] {
        if typed.is_none() && line.last() == Some(&end) {
            line.pop();
        }
    }
    match line.len() > LONGEST_LINE {
        true => {
            let most = with_commas(LONGEST_LINE as u64);
            Err(Failure::Failed(format!("line: above {most} bytes a line is not tried")))
        }
        false => Ok(line),
    }
}

fn differs(differs: Differs) -> Failure {
    let what = match differs {
        Differs::Verdict => {
            "gk reads this line otherwise than the proved gatekeeper, and gives no place in it"
        }
        Differs::Calls => {
            "call by call this line comes to another end than as a whole, and nothing of it is shown"
        }
    };
    Failure::Failed(format!("line: {what}. {REPORT} with the line and what it was tried after"))
}

/// RULES R18, R19: the place, and what was expected there.
fn refused(line: &[u8], fault: &Fault) -> Failure {
    let column = fault.at.start + 1;
    let count = String::from_utf8_lossy(&line[fault.at.clone()]).chars().count();
    Failure::Failed(format!(
        "line: {} No call is made.\nColumn {column}: {}\n{}{}",
        answer_words(fault.refusal),
        fault.expected,
        marked(&String::from_utf8_lossy(line), column, count),
        fault.advice
    ))
}

/// Writes what is said of the calls, and appends them to the journal that is to have them.
fn write(arguments: &Arguments, base: &Base, tried_after: &[u8], mut text: String, calls: &[Call]) -> Done {
    let append = arguments.value("--append").map(Path::new);
    let longer = append.map(|path| appended(path, base, tried_after, calls)).transpose()?;
    if let (Some(path), Some((first, _))) = (append, &longer) {
        let (name, last) = (name_of(Some(path.as_os_str())), first + calls.len() - 1);
        text.push_str(&format!("Appended to {name}: records {first} to {last}.\n"));
    }
    let out = arguments.out().map(Path::new);
    let mut files: Vec<(&Path, &[u8])> = Vec::new();
    files.extend(append.zip(longer.as_ref()).map(|(path, (_, journal))| (path, journal.as_slice())));
    files.extend(out.map(|path| (path, text.as_bytes())));
    write_whole(&files)?;
    match out {
        Some(_) => Ok(()),
        None => write_output(text.as_bytes()),
    }
}

/// A journal with the calls behind its records, and the position of the first of them.
fn appended(
    path: &Path,
    base: &Base,
    tried_after: &[u8],
    calls: &[Call],
) -> Result<(usize, Vec<u8>), Failure> {
    let name = name_of(Some(path.as_os_str()));
    let failed = |why: String| Err(Failure::Failed(format!("line: {name} {why}: nothing is appended")));
    if path.exists() && !path.is_file() {
        return failed("is no file".to_string());
    }
    let mut journal = read_input(Some(path.as_os_str()), JOURNAL_BYTES + 1)?;
    let records = Records::new(&journal).count();
    if Records::new(&journal).any(|record| record.is_err()) {
        return failed(format!("breaks off at record {records} (11), and nothing behind that is read"));
    }
    if journal != tried_after {
        if base.file().is_some_and(|file| replaces(&[path], &[Path::new(file)])) {
            return failed("has changed since it was read".to_string());
        }
        remark(&format!(
            "line: {name} is not what the line was tried after: its answers may be others there"
        ));
    }
    calls.iter().for_each(|call| call.write_record(&mut journal));
    match journal.len() > JOURNAL_BYTES {
        true => {
            let [bytes, most] = [journal.len(), JOURNAL_BYTES].map(|bytes| with_commas(bytes as u64));
            failed(format!("would have {bytes} bytes, and above {most} a journal is refused (14)"))
        }
        false => Ok((records + 1, journal)),
    }
}
