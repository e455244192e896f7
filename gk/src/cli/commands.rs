//! The commands.

use std::ffi::{OsStr, OsString};
use std::path::{Path, PathBuf};

use gatekeeper::JOURNAL_BYTES;

use super::arguments::Arguments;
use super::files::{name_of, read_input, write_output, write_to, write_whole};
use super::{question, remark, Done, Failure};
use crate::assembly::{self, lines, Assembled};
use crate::disassembly;
use crate::explain::question::Question;
use crate::explain::{self, json, summary, Differs};
use crate::names::files::no_names;
use crate::names::{self, Names};
use crate::text::{marked, shown};
use gk_advice::records::{Body, Record, Records};

/// The longest text that is assembled, in bytes: comments take room, but input without end is no text.
pub const LONGEST_TEXT: usize = 1 << 24;

/// A journal; one byte past the limit is enough to know that it is above it.
pub fn read_journal(command: &str, file: Option<&OsStr>) -> Result<Vec<u8>, Failure> {
    let journal = read_input(file, JOURNAL_BYTES + 1)?;
    if journal.len() > JOURNAL_BYTES && command != "run" {
        remark(&format!("{command}: the journal is longer than 65,536 bytes; the first 65,537 were read"));
    }
    if looks_like_text(&journal) {
        remark(&format!(
            "{command}: this looks like a text and not like a journal. From words to a journal: gk assemble TEXT -o \
             JOURNAL"
        ));
    }
    Ok(journal)
}

/// Whether the first bytes are letters, which as lengths and codes make no call.
fn looks_like_text(journal: &[u8]) -> bool {
    let text = journal.strip_prefix(b"\xef\xbb\xbf").unwrap_or(journal);
    let is_letter = |byte: &u8| byte.is_ascii_graphic() || byte.is_ascii_whitespace();
    let has_no_call =
        || !matches!(Records::new(journal).next(), Some(Ok(Record { body: Body::Call(_), .. })));
    !text.is_empty() && text.iter().take(16).all(is_letter) && has_no_call()
}

/// The names file beside a journal, if it is there.
pub fn names_beside(journal: Option<&OsStr>) -> Option<PathBuf> {
    journal.map(|file| names::beside(Path::new(file))).filter(|path| path.is_file())
}

/// Writes what was made of a journal and its names, and replaces neither.
pub fn write_result(arguments: &Arguments, text: &str) -> Done {
    let beside = names_beside(arguments.file()?);
    let names = arguments.value("--names").map(Path::new).or(beside.as_deref());
    arguments.keep_input(&[arguments.out().map(Path::new)], &[names])?;
    write_to(arguments.out(), text.as_bytes())
}

/// The names behind `--names`, or of the file beside the journal, or none.
pub fn read_names(arguments: &Arguments, journal: Option<&OsStr>) -> Result<Names, Failure> {
    let bad = |path: &Path, fault: names::Fault| {
        Failure::Failed(format!("cannot take the names in {}: {fault}", shown(&path.to_string_lossy())))
    };
    if let Some(path) = arguments.value("--names") {
        let path = Path::new(path);
        return match path.is_dir() {
            true => Err(Failure::Failed(format!(
                "cannot read {}: it is a folder",
                shown(&path.to_string_lossy())
            ))),
            false => Names::load(path).map_err(|fault| bad(path, fault)),
        };
    }
    let Some(path) = names_beside(journal) else {
        return Ok(Names::new());
    };
    // It may only happen to be called so: what is said without names is true as well.
    Ok(Names::load(&path).unwrap_or_else(|fault| {
        remark(&format!("the names in {} are not taken: {fault}", shown(&path.to_string_lossy())));
        Names::new()
    }))
}

pub fn run(arguments: Vec<OsString>) -> Done {
    let arguments = Arguments::sort("run", arguments, &["-o"], &[])?;
    let journal = read_journal("run", arguments.file()?)?;
    write_result(&arguments, &gatekeeper::replay(&journal))
}

pub fn explain(arguments: Vec<OsString>) -> Done {
    let switches = ["--refused", "--summary", "--json"];
    let valued: Vec<&'static str> = ["-o", "--names"].into_iter().chain(question::OPTIONS).collect();
    let arguments = Arguments::sort("explain", arguments, &valued, &switches)?;
    let question = question::question(&arguments)?;
    if arguments.has("--summary") && (question != Question::default() || arguments.has("--json")) {
        return Err(arguments
            .wrong("--summary stands alone, without --refused, --json and what asks for some records"));
    }
    // The journal first: in a pipe, who writes it may write the names as well, and has done so when it is whole.
    let journal = read_journal("explain", arguments.file()?)?;
    let names = read_names(&arguments, arguments.file()?)?;
    if let Some(unknown) = question.unknown(&names) {
        return Err(Failure::Failed(format!("explain: {}: {unknown}", name_of(arguments.file()?))));
    }
    let records = Records::new(&journal).count() as u64;
    if question.from > records.max(1) {
        return Err(arguments.beyond_by("--from", records));
    }
    let text = if arguments.has("--summary") {
        summary::summary(&journal, &names)
    } else if arguments.has("--json") {
        json::json(&journal, &names, question)
    } else {
        explain::explain(&journal, &names, question)
    };
    let differs = |_: Differs| {
        Failure::Failed(
            "explain: record by record the journal got other replies than as a whole: nothing is explained. \
             That is a fault of gk: please report it with the journal"
                .to_string(),
        )
    };
    write_result(&arguments, &text.map_err(differs)?)
}

pub fn disassemble(arguments: Vec<OsString>) -> Done {
    let arguments = Arguments::sort("disassemble", arguments, &["-o", "--names"], &[])?;
    // The journal first: in a pipe, who writes it may write the names as well, and has done so when it is whole.
    let journal = read_journal("disassemble", arguments.file()?)?;
    let names = read_names(&arguments, arguments.file()?)?;
    write_result(&arguments, &disassembly::disassemble(&journal, &names))
}

pub fn assemble(arguments: Vec<OsString>) -> Done {
    let arguments = Arguments::sort("assemble", arguments, &["-o", "--names"], &[])?;
    if arguments.value("--names").is_some_and(|path| path == "-") {
        return Err(arguments.wrong("--names needs a file, not standard output"));
    }
    let assembled = assembled(arguments.file()?)?;
    if assembled.journal.len() > JOURNAL_BYTES {
        remark(&format!(
            "assemble: the journal has {} bytes. Above 65,536 it is refused (14), and nothing of it is run: split it",
            assembled.journal.len()
        ));
    }
    write_assembled(&arguments, &assembled)
}

/// What a text says; none is standard input.
pub fn assembled(file: Option<&OsStr>) -> Result<Assembled, Failure> {
    let name = name_of(file);
    let text = read_input(file, LONGEST_TEXT + 1)?;
    if text.len() > LONGEST_TEXT {
        return Err(Failure::Failed(format!("{name}: the text is longer than {LONGEST_TEXT} bytes")));
    }
    assembly::assemble(&text).map_err(|fault| Failure::Failed(fault_text(&name, &text, &fault)))
}

/// The journal to its place, and the names to theirs.
fn write_assembled(arguments: &Arguments, assembled: &Assembled) -> Done {
    let Assembled { journal, names } = assembled;
    let out = arguments.out().map(Path::new);
    let named: Option<PathBuf> = match (arguments.value("--names"), out) {
        (Some(path), _) => Some(PathBuf::from(path)),
        // A device has nothing beside it.
        (None, Some(out)) => Some(names::beside(out)).filter(|_| !out.exists() || out.is_file()),
        (None, None) => None,
    };
    if out.is_some() && out == named.as_deref() {
        return Err(arguments.wrong("the journal and its names need two files"));
    }
    arguments.keep_input(&[out, named.as_deref()], &[])?;
    if let Some((path, fault)) = named.as_deref().and_then(|path| Some((path, no_names(path)?))) {
        let path = shown(&path.to_string_lossy());
        return Err(Failure::Failed(format!(
            "{path} is there and is no names file ({fault}): nothing is written"
        )));
    }
    let is_asked = arguments.value("--names").is_some();
    let text = names.text();
    let named = named.filter(|path| is_asked || !names.is_empty() || path.is_file());
    if named.is_none() && !names.is_empty() {
        remark("assemble: the names are not kept: give -o FILE or --names FILE");
    }
    let mut files: Vec<(&Path, &[u8])> = Vec::new();
    files.extend(named.as_deref().map(|path| (path, text.as_bytes())));
    files.extend(out.map(|path| (path, journal.as_slice())));
    write_whole(&files)?;
    match out {
        Some(_) => Ok(()),
        None => write_output(journal),
    }
}

/// A fault with its line, and a mark under the column.
pub fn fault_text(name: &str, text: &[u8], fault: &assembly::Fault) -> String {
    let line = lines(text).nth(fault.line - 1).unwrap_or(&[]);
    let marked = marked(&String::from_utf8_lossy(line), fault.column, 1);
    format!("{name}:{}:{}: {}\n{marked}{}", fault.line, fault.column, fault.expected, fault.advice)
}
