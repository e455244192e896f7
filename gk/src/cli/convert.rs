//! The command `convert`.

use std::ffi::{OsStr, OsString};
use std::path::{Path, PathBuf};

use gatekeeper::JOURNAL_BYTES;
use gk_names::number::shown as with_commas;

use super::arguments::Arguments;
use super::commands::{fault_text, names_beside, read_names, LONGEST_TEXT};
use super::files::{name_of, read_input, write_output, write_whole};
use super::{remark, Done, Failure};
use crate::conversion::{convert, convert_text, Converted};
use crate::names::files::{no_names, replaces};
use crate::names::{self, Names};
use crate::text::shown;

/// Records that are left as they are, and are told one by one.
const MOST_TOLD: usize = 20;

pub fn convert_journal(arguments: Vec<OsString>) -> Done {
    let arguments = Arguments::sort("convert", arguments, &["-o", "--names"], &[])?;
    let file = arguments.file()?;
    let bytes = read_input(file, LONGEST_TEXT + 1)?;
    let name = name_of(file);
    if bytes.len() > LONGEST_TEXT {
        return Err(Failure::Failed(format!("convert: {name} is longer than {LONGEST_TEXT} bytes")));
    }
    if is_text(&bytes) {
        if arguments.value("--names").is_some() {
            return Err(arguments.wrong("--names is for a journal: a text has its names in it"));
        }
        let found =
            convert_text(&bytes).map_err(|fault| Failure::Failed(fault_text(&name, &bytes, &fault)))?;
        if found.converted.has_sets() {
            return Err(has_sets(&name));
        }
        tell(&found.converted);
        if !found.is_kept() {
            remark("convert: a call stands in the text as bytes, so that it is written anew, without its comments");
        }
        arguments.keep_input(&[arguments.out().map(Path::new)], &[])?;
        return super::files::write_to(arguments.out(), &found.text);
    }
    if bytes.len() > JOURNAL_BYTES {
        return Err(Failure::Failed(format!(
            "convert: {name} is longer than 65,536 bytes: as it was it drew 14, and nothing of it is converted"
        )));
    }
    let names = read_names(&arguments, file)?;
    let converted = convert(&bytes);
    if converted.has_sets() {
        return Err(has_sets(&name));
    }
    tell(&converted);
    write_converted(&arguments, file, &converted, &names)
}

fn has_sets(name: &str) -> Failure {
    Failure::Failed(format!(
        "convert: {name}: its admits and registers have sets already, or are malformed: nothing is converted"
    ))
}

/// Whether bytes are a text: letters and signs on lines, and not a journal.
fn is_text(bytes: &[u8]) -> bool {
    let is_sign = |sign: char| !sign.is_control() || "\t\n\r".contains(sign);
    !bytes.is_empty() && std::str::from_utf8(bytes).is_ok_and(|text| text.chars().all(is_sign))
}

/// What is to be known, on standard error.
fn tell(converted: &Converted) {
    for left in converted.left.iter().take(MOST_TOLD) {
        remark(&format!("convert: {}", left.words()));
    }
    match converted.left.len().saturating_sub(MOST_TOLD) {
        0 => {}
        1 => remark("convert: another record that drew 11 or 12 is left as it is"),
        more => remark(&format!("convert: {more} more records that drew 11 or 12 are left as they are")),
    }
    if let Some(record) = converted.beyond {
        let bytes = with_commas(converted.journal.len() as u64);
        remark(&format!(
            "convert: with its sets the journal has {bytes} bytes: it goes beyond 65,536 at record {record}. So it is \
             refused (14), and nothing of it is run: split it before that record"
        ));
    }
}

/// The journal to its place, and its names beside it: records keep their positions, and so the names theirs.
fn write_converted(
    arguments: &Arguments,
    file: Option<&OsStr>,
    converted: &Converted,
    names: &Names,
) -> Done {
    let read = arguments.value("--names").map(PathBuf::from).or_else(|| names_beside(file));
    let Some(out) = arguments.out().map(Path::new) else {
        if !names.is_empty() {
            remark("convert: the names are not kept: give -o FILE");
        }
        return write_output(&converted.journal);
    };
    arguments.keep_input(&[Some(out)], &[read.as_deref()])?;
    // A device has nothing beside it, and what stands there already is as it was.
    let is_there = |beside: &Path| read.as_deref().is_some_and(|read| replaces(&[beside], &[read]));
    let beside = Some(names::beside(out))
        .filter(|_| !names.is_empty() && (!out.exists() || out.is_file()))
        .filter(|beside| !is_there(beside));
    if beside.as_deref() == Some(out) {
        return Err(arguments.wrong("the journal and its names need two files"));
    }
    if let Some((path, fault)) = beside.as_deref().and_then(|path| Some((path, no_names(path)?))) {
        let path = shown(&path.to_string_lossy());
        return Err(Failure::Failed(format!(
            "{path} is there and is no names file ({fault}): nothing is written"
        )));
    }
    let text = names.text();
    let mut files: Vec<(&Path, &[u8])> = Vec::new();
    files.extend(beside.as_deref().map(|path| (path, text.as_bytes())));
    files.push((out, converted.journal.as_slice()));
    write_whole(&files)
}
