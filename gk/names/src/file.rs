//! The file of names: where it stands, reading and writing it.

use std::error::Error;
use std::fmt;
use std::fs::File;
use std::io::{self, Read};
use std::path::{Path, PathBuf};

use crate::{Kind, Name, Names};

/// What a names file starts with.
pub const FIRST_LINE: &str = "names 1";

/// The longest names file that is read, in bytes.
pub const LONGEST_FILE: usize = 1 << 22;

const EXPECTED_NAME: &str =
    "a name behind the record: 1 to 60 letters, digits, single spaces and - _ . / + ' & @ %, with a letter";

const EXPECTED_SHOP: &str = "another name for a shop group: not all or none, and not shop before a number";

/// A mark that some editors put before a text; it says nothing.
const BYTE_ORDER_MARK: &[u8] = b"\xef\xbb\xbf";

/// Why a names file cannot be taken. Its words quote nothing of the file.
#[derive(Debug)]
pub enum Fault {
    /// The line, counted from 1, and what was expected there.
    Line(usize, &'static str),
    TooLong,
    Unread(io::Error),
}

impl fmt::Display for Fault {
    fn fmt(&self, f: &mut fmt::Formatter<'_>) -> fmt::Result {
        match self {
            Fault::Line(line, expected) => write!(f, "line {line}: expected {expected}"),
            Fault::TooLong => write!(f, "it is longer than {LONGEST_FILE} bytes"),
            Fault::Unread(error) => write!(f, "{error}"),
        }
    }
}

impl Error for Fault {}

impl PartialEq for Fault {
    fn eq(&self, other: &Fault) -> bool {
        self.to_string() == other.to_string()
    }
}

/// The names file of a journal: the same path with `.names` in the place of its ending.
pub fn beside(journal: &Path) -> PathBuf {
    journal.with_extension("names")
}

impl Names {
    /// The names in a file.
    pub fn load(path: &Path) -> Result<Names, Fault> {
        let mut bytes = Vec::new();
        let file = File::open(path).map_err(Fault::Unread)?;
        file.take(LONGEST_FILE as u64 + 1).read_to_end(&mut bytes).map_err(Fault::Unread)?;
        Names::read(&bytes)
    }

    /// The names that the bytes of a file have.
    pub fn read(bytes: &[u8]) -> Result<Names, Fault> {
        if bytes.len() > LONGEST_FILE {
            return Err(Fault::TooLong);
        }
        let bytes = bytes.strip_prefix(BYTE_ORDER_MARK).unwrap_or(bytes);
        let mut names = Names::new();
        for (index, line) in bytes.split(|&byte| byte == b'\n').enumerate() {
            let wrong = |expected| Fault::Line(index + 1, expected);
            let line = std::str::from_utf8(line).map_err(|_| wrong("text in UTF-8"))?;
            let line = line.strip_suffix('\r').unwrap_or(line);
            match index {
                0 if line == FIRST_LINE => {}
                0 => return Err(wrong("\"names 1\", the first line of every names file")),
                _ if line.is_empty() || line.starts_with('#') => {}
                _ => names.take(line).map_err(wrong)?,
            }
        }
        Ok(names)
    }

    fn take(&mut self, line: &str) -> Result<(), &'static str> {
        let mut parts = line.splitn(4, ' ');
        let mut part = || parts.next().unwrap_or("");
        let kind = Kind::of_word(part()).ok_or("step, file, pipe or shop")?;
        let number =
            digits(part()).filter(|&number| number <= kind.highest()).ok_or(kind.numbers_words())?;
        let from = digits(part())
            .filter(|&from| from > 0)
            .ok_or("the first record behind the number, from 1 on")?;
        let text = part();
        let name = Name::new(text).map_err(|_| EXPECTED_NAME)?;
        if kind == Kind::Shop {
            Name::of_shop(text).map_err(|_| EXPECTED_SHOP)?;
        }
        self.give(kind, number, from, name);
        Ok(())
    }

    /// The text of the file.
    pub fn text(&self) -> String {
        let line = |entry: &crate::Entry| line(entry.kind, entry.number, entry.from, entry.name.as_str());
        format!("{FIRST_LINE}\n{}", self.entries().map(line).collect::<String>())
    }
}

/// A line of the file, for who writes it as names are given.
pub fn line(kind: Kind, number: u64, from: u64, name: &str) -> String {
    format!("{} {number} {from} {name}\n", kind.word())
}

/// A number in decimal digits and nothing else.
fn digits<T: std::str::FromStr>(text: &str) -> Option<T> {
    text.parse().ok().filter(|_| text.bytes().all(|byte| byte.is_ascii_digit()))
}

#[cfg(test)]
mod tests {
    use super::*;

    #[test]
    fn a_file_is_read_and_written() {
        let text =
            "names 1\nstep 17 1 merge\nfile 18446744073709551615 1 the hours sheet of shop 3\nstep 17 204 sheet reader\nshop 7 300 the north\n";
        let names = Names::read(text.as_bytes()).unwrap();
        assert_eq!(names.text(), text);
        let other = "\u{feff}names 1\r\n# by hand\r\n\r\nstep 17 204 sheet reader\r\nstep 17 1 merge";
        let names = Names::read(other.as_bytes()).unwrap();
        assert_eq!(names.text(), "names 1\nstep 17 1 merge\nstep 17 204 sheet reader\n");
        assert!(Names::read(b"names 1").unwrap().is_empty());
    }

    #[test]
    fn a_wrong_line_is_named() {
        for (text, line) in [
            ("", 1),
            ("names 2\n", 1),
            ("names 1\nsubject 1 1 a\n", 2),
            ("names 1\nstep x 1 a\n", 2),
            ("names 1\nstep +1 1 a\n", 2),
            ("names 1\nstep 4294967296 1 a\n", 2),
            ("names 1\nstep 32 1 a\n", 2),
            ("names 1\nstep 31 1 a\nfile 18446744073709551616 1 b\n", 3),
            ("names 1\npipe 18446744073709551615 1 a\npipe 18,446 1 b\n", 3),
            ("names 1\nstep 1 0 a\n", 2),
            ("names 1\nstep 1 1\n", 2),
            ("names 1\n\nstep 1 1  a\n", 3),
            ("names 1\nstep 1 1 a\u{1b}[2J\n", 2),
            ("names 1\n step 1 1 a\n", 2),
            ("names 1\nshop 7 1 north\nshop 8 1 east\n", 3),
            ("names 1\nshop 1 1 all\n", 2),
            ("names 1\nshop 1 1 None\n", 2),
            ("names 1\nshop 1 1 shop 2\n", 2),
        ] {
            let fault = Names::read(text.as_bytes()).unwrap_err();
            assert!(matches!(fault, Fault::Line(at, _) if at == line), "{text:?}: {fault}");
            assert!(!fault.to_string().contains('\u{1b}'));
        }
        assert_eq!(Names::read(b"names 1\nstep 1 1 \xff"), Err(Fault::Line(2, "text in UTF-8")));
        assert_eq!(Names::read(&vec![b'#'; LONGEST_FILE + 1]), Err(Fault::TooLong));
    }

    #[test]
    fn the_file_stands_beside_its_journal() {
        for (journal, names) in [
            ("run.journal", "run.names"),
            ("months/march", "months/march.names"),
            ("march.2026.journal", "march.2026.names"),
        ] {
            assert_eq!(beside(Path::new(journal)), Path::new(names));
        }
    }
}
