//! The levels file: which file has which level, and which shop marks.
//!
//! A line is a pattern ([`crate::glob`]), a level, 0 to 15, and behind it a set of shop marks ([`gk_names::shops`]); without
//! one the file has all of them. In the level's place, the word `step` says that a file which the run makes has the level
//! and the marks of the step that makes it, and `out` that such files are left out. The first line that fits counts. The
//! last line is `else` and the level of every other file. `<stdin>`, `<stdout>` and `<stderr>` in a pattern's place are
//! what the first step was started with. A line `name shop 0 north` gives a shop group a name, for the lines below it. `#`
//! starts a comment; a pattern, a name or a set with spaces stands in double quotes.

use gatekeeper::Label;
use gk_names::{shops, Kind, Name, Names};

use crate::glob::Glob;
use crate::text::shown;

/// The highest level.
pub const LEVEL: u64 = 15;

/// The highest level with all shop marks.
pub const TOP: Label = Label { level: LEVEL as u8, shops: shops::ALL };

/// The longest levels file that is read, in bytes.
pub const LONGEST_FILE: usize = 1 << 20;

#[derive(Clone, Copy, Debug, PartialEq, Eq)]
pub enum Level {
    At(Label),
    /// That of the step which makes the file.
    Step,
    Out,
}

/// A file's level, and the line of the levels file that names the file; none where only `else` does.
#[derive(Clone, Copy, Debug, PartialEq, Eq)]
pub struct Found {
    pub level: Level,
    pub line: Option<usize>,
}

#[derive(Debug)]
pub struct Levels {
    rules: Vec<Rule>,
    other: Level,
    /// The line of `else`.
    other_line: usize,
    /// Labels, and the lines that give them.
    standard: [Option<(Label, usize)>; 3],
    names: Names,
    /// Whether a line has a set of shop marks.
    has_sets: bool,
}

#[derive(Debug)]
struct Rule {
    glob: Glob,
    level: Level,
    line: usize,
}

/// Where a levels file is wrong, line and column from 1.
#[derive(Debug, PartialEq, Eq)]
pub struct Fault {
    pub line: usize,
    pub column: usize,
    pub message: String,
}

const STANDARD: [&[u8]; 3] = [b"<stdin>", b"<stdout>", b"<stderr>"];

impl Levels {
    pub fn read(bytes: &[u8]) -> Result<Levels, Fault> {
        let mut levels = Levels {
            rules: Vec::new(),
            other: Level::Out,
            other_line: 0,
            standard: [None; 3],
            names: Names::new(),
            has_sets: false,
        };
        let bytes = bytes.strip_prefix(b"\xef\xbb\xbf").unwrap_or(bytes);
        let mut has_other = false;
        let mut lines = 0;
        for (index, line) in bytes.split(|&byte| byte == b'\n').enumerate() {
            let wrong = |column, message: String| Fault { line: index + 1, column, message };
            lines = index + 1;
            let words =
                words(line).map_err(|(column, expected)| wrong(column, format!("expected {expected}")))?;
            let (pattern, level, set) = match words.as_slice() {
                [] => continue,
                [name, shop, rest @ ..] if name.is_bare(b"name") && shop.is_bare(b"shop") => {
                    let named = levels.name(rest, shop.end(line));
                    named.map_err(|(column, expected)| wrong(column, format!("expected {expected}")))?;
                    continue;
                }
                [pattern] => {
                    return Err(wrong(pattern.end(line), "expected a level behind the pattern".to_string()))
                }
                [pattern, level] => (pattern, level, None),
                [pattern, level, set] => (pattern, level, Some(set)),
                [_, _, _, more, ..] => {
                    return Err(wrong(more.column, "expected the end of the line".to_string()))
                }
            };
            if has_other {
                return Err(wrong(pattern.column, "expected nothing behind the line of else".to_string()));
            }
            let is_standard = STANDARD.iter().position(|name| pattern.is_bare(name));
            let value = level.level().ok_or_else(|| {
                let found = shown(&level.text);
                wrong(level.column, format!("expected a level, 0 to 15, or step or out, not \"{found}\""))
            })?;
            let value = match (value, set) {
                (value, None) => value,
                (Level::At(label), Some(set)) => {
                    levels.has_sets = true;
                    let shops = levels.set(set).map_err(|expected| wrong(set.column, expected))?;
                    Level::At(Label { shops, ..label })
                }
                (_, Some(set)) => {
                    return Err(wrong(set.column, "expected the end of the line".to_string()));
                }
            };
            match (is_standard, value) {
                (Some(_), Level::Out | Level::Step) => {
                    return Err(wrong(level.column, "expected a level, 0 to 15".to_string()));
                }
                (None, Level::Step) if pattern.is_bare(b"else") => {
                    return Err(wrong(level.column, "expected a level, 0 to 15, or out".to_string()));
                }
                (Some(which), Level::At(value)) => {
                    levels.standard[which] = levels.standard[which].or(Some((value, index + 1)))
                }
                (None, value) if pattern.is_bare(b"else") => {
                    has_other = true;
                    (levels.other, levels.other_line) = (value, index + 1);
                }
                (None, value) => {
                    let glob = Glob::new(&pattern.text).map_err(|(offset, expected)| {
                        wrong(pattern.column + offset, format!("expected {expected}"))
                    })?;
                    levels.rules.push(Rule { glob, level: value, line: index + 1 });
                }
            }
        }
        if !has_other {
            let message = "expected a last line with else and the level of every other file".to_string();
            return Err(Fault { line: lines, column: 1, message });
        }
        Ok(levels)
    }

    /// A shop group gets a name: `name shop 0 north`. What stands behind the two words, and the column behind the line; else
    /// a column and what is expected there.
    fn name(&mut self, words: &[Word], end: usize) -> Result<(), (usize, &'static str)> {
        let (number, name) = match words {
            [number, name] => (number, name),
            [_, _, more, ..] => return Err((more.column, "the end of the line")),
            _ => return Err((end, "the number of a shop group, 0 to 7, and its name")),
        };
        let group = std::str::from_utf8(&number.text).ok().filter(|_| number.text.len() == 1);
        let group = group.and_then(|text| text.parse().ok()).filter(|&group: &u64| group < shops::GROUPS);
        let group = group.ok_or((number.column, "the number of a shop group, 0 to 7"))?;
        let text = std::str::from_utf8(&name.text).ok();
        let text = text.and_then(|text| Name::of_shop(text).ok());
        let text = text.ok_or((
            name.column,
            "a name for the shop group: letters, digits and - _ . / + ' & @ %, not all, none or shop and a number",
        ))?;
        self.names.give(Kind::Shop, group, 1, text);
        Ok(())
    }

    /// The set that a word says; else what is expected.
    fn set(&self, word: &Word) -> Result<u8, String> {
        let text = String::from_utf8_lossy(&word.text).into_owned();
        let set = shops::of_text(&text, &self.names, 1).map(u8::try_from);
        match set {
            Ok(Ok(set)) => Ok(set),
            Err(Some(part)) if part != text => {
                let part = shown(part.as_bytes());
                Err(format!(
                    "expected {}; no line above it gives a shop group the name \"{part}\"",
                    shops::EXPECTED
                ))
            }
            _ => Err(format!("expected {}, not \"{}\"", shops::EXPECTED, shown(&word.text))),
        }
    }

    /// The set that a text says: that of the first step.
    pub fn set_of(&self, text: &str) -> Result<u8, String> {
        self.set(&Word { column: 1, text: text.as_bytes().to_vec(), is_quoted: false })
    }

    /// The names of the shop groups.
    pub fn names(&self) -> &Names {
        &self.names
    }

    /// The label of a file that the run has not made: what nobody has given a level is the lowest. Where no line speaks of
    /// shop marks, it has all of them, as all things have then.
    pub fn unmade(&self) -> Label {
        Label { level: 0, shops: if self.has_sets { shops::NONE } else { shops::ALL } }
    }

    /// The level of a file that the run has not made.
    pub fn of_unmade(&self, level: Level) -> Level {
        match level {
            Level::Step => Level::At(self.unmade()),
            other => other,
        }
    }

    /// The level of a file: its path relative to the starting folder, if it is there, and its absolute one.
    pub fn of(&self, key: &[u8], absolute: &[u8]) -> Found {
        self.found(self.rules.iter().find(|rule| rule.glob.matches(key) || rule.glob.matches(absolute)))
    }

    /// The level of a file while the starting folder is not known. Where that could make another line fit, says which.
    pub fn of_somewhere(&self, key: &[u8]) -> Result<Found, usize> {
        for rule in &self.rules {
            if rule.glob.matches(key) {
                return Ok(self.found(Some(rule)));
            }
            let is_doubtful = match (key.starts_with(b"/"), rule.glob.is_absolute()) {
                (true, false) => ends(key).any(|end| rule.glob.matches(end)),
                (false, true) => rule.glob.may_match_below(key),
                _ => false,
            };
            if is_doubtful {
                return Err(rule.line);
            }
        }
        Ok(self.found(None))
    }

    fn found(&self, rule: Option<&Rule>) -> Found {
        match rule {
            Some(rule) => Found { level: rule.level, line: Some(rule.line) },
            None => Found { level: self.other, line: None },
        }
    }

    /// The label that standard input (0), output (1) or error (2) of the run is given.
    pub fn standard(&self, which: usize) -> Option<Label> {
        self.standard.get(which).copied().flatten().map(|(label, _)| label)
    }

    /// The line that gives a level to what the run was started with, by its name in the levels file.
    pub fn standard_line(&self, name: &[u8]) -> Option<usize> {
        let which = STANDARD.iter().position(|other| *other == name)?;
        self.standard[which].map(|(_, line)| line)
    }

    /// The line of `else`, and the level that it gives.
    pub fn other(&self) -> (usize, Level) {
        (self.other_line, self.other)
    }

    /// The level that a line gives.
    pub fn of_line(&self, line: usize) -> Option<Level> {
        let rule = self.rules.iter().find(|rule| rule.line == line).map(|rule| rule.level);
        let standard = self.standard.iter().flatten().find(|(_, other)| *other == line);
        rule.or(standard.map(|(label, _)| Level::At(*label)))
    }
}

/// What a path is below each of its folders.
fn ends(path: &[u8]) -> impl Iterator<Item = &[u8]> {
    (0..path.len()).filter(|&at| path[at] == b'/').map(|at| &path[at + 1..])
}

/// A word of a line, and the column that it starts at.
struct Word {
    column: usize,
    text: Vec<u8>,
    is_quoted: bool,
}

impl Word {
    fn is_bare(&self, name: &[u8]) -> bool {
        !self.is_quoted && self.text == name
    }

    fn end(&self, line: &[u8]) -> usize {
        line.trim_ascii_end().len() + 1
    }

    fn level(&self) -> Option<Level> {
        match self.text.as_slice() {
            b"out" => Some(Level::Out),
            b"step" => Some(Level::Step),
            text if text.len() <= 2 && text.iter().all(u8::is_ascii_digit) => {
                let level = std::str::from_utf8(text).ok()?.parse().ok()?;
                Some(Level::At(Label { level, ..TOP })).filter(|_| level <= TOP.level)
            }
            _ => None,
        }
    }
}

/// The pattern of a line as it is written there, up to its level.
pub fn pattern_of(line: &[u8]) -> Option<&[u8]> {
    let words = words(line).ok()?;
    Some(line[..words.get(1)?.column - 1].trim_ascii())
}

/// The words of a line, up to a comment.
fn words(line: &[u8]) -> Result<Vec<Word>, (usize, &'static str)> {
    let mut words = Vec::new();
    let mut at = 0;
    while let Some(offset) = line[at..].iter().position(|byte| !byte.is_ascii_whitespace()) {
        at += offset;
        let is_quoted = line[at] == b'"';
        if line[at] == b'#' {
            break;
        }
        let start = at + usize::from(is_quoted);
        at = start;
        let is_end = |byte: u8| if is_quoted { byte == b'"' } else { byte.is_ascii_whitespace() };
        while at < line.len() && !is_end(line[at]) {
            at += 1 + usize::from(line[at] == b'\\');
        }
        let end = at.min(line.len());
        if is_quoted {
            if end == line.len() {
                return Err((line.len() + 1, "\" at the end of the pattern"));
            }
            at += 1;
            if line.get(at).is_some_and(|byte| !byte.is_ascii_whitespace()) {
                return Err((at + 1, "a space behind the pattern"));
            }
        }
        at = at.min(line.len());
        words.push(Word { column: start + 1, text: line[start..end].to_vec(), is_quoted });
    }
    Ok(words)
}

#[cfg(test)]
mod tests {
    use super::*;

    /// A level with all shop marks.
    fn at(level: u8) -> Level {
        Level::At(Label { level, ..TOP })
    }

    fn level(levels: &str, path: &str) -> Found {
        let levels = Levels::read(levels.as_bytes()).unwrap();
        levels.of(path.as_bytes(), format!("/run/{path}").as_bytes())
    }

    #[test]
    fn the_first_line_that_fits_counts() {
        let text =
            "\u{feff}# levels\n\nsheets/checked.csv 9 # looked over\r\nsheets/*.csv 2\n\"my files/*\"\t3\n\
                    /run/logs/** out\n\"else\" 4\n*.tmp step\nelse 15\n# the end\n";
        for (path, expected, line) in [
            ("sheets/checked.csv", at(9), Some(3)),
            ("sheets/3.csv", at(2), Some(4)),
            ("my files/a", at(3), Some(5)),
            ("logs/a/b", Level::Out, Some(6)),
            ("else", at(4), Some(7)),
            ("a.tmp", Level::Step, Some(8)),
            ("bank.csv", at(15), None),
        ] {
            assert_eq!(level(text, path), Found { level: expected, line }, "{path}");
        }
    }

    #[test]
    fn without_the_folder_a_doubtful_line_is_named() {
        let levels = Levels::read(b"low 2\n/usr/** 9\n*.csv 3\nelse 15\n").unwrap();
        let of = |path: &str| levels.of_somewhere(path.as_bytes()).map(|found| found.level);
        assert_eq!(of("low"), Ok(at(2)));
        assert_eq!(of("/run/low"), Err(1));
        assert_eq!(of("a.csv"), Err(2));
        assert_eq!(of("/usr/a.csv"), Ok(at(9)));
        assert_eq!(of("/run/a.csv"), Err(3));
        assert_eq!(of("/run/a"), Ok(at(15)));
    }

    #[test]
    fn standard_input_and_output_have_levels_by_name() {
        let levels = Levels::read(b"<stdin> 2\n<stdout> 12\nelse 15").unwrap();
        let labels = [Some(2), Some(12), None, None].map(|level| level.map(|level| Label { level, ..TOP }));
        assert_eq!([0, 1, 2, 3].map(|which| levels.standard(which)), labels);
    }

    #[test]
    fn a_set_stands_behind_the_level() {
        let text = "name shop 0 north\nname shop 1 \"the east\"\nsheets/north/* 2 north\nsheets/* 2 \"north,the east\"\n\
                    a 9 none\nb 9 all\nc 9 129\nd 9\nname 3 north\n<stdin> 2 none\ne step\nelse 15 north";
        for (path, level_of, shops) in [
            ("sheets/north/1.csv", 2, 1),
            ("sheets/1.csv", 2, 3),
            ("a", 9, 0),
            ("b", 9, 255),
            ("c", 9, 129),
            ("d", 9, 255),
            ("name", 3, 1),
            ("other", 15, 1),
        ] {
            let label = Label { level: level_of, shops };
            assert_eq!(level(text, path).level, Level::At(label), "{path}");
        }
        let levels = Levels::read(text.as_bytes()).unwrap();
        assert_eq!(levels.standard(0), Some(Label { level: 2, shops: 0 }));
        assert_eq!(levels.names().text(), "names 1\nshop 0 1 north\nshop 1 1 the east\n");
        assert_eq!((levels.set_of("the east"), levels.set_of("5")), (Ok(2), Ok(5)));
        assert!(levels.set_of("west").is_err_and(|expected| expected.contains("\"west\"")));
        // What the run has not made has no mark where marks are spoken of.
        assert_eq!(levels.of_unmade(Level::Step), Level::At(Label::LEAST));
        let levels = Levels::read(b"e step\nelse 15").unwrap();
        assert_eq!(levels.of_unmade(Level::Step), at(0));
    }

    #[test]
    fn a_wrong_line_is_said_where() {
        for (text, line, column) in [
            ("", 1, 1),
            ("a 2\n", 2, 1),
            ("a\nelse 1", 1, 2),
            ("else 1\na 2", 2, 1),
            ("a 16\nelse 1", 1, 3),
            ("a x\x1b[2J\nelse 1", 1, 3),
            ("a 1 2 3\nelse 1", 1, 7),
            ("a 1 256\nelse 1", 1, 5),
            ("a 1 north\nelse 1", 1, 5),
            ("name shop 0 north\na 1 north,east\nelse 1", 2, 5),
            ("a step all\nelse 1", 1, 8),
            ("a out 1\nelse 1", 1, 7),
            ("name shop 8 north\nelse 1", 1, 11),
            ("name shop 1 all\nelse 1", 1, 13),
            ("name shop 1\nelse 1", 1, 12),
            ("name shop 1 a b\nelse 1", 1, 15),
            ("  a[ 1\nelse 1", 1, 5),
            ("  a[z-b] 1\nelse 1", 1, 7),
            ("\"a 1\nelse 1", 1, 5),
            ("\"a\"b 1\nelse 1", 1, 4),
            ("<stdin> out\nelse 1", 1, 9),
            ("else step", 1, 6),
            ("a 001\nelse 1", 1, 3),
        ] {
            let fault = Levels::read(text.as_bytes()).unwrap_err();
            assert_eq!((fault.line, fault.column), (line, column), "{text:?}: {}", fault.message);
            assert!(!fault.message.contains('\x1b'));
        }
    }
}
