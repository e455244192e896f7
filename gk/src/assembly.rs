//! Journals as text: from words to bytes.
//!
//! One call a line, as `open-read 0 1 2`; the words and the order of the numbers are those of `calls`. `call 77 1 2` is
//! a record with any code and any numbers, `bytes 80 00` any bytes. `#` starts a comment. A number is at most
//! 18446744073709551615, and may have a comma before each three digits: `18,446,744,073,709,551,615`.
//!
//! `name step 17 merge` gives a step, a file or a pipe a name, and from the next line on the name may stand where its
//! number would: `open-read merge "the hours sheet of shop 3" 1`. A name that starts with a letter and has no space
//! needs no quotes. It holds until the number gets another name, or the name another number.
//!
//! `admit` and `register` end with a set of shop marks: `all`, `none`, a number, or names of shop groups joined by commas,
//! `register 1 2 north,east`, which `name shop 0 north` has given. [`assemble_old`] takes texts from before, without sets.

mod words;

use crate::names::{Kind, Name, Names};
use crate::text::{meant, shown};
use gatekeeper::Call;
use gk_advice::calls::{shape_of_word, Role, Shape, SHAPES};
use gk_advice::records::{write_any, Body, Record, Records};
use gk_names::number::of_text;
use gk_names::shops;
use words::fault;
pub use words::{words_of, Fault, Word};

/// A mark that some editors put before a text; it says nothing.
const BYTE_ORDER_MARK: &[u8] = b"\xef\xbb\xbf";

/// A journal, and the names that its text declares.
#[derive(Clone, Debug, PartialEq, Eq)]
pub struct Assembled {
    pub journal: Vec<u8>,
    pub names: Names,
}

/// What has been read of a text.
#[derive(Default)]
struct Assembler {
    journal: Vec<u8>,
    /// The declarations so far, each with the journal's length at that point.
    declared: Vec<(usize, Kind, u64, Name)>,
    /// The same, to look names up in: each from its own position on.
    known: Names,
    /// Whether calls have no sets of shop marks, as in texts from before.
    is_old: bool,
}

/// The lines of a text, without a byte-order mark.
pub fn lines(text: &[u8]) -> impl Iterator<Item = &[u8]> {
    text.strip_prefix(BYTE_ORDER_MARK).unwrap_or(text).split(|&byte| byte == b'\n')
}

/// The journal that a text describes.
pub fn assemble(text: &[u8]) -> Result<Assembled, Fault> {
    assembled(text, Assembler::default())
}

/// The journal that a text from before describes, in which no call has a set of shop marks.
pub fn assemble_old(text: &[u8]) -> Result<Assembled, Fault> {
    assembled(text, Assembler { is_old: true, ..Assembler::default() })
}

fn assembled(text: &[u8], mut assembler: Assembler) -> Result<Assembled, Fault> {
    for (index, line) in lines(text).enumerate() {
        assembler.line(line).map_err(|fault| Fault { line: index + 1, ..fault })?;
    }
    let names = assembler.names();
    Ok(Assembled { journal: assembler.journal, names })
}

/// The call of one line. A name stands for what it stood for last.
pub fn call_of(line: &[u8], names: &Names) -> Result<Call, Fault> {
    let mut assembler = Assembler { known: names.clone(), ..Assembler::default() };
    assembler.line(line)?;
    let mut records = Records::new(&assembler.journal);
    match (records.next(), records.next()) {
        (Some(Ok(Record { body: Body::Call(call), .. })), None) => Ok(call),
        _ => Err(fault(1, "expected a call, found none", "Type a call, for example: open-read 0 1 2")),
    }
}

impl Assembler {
    fn line(&mut self, line: &[u8]) -> Result<(), Fault> {
        let text = match std::str::from_utf8(line) {
            Ok(text) => text,
            Err(error) => {
                let good = String::from_utf8_lossy(&line[..error.valid_up_to()]);
                return Err(fault(
                    good.chars().count() + 1,
                    "expected text in UTF-8, found a byte that is none",
                    "To see a binary journal as text, type: gk disassemble FILE",
                ));
            }
        };
        let (words, behind) = words_of(text)?;
        let Some((&first, rest)) = words.split_first() else {
            return Ok(());
        };
        match first.text {
            "bytes" => self.bytes(rest, behind),
            "call" => self.any(rest, behind),
            "name" => self.name(rest, behind),
            word => match shape_of_word(word).filter(|_| !first.is_quoted) {
                Some(shape) => self.call(shape, rest, behind),
                None => Err(unknown_word(first)),
            },
        }
    }

    /// `admit 0 9`.
    fn call(&mut self, shape: &Shape, words: &[Word], behind: usize) -> Result<(), Fault> {
        let parts: Vec<(&str, Role)> =
            shape.parts().filter(|&(_, role)| !(self.is_old && role == Role::Set)).collect();
        let names: Vec<&str> = parts.iter().map(|&(name, _)| name).collect();
        let usage = format!("{} {}", shape.word, names.join(" "));
        let mut numbers = Vec::new();
        for (index, &(name, role)) in parts.iter().enumerate() {
            let Some(&word) = words.get(index) else {
                return Err(missing(behind, name, role, &usage));
            };
            numbers.push(match role {
                Role::Set => self.set(word, &usage)?,
                _ => self.number(word, name, role, &usage)?,
            });
        }
        if let Some((word, _)) = words.get(parts.len()..).and_then(<[Word]>::split_first) {
            let more = words[parts.len()..].iter().map(|word| decimal(*word, "", "").ok());
            let advice = match more.collect::<Option<Vec<u64>>>() {
                // What is advised assembles: names are numbers there.
                Some(more) if more.len() <= MOST_LEFT_OVER => {
                    let all: Vec<String> = numbers.iter().chain(&more).map(u64::to_string).collect();
                    let (code, all) = (shape.code, all.join(" "));
                    format!("Type: {usage}. For a record with numbers left over: call {code} {all}")
                }
                Some(_) => format!("Type: {usage}"),
                None => format!("Type: {usage}. A comment starts with #"),
            };
            let found = format!("expected the end of the line, found \"{}\"", shown(word.text));
            return Err(fault(word.column, &found, &advice));
        }
        write_any(shape.code, &numbers, &mut self.journal);
        Ok(())
    }

    /// A set of shop marks.
    fn set(&self, word: Word, usage: &str) -> Result<u64, Fault> {
        let unknown = match shops::of_text(word.text, &self.known, u64::MAX) {
            Ok(set) => return Ok(set),
            Err(unknown) => unknown.unwrap_or(word.text),
        };
        let known: Vec<&str> = (0..shops::GROUPS)
            .filter_map(|group| self.known.get(Kind::Shop, group, u64::MAX))
            .map(Name::as_str)
            .chain(["all", "none"])
            .collect();
        let advice = match meant(unknown, &known).as_slice() {
            [] => format!(
                "Type: {usage}, with a set as all, none, 0 to 255, or names that lines above declare, as: name shop 0 \
                 NAME"
            ),
            meant => format!("Did you mean: {}", meant.join(" or ")),
        };
        let what = if unknown == word.text { "" } else { &format!(" in \"{}\"", shown(word.text)) };
        let expected = format!("expected {}, found \"{}\"{what}", shops::EXPECTED, shown(unknown));
        Err(fault(word.column, &expected, &advice))
    }

    /// A number, or a name in the place of one.
    fn number(&self, word: Word, name: &str, role: Role, usage: &str) -> Result<u64, Fault> {
        let is_number = word.text.starts_with(|character: char| "0123456789+-.".contains(character));
        if !word.is_quoted && (is_number || matches!(role, Role::Place | Role::Level)) {
            return decimal(word, &format!("the number {name}"), usage);
        }
        let wanted: &[Kind] = match role {
            Role::Step => &[Kind::Step],
            Role::Object => &[Kind::File, Kind::Pipe],
            Role::File => &[Kind::File],
            Role::Pipe => &[Kind::Pipe],
            Role::Place | Role::Level | Role::Set => &[],
        };
        let what = match role {
            Role::Step => "a step",
            Role::Object => "a file or pipe",
            Role::File => "a file",
            Role::Pipe => "a pipe",
            Role::Place | Role::Level | Role::Set => "a number: places and levels have no names",
        };
        match self.known.find(word.text, u64::MAX) {
            Some((kind, number)) if wanted.contains(&kind) => Ok(number),
            Some((kind, _)) => Err(fault(
                word.column,
                &format!("expected {what}, found \"{}\", the name of a {}", shown(word.text), kind.word()),
                &format!("Type: {usage}"),
            )),
            None => Err(self.unknown_name(word, name, wanted, what, usage)),
        }
    }

    fn unknown_name(&self, word: Word, name: &str, wanted: &[Kind], what: &str, usage: &str) -> Fault {
        let is_fit =
            |name: &str| self.known.find(name, u64::MAX).is_some_and(|(kind, _)| wanted.contains(&kind));
        let mut known: Vec<&str> = self.known.entries().map(|entry| entry.name.as_str()).collect();
        known.retain(|name| is_fit(name));
        let kind = wanted.first().map_or("step", |kind| kind.word());
        let advice = match meant(word.text, &known).as_slice() {
            [] => format!(
                "Type: {usage}, each a number from 0 to {HIGHEST}, or a name that a line above declares, as: \
                 name {kind} 1 NAME"
            ),
            meant => format!("Did you mean: {}", meant.join(" or ")),
        };
        let expected = format!(
            "expected the number {name} in decimal, or the name of {what}, found \"{}\"",
            shown(word.text)
        );
        fault(word.column, &expected, &advice)
    }

    /// `name step 17 merge`.
    fn name(&mut self, words: &[Word], behind: usize) -> Result<(), Fault> {
        let usage =
            "name step NUMBER NAME, name file NUMBER NAME, name pipe NUMBER NAME or name shop NUMBER NAME";
        let word = |index: usize, what: &str| match words.get(index) {
            Some(&word) => Ok(word),
            None => {
                let expected = format!("expected {what}, found the end of the line");
                Err(fault(behind, &expected, &format!("Type: {usage}")))
            }
        };
        let kind = word(0, "step, file, pipe or shop")?;
        let Some(kind) = Kind::of_word(kind.text).filter(|_| !kind.is_quoted) else {
            let expected = format!("expected step, file, pipe or shop, found \"{}\"", shown(kind.text));
            return Err(fault(kind.column, &expected, &format!("Type: {usage}")));
        };
        let at = word(1, "a number")?;
        let number = decimal(at, "a number", usage)?;
        if number > kind.highest() {
            let expected = format!("expected {}, found {}", kind.numbers_words(), shown(at.text));
            return Err(fault(at.column, &expected, &format!("Type: {usage}")));
        }
        let given = word(2, "a name")?;
        let fit = if kind == Kind::Shop { Name::of_shop } else { Name::new };
        let name = fit(given.text).and_then(|name| match given.is_quoted || name.is_bare() {
            true => Ok(name),
            false => Err(crate::names::Unfit::Sign),
        });
        let name = name.map_err(|unfit| {
            let advice = match unfit {
                crate::names::Unfit::Sign if !given.is_quoted => {
                    "Type a name that starts with a letter, or one in quotes: \"the pay book\"".to_string()
                }
                _ => format!("A name {}", unfit.words()),
            };
            fault(given.column, &format!("expected a name, found \"{}\"", shown(given.text)), &advice)
        })?;
        if let Some(word) = words.get(3) {
            let expected = format!("expected the end of the line, found \"{}\"", shown(word.text));
            return Err(fault(
                word.column,
                &expected,
                "A name with spaces stands between two quotes: \"the pay book\"",
            ));
        }
        self.known.give(kind, number, self.declared.len() as u64, name.clone());
        self.declared.push((self.journal.len(), kind, number, name));
        Ok(())
    }

    /// The names by record: each holds from the first record behind its line on.
    fn names(&self) -> Names {
        let starts: Vec<usize> = Records::new(&self.journal)
            .map(|entry| match entry {
                Ok(record) => record.start,
                Err((start, _)) => start,
            })
            .collect();
        let mut names = Names::new();
        for (offset, kind, number, name) in &self.declared {
            let before = starts.partition_point(|start| start < offset);
            names.give(*kind, *number, before as u64 + 1, name.clone());
        }
        names
    }

    /// `call 77 1 2`.
    fn any(&mut self, words: &[Word], behind: usize) -> Result<(), Fault> {
        let usage = "call CODE NUMBER ...";
        let Some((&code, rest)) = words.split_first() else {
            return Err(fault(
                behind,
                "expected a code, found the end of the line",
                "Type: call CODE NUMBER ..., for example: call 77 1 2",
            ));
        };
        let code = decimal(code, "a code", usage)?;
        let numbers: Result<Vec<u64>, Fault> =
            rest.iter().map(|&word| decimal(word, "a number", usage)).collect();
        write_any(code, &numbers?, &mut self.journal);
        Ok(())
    }

    /// `bytes 80 00`.
    fn bytes(&mut self, words: &[Word], behind: usize) -> Result<(), Fault> {
        if words.is_empty() {
            return Err(fault(
                behind,
                "expected bytes in hex, found the end of the line",
                "Type: bytes XX ..., for example: bytes 80 00",
            ));
        }
        for word in words {
            let digits: Option<Vec<u8>> = word
                .text
                .chars()
                .map(|character| character.to_digit(16).map(|digit| digit as u8))
                .collect();
            match digits {
                Some(digits) if digits.len() % 2 == 0 && !digits.is_empty() => {
                    self.journal.extend(digits.chunks(2).map(|pair| pair[0] * 16 + pair[1]));
                }
                _ => {
                    return Err(fault(
                        word.column,
                        &format!("expected two hex digits for each byte, found \"{}\"", shown(word.text)),
                        "Type each byte as two of the digits 0 to 9 and a to f, for example: bytes 80 00",
                    ));
                }
            }
        }
        Ok(())
    }
}

/// That a number is missing.
fn missing(behind: usize, name: &str, role: Role, usage: &str) -> Fault {
    match role {
        Role::Set => fault(
            behind,
            &format!("expected {}, found the end of the line", shops::EXPECTED),
            &format!("Type: {usage}, for example with the set all. From a text without sets: gk convert TEXT -o NEW"),
        ),
        _ => fault(
            behind,
            &format!("expected the number {name}, found the end of the line"),
            &format!("Type: {usage}"),
        ),
    }
}

/// Numbers left over that are written out in an advice.
const MOST_LEFT_OVER: usize = 10;

/// The highest number of a journal, in words for people.
const HIGHEST: &str = "18,446,744,073,709,551,615";

/// A number in decimal digits, plain or with its thousands apart.
fn decimal(word: Word, what: &str, usage: &str) -> Result<u64, Fault> {
    if let Some(number) = of_text(word.text).filter(|_| !word.is_quoted) {
        return Ok(number);
    }
    let found = shown(word.text);
    let is_made_of = |signs: fn(char) -> bool| !word.is_quoted && word.text.chars().all(signs);
    let digits = word.text.chars().filter(char::is_ascii_digit).count();
    let (expected, advice) = if is_made_of(|sign| sign.is_ascii_digit()) || is_grouped(word) {
        (
            format!("expected {what}, at most {HIGHEST}, found \"{found}\""),
            "A larger number is malformed in a journal; to write it all the same, use: bytes XX ..."
                .to_string(),
        )
    } else if is_made_of(|sign| sign.is_ascii_digit() || sign == ',') && digits > 0 {
        (
            format!("expected {what} in decimal, found \"{found}\""),
            "Type a space between two numbers; a comma stands before each three digits of one: 12,345,678"
                .to_string(),
        )
    } else {
        (
            format!("expected {what} in decimal, found \"{found}\""),
            format!("Type: {usage}, each a number from 0 to {HIGHEST}"),
        )
    };
    Err(fault(word.column, &expected, &advice))
}

/// Whether a word is digits with a comma before each three of them.
fn is_grouped(word: Word) -> bool {
    let mut groups = word.text.split(',');
    let is_digits = |group: &str| group.chars().all(|sign| sign.is_ascii_digit());
    let first = groups.next().unwrap_or("");
    let is_first = (1..=3).contains(&first.len()) && is_digits(first) && !first.starts_with('0');
    !word.is_quoted && is_first && groups.all(|group| group.len() == 3 && is_digits(group))
}

fn unknown_word(word: Word) -> Fault {
    let known: Vec<&str> = SHAPES.iter().map(|shape| shape.word).chain(["call", "bytes", "name"]).collect();
    let meant = meant(word.text, &known);
    let advice = if meant.is_empty() {
        format!("The words are: {}", known.join(", "))
    } else {
        format!("Did you mean: {}", meant.join(" or "))
    };
    fault(word.column, &format!("expected a call's word, found \"{}\"", shown(word.text)), &advice)
}
