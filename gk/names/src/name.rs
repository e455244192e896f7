//! A name, and what it may be made of.

use std::error::Error;
use std::fmt;

/// The most characters of a name.
pub const LONGEST: usize = 60;

/// Signs that a name may have beside letters and digits.
const SIGNS: &str = " -_./+'&@%";

/// What a thing is called. It can stand in any text: see [`Name::new`].
#[derive(Clone, Debug, PartialEq, Eq, PartialOrd, Ord, Hash)]
pub struct Name(String);

/// Why a text is no name; to follow "a name".
#[derive(Clone, Copy, Debug, PartialEq, Eq)]
pub enum Unfit {
    Empty,
    TooLong,
    NoLetter,
    Sign,
    Space,
    Stop,
    Number,
    Shop,
}

impl Name {
    /// A name has 1 to 60 characters, one of them a letter. It is made of letters and digits, of scripts that are
    /// written from left to right, and of the signs `- _ . / + ' & @ %` and the space. So that no text can be
    /// mistaken for one with a name in it: no space at the start, at the end or beside another one; no dot before a
    /// space or at the end; and not the words "step", "file", "pipe", "place", "level" or "record" before a number.
    pub fn new(text: &str) -> Result<Name, Unfit> {
        match fault(text) {
            Some(unfit) => Err(unfit),
            None => Ok(Name(text.to_string())),
        }
    }

    /// A name that a shop group may have: not one that says something else where a set of shop marks stands.
    pub fn of_shop(text: &str) -> Result<Name, Unfit> {
        let is_word = ["all", "none"].iter().any(|word| text.eq_ignore_ascii_case(word));
        match Name::new(text) {
            Ok(_) if is_word || before_number(text, &["shop"]).is_some() => Err(Unfit::Shop),
            name => name,
        }
    }

    /// The name nearest to any text: what does not fit is replaced by `_`, and the text is cut where it is long.
    pub fn fitted(text: &str) -> Name {
        let has_letter = text
            .trim()
            .chars()
            .take(LONGEST)
            .any(|character| is_fit(character) && character.is_alphabetic());
        let mut fitted = if has_letter { String::new() } else { "name_".to_string() };
        let room = LONGEST - fitted.len();
        for character in text.trim().chars().take(room) {
            let is_beside = character == ' ' && (fitted.is_empty() || fitted.ends_with([' ', '.']));
            fitted.push(if is_fit(character) && !is_beside { character } else { '_' });
        }
        if fitted.ends_with([' ', '.']) {
            fitted.pop();
            fitted.push('_');
        }
        while let Some(at) = numbered(&fitted) {
            fitted.replace_range(at..at + 1, "_");
        }
        Name(fitted)
    }

    pub fn as_str(&self) -> &str {
        &self.0
    }

    /// Whether it can stand in assembly without quotes: it starts with a letter and has no space.
    pub fn is_bare(&self) -> bool {
        self.0.starts_with(char::is_alphabetic) && !self.0.contains(' ')
    }
}

impl fmt::Display for Name {
    fn fmt(&self, f: &mut fmt::Formatter<'_>) -> fmt::Result {
        f.write_str(&self.0)
    }
}

impl Unfit {
    pub fn words(self) -> &'static str {
        match self {
            Unfit::Empty => "has at least one character",
            Unfit::TooLong => "has at most 60 characters",
            Unfit::NoLetter => "has at least one letter",
            Unfit::Sign => "is made of letters, digits, spaces and - _ . / + ' & @ %",
            Unfit::Space => "has no space at its start or end, and not two in a row",
            Unfit::Stop => "has no dot before a space or at its end",
            Unfit::Number => "has no step, file, pipe, place, level or record before a number",
            Unfit::Shop => "of a shop group is not all or none, and has no shop before a number",
        }
    }
}

impl fmt::Display for Unfit {
    fn fmt(&self, f: &mut fmt::Formatter<'_>) -> fmt::Result {
        write!(f, "a name {}", self.words())
    }
}

impl Error for Unfit {}

fn fault(text: &str) -> Option<Unfit> {
    if text.is_empty() {
        Some(Unfit::Empty)
    } else if text.chars().nth(LONGEST).is_some() {
        Some(Unfit::TooLong)
    } else if !text.chars().all(is_fit) {
        Some(Unfit::Sign)
    } else if !text.chars().any(char::is_alphabetic) {
        Some(Unfit::NoLetter)
    } else if text.starts_with(' ') || text.ends_with(' ') || text.contains("  ") {
        Some(Unfit::Space)
    } else if text.contains(". ") || text.ends_with('.') {
        Some(Unfit::Stop)
    } else if numbered(text).is_some() {
        Some(Unfit::Number)
    } else {
        None
    }
}

fn is_fit(character: char) -> bool {
    SIGNS.contains(character)
        || character.is_ascii_alphanumeric()
        || !character.is_ascii() && character.is_alphanumeric() && !is_right_to_left(character)
}

/// The scripts that are written from right to left would turn round what stands beside them.
fn is_right_to_left(character: char) -> bool {
    [0x590..=0x8ff, 0xfb1d..=0xfdff, 0xfe70..=0xfeff, 0x10800..=0x10fff, 0x1e800..=0x1efff]
        .iter()
        .any(|range| range.contains(&u32::from(character)))
}

/// Where a space stands between one of the words that come before a number in our sentences, and a digit.
fn numbered(text: &str) -> Option<usize> {
    before_number(text, &["step", "file", "pipe", "place", "level", "record"])
}

/// Where a space stands between one of these words, or more than one of it, and a digit.
fn before_number(text: &str, words: &[&str]) -> Option<usize> {
    text.match_indices(' ').map(|(at, _)| at).find(|&at| {
        let before = text[..at].rsplit(|character: char| !character.is_alphanumeric()).next().unwrap_or("");
        let before = before.to_lowercase();
        let word = before.strip_suffix('s').unwrap_or(&before);
        let is_before_digit = text[at + 1..].starts_with(|character: char| character.is_numeric());
        is_before_digit && words.contains(&word)
    })
}

#[cfg(test)]
mod tests {
    use super::*;

    #[test]
    fn what_a_name_may_be() {
        for text in ["merge", "the hours sheet of shop 3", "/usr/bin/python3.11", "Lohnbüro", "R&D 2", "a"]
        {
            assert_eq!(Name::new(text).map(|name| name.to_string()), Ok(text.to_string()));
        }
        for (text, unfit) in [
            ("", Unfit::Empty),
            ("17", Unfit::NoLetter),
            ("a\tb", Unfit::Sign),
            ("a\u{1b}[2J", Unfit::Sign),
            ("a\u{202e}b", Unfit::Sign),
            ("\u{5d0}b", Unfit::Sign),
            ("a\u{301}", Unfit::Sign),
            ("a (level 15)", Unfit::Sign),
            ("a: b", Unfit::Sign),
            ("\"a\"", Unfit::Sign),
            (" a", Unfit::Space),
            ("a  b", Unfit::Space),
            ("a. Allowed", Unfit::Stop),
            ("a.", Unfit::Stop),
            ("file 0", Unfit::Number),
            ("the Steps 3 and 4", Unfit::Number),
        ] {
            assert_eq!(Name::new(text), Err(unfit), "{text:?}");
        }
        assert!(Name::new(&"é".repeat(60)).is_ok());
        assert_eq!(Name::new(&"é".repeat(61)), Err(Unfit::TooLong));
        assert!(Name::new("profile 3").is_ok());
        assert!(Unfit::TooLong.words().contains(&LONGEST.to_string()));
        assert!(Name::new("the hours sheet of shop 3").is_ok() && Name::of_shop("north").is_ok());
        for text in ["all", "NONE", "shop 3", "the shops 3 and 4"] {
            assert_eq!(Name::of_shop(text), Err(Unfit::Shop), "{text:?}");
        }
        assert_eq!(Name::of_shop("a,b"), Err(Unfit::Sign));
    }

    #[test]
    fn every_text_is_fitted() {
        for (text, fitted) in [
            ("merge", "merge"),
            (" a\tb ", "a_b"),
            ("a. b.", "a._b_"),
            ("file 0", "file_0"),
            ("17", "name_17"),
            ("", "name_"),
            ("a   b", "a _ b"),
            ("\u{1b}]0;x\u{7}", "__0_x_"),
        ] {
            assert_eq!(Name::fitted(text).as_str(), fitted, "{text:?}");
        }
        let long =
            ["7".repeat(500), "file 1 ".repeat(99), ". ".repeat(99), "\u{202e}".repeat(99), " ".repeat(99)];
        for text in long {
            let name = Name::fitted(&text);
            assert_eq!(Name::new(name.as_str()), Ok(name.clone()), "{text:?}");
        }
    }
}
