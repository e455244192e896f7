//! Sentences with numbers in them. The terminal writes them out; the page keeps the words of each once, and for each
//! record only the numbers, so that nothing but numbers gets from a journal into the page.

use std::borrow::Cow;
use std::fmt::Write;

use gatekeeper::Kind;
use gk_advice::scene::capital;
use gk_names::number::shown;

use crate::names::Names;
use crate::state::State;

/// A piece of a sentence.
#[derive(Clone, Debug, PartialEq, Eq)]
pub enum Piece {
    Words(Cow<'static, str>),
    Step(u64),
    File(u64),
    Pipe(u64),
    /// A number under which there is no file or pipe.
    Either(u64),
    Number(u64),
    /// Numbers that rise, written short: "1 to 4, 7".
    List(Vec<u64>),
    /// A set of shop marks: "the shop marks of north and east".
    Shops(u8),
}

/// A sentence.
#[derive(Clone, Debug, PartialEq, Eq, Default)]
pub struct Phrase(pub Vec<Piece>);

impl From<&'static str> for Piece {
    fn from(words: &'static str) -> Piece {
        Piece::Words(Cow::Borrowed(words))
    }
}

impl From<u64> for Piece {
    fn from(number: u64) -> Piece {
        Piece::Number(number)
    }
}

impl From<u8> for Piece {
    fn from(number: u8) -> Piece {
        Piece::Number(number.into())
    }
}

impl From<usize> for Piece {
    fn from(number: usize) -> Piece {
        Piece::Number(number as u64)
    }
}

/// A phrase of pieces: words, numbers, things.
macro_rules! phrase {
    ($($piece:expr),* $(,)?) => { $crate::phrase::Phrase(vec![$($crate::phrase::Piece::from($piece)),*]) };
}
pub(crate) use phrase;

/// A file or pipe as it is called in this state.
pub fn object(o: u64, state: &State) -> Piece {
    match state.kind(o) {
        Some(Kind::File) => Piece::File(o),
        Some(Kind::Pipe) => Piece::Pipe(o),
        None => Piece::Either(o),
    }
}

/// A digit's run of at most so many is a number; a longer one stays a word.
const MOST_DIGITS: usize = 15;

impl Phrase {
    /// A text of `gk_advice` as it stands, its numbers apart from its words.
    pub fn of_text(text: &str) -> Phrase {
        let mut pieces = Vec::new();
        let mut words = String::new();
        let mut rest = text;
        while let Some(start) = rest.find(|letter: char| letter.is_ascii_digit()) {
            let digits = rest[start..].find(|letter: char| !letter.is_ascii_digit());
            let end = digits.map_or(rest.len(), |digits| start + digits);
            let run = &rest[start..end];
            // What is written otherwise than the number would be, as 007, is no number.
            let number = run.parse::<u64>().ok().filter(|number| number.to_string() == run);
            words.push_str(&rest[..start]);
            match number.filter(|_| run.len() <= MOST_DIGITS) {
                Some(number) => {
                    pieces.push(Piece::Words(Cow::Owned(std::mem::take(&mut words))));
                    pieces.push(Piece::Number(number));
                }
                None => words.push_str(run),
            }
            rest = &rest[end..];
        }
        words.push_str(rest);
        pieces.push(Piece::Words(Cow::Owned(words)));
        Phrase(pieces)
    }

    pub fn then(mut self, more: Phrase) -> Phrase {
        self.0.extend(more.0);
        self
    }

    /// The words, with a mark in braces for each thing and number.
    pub fn template(&self) -> String {
        let marks = self.0.iter().map(|piece| match piece {
            Piece::Words(words) => words.as_ref(),
            Piece::Step(_) => "{s}",
            Piece::File(_) => "{f}",
            Piece::Pipe(_) => "{p}",
            Piece::Either(_) => "{o}",
            Piece::Number(_) => "{n}",
            Piece::List(_) => "{l}",
            Piece::Shops(_) => "{m}",
        });
        marks.collect()
    }

    /// What stands at these marks, as a list of numbers and of lists of numbers. The number of a thing is a text, so that
    /// no script rounds it.
    pub fn numbers(&self) -> String {
        let numbers = self.0.iter().filter_map(|piece| match piece {
            Piece::Words(_) => None,
            Piece::Step(n) | Piece::File(n) | Piece::Pipe(n) | Piece::Either(n) => {
                Some(format!("\"{}\"", shown(*n)))
            }
            Piece::Number(n) => Some(n.to_string()),
            Piece::Shops(set) => Some(set.to_string()),
            Piece::List(list) => {
                Some(format!("[{}]", list.iter().map(u64::to_string).collect::<Vec<_>>().join(",")))
            }
        });
        numbers.collect::<Vec<_>>().join(",")
    }

    /// The sentence written out, with the names that hold at a record. A thing at its front has a capital as `capital`
    /// gives it: a name stays as it is.
    pub fn text(&self, names: &Names, record: u64) -> String {
        let text = self.middle(names, record);
        match self.0.first() {
            Some(Piece::Words(_)) | None => text,
            Some(_) => capital(&text),
        }
    }

    /// The same as it stands within a sentence.
    pub fn middle(&self, names: &Names, record: u64) -> String {
        let mut text = String::new();
        for piece in &self.0 {
            let (kind, n) = match piece {
                Piece::Words(words) => {
                    text.push_str(words);
                    continue;
                }
                Piece::Number(n) => {
                    let _ = write!(text, "{n}");
                    continue;
                }
                Piece::List(list) => {
                    text.push_str(&ranges(list));
                    continue;
                }
                Piece::Shops(set) => {
                    text.push_str(&names.marks(*set, record));
                    continue;
                }
                Piece::Step(n) => ("step", *n),
                Piece::File(n) => ("file", *n),
                Piece::Pipe(n) => ("pipe", *n),
                Piece::Either(n) => ("file or pipe", *n),
            };
            let plain = format!("{kind} {}", shown(n));
            match names.name(kind, n, record) {
                Some(name) => text.push_str(&format!("{name} ({plain})")),
                None => text.push_str(&plain),
            }
        }
        text
    }
}

/// Rising numbers in short.
pub fn ranges(list: &[u64]) -> String {
    let mut parts: Vec<(u64, u64)> = Vec::new();
    for &n in list {
        match parts.last_mut() {
            Some((_, last)) if n == *last + 1 => *last = n,
            _ => parts.push((n, n)),
        }
    }
    let words = parts.into_iter().map(|(first, last)| match last - first {
        0 => first.to_string(),
        1 => format!("{first}, {last}"),
        _ => format!("{first} to {last}"),
    });
    words.collect::<Vec<_>>().join(", ")
}

#[cfg(test)]
mod tests {
    use super::*;

    #[test]
    fn a_phrase_is_words_and_numbers() {
        let said = phrase![
            Piece::Step(3),
            " opens ",
            Piece::File(1),
            " at ",
            5u64,
            ": ",
            Piece::List(vec![1, 2, 3, 7])
        ];
        assert_eq!(said.template(), "{s} opens {f} at {n}: {l}");
        assert_eq!(said.numbers(), "\"3\",\"1\",5,[1,2,3,7]");
        assert_eq!(said.text(&Names::default(), 1), "Step 3 opens file 1 at 5: 1 to 3, 7");
    }

    #[test]
    fn a_text_is_taken_apart_and_comes_out_as_it_was() {
        for (text, template, numbers) in [
            ("", "", ""),
            ("close place 1 of cat", "close place {n} of cat", "1"),
            ("7 of 9", "{n} of {n}", "7,9"),
            ("007 and 0, of 1234567890123456", "007 and {n}, of 1234567890123456", "0"),
            ("In/1.csv (file 18)", "In/{n}.csv (file {n})", "1,18"),
            (
                "file 18,446,744,073,709,551,615",
                "file {n},{n},{n},073,{n},{n},{n}",
                "18,446,744,709,551,615",
            ),
        ] {
            let phrase = Phrase::of_text(text);
            assert_eq!((phrase.template().as_str(), phrase.numbers().as_str()), (template, numbers));
            assert_eq!(phrase.text(&Names::default(), 1), text);
        }
    }

    #[test]
    fn a_thing_of_a_long_number_is_exact() {
        let said = phrase![Piece::File(u64::MAX), " is gone."];
        assert_eq!(said.numbers(), "\"18,446,744,073,709,551,615\"");
        assert_eq!(said.text(&Names::default(), 1), "File 18,446,744,073,709,551,615 is gone.");
    }

    #[test]
    fn numbers_in_a_row_are_short() {
        assert_eq!(ranges(&[]), "");
        assert_eq!(ranges(&[4]), "4");
        assert_eq!(ranges(&[4, 5]), "4, 5");
        assert_eq!(ranges(&[0, 1, 2, 9, 10, 11, 31]), "0 to 2, 9 to 11, 31");
    }
}
