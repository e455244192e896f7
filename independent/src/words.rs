//! Journals as text, as far as this program needs it: the worked cases are written in words, and a journal on which two
//! programs differ is shown so. For people there is `gk`, which stands on the proved archive.
//!
//! One call a line, as `open-read 0 1 2`; `call 77 1 2` is a record with any code and any numbers, `bytes 80 00` any
//! bytes.

use crate::calls::{shape_of_code, shape_of_word, Numbers};
use crate::numbers;
use crate::records::{self, Body, Reader};
use crate::variants::Rules;

/// A record with more numbers than this is shown as bytes.
const MOST_NUMBERS: usize = 8;

/// The journal that lines of words describe; none where a line is not of this form.
pub fn journal_of(text: &str) -> Option<Vec<u8>> {
    let mut journal = Vec::new();
    for line in text.lines() {
        let mut words = line.split_whitespace();
        let Some(first) = words.next() else {
            continue;
        };
        if first == "bytes" {
            let bytes: Option<Vec<u8>> = words.map(|byte| u8::from_str_radix(byte, 16).ok()).collect();
            journal.extend(bytes?);
            continue;
        }
        let numbers: Option<Vec<u64>> = words.map(|number| number.parse().ok()).collect();
        match (shape_of_word(first), numbers?.as_slice()) {
            (Some(shape), numbers) if numbers.len() == shape.numbers.len() => {
                records::write(shape.code, numbers, &mut journal);
            }
            (None, [code, numbers @ ..]) if first == "call" => records::write(*code, numbers, &mut journal),
            _ => return None,
        }
    }
    Some(journal)
}

/// A journal in words; [`journal_of`] gives the same bytes again.
pub fn words_of(journal: &[u8]) -> String {
    let rules = Rules::default();
    let mut text = String::new();
    let mut reader = Reader::new(journal, rules);
    loop {
        let start = reader.offset();
        let Some(record) = reader.next_record() else {
            return text;
        };
        let end = record.map_or(journal.len(), |span| span.end);
        let words = record.ok().and_then(|span| {
            let numbers = all_numbers(&journal[span.body..span.end])?;
            let shape = match records::read_body(journal, span, rules) {
                Body::Call { code, .. } => shape_of_code(code),
                _ => None,
            };
            let is_short = (1..=MOST_NUMBERS).contains(&numbers.len());
            let (word, shown) = shape.map_or(("call", &numbers[..]), |shape| (shape.word, &numbers[1..]));
            is_short.then(|| shown.iter().fold(word.to_string(), |line, number| format!("{line} {number}")))
        });
        match words {
            Some(words) => text.push_str(&format!("{words}\n")),
            None => {
                for part in journal[start..end].chunks(16) {
                    let digits: String = part.iter().map(|byte| format!(" {byte:02x}")).collect();
                    text.push_str(&format!("bytes{digits}\n"));
                }
            }
        }
    }
}

/// A direct call in words, with the numbers that it uses; one of an unknown code with all of them.
pub fn call_in_words(code: u64, numbers: &Numbers) -> String {
    let (word, used) = match shape_of_code(code) {
        Some(shape) => (shape.word.to_string(), shape.numbers.len()),
        None => (format!("call {code}"), numbers.len()),
    };
    numbers[..used].iter().fold(word, |words, number| format!("{words} {number}"))
}

/// The body as a list of good numbers, if it is one.
fn all_numbers(mut body: &[u8]) -> Option<Vec<u64>> {
    let mut numbers = Vec::new();
    while !body.is_empty() {
        let (number, bytes) = numbers::read(body, Rules::default()).ok()?;
        numbers.push(number);
        body = &body[bytes..];
    }
    Some(numbers)
}

#[cfg(test)]
mod tests {
    use super::*;

    #[test]
    fn words_go_to_a_journal_and_back() {
        let text = "admit 0 9 3\ncall 77 1 2\nbytes 80 00\n";
        let journal = journal_of(text).unwrap();
        assert_eq!(journal, [4, 1, 0, 9, 3, 3, 77, 1, 2, 0x80, 0]);
        assert_eq!(words_of(&journal), text);
        for wrong in ["payroll 1", "admit 0 9", "admit 0 9 1 1", "call", "bytes 800", "admit 0 9 x"] {
            assert_eq!(journal_of(wrong), None, "{wrong}");
        }
    }

    #[test]
    fn every_journal_of_two_bytes_comes_back() {
        for first in 0..=255 {
            for second in 0..=255 {
                let journal = [first, second];
                assert_eq!(journal_of(&words_of(&journal)).unwrap(), journal);
            }
        }
    }
}
