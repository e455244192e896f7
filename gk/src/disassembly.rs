//! Journals as text: from bytes to words.
//!
//! Every byte is accounted for: assembling the text again gives the same bytes, whatever they are. What is malformed
//! stands as `bytes` or `call`, with a comment that says why. Names are declared before the record from which on they
//! hold, and stand in the place of their numbers.

use gatekeeper::{Call, JOURNAL_BYTES};

use crate::names::{Entry, Kind, Name, Names};
use gk_advice::calls::{shape_of_code, Role};
use gk_advice::records::{all_numbers, body_words, length_words, Body, Records};
use gk_names::shops;

/// A record with more numbers than this is shown as bytes.
const MOST_NUMBERS: usize = 8;
/// Bytes shown on one line.
const BYTES_A_LINE: usize = 16;

/// The text of a journal.
pub fn disassemble(journal: &[u8], names: &Names) -> String {
    let mut text = String::new();
    if journal.len() > JOURNAL_BYTES {
        text.push_str("# refusal 14: the journal is longer than 65536 bytes, and nothing is run\n");
    }
    let mut entries = names.entries().peekable();
    for (position, entry) in (1..).zip(Records::new(journal)) {
        while let Some(entry) = entries.next_if(|entry| entry.from <= position) {
            text.push_str(&declaration(entry));
        }
        match entry {
            Err((start, fault)) => {
                // Nothing behind it is read.
                let why = format!("refusal 11: {}; the run stops here", length_words(fault));
                bytes_lines(&journal[start..], &why, &mut text);
            }
            Ok(record) => match (record.body, all_numbers(record.body_bytes)) {
                (Body::Call(call), _) => line(&call_words(call, names, position), "", &mut text),
                (body, Some(numbers)) if (1..=MOST_NUMBERS).contains(&numbers.len()) => {
                    line(&format!("call {}", spaced(&numbers)), &why(body), &mut text);
                }
                (body, _) => bytes_lines(record.bytes, &why(body), &mut text),
            },
        }
    }
    for entry in entries {
        text.push_str(&declaration(entry));
    }
    text
}

fn why(body: Body) -> String {
    let number = if matches!(body, Body::UnknownCode(_)) { 1 } else { 12 };
    format!("refusal {number}: {}", body_words(body))
}

fn declaration(entry: &Entry) -> String {
    format!("name {} {} {}\n", entry.kind.word(), entry.number, quoted(&entry.name))
}

/// A name as it stands in assembly.
pub fn quoted(name: &Name) -> String {
    if name.is_bare() {
        name.to_string()
    } else {
        format!("\"{name}\"")
    }
}

/// A call as a line of assembly, with the names that hold at a record.
pub fn call_words(call: Call, names: &Names, at: u64) -> String {
    let Some(shape) = shape_of_code(call.code()) else {
        return String::new();
    };
    let mut words = shape.word.to_string();
    for ((_, role), number) in shape.parts().zip(call.numbers()) {
        let name = match role {
            Role::Step => names.get(Kind::Step, number, at),
            Role::Object => names.object(number, at).map(|(_, name)| name),
            Role::File => names.get(Kind::File, number, at),
            Role::Pipe => names.get(Kind::Pipe, number, at),
            Role::Place | Role::Level | Role::Set => None,
        };
        words.push(' ');
        words.push_str(&match role {
            Role::Set => shops::written(number, names, at),
            _ => name.map_or_else(|| number.to_string(), quoted),
        });
    }
    words
}

fn bytes_lines(bytes: &[u8], why: &str, text: &mut String) {
    for (index, part) in bytes.chunks(BYTES_A_LINE).enumerate() {
        let digits: Vec<String> = part.iter().map(|byte| format!("{byte:02x}")).collect();
        let why = if index == 0 { why } else { "" };
        line(&format!("bytes {}", digits.join(" ")), why, text);
    }
}

fn line(code: &str, comment: &str, text: &mut String) {
    if comment.is_empty() {
        text.push_str(&format!("{code}\n"));
    } else {
        text.push_str(&format!("{code:<24} # {comment}\n"));
    }
}

fn spaced(numbers: &[u64]) -> String {
    let numbers: Vec<String> = numbers.iter().map(u64::to_string).collect();
    numbers.join(" ")
}
