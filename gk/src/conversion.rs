//! Journals from before shop marks: the set of all marks is added to the calls that take one now.
//!
//! Before, admit and register had two numbers. With the set 255 behind them, a journal that drew no 11 or 12 gets the replies
//! that it got, but for the last field of a lowered call, if it stays within 65,536 bytes. Records that drew 11 or 12 are left
//! as they are, and told of.

use gatekeeper::{read_number, JOURNAL_BYTES};
use gk_advice::calls::shape_of_code;
use gk_advice::records::{
    body_words, length_words, write_any, Body, BodyFault, Malformed, Record, Records,
};
use gk_names::shops;

use crate::assembly::{assemble, assemble_old, lines, words_of, Assembled, Fault, Word};
use crate::disassembly::disassemble;

/// How many numbers admit and register had.
const OLD_NUMBERS: usize = 2;

/// A journal with sets, and what is to be known of it.
#[derive(Clone, Debug, Default, PartialEq, Eq)]
pub struct Converted {
    pub journal: Vec<u8>,
    /// How many calls have got a set.
    pub calls: u64,
    /// How many records of admit and register had three numbers, which were too many before.
    pub longer: u64,
    pub left: Vec<Left>,
    /// The first record that ends behind the 65,536th byte.
    pub beyond: Option<u64>,
}

/// A record that is left as it is.
#[derive(Clone, Debug, PartialEq, Eq)]
pub struct Left {
    pub record: u64,
    /// What it drew: 11 or 12.
    pub refusal: u32,
    /// Why, in words.
    pub why: String,
    /// Whether it is a call now, as a set of three numbers is.
    pub is_call: bool,
}

impl Left {
    /// As a sentence, without its full stop.
    pub fn words(&self) -> String {
        let Left { record, refusal, why, is_call } = self;
        let drew = format!("record {record} drew {refusal} ({why})");
        match (refusal, is_call) {
            (11, _) => format!("{drew}: from there on nothing was read, and it is left as it is"),
            (_, true) => {
                format!("{drew} and is left as it is: its third number is a set now, and it is a call")
            }
            (_, false) => format!("{drew} and is left as it is: it draws {refusal} again"),
        }
    }
}

/// The journal with the set of all shop marks behind the numbers of admit and register.
pub fn convert(journal: &[u8]) -> Converted {
    let mut converted = Converted::default();
    for (record, entry) in (1..).zip(Records::new(journal)) {
        let left = match entry {
            Err((start, fault)) => {
                converted.journal.extend_from_slice(&journal[start..]);
                Some(Left { record, refusal: 11, why: length_words(fault), is_call: false })
            }
            Ok(found) => converted.take(record, found),
        };
        converted.left.extend(left);
        if converted.beyond.is_none() && converted.journal.len() > JOURNAL_BYTES {
            converted.beyond = Some(record);
        }
    }
    converted
}

impl Converted {
    /// Takes a record in; what is to be said of it where it is left as it is.
    fn take(&mut self, record: u64, found: Record) -> Option<Left> {
        let code = read_number(found.body_bytes).map(|(code, _)| code);
        let fault = match code {
            Some(code @ (1 | 2)) => match old_numbers(found.body_bytes) {
                Ok([first, level]) => {
                    write_any(code, &[first, level, shops::ALL.into()], &mut self.journal);
                    self.calls += 1;
                    return None;
                }
                Err(fault) => Some(Body::Bad(code, fault)),
            },
            _ => Some(found.body).filter(|body| matches!(body, Body::Bad(..))),
        };
        self.journal.extend_from_slice(found.bytes);
        let is_call = matches!(found.body, Body::Call(_));
        self.longer += u64::from(is_call && fault.is_some());
        fault.map(|fault| Left { record, refusal: 12, why: body_words(fault), is_call })
    }

    /// Whether it looks as if the journal had its sets already: no call got one, and some have them.
    pub fn has_sets(&self) -> bool {
        self.calls == 0 && self.longer > 0
    }
}

/// The two numbers that admit and register had; else what was wrong with the body.
fn old_numbers(body: &[u8]) -> Result<[u64; OLD_NUMBERS], BodyFault> {
    let (_, mut taken) = read_number(body).ok_or(BodyFault::Empty)?;
    let mut numbers = [0; OLD_NUMBERS];
    for (index, number) in numbers.iter_mut().enumerate() {
        let rest = &body[taken..];
        if rest.is_empty() {
            return Err(BodyFault::Missing(index));
        }
        let (value, bytes) = read_number(rest).ok_or(BodyFault::Number(index, Malformed::of(rest)))?;
        *number = value;
        taken += bytes;
    }
    match body.len() - taken {
        0 => Ok(numbers),
        more => Err(BodyFault::LeftOver(more)),
    }
}

/// A text with sets, and what is to be known of the journal that it describes.
pub struct ConvertedText {
    pub text: Vec<u8>,
    pub converted: Converted,
    /// Whether its lines are as they were but for the sets. Where bytes stand in the text, it may have to be written anew,
    /// without its comments.
    is_kept: bool,
}

impl ConvertedText {
    pub fn is_kept(&self) -> bool {
        self.is_kept
    }
}

/// The same of a text: `all` is put behind the numbers of each admit and register. What comes out is held to the journal.
pub fn convert_text(text: &[u8]) -> Result<ConvertedText, Fault> {
    let Assembled { journal, names } = match (assemble_old(text), assemble(text)) {
        (Err(_), Ok(new)) => {
            // It has sets already.
            let converted = Converted { longer: 1, journal: new.journal, ..Converted::default() };
            return Ok(ConvertedText { text: text.to_vec(), converted, is_kept: true });
        }
        (old, _) => old?,
    };
    let converted = convert(&journal);
    let edited: Vec<Vec<u8>> = text.split(|&byte| byte == b'\n').map(line).collect();
    let edited = edited.join(&b'\n');
    let is_same = assemble(&edited).is_ok_and(|new| new.journal == converted.journal && new.names == names);
    let text = if is_same { edited } else { disassemble(&converted.journal, &names).into_bytes() };
    Ok(ConvertedText { text, converted, is_kept: is_same })
}

/// A line with a set behind its numbers, where it takes one.
fn line(bytes: &[u8]) -> Vec<u8> {
    let same = bytes.to_vec();
    // A byte-order mark stands before the first line and is no part of it.
    let front = bytes.len() - lines(bytes).next().map_or(bytes.len(), <[u8]>::len);
    let Ok(text) = std::str::from_utf8(&bytes[front..]) else {
        return same;
    };
    let Ok((words, behind)) = words_of(text) else {
        return same;
    };
    let Some(set) = set_for(&words) else {
        return same;
    };
    let end = text.char_indices().nth(behind - 1).map_or(text.len(), |(at, _)| at);
    [&bytes[..front], text[..end].as_bytes(), set.as_bytes(), text[end..].as_bytes()].concat()
}

/// What is put behind the words of a line; none where it takes no set.
fn set_for(words: &[Word]) -> Option<&'static str> {
    let numbers = |code: u64| shape_of_code(code).is_some_and(|shape| words[0].text == shape.word);
    let first = words.first()?;
    match words.len() - 1 {
        _ if first.is_quoted => None,
        OLD_NUMBERS if numbers(1) || numbers(2) => Some(" all"),
        // `call 1 0 9`
        count if first.text == "call" && count == OLD_NUMBERS + 1 && matches!(words[1].text, "1" | "2") => {
            Some(" 255")
        }
        _ => None,
    }
}

#[cfg(test)]
mod tests {
    use super::*;
    use gatekeeper::replay;

    #[test]
    fn a_set_is_added_to_two_calls() {
        let old = [3, 2, 0, 2, 3, 1, 0, 9, 4, 5, 0, 0, 0, 3, 7, 0, 0];
        let Converted { journal, calls, longer, left, beyond } = convert(&old);
        let new = [5, 2, 0, 2, 0xff, 1, 5, 1, 0, 9, 0xff, 1, 4, 5, 0, 0, 0, 3, 7, 0, 0];
        assert_eq!((journal.as_slice(), calls, longer, beyond), (&new[..], 2, 0, None));
        assert!(left.is_empty());
        assert_eq!(replay(&journal), "1 2 A 2\n2 1 A 9\n3 5 A 2\n4 7 L 2 0\nend 1 0 1\n");
    }

    #[test]
    fn what_drew_eleven_or_twelve_is_left() {
        // Three numbers, one, none, a body that is empty, an unknown code; then a length past the end.
        let old = [4, 1, 0, 9, 1, 2, 1, 0, 1, 2, 0, 1, 77, 3, 1, 0, 9, 9, 1];
        let Converted { journal, calls, left, longer, .. } = convert(&old);
        assert_eq!((calls, longer), (1, 1));
        assert_eq!(journal, [&old[..13], &[5, 1, 0, 9, 0xff, 1], &old[17..]].concat());
        let told: Vec<(u64, u32, bool)> =
            left.iter().map(|left| (left.record, left.refusal, left.is_call)).collect();
        assert_eq!(told, [(1, 12, true), (2, 12, false), (3, 12, false), (4, 12, false), (7, 11, false)]);
        assert_eq!(
            left[0].words(),
            "record 1 drew 12 (1 byte is left over behind admit) and is left as it is: its third number is a set now, \
             and it is a call"
        );
        assert_eq!(
            left[1].words(),
            "record 2 drew 12 (the number level of admit is missing) and is left as it is: it draws 12 again"
        );
        assert!(left[4]
            .words()
            .starts_with("record 7 drew 11 (the length is 9, and only 1 byte is left): from "));
        assert!(convert(&[4, 1, 0, 9, 1]).has_sets() && !convert(&[2, 12, 0]).has_sets());
    }

    #[test]
    fn where_a_journal_goes_beyond_is_told() {
        let old = [3, 1, 0, 9].repeat(JOURNAL_BYTES / 4);
        let Converted { journal, beyond, .. } = convert(&old);
        assert_eq!((journal.len(), beyond), (6 * JOURNAL_BYTES / 4, Some(JOURNAL_BYTES as u64 / 6 + 1)));
        assert_eq!(convert(&old[..4 * 10_922]).beyond, None);
    }

    #[test]
    fn a_text_keeps_its_lines() {
        let text = "\u{feff}# March\r\nname file 1 \"the sheet # 3\"\nregister \"the sheet # 3\" 2# unchecked\n  admit  0 12  \r\n\
                    call 1 3 9 # another\nexit 0\nbytes 01 4d\ncall 2 9";
        let new = "\u{feff}# March\r\nname file 1 \"the sheet # 3\"\nregister \"the sheet # 3\" 2 all# unchecked\n  admit  0 12 all  \r\n\
                   call 1 3 9 255 # another\nexit 0\nbytes 01 4d\ncall 2 9";
        // A name may have no #.
        let (text, new) = (text.replace(" # 3\"", " 3\""), new.replace(" # 3\"", " 3\""));
        let found = convert_text(text.as_bytes()).unwrap();
        assert_eq!(String::from_utf8_lossy(&found.text), new);
        assert!(found.is_kept() && found.converted.calls == 3 && found.converted.left.len() == 1);
    }

    #[test]
    fn a_text_with_bytes_of_a_call_is_written_anew() {
        let text = "name step 3 tax # by hand\nbytes 03 01\nbytes 03 09\nexit tax\n";
        let found = convert_text(text.as_bytes()).unwrap();
        assert!(!found.is_kept());
        assert_eq!(String::from_utf8_lossy(&found.text), "name step 3 tax\nadmit tax 9 all\nexit tax\n");
    }

    #[test]
    fn a_text_that_has_sets_is_known() {
        let found = convert_text(b"admit 0 9 all\n").unwrap();
        assert!(found.converted.has_sets());
        assert_eq!(convert_text(b"admit 0\n").map(|_| ()).unwrap_err().column, 8);
        assert!(!convert_text(b"exit 0\n").unwrap().converted.has_sets());
    }
}
