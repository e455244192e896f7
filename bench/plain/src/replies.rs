//! The reply to a journal: a line for each record, then the tally.

use crate::calls::Answer;
use crate::journal::{Record, Records, LONGEST};
use crate::monitor::{Monitor, When};
use crate::refusals::Refusal;
use crate::tables::Tally;

/// Runs a journal from empty tables and writes the reply at the end of `text`.
pub fn replies(journal: &[u8], when: When, text: &mut Vec<u8>) {
    let mut monitor = Monitor::new(when);
    if journal.len() > LONGEST {
        line(text, 1, 0, Refusal::JournalTooLong.into());
    } else {
        for (position, record) in (1..).zip(Records::of(journal)) {
            let (code, answer) = match record {
                Record::Read { code, call: Ok(call) } => (code, monitor.call(call)),
                Record::Read { code, call: Err(refusal) } => (code, refusal.into()),
                Record::Broken => (0, Refusal::JournalBroken.into()),
            };
            line(text, position, code, answer);
        }
    }
    end(text, monitor.tally());
}

/// Position, code, A, L or R, and the level or refusal number; behind L also the number of shop marks lost.
fn line(text: &mut Vec<u8>, position: u64, code: u64, answer: Answer) {
    let (letter, value, lost) = match answer {
        Answer::Allowed(level) => (b'A', level, None),
        Answer::Lowered(level, lost) => (b'L', level, Some(lost)),
        Answer::Refused(number) => (b'R', number, None),
    };
    decimal(text, position);
    text.push(b' ');
    decimal(text, code);
    text.extend_from_slice(&[b' ', letter, b' ']);
    decimal(text, value.into());
    if let Some(lost) = lost {
        text.push(b' ');
        decimal(text, lost.into());
    }
    text.push(b'\n');
}

/// The last line: handles made, gone and open.
fn end(text: &mut Vec<u8>, tally: Tally) {
    text.extend_from_slice(b"end");
    for count in [tally.made, tally.gone, tally.open()] {
        text.push(b' ');
        decimal(text, count);
    }
    text.push(b'\n');
}

fn decimal(text: &mut Vec<u8>, mut number: u64) {
    let mut digits = [0; 20];
    let mut start = digits.len();
    loop {
        start -= 1;
        digits[start] = b'0' + (number % 10) as u8;
        number /= 10;
        if number == 0 {
            break;
        }
    }
    text.extend_from_slice(&digits[start..]);
}

#[cfg(test)]
mod tests {
    use super::*;

    fn reply(journal: &[u8]) -> String {
        let mut text = Vec::new();
        replies(journal, When::EachCall, &mut text);
        String::from_utf8(text).expect("letters, digits and spaces")
    }

    #[test]
    fn the_first_journal_is_answered() {
        let journal = [5, 2, 0, 2, 255, 1, 5, 1, 0, 9, 255, 1, 4, 5, 0, 0, 0, 3, 7, 0, 0];
        assert_eq!(reply(&journal), "1 2 A 2\n2 1 A 9\n3 5 A 2\n4 7 L 2 0\nend 1 0 1\n");
        // The sheet is vouched for by shop group 2 alone.
        let journal = [4, 2, 0, 9, 4, 5, 1, 0, 9, 255, 1, 4, 5, 0, 0, 0, 3, 7, 0, 0, 3, 7, 0, 0];
        assert_eq!(reply(&journal), "1 2 A 9\n2 1 A 9\n3 5 A 9\n4 7 L 9 7\n5 7 A 9\nend 1 0 1\n");
        // Without sets, as before there were any.
        let journal = [3, 2, 0, 2, 3, 1, 0, 9];
        assert_eq!(reply(&journal), "1 2 R 12\n2 1 R 12\nend 0 0 0\n");
    }

    #[test]
    fn what_is_no_call_is_answered() {
        assert_eq!(reply(&[]), "end 0 0 0\n");
        assert_eq!(reply(&[0x80, 0x00]), "1 0 R 11\nend 0 0 0\n");
        assert_eq!(reply(&[0x00, 2, 99, 5]), "1 0 R 12\n2 99 R 1\nend 0 0 0\n");
        // Code 19 is the first that is no call.
        assert_eq!(reply(&[1, 18, 1, 19]), "1 18 R 12\n2 19 R 1\nend 0 0 0\n");
        // Code 2^32 + 1 is not cut to 1.
        assert_eq!(reply(&[7, 0x81, 0x80, 0x80, 0x80, 0x10, 0, 9]), "1 4294967297 R 1\nend 0 0 0\n");
        assert_eq!(reply(&[0; LONGEST + 1]), "1 0 R 14\nend 0 0 0\n");
    }

    #[test]
    fn numbers_are_written() {
        let mut text = Vec::new();
        for number in [0, 9, 10, 65_536, u64::MAX] {
            decimal(&mut text, number);
            text.push(b' ');
        }
        assert_eq!(text, b"0 9 10 65536 18446744073709551615 ");
    }
}
