//! Records that are not well formed: wrong codes, wrong numbers, wrong lengths.

use super::stores::wide_number;
use super::Draft;
use crate::numbers::{self, MOST_BYTES};
use crate::records;

impl Draft {
    pub(super) fn damaged_record(&mut self, code: u64, numbers: &[u64]) {
        let mut body = Vec::new();
        numbers::write(code, &mut body);
        let first = body.len();
        for &number in numbers {
            numbers::write(number, &mut body);
        }
        match self.random.below(20) {
            // A number, or the code, longer than it need be.
            0 => pad_number(&mut body, first),
            1 => {
                let end = body.len();
                pad_number(&mut body, end);
            }
            // The last number, or the code, in ten bytes or more: above 18,446,744,073,709,551,615, or padded. Without its
            // upper bits most often the number that it was.
            2 | 3 => {
                let last = numbers.last().copied().unwrap_or(0);
                if self.random.once_in(3) {
                    body = self.overlong(code);
                } else {
                    let mut short = Vec::new();
                    numbers::write(last, &mut short);
                    body.truncate(body.len() - short.len());
                    body.extend(self.overlong(last));
                }
            }
            // The last number, or all of them, missing.
            4 => body.truncate(first),
            5 | 6 => {
                let mut short = Vec::new();
                numbers::write(code, &mut short);
                for &number in &numbers[..numbers.len().saturating_sub(1)] {
                    numbers::write(number, &mut short);
                }
                body = short;
            }
            // Something left over.
            7 | 8 => {
                let extra = self.random.below(20);
                numbers::write(extra, &mut body);
            }
            9 => body.extend([0x80, 0x00]),
            // A number cut off by the body's end.
            10 | 11 => {
                if let Some(last) = body.last_mut() {
                    *last |= 0x80;
                }
            }
            // An unknown code, with a good rest and with any rest.
            12 => {
                let mut other = Vec::new();
                let unknown = self.unknown_code();
                let like = code.wrapping_add(1 << 32);
                numbers::write(if self.random.once_in(2) { like } else { unknown }, &mut other);
                other.extend_from_slice(&body[first..]);
                body = other;
            }
            13 => {
                body.clear();
                numbers::write(self.unknown_code(), &mut body);
                for _ in 0..self.random.below(6) {
                    body.push(self.random.below(256) as u8);
                }
            }
            // No body; a padded code; some other byte.
            14 => body.clear(),
            15 => body = vec![0x80, 0x80],
            16 => {
                let index = self.random.below(body.len() as u64) as usize;
                body[index] ^= 1 << self.random.below(8);
            }
            // A length that is wrong.
            _ => {
                self.wrong_length(&body);
                return;
            }
        }
        records::write_body(&body, &mut self.journal);
    }

    /// A record with a number too many.
    pub(super) fn record_with_one_more(&mut self, code: u64, numbers: &[u64]) {
        let more = self.random.below(20);
        records::write(code, &[numbers, &[more]].concat(), &mut self.journal);
        self.records += 1;
    }

    fn wrong_length(&mut self, body: &[u8]) {
        let length = body.len() as u64;
        match self.random.below(9) {
            0 => self.journal.extend([length as u8 | 0x80, 0x00]),
            1 => numbers::write(length + (1 << 32), &mut self.journal),
            2 => numbers::write(u64::MAX, &mut self.journal),
            3 => numbers::write(length + 100_000, &mut self.journal),
            4 => numbers::write(length.saturating_sub(1), &mut self.journal),
            5 => numbers::write(length + self.random.below(200), &mut self.journal),
            6 => {
                let overlong = self.overlong(length);
                self.journal.extend(overlong);
            }
            _ => numbers::write(length + 1, &mut self.journal),
        }
        self.journal.extend_from_slice(body);
    }

    /// A number in ten or eleven bytes, of which the last is 0 or makes it too large.
    fn overlong(&mut self, number: u64) -> Vec<u8> {
        let number = if self.random.once_in(6) { u64::MAX } else { number };
        let last = self.random.pick(&[0x00, 0x01, 0x02, 0x02, 0x03, 0x7f]).unwrap_or(0x02);
        match self.random.below(3) {
            // A last byte of 1 would be right in ten bytes.
            0 | 1 if last != 0x01 => spread(number, MOST_BYTES, last),
            _ => spread(number, MOST_BYTES + 1, last),
        }
    }

    pub(super) fn unknown_code(&mut self) -> u64 {
        let codes =
            [0, 19, 21, 77, 127, 128, 129, 256 + 1, 12_857, 65_536 + 2, (1 << 32) - 1, 1 << 32, u64::MAX];
        match self.random.below(8) {
            0 => (1 << 32) + self.random.below(20),
            1 => wide_number(&mut self.random).max(19),
            _ => self.random.pick(&codes).unwrap_or(0),
        }
    }
}

/// The lower groups of a number, and after them this byte: so many bytes in all.
fn spread(number: u64, bytes: usize, last: u8) -> Vec<u8> {
    let group = |index: usize| number.checked_shr(7 * index as u32).unwrap_or(0) as u8 | 0x80;
    (0..bytes - 1).map(group).chain([last]).collect()
}

/// Makes the number that ends at this offset longer than it need be.
fn pad_number(body: &mut Vec<u8>, end: usize) {
    if end > 0 && end <= body.len() {
        body[end - 1] |= 0x80;
        body.insert(end, 0x00);
    }
}
