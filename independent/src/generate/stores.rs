//! The host's file store: which numbers the objects of a journal have. Small ones most of the time; in some journals
//! numbers of every length in bytes, and beside them numbers that a program would take for the same if it cut them
//! (RULES T2, J7).

use super::Draft;
use crate::numbers::MOST_BYTES;
use crate::random::Random;
use crate::tables::LIMITS;

/// How many numbers a journal has beyond those that can be live at a time.
const MORE: u64 = 8;

/// The numbers that the objects of a journal have, the first of them most often.
pub(super) fn store(random: &mut Random) -> Vec<u64> {
    let mut numbers: Vec<u64> = match random.below(4) {
        0 => wide_numbers(random),
        // A few among the small ones.
        1 => {
            let mut numbers: Vec<u64> = (0..LIMITS.objects).collect();
            numbers.splice(0..4, wide_numbers(random).into_iter().take(6));
            numbers
        }
        _ => (0..LIMITS.objects).collect(),
    };
    while numbers.len() < (LIMITS.objects + MORE) as usize {
        let last = numbers.last().copied().unwrap_or(0);
        let number = if random.once_in(2) { last.wrapping_add(1) } else { wide_number(random) };
        if !numbers.contains(&number) {
            numbers.push(number);
        }
    }
    numbers
}

/// Numbers of all lengths, and such as differ from these in a few bits.
fn wide_numbers(random: &mut Random) -> Vec<u64> {
    let mut numbers: Vec<u64> = Vec::new();
    while numbers.len() < LIMITS.objects as usize {
        let number = match random.pick(&numbers) {
            Some(other) if random.once_in(2) => like(random, other),
            _ => wide_number(random),
        };
        if !numbers.contains(&number) {
            numbers.push(number);
        }
    }
    numbers
}

/// A number of any length in bytes; now and then the smallest or the largest of that length.
pub(super) fn wide_number(random: &mut Random) -> u64 {
    let bytes = random.between(1, MOST_BYTES as u64);
    let low = if bytes == 1 { 0 } else { 1 << (7 * (bytes - 1)) };
    let high = if bytes == MOST_BYTES as u64 { u64::MAX } else { (1 << (7 * bytes)) - 1 };
    match random.below(6) {
        0 => low,
        1 => high,
        _ => random.between(low, high),
    }
}

/// Another number, which is the same to a program that looks at a part of it only.
pub(super) fn like(random: &mut Random, number: u64) -> u64 {
    match random.below(7) {
        0 => number.wrapping_add(64),
        1 => number.wrapping_add(256),
        2 | 3 => number.wrapping_add(1 << 32),
        4 => number ^ (1 << 63),
        5 => number % (1 << 32),
        _ => number.wrapping_add(random.between(1, 1 << 31) << 32),
    }
}

impl Draft {
    /// The numbers of the journal's store that no object has.
    pub(super) fn free_numbers(&self) -> Vec<u64> {
        let tables = self.picture.tables();
        self.store.iter().copied().filter(|&o| tables.object(o).is_none()).collect()
    }

    /// This number of an object, or now and then another one, which may be live or not.
    pub(super) fn maybe_odd_object(&mut self, number: u64) -> u64 {
        if !self.random.once_in(self.odd_numbers) {
            return number;
        }
        match self.random.below(10) {
            0 => LIMITS.objects,
            1 => LIMITS.objects - 1,
            2 => u64::MAX,
            3 => wide_number(&mut self.random),
            4..=6 => like(&mut self.random, number),
            _ => self.random.pick(&self.store).unwrap_or(0),
        }
    }
}
