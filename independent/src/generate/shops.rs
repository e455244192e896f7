//! Sets of shop marks: those that a journal keeps to, and steps that lose marks, hand them on and need them (RULES T49 to
//! T52, C104, C118).

use super::Draft;
use crate::labels::ALL_SHOPS;
use crate::random::Random;
use crate::records;
use crate::tables::LIMITS;

/// The sets that a journal keeps to. In two of five journals every set has all marks; in the others the sets lie in one
/// another, are those of two or three groups, or are any.
pub(super) fn sets(random: &mut Random) -> Vec<u64> {
    let group = |random: &mut Random| 1 << random.below(8);
    let mut sets: Vec<u64> = match random.below(5) {
        0 | 1 => vec![ALL_SHOPS],
        2 => {
            let mut rising = vec![random.below(2)];
            for _ in 0..random.between(1, 3) {
                let more = rising[rising.len() - 1] | group(random) | group(random);
                rising.push(more);
            }
            rising
        }
        3 => {
            let (one, other, third) = (group(random), group(random), group(random));
            vec![one, other, one | other, one | third, other | third]
        }
        _ => (0..random.between(2, 5)).map(|_| random.below(LIMITS.sets)).collect(),
    };
    if sets != [ALL_SHOPS] && random.once_in(3) {
        sets.push(ALL_SHOPS);
    }
    if sets != [ALL_SHOPS] && random.once_in(4) {
        sets.push(0);
    }
    sets
}

impl Draft {
    /// One of the journal's sets, or now and then one that may not fit.
    pub(super) fn set(&mut self) -> u64 {
        if self.odd_numbers > 0 && self.random.once_in(100) {
            return LIMITS.sets;
        }
        let set = self.random.pick(&self.sets).unwrap_or(ALL_SHOPS);
        self.maybe_odd(set, LIMITS.sets)
    }

    /// All the marks that the journal's sets have together, as a rule: what has them is in nobody's way for its set.
    pub(super) fn fit_set(&mut self) -> u64 {
        if self.random.once_in(5) {
            self.set()
        } else {
            self.all_marks()
        }
    }

    pub(super) fn all_marks(&self) -> u64 {
        self.sets.iter().fold(0, |one, other| one | other)
    }

    /// A subject is admitted at this level, with a set that fits as a rule.
    pub(super) fn admit(&mut self, s: u64, level: u64) {
        let set = self.fit_set();
        self.record(1, &[s, level, set]);
    }

    /// A file is registered at this level, with a set that fits as a rule.
    pub(super) fn register(&mut self, o: u64, level: u64) {
        let set = self.fit_set();
        self.record(2, &[o, level, set]);
    }

    /// A file of one level and a step of the same, with sets of their own: a read, a map or a run takes marks alone, a
    /// write hands the loss on, and an open is refused for a mark that is needed.
    pub(super) fn vouching(&mut self) {
        let odd = std::mem::replace(&mut self.odd_numbers, 0);
        let level = self.level();
        let s = self.free_subject();
        self.admit(s, level);
        let one = self.free_object();
        self.register_near(one, level);
        let other = self.free_object();
        self.register_near(other, level);
        let mate = self.free_subject();
        if self.random.once_in(3) {
            self.record(18, &[s, mate]);
        }
        for _ in 0..self.random.between(3, 9) {
            self.vouching_turn([s, mate], [one, other]);
        }
        self.odd_numbers = odd;
    }

    /// A file with one of the journal's sets, most often at this level.
    fn register_near(&mut self, o: u64, level: u64) {
        let level = if self.random.once_in(3) { self.level() } else { level };
        let set = self.set();
        self.record(2, &[o, level, set]);
    }

    fn vouching_turn(&mut self, [s, mate]: [u64; 2], [one, other]: [u64; 2]) {
        let (file, next) = if self.random.once_in(2) { (one, other) } else { (other, one) };
        let p = self.free_place(s);
        match self.random.below(14) {
            // What is needed for one file keeps the other out; a close lets its marks sink, too.
            0..=2 => {
                self.record(6, &[s, file, p]);
                let q = self.free_place(s);
                let code = self.random.pick(&[5, 5, 6, 14]).unwrap_or(5);
                self.record(code, &[s, next, q]);
                if self.random.once_in(2) {
                    self.record(11, &[s, p]);
                    self.record(code, &[s, next, q]);
                }
            }
            3 | 4 => {
                self.record(5, &[s, file, p]);
                self.record(7, &[s, p]);
            }
            5 => self.record(14, &[s, file, p]),
            6 => self.record(10, &[s, file]),
            // The loss goes on by a pipe.
            7 | 8 => {
                let numbers = self.pipe_of(s);
                self.record(4, &numbers);
                let reader = self.free_subject();
                self.record(9, &[s, reader]);
                self.record(5, &[s, file, p]);
                self.record(7, &[s, p]);
                self.record(8, &[s, numbers[3]]);
                self.record(7, &[reader, numbers[2]]);
            }
            9 => {
                let t = self.new_step();
                let numbers = self.fitting_channel(s, t);
                self.record(17, &numbers);
                self.record(8, &[s, numbers[5]]);
                self.record(7, &[t, numbers[4]]);
                self.record(8, &[t, numbers[5]]);
                self.record(7, &[s, numbers[4]]);
            }
            10 => {
                let o = self.free_object();
                self.record(3, &[s, o]);
                let t = self.new_step();
                let q = self.free_place(t);
                self.record(5, &[t, o, q]);
                self.record(7, &[t, q]);
            }
            11 => self.crossed_channel(),
            12 => {
                let q = self.free_place(mate);
                self.record(5, &[mate, file, q]);
                self.record(7, &[mate, q]);
                self.record(11, &[s, p]);
            }
            _ => self.any_call(),
        }
    }

    /// A step of a high level and one with many marks, each with a file of its own label open for writing: of a channel
    /// between them each end lacks what the other needs.
    fn crossed_channel(&mut self) {
        let (high, low) = (self.levels[self.levels.len() - 1], self.levels[0]);
        let (many, few) = (self.all_marks(), self.set());
        let mut ends = [0, 0];
        for (end, (level, set)) in ends.iter_mut().zip([(high, few), (low, many)]) {
            *end = self.free_subject();
            self.record(1, &[*end, level, set]);
            let file = self.free_object();
            self.record(2, &[file, level, set]);
            let p = self.free_place(*end);
            self.record(6, &[*end, file, p]);
        }
        let [s, t] = ends;
        let numbers = self.fitting_channel(s, t);
        self.record(17, &numbers);
    }

    /// A record of an admit or a register as it was before sets: a number is missing.
    pub(super) fn record_without_set(&mut self, code: u64) {
        let numbers = self.numbers_for(code);
        records::write(code, &numbers[..2], &mut self.journal);
        self.records += 1;
    }
}
