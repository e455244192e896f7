//! Calls drawn one at a time: which number to name, and which call to make, where things stand.

use super::Draft;
use crate::calls::{filled, shape_of_code, SHAPES};
use crate::monitor::Answer;
use crate::tables::{Direction, Kind, LIMITS, NO_FREEZE};

impl Draft {
    // Numbers.

    /// This number of a subject, a place or a level, or now and then another one that may not fit.
    pub(super) fn maybe_odd(&mut self, number: u64, limit: u64) -> u64 {
        if !self.random.once_in(self.odd_numbers) {
            return number;
        }
        match self.random.below(16) {
            0 | 1 => limit,
            2 => limit + 1,
            3 => limit - 1,
            4 => self.random.pick(&[u64::MAX, (1 << 32) - 1, 1 << 32]).unwrap_or(u64::MAX),
            5 => number.wrapping_add(256),
            6 => number.wrapping_add(65_536),
            7 => number.wrapping_add(1 << 31),
            8 => self.random.between(limit, 4 * limit),
            // What is left of it in 32 bits would fit.
            9 | 10 => number.wrapping_add(1 << 32),
            11 => number.wrapping_add(self.random.between(1, 1 << 31) << 32),
            12 => number.wrapping_add(1 << 63),
            _ => self.random.below(limit),
        }
    }

    pub(super) fn level(&mut self) -> u64 {
        let level = self.random.pick(&self.levels).unwrap_or(0);
        self.maybe_odd(level, LIMITS.levels)
    }

    /// A freeze: most often one of the journal's levels; also the number above it, none, any level, and one that
    /// is too high.
    fn freeze(&mut self) -> u64 {
        let level = self.random.pick(&self.levels).unwrap_or(0);
        let freeze = match self.random.below(10) {
            0 => level + 1,
            1 => NO_FREEZE,
            2 => self.random.below(NO_FREEZE),
            3 | 4 => NO_FREEZE + 1,
            _ => level,
        };
        self.maybe_odd(freeze, NO_FREEZE + 1)
    }

    pub(super) fn live_subject(&mut self) -> u64 {
        let live: Vec<u64> = self.picture.tables().live_subjects().collect();
        let s = self.random.pick(&live).unwrap_or(0);
        self.maybe_odd(s, LIMITS.subjects)
    }

    pub(super) fn free_subject(&mut self) -> u64 {
        let tables = self.picture.tables();
        let free: Vec<u64> = (0..LIMITS.subjects).filter(|&s| tables.subject(s).is_none()).collect();
        let s = self.low_or_any(&free);
        self.maybe_odd(s, LIMITS.subjects)
    }

    pub(super) fn free_object(&mut self) -> u64 {
        let free = self.free_numbers();
        let o = self.low_or_any(&free);
        self.maybe_odd_object(o)
    }

    /// Often one of the first, so that numbers are used again.
    fn low_or_any(&mut self, numbers: &[u64]) -> u64 {
        let low = &numbers[..numbers.len().min(4)];
        let any = if self.random.once_in(2) { numbers } else { low };
        self.random.pick(any).unwrap_or(0)
    }

    pub(super) fn live_object(&mut self, kind: Option<Kind>) -> u64 {
        let tables = self.picture.tables();
        let live: Vec<u64> = tables
            .live_objects()
            .filter(|&o| kind.is_none() || tables.object(o).map(|object| object.kind) == kind)
            .collect();
        let o = self.random.pick(&live).unwrap_or(0);
        self.maybe_odd_object(o)
    }

    pub(super) fn free_place(&mut self, s: u64) -> u64 {
        let tables = self.picture.tables();
        let free: Vec<u64> = (0..LIMITS.places).filter(|&p| tables.handle(s, p).is_none()).collect();
        let p = self.random.pick(&free).unwrap_or(0);
        self.maybe_odd(p, LIMITS.places)
    }

    /// A subject and one of its places with a handle of this direction.
    pub(super) fn held_place(&mut self, direction: Option<Direction>) -> (u64, u64) {
        let held: Vec<(u64, u64)> = self
            .picture
            .tables()
            .handles()
            .filter(|(_, _, handle)| direction.is_none_or(|wanted| wanted == handle.direction))
            .map(|(s, p, _)| (s, p))
            .collect();
        let (s, p) = self.random.pick(&held).unwrap_or((0, 0));
        (self.maybe_odd(s, LIMITS.subjects), self.maybe_odd(p, LIMITS.places))
    }

    // Calls.

    /// One call, most often one that has a meaning where things stand.
    pub(super) fn any_call(&mut self) {
        if self.random.once_in(50) {
            // Any code, those between and beside the known ones too, with numbers out of a hat.
            let code = self.random.below(SHAPES[SHAPES.len() - 1].code + 2);
            let count = shape_of_code(code).map_or(1, |shape| shape.numbers.len());
            let numbers: Vec<u64> = (0..count).map(|_| self.random.below(18)).collect();
            return self.record(code, &numbers);
        }
        let tables = self.picture.tables();
        let subjects = tables.live_subjects().count() as u64;
        let objects = tables.object_count();
        let handles = tables.handle_count();
        let frozen = tables.frozen_from().is_some();
        let few = |count: u64, wanted: u64| if count < wanted { 10 } else { 1 };
        let some = |count: u64, weight: u64| if count > 0 { weight } else { 0 };
        let weights = [
            2 * few(subjects, 3),
            2 * few(objects, 4),
            some(subjects, 3),
            some(subjects, 8),
            some(subjects * objects, 14),
            some(subjects * objects, 14),
            some(handles, 12),
            some(handles, 12),
            some(subjects, if subjects < 12 { 7 } else { 2 }),
            some(subjects * objects, 5),
            some(handles, if handles < 60 { 8 } else { 14 }),
            some(subjects, if subjects < 4 { 1 } else { 5 }),
            some(objects, if objects < 8 { 2 } else { 6 }),
            some(self.imports * subjects * objects, 5),
            some(self.launches * handles, 5),
            some(self.closings, if frozen { 6 } else { 1 }),
            some(self.channels * subjects, 4),
            some(self.threads * subjects, if subjects < 12 { 4 } else { 1 }),
        ];
        let code = SHAPES[self.random.weighted(&weights)].code;
        let numbers = self.numbers_for(code);
        self.record(code, &numbers);
    }

    pub(super) fn numbers_for(&mut self, code: u64) -> Vec<u64> {
        match code {
            1 => vec![self.free_subject(), self.level(), self.set()],
            2 => vec![self.free_object(), self.level(), self.set()],
            3 => vec![self.live_subject(), self.free_object()],
            4 => {
                let s = self.live_subject();
                let o = self.free_object();
                let r = self.free_place(s);
                let w = self.free_place(s);
                // Two free places that differ, most of the time.
                let again = self.free_place(s);
                let w = if w == r && !self.random.once_in(4) { again } else { w };
                vec![s, o, r, w]
            }
            5 | 6 | 14 => self.open_numbers(code),
            7 | 8 => {
                let right = if code == 7 { Direction::Reading } else { Direction::Writing };
                let direction = if self.random.once_in(12) { None } else { Some(right) };
                let (s, p) = self.held_place(direction);
                vec![s, p]
            }
            9 | 18 => {
                let s = self.live_subject();
                let c = self.free_subject();
                vec![s, if self.random.once_in(20) { s } else { c }]
            }
            10 => {
                let pipes = self.random.once_in(8);
                let kind = if pipes { Kind::Pipe } else { Kind::File };
                vec![self.live_subject(), self.live_object(Some(kind))]
            }
            11 => {
                let (s, p) = self.held_place(None);
                vec![s, p]
            }
            12 => vec![self.live_subject()],
            13 => {
                let pipes = self.random.once_in(8);
                let kind = if pipes { Kind::Pipe } else { Kind::File };
                vec![self.live_object(Some(kind))]
            }
            15 => {
                let (s, p) = self.held_place(None);
                let empty = self.free_place(s);
                vec![s, if self.random.once_in(12) { empty } else { p }]
            }
            17 => self.connect_numbers(),
            _ => vec![self.freeze()],
        }
    }

    /// An open or a map; every second time one that is allowed is looked for.
    fn open_numbers(&mut self, code: u64) -> Vec<u64> {
        let tries = if self.random.once_in(2) { 3 } else { 1 };
        let mut numbers = Vec::new();
        for _ in 0..tries {
            let kind = match self.random.below(3) {
                // Of a pipe there is no map.
                0 if code != 14 || self.random.once_in(4) => Some(Kind::Pipe),
                2 if code != 14 => None,
                _ => Some(Kind::File),
            };
            numbers = self.one_open(kind);
            let answer = self.picture.clone().call(code, filled(&numbers));
            if !matches!(answer, Answer::Refused(_)) {
                break;
            }
        }
        numbers
    }

    /// An open that nothing but the freeze refuses, most often.
    pub(super) fn open_but_for_freeze(&mut self, code: u64, kind: Kind) -> Vec<u64> {
        self.open_answered(code, kind, |answer| matches!(answer, Answer::Allowed(_)))
    }

    /// An open or a map that offends the flow rule, most often; whether it meets the freeze as well is left to chance.
    pub(super) fn open_against_flow(&mut self, code: u64, kind: Kind) -> Vec<u64> {
        self.open_answered(code, kind, |answer| answer == Answer::Refused(9))
    }

    /// An open or a map that would get such an answer if there were no freeze; after a few tries, any.
    fn open_answered(&mut self, code: u64, kind: Kind, fits: impl Fn(Answer) -> bool) -> Vec<u64> {
        let mut lifted = self.picture.clone();
        let _ = lifted.call(16, filled(&[NO_FREEZE]));
        let mut numbers = Vec::new();
        for _ in 0..6 {
            numbers = self.one_open(Some(kind));
            if fits(lifted.clone().call(code, filled(&numbers))) {
                break;
            }
        }
        numbers
    }

    /// The numbers of an open of such an object.
    fn one_open(&mut self, kind: Option<Kind>) -> Vec<u64> {
        let s = self.live_subject();
        let o = self.live_object(kind);
        let mut p = self.free_place(s);
        if self.random.once_in(25) {
            p = self.random.below(LIMITS.places);
        }
        vec![s, o, p]
    }
}
