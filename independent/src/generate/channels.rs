//! Print stations: steps that are connected two by two, talk both ways, and give their ends up one after the
//! other; and connects that are refused (RULES C17, R16).

use super::Draft;
use crate::tables::LIMITS;

/// The numbers of a connect: two steps, two pipes, two places.
#[derive(Clone, Copy)]
struct Channel {
    s: u64,
    t: u64,
    a: u64,
    b: u64,
    p: u64,
    q: u64,
}

impl Channel {
    fn numbers(self) -> [u64; 6] {
        [self.s, self.t, self.a, self.b, self.p, self.q]
    }

    /// Who holds an end, and where.
    fn ends(self) -> [(u64, u64); 4] {
        [(self.s, self.q), (self.t, self.p), (self.t, self.q), (self.s, self.p)]
    }
}

impl Draft {
    /// Two steps are connected, and then talk; or the connect is refused, and they go on without.
    pub(super) fn channel(&mut self) {
        let odd = std::mem::replace(&mut self.odd_numbers, 0);
        let known = if self.random.once_in(2) { self.live_subject() } else { self.new_step() };
        let new = self.new_step();
        let (s, t) = if self.random.once_in(2) { (known, new) } else { (new, known) };
        let channel = self.channel_between(s, t);
        if self.random.once_in(2) {
            self.refused_channel(channel);
        } else {
            self.record(17, &channel.numbers());
            for _ in 0..self.random.between(2, 7) {
                self.channel_turn(channel);
            }
        }
        self.odd_numbers = odd;
    }

    /// Numbers that fit, as long as there are such.
    fn channel_between(&mut self, s: u64, t: u64) -> Channel {
        let mut objects = self.free_objects();
        self.random.shuffle(&mut objects);
        let mut places = self.common_places(s, t);
        self.random.shuffle(&mut places);
        let number = |numbers: &[u64], index: usize| numbers.get(index).copied().unwrap_or(0);
        Channel {
            s,
            t,
            a: number(&objects, 0),
            b: number(&objects, 1),
            p: number(&places, 0),
            q: number(&places, 1),
        }
    }

    /// The numbers of a connect that fits, as far as there are such.
    pub(super) fn fitting_channel(&mut self, s: u64, t: u64) -> [u64; 6] {
        self.channel_between(s, t).numbers()
    }

    /// A few of the free numbers, low ones as a rule, so that they are used again.
    fn free_objects(&mut self) -> Vec<u64> {
        let mut free = self.free_numbers();
        if !self.random.once_in(4) {
            free.truncate(4);
        }
        free
    }

    /// The places that are empty at both steps.
    fn common_places(&self, s: u64, t: u64) -> Vec<u64> {
        let tables = self.picture.tables();
        let is_empty = |&p: &u64| tables.handle(s, p).is_none() && tables.handle(t, p).is_none();
        (0..LIMITS.places).filter(is_empty).collect()
    }

    /// The numbers of any connect: those of one that fits, and now and then one or two of them changed.
    pub(super) fn connect_numbers(&mut self) -> Vec<u64> {
        let s = self.live_subject();
        let others = self.picture.tables().live_subjects().filter(|&other| other != s);
        let others: Vec<u64> = others.collect();
        let t = self.random.pick(&others).unwrap_or(s);
        let t = self.maybe_odd(t, LIMITS.subjects);
        let mut channel = self.channel_between(s, t);
        while self.random.once_in(3) {
            self.spoil(&mut channel);
        }
        let Channel { a, b, p, q, .. } = channel;
        channel.a = self.maybe_odd_object(a);
        channel.b = self.maybe_odd_object(b);
        channel.p = self.maybe_odd(p, LIMITS.places);
        channel.q = self.maybe_odd(q, LIMITS.places);
        channel.numbers().to_vec()
    }

    /// Changes a number into one that may not fit.
    fn spoil(&mut self, channel: &mut Channel) {
        let Channel { s, t, a, p, .. } = *channel;
        match self.random.below(13) {
            0 => (channel.t, channel.b) = (s, a),
            1 => channel.t = s,
            2 | 3 => {
                // Two times the same, and not there.
                let missing = self.free_subject();
                (channel.s, channel.t) = (missing, missing);
            }
            4 => channel.t = self.free_subject(),
            5 | 6 => channel.b = a,
            7 => channel.a = self.live_object(None),
            8 => channel.b = self.live_object(None),
            9 => channel.q = p,
            10 => channel.p = self.taken_place(s),
            11 => channel.q = self.taken_place(t),
            _ => channel.q = LIMITS.places,
        }
    }

    /// A place of the step that is in use, or else one beyond the last.
    fn taken_place(&mut self, s: u64) -> u64 {
        let taken: Vec<u64> = self.picture.tables().handles_of(s).map(|(p, _)| p).collect();
        self.random.pick(&taken).unwrap_or(LIMITS.places)
    }

    /// A connect whose flow offends, one way or the other; with numbers that fit and with others. Nothing is
    /// left of it.
    fn refused_channel(&mut self, channel: Channel) {
        let Channel { s, t, a, b, p, q } = channel;
        let (from, to) = (self.level_of(s), self.level_of(t));
        let (high, low) = if from > to || from == to && self.random.once_in(2) { (s, t) } else { (t, s) };
        let places = self.common_places(s, t);
        let mut places: Vec<u64> = places.into_iter().filter(|&place| place != p && place != q).collect();
        self.random.shuffle(&mut places);
        let [place, other, ..] = places[..] else {
            return;
        };
        let book = self.file_at(self.level_of(high));
        self.record(6, &[high, book, place]);
        if from == to || self.random.once_in(3) {
            let sheet = self.file_at(self.levels[0]);
            self.record(5, &[low, sheet, other]);
        }
        let mut tried = channel;
        match self.random.below(6) {
            0 => self.spoil(&mut tried),
            1 => tried.p = place,
            2 => tried.q = place,
            _ => {}
        }
        self.record(17, &tried.numbers());
        match self.random.below(4) {
            0 => self.register(a, self.levels[0]),
            1 => self.record(3, &[low, b]),
            2 => self.record(4, &[s, a, p, q]),
            _ => {
                // Without the handle that was in the way.
                self.record(11, &[high, place]);
                self.record(17, &channel.numbers());
            }
        }
    }

    fn channel_turn(&mut self, channel: Channel) {
        let Channel { s, t, a, b, p, q } = channel;
        let (one, other) = if self.random.once_in(2) { (s, t) } else { (t, s) };
        match self.random.below(16) {
            0..=3 => {
                self.record(8, &[one, q]);
                self.record(7, &[other, p]);
            }
            4 | 5 => self.close_ends(channel),
            6 => self.give_number_again(channel),
            7 => {
                // One end alone, or both of a step's by its exit.
                let (holder, place) = self.random.pick(&channel.ends()).unwrap_or((s, p));
                let exits = self.random.once_in(3);
                let (code, numbers) = if exits { (12, vec![holder]) } else { (11, vec![holder, place]) };
                self.record(code, &numbers);
            }
            8 => self.record(17, &channel.numbers()),
            9 => {
                // The same places with other pipes, or other places with the same pipes.
                let again = self.channel_between(s, t);
                let mixed = if self.random.once_in(2) {
                    Channel { p, q, ..again }
                } else {
                    Channel { a, b, ..again }
                };
                self.record(17, &mixed.numbers());
            }
            10 => {
                let c = self.free_subject();
                self.record(9, &[one, c]);
                self.record(8, &[c, q]);
                self.record(7, &[c, p]);
            }
            11 => {
                if self.random.once_in(2) {
                    let place = if self.random.once_in(2) { p } else { q };
                    self.record(15, &[one, place]);
                }
                let program = self.file_at(self.level_of(one));
                self.record(10, &[one, program]);
                self.record(7, &[one, p]);
                self.record(8, &[one, q]);
            }
            12 | 13 => {
                // What one end reads or writes concerns the other.
                let level = self.level();
                let (file, place) = (self.file_at(level), self.free_place(one));
                let code = self.random.between(5, 6);
                self.record(code, &[one, file, place]);
            }
            14 => {
                let third = self.new_step();
                let next = self.channel_between(one, third);
                self.record(17, &next.numbers());
            }
            _ => self.any_call(),
        }
    }

    /// All four ends are closed, in any order; the numbers are asked for in between and after it.
    fn close_ends(&mut self, channel: Channel) {
        let mut ends = channel.ends();
        self.random.shuffle(&mut ends);
        for (holder, place) in ends {
            self.record(11, &[holder, place]);
            if self.random.once_in(4) {
                self.give_number_again(channel);
            }
        }
        self.give_number_again(channel);
    }

    fn give_number_again(&mut self, Channel { a, b, .. }: Channel) {
        let o = if self.random.once_in(2) { a } else { b };
        let level = self.level();
        self.register(o, level);
    }
}
