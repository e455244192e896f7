//! Crowds: as many objects as may be live, or nearly; calls for one more, with other faults beside it; and space that
//! is made by a retire or by the end of a pipe, and used again (RULES R3, R17).

use super::Draft;
use crate::labels::Label;
use crate::tables::{Kind, LIMITS};

/// Two steps: the first has a book of its own level open for writing, where the second is lower.
#[derive(Clone, Copy)]
struct Crowd {
    s: u64,
    t: u64,
}

impl Draft {
    /// Fills the tables with objects, up to the last but two or fewer; then calls for more, and for fewer.
    pub(super) fn crowded_tables(&mut self, calls: u32) {
        let odd = std::mem::replace(&mut self.odd_numbers, 0);
        let crowd = self.crowd();
        let short = self.random.below(4);
        while self.space() > short && self.records < 2 * calls {
            self.one_more(crowd);
        }
        for _ in 0..self.random.between(10, 40) {
            self.crowd_turn(crowd);
        }
        self.odd_numbers = odd;
    }

    /// How many more objects may be live.
    pub(super) fn space(&self) -> u64 {
        LIMITS.objects.saturating_sub(self.picture.tables().object_count())
    }

    fn crowd(&mut self) -> Crowd {
        let (top, low) = (self.levels[self.levels.len() - 1], self.levels[0]);
        let s = self.free_subject();
        self.admit(s, top);
        let t = self.free_subject();
        self.admit(t, low);
        if self.random.once_in(2) {
            let book = self.file_at(top);
            let p = self.free_place(s);
            self.record(6, &[s, book, p]);
        }
        Crowd { s, t }
    }

    /// One object more, most often a file, with a number that fits.
    fn one_more(&mut self, crowd: Crowd) {
        let code = self.random.pick(&[2, 2, 2, 2, 2, 3, 3, 4]).unwrap_or(2);
        let numbers = self.new_object(crowd, code);
        self.record(code, &numbers);
    }

    /// The numbers of a call that makes an object or two, which fit but for the space.
    fn new_object(&mut self, Crowd { s, t }: Crowd, code: u64) -> Vec<u64> {
        let caller = if self.random.once_in(2) { s } else { t };
        match code {
            2 => vec![self.free_object(), self.level(), self.fit_set()],
            3 => vec![caller, self.free_object()],
            4 => self.pipe_of(caller),
            _ => {
                let (s, t) = if self.random.once_in(2) { (s, t) } else { (t, s) };
                self.fitting_channel(s, t).to_vec()
            }
        }
    }

    /// The numbers of a pipe that fits, as far as there are such.
    pub(super) fn pipe_of(&mut self, s: u64) -> Vec<u64> {
        let o = self.free_object();
        let tables = self.picture.tables();
        let mut free: Vec<u64> = (0..LIMITS.places).filter(|&p| tables.handle(s, p).is_none()).collect();
        self.random.shuffle(&mut free);
        let place = |index: usize| free.get(index).copied().unwrap_or(0);
        vec![s, o, place(0), place(1)]
    }

    fn crowd_turn(&mut self, crowd: Crowd) {
        match self.random.below(12) {
            0..=3 => self.ask_for_more(crowd),
            4 | 5 => self.ask_for_too_much(crowd),
            6 => self.ask_with_one_more(crowd),
            7 | 8 => self.make_space(crowd),
            9 => self.use_the_crowd(crowd),
            10 if self.space() > 2 => self.one_more(crowd),
            _ => self.any_call(),
        }
    }

    fn ask_for_more(&mut self, crowd: Crowd) {
        let code = self.random.pick(&[2, 3, 4, 17, 17]).unwrap_or(2);
        let numbers = self.new_object(crowd, code);
        self.record(code, &numbers);
    }

    /// A call for an object, which has another fault: a number in use, a level that is too high, a place that does not
    /// fit, a subject that is not there, one subject twice.
    fn ask_for_too_much(&mut self, crowd: Crowd) {
        let code = self.random.pick(&[2, 3, 4, 17, 17]).unwrap_or(2);
        let mut numbers = self.new_object(crowd, code);
        let in_use = self.live_object(None);
        let missing = self.free_subject();
        let faults: &[(usize, u64)] = match code {
            2 => &[(0, in_use), (1, LIMITS.levels), (1, 1 << 32), (2, LIMITS.sets)],
            3 => &[(0, missing), (1, in_use)],
            4 => &[(0, missing), (1, in_use), (2, LIMITS.places), (3, numbers[2])],
            _ => &[
                (0, missing),
                (1, missing),
                (1, numbers[0]),
                (2, in_use),
                (3, in_use),
                (3, numbers[2]),
                (4, LIMITS.places),
                (5, numbers[4]),
            ],
        };
        for _ in 0..self.random.between(1, 2) {
            if let Some((index, number)) = self.random.pick(faults) {
                numbers[index] = number;
            }
        }
        self.record(code, &numbers);
    }

    /// A record with a number too many: 12, whatever the space.
    fn ask_with_one_more(&mut self, crowd: Crowd) {
        let code = self.random.pick(&[2, 3, 4, 17]).unwrap_or(2);
        let numbers = self.new_object(crowd, code);
        self.record_with_one_more(code, &numbers);
    }

    /// An object goes, and then its space is used: by the same number or by another, by one object or by two.
    fn make_space(&mut self, crowd: Crowd) {
        let gone = match self.random.below(6) {
            0..=2 => self.retire_one(),
            3 => self.end_a_pipe(crowd),
            4 => self.end_by_exec(crowd),
            _ => self.end_by_exit(),
        };
        for _ in 0..self.random.between(1, 3) {
            if self.random.once_in(2) {
                self.ask_for_more(crowd);
            } else {
                let level = self.level();
                self.register(gone, level);
            }
        }
    }

    /// A file without handles is retired; its number.
    fn retire_one(&mut self) -> u64 {
        let tables = self.picture.tables();
        let is_loose = |&o: &u64| {
            tables.object(o).is_some_and(|object| object.kind == Kind::File) && !tables.is_held(o)
        };
        let loose: Vec<u64> = tables.live_objects().filter(is_loose).collect();
        let o = self.random.pick(&loose).unwrap_or(0);
        self.record(13, &[o]);
        o
    }

    /// A pipe whose handles are closed one after the other, made first where there is none; its number.
    fn end_a_pipe(&mut self, crowd: Crowd) -> u64 {
        let o = self.a_pipe(crowd);
        for (s, p) in self.holders(o) {
            self.record(11, &[s, p]);
        }
        o
    }

    /// The same, but the handles are marked, and those who have them run a program.
    fn end_by_exec(&mut self, crowd: Crowd) -> u64 {
        let o = self.a_pipe(crowd);
        let holders = self.holders(o);
        for &(s, p) in &holders {
            self.record(15, &[s, p]);
        }
        let mut runners: Vec<u64> = holders.into_iter().map(|(s, _)| s).collect();
        runners.dedup();
        for s in runners {
            let program = self.program_of(s);
            self.record(10, &[s, program]);
        }
        o
    }

    /// A step of its own makes a pipe, and takes it along; the number.
    fn end_by_exit(&mut self) -> u64 {
        let s = self.new_step();
        let numbers = self.pipe_of(s);
        self.record(4, &numbers);
        if self.space() == 0 && self.random.once_in(2) {
            let o = self.free_object();
            self.record(3, &[s, o]);
        }
        self.record(12, &[s]);
        numbers[1]
    }

    /// The highest of the files, which a step may run as a rule.
    fn program_of(&mut self, s: u64) -> u64 {
        let tables = self.picture.tables();
        let label = tables.subject(s).map_or(Label::LEAST, |subject| subject.label());
        let files = tables.live_objects().filter_map(|o| Some((o, tables.object(o)?)));
        let fit =
            files.filter(|(_, object)| object.kind == Kind::File && object.label().is_at_least(label));
        let fit: Vec<u64> = fit.map(|(o, _)| o).collect();
        self.random.pick(&fit).unwrap_or(0)
    }

    fn a_pipe(&mut self, Crowd { s, .. }: Crowd) -> u64 {
        let tables = self.picture.tables();
        let is_pipe = |&o: &u64| tables.object(o).is_some_and(|object| object.kind == Kind::Pipe);
        let pipes: Vec<u64> = tables.live_objects().filter(is_pipe).collect();
        self.random.pick(&pipes).unwrap_or_else(|| {
            let numbers = self.pipe_of(s);
            self.record(4, &numbers);
            numbers[1]
        })
    }

    fn holders(&self, o: u64) -> Vec<(u64, u64)> {
        let handles = self.picture.tables().handles();
        handles.filter(|(_, _, handle)| handle.object == o).map(|(s, p, _)| (s, p)).collect()
    }

    /// What asks for no space goes on in full tables: opens, forks, threads, maps.
    fn use_the_crowd(&mut self, Crowd { s, .. }: Crowd) {
        match self.random.below(4) {
            0 => {
                let c = self.free_subject();
                self.record(9, &[s, c]);
                self.record(12, &[c]);
            }
            3 => {
                let c = self.free_subject();
                self.record(18, &[s, c]);
                self.record(12, &[c]);
            }
            1 => {
                let (o, p) = (self.live_object(Some(Kind::Pipe)), self.free_place(s));
                self.record(5, &[s, o, p]);
                self.record(11, &[s, p]);
            }
            _ => {
                let (o, p) = (self.live_object(Some(Kind::File)), self.free_place(s));
                let code = self.random.pick(&[5, 6, 14]).unwrap_or(5);
                self.record(code, &[s, o, p]);
                self.record(11, &[s, p]);
            }
        }
    }
}
