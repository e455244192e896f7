//! Whole arrangements: a shell with its steps, chains and rings of pipes, full tables.

use super::Draft;
use crate::needs::{Needs, Thing};
use crate::tables::{Kind, LIMITS, NO_FREEZE};

impl Draft {
    /// A few subjects, files and pipes, so that most later faults are on purpose.
    pub(super) fn starting_things(&mut self) {
        let odd = std::mem::replace(&mut self.odd_numbers, 0);
        for _ in 0..self.random.between(1, 6) {
            let numbers = self.numbers_for(1);
            self.record(1, &numbers);
            let numbers = self.numbers_for(2);
            self.record(2, &numbers);
        }
        for _ in 0..self.random.between(0, 10) {
            let code = self.random.between(4, 6);
            let numbers = self.numbers_for(code);
            self.record(code, &numbers);
        }
        self.odd_numbers = odd;
    }

    /// A shell that makes pipes, forks steps, and closes the ends that it does not use.
    pub(super) fn pipeline(&mut self, calls: u32) {
        let shell = self.free_subject();
        let top = self.levels.last().copied().unwrap_or(15);
        self.admit(shell, top);
        for _ in 0..self.random.between(2, 6) {
            let numbers = self.numbers_for(2);
            self.record(2, &numbers);
        }
        let mut upstream: Option<u64> = None;
        for _ in 0..self.random.between(2, 9) {
            if self.records >= calls {
                return;
            }
            let pipe = self.free_object();
            let (r, w) = (self.free_place(shell), self.free_place(shell));
            self.record(4, &[shell, pipe, r, w]);
            let step = self.free_subject();
            self.record(9, &[shell, step]);
            // The step writes to the new pipe and reads from the one before.
            if !self.random.once_in(6) {
                self.record(11, &[step, r]);
            }
            if !self.random.once_in(6) {
                self.record(11, &[shell, w]);
            }
            if let Some(before) = upstream {
                self.record(11, &[shell, before]);
            }
            upstream = Some(r);
            if self.random.once_in(2) {
                let file = self.live_object(Some(Kind::File));
                self.record(10, &[step, file]);
            }
            if self.random.once_in(2) {
                let file = self.live_object(Some(Kind::File));
                let p = self.free_place(step);
                let code = self.random.between(5, 6);
                self.record(code, &[step, file, p]);
            }
        }
    }

    /// Subjects joined by pipes one after the other, in rising, falling or any order of their numbers;
    /// every second time the last one writes to the first.
    pub(super) fn ring(&mut self) {
        let length = match self.random.below(4) {
            0 => self.random.between(2, 5),
            1 => LIMITS.subjects,
            _ => self.random.between(6, 32),
        };
        let mut members: Vec<u64> = (0..LIMITS.subjects).collect();
        self.random.shuffle(&mut members);
        members.truncate(length as usize);
        match self.random.below(4) {
            0 | 1 => members.sort_unstable(),
            2 => members.sort_unstable_by(|one, other| other.cmp(one)),
            _ => {}
        }
        let top = self.levels.last().copied().unwrap_or(15);
        let low = self.levels.first().copied().unwrap_or(0);
        let mut objects = self.store.clone();
        objects.truncate(LIMITS.objects as usize);
        self.random.shuffle(&mut objects);
        for (&file, level) in objects.iter().zip([top, top, low, low]) {
            self.register(file, level);
        }
        let low_members = if self.random.once_in(2) { 12 } else { 0 };
        for &s in &members {
            let level = if self.random.once_in(low_members) { low } else { top };
            self.admit(s, level);
        }
        let closed = self.random.once_in(2);
        let last = members.len() - 1;
        for (index, &s) in members.iter().enumerate() {
            if index == last && !closed {
                break;
            }
            let next = members[(index + 1) % members.len()];
            let pipe = objects[4 + index];
            // Two free places of a member, which has one handle so far: no link is missing.
            let tables = self.picture.tables();
            let mut free: Vec<u64> =
                (0..LIMITS.places).filter(|&p| tables.handle(s, p).is_none()).collect();
            self.random.shuffle(&mut free);
            let (r, w) = (free[0], free[1]);
            self.record(4, &[s, pipe, r, w]);
            let p = self.free_place(next);
            self.record(5, &[next, pipe, p]);
            self.record(11, &[s, r]);
        }
        // A high file at one end, a low one at the other.
        let (first, end) = (members[0], members[last]);
        let p = self.free_place(end);
        self.record(6, &[end, objects[0], p]);
        let p = self.free_place(first);
        self.record(5, &[first, objects[2], p]);
    }

    /// A turn in a ring: a high file opened for writing or a low one for reading somewhere, a link closed,
    /// a low file run.
    pub(super) fn ring_turn(&mut self) {
        let needs = Needs::of_tables(self.picture.tables());
        let s = self.live_subject();
        let need = needs.of(Thing::Subject(s));
        let tables = self.picture.tables();
        let files: Vec<(u64, bool)> = tables
            .live_objects()
            .filter_map(|o| Some((o, tables.object(o)?)))
            .filter(|(_, object)| object.kind == Kind::File)
            .map(|(o, object)| (o, object.label().is_at_least(need)))
            .collect();
        let above: Vec<u64> = files.iter().filter(|file| file.1).map(|file| file.0).collect();
        let below: Vec<u64> = files.iter().filter(|file| !file.1).map(|file| file.0).collect();
        let p = self.free_place(s);
        let choice = self.random.below(6);
        let from = if choice < 3 { &above } else { &below };
        let o = self.random.pick(from).unwrap_or(0);
        match choice {
            0 => self.record(6, &[s, o, p]),
            1 | 3 => self.record(5, &[s, o, p]),
            2 | 4 => self.record(10, &[s, o]),
            _ => {
                let (s, p) = self.held_place(None);
                self.record(11, &[s, p]);
            }
        }
    }

    /// The books are closed: files, new ones too, and pipes are opened all the same, also where that would offend the
    /// flow rule, what is held is written to, the freeze is replaced; then they are opened again, as a rule.
    pub(super) fn closed_books(&mut self) {
        let numbers = self.numbers_for(16);
        self.record(16, &numbers);
        for _ in 0..self.random.between(2, 13) {
            let (code, numbers) = match self.random.below(16) {
                0..=2 => (6, self.open_but_for_freeze(6, Kind::File)),
                3 => (6, self.open_but_for_freeze(6, Kind::Pipe)),
                4 => (5, self.open_but_for_freeze(5, Kind::File)),
                5 => (8, self.numbers_for(8)),
                6 => (16, self.numbers_for(16)),
                7 => {
                    let made = self.numbers_for(3);
                    self.record(3, &made);
                    (6, vec![made[0], made[1], self.free_place(made[0])])
                }
                8 | 9 => {
                    let mut numbers = self.open_against_flow(6, Kind::File);
                    // Now and then the place does not fit either.
                    if self.random.once_in(8) {
                        numbers[2] = LIMITS.places;
                    }
                    (6, numbers)
                }
                10 | 14 => (6, self.open_against_flow(6, Kind::Pipe)),
                11 | 12 => {
                    let code = self.random.pick(&[5, 14, 14]).unwrap_or(5);
                    (code, self.open_against_flow(code, Kind::File))
                }
                13 => {
                    let code = self.random.pick(&[10, 10, 17, 17, 18]).unwrap_or(10);
                    (code, self.numbers_for(code))
                }
                _ => {
                    self.any_call();
                    continue;
                }
            };
            if self.random.once_in(20) {
                self.record_with_one_more(code, &numbers);
            } else {
                self.record(code, &numbers);
            }
        }
        if !self.random.once_in(4) {
            self.record(16, &[NO_FREEZE]);
        }
    }

    /// Every subject, every object and every place in use, or nearly.
    pub(super) fn full_tables(&mut self) {
        let odd = std::mem::replace(&mut self.odd_numbers, 0);
        let top = self.levels.last().copied().unwrap_or(15);
        let first = self.random.below(LIMITS.subjects);
        self.admit(first, top);
        // Places of the first subject: pipes, and files at its level.
        let pipes = self.random.between(0, 7);
        for _ in 0..pipes {
            let numbers = self.numbers_for(4);
            let (o, r, w) = (numbers[1], numbers[2], numbers[3]);
            self.record(4, &[first, o, r, w]);
        }
        for o in self.free_numbers().into_iter().take(self.space() as usize) {
            let level = if self.random.once_in(3) { self.level() } else { top };
            self.register(o, level);
        }
        self.fill_places(first);
        // Now and then every second subject is a thread, which opens for itself.
        let threads = self.random.once_in(4);
        for c in (0..LIMITS.subjects).filter(|&c| c != first) {
            if threads && self.random.once_in(2) {
                self.record(18, &[first, c]);
                self.fill_places(c);
            } else {
                self.record(9, &[first, c]);
            }
        }
        // One more of each, with numbers in use and with others.
        self.admit(self.levels.len() as u64, top);
        self.record(9, &[first, LIMITS.subjects]);
        let (more, in_use) = (self.free_object(), self.live_object(None));
        self.register(more, top);
        self.record(4, &[first, in_use, 0, 1]);
        self.odd_numbers = odd;
    }

    /// An open at each empty place of a subject.
    fn fill_places(&mut self, s: u64) {
        for p in 0..LIMITS.places {
            if self.picture.tables().handle(s, p).is_none() {
                let code = self.random.between(5, 6);
                let o = self.live_object(None);
                self.record(code, &[s, o, p]);
            }
        }
    }
}
