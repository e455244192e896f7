//! Tax steps: threads that share memory. Each has handles of its own, and all fall together; they open what would join
//! high and low between them, fork, run programs, are connected, leave, and their numbers are used again (RULES C18,
//! C113 to C117, F22, R110).

use super::Draft;
use crate::tables::{Direction, Handle, Kind, LIMITS};

/// Two members of a group; and who made the first thread of it, and may be gone.
#[derive(Clone, Copy)]
struct Team {
    first: u64,
    one: u64,
    other: u64,
}

impl Draft {
    /// A group is made, or grows, and then its members work.
    pub(super) fn group(&mut self) {
        let odd = std::mem::replace(&mut self.odd_numbers, 0);
        let first = if self.random.once_in(3) { self.live_subject() } else { self.new_step() };
        if self.random.once_in(3) {
            self.open_something(first);
        }
        let most = if self.random.once_in(8) { 11 } else { 3 };
        for _ in 0..self.random.between(1, most) {
            let (maker, c) = (self.member(first), self.free_subject());
            self.record(18, &[maker, c]);
        }
        for _ in 0..self.random.between(2, 5) {
            self.group_turn(first);
        }
        self.odd_numbers = odd;
    }

    /// Any member of the group of a step, or the step itself where it is gone.
    fn member(&mut self, s: u64) -> u64 {
        let members: Vec<u64> = self.picture.tables().members(s).collect();
        self.random.pick(&members).unwrap_or(s)
    }

    /// Two members; where there is but one, it makes a thread first.
    fn team(&mut self, first: u64) -> Team {
        let one = self.member(first);
        let mates: Vec<u64> = self.picture.tables().mates(one).collect();
        let other = self.random.pick(&mates).unwrap_or_else(|| {
            let c = self.free_subject();
            self.record(18, &[one, c]);
            c
        });
        Team { first, one, other }
    }

    fn group_turn(&mut self, first: u64) {
        let team = self.team(first);
        match self.random.below(25) {
            0..=2 => self.join_high_and_low(team),
            3..=5 => self.fall_together(team),
            6 | 7 => self.map_one_sheet(team),
            8..=11 => self.run_by_member(team),
            12 | 13 => self.run_refused_by_member(team),
            14 | 15 => self.fork_member(team),
            16..=18 => self.leave(team),
            19 => self.connect_members(team),
            20 => self.unfit_thread(team),
            21 => self.use_same_places(team),
            22 => self.second_group(team),
            23 => self.run_beside_group(team),
            _ => self.any_call(),
        }
    }

    /// A file, or now and then a pipe, is opened by a step.
    pub(super) fn open_something(&mut self, s: u64) {
        let level = if self.random.once_in(2) { self.level() } else { self.level_of(s) };
        let o =
            if self.random.once_in(5) { self.live_object(Some(Kind::Pipe)) } else { self.file_at(level) };
        let (code, p) = (self.random.pick(&[5, 6, 6, 14]).unwrap_or(6), self.free_place(s));
        self.record(code, &[s, o, p]);
        if self.random.once_in(4) {
            self.record(15, &[s, p]);
        }
    }

    /// The level of a step, or its place in a group, is seen in what it makes.
    fn show(&mut self, s: u64) {
        match self.random.below(6) {
            0 => {
                let c = self.free_subject();
                self.record(9, &[s, c]);
                self.record(12, &[c]);
            }
            1 => {
                let c = self.free_subject();
                self.record(18, &[s, c]);
            }
            2 => {
                let held: Vec<u64> = self.picture.tables().handles_of(s).map(|(p, _)| p).collect();
                let p = self.random.pick(&held).unwrap_or(0);
                let code = self.random.pick(&[11, 15, 7]).unwrap_or(11);
                self.record(code, &[s, p]);
            }
            _ => {
                let o = self.free_object();
                self.record(3, &[s, o]);
                self.record(13, &[o]);
            }
        }
    }

    /// One has a book open for writing and the other opens a low sheet, or the other way round: 9. Without the first
    /// handle, the second is opened.
    fn join_high_and_low(&mut self, Team { one, other, .. }: Team) {
        let level = self.level_of(one);
        let (high, low) = (self.file_at(level), self.file_at(self.levels[0]));
        let (w, r) = (self.free_place(one), self.free_place(other));
        let reading = if self.random.once_in(3) { 14 } else { 5 };
        let mut opens = [(6, [one, high, w]), (reading, [other, low, r])];
        if self.random.once_in(2) {
            opens.swap(0, 1);
        }
        let [(first, begun), (second, tried)] = opens;
        self.record(first, &begun);
        self.record(second, &tried);
        if self.random.once_in(2) {
            self.record(11, &[begun[0], begun[2]]);
            self.record(second, &tried);
        }
    }

    /// One reads or maps a sheet, low as a rule, and the others have its level, too.
    fn fall_together(&mut self, Team { first, one, other }: Team) {
        let level = if self.random.once_in(3) { self.level() } else { self.levels[0] };
        let (sheet, p) = (self.file_at(level), self.free_place(one));
        if self.random.once_in(3) {
            self.record(14, &[one, sheet, p]);
        } else {
            self.record(5, &[one, sheet, p]);
            self.record(7, &[one, p]);
        }
        self.show(other);
        let third = self.member(first);
        self.show(third);
    }

    /// Two members have one sheet mapped, and it is written to: by one of them, or by another step.
    fn map_one_sheet(&mut self, Team { one, other, .. }: Team) {
        let level = self.level();
        let sheet = self.file_at(level);
        for member in [one, other] {
            let p = self.free_place(member);
            self.record(14, &[member, sheet, p]);
        }
        let writer = if self.random.once_in(2) { one } else { self.new_step() };
        let w = self.free_place(writer);
        self.record(6, &[writer, sheet, w]);
        self.record(8, &[writer, w]);
        self.show(other);
        if self.random.once_in(2) {
            self.record(12, &[one]);
            self.record(8, &[writer, w]);
        }
    }

    /// A member runs a program, low as a rule. The others have a book and a pipe open, which go with them and are not in
    /// its way; they are asked for after it, by number.
    fn run_by_member(&mut self, Team { one, other, .. }: Team) {
        let level = self.level_of(other);
        let (book, w) = (self.file_at(level), self.free_place(other));
        self.record(6, &[other, book, w]);
        let pipe = if self.random.once_in(2) { self.pipe_between(other, one) } else { book };
        if self.random.once_in(3) {
            self.record(15, &[other, w]);
        }
        if self.random.once_in(3) {
            self.open_something(one);
        }
        let level = if self.random.once_in(3) { self.level() } else { self.levels[0] };
        let program = self.file_at(level);
        self.record(10, &[one, program]);
        for _ in 0..self.random.between(1, 3) {
            match self.random.below(6) {
                0 => self.record(8, &[other, w]),
                1 => self.register(pipe, self.levels[0]),
                2 => self.record(13, &[book]),
                3 => self.show(one),
                _ => self.number_again(one, other),
            }
        }
    }

    /// A pipe of one step, of which another may have an end, too; its number.
    fn pipe_between(&mut self, s: u64, t: u64) -> u64 {
        let numbers = self.pipe_of(s);
        self.record(4, &numbers);
        if self.random.once_in(3) {
            let (code, p) = (self.random.between(5, 6), self.free_place(t));
            self.record(code, &[t, numbers[1], p]);
        }
        numbers[1]
    }

    /// An exec that is refused, for what the member itself writes to or for what it names: all go on.
    fn run_refused_by_member(&mut self, Team { one, other, .. }: Team) {
        self.open_something(other);
        let program = match self.random.below(4) {
            0 => self.live_object(Some(Kind::Pipe)),
            1 => self.free_object(),
            _ => {
                let level = self.level_of(one);
                let (book, w) = (self.file_at(level), self.free_place(one));
                self.record(6, &[one, book, w]);
                self.file_at(self.levels[0])
            }
        };
        self.record(10, &[one, program]);
        self.use_handle(other);
        if self.random.once_in(2) {
            self.fall_together(Team { first: other, one: other, other: one });
        } else {
            self.show(other);
        }
    }

    /// A handle of a step is used for what it is; where it has none, the step makes something.
    fn use_handle(&mut self, s: u64) {
        let held: Vec<(u64, Handle)> = self.picture.tables().handles_of(s).collect();
        match self.random.pick(&held) {
            Some((p, Handle { direction: Direction::Reading, .. })) => self.record(7, &[s, p]),
            Some((p, _)) => self.record(8, &[s, p]),
            None => self.show(s),
        }
    }

    /// A member forks, while another has a book open: the child has its parent's handles alone, and falls alone.
    fn fork_member(&mut self, Team { one, other, .. }: Team) {
        let level = self.level_of(other);
        let (book, w) = (self.file_at(level), self.free_place(other));
        self.record(6, &[other, book, w]);
        let c = self.free_subject();
        self.record(9, &[one, c]);
        let (low, p) = (self.file_at(self.levels[0]), self.free_place(c));
        match self.random.below(5) {
            0 => self.record(10, &[c, low]),
            1 => self.record(14, &[c, low, p]),
            2 => self.join_high_and_low(Team { first: one, one, other: c }),
            _ => {
                self.record(5, &[c, low, p]);
                self.record(7, &[c, p]);
            }
        }
        self.show(one);
        if self.random.once_in(2) {
            let thread = self.free_subject();
            self.record(18, &[c, thread]);
        }
        if self.random.once_in(2) {
            self.fall_together(Team { first: one, one, other: c });
        }
    }

    /// The first of a group, or another member, leaves; the others go on, and its number is used again.
    fn leave(&mut self, Team { first, one, other }: Team) {
        let is_there = self.picture.tables().are_mates(first, other);
        let gone = if is_there && self.random.once_in(2) { first } else { one };
        if self.random.once_in(2) {
            self.open_something(gone);
        }
        if self.random.once_in(2) {
            self.open_something(other);
        }
        self.record(12, &[gone]);
        self.show(other);
        let stays = self.member(other);
        if self.random.once_in(2) {
            self.fall_together(Team { first: other, one: stays, other });
        }
        self.number_again(stays, gone);
    }

    /// A number that is free is given to another: by an admit, a fork or a thread, of this step or of another one. What
    /// the two open then, and how they fall, shows whether they are mates.
    fn number_again(&mut self, s: u64, gone: u64) {
        let maker = if self.random.once_in(3) { self.new_step() } else { s };
        let top = self.levels.last().copied().unwrap_or(15);
        match self.random.below(5) {
            0 | 1 => self.admit(gone, top),
            2 => self.record(9, &[maker, gone]),
            _ => self.record(18, &[maker, gone]),
        }
        let team = Team { first: s, one: s, other: gone };
        let turned = Team { first: s, one: gone, other: s };
        match self.random.below(4) {
            0 => self.join_high_and_low(team),
            1 => self.join_high_and_low(turned),
            2 => self.fall_together(team),
            _ => self.fall_together(turned),
        }
    }

    /// Two members are connected, as any two steps can be, and talk.
    fn connect_members(&mut self, team: Team) {
        let Team { one, other, .. } = team;
        let numbers = self.fitting_channel(one, other);
        let (p, q) = (numbers[4], numbers[5]);
        self.record(17, &numbers);
        self.record(8, &[one, q]);
        self.record(7, &[other, p]);
        match self.random.below(3) {
            0 => self.join_high_and_low(team),
            1 => self.run_by_member(team),
            _ => self.record(11, &[one, p]),
        }
    }

    /// A thread with numbers that do not fit: its own number, one in use, one too high, a maker that is not there, or a
    /// number too many.
    fn unfit_thread(&mut self, Team { one, other, .. }: Team) {
        let (missing, c) = (self.free_subject(), self.free_subject());
        let any = self.live_subject();
        match self.random.below(8) {
            0 | 1 => self.record(18, &[one, one]),
            2 => self.record(18, &[one, other]),
            3 => self.record(18, &[one, any]),
            4 => self.record(18, &[one, LIMITS.subjects]),
            5 => self.record(18, &[missing, c]),
            6 => self.record(18, &[missing, missing]),
            _ => self.record_with_one_more(18, &[one, c]),
        }
        self.show(one);
    }

    /// Both open something at one place, or one does and the other uses that place.
    fn use_same_places(&mut self, Team { one, other, .. }: Team) {
        let p = self.free_place(one);
        let level = self.level_of(one);
        let file = self.file_at(level);
        let code = self.random.between(5, 6);
        self.record(code, &[one, file, p]);
        let used = self.random.pick(&[7, 8, 11, 15]).unwrap_or(7);
        self.record(used, &[other, p]);
        if self.random.once_in(2) {
            self.record(code, &[other, file, p]);
            self.record(11, &[one, p]);
            self.record(used, &[other, p]);
        }
    }

    /// A member runs a low program, and writes to a pipe. Who reads it is no mate, and has, or a mate of that one has, a
    /// book open: 9. Where the book is open behind a pipe that leads back to a mate, it is not in the way.
    fn run_beside_group(&mut self, Team { one, other, .. }: Team) {
        let reader = self.new_step();
        let numbers = self.pipe_of(one);
        self.record(4, &numbers);
        let p = self.free_place(reader);
        self.record(5, &[reader, numbers[1], p]);
        let holder = match self.random.below(3) {
            0 => reader,
            1 => {
                let c = self.free_subject();
                self.record(18, &[reader, c]);
                c
            }
            _ => {
                let back = self.pipe_between(reader, other);
                let p = self.free_place(other);
                self.record(5, &[other, back, p]);
                other
            }
        };
        let level = self.level_of(holder);
        let (book, p) = (self.file_at(level), self.free_place(holder));
        self.record(6, &[holder, book, p]);
        let low = self.file_at(self.levels[0]);
        self.record(10, &[one, low]);
        self.show(other);
    }

    /// Another group, whose members are no mates of these: what one group opens, the other need not ask for, unless they
    /// are connected; and each falls by itself.
    fn second_group(&mut self, Team { one, other, .. }: Team) {
        let founder = self.new_step();
        let c = self.free_subject();
        self.record(18, &[founder, c]);
        if self.random.once_in(3) {
            let numbers = self.fitting_channel(c, other);
            self.record(17, &numbers);
        }
        match self.random.below(4) {
            0 => self.join_high_and_low(Team { first: one, one, other: c }),
            1 => self.join_high_and_low(Team { first: one, one: founder, other }),
            2 => self.fall_together(Team { first: one, one: c, other }),
            _ => self.run_by_member(Team { first: founder, one: c, other: founder }),
        }
        self.show(one);
    }
}
