//! The book's contents: RULES B4, B6 to B8, B11 to B23 and B29 to B31.
//!
//! A monitor's tables with a content for each live thing. No answer looks at a content: section A does, which says what
//! contents could have come to had a refused call been let through; see `chains`.

use std::collections::BTreeMap;

use crate::calls::{Call, Numbers};
use crate::monitor::{Answer, Monitor};
use crate::needs::{live_things, Thing};
use crate::tables::Kind;

/// RULES B19: which of read, write and run it is.
#[derive(Clone, Copy, Debug, PartialEq, Eq)]
pub enum Access {
    Read,
    Write,
    Run,
}

/// RULES B19: what a handling is told.
#[derive(Clone, Copy, Debug, PartialEq, Eq)]
pub struct Taking {
    /// The content of the thing that takes in, and of the one that it takes in.
    pub own: u64,
    pub other: u64,
    /// RULES B20: the call's position in the list, from 0.
    pub position: u64,
    pub access: Access,
    pub subject: u64,
    pub object: u64,
}

/// RULES B19: any one function that gives the thing that takes in its next content.
pub type Handling<'a> = &'a dyn Fn(Taking) -> u64;

/// RULES A7: what is taken in, as it is.
pub fn copying(taking: Taking) -> u64 {
    taking.other
}

/// The tables, and a content for each live thing.
#[derive(Clone, Debug)]
pub struct Book {
    monitor: Monitor,
    contents: BTreeMap<Thing, u64>,
    position: u64,
}

impl Default for Book {
    fn default() -> Book {
        Book::new()
    }
}

impl Book {
    /// RULES B6.
    pub fn new() -> Book {
        Book::of(Monitor::new(), |_| 0)
    }

    /// A book of these tables, each live thing with the content that is given for it.
    pub fn of(monitor: Monitor, content: impl Fn(Thing) -> u64) -> Book {
        let contents = live_things(monitor.tables()).map(|thing| (thing, content(thing))).collect();
        Book { monitor, contents, position: 0 }
    }

    pub fn monitor(&self) -> &Monitor {
        &self.monitor
    }

    /// RULES B4: the content of a live thing.
    pub fn content(&self, thing: Thing) -> Option<u64> {
        self.contents.get(&thing).copied()
    }

    /// RULES B7 to B9, B20, B23: the next call of the list. `outside` is the content that it brings in, if it does.
    pub fn turn(&mut self, code: u64, numbers: Numbers, outside: u64, handling: Handling) -> Answer {
        let answer = self.monitor.call(code, numbers);
        if let (Some(call), false) = (Call::new(code, numbers), matches!(answer, Answer::Refused(_))) {
            self.carry(call, outside, handling);
        }
        self.position += 1;
        answer
    }

    /// RULES A8: the next call has its effect, whatever refuses it.
    pub fn let_through(&mut self, call: Call, handling: Handling) {
        let _ = self.monitor.let_through(call);
        self.carry(call, 0, handling);
        self.position += 1;
    }

    /// RULES B11 to B18, row by row, for a call that has had its effect on the tables.
    fn carry(&mut self, call: Call, outside: u64, handling: Handling) {
        let at =
            |book: &Book, s: u64, p: u64| book.monitor.tables().handle(s, p).map(|handle| handle.object);
        match call {
            // RULES B11, B21.
            Call::Admit { s, .. } => self.hold(Thing::Subject(s), outside),
            Call::Register { o, .. } => self.hold(Thing::Object(o), outside),
            // RULES B12.
            Call::Create { o, .. } | Call::Pipe { o, .. } => self.hold(Thing::Object(o), 0),
            Call::Connect { a, b, .. } => {
                self.hold(Thing::Object(a), 0);
                self.hold(Thing::Object(b), 0);
            }
            // RULES B13.
            Call::Read { s, p } => {
                if let Some(o) = at(self, s, p) {
                    self.take_in(s, o, Access::Read, handling);
                }
            }
            Call::Map { s, o, .. } => self.take_in(s, o, Access::Read, handling),
            // RULES B14, B29.
            Call::Write { s, p } => {
                if let Some(o) = at(self, s, p) {
                    self.give_out(s, o, handling);
                }
            }
            // RULES B15: its mates have ended.
            Call::Exec { s, o } => self.take_in(s, o, Access::Run, handling),
            // RULES B16.
            Call::Fork { s, c } | Call::Thread { s, c } => {
                self.hold(Thing::Subject(c), self.content(Thing::Subject(s)).unwrap_or(0));
            }
            // RULES B17, B18.
            Call::OpenRead { .. }
            | Call::OpenWrite { .. }
            | Call::Close { .. }
            | Call::Exit { .. }
            | Call::Retire { .. }
            | Call::Mark { .. }
            | Call::Freeze { .. } => {}
        }
        // What is not live has no content.
        let tables = self.monitor.tables();
        self.contents.retain(|&thing, _| match thing {
            Thing::Subject(s) => tables.subject(s).is_some(),
            Thing::Object(o) => tables.object(o).is_some(),
        });
    }

    fn hold(&mut self, thing: Thing, content: u64) {
        self.contents.insert(thing, content);
    }

    fn taking(&self, access: Access, s: u64, o: u64, own: Thing, other: Thing) -> Taking {
        Taking {
            own: self.content(own).unwrap_or(0),
            other: self.content(other).unwrap_or(0),
            position: self.position,
            access,
            subject: s,
            object: o,
        }
    }

    /// RULES B13, B15, B30: the subject takes the object in, and so does each of its mates, from its own content.
    fn take_in(&mut self, s: u64, o: u64, access: Access, handling: Handling) {
        let members: Vec<u64> = self.monitor.tables().members(s).collect();
        for member in members {
            let member = Thing::Subject(member);
            let taking = self.taking(access, s, o, member, Thing::Object(o));
            self.hold(member, handling(taking));
        }
    }

    /// RULES B14, B29: the object takes the subject in; where it is a file, those who have it mapped take it in then.
    fn give_out(&mut self, s: u64, o: u64, handling: Handling) {
        let taking = self.taking(Access::Write, s, o, Thing::Object(o), Thing::Subject(s));
        self.hold(Thing::Object(o), handling(taking));
        let tables = self.monitor.tables();
        if tables.object(o).is_some_and(|object| object.kind == Kind::File) {
            let mappers: Vec<u64> = tables.mappers(o).collect();
            for mapper in mappers {
                self.take_in(mapper, o, Access::Read, handling);
            }
        }
    }
}

#[cfg(test)]
mod tests {
    use super::*;
    use crate::calls::filled;

    /// What a content is made of can be read off it: the own one is shifted, and what is taken in is added.
    fn noting(taking: Taking) -> u64 {
        taking.own * 100 + taking.other
    }

    fn made(calls: &[(u64, &[u64], u64)]) -> Book {
        let mut book = Book::new();
        for &(code, numbers, outside) in calls {
            let answer = book.turn(code, filled(numbers), outside, &noting);
            assert!(!matches!(answer, Answer::Refused(_)), "{code} {numbers:?}: {answer}");
        }
        book
    }

    fn contents(book: &Book) -> Vec<(Thing, u64)> {
        book.contents.iter().map(|(&thing, &content)| (thing, content)).collect()
    }

    /// RULES B11 to B18.
    #[test]
    fn contents_go_by_the_calls() {
        use Thing::{Object, Subject};
        let start: &[(u64, &[u64], u64)] =
            &[(1, &[0, 9, 255], 5), (2, &[7, 9, 255], 6), (5, &[0, 7, 0], 0), (6, &[0, 7, 1], 0)];
        let with = |calls: &[(u64, &[u64], u64)]| contents(&made(&[start, calls].concat()));
        assert_eq!(with(&[]), [(Subject(0), 5), (Object(7), 6)]);
        assert_eq!(with(&[(7, &[0, 0], 8)]), [(Subject(0), 506), (Object(7), 6)]);
        assert_eq!(with(&[(8, &[0, 1], 8)]), [(Subject(0), 5), (Object(7), 605)]);
        assert_eq!(with(&[(10, &[0, 7], 8)]), [(Subject(0), 506), (Object(7), 6)]);
        assert_eq!(with(&[(9, &[0, 3], 8)]), [(Subject(0), 5), (Subject(3), 5), (Object(7), 6)]);
        assert_eq!(with(&[(4, &[0, 8, 2, 3], 8)]), [(Subject(0), 5), (Object(7), 6), (Object(8), 0)]);
        assert_eq!(with(&[(3, &[0, 8], 8)]), [(Subject(0), 5), (Object(7), 6), (Object(8), 0)]);
        assert_eq!(with(&[(12, &[0], 8)]), [(Object(7), 6)]);
        assert_eq!(with(&[(11, &[0, 0], 0), (11, &[0, 1], 0), (13, &[7], 8)]), [(Subject(0), 5)]);
    }

    /// RULES B29, B30, B31: a file is written that two subjects have mapped, one of them with a mate; and B15, C116.
    #[test]
    fn who_has_a_file_mapped_takes_it_in_with_all_mates() {
        use Thing::{Object, Subject};
        let calls: &[(u64, &[u64], u64)] = &[
            (2, &[7, 9, 255], 6),
            (1, &[0, 9, 255], 1),
            (1, &[2, 9, 255], 2),
            (18, &[2, 4], 0),
            (14, &[0, 7, 0], 0),
            (14, &[4, 7, 0], 0),
            (6, &[0, 7, 1], 0),
        ];
        let mut book = made(calls);
        let before = [(Subject(0), 106), (Subject(2), 206), (Subject(4), 206), (Object(7), 6)];
        assert_eq!(contents(&book), before);
        assert_eq!(book.turn(8, filled(&[0, 1]), 0, &noting), Answer::Allowed(9));
        let after = [(Subject(0), 11306), (Subject(2), 21306), (Subject(4), 21306), (Object(7), 706)];
        assert_eq!(contents(&book), after);
        assert_eq!(book.turn(10, filled(&[2, 7]), 0, &copying), Answer::Allowed(9));
        assert_eq!(contents(&book), [(Subject(0), 11306), (Subject(2), 706), (Object(7), 706)]);
    }

    /// RULES B7, B20: a refused call moves nothing but the position.
    #[test]
    fn the_handling_is_told_the_position_and_the_two_numbers() {
        let mut book = made(&[(1, &[3, 9, 255], 5), (2, &[7, 9, 255], 6), (5, &[3, 7, 0], 0)]);
        assert_eq!(book.turn(7, filled(&[3, 1]), 0, &noting), Answer::Refused(7));
        let seen = std::cell::Cell::new(None);
        let asked = |taking: Taking| {
            seen.set(Some(taking));
            0
        };
        assert_eq!(book.turn(7, filled(&[3, 0]), 0, &asked), Answer::Allowed(9));
        let told = Taking { own: 5, other: 6, position: 4, access: Access::Read, subject: 3, object: 7 };
        assert_eq!(seen.get(), Some(told));
    }
}
