//! What refuses a call's numbers: each function gives what a number names, or the refusal.
//!
//! A call goes through them by rising refusal number, so that the smallest is given; but that 16 comes right after 2,
//! 17 right after 3, and 15 just before 9.

use crate::labels::{Label, Level, Shops, LEVELS};
use crate::tables::{slot_among, Direction, Kind, Object, Place, Slots, Subject, Tables, NO_FREEZE};

/// Why a call, a journal or a line is refused; the number is what the answer gives.
#[derive(Clone, Copy, Debug, PartialEq, Eq)]
pub enum Refusal {
    UnknownCode = 1,
    NoSubject = 2,
    NumberTaken = 3,
    NoObject = 4,
    IsPipe = 5,
    LevelTooHigh = 6,
    PlaceUnfit = 7,
    WrongDirection = 8,
    Flow = 9,
    StillOpen = 10,
    JournalBroken = 11,
    RecordBroken = 12,
    JournalTooLong = 14,
    Frozen = 15,
    SameSubject = 16,
    TooManyObjects = 17,
    LineBroken = 18,
    TooManyStages = 19,
}

/// A number as an index. Where it is too large for one, it is out of every table's range.
fn index(number: u64) -> usize {
    usize::try_from(number).unwrap_or(usize::MAX)
}

/// A handle that is held.
#[derive(Clone, Copy, Debug, PartialEq, Eq)]
pub struct Held {
    pub p: usize,
    pub o: usize,
    pub object: Object,
    pub direction: Direction,
}

impl Tables {
    /// Refusal 2: the subject that asks is live.
    pub fn subject(&self, s: u64) -> Result<Subject, Refusal> {
        self.live(index(s)).ok_or(Refusal::NoSubject)
    }

    /// Refusals 2 and 16: two subjects are live, and not the same. They may be mates.
    pub fn two_subjects(&self, s: u64, t: u64) -> Result<[Subject; 2], Refusal> {
        let subjects = [self.subject(s)?, self.subject(t)?];
        if s == t {
            return Err(Refusal::SameSubject);
        }
        Ok(subjects)
    }

    /// Refusal 3: the number of a new subject is in range and free.
    pub fn new_subject(&self, s: u64) -> Result<usize, Refusal> {
        let s = index(s);
        match self.subjects.get(s) {
            Some(None) => Ok(s),
            _ => Err(Refusal::NumberTaken),
        }
    }

    /// Refusals 3 and 17: the number of a new object is free, and so is a slot, which it gets.
    pub fn new_object(&self, o: u64) -> Result<usize, Refusal> {
        self.unused(o)?;
        slot(self.free, o)
    }

    /// Refusals 3 and 17: the numbers of two new objects are free, and not the same, and so are two slots.
    pub fn two_new_objects(&self, a: u64, b: u64) -> Result<[usize; 2], Refusal> {
        self.unused(a)?;
        self.unused(b)?;
        if a == b {
            return Err(Refusal::NumberTaken);
        }
        let first = slot(self.free, a)?;
        Ok([first, slot(self.free & !(1 << first), b)?])
    }

    /// Refusal 3: no live object has the number.
    fn unused(&self, o: u64) -> Result<(), Refusal> {
        match self.slot_of(o) {
            None => Ok(()),
            Some(_) => Err(Refusal::NumberTaken),
        }
    }

    /// Refusal 4: the object is live. It is given with its slot.
    pub fn object(&self, o: u64) -> Result<(usize, Object), Refusal> {
        let slot = self.slot_of(o).ok_or(Refusal::NoObject)?;
        self.objects[slot].map(|object| (slot, object)).ok_or(Refusal::NoObject)
    }

    /// Refusals 4 and 5: the object is live, and a file.
    pub fn file(&self, o: u64) -> Result<(usize, Object), Refusal> {
        let (o, object) = self.object(o)?;
        match object.kind {
            Kind::File => Ok((o, object)),
            Kind::Pipe => Err(Refusal::IsPipe),
        }
    }

    /// Refusal 7: the place is in range and empty.
    pub fn empty_place(&self, s: Subject, p: u64) -> Result<usize, Refusal> {
        let p = index(p);
        match self.places[s.number].get(p) {
            Some(&Place::EMPTY) => Ok(p),
            _ => Err(Refusal::PlaceUnfit),
        }
    }

    /// Refusal 7: two places are in range and empty, and not the same.
    pub fn two_empty_places(&self, s: Subject, p: u64, q: u64) -> Result<[usize; 2], Refusal> {
        let places = [self.empty_place(s, p)?, self.empty_place(s, q)?];
        if p == q {
            return Err(Refusal::PlaceUnfit);
        }
        Ok(places)
    }

    /// Refusal 7: the place is in range and holds a handle.
    pub fn held(&self, s: Subject, p: u64) -> Result<Held, Refusal> {
        let p = index(p);
        let handle = self.places[s.number].get(p).and_then(|place| place.handle());
        let (o, direction) = handle.ok_or(Refusal::PlaceUnfit)?;
        let object = self.objects[o].ok_or(Refusal::PlaceUnfit)?;
        Ok(Held { p, o, object, direction })
    }

    /// Refusals 7 and 8: the same, and the handle is for this direction.
    pub fn held_for(&self, s: Subject, p: u64, direction: Direction) -> Result<Held, Refusal> {
        let held = self.held(s, p)?;
        if held.direction == direction {
            Ok(held)
        } else {
            Err(Refusal::WrongDirection)
        }
    }

    /// Refusal 15: the object is a pipe, or a file whose level is below the freeze.
    pub fn writable(&self, object: Object) -> Result<(), Refusal> {
        if object.kind == Kind::File && object.label.level() >= self.freeze {
            Err(Refusal::Frozen)
        } else {
            Ok(())
        }
    }
}

/// Refusal 17: a slot is free; the one that a new object gets.
fn slot(free: Slots, o: u64) -> Result<usize, Refusal> {
    slot_among(free, o).ok_or(Refusal::TooManyObjects)
}

/// Refusal 6: the level and the set are in range.
pub fn label_in_range(level: u64, shops: u64) -> Result<Label, Refusal> {
    if level < LEVELS as u64 && shops <= u64::from(Shops::MAX) {
        Ok(Label::new(level as Level, shops as Shops))
    } else {
        Err(Refusal::LevelTooHigh)
    }
}

/// Refusal 6: a level to freeze from is in range, or there is none.
pub fn freeze_in_range(level: u64) -> Result<Level, Refusal> {
    if level <= u64::from(NO_FREEZE) {
        Ok(level as Level)
    } else {
        Err(Refusal::LevelTooHigh)
    }
}
