//! Where labels come from: each thing of a run, when it was there, and which records set its level or took a shop mark of
//! it, with the thing that each took it from. All labels are asked of the proved monitor; which thing one was taken from is
//! worked out here.

use std::collections::{BTreeMap, BTreeSet};

use crate::run::{Content, Step};
use crate::things::{is_pipe, label, objects, Thing, STEPS};
use gatekeeper::{Call, Label, State as Monitor};
use gk_names::Kind;

/// What of a label is asked after.
#[derive(Clone, Copy, Debug, PartialEq, Eq)]
pub enum Part {
    Level,
    /// The mark of a shop group, which is there or missing.
    Shop(u64),
}

impl Part {
    fn of(self, label: Label) -> u8 {
        match self {
            Part::Level => label.level,
            Part::Shop(group) => label.shops >> group & 1,
        }
    }
}

/// A thing, for as long as it has its number: under a number that is used again stands another one.
#[derive(Clone, Debug, PartialEq, Eq)]
pub struct Stay {
    pub kind: Kind,
    pub number: u64,
    /// The record that made it.
    pub from: u64,
    /// The record with which it went.
    pub until: Option<u64>,
    /// The record with which the thing before it under this number went; 0 where there was none.
    pub before: u64,
    /// The records that set its label: the one that made it, and those at which it fell.
    pub marks: Vec<Mark>,
}

/// A record that set the label of a thing.
#[derive(Clone, Copy, Debug, PartialEq, Eq)]
pub struct Mark {
    pub record: u64,
    pub label: Label,
    /// The thing that it took the label from, by its place in the list; none where it came from outside.
    source: Option<usize>,
    /// The mate that has read, by its place in the list, where the step itself has not.
    pub mate: Option<usize>,
}

/// A link of a chain: a thing, by its place in the list, and the record that gave it what is asked after.
#[derive(Clone, Copy, Debug, PartialEq, Eq)]
pub struct Link {
    pub stay: usize,
    pub record: u64,
}

/// Every thing of a run.
#[derive(Clone, Debug, Default)]
pub struct Trail {
    pub stays: Vec<Stay>,
    /// How many records there were.
    pub records: u64,
    /// The last thing under each number: the one that is there, where one is.
    last: BTreeMap<Thing, usize>,
}

impl Stay {
    pub fn thing(&self) -> Thing {
        match self.kind {
            Kind::Step => Thing::Step(self.number),
            Kind::File | Kind::Pipe | Kind::Shop => Thing::Object(self.number),
        }
    }

    /// Whether it is there after a record.
    pub fn is_at(&self, record: u64) -> bool {
        self.from <= record && self.until.is_none_or(|until| record < until)
    }

    /// The label that it has after a record.
    pub fn label(&self, record: u64) -> Label {
        let last = self.marks.iter().rev().find(|mark| mark.record <= record);
        last.map_or(Label::LEAST, |mark| mark.label)
    }

    /// What set a part of the label that it has after a record.
    pub fn mark(&self, record: u64, part: Part) -> Option<Mark> {
        let now = part.of(self.label(record));
        let until = self.marks.iter().rev().skip_while(|mark| mark.record > record);
        until.take_while(|mark| part.of(mark.label) == now).last().copied()
    }
}

impl Trail {
    /// Takes note of a record.
    pub fn follow(&mut self, step: &Step) {
        self.records = step.position;
        let (Content::Call(call), None) = (step.content, step.refusal()) else {
            return;
        };
        let objects = objects(&step.before).chain(objects(&step.after)).map(Thing::Object);
        let things: BTreeSet<Thing> = (0..STEPS).map(Thing::Step).chain(objects).collect();
        let labels = |thing: Thing| (label(&step.before, thing), label(&step.after, thing));
        let changed: Vec<Thing> =
            things.into_iter().filter(|&thing| labels(thing).0 != labels(thing).1).collect();
        // All that is taken is there before the record; so the sources are found first.
        let sources: Vec<Option<usize>> = changed
            .iter()
            .map(|&thing| source(thing, call, &step.before).and_then(|from| self.last.get(&from).copied()))
            .collect();
        for (thing, source) in changed.into_iter().zip(sources) {
            match (labels(thing), self.last.get(&thing).copied()) {
                ((None, Some(label)), _) => {
                    let mark = Mark { record: step.position, label, source, mate: None };
                    self.arrive(thing, mark, &step.after);
                }
                ((_, Some(label)), Some(stay)) => {
                    let mate =
                        reader(call).filter(|&reader| matches!(thing, Thing::Step(_)) && reader != thing);
                    let mate = mate.and_then(|mate| self.last.get(&mate).copied());
                    self.stays[stay].marks.push(Mark { record: step.position, label, source, mate });
                }
                (_, Some(stay)) => self.stays[stay].until = Some(step.position),
                (_, None) => {}
            }
        }
    }

    fn arrive(&mut self, thing: Thing, mark: Mark, after: &Monitor) {
        let (kind, number) = match thing {
            Thing::Step(s) => (Kind::Step, s),
            Thing::Object(o) if is_pipe(after, o) => (Kind::Pipe, o),
            Thing::Object(o) => (Kind::File, o),
        };
        let place = self.stays.len();
        let last = self.last.insert(thing, place);
        let before = last.and_then(|last| self.stays[last].until).unwrap_or(0);
        let (from, until, marks) = (mark.record, None, vec![mark]);
        self.stays.push(Stay { kind, number, from, until, before, marks });
    }

    /// How a thing came to a part of the label that it has after a record, from the first link on; none where it is not
    /// there then. The first link is a file, or a step that was admitted: with them a label comes in.
    pub fn chain(&self, stay: usize, record: u64, part: Part) -> Vec<Link> {
        let mut chain: Vec<Link> = Vec::new();
        let mut next = Some((stay, record)).filter(|_| self.stays[stay].is_at(record));
        while let Some((stay, record)) = next {
            let Some(mark) = self.stays[stay].mark(record, part) else {
                break;
            };
            // A file has its label for good. Only where it is the file itself that is asked for goes the chain on.
            let is_end = self.stays[stay].kind == Kind::File && !chain.is_empty();
            chain.push(Link { stay, record: mark.record });
            // What the source had just before the record.
            next = mark.source.map(|source| (source, mark.record - 1)).filter(|_| !is_end);
        }
        chain.reverse();
        chain
    }
}

/// RULES C114: the step that reads by a call, with which its mates fall.
fn reader(call: Call) -> Option<Thing> {
    match call {
        Call::Read { subject, .. } | Call::Map { subject, .. } => Some(Thing::Step(subject)),
        _ => None,
    }
}

/// From where a thing takes the label that a call gives it; none where the label comes from outside.
fn source(thing: Thing, call: Call, before: &Monitor) -> Option<Thing> {
    let (step, object) = (Thing::Step, Thing::Object);
    match call {
        Call::Create { subject, .. }
        | Call::Pipe { subject, .. }
        | Call::Fork { subject, .. }
        | Call::Thread { subject, .. } => Some(step(subject)),
        Call::Connect { subject, to, .. } if thing == object(to) => Some(step(subject)),
        Call::Connect { peer, .. } => Some(step(peer)),
        Call::Read { subject, place } => before.handle(subject, place).map(|handle| object(handle.object)),
        Call::Write { subject, place } => {
            let written = object(before.handle(subject, place)?.object);
            // RULES C111: who has a file mapped reads it after each write to it.
            Some(if thing == written { step(subject) } else { written })
        }
        Call::Exec { object: o, .. } | Call::Map { object: o, .. } => Some(object(o)),
        _ => None,
    }
}

#[cfg(test)]
mod tests {
    use super::*;

    /// RULES C111. No journal has a reader that falls so, but a host's tables could.
    #[test]
    fn who_has_a_file_mapped_takes_its_level_from_the_file() {
        let mut monitor = Monitor::new();
        for call in [
            Call::Register { object: 1, level: 3, shops: 255 },
            Call::Admit { subject: 0, level: 9, shops: 255 },
            Call::Admit { subject: 4, level: 9, shops: 255 },
            Call::Map { subject: 0, object: 1, place: 0 },
            Call::OpenWrite { subject: 4, object: 1, place: 2 },
        ] {
            assert!(monitor.call(call).granted().is_ok(), "{call:?}");
        }
        let write = Call::Write { subject: 4, place: 2 };
        assert_eq!(source(Thing::Step(0), write, &monitor), Some(Thing::Object(1)));
        assert_eq!(source(Thing::Object(1), write, &monitor), Some(Thing::Step(4)));
        assert_eq!(source(Thing::Object(1), Call::Write { subject: 4, place: 3 }, &monitor), None);
    }
}
