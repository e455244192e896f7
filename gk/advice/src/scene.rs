//! A moment of a run, and what things are called at it.

use std::collections::BTreeMap;

use gatekeeper::{Call, Handle, Kind as ObjectKind, Label, State as Monitor, Way};

use crate::run::{Content, Step};
use crate::things::{label, level, objects, Thing, ALL_SHOPS, STEPS};
use gk_names::number::shown;
use gk_names::{shops, Entry, Kind, Names};

/// At which records the things of each number went, so that a name is not taken for that of the next one.
#[derive(Clone, Debug, Default)]
pub struct Lives(BTreeMap<Thing, Life>);

/// The life of a number.
#[derive(Clone, Copy, Debug, Default)]
struct Life {
    /// The record at which its last thing went; 0 where none has.
    went: u64,
    /// The record at which the thing before the present one went: a name from then or before is not its.
    before: u64,
}

impl Lives {
    /// Takes note of what a record has ended and made.
    pub fn follow(&mut self, step: &Step) {
        if step.refusal().is_some() {
            return;
        }
        let objects = objects(&step.before).chain(objects(&step.after)).map(Thing::Object);
        for thing in (0..STEPS).map(Thing::Step).chain(objects) {
            match (level(&step.before, thing).is_some(), level(&step.after, thing).is_some()) {
                (true, false) => self.0.entry(thing).or_default().went = step.position,
                (false, true) => {
                    let life = self.0.entry(thing).or_default();
                    life.before = life.went;
                }
                _ => {}
            }
        }
    }

    fn of(&self, thing: Thing) -> Life {
        self.0.get(&thing).copied().unwrap_or_default()
    }
}

/// What a later record looks back on.
#[derive(Clone, Debug, Default)]
pub struct Past {
    pub lives: Lives,
    pub closing: Option<Closing>,
}

impl Past {
    /// Takes note of a record.
    pub fn follow(&mut self, step: &Step) {
        self.lives.follow(step);
        if let (Content::Call(Call::Freeze { .. }), None) = (step.content, step.refusal()) {
            let frozen_from = step.after.frozen_from();
            self.closing = frozen_from.map(|level| Closing { level, record: step.position });
        }
    }

    /// The moment before a record, which was not followed yet.
    pub fn before<'a>(&'a self, step: &'a Step, names: &'a Names) -> Scene<'a> {
        Scene { monitor: &step.before, record: step.position, names, lives: &self.lives, unnamed: None }
    }
}

/// The freeze that is set, and the record that set it.
#[derive(Clone, Copy, Debug, PartialEq, Eq)]
pub struct Closing {
    pub level: u8,
    pub record: u64,
}

impl Closing {
    /// To follow "the books are" or "they were".
    pub fn words(self) -> String {
        format!("closed from level {} up since record {}", self.level, self.record)
    }
}

/// A moment: a monitor, the record that is looked at, and the names.
#[derive(Clone, Copy)]
pub struct Scene<'a> {
    pub monitor: &'a Monitor,
    pub record: u64,
    pub names: &'a Names,
    pub lives: &'a Lives,
    /// A file or pipe that is called "the file" or "the pipe" here, in words that are for several records at once.
    pub unnamed: Option<Thing>,
}

impl<'a> Scene<'a> {
    /// What a thing is called: its name, or its kind and number.
    pub fn thing(&self, thing: Thing) -> String {
        self.name(thing).map_or_else(|| self.number(thing), str::to_string)
    }

    /// Its name with kind and number behind it, or these alone.
    pub fn whole(&self, thing: Thing) -> String {
        match self.name(thing) {
            Some(name) if self.unnamed == Some(thing) => name.to_string(),
            Some(name) => format!("{name} ({})", self.number(thing)),
            None => self.number(thing),
        }
    }

    pub fn step(&self, s: u64) -> String {
        self.thing(Thing::Step(s))
    }

    pub fn object(&self, o: u64) -> String {
        self.thing(Thing::Object(o))
    }

    /// A thing with its label.
    pub fn labelled(&self, thing: Thing) -> String {
        match label(self.monitor, thing) {
            Some(label) => format!("{} ({})", self.thing(thing), self.label(label)),
            None => self.thing(thing),
        }
    }

    /// A label: "level 9", or "level 9, shop marks of north and east". All shop marks are not spoken of.
    pub fn label(&self, label: Label) -> String {
        format!("level {}{}", label.level, self.beside_level(label.shops, ", "))
    }

    /// The same in a sentence: "level 9", or "level 9 with the shop marks of north and east".
    pub fn level_with(&self, label: Label) -> String {
        format!("level {}{}", label.level, self.with_marks(label.shops))
    }

    /// " with the shop marks of north and east"; nothing where the set has all shop marks.
    pub fn with_marks(&self, set: u8) -> String {
        match set {
            ALL_SHOPS => String::new(),
            _ => format!(" with {}", self.marks(set)),
        }
    }

    /// A set of shop marks in a table or in brackets, without its article.
    fn beside_level(&self, set: u8, start: &str) -> String {
        match set {
            ALL_SHOPS => String::new(),
            _ => format!("{start}{}", self.marks(set).trim_start_matches("the ")),
        }
    }

    /// A set of shop marks: "the shop marks of north and east", "all shop marks", "no shop marks".
    pub fn marks(&self, set: u8) -> String {
        shops::words(set, self.names, self.record)
    }

    /// What a thing that a call is to make will be called.
    pub fn new_thing(&self, kind: Kind, number: u64) -> String {
        let plain = format!("{} {}", kind.word(), shown(number));
        self.new_name(kind, number).map_or_else(|| plain.clone(), |name| format!("{name} ({plain})"))
    }

    /// The name of a thing that a call is to make: one that was given before the last thing of that number went is not
    /// its.
    pub fn new_name(&self, kind: Kind, number: u64) -> Option<&'a str> {
        let thing = match kind {
            Kind::Step => Thing::Step(number),
            Kind::File | Kind::Pipe => Thing::Object(number),
            Kind::Shop => return None,
        };
        let entry = self.names.entry(kind, number, self.record)?;
        let is_its = level(self.monitor, thing).is_none() && entry.from > self.lives.of(thing).went;
        is_its.then_some(entry.name.as_str())
    }

    /// What a file or pipe is called that is not to be named; none where it is not there.
    pub fn name_of_kind(&self, thing: Thing) -> Option<&'static str> {
        match thing {
            Thing::Step(_) => None,
            Thing::Object(o) => self.monitor.object(o).map(|object| match object.kind {
                ObjectKind::File => "the file",
                ObjectKind::Pipe => "the pipe",
            }),
        }
    }

    /// Kind and number of a thing.
    pub fn number(&self, thing: Thing) -> String {
        match thing {
            Thing::Step(s) => format!("step {}", shown(s)),
            Thing::Object(o) => match self.monitor.object(o).map(|object| object.kind) {
                Some(ObjectKind::File) => format!("file {}", shown(o)),
                Some(ObjectKind::Pipe) => format!("pipe {}", shown(o)),
                None => format!("file or pipe {}", shown(o)),
            },
        }
    }

    /// The name of a thing.
    pub fn name(&self, thing: Thing) -> Option<&'a str> {
        if self.unnamed == Some(thing) {
            return self.name_of_kind(thing);
        }
        let entry: Option<&Entry> = match thing {
            Thing::Step(s) => self.names.entry(Kind::Step, s, self.record),
            Thing::Object(o) => match self.monitor.object(o).map(|object| object.kind) {
                Some(ObjectKind::File) => self.names.entry(Kind::File, o, self.record),
                Some(ObjectKind::Pipe) => self.names.entry(Kind::Pipe, o, self.record),
                None => {
                    let kind = self.names.object(o, self.record).map(|(kind, _)| kind);
                    kind.and_then(|kind| self.names.entry(kind, o, self.record))
                }
            },
        };
        entry.filter(|entry| entry.from > self.lives.of(thing).before).map(|entry| entry.name.as_str())
    }

    /// A place of a step, with what stands there.
    pub fn at_place(&self, s: u64, p: u64) -> String {
        let place = format!("place {}", shown(p));
        match (self.monitor.handle(s, p), self.monitor.subject(s)) {
            (Some(handle), _) => format!("{place}, its {}", self.handle(handle)),
            (None, Some(_)) => format!("{place}, where it has nothing"),
            (None, None) => place,
        }
    }

    fn handle(&self, handle: Handle) -> String {
        let marked = if handle.marked { "marked " } else { "" };
        let what = match handle.way {
            Way::Reads => "reading handle on",
            Way::Writes => "writing handle on",
            Way::Maps => "mapping of",
        };
        format!("{marked}{what} {}", self.labelled(Thing::Object(handle.object)))
    }
}

/// What a handle does, to stand before its file or pipe.
pub fn way_word(way: Way) -> &'static str {
    match way {
        Way::Reads => "reading",
        Way::Writes => "writing",
        Way::Maps => "mapping",
    }
}

/// A text as the front of a sentence: with a capital, but that a name stays as it is, an article at its front apart.
pub fn capital(text: &str) -> String {
    let is_thing = |kind: &str| {
        text.strip_prefix(kind).is_some_and(|rest| rest.starts_with(|letter: char| letter.is_ascii_digit()))
    };
    let has_article = ["the ", "a ", "an "].into_iter().any(|article| text.starts_with(article));
    if has_article || ["step ", "file ", "pipe ", "file or pipe "].into_iter().any(is_thing) {
        sentence(text)
    } else {
        text.to_string()
    }
}

/// A text with a capital at its front.
pub fn sentence(text: &str) -> String {
    let mut letters = text.chars();
    match letters.next() {
        Some(first) => first.to_uppercase().collect::<String>() + letters.as_str(),
        None => String::new(),
    }
}

/// Words in a row: "a", "a and b", "a, b and c".
pub fn listed(words: &[String], last: &str) -> String {
    match words {
        [] => String::new(),
        [one] => one.clone(),
        [first @ .., end] => format!("{} {last} {end}", first.join(", ")),
    }
}
