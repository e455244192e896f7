//! Refusals that are alike, told once: those of one step and one kind of call, with the same reason, the same chain and
//! the same ways out, but that each names another file or pipe.
//!
//! The words of each record are made with "the file" in the place of its file; what comes out equal is alike. So what
//! is said of all of them is what would be said of each, and each advice was tried at each of the records.

use std::collections::BTreeMap;

use gatekeeper::Call;

use super::Moment;
use crate::text::{paragraph, wrapped};
use gk_advice::run::Content;
use gk_advice::scene::{listed, sentence};
use gk_advice::things::Thing;

/// Refused records, those that are alike together, in the order of their first ones.
#[derive(Default)]
pub struct Alike {
    groups: Vec<Group>,
    /// For the words of a group its place in the list.
    by_words: BTreeMap<String, usize>,
}

struct Group {
    /// The first record as it is told by itself.
    alone: String,
    /// What is said of all of them.
    title: String,
    below: String,
    /// What is not named in that: "the file" or "the pipe".
    unnamed: Option<&'static str>,
    /// The records, each with what it calls the thing that is not named.
    records: Vec<(u64, String)>,
}

impl Alike {
    /// Takes a refused record in; says whether there is an advice for it that was tried.
    pub fn take(&mut self, moment: &Moment) -> bool {
        let scene = moment.before();
        let thing = sought(moment.step.content).filter(|&thing| scene.name_of_kind(thing).is_some());
        let told = match thing {
            Some(thing) => moment.told_without(thing),
            None => moment.told(),
        };
        let has_ways = told.counsel.is_tried();
        let called = thing.map_or(String::new(), |thing| scene.whole(thing));
        let (title, below) = (told.title.clone(), told.below());
        let words = format!("{title}\n{below}");
        let group = *self.by_words.entry(words).or_insert_with(|| {
            let alone = match thing {
                Some(_) => moment.told().text(),
                None => told.text(),
            };
            let unnamed = thing.and_then(|thing| scene.name_of_kind(thing));
            self.groups.push(Group { alone, title, below, unnamed, records: Vec::new() });
            self.groups.len() - 1
        });
        self.groups[group].records.push((moment.step.position, called));
        has_ways
    }

    /// All of them in sentences.
    pub fn text(&self) -> String {
        self.groups.iter().map(Group::text).collect()
    }
}

impl Group {
    fn text(&self) -> String {
        if self.records.len() == 1 {
            return self.alone.clone();
        }
        let records: Vec<String> = self.records.iter().map(|(record, _)| record.to_string()).collect();
        let mut text = paragraph("", &format!("Records {}: {}", listed(&records, "and"), self.title));
        text.extend(self.unnamed.map(|unnamed| self.called(unnamed)));
        text + &self.below
    }

    /// What each record calls the thing that is not named, on lines.
    fn called(&self, unnamed: &str) -> String {
        let start = format!("{} is", sentence(unnamed));
        let (_, first) = &self.records[0];
        if self.records.iter().all(|(_, called)| called == first) {
            return paragraph("  ", &format!("{start} {first}."));
        }
        let last = self.records.len() - 1;
        let each = self.records.iter().enumerate().map(|(index, (record, called))| {
            let end = if index == last { "." } else { "," };
            format!("at record {record} {called}{end}")
        });
        wrapped(std::iter::once(start).chain(each), "  ", "    ")
    }
}

/// The file or pipe that a call is about.
fn sought(content: Content) -> Option<Thing> {
    match content {
        Content::Call(
            Call::OpenRead { object, .. }
            | Call::OpenWrite { object, .. }
            | Call::Map { object, .. }
            | Call::Exec { object, .. }
            | Call::Retire { object },
        ) => Some(Thing::Object(object)),
        _ => None,
    }
}
