//! Why a step or pipe has its level, and lacks shop marks: since which record, because of which file, and through which
//! records.

use std::collections::BTreeMap;

use gatekeeper::Refusal;
use gk_advice::refused::answer_words;
use gk_advice::run::{Content, Step};
use gk_advice::scene::{capital, Past, Scene};
use gk_advice::trail::{Link, Part, Stay, Trail};
use gk_names::number::{of_text, shown as with_commas};
use gk_names::shops;

use crate::explain::{told, walk, Differs};
use crate::names::{Entry, Kind, Names};
use crate::text::{meant, paragraph, shown};

/// Which thing is asked for.
#[derive(Clone, Debug, PartialEq, Eq)]
pub enum Wanted {
    Number(Kind, u64),
    Name(String),
}

impl Wanted {
    /// `step 17`, or a name; none for what can be neither.
    pub fn of_text(text: &str) -> Option<Wanted> {
        let words: Vec<&str> = text.split_whitespace().collect();
        match words.as_slice() {
            [] => None,
            [one] if of_text(one).is_some() => None,
            [kind, number] => match (Kind::of_word(kind), of_text(number)) {
                (Some(kind), Some(number)) if kind != Kind::Shop => Some(Wanted::Number(kind, number)),
                _ => Some(Wanted::Name(words.join(" "))),
            },
            _ => Some(Wanted::Name(words.join(" "))),
        }
    }

    fn words(&self) -> String {
        match self {
            Wanted::Number(kind, number) => format!("{} {}", kind.word(), with_commas(*number)),
            Wanted::Name(name) => shown(name),
        }
    }

    /// The things of a run that are asked for, by their places in the list.
    fn among(&self, stays: &[Stay], names: &Names) -> Vec<usize> {
        let places = (0..).zip(stays);
        match self {
            Wanted::Number(kind, number) => {
                let is_it = |stay: &Stay| (stay.kind, stay.number) == (*kind, *number);
                places.filter(|(_, stay)| is_it(stay)).map(|(place, _)| place).collect()
            }
            Wanted::Name(name) => {
                let given: Vec<&Entry> =
                    names.entries().filter(|entry| entry.name.as_str() == name).collect();
                let is_it = |stay: &Stay| is_called(stay, &given, names);
                places.filter(|(_, stay)| is_it(stay)).map(|(place, _)| place).collect()
            }
        }
    }
}

/// Whether a thing has a name at some time; the name as it was given. One that was given before the thing before it
/// under its number went is not its.
fn is_called(stay: &Stay, given: &[&Entry], names: &Names) -> bool {
    given.iter().filter(|entry| entry.from > stay.before).any(|entry| {
        let record = entry.from.max(stay.from);
        let is_there = stay.until.is_none_or(|until| record <= until);
        is_there && names.find(entry.name.as_str(), record) == Some((stay.kind, stay.number))
    })
}

/// What is answered, and what there is to be said besides.
pub struct Answer {
    pub text: String,
    /// Where the journal breaks off (RULES R11): what comes before is answered.
    pub broken: Option<String>,
}

/// Why nothing is answered.
#[derive(Clone, Debug, PartialEq, Eq)]
pub enum Silent {
    /// RULES R14: nothing of the journal is run.
    TooLong,
    /// The journal has only so many records.
    Shorter(u64),
    /// No such thing is ever there; what to say.
    Never(String),
    /// Record by record the journal got other replies than as a whole: a fault of this program.
    Differs,
}

impl From<Differs> for Silent {
    fn from(_: Differs) -> Silent {
        Silent::Differs
    }
}

/// Why a thing has its level after a record; without one, after the last record, or the last at which it is there.
pub fn why(journal: &[u8], names: &Names, wanted: &Wanted, at: Option<u64>) -> Result<Answer, Silent> {
    let mut trail = Trail::default();
    let mut stop = None;
    walk(journal, names, |step, _| {
        stop = stop.or(stopped(step));
        trail.follow(step);
    })?;
    let broken = match stop {
        Some((_, Refusal::JournalTooLong)) => return Err(Silent::TooLong),
        Some((record, refusal)) => Some(format!("record {record}: {}", answer_words(refusal))),
        None => None,
    };
    if at.is_some_and(|at| at > trail.records) {
        return Err(Silent::Shorter(trail.records));
    }
    let found = wanted.among(&trail.stays, names);
    let Some(&last) = found.last() else {
        return Err(Silent::Never(never(wanted, &trail, names)));
    };
    // Of a thing that is gone the last record before the one with which it went.
    let at = at.unwrap_or_else(|| trail.stays[last].until.map_or(trail.records, |until| until - 1));
    let text = match found.iter().copied().find(|&place| trail.stays[place].is_at(at)) {
        Some(place) => tell(journal, names, &trail, place, at)? + &others(wanted, &trail, &found, place),
        None => absent(wanted, &trail, &found, at),
    };
    Ok(Answer { text, broken })
}

/// RULES R11, R14: the record at which a run stops.
fn stopped(step: &Step) -> Option<(u64, Refusal)> {
    match step.content {
        Content::Stop(..) | Content::TooLong => step.refusal().map(|refusal| (step.position, refusal)),
        _ => None,
    }
}

/// A part of a label, or several that came the same way: how it came, and the set of missing shop marks that it is.
struct Way {
    part: Part,
    shops: u8,
    chain: Vec<Link>,
}

/// How the level came, and how each missing shop mark did; those that came the same way together.
fn ways(trail: &Trail, place: usize, at: u64) -> Vec<Way> {
    let mut ways =
        vec![Way { part: Part::Level, shops: shops::NONE, chain: trail.chain(place, at, Part::Level) }];
    let missing = !trail.stays[place].label(at).shops;
    for group in shops::groups(missing) {
        let part = Part::Shop(group);
        let (mark, chain) = (1 << group, trail.chain(place, at, part));
        match ways[1..].iter_mut().find(|way| way.chain == chain) {
            Some(way) => way.shops |= mark,
            None => ways.push(Way { part, shops: mark, chain }),
        }
    }
    ways
}

/// The label, where it comes from, and the records that brought it here.
fn tell(journal: &[u8], names: &Names, trail: &Trail, place: usize, at: u64) -> Result<String, Differs> {
    let ways = ways(trail, place, at);
    let stay = &trail.stays[place];
    // The records of all ways, and what their things are called after them.
    let (mut called, mut records, mut mates) = (BTreeMap::new(), BTreeMap::new(), BTreeMap::new());
    walk(journal, names, |step, past| {
        for mark in stay.marks.iter().filter(|mark| mark.record == step.position) {
            if let Some(read) = mark.mate {
                mates.insert(mark.record, called_after(step, past, names, &trail.stays[read]));
            }
        }
        let is_here = |link: &&Link| link.record == step.position;
        if let Some(link) = ways.iter().find_map(|way| way.chain.iter().find(is_here)) {
            called.insert(link.stay, called_after(step, past, names, &trail.stays[link.stay]));
            records.insert(step.position, told(step, names, past).text());
        }
        if step.position == at {
            called.insert(place, called_after(step, past, names, &trail.stays[place]));
        }
    })?;
    let called = |link: &Link| called.get(&link.stay).map_or("", String::as_str);
    let mate = |record: u64| {
        let who = mates.get(&record);
        who.map_or(String::new(), |who| format!(", when {who}, a thread of the same step, read"))
    };
    let below = |way: &Way| {
        way.chain.iter().filter_map(|link| records.get(&link.record).cloned()).collect::<String>()
    };
    let (Some(first), Some(own)) = (ways[0].chain.first(), ways[0].chain.last()) else {
        return Ok(String::new());
    };

    let label = stay.label(at);
    let (with, it) = match label.shops {
        shops::ALL => (String::new(), "it"),
        set => (format!(" with {}", shops::words(set, names, at)), "the level"),
    };
    let mut text = format!(
        "After record {at}, {} has level {}{with}. It has had {it} since record {}{}",
        called(own),
        label.level,
        own.record,
        mate(own.record)
    );
    text += &match stay.marks[0] {
        start if start.record == own.record => ": that is the level it started with.".to_string(),
        start => format!("; it started with level {}, at record {}.", start.label.level, start.record),
    };
    text += &match trail.stays[first.stay].kind {
        _ if first == own => String::new(),
        Kind::Step => format!(" The level is that at which {} was admitted.", called(first)),
        _ => format!(" The level is that of {}.", called(first)),
    };
    text += &stay.until.map_or(String::new(), |until| format!(" It is there until record {until}."));
    let mut whole = paragraph("", &text) + HEADING + &below(&ways[0]);

    for way in &ways[1..] {
        let (Some(first), Some(own)) = (way.chain.first(), way.chain.last()) else {
            continue;
        };
        let them = if way.shops.count_ones() == 1 { "it" } else { "them" };
        let mut text = format!(
            "It lacks {} since record {}{}",
            shops::words(way.shops, names, at),
            own.record,
            mate(own.record)
        );
        text += &match stay.marks[0] {
            start if start.record == own.record => format!(": it started without {them}."),
            start => format!("; it started with {them}, at record {}.", start.record),
        };
        text += &match trail.stays[first.stay].kind {
            _ if first == own => String::new(),
            Kind::Step => format!(" {} was admitted without {them}.", capital(called(first))),
            _ => format!(" {} does not have {them}.", capital(called(first))),
        };
        // What stands above is not said again.
        let is_told =
            ways.iter().take_while(|other| other.part != way.part).any(|other| other.chain == way.chain);
        whole += &match is_told {
            true => paragraph("", &format!("{text} The records are those above.")),
            false => paragraph("", &text) + HEADING + &below(way),
        };
    }
    Ok(whole)
}

/// What stands over the records of a chain.
const HEADING: &str =
    "How it came there, found by gk and not proved; the answers are the proved gatekeeper's:\n";

/// What a thing is called after a record.
fn called_after(step: &Step, past: &Past, names: &Names, stay: &Stay) -> String {
    let mut lives = past.lives.clone();
    lives.follow(step);
    let (monitor, record) = (&step.after, step.position);
    Scene { monitor, record, names, lives: &lives, unnamed: None }.whole(stay.thing())
}

/// When a thing is there.
fn span(stay: &Stay) -> String {
    match stay.until {
        Some(until) => format!("from record {} to record {until}", stay.from),
        None => format!("from record {} on", stay.from),
    }
}

/// The things next to one that was told of, under the same number or name.
fn others(wanted: &Wanted, trail: &Trail, found: &[usize], place: usize) -> String {
    let stay = |place: Option<&usize>| place.map(|&place| &trail.stays[place]);
    let index = found.partition_point(|&other| other < place);
    let before = stay(found[..index].last())
        .map(|stay| format!("Another {} was there before it, {}.", wanted.words(), span(stay)));
    let after = stay(found.get(index + 1))
        .map(|stay| format!("Another {} comes after it, {}.", wanted.words(), span(stay)));
    before.into_iter().chain(after).map(|words| paragraph("", &words)).collect()
}

/// That a thing is not there after a record, and when one is.
fn absent(wanted: &Wanted, trail: &Trail, found: &[usize], at: u64) -> String {
    let mut stays = found.iter().map(|&place| &trail.stays[place]);
    let before = stays.clone().rfind(|stay| stay.from <= at).map(span);
    let after = stays.find(|stay| stay.from > at).map(span);
    let when = match (before, after) {
        (Some(before), Some(after)) => format!(" It was there {before}, and another one is there {after}."),
        (Some(before), None) => format!(" It was there {before}."),
        (None, Some(after)) => format!(" It is there {after}."),
        (None, None) => String::new(),
    };
    paragraph("", &format!("After record {at}, {} is not there.{when}", wanted.words()))
}

/// That a thing is never there, and what may have been meant.
fn never(wanted: &Wanted, trail: &Trail, names: &Names) -> String {
    let text = format!("the journal has no {}", wanted.words());
    match wanted {
        Wanted::Number(kind, number) => {
            // Files and pipes have their numbers together.
            let is_near = |stay: &&Stay| (stay.kind == Kind::Step) == (*kind == Kind::Step);
            let others = trail.stays.iter().filter(|stay| stay.number == *number);
            match others.clone().find(is_near).or(others.clone().next()) {
                Some(stay) => {
                    format!("{text}. Did you mean: {} {}", stay.kind.word(), with_commas(*number))
                }
                None => text,
            }
        }
        Wanted::Name(name) => {
            let known: Vec<&str> = names.entries().map(|entry| entry.name.as_str()).collect();
            match meant(name, &known).as_slice() {
                [] => format!("{text}. A thing without a name has its kind and number: step 17"),
                meant => format!("{text}. Did you mean: {}", meant.join(" or ")),
            }
        }
    }
}
