//! What an allowed call has done, in sentences.

use gatekeeper::{Call, Label, State as Monitor, NO_FREEZE};

use gk_advice::scene::{capital, listed, way_word, Closing, Scene};
use gk_advice::things::{
    handles_of, has_mapped, label, mates, members, objects, steps, Held, Thing, ALL_SHOPS,
};
use gk_advice::threads::{holdings, named, together};

/// The sentences; `before` and `now` are the moments before the call and after it, `closing` the freeze before it.
pub fn outcome(call: Call, before: Scene, now: Scene, closing: Option<Closing>) -> Vec<String> {
    let after = now.monitor;
    let (step, object) = (Thing::Step, Thing::Object);
    // "level 9", or "level 9 with the shop marks of north and east"
    let was = |thing: Thing| before.level_with(label(before.monitor, thing).unwrap_or(Label::LEAST));
    let is = |thing: Thing| now.level_with(label(after, thing).unwrap_or(Label::LEAST));
    // What a new thing has from its maker, to follow "the".
    let from = |maker: u64, thing: Thing| {
        let label = label(after, thing).unwrap_or(Label::LEAST);
        let (maker, level) = (now.step(maker), label.level);
        match label.shops {
            ALL_SHOPS => format!("level of {maker}, {level}"),
            set => format!("label of {maker}, level {level} with {}", now.marks(set)),
        }
    };
    match call {
        Call::Admit { subject, .. } => {
            let who = capital(&now.step(subject));
            vec![format!("{who} runs at {}, with no handles.", is(step(subject)))]
        }
        Call::Register { object: o, .. } => {
            vec![format!("{} has {} for good.", capital(&now.object(o)), is(object(o)))]
        }
        Call::Create { subject, object: o } => vec![format!(
            "{} is empty and has the {}, for good.",
            capital(&now.object(o)),
            from(subject, object(o))
        )],
        Call::Pipe { subject, object: o, .. } => vec![format!(
            "{} is empty and starts at the {}.",
            capital(&now.object(o)),
            from(subject, object(o))
        )],
        Call::OpenRead { subject, object: o, .. } => vec![format!(
            "{} has {}; {} keeps {} until it reads.",
            capital(&before.object(o)),
            was(object(o)),
            before.step(subject),
            was(step(subject))
        )],
        Call::OpenWrite { subject, object: o, .. } => vec![format!(
            "{} has {}, {} {}.",
            capital(&before.object(o)),
            was(object(o)),
            before.step(subject),
            was(step(subject))
        )],
        Call::Read { subject, place } => {
            let read = before.monitor.handle(subject, place).map(|handle| object(handle.object));
            [vec![fall(step(subject), read, before, after)], fell_with(subject, before, now)].concat()
        }
        Call::Exec { subject, object: o } => exec(subject, o, before, after),
        Call::Write { subject, place } => match before.monitor.handle(subject, place) {
            Some(handle) => write(subject, handle.object, before, after),
            None => Vec::new(),
        },
        Call::Fork { subject, child } => fork(subject, child, now),
        Call::Close { place, .. } => vec![format!("Place {place} is empty.{}", ended(before, after))],
        Call::Exit { subject } => {
            let closed = match handles_of(before.monitor, subject).count() {
                0 => "it held no handles".to_string(),
                1 => "1 handle is closed".to_string(),
                count => format!("{count} handles are closed"),
            };
            let mut facts = vec![format!(
                "Its last level was {}; {closed}. Its number is free.{}",
                was(step(subject)).trim_start_matches("level "),
                ended(before, after)
            )];
            let left: Vec<u64> = mates(before.monitor, subject).collect();
            facts.extend(threads_of_it(&left, before).map(|who| match left.len() {
                1 => format!("{who}, stays."),
                _ => format!("{who}, stay."),
            }));
            facts
        }
        Call::Retire { object: o } => {
            let last = was(object(o));
            vec![format!("Its last level was {}; its number is free.", last.trim_start_matches("level "))]
        }
        Call::Map { subject, object, place } => map(subject, object, place, before, now),
        Call::Mark { subject, place } => mark(subject, place, before),
        Call::Freeze { level } => freeze(level, closing),
        Call::Connect { subject, peer, to, from, reading, writing } => {
            let way = |from: u64, to: u64, o: u64| {
                let pipe = now.labelled(object(o));
                let (from, to) = (now.step(from), now.step(to));
                format!("{from} writes {pipe} at place {writing}, and {to} reads it at place {reading}")
            };
            vec![
                "Both pipes are empty.".to_string(),
                format!("One way: {}.", way(subject, peer, to)),
                format!("Back: {}.", way(peer, subject, from)),
            ]
        }
        Call::Thread { member, .. } => vec![
            format!("{} starts at {}, with no handles.", capital(&now.step(member)), is(step(member))),
            together(&members(after, member), now),
        ],
        _ => Vec::new(),
    }
}

/// What has become of a thing's label, and the thing whose data came to it.
fn fall(thing: Thing, source: Option<Thing>, before: Scene, after: &Monitor) -> String {
    format!("{} {}.", capital(&before.thing(thing)), fell(thing, source, before, after))
}

/// The same without who it is: "falls from level 9 to level 2 and loses the shop mark of north, which file 1 does not have; it
/// keeps the shop mark of east".
fn fell(thing: Thing, source: Option<Thing>, before: Scene, after: &Monitor) -> String {
    let label = |monitor: &Monitor| label(monitor, thing).unwrap_or(Label::LEAST);
    let (from, to) = (label(before.monitor), label(after));
    let level = match to.level < from.level {
        true => format!("falls from level {} to level {}", from.level, to.level),
        false => format!("stays at level {}", to.level),
    };
    match from.shops & !to.shops {
        0 => level,
        lost => {
            let why = source.map(|source| format!(", which {} does not have", before.thing(source)));
            let (lost, kept) = (before.marks(lost), before.marks(to.shops));
            format!("{level} and loses {lost}{}; it keeps {kept}", why.unwrap_or_default())
        }
    }
}

/// RULES C114: the mates that have fallen with a step that has read, and which of them all holds what.
fn fell_with(subject: u64, before: Scene, now: Scene) -> Vec<String> {
    let falls = |&mate: &u64| now.monitor.subject(mate) != before.monitor.subject(mate);
    let fell: Vec<u64> = mates(before.monitor, subject).filter(falls).collect();
    let why = match fell.len() {
        0 => return Vec::new(),
        1 => "falls with it: the two are threads of one step, and what one of them reads, both have read",
        _ => "fall with it: all of them are threads of one step, and what one of them reads, all have read",
    };
    let who = capital(&named(&fell, now));
    vec![format!("{who} {why}."), holdings(&members(now.monitor, subject), now)]
}

/// Some mates of a step at the front of a sentence, with what they are; none where there are none.
fn threads_of_it(mates: &[u64], scene: Scene) -> Option<String> {
    let who = capital(&named(mates, scene));
    match mates.len() {
        0 => None,
        1 => Some(format!("{who}, a thread of the same step")),
        _ => Some(format!("{who}, threads of the same step")),
    }
}

/// The pipes that have ended.
fn ended(before: Scene, after: &Monitor) -> String {
    objects(before.monitor)
        .filter(|&o| after.object(o).is_none())
        .map(|o| format!(" That was the last handle on {}, which ends.", before.object(o)))
        .collect()
}

/// RULES C8, C111: who reads a mapped file after a write to it, in that order.
fn write(writer: u64, object: u64, before: Scene, after: &Monitor) -> Vec<String> {
    let mut facts = vec![fall(Thing::Object(object), Some(Thing::Step(writer)), before, after)];
    let readers: Vec<String> = steps(before.monitor)
        .filter(|&s| has_mapped(before.monitor, s, object))
        .map(|s| before.step(s))
        .collect();
    match readers.len() {
        0 => {}
        1 => facts.push(format!("Then {}, which has it mapped, reads it.", readers[0])),
        _ => facts.push(format!(
            "Then {}, which have it mapped, read it, each once and in this order.",
            listed(&readers, "and")
        )),
    }
    facts
}

fn fork(parent: u64, child: u64, now: Scene) -> Vec<String> {
    let handles: Vec<Held> = handles_of(now.monitor, child).collect();
    let of = now.step(parent);
    let copies = match handles.len() {
        0 => "no handles".to_string(),
        1 => format!("a copy of the handle of {of}"),
        count => format!("copies of the {count} handles of {of}"),
    };
    let part = |count: usize, one: &str, more: &str| match (count, handles.len()) {
        (0, _) => String::new(),
        (1, 1) => format!(", {one}"),
        (1, _) => format!(", 1 of them {one}"),
        (count, _) => format!(", {count} of them {more}"),
    };
    let marked = part(handles.iter().filter(|held| held.handle.marked).count(), "marked", "marked");
    let mapped = part(handles.iter().filter(|held| held.is_mapping()).count(), "a mapping", "mappings");
    let label = now.monitor.subject(child).unwrap_or(Label::LEAST);
    let who = capital(&now.step(child));
    let and = if label.shops == ALL_SHOPS { " with" } else { ", and with" };
    let level = now.level_with(label);
    let mut facts = vec![format!("{who} starts at {level}{and} {copies}{marked}{mapped}.")];
    if mates(now.monitor, parent).next().is_some() {
        facts.push("It has a memory of its own: it is no thread of that step.".to_string());
    }
    facts
}

/// RULES C10, C116: the mates that an exec has ended, the marked handles and the mappings that it has closed, and the pipes
/// that have ended so.
fn exec(subject: u64, program: u64, before: Scene, after: &Monitor) -> Vec<String> {
    let mut facts = vec![fall(Thing::Step(subject), Some(Thing::Object(program)), before, after)];
    let closed: Vec<Held> = handles_of(before.monitor, subject)
        .filter(|held| after.handle(subject, held.place).is_none())
        .collect();
    let (mappings, marked): (Vec<Held>, Vec<Held>) = closed.into_iter().partition(|held| held.is_mapping());
    let places = |handles: &[Held]| {
        let words: Vec<String> = handles
            .iter()
            .map(|held| {
                let object = before.object(held.object());
                match held.is_mapping() {
                    true => format!("place {} ({object})", held.place),
                    false => format!("place {} ({} {object})", held.place, way_word(held.handle.way)),
                }
            })
            .collect();
        words.join(", ")
    };
    let mut gone: String = objects(before.monitor)
        .filter(|&o| after.object(o).is_none())
        .map(|o| format!(" {} has no handle left and ends.", capital(&before.object(o))))
        .collect();
    if let Some(mates) = ended_mates(subject, before) {
        facts.push(mates + &std::mem::take(&mut gone));
    }
    match marked.len() {
        0 => {}
        1 => facts.push(format!("Its marked handle is closed: {}.{gone}", places(&marked))),
        _ => facts.push(format!("Its marked handles are closed: {}.{gone}", places(&marked))),
    }
    match mappings.len() {
        0 => {}
        1 => facts.push(format!("Its mapping is closed: {}.", places(&mappings))),
        count => facts.push(format!("Its {count} mappings are closed: {}.", places(&mappings))),
    }
    facts
}

/// RULES C116, Y13: the mates that an exec of a step has ended, and how many handles went with them; none where it had none.
fn ended_mates(subject: u64, before: Scene) -> Option<String> {
    let mates: Vec<u64> = mates(before.monitor, subject).collect();
    let who = threads_of_it(&mates, before)?;
    let handles = mates.iter().map(|&mate| handles_of(before.monitor, mate).count()).sum::<usize>();
    let (end, number) = match mates.len() {
        1 => ("ends", "Its number is free"),
        _ => ("end", "Their numbers are free"),
    };
    let closed = match handles {
        0 => "no handle goes with that".to_string(),
        1 => "1 handle is closed with that".to_string(),
        count => format!("{count} handles are closed with that"),
    };
    Some(format!("{who}, {end} before it is run; {closed}. {number}."))
}

/// RULES C14, C111: a map is a read at that moment, and one after each write to come.
fn map(subject: u64, object: u64, place: u64, before: Scene, now: Scene) -> Vec<String> {
    let who = before.step(subject);
    let change = fell(Thing::Step(subject), Some(Thing::Object(object)), before, now.monitor);
    let file = capital(&before.labelled(Thing::Object(object)));
    let later = if has_mapped(before.monitor, subject, object) {
        format!(
            "{} had it mapped before: it reads it once after each write to it, as until now.",
            capital(&who)
        )
    } else {
        format!(
            "From now on {who} reads it after each write to it, until place {place} is closed; its next exec that \
             is allowed closes it, too."
        )
    };
    let read = format!("{file} is read at that moment: {who} {change}.");
    [vec![read], fell_with(subject, before, now), vec![later]].concat()
}

/// RULES C15, T35.
fn mark(subject: u64, place: u64, before: Scene) -> Vec<String> {
    let who = before.step(subject);
    let held = handles_of(before.monitor, subject).find(|held| held.place == place);
    vec![match held {
        Some(held) if held.handle.marked => "It was marked before: nothing changes.".to_string(),
        Some(held) if held.is_mapping() => {
            format!("It is a mapping, which the next exec of {who} that is allowed closes in any case.")
        }
        _ => format!("The next exec of {who} that is allowed closes it; until then it is used as before."),
    }]
}

/// RULES C16.
fn freeze(level: u64, closing: Option<Closing>) -> Vec<String> {
    let before = closing.map(Closing::words);
    match (level, before) {
        (NO_FREEZE, None) => vec!["Books open, as they were: there was no freeze.".to_string()],
        (NO_FREEZE, Some(before)) => vec![
            "Books open again: no open is refused with 15.".to_string(),
            format!("They were {before}."),
        ],
        (_, before) => {
            let mut facts = vec![
                format!("Books closed from level {level} up: no such file can be opened for writing."),
                format!("Handles that are open go on writing; freeze {NO_FREEZE} opens the books again."),
            ];
            facts.extend(before.map(|before| format!("Before, they were {before}.")));
            facts
        }
    }
}
