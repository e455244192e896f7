//! A refusal in words: what did not happen and why, the chain behind a 9, also one that a 15 hides, and the ways out.

use gatekeeper::{Call, Refusal, ALL_SHOPS, NO_FREEZE};
use gk_chain::{chain_of, Lack, Link};

use crate::asked::{asked, not_done};
use crate::calls::{number_of, SHAPES};
use crate::how::{how, How};
use crate::records::{body_words, length_words, Body};
use crate::run::{Content, Step};
use crate::scene::{listed, sentence, way_word, Closing, Scene};
use crate::things::{handles_on, level, mates, objects, Thing, HIGHEST, OBJECTS, PLACES, STEPS};
use crate::threads;
use crate::ways::{counsel, nine_once_open, or_above, Counsel};
use gk_names::number::shown;
use gk_names::Kind;

/// What is said of a record that was refused.
pub struct Refused {
    /// Who may not do what, and why, with its full stop.
    pub title: String,
    /// "Refused (9): low data could reach a higher file."; empty where the title says it.
    pub answer: String,
    /// What did not happen, and what stands in the way.
    pub facts: Vec<String>,
    /// The chain behind a 9, or behind a 15 that is a 9 once the books are open, with what each thing is called.
    pub chain: Vec<(Link, String)>,
    /// The chain in words.
    pub how: Option<How>,
    pub counsel: Counsel,
}

/// What is said of a record that was refused, by every tool; `scene` is the moment before it. None where it was not.
pub fn of_record(step: &Step, scene: Scene, closing: Option<Closing>) -> Option<Refused> {
    let refusal = step.refusal()?;
    Some(match step.content {
        Content::Call(call) => refused(call, refusal, scene, closing),
        content => no_call(content),
    })
}

/// A call that was refused; `scene` is the moment before it.
pub fn refused(call: Call, refusal: Refusal, scene: Scene, closing: Option<Closing>) -> Refused {
    let chain: Vec<(Link, String)> = chain_of(scene.monitor, refusal, call.code(), call.numbers())
        .into_iter()
        .map(|link| (link, link_name(link, call, scene)))
        .collect();
    let why = why(call, refusal, scene, closing, &chain);
    let asked = asked(call, scene, false);
    let title = if why.is_empty() { format!("{asked}.") } else { format!("{asked}: {why}.") };
    let answer = answer_words(refusal);
    let mut facts = vec![not_done(call).to_string()];
    if let (Call::Exec { subject, .. }, Some(first)) = (call, facts.first_mut()) {
        if mates(scene.monitor, subject).next().is_some() {
            first.push_str(" No thread of the step ends.");
        }
    }
    if let (Some((low, low_name)), Some((high, high_name))) = (chain.first(), chain.last()) {
        if refusal == Refusal::Frozen {
            facts.push(format!("{}.", sentence(&nine_once_open("it would be refused with"))));
        }
        facts.push(format!(
            "{} {}.",
            crate::scene::capital(low_name),
            insufficient((low, "has level"), (high, high_name), "level ", scene)
        ));
        facts.extend(threads::in_chain(&chain, scene));
        facts.extend(floor(call, scene));
    }
    let how = how(&chain, refusal);
    Refused { title, answer, facts, chain, how, counsel: counsel(call, refusal, scene, closing) }
}

/// The answer with its number, as a sentence.
pub fn answer_words(refusal: Refusal) -> String {
    format!("Refused ({}): {}.", refusal.number(), refusal.words())
}

/// What is insufficient of the thing at the front of a chain for the file at its end, the level or shop marks: "has level
/// 2, and file 0 takes nothing from below level 9", "lacks the shop mark of north, and file 0 takes nothing without it". `has`
/// leads up to the low level, `below` to the high one.
pub fn insufficient(
    (low, has): (&Link, &str),
    (high, name): (&Link, &str),
    below: &str,
    scene: Scene,
) -> String {
    let lack = Lack::of(low.label, high.label);
    let (level, least) = (low.label.level, high.label.level);
    let it = if lack.shops.count_ones() == 1 { "it" } else { "them" };
    match (lack.level, lack.shops) {
        (_, 0) => format!("{has} {level}, and {name} takes nothing from below {below}{least}"),
        (false, shops) => {
            format!("lacks {}, and {name} takes nothing without {it}", scene.marks(shops))
        }
        (true, shops) => {
            let marks = scene.marks(shops);
            format!(
                "{has} {level} and lacks {marks}, and {name} takes nothing from below {below}{least} and nothing \
                 without {it}"
            )
        }
    }
}

/// RULES F5: how far the step that asks to read may fall, as the monitor has it. The shop marks that it has to keep are
/// said where what it would read lacks one of them.
fn floor(call: Call, scene: Scene) -> Option<String> {
    let (Call::OpenRead { subject, object, .. } | Call::Map { subject, object, .. }) = call else {
        return None;
    };
    let need = scene.monitor.need_of_subject(subject)?;
    let label = scene.monitor.object(object)?.label;
    let keep = match Lack::of(label, need).shops {
        0 => String::new(),
        _ => format!(" and to keep {}", scene.marks(need.shops)),
    };
    Some(format!(
        "With the handles that there are, {} has to stay at level {}{keep}.",
        scene.step(subject),
        or_above(need.level.into())
    ))
}

/// What a thing of a chain is called; the pipes of a connect are not there yet.
fn link_name(link: Link, call: Call, scene: Scene) -> String {
    match (link.thing, call) {
        (Thing::Object(o), Call::Connect { to, from, .. }) if o == to || o == from => {
            scene.new_name(Kind::Pipe, o).map_or_else(|| format!("pipe {}", shown(o)), str::to_string)
        }
        _ => scene.thing(link.thing),
    }
}

/// A record that is no call, or a journal that breaks off or is too long.
fn no_call(content: Content) -> Refused {
    let (title, answer, fact, way) = match content {
        Content::TooLong => (
            format!(
                "The journal is refused (14): {}. Nothing of it is run.",
                Refusal::JournalTooLong.words()
            ),
            String::new(),
            None,
            "split the journal into runs of at most 65,536 bytes.",
        ),
        Content::Stop(offset, fault) => (
            format!("Byte {offset} of the journal should start a record, and does not."),
            answer_words(Refusal::JournalBroken),
            Some(format!("{}; the run stops here.", length_words(fault))),
            "look at how the journal was written or copied from there on.",
        ),
        Content::NoCall(body @ Body::UnknownCode(_)) => (
            "A record that is no call.".to_string(),
            format!(
                "Refused ({}): {}; calls have 1 to {}.",
                Refusal::UnknownCode.number(),
                body_words(body),
                SHAPES.len()
            ),
            None,
            "look at the program that wrote the journal; the next record is read.",
        ),
        Content::NoCall(body) => (
            "A record that is no call.".to_string(),
            answer_words(Refusal::RecordBroken),
            Some(format!("{}.", body_words(body))),
            "look at the program that wrote the journal; the next record is read.",
        ),
        Content::Call(_) => (String::new(), String::new(), None, ""),
    };
    let facts = fact.into_iter().map(|fact| sentence(&fact)).collect();
    let (chain, how, counsel) = (Vec::new(), None, Counsel::without_calls(way.to_string()));
    Refused { title, answer, facts, chain, how, counsel }
}

/// Why a call was refused, in a few words.
fn why(
    call: Call,
    refusal: Refusal,
    scene: Scene,
    closing: Option<Closing>,
    chain: &[(Link, String)],
) -> String {
    let monitor = scene.monitor;
    match refusal {
        Refusal::NoSubject => {
            let named = ["s", "t"].into_iter().filter_map(|name| number_of(call, name));
            match named.filter(|&s| monitor.subject(s).is_none()).collect::<Vec<u64>>().first() {
                Some(&s) if s >= STEPS => format!("steps have the numbers 0 to {}", STEPS - 1),
                Some(&s) => format!("{} is not there", scene.step(s)),
                None => String::new(),
            }
        }
        Refusal::NumberTaken => unfit_number(call, scene),
        Refusal::NoObject => match number_of(call, "o") {
            Some(o) => format!("there is no {}", scene.object(o)),
            None => String::new(),
        },
        Refusal::IsPipe => "it is a pipe".to_string(),
        Refusal::LevelTooHigh => match call {
            Call::Freeze { .. } => format!("a freeze is 0 to {HIGHEST}, or {NO_FREEZE} for none"),
            Call::Admit { level: ..=HIGHEST, .. } | Call::Register { level: ..=HIGHEST, .. } => {
                format!("a set of shop marks is 0 to {ALL_SHOPS}")
            }
            _ => format!("levels are 0 to {HIGHEST}"),
        },
        Refusal::PlaceUnfit => unfit_place(call, scene),
        Refusal::WrongDirection => match call {
            Call::Read { .. } => "that handle is for writing".to_string(),
            _ => "that handle is for reading".to_string(),
        },
        Refusal::Flow => flow_reason(call, chain, scene),
        Refusal::StillOpen => {
            let o = number_of(call, "o").unwrap_or(0);
            let mut holders: Vec<u64> = handles_on(monitor, o).map(|held| held.step).collect();
            holders.dedup();
            let words: Vec<String> = holders.iter().map(|&s| scene.step(s)).collect();
            let have = if words.len() == 1 { "has" } else { "have" };
            format!("{} {have} it open", listed(&words, "and"))
        }
        Refusal::Frozen => {
            let level =
                number_of(call, "o").and_then(|o| monitor.object(o)).map_or(0, |object| object.label.level);
            let since = closing.map_or_else(String::new, |closing| format!(" {}", closing.words()));
            format!("the books are{since}, and it has level {level}")
        }
        Refusal::SameSubject => "both ends would be the same step".to_string(),
        Refusal::TooManyObjects => {
            let live = objects(monitor).count();
            format!("{live} files and pipes are live, and {OBJECTS} may be")
        }
        _ => String::new(),
    }
}

/// A chain in a few words, from where the caller stands: "it writes file 0".
fn flow_reason(call: Call, chain: &[(Link, String)], scene: Scene) -> String {
    let (Some((low, low_name)), Some((high, high_name))) = (chain.first(), chain.last()) else {
        return String::new();
    };
    let step = Thing::Step(call.numbers()[0]);
    let is_mate =
        |thing: Thing| mates(scene.monitor, call.numbers()[0]).any(|mate| thing == Thing::Step(mate));
    match (call, &chain[..chain.len() - 1]) {
        (Call::OpenWrite { .. }, _) if low.thing == step => {
            let lack = Lack::of(low.label, high.label);
            let words = insufficient((low, "its level is"), (high, high_name), "", scene);
            if lack.level {
                words.replacen(" and lacks ", " and it lacks ", 1)
            } else {
                format!("it {words}")
            }
        }
        (Call::OpenWrite { .. }, _) => format!("what {low_name} has could get there through it"),
        (Call::Connect { .. }, _) => format!("what {low_name} has could then reach {high_name}"),
        (_, [.., (last, _)]) if last.thing == step => format!("it writes {high_name}"),
        (_, [.., (last, name)]) if is_mate(last.thing) => {
            format!("{name}, a thread of the same step, writes {high_name}")
        }
        _ => format!("what it passes on could reach {high_name}"),
    }
}

/// RULES R3.
fn unfit_number(call: Call, scene: Scene) -> String {
    let new: Vec<Thing> = match call {
        Call::Admit { subject, .. } => vec![Thing::Step(subject)],
        Call::Fork { child, .. } => vec![Thing::Step(child)],
        Call::Thread { member, .. } => vec![Thing::Step(member)],
        Call::Connect { to, from, .. } => vec![Thing::Object(to), Thing::Object(from)],
        _ => number_of(call, "o").into_iter().map(Thing::Object).collect(),
    };
    if matches!(new[..], [Thing::Step(s)] if s >= STEPS) {
        return format!("steps have the numbers 0 to {}", STEPS - 1);
    }
    match new.into_iter().find(|&thing| level(scene.monitor, thing).is_some()) {
        Some(thing) => format!("{} is there already", scene.whole(thing)),
        None => "both pipes would have the same number".to_string(),
    }
}

/// RULES R7.
fn unfit_place(call: Call, scene: Scene) -> String {
    let monitor = scene.monitor;
    let (steps, places, wants_empty): (Vec<u64>, Vec<u64>, bool) = match call {
        Call::Pipe { subject, reads, writes, .. } => (vec![subject], vec![reads, writes], true),
        Call::Connect { subject, peer, reading, writing, .. } => {
            (vec![subject, peer], vec![reading, writing], true)
        }
        Call::OpenRead { subject, place, .. }
        | Call::OpenWrite { subject, place, .. }
        | Call::Map { subject, place, .. } => (vec![subject], vec![place], true),
        _ => (vec![call.numbers()[0]], vec![call.numbers()[1]], false),
    };
    if places.iter().any(|&place| place >= PLACES) {
        return format!("places have the numbers 0 to {}", PLACES - 1);
    }
    let taken = steps
        .iter()
        .flat_map(|&step| places.iter().map(move |&place| (step, place)))
        .find_map(|(step, place)| monitor.handle(step, place).map(|handle| (step, place, handle)));
    match taken {
        Some((step, place, handle)) if wants_empty => {
            let what = format!("{} {}", way_word(handle.way), scene.object(handle.object));
            format!("place {place} of {} is taken, by its handle {what}", scene.step(step))
        }
        _ if wants_empty => "reading and writing need two places".to_string(),
        _ => "that place is empty".to_string(),
    }
}
