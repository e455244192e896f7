//! Who asks what: in one form for what happens, in another for what does not.

use gatekeeper::{Call, NO_FREEZE};

use crate::calls::{shape_of_code, Role};
use crate::scene::{capital, Scene};
use crate::things::Thing;
use gk_names::number::shown;
use gk_names::shops::written;
use gk_names::Kind;

/// A call in words, without a full stop; `happens` says whether it was allowed.
pub fn asked(call: Call, scene: Scene, happens: bool) -> String {
    // "opens", or "may not open"
    let by = |s: u64, does: &str, may_not: &str, rest: &str| {
        let who = capital(&scene.whole(Thing::Step(s)));
        match happens {
            true => format!("{who} {does}{rest}"),
            false => format!("{who} may not {may_not}{rest}"),
        }
    };
    let is = if happens { "is" } else { "is not" };
    let object = |o: u64| scene.whole(Thing::Object(o));
    // What is said of several records at once leaves out the places, which differ.
    let at = |place: u64| match scene.unnamed {
        Some(_) => String::new(),
        None => format!(" at place {}", shown(place)),
    };
    let new = |kind: Kind, number: u64| scene.new_thing(kind, number);
    let marks = |set: u64| match u8::try_from(set) {
        Ok(set) => scene.with_marks(set),
        Err(_) => format!(" with the set {}", shown(set)),
    };
    match call {
        Call::Admit { subject, level, shops } => {
            let who = capital(&new(Kind::Step, subject));
            format!("{who} {is} admitted from outside at level {}{}", shown(level), marks(shops))
        }
        Call::Register { object, level, shops } => {
            let what = capital(&new(Kind::File, object));
            format!("{what} {is} registered from outside at level {}{}", shown(level), marks(shops))
        }
        Call::Create { subject, object } => {
            by(subject, "creates", "create", &format!(" {}", new(Kind::File, object)))
        }
        Call::Pipe { subject, object, reads, writes } => {
            let pipe = new(Kind::Pipe, object);
            let (reads, writes) = (shown(reads), shown(writes));
            let rest = format!(" {pipe}, reading at place {reads} and writing at place {writes}");
            by(subject, "makes", "make", &rest)
        }
        Call::OpenRead { subject, object: o, place } => {
            by(subject, "opens", "open", &format!(" {} for reading{}", object(o), at(place)))
        }
        Call::OpenWrite { subject, object: o, place } => {
            by(subject, "opens", "open", &format!(" {} for writing{}", object(o), at(place)))
        }
        Call::Read { subject, place } => {
            by(subject, "reads", "read", &format!(" at {}", scene.at_place(subject, place)))
        }
        Call::Write { subject, place } => {
            by(subject, "writes", "write", &format!(" at {}", scene.at_place(subject, place)))
        }
        Call::Fork { subject, child } => by(subject, "forks", "fork", &format!(" {}", new(Kind::Step, child))),
        Call::Exec { subject, object: o } => by(subject, "runs", "run", &format!(" {}", object(o))),
        Call::Close { subject, place } => {
            by(subject, "closes", "close", &format!(" {}", scene.at_place(subject, place)))
        }
        Call::Exit { subject } => by(subject, "exits", "exit", ""),
        Call::Retire { object: o } => format!("{} {is} retired", capital(&object(o))),
        Call::Map { subject, object: o, place } => {
            by(subject, "maps", "map", &format!(" {}{}", object(o), at(place)))
        }
        Call::Mark { subject, place } => {
            by(subject, "marks", "mark", &format!(" {}", scene.at_place(subject, place)))
        }
        Call::Freeze { level: NO_FREEZE } => format!("The freeze {is} lifted"),
        Call::Freeze { level } => format!("The freeze {is} set to {}", shown(level)),
        Call::Connect { subject, peer, to, from, reading, writing } => format!(
            "{} {is} connected to {} by {} and back by {}, both reading at place {} and writing at place {}",
            capital(&scene.whole(Thing::Step(subject))),
            scene.whole(Thing::Step(peer)),
            new(Kind::Pipe, to),
            new(Kind::Pipe, from),
            shown(reading),
            shown(writing)
        ),
        Call::Thread { subject, member } => {
            by(subject, "starts", "start", &format!(" {} as a thread", new(Kind::Step, member)))
        }
        _ => format!("A call of code {}", call.code()),
    }
}

/// The names that the numbers of a call have, by what the numbers are called.
pub fn names_in(call: Call, scene: Scene) -> Vec<(&'static str, String)> {
    let makes_step = matches!(call, Call::Admit { .. });
    let parts = shape_of_code(call.code()).into_iter().flat_map(|shape| shape.parts());
    let name = |part: &str, role: Role, number: u64| match role {
        Role::Step if makes_step || part == "c" => scene.new_name(Kind::Step, number),
        Role::Step => scene.name(Thing::Step(number)),
        Role::File => scene.new_name(Kind::File, number),
        Role::Pipe => scene.new_name(Kind::Pipe, number),
        Role::Object => scene.name(Thing::Object(number)),
        Role::Place | Role::Level | Role::Set => None,
    };
    // The names of a set's shop groups, where each has one.
    let marks = |set: u64| {
        let written = written(set, scene.names, scene.record);
        let is_named = !written.starts_with(|sign: char| sign.is_ascii_digit());
        (is_named && !["all", "none"].contains(&written.as_str())).then(|| written.replace('"', ""))
    };
    parts
        .zip(call.numbers())
        .filter_map(|((part, role), number)| match role {
            Role::Set => marks(number).map(|names| (part, names)),
            _ => name(part, role, number).map(|name| (part, name.to_string())),
        })
        .collect()
}

/// What a refused call has not done.
pub fn not_done(call: Call) -> &'static str {
    match call {
        Call::Admit { .. } => "No step is admitted.",
        Call::Register { .. } => "No file is registered.",
        Call::Create { .. } => "No file is created.",
        Call::Pipe { .. } => "No pipe is made.",
        Call::OpenRead { .. } | Call::OpenWrite { .. } => "Nothing is opened.",
        Call::Read { .. } => "Nothing is read.",
        Call::Write { .. } => "Nothing is written.",
        Call::Fork { .. } => "No step is forked.",
        Call::Exec { .. } => "Nothing is run, and no handle is closed.",
        Call::Close { .. } => "Nothing is closed.",
        Call::Exit { .. } => "No step exits.",
        Call::Retire { .. } => "Nothing is retired.",
        Call::Map { .. } => "Nothing is mapped, and nothing is read.",
        Call::Mark { .. } => "Nothing is marked.",
        Call::Freeze { .. } => "The freeze stays as it was.",
        Call::Connect { .. } => "Neither pipe is made.",
        Call::Thread { .. } => "No thread is started.",
        _ => "Nothing is done.",
    }
}
