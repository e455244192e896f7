//! Ways out of a refusal 9: close what leads up, mark it, let another step do it, or another thread of the same step, have
//! the file looked over, or go one way where two were asked for.

use gatekeeper::{Call, Label, State as Monitor};
use gk_chain::Lack;

use super::closing::{closed_for_good, ended_words, enough, handle_words};
use super::cut::Whose;
use super::{aim, aim_after, from_level, once_open, or_above, tried, with_others, Counsel};
use crate::calls::with_number;
use crate::scene::Scene;
use crate::things::{empty_places, handles_of, handles_on, is_file, mates, steps, Held, Thing, STEPS};

/// The ways out, the cheapest first.
pub fn counsel(call: Call, scene: Scene) -> Counsel {
    let mut counsel = Counsel::default();
    let closes = enough(call, scene.monitor, Whose::Anyones);
    match &closes {
        Some(closes) => {
            let words = handle_words(&closes.handles, scene);
            let ended = ended_words(&closes.handles, scene);
            let (again, when) = (again(call), once_open(&closes.calls));
            counsel.way(format!("close {words}; {again} after that{when}.{ended}"), closes.calls.clone());
        }
        None => counsel.note(no_closing(call, scene)),
    }
    if let Call::Exec { subject, .. } = call {
        marking(call, subject, scene, &mut counsel);
    }
    match call {
        Call::OpenRead { .. } | Call::OpenWrite { .. } | Call::Map { .. } => {
            other_steps(call, scene, &mut counsel);
            forked_step(call, scene, &mut counsel);
        }
        Call::Exec { .. } => {
            other_threads(call, scene, &mut counsel);
            forked_step(call, scene, &mut counsel);
        }
        Call::Connect { .. } => one_way(call, scene, &mut counsel),
        _ => {}
    }
    if let Call::OpenWrite { .. } = call {
        admitted_step(call, scene, &mut counsel);
    } else {
        looked_over(call, scene, &mut counsel);
    }
    if let Some(closes) = closes {
        counsel.notes.extend(closed_for_good(&closes.handles, scene));
    }
    counsel
}

/// The call's own verb, to stand before "after that".
fn again(call: Call) -> &'static str {
    match call {
        Call::Exec { .. } => "run it",
        Call::Map { .. } => "map it",
        Call::Connect { .. } => "connect them",
        _ => "open it",
    }
}

/// The same, as "which does it".
fn does(call: Call) -> &'static str {
    match call {
        Call::Exec { .. } => "runs it",
        Call::Map { .. } => "maps it",
        _ => "opens it",
    }
}

fn no_closing(call: Call, scene: Scene) -> String {
    let monitor = scene.monitor;
    let low = match call {
        Call::OpenWrite { subject, object, .. } if is_file(monitor, object) => {
            match (monitor.subject(subject), monitor.object(object)) {
                (Some(label), Some(file)) => Some((subject, label, object, Lack::of(label, file.label)))
                    .filter(|low| !low.3.is_nothing()),
                _ => None,
            }
        }
        _ => None,
    };
    match low {
        Some((subject, label, object, lack)) => {
            let (step, file) = (scene.step(subject), scene.object(object));
            let why = match lack {
                Lack { level: true, .. } => {
                    format!("has level {} itself, which is too low for {file}", label.level)
                }
                Lack { shops, .. } => format!("itself lacks {}, which {file} has", scene.marks(shops)),
            };
            format!("No closing of handles helps: {step} {why}.")
        }
        None => "No closing of handles helps.".to_string(),
    }
}

/// RULES R110: the caller's handles that its exec asks to be marked, none of them needless.
fn marking(call: Call, step: u64, scene: Scene, counsel: &mut Counsel) {
    let calls_for = |set: &[Held]| {
        let marks: Vec<Call> =
            set.iter().map(|held| Call::Mark { subject: held.step, place: held.place }).collect();
        aim_after(scene.monitor, &marks, call)
    };
    let mut set: Vec<Held> =
        handles_of(scene.monitor, step).filter(|held| held.writes() && !held.handle.marked).collect();
    if calls_for(&set).is_none() {
        return;
    }
    for held in set.clone() {
        let fewer: Vec<Held> = set.iter().copied().filter(|other| *other != held).collect();
        if calls_for(&fewer).is_some() {
            set = fewer;
        }
    }
    if let Some(calls) = calls_for(&set) {
        let them = if set.len() == 1 { "it" } else { "them" };
        let words = handle_words(&set, scene);
        counsel.way(
            format!("if the program does not need {them}, mark {words}: the exec closes {them}."),
            calls,
        );
    }
}

/// The same call by another step, at its first empty place.
fn by(call: Call, step: u64, monitor: &Monitor) -> Option<Call> {
    let place = empty_places(monitor, step).next()?;
    Some(with_number(with_number(call, "s", step), "p", place))
}

fn other_steps(call: Call, scene: Scene, counsel: &mut Counsel) {
    let monitor = scene.monitor;
    let mut first = None;
    let mut able = Vec::new();
    for step in steps(monitor).filter(|&step| step != call.numbers()[0]) {
        let Some(calls) = by(call, step, monitor).and_then(|call| aim(monitor, call)) else {
            continue;
        };
        able.push(scene.step(step));
        first.get_or_insert(calls);
    }
    if let Some(calls) = first {
        let verb = again(call);
        let when = once_open(&calls);
        counsel.way(format!("let another step {verb}{when}: {} may.", with_others(&able)), calls);
    }
}

/// RULES C116: an exec by a mate, which ends the others with what they hold.
fn other_threads(call: Call, scene: Scene, counsel: &mut Counsel) {
    let monitor = scene.monitor;
    let runs = |mate: u64| aim(monitor, with_number(call, "s", mate)).map(|calls| (mate, calls));
    let able: Vec<(u64, Vec<Call>)> = mates(monitor, call.numbers()[0]).filter_map(runs).collect();
    if let Some((_, calls)) = able.first() {
        let words: Vec<String> = able.iter().map(|&(mate, _)| scene.step(mate)).collect();
        let text = format!(
            "let another thread of the same step run it: {} may. The others end with that, and what they hold is closed.",
            with_others(&words)
        );
        counsel.way(text, calls.clone());
    }
}

/// A step that the caller forks, which closes what leads up and then asks.
fn forked_step(call: Call, scene: Scene, counsel: &mut Counsel) {
    let monitor = scene.monitor;
    let (parent, Some(child)) = (call.numbers()[0], (0..STEPS).find(|&s| monitor.subject(s).is_none()))
    else {
        return;
    };
    let fork = Call::Fork { subject: parent, child };
    let Ok(forked) = tried(monitor, &[fork]) else {
        return;
    };
    // The place that the parent asks for is empty at the child, too.
    let Some(closes) = enough(with_number(call, "s", child), &forked, Whose::Only(child)) else {
        return;
    };
    let Some(calls) = aim_after(
        monitor,
        &[&[fork], &closes.calls[..closes.handles.len()]].concat(),
        with_number(call, "s", child),
    ) else {
        return;
    };
    let places: Vec<String> = closes.handles.iter().map(|held| held.place.to_string()).collect();
    let closing = match places.len() {
        0 => String::new(),
        1 => format!("closes place {} and ", places[0]),
        _ => format!("closes places {} and ", places.join(", ")),
    };
    let when = once_open(&calls);
    counsel.way(
        format!(
            "let {} fork a step, number {child} is free, which {closing}{}{when}.",
            scene.step(parent),
            does(call)
        ),
        calls,
    );
}

/// A step from outside, at a level that is high enough and with the shop marks that it needs.
fn admitted_step(call: Call, scene: Scene, counsel: &mut Counsel) {
    let Some(number) = (0..STEPS).find(|&s| scene.monitor.subject(s).is_none()) else {
        return;
    };
    let calls_at = |label: Label| {
        let admit = Call::admit(number, label);
        aim_after(scene.monitor, &[admit], with_number(with_number(call, "s", number), "p", 0))
    };
    if let Some((least, marks, calls)) = from_level(calls_at) {
        let when = once_open(&calls);
        counsel.way(
            format!(
                "admit a step at level {}{}, number {number} is free, and let it open it{when}.",
                or_above(least),
                marks.words(scene)
            ),
            calls,
        );
    }
}

/// The file comes in again with a better label, after a clerk has looked it over.
fn looked_over(call: Call, scene: Scene, counsel: &mut Counsel) {
    let object = match call {
        Call::OpenRead { object, .. } | Call::Map { object, .. } | Call::Exec { object, .. } => object,
        _ => return,
    };
    if !is_file(scene.monitor, object) || handles_on(scene.monitor, object).next().is_some() {
        return;
    }
    let calls_at = |label: Label| {
        aim_after(scene.monitor, &[Call::Retire { object }, Call::register(object, label)], call)
    };
    if let Some((least, marks, calls)) = from_level(calls_at) {
        let file = scene.object(object);
        counsel.way(
            format!(
                "when a clerk has looked {file} over, retire it, register it at level {}{}, and {} then.",
                or_above(least),
                marks.words(scene),
                again(call)
            ),
            calls,
        );
    }
}

/// A pipe in one direction, where both together are refused.
fn one_way(call: Call, scene: Scene, counsel: &mut Counsel) {
    let Call::Connect { subject, peer, to, from, reading, writing } = call else {
        return;
    };
    for (writer, reader, pipe) in [(subject, peer, to), (peer, subject, from)] {
        let calls = vec![
            Call::Pipe { subject: writer, object: pipe, reads: reading, writes: writing },
            Call::OpenRead { subject: reader, object: pipe, place: reading },
        ];
        if tried(scene.monitor, &calls).is_ok() {
            let (writer, reader) = (scene.thing(Thing::Step(writer)), scene.thing(Thing::Step(reader)));
            counsel.way(
                format!(
                    "if data need only go from {writer} to {reader}, let {writer} make pipe {pipe} and {reader} \
                     open it for reading."
                ),
                calls,
            );
        }
    }
}
