//! Ways out of refusals 2 to 6 and 16: another number, or the thing that is missing. Those of 17 are in `room`.

use gatekeeper::{Call, Label, Refusal, NO_FREEZE};

use super::room::{self, freeing};
use super::{
    aim_after, between_levels, level_words, no_higher, once_open, refusal_of, refused_here, refused_words,
    some_of, tried, Counsel,
};
use crate::calls::{number_of, with_number};
use crate::scene::Scene;
use crate::things::{free_objects, is_file, objects, steps, too_many, ALL_SHOPS, HIGHEST, STEPS};
use gk_names::number::shown;

/// The highest level with all shop marks.
const BEST: Label = Label { level: HIGHEST as u8, shops: ALL_SHOPS };

/// The same call with each of some numbers in the place of the one that is called so: those that are let through, and
/// the calls of the first.
fn others(
    call: Call,
    name: &str,
    numbers: impl Iterator<Item = u64>,
    scene: Scene,
) -> (Vec<u64>, Vec<Call>) {
    let mut first = Vec::new();
    let mut fit = Vec::new();
    for number in numbers.filter(|&number| Some(number) != number_of(call, name)) {
        let changed = with_number(call, name, number);
        if refusal_of(scene.monitor, changed).is_none() {
            fit.push(number);
            if first.is_empty() {
                first = vec![changed];
            }
        }
    }
    (fit, first)
}

/// RULES R2.
pub fn missing_step(call: Call, scene: Scene) -> Counsel {
    let mut counsel = Counsel::default();
    let monitor = scene.monitor;
    let named: Vec<(&str, u64)> =
        ["s", "t"].into_iter().filter_map(|name| number_of(call, name).map(|s| (name, s))).collect();
    let mut missing: Vec<(&str, u64)> =
        named.into_iter().filter(|&(_, s)| monitor.subject(s).is_none()).collect();
    missing.dedup_by_key(|&mut (_, s)| s);
    if missing.iter().all(|&(_, s)| s < STEPS) {
        let admits = |label: Label| -> Vec<Call> {
            missing.iter().map(|&(_, subject)| Call::admit(subject, label)).collect()
        };
        let words: Vec<String> = missing.iter().map(|&(_, s)| format!("step {s}")).collect();
        let words = words.join(" and ");
        match between_levels(|label| aim_after(monitor, &admits(label), call)) {
            Some(between) => {
                let (at, when) = (level_words(&between, scene), once_open(&between.calls));
                let mind = no_higher(&between, scene);
                counsel.way(
                    format!("admit {words} first, {at}; then the call is allowed{when}. {mind}"),
                    between.calls,
                );
            }
            None => {
                let after = tried(monitor, &admits(BEST)).ok();
                if let Some(refused) = after.and_then(|after| refused_here(&after, call)) {
                    counsel.note(format!("With {words} there, at level {HIGHEST}, it would be {refused}."));
                }
            }
        }
    }
    if let [(name, _)] = missing[..] {
        let (fit, calls) = others(call, name, steps(monitor), scene);
        if !fit.is_empty() {
            let words: Vec<String> = fit.iter().map(|&s| scene.step(s)).collect();
            counsel.way(format!("name a step that is there and may: {}.", some_of(&words, "or")), calls);
        }
    }
    counsel
}

/// RULES R3.
pub fn taken(call: Call, scene: Scene) -> Counsel {
    match call {
        Call::Admit { .. } => taken_step(call, "s", scene),
        Call::Fork { .. } | Call::Thread { .. } => taken_step(call, "c", scene),
        Call::Connect { .. } => taken_objects(call, &["a", "b"], scene),
        _ => taken_objects(call, &["o"], scene),
    }
}

fn taken_step(call: Call, name: &str, scene: Scene) -> Counsel {
    let mut counsel = Counsel::default();
    let monitor = scene.monitor;
    match (0..STEPS).find(|&s| monitor.subject(s).is_none()) {
        Some(free) => {
            let with = with_number(call, name, free);
            match refusal_of(monitor, with) {
                None => counsel.way(format!("use a free number, for example {free}."), vec![with]),
                Some(refusal) => counsel.note(format!(
                    "With a free number, for example {free}, it would be {}.",
                    refused_words(refusal)
                )),
            }
        }
        None => no_free_step(call, name, scene, &mut counsel),
    }
    counsel
}

/// All numbers of steps are in use: one exits first.
fn no_free_step(call: Call, name: &str, scene: Scene, counsel: &mut Counsel) {
    let monitor = scene.monitor;
    let mut first = None;
    let mut fit = Vec::new();
    for step in steps(monitor) {
        let calls = aim_after(monitor, &[Call::Exit { subject: step }], with_number(call, name, step));
        if let Some(calls) = calls {
            fit.push(scene.step(step));
            first.get_or_insert(calls);
        }
    }
    if let Some(calls) = first {
        counsel.way(
            format!(
                "all {STEPS} numbers are in use: let a step exit and use its number, {}.",
                some_of(&fit, "or")
            ),
            calls,
        );
    } else {
        counsel.note(format!("All {STEPS} numbers are in use, and it would be refused with each of them."));
    }
}

/// One new file or pipe, or the two pipes of a connect, by the names that the call has for their numbers. There is
/// always a free number; there may be no room for what would have it.
fn taken_objects(call: Call, names: &[&str], scene: Scene) -> Counsel {
    let mut counsel = Counsel::default();
    let monitor = scene.monitor;
    let free: Vec<u64> = free_objects(monitor).take(names.len()).collect();
    let with = names.iter().zip(&free).fold(call, |call, (name, &free)| with_number(call, name, free));
    let numbers = match free.len() {
        1 => format!("a free number, for example {}", free[0]),
        _ => format!("two free numbers, for example {} and {}", free[0], free[1]),
    };
    match refusal_of(monitor, with) {
        None => counsel.way(format!("use {numbers}."), vec![with]),
        Some(Refusal::TooManyObjects) => match room::ways(with, scene).into_iter().next() {
            Some((words, calls)) => counsel.way(format!("{words}; then use {numbers}."), calls),
            None => counsel.note(format!(
                "With {numbers} and room for it, it would be {}.",
                room::refused_with_room(with, scene)
            )),
        },
        Some(refusal) => {
            counsel.note(format!("With {numbers}, it would be {}.", refused_words(refusal)));
        }
    }
    counsel
}

/// RULES R4.
pub fn missing_object(call: Call, scene: Scene) -> Counsel {
    let mut counsel = Counsel::default();
    let monitor = scene.monitor;
    let object = number_of(call, "o").unwrap_or(0);
    if let Call::Retire { .. } = call {
        counsel.note("There is nothing to retire under this number.".to_string());
        return counsel;
    }
    register_first(call, object, scene, &mut counsel);
    let (fit, calls) = others(call, "o", objects(monitor), scene);
    if !fit.is_empty() {
        let words: Vec<String> = fit.iter().map(|&o| scene.object(o)).collect();
        counsel.way(format!("name one that is there: {}.", some_of(&words, "or")), calls);
    }
    counsel
}

/// The file that is missing, registered before the call. Where there is no room for it, room is made before that.
fn register_first(call: Call, object: u64, scene: Scene, counsel: &mut Counsel) {
    let monitor = scene.monitor;
    let file = format!("file {}", shown(object));
    let (room, first) = match too_many(monitor, 1) {
        0 => (String::new(), Vec::new()),
        _ => match room::cheapest(1, scene) {
            Some((words, calls)) => (format!("{words}; then "), calls),
            None => return,
        },
    };
    let register = |label: Label| [&first[..], &[Call::register(object, label)]].concat();
    match between_levels(|label| aim_after(monitor, &register(label), call)) {
        Some(between) => {
            let (at, when) = (level_words(&between, scene), once_open(&between.calls));
            let mind = no_higher(&between, scene);
            counsel.way(
                format!("{room}register {file} first, {at}; then the call is allowed{when}. {mind}"),
                between.calls,
            );
        }
        None => {
            let after = tried(monitor, &register(BEST)).ok();
            if let Some(refused) = after.and_then(|after| refused_here(&after, call)) {
                counsel.note(format!("With a {file} there, at level {HIGHEST}, it would be {refused}."));
            }
        }
    }
}

/// RULES R5.
pub fn named_pipe(call: Call, scene: Scene) -> Counsel {
    let mut counsel = Counsel::default();
    let monitor = scene.monitor;
    let object = number_of(call, "o").unwrap_or(0);
    let pipe = scene.object(object);
    match call {
        Call::Map { subject, place, .. } => {
            let open = Call::OpenRead { subject, object, place };
            match refusal_of(monitor, open) {
                None => counsel
                    .way(format!("open {pipe} for reading in place of that, and read it."), vec![open]),
                Some(refusal) => {
                    counsel.note(format!(
                        "To open {pipe} for reading in place of that would be {}.",
                        refused_words(refusal)
                    ));
                }
            }
        }
        Call::Retire { .. } => {
            if let Some((words, calls)) = freeing(object, scene) {
                counsel.way(format!("{words}."), calls);
            }
            return counsel;
        }
        _ => {}
    }
    let (fit, calls) = others(call, "o", objects(monitor).filter(|&o| is_file(monitor, o)), scene);
    if !fit.is_empty() {
        let words: Vec<String> = fit.iter().map(|&o| scene.object(o)).collect();
        counsel.way(format!("name a file: {}.", some_of(&words, "or")), calls);
    }
    counsel
}

/// RULES R6.
pub fn high_level(call: Call, scene: Scene) -> Counsel {
    let mut counsel = Counsel::default();
    let most = if matches!(call, Call::Freeze { .. }) { NO_FREEZE } else { HIGHEST };
    let is_level_fit = number_of(call, "level").is_some_and(|level| level <= most);
    let is_set_fit = number_of(call, "set").is_none_or(|set| set <= ALL_SHOPS.into());
    let call = if is_set_fit { call } else { with_number(call, "set", ALL_SHOPS.into()) };
    let is_fit = |level: u64| refusal_of(scene.monitor, with_number(call, "level", level)).is_none();
    if (0..=most).all(is_fit) {
        let text = match (most, is_level_fit, is_set_fit) {
            (NO_FREEZE, ..) => {
                format!("give a level from 0 to {HIGHEST}, or {NO_FREEZE} to open the books.")
            }
            (_, false, true) => format!("give a level from 0 to {HIGHEST}."),
            (_, true, _) => format!("give a set of shop marks from 0 to {ALL_SHOPS}."),
            (_, false, false) => {
                format!("give a level from 0 to {HIGHEST} and a set of shop marks from 0 to {ALL_SHOPS}.")
            }
        };
        let call = if is_level_fit { call } else { with_number(call, "level", most) };
        counsel.way(text, vec![call]);
    }
    counsel
}

/// RULES R16.
pub fn same_step(call: Call, scene: Scene) -> Counsel {
    let mut counsel = Counsel::default();
    let Call::Connect { subject, to, reading, writing, .. } = call else {
        return counsel;
    };
    let (fit, calls) = others(call, "t", steps(scene.monitor), scene);
    if !fit.is_empty() {
        let words: Vec<String> = fit.iter().map(|&s| scene.step(s)).collect();
        counsel.way(format!("name another step: {}.", some_of(&words, "or")), calls);
    }
    let pipe = Call::Pipe { subject, object: to, reads: reading, writes: writing };
    match refusal_of(scene.monitor, pipe) {
        None => counsel.way(
            format!(
                "let {} make pipe {}, which has both its ends at one step.",
                scene.step(subject),
                shown(to)
            ),
            vec![pipe],
        ),
        Some(refusal) if fit.is_empty() => counsel.note(format!(
            "With these numbers no step can be connected to {}, and a pipe would be {}.",
            scene.step(subject),
            refused_words(refusal)
        )),
        Some(_) => {}
    }
    counsel
}
