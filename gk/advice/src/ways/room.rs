//! Ways out of refusal 17: room for new files and pipes is made by retiring a file, or by closing what is left of a pipe.

use gatekeeper::Call;

use super::closing::handle_words;
use super::{aim_after, close_calls, refused_here, some_of, tried, Counsel, MOST_NAMED};
use crate::scene::{listed, Scene};
use crate::things::{handles_on, is_file, is_pipe, objects, too_many, Held};

/// What is done first, in words to start with, and calls.
pub type First = (String, Vec<Call>);

/// RULES R17.
pub fn counsel(call: Call, scene: Scene) -> Counsel {
    let mut counsel = Counsel::default();
    let again = match call {
        Call::Register { .. } => "register it",
        Call::Create { .. } => "create it",
        Call::Connect { .. } => "connect them",
        _ => "make it",
    };
    for (words, calls) in ways(call, scene) {
        counsel.way(format!("{words}; {again} after that."), calls);
    }
    if counsel.ways.is_empty() {
        counsel.note(format!("With room for it, it would be {}.", refused_with_room(call, scene)));
    }
    counsel
}

/// What makes room for a call that is refused with 17: files are retired that nobody has open, or something else goes;
/// the calls that do it, and the call.
pub fn ways(call: Call, scene: Scene) -> Vec<First> {
    let (monitor, count) = (scene.monitor, wanted(call, scene));
    let idle = idle(scene);
    let mut ways = Vec::new();
    let retires =
        |files: &[u64]| -> Vec<Call> { files.iter().map(|&object| Call::Retire { object }).collect() };
    // Any of those that are named will do, and each choice of them has been tried.
    let named = &idle[..idle.len().min(MOST_NAMED)];
    let mut choices = choices(named, count).into_iter();
    if let Some(first) = choices.next().and_then(|files| aim_after(monitor, &retires(&files), call)) {
        if choices.all(|files| aim_after(monitor, &retires(&files), call).is_some()) {
            ways.push((retiring_words(&idle, count, scene), first));
        }
    }
    let is_left = |object: &u64| idle.len() < count || !idle.contains(object);
    let others = cheapest_of(objects(monitor).filter(is_left), count, scene);
    ways.extend(others.and_then(|(words, calls)| Some((words, aim_after(monitor, &calls, call)?))));
    ways
}

/// What a call would be refused with if there were room, to follow "it would be".
pub fn refused_with_room(call: Call, scene: Scene) -> String {
    let first = cheapest(wanted(call, scene), scene);
    let after = first.and_then(|(_, calls)| tried(scene.monitor, &calls).ok());
    let refused = after.and_then(|after| refused_here(&after, call));
    refused.unwrap_or_else(|| "refused all the same".to_string())
}

/// What makes room for so many new files and pipes with as few calls as can be.
pub fn cheapest(count: usize, scene: Scene) -> Option<First> {
    cheapest_of(objects(scene.monitor), count, scene)
}

/// What makes a file or pipe go: its handles are closed, and a file is retired.
pub fn freeing(object: u64, scene: Scene) -> Option<First> {
    let monitor = scene.monitor;
    let name = scene.object(object);
    let held: Vec<Held> = handles_on(monitor, object).collect();
    if is_pipe(monitor, object) {
        let calls = close_calls(&held);
        let is_gone = tried(monitor, &calls).ok()?.object(object).is_none();
        is_gone.then(|| (format!("close {}, with which {name} ends", handle_words(&held, scene)), calls))
    } else {
        let mut calls = close_calls(&held);
        calls.push(Call::Retire { object });
        let words = match held.is_empty() {
            true => format!("retire {name}, which nobody has open"),
            false => format!("close {} and retire {name}", handle_words(&held, scene)),
        };
        tried(monitor, &calls).is_ok().then_some((words, calls))
    }
}

/// How many files and pipes have to go for a call.
fn wanted(call: Call, scene: Scene) -> usize {
    let new = if matches!(call, Call::Connect { .. }) { 2 } else { 1 };
    too_many(scene.monitor, new)
}

/// The files that nobody has open.
fn idle(scene: Scene) -> Vec<u64> {
    let monitor = scene.monitor;
    objects(monitor).filter(|&o| is_file(monitor, o) && handles_on(monitor, o).next().is_none()).collect()
}

/// Each choice of one or two of some files.
fn choices(files: &[u64], count: usize) -> Vec<Vec<u64>> {
    match count {
        1 => files.iter().map(|&file| vec![file]).collect(),
        _ => {
            let pairs = files.iter().flat_map(|&one| files.iter().map(move |&other| vec![one, other]));
            pairs.filter(|pair| pair[0] < pair[1]).collect()
        }
    }
}

fn retiring_words(idle: &[u64], count: usize, scene: Scene) -> String {
    let names: Vec<String> = idle.iter().map(|&o| scene.object(o)).collect();
    if names.len() == count {
        return format!("retire {}, which nobody has open", listed(&names, "and"));
    }
    match count {
        1 => format!("retire a file that nobody has open, {}", some_of(&names, "or")),
        _ => format!("retire two files that nobody has open, {}", some_of(&names, "and")),
    }
}

/// The same of some of them.
fn cheapest_of(objects: impl Iterator<Item = u64>, count: usize, scene: Scene) -> Option<First> {
    let way = |object: u64| freeing(object, scene).map(|way| (is_file(scene.monitor, object), way));
    let mut ways: Vec<(bool, First)> = objects.filter_map(way).collect();
    // Of what takes as many calls, a pipe rather than a file.
    ways.sort_by_key(|&(is_file, (_, ref calls))| (calls.len(), is_file));
    if ways.len() < count {
        return None;
    }
    ways.truncate(count);
    let (words, calls): (Vec<String>, Vec<Vec<Call>>) = ways.into_iter().map(|(_, way)| way).unzip();
    Some((words.join(", and "), calls.concat()))
}
