//! Handles to close: which of them are enough for a call that was refused with 9, and how that is said.

use std::cmp::Reverse;

use gatekeeper::{Call, Refusal, State as Monitor};

use super::cut::{self, Asker, Whose};
use super::{aim_after, close_calls, refusal_of, tried, Counsel};
use crate::scene::{capital, listed, way_word, Scene};
use crate::things::{handles, handles_on, is_pipe, objects, Held, Thing};

/// A set of closes, with the calls that try it.
pub struct Closes {
    pub handles: Vec<Held>,
    /// The closes, the books opened where they are closed, and the call.
    pub calls: Vec<Call>,
}

/// Handles whose closing lets a call that was refused with 9 through, none of them needless; none where no set of
/// closes does. `whose` says which handles may be closed.
pub fn enough(call: Call, monitor: &Monitor, whose: Whose) -> Option<Closes> {
    let asker = Asker::of(call, monitor);
    let calls_for = |set: &[Held]| aim_after(monitor, &close_calls(set), call);
    let may_close = |held: &Held| match whose {
        Whose::Only(step) => held.step == step,
        Whose::Anyones => true,
    };
    let mut found = cut::closes(call, monitor, whose, &[]).filter(|set| calls_for(set).is_some());
    if found.is_none() {
        // A pipe ends with its last handle, and a call on it is refused then: one handle on it has to stay.
        let kept: Vec<Vec<Held>> = match call {
            Call::OpenRead { object, .. } | Call::OpenWrite { object, .. } if is_pipe(monitor, object) => {
                let mut each: Vec<Held> = handles_on(monitor, object).collect();
                each.dedup_by_key(|held| held.flow());
                each.into_iter().map(|held| vec![held]).collect()
            }
            _ => vec![Vec::new()],
        };
        for kept in kept {
            let all = || handles(monitor).filter(|held| may_close(held) && !kept.contains(held)).collect();
            // A call that closing everything does not help is helped by no closing: flows only become fewer.
            let set: Vec<Held> = cut::closes(call, monitor, whose, &kept)
                .filter(|set| calls_for(set).is_some())
                .unwrap_or_else(all);
            let total = |set: &[Held]| set.iter().map(|held| asker.cost(held)).sum::<u64>();
            let is_better = found.as_ref().is_none_or(|known| total(&set) < total(known));
            if is_better && calls_for(&set).is_some() {
                found = Some(set);
            }
        }
    }
    let mut set = found?;
    // What proves needless is left out, others' handles first: all that let the same flow through, or none of them.
    set.sort_by_key(|held| (Reverse(asker.cost(held)), held.step, held.flow(), held.place));
    let mut flows: Vec<(Thing, Thing)> = set.iter().map(|held| held.flow()).collect();
    flows.dedup();
    for flow in flows {
        let fewer: Vec<Held> = set.iter().copied().filter(|held| held.flow() != flow).collect();
        if calls_for(&fewer).is_some() {
            set = fewer;
        }
    }
    set.sort_by_key(|held| (asker.cost(held), held.step, held.place));
    let calls = calls_for(&set)?;
    Some(Closes { handles: set, calls })
}

/// Handles by step, and of each step by what they are for: "place 1 (writing pipe 37) and places 2, 4 (writing file 0) of
/// step 17, and place 3 (reading pipe 37) of step 18".
pub fn handle_words(handles: &[Held], scene: Scene) -> String {
    let mut steps: Vec<u64> = handles.iter().map(|held| held.step).collect();
    steps.dedup();
    let of_step = |step: u64| {
        let own: Vec<Held> = handles.iter().filter(|held| held.step == step).copied().collect();
        format!("{} of {}", places_words(&own, scene), scene.step(step))
    };
    steps.into_iter().map(of_step).collect::<Vec<String>>().join(", and ")
}

/// Handles of one step by what they are for: "place 1 (writing pipe 37) and places 2, 4 (writing file 0)".
pub fn places_words(handles: &[Held], scene: Scene) -> String {
    let mut groups: Vec<(Held, Vec<String>)> = Vec::new();
    for held in handles {
        let is_like = |other: &Held| other.object() == held.object() && other.handle.way == held.handle.way;
        match groups.iter_mut().find(|(first, _)| is_like(first)) {
            Some((_, places)) => places.push(held.place.to_string()),
            None => groups.push((*held, vec![held.place.to_string()])),
        }
    }
    let words: Vec<String> = groups
        .into_iter()
        .map(|(held, places)| {
            let word = if places.len() == 1 { "place" } else { "places" };
            let way = way_word(held.handle.way);
            format!("{word} {} ({way} {})", places.join(", "), scene.object(held.object()))
        })
        .collect();
    listed(&words, "and")
}

/// The pipes that end where these handles are closed.
pub fn ended_words(handles: &[Held], scene: Scene) -> String {
    let Ok(after) = tried(scene.monitor, &close_calls(handles)) else {
        return String::new();
    };
    let ended: Vec<String> = objects(scene.monitor)
        .filter(|&o| after.object(o).is_none())
        .map(|o| capital(&scene.object(o)))
        .collect();
    match ended.len() {
        0 => String::new(),
        1 => format!(" {} ends with that.", ended[0]),
        _ => format!(" {} end with that.", listed(&ended, "and")),
    }
}

/// What is to be minded where a handle is closed that cannot be had again before the books are open.
pub fn closed_for_good(set: &[Held], scene: Scene) -> Option<String> {
    let after = tried(scene.monitor, &close_calls(set)).ok()?;
    let lost = set.iter().find(|held| {
        let again = Call::OpenWrite { subject: held.step, object: held.object(), place: held.place };
        held.writes() && refusal_of(&after, again) == Some(Refusal::Frozen)
    })?;
    let file = scene.object(lost.object());
    Some(format!("Mind: {file}, once closed, is not opened for writing again before the books are open."))
}

/// RULES R10: a file to retire on which there are handles.
pub fn still_open(call: Call, scene: Scene) -> Counsel {
    let mut counsel = Counsel::default();
    let Call::Retire { object } = call else {
        return counsel;
    };
    let held: Vec<Held> = handles_on(scene.monitor, object).collect();
    if let Some(calls) = aim_after(scene.monitor, &close_calls(&held), call) {
        counsel.way(format!("close {}; retire it after that.", handle_words(&held, scene)), calls);
    }
    let mut steps: Vec<u64> = held.iter().map(|held| held.step).collect();
    steps.dedup();
    let exits: Vec<Call> = steps.iter().map(|&subject| Call::Exit { subject }).collect();
    if let Some(calls) = aim_after(scene.monitor, &exits, call) {
        let words: Vec<String> = steps.iter().map(|&s| scene.thing(Thing::Step(s))).collect();
        counsel.way(format!("let {} exit; retire it after that.", listed(&words, "and")), calls);
    }
    counsel
}
