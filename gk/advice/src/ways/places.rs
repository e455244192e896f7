//! Ways out of refusals 7 and 8: another place, or a handle for the other direction.

use gatekeeper::Call;

use super::{aim, aim_after, once_open, refusal_of, refused_here, Counsel};
use crate::calls::{number_of, with_number};
use crate::scene::{capital, listed, Scene};
use crate::things::{empty_places, handles_of, Held, PLACES};

fn spaced(places: &[u64]) -> String {
    let words: Vec<String> = places.iter().map(u64::to_string).collect();
    words.join(", ")
}

/// RULES R7.
pub fn unfit(call: Call, scene: Scene) -> Counsel {
    match call {
        Call::Read { .. } | Call::Write { .. } | Call::Close { .. } | Call::Mark { .. } => {
            held_place(call, scene)
        }
        Call::Pipe { subject, .. } => two_places(call, &[subject], ["r", "w"], scene),
        Call::Connect { subject, peer, .. } => two_places(call, &[subject, peer], ["p", "q"], scene),
        _ => empty_place(call, scene),
    }
}

/// A place that has a handle, and one for this call.
fn held_place(call: Call, scene: Scene) -> Counsel {
    let mut counsel = Counsel::default();
    let (step, monitor) = (call.numbers()[0], scene.monitor);
    let fit: Vec<u64> = handles_of(monitor, step)
        .map(|held| held.place)
        .filter(|&place| refusal_of(monitor, with_number(call, "p", place)).is_none())
        .collect();
    let name = scene.step(step);
    match fit.first() {
        Some(&first) => {
            let verb = match call {
                Call::Read { .. } => "read",
                Call::Write { .. } => "write",
                Call::Close { .. } => "close",
                _ => "mark",
            };
            counsel.way(
                format!("name a place that {name} can {verb}: {}.", spaced(&fit)),
                vec![with_number(call, "p", first)],
            );
        }
        None if handles_of(monitor, step).next().is_none() => {
            counsel.note(format!("{} has no handle at all.", capital(&name)));
        }
        None => counsel.note(format!("{} has no handle for that.", capital(&name))),
    }
    counsel
}

/// An empty place for one handle.
fn empty_place(call: Call, scene: Scene) -> Counsel {
    let mut counsel = Counsel::default();
    let (step, monitor) = (call.numbers()[0], scene.monitor);
    let name = scene.step(step);
    let empty: Vec<u64> = empty_places(monitor, step).collect();
    let Some(&first) = empty.first() else {
        return full(call, step, scene);
    };
    let fit: Vec<u64> = empty
        .iter()
        .copied()
        .filter(|&place| aim(monitor, with_number(call, "p", place)).is_some())
        .collect();
    match fit.first().and_then(|&place| aim(monitor, with_number(call, "p", place))) {
        Some(calls) => {
            let when = once_open(&calls);
            counsel.way(format!("use an empty place of {name}{when}: {}.", spaced(&fit)), calls);
        }
        None => then_refused(
            with_number(call, "p", first),
            &format!("an empty place, for example {first}"),
            scene,
            &mut counsel,
        ),
    }
    counsel
}

/// What the same call would be refused with at places that are empty.
fn then_refused(call: Call, places: &str, scene: Scene, counsel: &mut Counsel) {
    if let Some(refused) = refused_here(scene.monitor, call) {
        counsel.note(format!("At {places}, it would be {refused}."));
    }
}

/// All places are taken: one is closed first.
fn full(call: Call, step: u64, scene: Scene) -> Counsel {
    let mut counsel = Counsel::default();
    let name = scene.step(step);
    let calls_for = |held: &Held| {
        let close = Call::Close { subject: step, place: held.place };
        aim_after(scene.monitor, &[close], with_number(call, "p", held.place))
    };
    let fit: Vec<Held> = handles_of(scene.monitor, step).filter(|held| calls_for(held).is_some()).collect();
    match fit.first().and_then(calls_for) {
        Some(calls) => {
            let places: Vec<u64> = fit.iter().map(|held| held.place).collect();
            let when = once_open(&calls);
            counsel.way(
                format!(
                    "all {PLACES} places of {name} are taken: close one and use it{when}. These will do: {}.",
                    spaced(&places)
                ),
                calls,
            );
        }
        None => {
            counsel.note(format!("All {PLACES} places of {name} are taken, and closing one is not enough."))
        }
    }
    counsel
}

/// Two places that are empty at every step concerned, by the names that the call has for them.
fn two_places(call: Call, steps: &[u64], names: [&str; 2], scene: Scene) -> Counsel {
    let mut counsel = Counsel::default();
    let monitor = scene.monitor;
    let at = |one: u64, other: u64| with_number(with_number(call, names[0], one), names[1], other);
    let is_empty = |place: u64| steps.iter().all(|&step| monitor.handle(step, place).is_none());
    let empty: Vec<u64> = (0..PLACES).filter(|&place| is_empty(place)).collect();
    let whose: Vec<String> = steps.iter().map(|&step| scene.step(step)).collect();
    let whose = listed(&whose, "and at");
    if let [one, other, ..] = empty[..] {
        let pairs = empty.iter().flat_map(|&one| empty.iter().map(move |&other| (one, other)));
        if pairs
            .filter(|(one, other)| one != other)
            .all(|(one, other)| refusal_of(monitor, at(one, other)).is_none())
        {
            let text = format!("use two places that are empty at {whose}: {}.", spaced(&empty));
            counsel.way(text, vec![at(one, other)]);
        } else {
            let places = format!("places that are empty at {whose}, for example {one} and {other}");
            then_refused(at(one, other), &places, scene, &mut counsel);
        }
        return counsel;
    }
    // Fewer than two: the two that take the fewest closes.
    let mut best: Option<Vec<Call>> = None;
    for one in 0..PLACES {
        for other in (0..PLACES).filter(|&other| other != one) {
            let closes: Vec<Call> = steps
                .iter()
                .flat_map(|&subject| [one, other].map(|place| (subject, place)))
                .filter(|&(subject, place)| monitor.handle(subject, place).is_some())
                .map(|(subject, place)| Call::Close { subject, place })
                .collect();
            let is_fewer = best.as_ref().is_none_or(|known| closes.len() + 1 < known.len());
            if let Some(calls) = aim_after(monitor, &closes, at(one, other)).filter(|_| is_fewer) {
                best = Some(calls);
            }
        }
    }
    match best {
        Some(calls) => {
            let closes: Vec<String> = calls
                .iter()
                .filter_map(|call| match *call {
                    Call::Close { subject, place } => {
                        Some(format!("place {place} of {}", scene.step(subject)))
                    }
                    _ => None,
                })
                .collect();
            let last = calls.last().copied().unwrap_or(call);
            let [one, other] = names.map(|name| number_of(last, name).unwrap_or(0));
            counsel.way(
                format!(
                    "close {}; then places {one} and {other} are empty at {whose}: use these.",
                    listed(&closes, "and")
                ),
                calls,
            );
        }
        None => counsel.note(format!("No two places can be made empty at {whose} so that it is allowed.")),
    }
    counsel
}

/// RULES R8.
pub fn wrong_direction(call: Call, scene: Scene) -> Counsel {
    let mut counsel = Counsel::default();
    let (Call::Read { subject, place } | Call::Write { subject, place }) = call else {
        return counsel;
    };
    let monitor = scene.monitor;
    let Some(object) = monitor.handle(subject, place).map(|handle| handle.object) else {
        return counsel;
    };
    let is_read = matches!(call, Call::Read { .. });
    let word = if is_read { "reading" } else { "writing" };
    let name = scene.step(subject);
    let fit: Vec<Held> = handles_of(monitor, subject)
        .filter(|held| {
            held.object() == object && refusal_of(monitor, with_number(call, "p", held.place)).is_none()
        })
        .collect();
    if let Some(first) = fit.first() {
        let places: Vec<u64> = fit.iter().map(|held| held.place).collect();
        counsel.way(
            format!("use its {word} handle on {}, at place {}.", scene.object(object), spaced(&places)),
            vec![with_number(call, "p", first.place)],
        );
        return counsel;
    }
    let Some(empty) = empty_places(monitor, subject).next() else {
        counsel.note(format!(
            "{} has no handle for {word} on {}, and no empty place.",
            capital(&name),
            scene.object(object)
        ));
        return counsel;
    };
    let open = match is_read {
        true => Call::OpenRead { subject, object, place: empty },
        false => Call::OpenWrite { subject, object, place: empty },
    };
    match aim(monitor, open).and_then(|calls| aim_after(monitor, &calls, with_number(call, "p", empty))) {
        Some(calls) => {
            let when = once_open(&calls);
            counsel.way(
                format!(
                    "open it for {word} at an empty place, for example {empty}{when}, and use that place."
                ),
                calls,
            );
        }
        None => {
            if let Some(refused) = refused_here(monitor, open) {
                counsel.note(format!("To open it for {word} as well would be {refused}."));
            }
        }
    }
    counsel
}
