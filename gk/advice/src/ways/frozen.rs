//! Ways out of a refusal 15: wait until the books are open, go on with a handle that is held, or write somewhere lower.
//! Where the open would be refused with 9 once they are open (RULES R117), to wait is not enough: the ways out of that
//! 9 take its place.

use gatekeeper::{Call, NO_FREEZE};

use super::{flow, some_of, tried, Counsel, MOST_NAMED};
use crate::scene::Scene;
use crate::things::{handles_on, is_file, objects};

pub fn counsel(call: Call, scene: Scene) -> Counsel {
    let mut counsel = Counsel::default();
    let mut later = Counsel::default();
    let Call::OpenWrite { subject, object, place } = call else {
        return counsel;
    };
    let monitor = scene.monitor;
    let calls = vec![Call::Freeze { level: NO_FREEZE }, call];
    if tried(monitor, &calls).is_ok() {
        counsel.way(
            format!("wait until the books are open again (freeze {NO_FREEZE}) and open it then."),
            calls,
        );
    } else {
        later = flow::counsel(call, scene);
        counsel.ways.append(&mut later.ways);
    }

    // A handle that is held is never cut off (RULES R118); those of the step that asks first.
    let mut held: Vec<(u64, u64)> = handles_on(monitor, object)
        .filter(|held| held.writes())
        .map(|held| (held.step, held.place))
        .filter(|&(subject, place)| tried(monitor, &[Call::Write { subject, place }]).is_ok())
        .collect();
    held.sort_by_key(|&(holder, _)| holder != subject);
    match held.first() {
        Some(&(first, at)) => {
            let words: Vec<String> = held
                .iter()
                .map(|&(holder, place)| format!("place {place} of {}", scene.step(holder)))
                .collect();
            let words = match words.len() > MOST_NAMED {
                true => format!("{}, or another", words[..MOST_NAMED].join(", ")),
                false => words.join(", or "),
            };
            counsel.way(
                format!("use a handle that is held and goes on writing: {words}."),
                vec![Call::Write { subject: first, place: at }],
            );
        }
        None => counsel.note(format!("Nobody has {} open for writing.", scene.object(object))),
    }

    let lower: Vec<u64> = objects(monitor)
        .filter(|&other| other != object && is_file(monitor, other))
        .filter(|&other| tried(monitor, &[Call::OpenWrite { subject, object: other, place }]).is_ok())
        .collect();
    if let Some(&first) = lower.first() {
        let words: Vec<String> = lower.iter().map(|&other| scene.object(other)).collect();
        counsel.way(
            format!("open a file that is not frozen: {}.", some_of(&words, "or")),
            vec![Call::OpenWrite { subject, object: first, place }],
        );
    }
    counsel.notes.append(&mut later.notes);
    counsel
}
