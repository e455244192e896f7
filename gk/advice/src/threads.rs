//! The threads of a step in words: which they are, and which of them holds what.

use gk_chain::Link;

use crate::scene::{capital, listed, Scene};
use crate::things::{handles_of, mates, members, Held, Thing};
use crate::ways::places_words;

/// Handles of one thread that are named one by one.
const MOST_NAMED: usize = 4;

/// Steps in a row: "step 3, step 4 and step 5".
pub fn named(steps: &[u64], scene: Scene) -> String {
    let words: Vec<String> = steps.iter().map(|&s| scene.step(s)).collect();
    listed(&words, "and")
}

/// That steps are threads of one, and which of them holds what.
pub fn together(members: &[u64], scene: Scene) -> String {
    let has = if members.len() == 2 { "the other has, too" } else { "all of them have" };
    let who = capital(&named(members, scene));
    format!("{who} are threads of one step: what one of them has read, {has}. {}", holdings(members, scene))
}

/// Which of some threads holds what, as sentences.
pub fn holdings(members: &[u64], scene: Scene) -> String {
    let handles = |step: u64| -> Vec<Held> { handles_of(scene.monitor, step).collect() };
    let (holders, others): (Vec<u64>, Vec<u64>) =
        members.iter().partition(|&&step| !handles(step).is_empty());
    let holds = |&step: &u64| {
        let handles = handles(step);
        let what = match handles.len() {
            count if count > MOST_NAMED => format!("{count} handles"),
            _ => places_words(&handles, scene),
        };
        format!("{} holds {what}.", capital(&scene.step(step)))
    };
    let mut words: Vec<String> = holders.iter().map(holds).collect();
    match others[..] {
        [] => {}
        _ if holders.is_empty() => words.push("None of them holds anything.".to_string()),
        [one] => words.push(format!("{} holds nothing.", capital(&scene.step(one)))),
        _ => words.push("The others hold nothing.".to_string()),
    }
    words.join(" ")
}

/// The steps with threads that a chain goes through, from one of them to another: each told by [`together`].
pub fn in_chain(chain: &[(Link, String)], scene: Scene) -> Vec<String> {
    let steps = chain.windows(2).filter_map(|pair| match (pair[0].0.thing, pair[1].0.thing) {
        (Thing::Step(one), Thing::Step(other)) if mates(scene.monitor, one).any(|mate| mate == other) => {
            Some(one)
        }
        _ => None,
    });
    steps.map(|step| together(&members(scene.monitor, step), scene)).collect()
}
