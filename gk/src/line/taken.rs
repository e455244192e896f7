//! The three numbers that come with a line (RULES L7): those that were given, and else the lowest that fit.

use std::collections::BTreeSet;

use gk_advice::scene::Scene;
use gk_advice::things::{objects, steps, Thing, STEPS};
use gk_names::number::shown;

use super::calls::Numbers;
use super::reading::Pipeline;
use crate::names::Names;
use crate::text::paragraph;
use crate::trial::Start;

/// What was given; none where it is to be found.
#[derive(Clone, Copy, Debug, Default, PartialEq, Eq)]
pub struct Given {
    pub shell: Option<u64>,
    pub child: Option<u64>,
    pub pipe: Option<u64>,
}

/// The numbers, and a paragraph that says which they are and why. A line that was not read has no pipelines.
pub fn taken(given: Given, start: &Start, pipelines: &[Pipeline], names: &Names) -> (Numbers, String) {
    let monitor = &start.monitor;
    let children = pipelines.iter().map(|pipeline| pipeline.stages.len() as u64).max().unwrap_or(1);
    let shell = given.shell.or(steps(monitor).next()).unwrap_or(0);
    let is_free = |s: u64| s < STEPS && s != shell && monitor.subject(s).is_none();
    let row = (0..STEPS).find(|&first| (first..first + children).all(is_free));
    let child = given.child.or(row).or((0..STEPS).find(|&s| is_free(s))).unwrap_or(0);
    let numbers = Numbers {
        shell,
        child,
        pipe: given.pipe.unwrap_or_else(|| free_pipes(start, pipelines, children)),
    };

    let shell = match (given.shell, monitor.subject(shell)) {
        (Some(_), Some(_)) => "as given",
        (Some(_), None) => "as given, which is not there",
        (None, Some(_)) => "the lowest that is there",
        (None, None) => "and none is there",
    };
    let child = match (given.child, row) {
        (Some(_), _) => "as given",
        (None, Some(_)) => "the lowest that are free",
        (None, None) => "which are not all free: no others are",
    };
    let pipe = match given.pipe {
        _ if children == 1 => None,
        Some(_) => Some("as given"),
        None => Some("the lowest that are free and not in the line"),
    };
    (numbers, words(start, names, numbers, shell, child, pipe))
}

/// The lowest number from which on there are enough that no file or pipe has, nor the line: a pipe under a number of the
/// line would be taken for the file that is meant there.
fn free_pipes(start: &Start, pipelines: &[Pipeline], children: u64) -> u64 {
    let stages = pipelines.iter().flat_map(|pipeline| &pipeline.stages);
    let kept: BTreeSet<u64> =
        stages.flat_map(|stage| stage.objects()).chain(objects(&start.monitor)).collect();
    let wanted = children.max(2) - 1;
    (0..).find(|&first| (first..first + wanted).all(|o| !kept.contains(&o))).unwrap_or(0)
}

/// The numbers, each with why it is that one; where there is nothing to be said of pipes, none are made.
fn words(
    start: &Start,
    names: &Names,
    numbers: Numbers,
    shell: &str,
    child: &str,
    pipe: Option<&str>,
) -> String {
    let Start { monitor, records, .. } = start;
    let scene = Scene { monitor, record: records + 1, names, lives: &start.past.lives, unnamed: None };
    let tried = start.words();
    let pipe = pipe.map_or_else(
        || "No pipes.".to_string(),
        |why| format!("Pipes: from number {} on, {why}.", shown(numbers.pipe)),
    );
    let who = scene.whole(Thing::Step(numbers.shell));
    let first = shown(numbers.child);
    paragraph(
        "",
        &format!("{tried} Shell: {who}, {shell}. Children: from step {first} on, {child}. {pipe}"),
    )
}
