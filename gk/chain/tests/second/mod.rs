//! A second opinion on the chain behind a refusal 9: a search of its own, breadth first from each thing, over the flows of a
//! moment. It shares nothing with the archive's but the tables that are looked at.

use std::collections::VecDeque;

use gatekeeper::{Kind, Label, State, Way, PLACES, SUBJECTS};
use gk_chain::{flow, mates, shared, sought, Thing, Things};

const EXEC: u64 = 10;
const CONNECT: u64 = 17;

/// A thing, what it is where it is no step, and its label.
type Known = (Thing, Option<Kind>, Label);

/// How many handles the shortest chain behind a call has, from one thread of a step to another taken as none; none where no
/// chain leads from a thing to a file that its label is not at least the label of. The call's numbers are in order.
pub fn fewest(monitor: &State, code: u64, numbers: [u64; 6]) -> Option<usize> {
    let sought = sought(code, numbers);
    let things = Things::of(monitor, &sought);
    let known = known(monitor, code, numbers, &things);
    let next = next(monitor, code, numbers, &things);
    let starts: Vec<(usize, Label)> = match code {
        // That of an exec starts at the file, since no other label is asked about (RULES R9); running it is no handle.
        EXEC => vec![(things.place(Thing::Object(numbers[1]))?, monitor.object(numbers[1])?.label)],
        _ => {
            let there = things.all().enumerate().filter(|&(_, thing)| is_there(monitor, thing));
            there.filter_map(|(at, _)| Some((at, known[at]?.2))).collect()
        }
    };
    starts.into_iter().filter_map(|(at, label)| way_up(at, label, &known, &next)).min()
}

fn is_there(monitor: &State, thing: Thing) -> bool {
    match thing {
        Thing::Step(s) => monitor.subject(s).is_some(),
        Thing::Object(o) => monitor.object(o).is_some(),
    }
}

/// All things by place, with the pipes that a connect would make: each has its writer's label (RULES C17).
fn known(monitor: &State, code: u64, numbers: [u64; 6], things: &Things) -> Vec<Option<Known>> {
    let [s, peer, to, from, ..] = numbers;
    let of = |thing: Thing| match thing {
        Thing::Step(s) => Some((thing, None, monitor.subject(s)?)),
        Thing::Object(o) if code == CONNECT && o == to => {
            Some((thing, Some(Kind::Pipe), monitor.subject(s)?))
        }
        Thing::Object(o) if code == CONNECT && o == from => {
            Some((thing, Some(Kind::Pipe), monitor.subject(peer)?))
        }
        Thing::Object(o) => monitor.object(o).map(|object| (thing, Some(object.kind), object.label)),
    };
    things.all().map(of).collect()
}

/// For each thing, by place, to which things data could flow from it, with the flows that the call would add, and whether
/// a handle is used for it. An exec is asked without the step's own marked handles and mappings, and without its mates and
/// their handles (RULES R110).
fn next(monitor: &State, code: u64, numbers: [u64; 6], things: &Things) -> Vec<Vec<(usize, bool)>> {
    let ended: Vec<u64> = if code == EXEC { mates(monitor, numbers[0]).collect() } else { Vec::new() };
    let is_ended = |thing: Thing| matches!(thing, Thing::Step(s) if ended.contains(&s));
    let between = shared(monitor).into_iter().filter(|&(from, to)| !is_ended(from) && !is_ended(to));
    let mut flows: Vec<((Thing, Thing), bool)> = between.map(|flow| (flow, false)).collect();
    flows.extend(sought(code, numbers).into_iter().map(|flow| (flow, code != EXEC)));
    for s in (0..SUBJECTS).filter(|s| !ended.contains(s)) {
        let is_exec = code == EXEC && s == numbers[0];
        let held = (0..PLACES).filter_map(|place| monitor.handle(s, place));
        let counted = held.filter(|handle| !(is_exec && (handle.marked || handle.way == Way::Maps)));
        flows.extend(counted.map(|handle| (flow(s, handle), true)));
    }
    let mut next = vec![Vec::new(); things.count()];
    for ((from, to), is_handle) in flows {
        if let (Some(from), Some(to)) = (things.place(from), things.place(to)) {
            next[from].push((to, is_handle));
        }
    }
    next
}

/// The fewest handles from a thing to a file that this label is not at least the label of.
fn way_up(
    start: usize,
    label: Label,
    known: &[Option<Known>],
    next: &[Vec<(usize, bool)>],
) -> Option<usize> {
    let mut fewest = vec![None; known.len()];
    let mut waiting = VecDeque::from([(start, 0)]);
    while let Some((here, count)) = waiting.pop_front() {
        if fewest[here].is_some() {
            continue;
        }
        fewest[here] = Some(count);
        if matches!(known[here], Some((_, Some(Kind::File), high)) if !label.at_least(high)) {
            return Some(count);
        }
        for &(there, is_handle) in &next[here] {
            // What takes no handle is as near as where it comes from.
            match is_handle {
                true => waiting.push_back((there, count + 1)),
                false => waiting.push_front((there, count)),
            }
        }
    }
    None
}
