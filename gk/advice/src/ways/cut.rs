//! Which handles to close so that the flow rule no longer refuses a call: a least cut, found by a greatest flow.
//!
//! A call that is refused with 9 joins two sides: data that could come to it, and files that it could go on to. It is
//! let through once there is a label that everything on the first side is at least, and that is at least every file's on
//! the second side. For each such label the fewest handles are sought that keep everything below it away from the one side,
//! and that keep the other side away from every file that it is below. A handle of a mate costs more than all of the caller's own, and one of
//! another step more than all of these, so that the caller's are taken where they are enough. Between the threads of a step
//! nothing can be closed. What is found here is tried by the caller of these functions.

use gatekeeper::{Call, Label, State as Monitor};

use gk_chain::{shared, Things};

use crate::things::{handles, is_file, label, mates, objects, steps, Held, Thing, ALL_SHOPS};

/// Whose handles may be closed.
#[derive(Clone, Copy, Debug, PartialEq, Eq)]
pub enum Whose {
    Only(u64),
    Anyones,
}

/// What a handle of a mate costs, when one of the caller costs 1: more than all that a step can hold. And what one of
/// another step costs: more than all that the mates can hold.
const MATES: u64 = 32;
const OTHERS: u64 = 1 << 14;

/// The step that asks, and its mates.
pub struct Asker {
    step: u64,
    mates: Vec<u64>,
}

impl Asker {
    pub fn of(call: Call, monitor: &Monitor) -> Asker {
        let step = call.numbers()[0];
        Asker { step, mates: mates(monitor, step).collect() }
    }

    /// What the closing of a handle costs where this step asks.
    pub fn cost(&self, held: &Held) -> u64 {
        match held.step {
            step if step == self.step => 1,
            step if self.mates.contains(&step) => MATES,
            _ => OTHERS,
        }
    }
}

/// What cannot be closed costs more than all handles together.
const NEVER: u64 = 1 << 24;

/// The two nodes before those of the things.
const SOURCE: usize = 0;
const SINK: usize = 1;

/// The two sides that a call would join.
struct Sides {
    caller: u64,
    /// Where data comes in; for an exec nothing upstream is asked, and only the file's label counts.
    entries: Vec<Thing>,
    exits: Vec<Thing>,
    is_exec: bool,
}

impl Sides {
    fn of(call: Call) -> Option<Sides> {
        let (caller, entries, exits, is_exec) = match call {
            Call::OpenRead { subject, object, .. } | Call::Map { subject, object, .. } => {
                (subject, vec![Thing::Object(object)], vec![Thing::Step(subject)], false)
            }
            Call::OpenWrite { subject, object, .. } => {
                (subject, vec![Thing::Step(subject)], vec![Thing::Object(object)], false)
            }
            Call::Exec { subject, object } => {
                (subject, vec![Thing::Object(object)], vec![Thing::Step(subject)], true)
            }
            Call::Connect { subject, peer, .. } => {
                let both = vec![Thing::Step(subject), Thing::Step(peer)];
                (subject, both.clone(), both, false)
            }
            _ => return None,
        };
        Some(Sides { caller, entries, exits, is_exec })
    }
}

/// The cheapest handles found whose closing lets the flow rule pass the call, and none of `kept` among them; none where
/// no closing does.
pub fn closes(call: Call, monitor: &Monitor, whose: Whose, kept: &[Held]) -> Option<Vec<Held>> {
    let sides = Sides::of(call)?;
    let asker = Asker::of(call, monitor);
    // RULES R110: these go with the exec.
    let is_ended = |step: u64| sides.is_exec && asker.mates.contains(&step);
    let counted: Vec<Held> = handles(monitor)
        .filter(|held| {
            let ends = held.step == sides.caller && (held.handle.marked || held.is_mapping());
            !(sides.is_exec && ends || is_ended(held.step))
        })
        .collect();
    let cost_of = |held: &Held| match whose {
        _ if kept.contains(held) => NEVER,
        Whose::Only(step) if held.step != step => NEVER,
        _ => asker.cost(held),
    };
    let is_left = |thing: Thing| !matches!(thing, Thing::Step(step) if is_ended(step));
    let graph = Graph {
        things: Things::of(monitor, &[]),
        edges: counted.iter().map(|held| (*held, cost_of(held))).collect(),
        shared: shared(monitor)
            .into_iter()
            .filter(|&(one, other)| is_left(one) && is_left(other))
            .collect(),
    };
    let things: Vec<(Thing, Label)> = steps(monitor)
        .map(Thing::Step)
        .chain(objects(monitor).map(Thing::Object))
        .filter_map(|thing| label(monitor, thing).map(|label| (thing, label)))
        .collect();
    let of =
        |thing: Thing| things.iter().find(|(other, _)| *other == thing).map_or(Label::LEAST, |it| it.1);
    let is_label_of_file = |thing: Thing| matches!(thing, Thing::Object(o) if is_file(monitor, o));
    // Between two levels that occur, none is worth more than the lower one of them.
    let mut levels: Vec<u8> = things.iter().map(|&(_, label)| label.level).collect();
    levels.sort_unstable();
    levels.dedup();
    let files = things.iter().filter(|&&(thing, _)| is_label_of_file(thing));
    let sets =
        sets(files.map(|&(_, label)| label.shops), sides.entries.iter().map(|&thing| of(thing).shops));
    let mut best: Option<(u64, Vec<Held>)> = None;
    let labels = levels.iter().flat_map(|&level| sets.iter().map(move |&shops| Label { level, shops }));
    for between in labels {
        let is_high = |thing: Thing, label: Label| is_label_of_file(thing) && !between.at_least(label);
        if sides.entries.iter().any(|&thing| !of(thing).at_least(between))
            || sides.exits.iter().any(|&thing| is_high(thing, of(thing)))
        {
            continue;
        }
        let those = |is_one: &dyn Fn(Thing, Label) -> bool| -> Vec<Thing> {
            things.iter().filter(|&&(thing, label)| is_one(thing, label)).map(|&(thing, _)| thing).collect()
        };
        let coming = match sides.is_exec {
            true => Some((0, Vec::new())),
            false => graph.least_cut(&those(&|_, label| !label.at_least(between)), &sides.entries),
        };
        let going = graph.least_cut(&sides.exits, &those(&is_high));
        let (Some((one, mut cut)), Some((other, more))) = (coming, going) else {
            continue;
        };
        cut.extend(more.into_iter().filter(|held| !cut.contains(held)).collect::<Vec<Held>>());
        if best.as_ref().is_none_or(|(known, _)| one + other < *known) {
            best = Some((one + other, cut));
        }
    }
    best.map(|(_, cut)| cut)
}

/// Sets of shop marks that are looked at, at most: where there are more, some are left out, and what is found may close more
/// than it need.
const MOST_SETS: usize = 24;

/// The sets that some files have together, as far as all entries have them, the largest first. Any other set is worth no
/// more than one of these.
fn sets(files: impl Iterator<Item = u8>, entries: impl Iterator<Item = u8>) -> Vec<u8> {
    let common = entries.fold(ALL_SHOPS, |common, set| common & set);
    let mut single: Vec<u8> = files.filter(|set| set & !common == 0).chain([0]).collect();
    single.sort_unstable();
    single.dedup();
    let mut all = single.clone();
    let mut at = 0;
    while at < all.len() && all.len() < MOST_SETS {
        let here = all[at];
        for &set in &single {
            if !all.contains(&(here | set)) {
                all.push(here | set);
            }
        }
        at += 1;
    }
    all.truncate(MOST_SETS);
    all.sort_unstable_by_key(|set| (std::cmp::Reverse(set.count_ones()), *set));
    all
}

/// A flow network: edges with what room is left on them, each beside its own way back, and the edges out of each node.
struct Network {
    ends: Vec<(usize, u64)>,
    out: Vec<Vec<usize>>,
}

impl Network {
    fn new(nodes: usize) -> Network {
        Network { ends: Vec::new(), out: vec![Vec::new(); nodes] }
    }

    fn join(&mut self, from: usize, to: usize, room: u64) {
        let known = self.out[from].iter().copied().find(|&edge| edge % 2 == 0 && self.ends[edge].0 == to);
        match known {
            Some(edge) => self.ends[edge].1 += room,
            None => {
                self.out[from].push(self.ends.len());
                self.ends.push((to, room));
                self.out[to].push(self.ends.len());
                self.ends.push((from, 0));
            }
        }
    }

    /// What can still be reached from the source, breadth first: each node with the edge that leads to it.
    fn reached(&self) -> Vec<Option<usize>> {
        let mut by = vec![None; self.out.len()];
        let mut queue = vec![SOURCE];
        let mut next = 0;
        while next < queue.len() && by[SINK].is_none() {
            for &edge in &self.out[queue[next]] {
                let (to, room) = self.ends[edge];
                if room > 0 && by[to].is_none() && to != SOURCE {
                    by[to] = Some(edge);
                    queue.push(to);
                }
            }
            next += 1;
        }
        by
    }
}

/// The handles that are counted, each with what its closing costs, the flows between threads, and the things that these
/// join.
struct Graph {
    things: Things,
    edges: Vec<(Held, u64)>,
    shared: Vec<(Thing, Thing)>,
}

impl Graph {
    /// The node of a thing.
    fn node(&self, thing: Thing) -> Option<usize> {
        self.things.place(thing).map(|place| SINK + 1 + place)
    }

    /// The nodes that a handle joins.
    fn ends(&self, held: Held) -> Option<(usize, usize)> {
        let (from, to) = held.flow();
        self.node(from).zip(self.node(to))
    }

    fn network(&self, from: &[Thing], to: &[Thing]) -> Network {
        let mut network = Network::new(SINK + 1 + self.things.count());
        for &(held, cost) in &self.edges {
            if let Some((one, other)) = self.ends(held) {
                network.join(one, other, cost);
            }
        }
        for &(from, to) in &self.shared {
            if let Some((one, other)) = self.node(from).zip(self.node(to)) {
                network.join(one, other, NEVER);
            }
        }
        for node in from.iter().filter_map(|&thing| self.node(thing)) {
            network.join(SOURCE, node, NEVER);
        }
        for node in to.iter().filter_map(|&thing| self.node(thing)) {
            network.join(node, SINK, NEVER);
        }
        network
    }

    /// The cheapest handles without which no flow leads from the one set to the other, and what they cost; none where
    /// handles that cannot be closed join them.
    fn least_cut(&self, from: &[Thing], to: &[Thing]) -> Option<(u64, Vec<Held>)> {
        if from.is_empty() || to.is_empty() {
            return Some((0, Vec::new()));
        }
        let mut network = self.network(from, to);
        let mut total = 0;
        loop {
            let by = network.reached();
            if by[SINK].is_none() {
                let is_cut = |held: &Held| {
                    self.ends(*held).is_some_and(|(one, other)| by[one].is_some() && by[other].is_none())
                };
                return Some((total, self.edges.iter().map(|(held, _)| *held).filter(is_cut).collect()));
            }
            let mut way = Vec::new();
            let mut at = SINK;
            while let Some(edge) = by[at] {
                way.push(edge);
                at = network.ends[edge ^ 1].0;
            }
            let most = way.iter().map(|&edge| network.ends[edge].1).min().unwrap_or(0);
            for edge in way {
                network.ends[edge].1 -= most;
                network.ends[edge ^ 1].1 += most;
            }
            total += most;
            if total >= NEVER {
                return None;
            }
        }
    }
}
