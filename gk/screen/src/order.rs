//! In which order things stand in the graph: those that were joined longest beside each other, so that a chain of pipes
//! is a line to look at.

use std::collections::BTreeMap;

use crate::state::{flow, State, Thing};

/// What a refused flow weighs: as much as one that was open for so many records.
const REFUSED: u64 = 20;

/// How long a step and a file or pipe were joined.
#[derive(Clone, Copy, Default)]
struct Join {
    /// Records for which data could go from the step to the object, and back.
    open: [u64; 2],
    /// What the refused flows between them weigh.
    refused: u64,
}

/// How long each two things were joined.
#[derive(Default)]
pub struct Joins {
    /// By step and object.
    joins: BTreeMap<(u64, u64), Join>,
    /// The record at which a thing was there first.
    first: BTreeMap<Thing, u64>,
}

impl Joins {
    pub fn new() -> Joins {
        Joins::default()
    }

    /// A state that held for so many records, from one on.
    pub fn hold(&mut self, state: &State, from: u64, records: u64) {
        for (s, _, handle) in state.handles() {
            let (start, end) = flow(s, handle);
            if let Some((pair, back)) = pair(start, end) {
                self.joins.entry(pair).or_default().open[back] += records;
            }
        }
        let steps = state.steps().map(|(s, _)| Thing::Step(s));
        for thing in steps.chain(state.objects().map(|(o, _)| Thing::Object(o))) {
            let first = self.first.entry(thing).or_insert(from);
            *first = from.min(*first);
        }
    }

    /// A flow that was refused.
    pub fn refuse(&mut self, from: Thing, to: Thing) {
        if let Some((pair, _)) = pair(from, to) {
            self.joins.entry(pair).or_default().refused += REFUSED;
        }
    }

    /// Pairs that were joined, the longest first; with those that were refused, or without.
    fn pairs(&self, with_refused: bool) -> Vec<(Thing, Thing, u64)> {
        let mut pairs: Vec<(Thing, Thing, u64)> = Vec::new();
        for (&(s, o), join) in &self.joins {
            let (s, o, [there, back]) = (Thing::Step(s), Thing::Object(o), join.open);
            let refused = if with_refused { join.refused } else { 0 };
            if there + back + refused > 0 {
                let (from, to) = if there >= back { (s, o) } else { (o, s) };
                pairs.push((from, to, there + back + refused));
            }
        }
        pairs.sort_by_key(|&(_, _, weight)| std::cmp::Reverse(weight));
        pairs
    }

    /// All things that were ever there, in the order of the graph.
    pub fn order(&self) -> Vec<Thing> {
        // Pairs are joined end to end, the longest first, to lines without a fork.
        let mut line: BTreeMap<Thing, usize> = self.first.keys().copied().zip(0..).collect();
        let mut lines: Vec<Vec<Thing>> = self.first.keys().map(|&thing| vec![thing]).collect();
        for (from, to, _) in self.pairs(false) {
            let (Some(&one), Some(&other)) = (line.get(&from), line.get(&to)) else {
                continue;
            };
            let is_end =
                |line: &[Thing], thing| line.first() == Some(&thing) || line.last() == Some(&thing);
            if one == other || !is_end(&lines[one], from) || !is_end(&lines[other], to) {
                continue;
            }
            let (mut front, mut back) =
                (std::mem::take(&mut lines[one]), std::mem::take(&mut lines[other]));
            if front.last() != Some(&from) {
                front.reverse();
            }
            if back.first() != Some(&to) {
                back.reverse();
            }
            front.append(&mut back);
            for &thing in &front {
                line.insert(thing, one);
            }
            lines[one] = front;
        }
        let appeared = |things: &[Thing]| things.iter().filter_map(|thing| self.first.get(thing)).min();
        lines.retain(|things| !things.is_empty());
        for things in &mut lines {
            if self.runs_back(things) {
                things.reverse();
            }
        }
        lines.sort_by_key(|things| appeared(things));
        lines.concat()
    }

    /// Whether more data goes against the order of a line than with it.
    fn runs_back(&self, things: &[Thing]) -> bool {
        let (mut with, mut against) = (0, 0);
        for two in things.windows(2) {
            if let Some((pair, back)) = pair(two[0], two[1]) {
                let open = self.joins.get(&pair).map_or([0; 2], |join| join.open);
                with += open[back];
                against += open[1 - back];
            }
        }
        against > with
    }

    /// For each thing the one that it was joined to longest.
    pub fn nearest(&self) -> BTreeMap<Thing, Thing> {
        let mut nearest = BTreeMap::new();
        for (from, to, _) in self.pairs(true) {
            nearest.entry(from).or_insert(to);
            nearest.entry(to).or_insert(from);
        }
        nearest
    }
}

/// A pair as step and object, and 1 where the flow is from the object to the step.
fn pair(from: Thing, to: Thing) -> Option<((u64, u64), usize)> {
    match (from, to) {
        (Thing::Step(s), Thing::Object(o)) => Some(((s, o), 0)),
        (Thing::Object(o), Thing::Step(s)) => Some(((s, o), 1)),
        _ => None,
    }
}

#[cfg(test)]
mod tests {
    use super::*;
    use gatekeeper::{Monitor, Refusal};

    #[test]
    fn a_chain_is_a_line_in_the_direction_of_the_data() -> Result<(), Refusal> {
        let mut monitor = Monitor::new();
        monitor.register(9, 5, 255).granted()?;
        for s in [7, 3, 5] {
            monitor.admit(s, 9, 255).granted()?;
        }
        // Step 7 to pipe 1 to step 3 to pipe 0 to step 5 to file 9.
        monitor.pipe(7, 1, 0, 1).granted()?;
        monitor.open_read(3, 1, 0).granted()?;
        monitor.pipe(3, 0, 5, 6).granted()?;
        monitor.open_read(5, 0, 0).granted()?;
        let mut joins = Joins::new();
        joins.hold(&State::of(&gatekeeper::State::from(&monitor)), 1, 3);
        monitor.close(7, 0).granted()?;
        monitor.close(3, 5).granted()?;
        monitor.open_write(5, 9, 1).granted()?;
        joins.hold(&State::of(&gatekeeper::State::from(&monitor)), 4, 90);
        use Thing::{Object, Step};
        assert_eq!(joins.order(), [Step(7), Object(1), Step(3), Object(0), Step(5), Object(9)]);
        assert_eq!(joins.nearest().get(&Object(9)), Some(&Step(5)));
        Ok(())
    }
}
