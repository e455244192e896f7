//! What is behind a refusal 9: RULES A1 to A13.
//!
//! The shortest chain of handles by which something would get into a file that it must not reach, found by a search from
//! the files backwards, a group taken as one; and the attack itself, made: the call is let through on a copy of the book,
//! the reads and writes of the chain follow under copying, and the file is looked at.
//!
//! The test for 9 itself is in `refusals` and `needs`, and is not used to find a chain.

use std::collections::btree_map::{BTreeMap, Entry};
use std::collections::VecDeque;
use std::fmt;

use crate::book::{copying, Book};
use crate::calls::{filled, Call, Numbers};
use crate::labels::Label;
use crate::monitor::{Answer, Monitor};
use crate::needs::{label, live_things, Flow, Needs, Thing};
use crate::records::Body;
use crate::refusals::{needs_for, refusal};
use crate::replies::{Content, Run};
use crate::tables::{Direction, Handle, Kind, Tables, LIMITS};
use crate::variants::chains::ChainRules;
use crate::variants::Rules;

/// RULES A4: how many reads and writes there may be.
pub const MOST_STEPS: usize = 95;

/// RULES A4: how many there may be behind this call; the run of an exec is one of the 95.
pub fn most_steps(call: Call) -> usize {
    match call {
        Call::Exec { .. } => MOST_STEPS - 1,
        _ => MOST_STEPS,
    }
}

/// RULES A10: what it starts from, the file that it leads to, and the places of the handles in between.
#[derive(Clone, Debug, PartialEq, Eq)]
pub struct Chain {
    pub low: Thing,
    pub high: u64,
    /// Each is 16 s + p: RULES T14.
    pub steps: Vec<u64>,
}

/// How many steps, what it starts from, the file, and the places: `2 o1 o0 5 4`, with s for a subject.
impl fmt::Display for Chain {
    fn fmt(&self, out: &mut fmt::Formatter<'_>) -> fmt::Result {
        write!(out, "{} ", self.steps.len())?;
        match self.low {
            Thing::Subject(s) => write!(out, "s{s}")?,
            Thing::Object(o) => write!(out, "o{o}")?,
        }
        write!(out, " o{}", self.high)?;
        self.steps.iter().try_for_each(|place| write!(out, " {place}"))
    }
}

/// RULES A12, A13: the chain behind a call, none where it is not answered with 9. Objects count by their numbers where
/// two chains are as short; where a host's slots are known, see `behind_by`.
pub fn behind(tables: &Tables, call: Call) -> Option<Chain> {
    let objects: Vec<u64> = tables.live_objects().collect();
    behind_by(tables, call, &objects, ChainRules::default())
}

/// The same by other rules, see `variants`, and with the live objects in the order in which they count: that of the slots
/// of a host (RULES A13).
pub fn behind_by(tables: &Tables, call: Call, objects: &[u64], rules: ChainRules) -> Option<Chain> {
    let needs = needs_for(tables, call, Rules::default(), &Needs::none(tables));
    let number = refusal(tables, call, &needs, Rules::default());
    if !rules.bend_asked(number == Some(9), number) {
        return None;
    }
    shortest(tables, call, objects, rules)
}

/// RULES A10, A11, A13: the shortest chain of a call whose numbers are in order, none where there is none.
pub fn shortest(tables: &Tables, call: Call, objects: &[u64], rules: ChainRules) -> Option<Chain> {
    let mut through = Monitor::of_tables(tables.clone(), Rules::default());
    let _ = through.let_through(call);
    let after = rules.bend_after(tables, call, through.tables().clone());
    let net = Net::of(&after, rules);
    // RULES A2, A3: where data starts, under which label, and what it is that starts there.
    let starts: Vec<(Thing, Label, Thing)> = match call {
        Call::Exec { s, o } => {
            let program = Thing::Object(o);
            label(tables, program).map(|label| (Thing::Subject(s), label, program)).into_iter().collect()
        }
        _ => {
            let subjects = tables.live_subjects().map(Thing::Subject);
            let things = subjects.chain(objects.iter().copied().map(Thing::Object));
            let with_label = |thing| Some((thing, label(tables, thing)?, thing));
            things.filter_map(with_label).collect()
        }
    };
    let starts = rules.bend_starts(tables, &after, call, starts);

    let mut known: Vec<(Label, Distances)> = Vec::new();
    let mut best: Option<(usize, Chain)> = None;
    for (start, label, low) in starts {
        let index = match known.iter().position(|(other, _)| *other == label) {
            Some(index) => index,
            None => {
                known.push((label, net.distances(&rules.bend_goals(label, goals(&after, label), &after))));
                known.len() - 1
            }
        };
        let distances = &known[index].1;
        let Some(&count) = distances.get(&net.party(start)).filter(|&&count| count > 0) else {
            continue;
        };
        if best.as_ref().is_none_or(|(fewest, _)| rules.wins(count, *fewest)) {
            best = net.walk(start, low, distances).map(|chain| (count, chain));
        }
    }
    best.map(|(_, chain)| rules.bend_chain(tables, call, chain))
}

/// RULES A2: the live files that this label is not at least.
fn goals(tables: &Tables, label: Label) -> Vec<u64> {
    let is_barred = |o: &u64| {
        tables
            .object(*o)
            .is_some_and(|object| object.kind == Kind::File && !label.is_at_least(object.label()))
    };
    tables.live_objects().filter(is_barred).collect()
}

/// How many handles it takes from a thing to the nearest goal; things from which none is reached are not in it.
type Distances = BTreeMap<Thing, usize>;

/// A handle as a flow between things, a group being its lowest member.
#[derive(Clone, Copy, Debug)]
struct Arc {
    from: Thing,
    to: Thing,
    place: u64,
}

/// The handles of tables, and for each subject the lowest number in its group.
struct Net {
    arcs: Vec<Arc>,
    leads: BTreeMap<u64, u64>,
    rules: ChainRules,
}

impl Net {
    fn of(tables: &Tables, rules: ChainRules) -> Net {
        let lead = |s: u64| tables.members(s).next().unwrap_or(s);
        let leads = tables.live_subjects().map(|s| (s, rules.bend_lead(s, lead(s)))).collect();
        let mut net = Net { arcs: Vec::new(), leads, rules };
        for (s, p, handle) in tables.handles() {
            let Flow { from, to } = Flow::of(s, handle);
            let place = s * LIMITS.places + p;
            net.arcs.push(Arc { from: net.party(from), to: net.party(to), place });
        }
        net
    }

    /// RULES A10: a group is one thing here.
    fn party(&self, thing: Thing) -> Thing {
        match thing {
            Thing::Subject(s) => Thing::Subject(self.leads.get(&s).copied().unwrap_or(s)),
            Thing::Object(_) => thing,
        }
    }

    /// Breadth first, from the goals against the flows.
    fn distances(&self, goals: &[u64]) -> Distances {
        let mut into: BTreeMap<Thing, Vec<Thing>> = BTreeMap::new();
        for arc in &self.arcs {
            into.entry(arc.to).or_default().push(arc.from);
        }
        let goals = goals.iter().map(|&o| Thing::Object(o));
        let mut distances: Distances = goals.clone().map(|goal| (goal, 0)).collect();
        let mut queue: VecDeque<Thing> = goals.collect();
        while let Some(thing) = queue.pop_front() {
            let next = distances[&thing] + 1;
            for &from in into.get(&thing).into_iter().flatten() {
                if let Entry::Vacant(entry) = distances.entry(from) {
                    entry.insert(next);
                    queue.push_back(from);
                }
            }
        }
        distances
    }

    /// RULES A13: from the start, at each thing by the lowest place that leads nearer. Where it starts from a subject,
    /// that is the member whose handle comes first.
    fn walk(&self, start: Thing, low: Thing, distances: &Distances) -> Option<Chain> {
        let mut at = self.party(start);
        let mut steps = Vec::new();
        while let Some(nearer) = distances.get(&at)?.checked_sub(1) {
            let leads_nearer = |arc: &&Arc| arc.from == at && distances.get(&arc.to) == Some(&nearer);
            let arcs = self.arcs.iter().filter(leads_nearer);
            let arc = self.rules.choose(arcs, |arc| arc.place)?;
            steps.push(arc.place);
            at = arc.to;
        }
        let Thing::Object(high) = at else {
            return None;
        };
        let first = *steps.first()? / LIMITS.places;
        let low = if let Thing::Subject(_) = low { Thing::Subject(first) } else { low };
        Some(Chain { low, high, steps })
    }
}

impl Chain {
    /// RULES A10: the calls 7 and 8 of the chain, each with its numbers, for these tables of after the call; none where
    /// there is no handle at a place.
    pub fn calls(&self, after: &Tables) -> Option<Vec<(u64, Numbers)>> {
        let call = |&place: &u64| {
            let (s, p) = seat(place);
            let code = match after.handle(s, p)?.direction {
                Direction::Reading => 7,
                Direction::Writing => 8,
            };
            Some((code, filled(&[s, p])))
        };
        self.steps.iter().map(call).collect()
    }
}

/// RULES T14: the subject and the place.
fn seat(place: u64) -> (u64, u64) {
    (place / LIMITS.places, place % LIMITS.places)
}

/// Says what is not so, unless it is.
fn hold(holds: bool, rule: &str, what: impl fmt::Display) -> Result<(), String> {
    if holds {
        Ok(())
    } else {
        Err(format!("RULES {rule}: {what}"))
    }
}

/// RULES A2 to A8, A10: makes the attack that a chain stands for, and says what is not so of it. The book is that of
/// before the call, whatever its contents are.
pub fn attack(book: &Book, call: Call, chain: &Chain) -> Result<(), String> {
    let before = book.monitor().tables();
    let Chain { low, high, steps } = chain;
    let low_label = label(before, *low).ok_or("RULES A2: what it starts from is not live")?;
    let file = before.object(*high).filter(|object| object.kind == Kind::File);
    let file = file.ok_or("RULES A2: what it leads to is not a live file")?;
    hold(!low_label.is_at_least(file.label()), "A2", "its label is at least that of the file")?;
    if let Call::Exec { o, .. } = call {
        hold(*low == Thing::Object(o), "A3", "it does not start from the program")?;
    }
    hold(steps.len() <= most_steps(call), "A4", format_args!("{} steps", steps.len()))?;

    let held = book.content(*low).ok_or("RULES B4: what it starts from holds nothing")?;
    let mut through = book.clone();
    through.let_through(call, &copying);
    let after = through.monitor().tables().clone();
    for &place in steps {
        let (s, p) = seat(place);
        let handle = after.handle(s, p);
        let was_open = handle.is_some() && before.handle(s, p) == handle;
        hold(was_open || is_sought(call, s, p, handle), "A5", format_args!("place {p} of subject {s}"))?;
    }
    leads_on(&after, call, chain)?;

    let calls = chain.calls(&after).ok_or("RULES A5: a place is empty")?;
    for (code, numbers) in calls {
        let answer = through.turn(code, numbers, 0, &copying);
        let is_refused = matches!(answer, Answer::Refused(_));
        hold(!is_refused, "A6", format_args!("{code} {} {}: {answer}", numbers[0], numbers[1]))?;
    }
    let arrived = through.content(Thing::Object(*high));
    hold(arrived == Some(held), "A8", format_args!("the file holds {arrived:?} and not {held}"))
}

/// RULES A5: the call would place this handle there.
fn is_sought(call: Call, s: u64, p: u64, handle: Option<Handle>) -> bool {
    let Some(handle) = handle else {
        return false;
    };
    let own_place = match call {
        Call::OpenRead { p, .. } | Call::OpenWrite { p, .. } | Call::Map { p, .. } => Some(p),
        _ => None,
    };
    let is_own = own_place == Some(p) && call.sought() == Some((s, handle));
    is_own || call.ends().contains(&(s, p, handle))
}

/// RULES A10: the first place leads on from what the chain starts from, each next one from where the one before it leads
/// to, or from a mate of that, and the last one to the file.
fn leads_on(after: &Tables, call: Call, chain: &Chain) -> Result<(), String> {
    let mut at = match call {
        Call::Exec { s, .. } => Thing::Subject(s),
        _ => chain.low,
    };
    for (step, &place) in chain.steps.iter().enumerate() {
        let (s, p) = seat(place);
        let handle = after.handle(s, p).ok_or("RULES A5: a place is empty")?;
        let Flow { from, to } = Flow::of(s, handle);
        let from_a_mate = match (at, from) {
            (Thing::Subject(s), Thing::Subject(t)) => step > 0 && after.are_mates(s, t),
            _ => false,
        };
        let leads_on = at == from || from_a_mate;
        hold(leads_on, "A10", format_args!("place {p} of subject {s} does not lead on from {at:?}"))?;
        at = to;
    }
    hold(at == Thing::Object(chain.high), "A10", format_args!("it leads to {at:?}"))
}

/// A record that was answered with 9, and the chain behind it.
#[derive(Clone, Debug, PartialEq, Eq)]
pub struct Found {
    pub position: u64,
    pub call: Call,
    pub chain: Option<Chain>,
}

impl Found {
    /// RULES A1: that there is a chain, and that it is an attack.
    pub fn check(&self, book: &Book) -> Result<(), String> {
        let chain = self.chain.as_ref().ok_or("RULES A1: there is none")?;
        attack(book, self.call, chain)
    }

    /// The position, and how many steps the chain has, 0 where there is none; `with_chain` all of it.
    pub fn line(&self, with_chain: bool) -> String {
        let position = self.position;
        match &self.chain {
            Some(chain) if with_chain => format!("{position} {chain}\n"),
            Some(chain) => format!("{position} {}\n", chain.steps.len()),
            None => format!("{position} 0\n"),
        }
    }
}

/// What `second why` writes of a journal: a line for each record that is answered with 9. Each chain has been made as an
/// attack; one that is none is an error.
pub fn lines(journal: &[u8], with_chain: bool) -> Result<String, String> {
    let mut lines = Ok(String::new());
    each(journal, ChainRules::default(), |found, book| {
        if let Ok(text) = &mut lines {
            match found.check(&book) {
                Ok(()) => text.push_str(&found.line(with_chain)),
                Err(what) => lines = Err(format!("record {}: {what}", found.position)),
            }
        }
    });
    lines
}

/// The same by other rules, see `variants`; nothing is made as an attack.
pub fn lines_by(journal: &[u8], with_chain: bool, rules: ChainRules) -> String {
    let mut lines = String::new();
    each(journal, rules, |found, _| lines.push_str(&found.line(with_chain)));
    lines
}

/// Looks at each record of a journal that is answered with 9. The book is that of before the record, and in it no two
/// things have one content.
pub fn each(journal: &[u8], rules: ChainRules, mut look: impl FnMut(&Found, Book)) {
    let mut run = Run::new(journal, Rules::default());
    while let Some(step) = run.next_step() {
        let (Content::Body(_, Body::Call { code, numbers }), Answer::Refused(number)) =
            (step.content, step.answer)
        else {
            continue;
        };
        let (true, Some(call)) = (rules.bend_asked(number == 9, Some(number)), Call::new(code, numbers))
        else {
            continue;
        };
        // A refused call has changed nothing: these are the tables before it.
        let tables = run.monitor().tables();
        let objects: Vec<u64> = tables.live_objects().collect();
        let chain = behind_by(tables, call, &objects, rules);
        let things: Vec<Thing> = live_things(tables).collect();
        let content = |thing| 1 + things.binary_search(&thing).unwrap_or(0) as u64;
        let book = Book::of(run.monitor().clone(), content);
        look(&Found { position: step.position, call, chain }, book);
    }
}
