//! The chain behind a refusal 9, on bytes and on the struct: the cases of March, and drawn calls, of which each chain is
//! followed step by step in the tables that the call would have left, and held to a search of its own for the fewest steps.

use std::collections::{HashMap, HashSet};

use gatekeeper::{Answer, Call, Chain, Front, Kind, Label, Monitor, Refusal, State, Step, Way};
use gatekeeper::{ALL_SHOPS, PLACES, STATE_BYTES, STEPS, SUBJECTS};
use gatekeeper_independent::random::Random;

const SEED: u64 = 1;

/// How many calls are drawn, and how many of them go to the same monitor.
const DRAWN_CALLS: usize = 20_000;
const DRAWN_CALLS_IN_A_ROW: usize = 400;
/// On how many drawn states the chains are asked for.
const DRAWN_STATES: usize = 400;

/// A monitor of bytes, and one that is a struct.
#[derive(Default)]
struct Both {
    monitor: Monitor,
    state: State,
}

impl Both {
    /// After calls that are not refused.
    #[track_caller]
    fn after(calls: &[Call]) -> Both {
        let mut both = Both::default();
        for &call in calls {
            assert!(both.call(call).granted().is_ok(), "{call:?}");
        }
        both
    }

    #[track_caller]
    fn call(&mut self, call: Call) -> Answer {
        let answer = self.monitor.call(call);
        assert_eq!(self.state.call(call), answer, "{call:?} on the struct");
        answer
    }

    /// The chain behind a call, of both, which stay as they are.
    #[track_caller]
    fn why(&self, call: Call) -> Option<Chain> {
        let before = (self.monitor.clone(), self.state.clone());
        let chain = self.monitor.why(call);
        assert_eq!(self.state.why(call), chain, "{call:?} on the struct");
        assert_eq!(
            self.state.unsure().why(call),
            chain,
            "{call:?} on a struct that says nothing of itself"
        );
        assert!((&self.monitor, &self.state) == (&before.0, &before.1), "{call:?} changed something");
        chain
    }

    /// The call is refused with 9, and this chain stands behind it.
    #[track_caller]
    fn told(&mut self, call: Call, front: Front, steps: &[(u64, u64)], file: u64) {
        let chain = self.why(call);
        assert_eq!(self.call(call), Answer::Refused(Refusal::Flow), "{call:?}");
        let steps = steps.iter().map(|&(subject, place)| Step { subject, place }).collect();
        assert_eq!(chain, Some(Chain { front, file, steps }), "{call:?}");
        followed(&self.state, call, &chain.expect("there is one"));
    }
}

// The objects of March.
const SHEET: u64 = 1;
const BOOK: u64 = 7;
const PROGRAM: u64 = 20;
const PIPE: u64 = 1 << 40;

fn admit(subject: u64, level: u64) -> Call {
    Call::Admit { subject, level, shops: ALL_SHOPS }
}

fn register(object: u64, level: u64) -> Call {
    Call::Register { object, level, shops: ALL_SHOPS }
}

/// Step 0 of level 9, the pay book of level 9, an hours sheet of level 2 and a program of level 2.
const MARCH: [Call; 4] = [
    Call::Admit { subject: 0, level: 9, shops: ALL_SHOPS },
    Call::Register { object: BOOK, level: 9, shops: ALL_SHOPS },
    Call::Register { object: SHEET, level: 2, shops: ALL_SHOPS },
    Call::Register { object: PROGRAM, level: 2, shops: ALL_SHOPS },
];

fn march(more: &[Call]) -> Both {
    Both::after(&[&MARCH, more].concat())
}

#[test]
fn from_the_sheet_by_the_step_into_the_pay_book() {
    let mut both = march(&[Call::OpenWrite { subject: 0, object: BOOK, place: 3 }]);
    let steps = [(0, 4), (0, 3)];
    both.told(Call::OpenRead { subject: 0, object: SHEET, place: 4 }, Front::Object(SHEET), &steps, BOOK);
    both.told(Call::Map { subject: 0, object: SHEET, place: 4 }, Front::Object(SHEET), &steps, BOOK);

    // The other way round: the sheet is open, and the pay book is asked for.
    let mut both = march(&[Call::OpenRead { subject: 0, object: SHEET, place: 4 }]);
    let call = Call::OpenWrite { subject: 0, object: BOOK, place: 3 };
    both.told(call, Front::Object(SHEET), &steps, BOOK);
    // Once the sheet is read, the step itself has the lower label, and one step is enough.
    assert_eq!(both.call(Call::Read { subject: 0, place: 4 }), Answer::Lowered { level: 2, lost: 0 });
    both.told(call, Front::Subject(0), &[(0, 3)], BOOK);
}

#[test]
fn through_a_pipe_to_another_step() {
    let mut both = march(&[
        Call::Pipe { subject: 0, object: PIPE, reads: 0, writes: 1 },
        Call::Fork { subject: 0, child: 1 },
        Call::OpenWrite { subject: 1, object: BOOK, place: 5 },
    ]);
    let call = Call::OpenRead { subject: 0, object: SHEET, place: 6 };
    both.told(call, Front::Object(SHEET), &[(0, 6), (0, 1), (1, 0), (1, 5)], BOOK);
    // Without the pipe's end the sheet gets no further than to step 0.
    assert!(both.call(Call::Close { subject: 0, place: 1 }).granted().is_ok());
    assert_eq!(both.why(call), None);
    assert!(both.call(call).granted().is_ok());
}

#[test]
fn from_a_program_by_the_step_that_runs_it() {
    let mut both = march(&[Call::OpenWrite { subject: 0, object: BOOK, place: 5 }]);
    let call = Call::Exec { subject: 0, object: PROGRAM };
    both.told(call, Front::Object(PROGRAM), &[(0, 5)], BOOK);
    // A marked handle ends when the program is run.
    assert!(both.call(Call::Mark { subject: 0, place: 5 }).granted().is_ok());
    assert_eq!(both.why(call), None);
}

#[test]
fn threads_are_one() {
    let mut both = march(&[
        Call::Thread { subject: 0, member: 2 },
        Call::OpenWrite { subject: 2, object: BOOK, place: 5 },
    ]);
    let call = Call::OpenRead { subject: 0, object: SHEET, place: 6 };
    both.told(call, Front::Object(SHEET), &[(0, 6), (2, 5)], BOOK);
    // An exec ends the mate, and its handle with it.
    assert_eq!(both.why(Call::Exec { subject: 0, object: PROGRAM }), None);
    // A chain from a subject starts at the member that has the handle.
    assert!(both.call(Call::Close { subject: 2, place: 5 }).granted().is_ok());
    assert!(both.call(call).granted().is_ok());
    assert!(both.call(Call::Read { subject: 0, place: 6 }).granted().is_ok());
    both.told(Call::OpenWrite { subject: 2, object: BOOK, place: 5 }, Front::Subject(2), &[(2, 5)], BOOK);
}

#[test]
fn by_a_channel() {
    let mut both = march(&[admit(1, 2), Call::OpenWrite { subject: 0, object: BOOK, place: 5 }]);
    let call = Call::Connect { subject: 0, peer: 1, to: 100, from: 101, reading: 2, writing: 3 };
    both.told(call, Front::Subject(1), &[(1, 3), (0, 2), (0, 5)], BOOK);
    let call = Call::Connect { subject: 1, peer: 0, to: 100, from: 101, reading: 2, writing: 3 };
    both.told(call, Front::Subject(1), &[(1, 3), (0, 2), (0, 5)], BOOK);
}

#[test]
fn a_shop_mark_is_enough() {
    let mut both = Both::after(&[
        Call::Admit { subject: 0, level: 9, shops: 1 },
        Call::Register { object: BOOK, level: 9, shops: 3 },
    ]);
    both.told(Call::OpenWrite { subject: 0, object: BOOK, place: 0 }, Front::Subject(0), &[(0, 0)], BOOK);
}

#[test]
fn nothing_is_told_of_any_other_call() {
    let both = march(&[Call::OpenWrite { subject: 0, object: BOOK, place: 3 }, Call::Freeze { level: 9 }]);
    for call in [
        admit(1, 9),                                            // allowed
        register(2, 9),                                         // allowed
        Call::OpenRead { subject: 1, object: SHEET, place: 4 }, // 2
        Call::OpenRead { subject: 0, object: 2, place: 4 },     // 4
        Call::OpenRead { subject: 0, object: SHEET, place: 3 }, // 7
        Call::OpenWrite { subject: 0, object: BOOK, place: 4 }, // 15
        Call::Retire { object: BOOK },                          // 10
        Call::Write { subject: 0, place: 3 },                   // allowed
    ] {
        assert_eq!(both.why(call), None, "{call:?}");
    }
    // No call has these codes.
    for code in [0, 19, 256, (1 << 32) + 5, u64::MAX] {
        let numbers = [0, SHEET, 4, 0, 0, 0];
        assert_eq!(
            (both.monitor.why_direct(code, numbers), both.state.why_direct(code, numbers)),
            (None, None)
        );
    }
    assert!(
        both.monitor.why_direct(5, [0, SHEET, 4, 7, u64::MAX, 7]).is_some(),
        "the last three are ignored"
    );
}

// ---- what a call would have left

/// A thing that data is in: a group by its lowest member that is left, or an object.
#[derive(Clone, Copy, Debug, PartialEq, Eq, Hash)]
enum Thing {
    Group(u64),
    Object(u64),
}

/// The handles that there would be had the call been let through, and who counts as whom.
struct After {
    handles: HashMap<(u64, u64), (Way, u64)>,
    leads: HashMap<u64, u64>,
}

impl After {
    fn of(state: &State, call: Call) -> After {
        let live = |s: &u64| state.subject(*s).is_some();
        let mut leads: HashMap<u64, u64> =
            (0..SUBJECTS).filter(live).filter_map(|s| Some((s, state.group(s)?))).collect();
        let mut handles = HashMap::new();
        for (s, p) in (0..SUBJECTS).flat_map(|s| (0..PLACES).map(move |p| (s, p))) {
            if let Some(handle) = state.handle(s, p) {
                handles.insert((s, p), (handle.way, handle.object));
            }
        }
        match call {
            Call::OpenRead { subject, object, place } => {
                handles.insert((subject, place), (Way::Reads, object));
            }
            Call::Map { subject, object, place } => {
                handles.insert((subject, place), (Way::Maps, object));
            }
            Call::OpenWrite { subject, object, place } => {
                handles.insert((subject, place), (Way::Writes, object));
            }
            Call::Connect { subject, peer, to, from, reading, writing } => {
                handles.insert((subject, writing), (Way::Writes, to));
                handles.insert((peer, reading), (Way::Reads, to));
                handles.insert((peer, writing), (Way::Writes, from));
                handles.insert((subject, reading), (Way::Reads, from));
            }
            Call::Exec { subject, .. } => {
                let lead = leads.get(&subject).copied();
                leads.retain(|&s, l| s == subject || Some(*l) != lead);
                leads.insert(subject, subject);
                handles.retain(|&(s, p), &mut (way, _)| {
                    let ends =
                        s == subject && (way == Way::Maps || state.handle(s, p).is_some_and(|h| h.marked));
                    leads.contains_key(&s) && !ends
                });
            }
            _ => {}
        }
        After { handles, leads }
    }

    fn subject(&self, s: u64) -> Thing {
        Thing::Group(self.leads[&s])
    }

    /// From what the handle takes, and to what it leads.
    fn flow(&self, s: u64, way: Way, object: u64) -> (Thing, Thing) {
        match way {
            Way::Reads | Way::Maps => (Thing::Object(object), self.subject(s)),
            Way::Writes => (self.subject(s), Thing::Object(object)),
        }
    }

    /// How many steps it is from a thing to the nearest file that has not at most this label; none where there is none.
    fn distance(&self, state: &State, from: Thing, label: Label) -> Option<usize> {
        let flows: Vec<(Thing, Thing)> =
            self.handles.iter().map(|(&(s, _), &(way, object))| self.flow(s, way, object)).collect();
        let is_barred = |thing: &Thing| match *thing {
            Thing::Object(o) => is_file_above(state, o, label),
            Thing::Group(_) => false,
        };
        let (mut reached, mut last) = (HashSet::from([from]), vec![from]);
        for steps in 0.. {
            if last.iter().any(is_barred) {
                return Some(steps);
            }
            last = flows.iter().filter(|(x, _)| last.contains(x)).map(|&(_, y)| y).collect();
            last.retain(|&y| reached.insert(y));
            if last.is_empty() {
                return None;
            }
        }
        None
    }
}

/// Whether it is a live file that something of this label must not reach.
fn is_file_above(state: &State, object: u64, label: Label) -> bool {
    state.object(object).is_some_and(|o| o.kind == Kind::File && !label.at_least(o.label))
}

/// Follows a chain in the tables that the call would have left.
#[track_caller]
fn followed(state: &State, call: Call, chain: &Chain) {
    let after = After::of(state, call);
    let (label, mut here) = match chain.front {
        Front::Subject(s) => (state.subject(s), after.subject(s)),
        Front::Object(o) => (state.object(o).map(|object| object.label), Thing::Object(o)),
    };
    let label = label.expect("the front is live");
    if let Call::Exec { subject, object } = call {
        assert_eq!(chain.front, Front::Object(object), "{call:?}");
        here = after.subject(subject);
    }
    assert!(is_file_above(state, chain.file, label), "{call:?}: {chain:?} ends in no such file");
    let most = if matches!(call, Call::Exec { .. }) { STEPS - 1 } else { STEPS };
    assert!((1..=most).contains(&chain.steps.len()), "{call:?}: {} steps", chain.steps.len());
    for step in &chain.steps {
        let handle = after.handles.get(&(step.subject, step.place));
        let &(way, object) = handle.unwrap_or_else(|| panic!("{call:?}: no handle at {step:?}"));
        let (from, to) = after.flow(step.subject, way, object);
        assert_eq!(from, here, "{call:?}: {step:?} of {chain:?} takes from elsewhere");
        here = to;
    }
    assert_eq!(here, Thing::Object(chain.file), "{call:?}: {chain:?} leads elsewhere");
}

/// The fewest steps behind a call, by a search over all that is live.
fn fewest(state: &State, call: Call) -> Option<usize> {
    let after = After::of(state, call);
    if let Call::Exec { subject, object } = call {
        return after.distance(state, after.subject(subject), state.object(object)?.label);
    }
    let subjects = (0..SUBJECTS).filter_map(|s| state.subject(s).map(|label| (after.subject(s), label)));
    let objects = state.objects().map(|(number, object)| (Thing::Object(number), object.label));
    subjects.chain(objects).filter_map(|(thing, label)| after.distance(state, thing, label)).min()
}

// ---- drawn calls

/// Mostly one of the numbers below `most` that fit, and now and then any of them.
fn drawn(random: &mut Random, most: u64, fits: impl Fn(u64) -> bool) -> u64 {
    let fitting: Vec<u64> = (0..most).filter(|&number| fits(number)).collect();
    let any = random.below(most);
    if random.once_in(12) {
        return any;
    }
    random.pick(&fitting).unwrap_or(any)
}

/// A call that often fits the tables, and is often refused with 9.
fn drawn_call(random: &mut Random, state: &State) -> Call {
    let live = |s| state.subject(s).is_some();
    let subject = drawn(random, 14, live);
    let peer = drawn(random, 14, |s| s != subject && live(s));
    let member = drawn(random, 14, |s| !live(s));
    let object = drawn(random, 40, |o| state.object(o).is_some());
    let file = drawn(random, 40, |o| state.object(o).is_some_and(|object| object.kind == Kind::File));
    let [to, from] = [(); 2].map(|()| drawn(random, 40, |o| state.object(o).is_none()));
    let free = |s, p| state.handle(s, p).is_none();
    let place = drawn(random, PLACES, |p| free(subject, p));
    let held = drawn(random, PLACES, |p| !free(subject, p));
    let [reading, writing] = [(); 2].map(|()| drawn(random, PLACES, |p| free(subject, p) && free(peer, p)));
    let level = random.pick(&[2, 9, 9, 9, 12]).unwrap_or(9);
    let shops = ALL_SHOPS - random.pick(&[0, 0, 0, 1, 2]).unwrap_or(0);
    match random.below(32) {
        0 | 1 => Call::Admit { subject: member, level, shops },
        2 | 3 => Call::Register { object: to, level, shops },
        4 => Call::Create { subject, object: to },
        5 | 6 => Call::Pipe { subject, object: to, reads: reading, writes: writing },
        7..=11 => Call::OpenRead { subject, object, place },
        12..=16 => Call::OpenWrite { subject, object, place },
        17 => Call::Read { subject, place: held },
        18 => Call::Write { subject, place: held },
        19 => Call::Fork { subject, child: member },
        20 | 21 => Call::Exec { subject, object: file },
        22 | 23 => Call::Close { subject, place: held },
        24 => Call::Exit { subject },
        25 => Call::Mark { subject, place: held },
        26 | 27 => Call::Map { subject, object: file, place },
        28..=30 => Call::Connect { subject, peer, to, from, reading, writing },
        _ => Call::Thread { subject, member },
    }
}

#[test]
fn drawn_chains_lead_where_they_say_in_the_fewest_steps() {
    let mut random = Random::new(SEED, 0);
    let mut both = Both::default();
    let (mut told, mut longest) = ([0; 19], 0);
    for made in 0..DRAWN_CALLS {
        if made % DRAWN_CALLS_IN_A_ROW == 0 {
            both = Both::default();
        }
        let call = drawn_call(&mut random, &both.state);
        let chain = both.why(call);
        let before = both.state.clone();
        let is_nine = both.call(call) == Answer::Refused(Refusal::Flow);
        assert_eq!(chain.is_some(), is_nine, "{call:?}");
        if let Some(chain) = chain {
            followed(&before, call, &chain);
            assert_eq!(Some(chain.steps.len()), fewest(&before, call), "{call:?}: {chain:?}");
            told[call.code() as usize] += 1;
            longest = longest.max(chain.steps.len());
        }
    }
    for code in [5, 6, 10, 14, 17] {
        assert!(told[code] > 50, "code {code} has {} chains", told[code]);
    }
    assert!(longest > 4, "the longest chain has {longest} steps");
    println!(
        "beside: {} chains behind refusals 9 of {DRAWN_CALLS} drawn calls, the longest of {longest} steps, by code {:?}",
        told.iter().sum::<usize>(),
        [5, 6, 10, 14, 17].map(|code| (code, told[code]))
    );
}

/// A row of all steps, each of which reads what the one before it writes into a pipe.
#[test]
fn a_chain_through_every_step() {
    let last = SUBJECTS - 1;
    let mut both = Both::after(&[register(BOOK, 9), register(SHEET, 2), admit(0, 9)]);
    let mut steps = vec![(0, 6)];
    for s in 0..last {
        // The ends of this pipe stand at other places than those of the one before.
        let (reads, writes) = (2 * (s % 2), 2 * (s % 2) + 1);
        let mut calls = vec![
            Call::Pipe { subject: s, object: PIPE + s, reads, writes },
            Call::Fork { subject: s, child: s + 1 },
            Call::Close { subject: s, place: reads },
            Call::Close { subject: s + 1, place: writes },
        ];
        calls.extend((s > 0).then_some(Call::Close { subject: s + 1, place: 2 - reads }));
        for call in calls {
            assert!(both.call(call).granted().is_ok(), "{call:?}");
        }
        steps.extend([(s, writes), (s + 1, reads)]);
    }
    assert!(both.call(Call::OpenWrite { subject: last, object: BOOK, place: 5 }).granted().is_ok());
    steps.push((last, 5));
    // No chain can be longer: each second thing of one is a step.
    assert_eq!(steps.len(), 64);
    both.told(Call::OpenRead { subject: 0, object: SHEET, place: 6 }, Front::Object(SHEET), &steps, BOOK);
}

/// Bytes of any value: nothing is told of a call that is not refused with 9, and nothing is changed.
#[test]
fn of_any_bytes_nothing_else_is_told() {
    let mut random = Random::new(SEED, 1);
    let mut refused = 0;
    for _ in 0..DRAWN_STATES {
        let mut bytes = [0; STATE_BYTES];
        for byte in &mut bytes {
            *byte = if random.once_in(3) { random.below(256) as u8 } else { random.below(4) as u8 };
        }
        let monitor = Monitor::from_bytes(bytes);
        let numbers: Vec<u64> = monitor.objects().map(|(number, _)| number).collect();
        for _ in 0..10 {
            let mut call = drawn_call(&mut random, &State::from(&monitor));
            let drawn = random.pick(&numbers).unwrap_or(0);
            if let Call::OpenRead { object, .. }
            | Call::OpenWrite { object, .. }
            | Call::Exec { object, .. } = &mut call
            {
                *object = drawn;
            }
            let chain = monitor.why(call);
            assert!(*monitor.as_bytes() == bytes, "{call:?} changed a byte");
            let is_nine = monitor.clone().call(call) == Answer::Refused(Refusal::Flow);
            assert!(is_nine || chain.is_none(), "{call:?} is not refused with 9");
            assert!(chain.is_none_or(|chain| chain.steps.len() <= STEPS));
            refused += usize::from(is_nine);
        }
    }
    assert!(refused > 10, "{refused} calls were refused with 9");
}
