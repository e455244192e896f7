//! Drawn calls: each that is refused with 9 has a chain, with as many handles as a second search finds, and it is the one
//! that is to be chosen, which is told in another way here; and so has each that is refused with 15 and would be with 9
//! once the books are open. Nothing else has one. And each chain is followed: in a replica in which the call was let
//! through, its reads and writes are made by the archive, none is refused, and what comes to the file is too low for it.

mod replica;
mod second;

use gatekeeper::{
    Answer, Call, Kind, Label, Monitor as Bytes, Refusal, State as Monitor, Way, NO_FREEZE, OBJECTS,
    PLACES, SUBJECTS,
};
use gk_chain::{behind, chain_of, flow, mates, sought, By, Lack, Link, Thing};
use replica::{slot, Replica};

const RUNS: u64 = 500;
const CALLS: usize = 600;

/// Numbers that look drawn and are the same at each run of the tests (SplitMix64).
struct Draw(u64);

impl Draw {
    fn below(&mut self, limit: u64) -> u64 {
        self.0 = self.0.wrapping_add(0x9e37_79b9_7f4a_7c15);
        let mut mixed = self.0;
        mixed = (mixed ^ (mixed >> 30)).wrapping_mul(0xbf58_476d_1ce4_e5b9);
        mixed = (mixed ^ (mixed >> 27)).wrapping_mul(0x94d0_49bb_1331_11eb);
        (((mixed ^ (mixed >> 31)) >> 32) * limit) >> 32
    }

    fn between(&mut self, low: u64, high: u64) -> u64 {
        low + self.below(high - low + 1)
    }
}

/// How many steps, files and pipes the calls of a run name, and which sets of shop marks.
struct Size {
    /// The marks that are drawn from; the others are on all things.
    shops: u64,
    steps: u64,
    objects: u64,
    /// What numbers of files and pipes are multiples of: with a large one they are anywhere in 64 bits.
    spread: u64,
}

impl Size {
    fn object(&self, o: u64) -> u64 {
        o.wrapping_mul(self.spread)
    }
}

/// A call; most make handles, a few end them. What is to be new is so where that is possible.
fn drawn(draw: &mut Draw, size: &Size, monitor: &Monitor) -> (u64, [u64; 6]) {
    let codes = [1, 1, 2, 2, 4, 4, 5, 5, 6, 6, 9, 10, 14, 15, 17, 17, 17, 11, 3, 7, 8, 18];
    let code = match draw.below(80) {
        0 => [12, 13][draw.below(2) as usize],
        1 | 2 => 16,
        _ => codes[draw.below(codes.len() as u64) as usize],
    };
    let (s, t) = (draw.below(size.steps), draw.below(size.steps));
    let (o, p, level) = (size.object(draw.below(size.objects)), draw.below(PLACES), draw.below(16));
    let shops = 255 ^ (draw.below(256) & draw.below(256) & size.shops);
    let objects = (0..size.objects).rev().map(|o| size.object(o));
    let mut new = objects.filter(|&o| monitor.object(o).is_none());
    let (to, from) = (new.next().unwrap_or(o), new.next().unwrap_or(o));
    let is_empty = |step: u64, place: u64| monitor.handle(step, place).is_none();
    let mut empty = (0..PLACES).filter(|&place| is_empty(s, place) && (code != 17 || is_empty(t, place)));
    let (one, other) = (empty.next().unwrap_or(p), empty.next().unwrap_or(p));
    let numbers = match code {
        1 => [s, level, shops, 0, 0, 0],
        2 => [o, level, shops, 0, 0, 0],
        4 => [s, to, one, other, 0, 0],
        9 => [s, t, 0, 0, 0, 0],
        18 => [s, (0..size.steps).rev().find(|&t| monitor.subject(t).is_none()).unwrap_or(t), 0, 0, 0, 0],
        7 | 8 | 11 | 15 => [s, p, 0, 0, 0, 0],
        12 => [s, 0, 0, 0, 0, 0],
        13 => [o, 0, 0, 0, 0, 0],
        // As often as not the books are open.
        16 => [level + draw.below(2) * (NO_FREEZE - level), 0, 0, 0, 0, 0],
        17 => [s, t, to, from, one, other],
        _ => [s, o, one, 0, 0, 0],
    };
    (code, numbers)
}

/// The arcs that a chain may take, as RULES A10 has them: each is of a place, and a step with threads is one thing, by its
/// lowest number. What the call seeks is among them, and what it ends is not.
struct Arcs<'a> {
    monitor: &'a Monitor,
    bytes: &'a Bytes,
    code: u64,
    numbers: [u64; 6],
    /// By rising 16 s + p.
    arcs: Vec<((u64, u64), Thing, Thing)>,
}

impl<'a> Arcs<'a> {
    fn of(monitor: &'a Monitor, bytes: &'a Bytes, code: u64, numbers: [u64; 6]) -> Arcs<'a> {
        let [s, other, ..] = numbers;
        let mut arcs = Vec::new();
        for (t, p) in (0..SUBJECTS).flat_map(|t| (0..PLACES).map(move |p| (t, p))) {
            let held = monitor.handle(t, p).filter(|handle| match code {
                10 if t == s => !handle.marked && handle.way != Way::Maps,
                10 => !mates(monitor, s).any(|mate| mate == t),
                _ => true,
            });
            let sought = match (code, numbers) {
                (5 | 14, [_, _, place, ..]) if (t, p) == (s, place) => Some((Way::Reads, other)),
                (6, [_, _, place, ..]) if (t, p) == (s, place) => Some((Way::Writes, other)),
                (17, [_, _, _, from, reads, _]) if (t, p) == (s, reads) => Some((Way::Reads, from)),
                (17, [_, _, to, _, _, writes]) if (t, p) == (s, writes) => Some((Way::Writes, to)),
                (17, [_, _, to, _, reads, _]) if (t, p) == (other, reads) => Some((Way::Reads, to)),
                (17, [_, _, _, from, _, writes]) if (t, p) == (other, writes) => Some((Way::Writes, from)),
                _ => None,
            };
            let arc = sought.or(held.map(|handle| (handle.way, handle.object)));
            if let Some((way, object)) = arc {
                let (step, object) = (lead(monitor, code, s, t), Thing::Object(object));
                let is_write = way == Way::Writes;
                arcs.push((
                    (t, p),
                    if is_write { step } else { object },
                    if is_write { object } else { step },
                ));
            }
        }
        Arcs { monitor, bytes, code, numbers, arcs }
    }

    /// The fewest handles from each thing that has some to a file that a label is below.
    fn distances(&self, label: Label) -> Vec<(Thing, usize)> {
        let files = self.monitor.objects().filter(|(_, object)| object.kind == Kind::File);
        let mut far: Vec<(Thing, usize)> = files
            .filter(|(_, object)| is_below(label, object.label))
            .map(|(o, _)| (Thing::Object(o), 0))
            .collect();
        for count in 0.. {
            let is_known = |far: &[(Thing, usize)], thing| far.iter().any(|&(one, _)| one == thing);
            let ends: Vec<Thing> =
                far.iter().filter(|&&(_, one)| one == count).map(|&(thing, _)| thing).collect();
            if ends.is_empty() {
                break;
            }
            for &(_, from, to) in &self.arcs {
                if ends.contains(&to) && !is_known(&far, from) {
                    far.push((from, count + 1));
                }
            }
        }
        far
    }

    /// The places of the chain that is to be chosen (RULES A13).
    fn places(&self) -> Vec<(u64, u64)> {
        let [s, o, ..] = self.numbers;
        let starts: Vec<(Thing, Label)> = match self.code {
            10 => self.monitor.object(o).map(|object| (Thing::Step(s), object.label)).into_iter().collect(),
            _ => {
                let steps = (0..SUBJECTS).filter_map(|s| Some((Thing::Step(s), self.monitor.subject(s)?)));
                let mut objects: Vec<(u64, Label)> =
                    self.monitor.objects().map(|(o, object)| (o, object.label)).collect();
                objects.sort_by_key(|&(o, _)| slot(self.bytes, o));
                steps.chain(objects.into_iter().map(|(o, label)| (Thing::Object(o), label))).collect()
            }
        };
        let count =
            |far: &[(Thing, usize)], thing| far.iter().find(|&&(one, _)| one == thing).map(|&(_, far)| far);
        let known = starts.into_iter().filter_map(|(thing, label)| {
            let far = self.distances(label);
            Some((count(&far, thing)?, thing, far))
        });
        let Some((_, mut here, far)) = known.min_by_key(|&(fewest, ..)| fewest) else {
            return Vec::new();
        };
        let mut places = Vec::new();
        while let Some(rest) = count(&far, here).filter(|&rest| rest > 0) {
            let nearer =
                |&&(_, from, to): &&(_, Thing, Thing)| from == here && count(&far, to) == Some(rest - 1);
            let &(place, _, to) = self.arcs.iter().find(nearer).expect("an arc leads nearer");
            places.push(place);
            here = to;
        }
        places
    }
}

/// The step with threads that a thread is of, by its lowest number; an exec has ended the others of its own.
fn lead(monitor: &Monitor, code: u64, s: u64, t: u64) -> Thing {
    match code {
        10 if t == s => Thing::Step(s),
        _ => Thing::Step(monitor.group(t).expect("a step that is there")),
    }
}

/// Whether the level is too low, or one of the other's shop marks is missing.
fn is_below(one: Label, other: Label) -> bool {
    one.level < other.level
        || (0..8).any(|group| other.shops >> group & 1 == 1 && one.shops >> group & 1 == 0)
}

/// How a chain came out: how many links it has, how many of them are from a thread of a step to another, and whether only
/// shop marks are insufficient.
struct Held {
    links: usize,
    shared: usize,
    is_by_marks: bool,
}

/// Sees that a call's chain is a chain, that it is the one that is to be chosen, and that it carries.
fn holds(monitor: &Monitor, bytes: &Bytes, code: u64, numbers: [u64; 6]) -> Held {
    let here = format!("code {code}, {numbers:?}");
    let chain = behind(monitor, code, numbers);
    let (low, high) = (chain.first().expect("a chain"), chain.last().expect("a chain"));
    assert!(is_below(low.label, high.label) && high.kind == Some(Kind::File), "{here}");
    assert_eq!(Lack::behind(&chain).map(Lack::is_nothing), Some(false), "{here}");
    let is_there = |link: &Link| match link.thing {
        Thing::Step(s) => monitor.subject(s) == Some(link.label) && link.kind.is_none(),
        Thing::Object(o) => monitor
            .object(o)
            .is_some_and(|object| (Some(object.kind), object.label) == (link.kind, link.label)),
    };
    assert!(is_there(low) && is_there(high), "{here}");
    assert!(code != 10 || low.thing == Thing::Object(numbers[1]), "{here}");

    // It links up, and goes through what the call seeks.
    let mut is_sought = false;
    for pair in chain.windows(2) {
        let join = (pair[0].thing, pair[1].thing);
        match pair[1].by {
            By::Front => panic!("{here}: two fronts"),
            By::Run => assert!(code == 10 && sought(code, numbers) == [join], "{here}"),
            By::Shared => match join {
                (Thing::Step(one), Thing::Step(other)) => {
                    assert!(mates(monitor, one).any(|mate| mate == other), "{here}");
                }
                _ => panic!("{here}: {join:?} share nothing"),
            },
            By::Handle { step, place } => match monitor.handle(step, place) {
                Some(handle) => assert_eq!(flow(step, handle), join, "{here}"),
                None => {
                    assert!(sought(code, numbers).contains(&join), "{here}");
                    is_sought = true;
                }
            },
        }
    }
    assert!(is_sought || code == 10, "{here}");
    assert!(chain[0].by == By::Front && (code != 10 || chain[1].by == By::Run), "{here}");

    let places: Vec<(u64, u64)> = chain
        .iter()
        .filter_map(|link| match link.by {
            By::Handle { step, place } => Some((step, place)),
            _ => None,
        })
        .collect();
    assert_eq!(second::fewest(monitor, code, numbers), Some(places.len()), "{here}");
    assert_eq!(places, Arcs::of(monitor, bytes, code, numbers).places(), "{here}");
    follows(monitor, bytes, code, numbers, &chain);
    let shared = chain.iter().filter(|link| link.by == By::Shared).count();
    Held { links: chain.len(), shared, is_by_marks: Lack::behind(&chain).is_some_and(|lack| !lack.level) }
}

/// Makes the reads and writes of a chain by the archive: those on handles that are open, in the monitor as it is before the
/// call; and all of them in a replica in which the call was let through. None is refused, and in the replica the last
/// one is by a step whose label has fallen to what the front has, or below, and so is not at least the file's.
fn follows(monitor: &Monitor, bytes: &Bytes, code: u64, numbers: [u64; 6], chain: &[Link]) {
    let mut before = monitor.clone();
    let mut replica = Replica::of(bytes, code, numbers);
    let mut last = None;
    for link in chain {
        let By::Handle { step, place } = link.by else { continue };
        let call = match link.thing {
            Thing::Step(_) => Call::Read { subject: step, place },
            Thing::Object(_) => Call::Write { subject: step, place },
        };
        if monitor.handle(step, place).is_some() {
            assert!(before.call(call).granted().is_ok(), "code {code}, {numbers:?}: {call:?}");
        }
        let answer = replica.0.call(call);
        assert!(answer.granted().is_ok(), "code {code}, {numbers:?}: {call:?}: {answer:?}");
        last = replica.0.subject(step);
    }
    let (last, low, high) = (last.expect("a write"), chain[0].label, chain[chain.len() - 1].label);
    assert!(low.at_least(last) && !last.at_least(high), "code {code}, {numbers:?}: {last:?}");
}

#[test]
fn each_nine_has_its_chain_and_nothing_else_has_one() {
    let (mut nines, mut lengths, mut shared) = ([0; 18], [0; 97], [0; 18]);
    // Of the calls refused with 15: those that are then refused with 9, and those that are then let through.
    let mut fifteens = [0; 2];
    // Of those refused with 9: where only shop marks are insufficient.
    let mut by_marks = [0; 18];
    for run in 0..RUNS {
        let mut draw = Draw(run);
        let spread = if run % 2 == 0 { 1 } else { 0x9e37_79b9_7f4a_7c15 };
        let size = Size {
            steps: draw.between(3, SUBJECTS),
            objects: draw.between(4, OBJECTS),
            spread,
            shops: [0, 255, 1][run as usize % 3],
        };
        // The same monitor as a struct and as bytes.
        let (mut monitor, mut bytes) = (Monitor::new(), Bytes::new());
        for _ in 0..CALLS {
            let (code, numbers) = drawn(&mut draw, &size, &monitor);
            let before = monitor.clone();
            let answer = monitor.direct(code, numbers);
            match answer {
                Answer::Refused(Refusal::Flow) => {
                    nines[code as usize] += 1;
                    let held = holds(&before, &bytes, code, numbers);
                    lengths[held.links] += 1;
                    shared[code as usize] += usize::from(held.shared > 0);
                    by_marks[code as usize] += usize::from(held.is_by_marks);
                }
                Answer::Refused(Refusal::Frozen) => {
                    let (mut open, mut open_bytes) = (before.clone(), bytes.clone());
                    open.call(Call::Freeze { level: NO_FREEZE }).granted().expect("no freeze is a freeze");
                    open_bytes.freeze(NO_FREEZE).granted().expect("no freeze is a freeze");
                    assert!(behind(&before, code, numbers).is_empty(), "it is no 9 yet");
                    let chain = chain_of(&before, Refusal::Frozen, code, numbers);
                    let is_nine = open.clone().direct(code, numbers) == Answer::Refused(Refusal::Flow);
                    if is_nine {
                        assert_eq!(chain, behind(&open, code, numbers));
                        holds(&open, &open_bytes, code, numbers);
                    } else {
                        assert!(chain.is_empty() && open.direct(code, numbers).granted().is_ok());
                    }
                    fifteens[usize::from(!is_nine)] += 1;
                }
                Answer::Refused(_) => {
                    assert!(behind(&before, code, numbers).is_empty(), "{code}, {numbers:?}")
                }
                _ => {
                    assert!(behind(&before, code, numbers).is_empty(), "code {code}, {numbers:?}");
                    if [5, 6, 10, 14, 17].contains(&code) {
                        assert_eq!(
                            second::fewest(&before, code, numbers),
                            None,
                            "code {code}, {numbers:?}"
                        );
                    }
                }
            }
            assert_eq!(bytes.direct(code, numbers), answer);
        }
    }
    assert!([5, 6, 10, 14, 17].iter().all(|&code| nines[code] > 100), "{nines:?}");
    assert!(lengths[2..8].iter().all(|&count| count > 10), "{lengths:?}");
    assert!([5, 6, 14, 17].iter().all(|&code| shared[code] > 20), "through threads: {shared:?}");
    // An exec leaves out the threads of its own step, so that these are another's.
    assert!(shared[10] > 2, "through threads: {shared:?}");
    assert!([5, 6, 10, 14, 17].iter().all(|&code| by_marks[code] > 10), "by marks alone: {by_marks:?}");
    assert!(fifteens.iter().all(|&count| count > 100), "{fifteens:?}");
}
