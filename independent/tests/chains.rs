//! What is behind a refusal 9, RULES A1 to A13: by hand, over generated journals, and the attack itself, made on a book.

use std::collections::{BTreeMap, BTreeSet};

use gatekeeper_independent::bite;
use gatekeeper_independent::book::{copying, Access, Book, Taking};
use gatekeeper_independent::calls::{filled, Call};
use gatekeeper_independent::chains::{
    attack, behind, behind_by, each, lines, lines_by, most_steps, shortest, Chain, Found, MOST_STEPS,
};
use gatekeeper_independent::generate::{journal, Style, Wish};
use gatekeeper_independent::labels::Label;
use gatekeeper_independent::monitor::{Answer, Monitor};
use gatekeeper_independent::needs::{label, live_things, Flow, Needs, Thing};
use gatekeeper_independent::random::Random;
use gatekeeper_independent::records::Body;
use gatekeeper_independent::refusals::{conditions, needs_for};
use gatekeeper_independent::replies::{Content, Run};
use gatekeeper_independent::tables::{Direction, Handle, Kind, Object, Subject, Tables, LIMITS};
use gatekeeper_independent::variants::chains::{ChainRules, CHAINS, ONLY_BY_CHAIN};
use gatekeeper_independent::variants::Rules;

use Thing::{Object as O, Subject as S};

const SEED: u64 = 20;

fn mixed(count: u64) -> impl Iterator<Item = Vec<u8>> {
    (0..count).map(|index| journal(SEED, index, Wish::default()))
}

// By hand.

/// A code and its numbers.
type Made<'a> = (u64, &'a [u64]);

/// The monitor after calls none of which is refused.
fn after(calls: &[Made]) -> Monitor {
    let mut monitor = Monitor::new();
    for &(code, numbers) in calls {
        let answer = monitor.call(code, filled(numbers));
        assert!(!matches!(answer, Answer::Refused(_)), "{code} {numbers:?}: {answer}");
    }
    monitor
}

/// The chain behind the last call, which is answered with 9; the attack has been made on a few contents.
fn why(calls: &[Made], (code, numbers): Made) -> Chain {
    let mut monitor = after(calls);
    let tables = monitor.tables().clone();
    assert_eq!(monitor.call(code, filled(numbers)), Answer::Refused(9));
    let call = Call::new(code, filled(numbers)).unwrap();
    let chain = behind(&tables, call).unwrap();
    for seed in 0..4 {
        assert_eq!(attack(&book(&monitor, seed), call, &chain), Ok(()), "{call:?}: {chain}");
    }
    chain
}

/// A book of these tables with contents by seed; with seed 0 all of them are equal.
fn book(monitor: &Monitor, seed: u64) -> Book {
    Book::of(monitor.clone(), |thing| {
        let (kind, number) = match thing {
            S(s) => (1, s),
            O(o) => (2, o),
        };
        Random::new(seed * kind, number).below(if seed == 0 { 1 } else { u64::MAX })
    })
}

fn chain(low: Thing, high: u64, steps: &[u64]) -> Chain {
    Chain { low, high, steps: steps.to_vec() }
}

/// RULES K0: file 0 at level 9, file 1 at level 2, subject 0 at level 9, with all marks.
const START: [Made; 3] = [(2, &[0, 9, 255]), (2, &[1, 2, 255]), (1, &[0, 9, 255])];

fn start<'a>(more: &[Made<'a>]) -> Vec<Made<'a>> {
    [&START[..], more].concat()
}

/// RULES A2, A5, A10: the worked cases that end in a 9.
#[test]
fn the_worked_cases_have_these_chains() {
    // K1, K3: the sheet is read, and the book written, in either order of the opens.
    let k1 = why(&start(&[(6, &[0, 0, 0])]), (5, &[0, 1, 1]));
    assert_eq!(k1, chain(O(1), 0, &[1, 0]));
    let k3 = why(&start(&[(5, &[0, 1, 0])]), (6, &[0, 0, 1]));
    assert_eq!(k3, chain(O(1), 0, &[0, 1]));
    // K4: the subject itself is too low, and one write is enough.
    let k4 = why(&start(&[(1, &[1, 8, 255])]), (6, &[1, 0, 3]));
    assert_eq!(k4, chain(S(1), 0, &[16 + 3]));
    // K6: by a pipe.
    let k6 = why(&start(&[(4, &[0, 2, 0, 1]), (9, &[0, 1]), (6, &[0, 0, 2])]), (5, &[1, 1, 2]));
    assert_eq!(k6, chain(O(1), 0, &[16 + 2, 16 + 1, 0, 2]));
    // K9: the run is no read and no write.
    let k9 = why(&start(&[(6, &[0, 0, 0])]), (10, &[0, 1]));
    assert_eq!(k9, chain(O(1), 0, &[0]));
}

/// RULES A2: by a mark, where the level is enough; in a file whose label is not above that of what gets there either.
#[test]
fn a_missing_mark_is_enough() {
    let calls: &[Made] = &[(2, &[0, 9, 1]), (2, &[1, 12, 2]), (1, &[0, 12, 255]), (6, &[0, 0, 0])];
    assert_eq!(why(calls, (5, &[0, 1, 1])), chain(O(1), 0, &[1, 0]));
}

/// RULES A4, A10: a group is one thing. What subject 0 reads subject 1 has, and no step is between them; a chain that starts
/// at a group starts at the member whose handle comes first.
#[test]
fn inside_a_group_no_step_is_taken() {
    let calls = start(&[(18, &[0, 1]), (6, &[1, 0, 4])]);
    assert_eq!(why(&calls, (5, &[0, 1, 2])), chain(O(1), 0, &[2, 16 + 4]));
    let calls = start(&[(1, &[2, 8, 255]), (18, &[2, 3]), (18, &[2, 4])]);
    assert_eq!(why(&calls, (6, &[4, 0, 0])), chain(S(4), 0, &[64]));
}

/// RULES A5, A8, B13: a map would have read at once; its handle is read all the same. RULES A2: the labels are those of
/// before the call, so that the mapper is not too low.
#[test]
fn a_chain_behind_a_map_goes_by_the_mapping() {
    let calls = start(&[(6, &[0, 0, 0])]);
    assert_eq!(why(&calls, (14, &[0, 1, 7])), chain(O(1), 0, &[7, 0]));
}

/// RULES A5: two handles that the connect seeks, in either direction; RULES A2: a pipe that it would make is no start.
#[test]
fn a_chain_behind_a_connect_goes_by_its_pipes() {
    let calls = start(&[(1, &[1, 5, 255]), (6, &[0, 0, 0])]);
    let from_t = why(&calls, (17, &[0, 1, 70, 71, 8, 9]));
    assert_eq!(from_t, chain(S(1), 0, &[16 + 9, 8, 0]));
    let from_s = why(&calls, (17, &[1, 0, 70, 71, 8, 9]));
    assert_eq!(from_s, chain(S(1), 0, &[16 + 9, 8, 0]));
}

/// RULES A3, A5, C10, C116: marked handles, mappings and mates are gone once the program runs, so that the chain goes round
/// by a pipe, although a shorter way would lead through each of them.
#[test]
fn a_chain_behind_an_exec_goes_by_what_it_leaves() {
    let marked: &[Made] =
        &[(4, &[0, 2, 0, 1]), (9, &[0, 1]), (6, &[1, 0, 2]), (6, &[0, 0, 3]), (15, &[0, 3])];
    assert_eq!(why(&start(marked), (10, &[0, 1])), chain(O(1), 0, &[1, 16, 16 + 2]));
    let mate: &[Made] =
        &[(4, &[0, 2, 0, 1]), (9, &[0, 1]), (6, &[1, 0, 2]), (18, &[0, 2]), (6, &[2, 0, 3])];
    assert_eq!(why(&start(mate), (10, &[0, 1])), chain(O(1), 0, &[1, 16, 16 + 2]));
    let both_ways = why(&start(mate), (5, &[0, 1, 5]));
    assert_eq!(both_ways, chain(O(1), 0, &[5, 32 + 3]), "an open is by all members");
}

/// RULES A12: none where the call is not answered with 9: where it is allowed, where another number is said, and at a 15,
/// also where the open would be refused with 9 once the books are open.
#[test]
fn where_no_9_is_said_there_is_no_chain() {
    let calls = start(&[(5, &[0, 1, 0])]);
    let monitor = after(&calls);
    let none: &[Made] = &[
        (7, &[0, 0]),
        (5, &[0, 0, 1]),
        (6, &[0, 0, 16]),
        (6, &[0, 9, 1]),
        (6, &[5, 0, 1]),
        (16, &[3]),
        (12, &[0]),
    ];
    for &(code, numbers) in none {
        assert_eq!(behind(monitor.tables(), Call::new(code, filled(numbers)).unwrap()), None, "{code}");
    }
    let open = Call::OpenWrite { s: 0, o: 0, p: 1 };
    let mut frozen = after(&[&calls[..], &[(16, &[9])]].concat());
    assert_eq!(behind(frozen.tables(), open), None);
    assert_eq!(frozen.call(6, filled(&[0, 0, 1])), Answer::Refused(15));
    assert_eq!(frozen.call(16, filled(&[16])), Answer::Allowed(16));
    assert_eq!(behind(frozen.tables(), open), Some(chain(O(1), 0, &[0, 1])));
}

/// Subjects 0 to n − 1 in a row, each with pipe 100 + s to the next one: reading at 0, writing at 1.
fn row(n: u64) -> Vec<(u64, Vec<u64>)> {
    let mut calls: Vec<(u64, Vec<u64>)> = vec![(2, vec![0, 9, 255]), (2, vec![1, 2, 255])];
    calls.extend((0..n).map(|s| (1, vec![s, 9, 255])));
    for s in 1..n {
        calls.push((4, vec![s - 1, 100 + s, 2, 1]));
        calls.push((5, vec![s, 100 + s, 0]));
        calls.push((11, vec![s - 1, 2]));
    }
    calls.push((6, vec![n - 1, 0, 1]));
    calls
}

fn borrowed(calls: &[(u64, Vec<u64>)]) -> Vec<Made<'_>> {
    calls.iter().map(|(code, numbers)| (*code, numbers.as_slice())).collect()
}

/// RULES A4: a handle is between a subject and an object, so that no chain is longer than that of 32 subjects in a row
/// between 33 objects.
#[test]
fn the_longest_chains_have_64_steps_and_63_after_a_run() {
    let calls = row(32);
    let open = why(&borrowed(&calls), (5, &[0, 1, 0]));
    assert_eq!((open.low, open.high, open.steps.len()), (O(1), 0, 64));
    assert_eq!(open.steps[..4], [0, 1, 16, 17]);
    let run = why(&borrowed(&calls), (10, &[0, 1]));
    assert_eq!((run.low, run.high, run.steps.len()), (O(1), 0, 63));
    assert_eq!(
        (most_steps(Call::OpenRead { s: 0, o: 1, p: 0 }), most_steps(Call::Exec { s: 0, o: 1 })),
        (95, 94)
    );
}

/// RULES A11: from the nearest of several that are too low, which need not be the lowest thing; by the shorter of two ways,
/// which need not have the lowest place; to the nearest file, which need not be the highest.
#[test]
fn the_shortest_of_several_is_told() {
    // Subject 7 is too low and three steps away, by pipe 20; file 1 is two steps away.
    let calls: &[Made] = &[(4, &[0, 20, 2, 3]), (1, &[7, 5, 255]), (6, &[7, 20, 0]), (5, &[0, 1, 4])];
    assert_eq!(why(&start(calls), (6, &[0, 0, 5])), chain(O(1), 0, &[4, 5]));
    // Once it has read, it is too low itself.
    let read: &[Made] = &[(7, &[0, 4])];
    assert_eq!(why(&start(&[calls, read].concat()), (6, &[0, 0, 5])), chain(S(0), 0, &[5]));
    // Pipe 20 is read by subject 1, behind which are pipe 21 and subject 2 with file 5, and by subject 3 with file 0. Subject 0
    // itself is too low for file 5, which is five steps away.
    let calls: &[Made] = &[
        (2, &[5, 12, 255]),
        (1, &[1, 12, 255]),
        (1, &[2, 12, 255]),
        (1, &[3, 12, 255]),
        (4, &[3, 20, 2, 3]),
        (11, &[3, 3]),
        (5, &[1, 20, 0]),
        (4, &[1, 21, 2, 1]),
        (5, &[2, 21, 0]),
        (6, &[2, 5, 1]),
        (6, &[3, 0, 1]),
        (5, &[0, 1, 6]),
    ];
    assert_eq!(why(&start(calls), (6, &[0, 20, 7])), chain(O(1), 0, &[6, 7, 48 + 2, 48 + 1]));
}

/// RULES A13: of several as short the one from the lowest thing, subjects before objects and these in the order of a host's
/// slots; at each thing by the lowest place.
#[test]
fn of_chains_as_short_as_each_other_one_is_told() {
    // Files 1 and 3 are read at two places each, files 0 and 2 are written at two.
    let calls =
        start(&[(2, &[2, 9, 255]), (2, &[3, 2, 255]), (5, &[0, 3, 9]), (5, &[0, 1, 8]), (5, &[0, 1, 6])]);
    let monitor = after(&calls);
    let open = Call::OpenWrite { s: 0, o: 2, p: 3 };
    let in_order =
        |objects: &[u64]| behind_by(monitor.tables(), open, objects, ChainRules::default()).unwrap();
    assert_eq!(in_order(&[0, 1, 2, 3]), chain(O(1), 2, &[6, 3]));
    assert_eq!(in_order(&[3, 2, 1, 0]), chain(O(3), 2, &[9, 3]));
    // Two subjects that are as low, the higher of which has the lower place in the pipe's row.
    let calls = start(&[
        (1, &[7, 5, 255]),
        (1, &[6, 5, 255]),
        (4, &[7, 20, 0, 1]),
        (6, &[6, 20, 4]),
        (5, &[0, 20, 2]),
    ]);
    assert_eq!(why(&calls, (6, &[0, 0, 5])), chain(O(20), 0, &[2, 5]));
    let calls = start(&[
        (4, &[0, 20, 0, 1]),
        (1, &[7, 5, 255]),
        (1, &[6, 5, 255]),
        (6, &[7, 20, 1]),
        (6, &[6, 20, 4]),
    ]);
    assert_eq!(why(&calls, (6, &[0, 0, 5])), chain(S(6), 0, &[6 * 16 + 4, 0, 5]));
}

// The check itself.

/// Each part of an attack is asked for: a chain that is wrong in one of them is found out.
#[test]
fn an_attack_that_is_none_is_found_out() {
    let calls = start(&[
        (2, &[2, 2, 255]),
        (6, &[0, 0, 0]),
        (4, &[0, 20, 3, 4]),
        (1, &[1, 9, 255]),
        (5, &[1, 1, 0]),
    ]);
    let monitor = after(&calls);
    let open = Call::OpenRead { s: 0, o: 1, p: 1 };
    let says = |call: Call, low: Thing, high: u64, steps: &[u64]| {
        attack(&book(&monitor, 1), call, &chain(low, high, steps)).unwrap_err()
    };
    let wrong = [
        (says(open, O(9), 0, &[1, 0]), "RULES A2"),
        (says(open, O(1), 20, &[1, 4]), "RULES A2"),
        (says(open, O(1), 2, &[1, 0]), "RULES A2"),
        (says(open, S(0), 0, &[0]), "RULES A2"),
        (says(Call::Exec { s: 0, o: 1 }, O(2), 0, &[0]), "RULES A3"),
        (says(open, O(1), 0, &[1; 96]), "RULES A4"),
        (says(open, O(1), 0, &[2, 0]), "RULES A5"),
        (says(open, O(2), 0, &[1, 0]), "RULES A10"),
        (says(open, O(1), 0, &[1]), "RULES A10"),
        (says(open, O(1), 0, &[0]), "RULES A10"),
        (says(open, O(1), 0, &[16, 0]), "RULES A10"),
    ];
    for (said, rule) in wrong {
        assert!(said.starts_with(rule), "{said}");
    }
    assert_eq!(attack(&book(&monitor, 1), open, &chain(O(1), 0, &[1, 4, 3, 0])), Ok(()), "a way round");
}

// Over generated journals.

/// A handling that mixes all that it is told.
fn mixing(taking: Taking) -> u64 {
    let Taking { own, other, position, access, subject, object } = taking;
    let access = match access {
        Access::Read => 1,
        Access::Write => 2,
        Access::Run => 3,
    };
    [own, other, position, access, subject, object]
        .iter()
        .fold(7, |sum: u64, &part| (sum ^ part).wrapping_mul(0x9e37_79b9_7f4a_7c15).rotate_left(23))
}

/// RULES A1 to A8, A10: behind each 9 there is an attack, on contents that are all different.
#[test]
fn behind_every_9_there_is_an_attack() {
    let mut nines = 0;
    for journal in mixed(700) {
        each(&journal, ChainRules::default(), |found, book| {
            assert_eq!(found.check(&book), Ok(()), "{found:?}");
            nines += 1;
        });
    }
    assert!(nines > 5000, "{nines}");
}

/// RULES A9: the book is fed a journal with any handling and any contents from outside, up to the call; from it on, with
/// copying. RULES B25, B26: its answers and tables are the monitor's.
#[test]
fn from_the_call_on_copying_is_enough() {
    let mut nines = 0;
    for (index, journal) in (0..).zip(mixed(300)) {
        let mut run = Run::new(&journal, Rules::default());
        let mut book = Book::new();
        let mut outside = Random::new(index, 1);
        while let Some(step) = run.next_step() {
            let (code, numbers) = match step.content {
                Content::Body(_, Body::Call { code, numbers }) => (code, numbers),
                Content::Body(_, Body::UnknownCode { code }) => (code, filled(&[])),
                _ => continue,
            };
            let answer = book.turn(code, numbers, outside.below(u64::MAX), &mixing);
            assert_eq!(answer, step.answer);
            if answer == Answer::Refused(9) {
                let call = Call::new(code, numbers).unwrap();
                let chain = behind(book.monitor().tables(), call).unwrap();
                assert_eq!(attack(&book, call, &chain), Ok(()), "{call:?}: {chain}");
                nines += 1;
            }
        }
        assert_eq!(book.monitor().tables(), run.monitor().tables());
        // RULES B4, B31: each live thing has a content, and mates have one.
        let tables = book.monitor().tables();
        for thing in live_things(tables) {
            assert!(book.content(thing).is_some());
        }
        for (s, t) in tables.pairs_of_mates() {
            assert_eq!(book.content(S(s)), book.content(S(t)));
        }
    }
    assert!(nines > 2000, "{nines}");
}

/// RULES A8: not a difference for some contents but an equation for all: whatever low holds arrives, while everything else
/// holds the same.
#[test]
fn whatever_it_starts_from_holds_arrives() {
    for journal in mixed(150) {
        each(&journal, ChainRules::default(), |found, book| {
            let chain = found.chain.as_ref().unwrap();
            for held in [0, 1, 77, u64::MAX] {
                let content = |thing: Thing| if thing == chain.low { held } else { 5 };
                let book = Book::of(book.monitor().clone(), content);
                assert_eq!(attack(&book, found.call, chain), Ok(()));
            }
        });
    }
}

/// Whether data may go from the first thing to the second in a step: by a handle, whichever member of a group has it.
type Steps = Vec<Vec<usize>>;

/// The things of tables, and for each where a step leads to from it or from a mate of it, mates of that included.
fn steps_of(tables: &Tables) -> (Vec<Thing>, Steps) {
    let things: Vec<Thing> = live_things(tables).collect();
    let party = |thing: Thing| -> Vec<usize> {
        let members: Vec<Thing> = match thing {
            S(s) => tables.members(s).map(S).collect(),
            O(_) => vec![thing],
        };
        members.iter().filter_map(|member| things.binary_search(member).ok()).collect()
    };
    let mut steps: Steps = vec![Vec::new(); things.len()];
    for (s, _, handle) in tables.handles() {
        let Flow { from, to } = Flow::of(s, handle);
        for member in party(from) {
            steps[member].extend(party(to));
        }
    }
    (things, steps)
}

/// How few handles lead from a thing to a file that this label is not at least, layer by layer from the thing on. A second
/// way to count, which goes forwards and has no distances.
fn layers(
    tables: &Tables,
    (things, steps): &(Vec<Thing>, Steps),
    start: Thing,
    own: Label,
) -> Option<usize> {
    let is_barred = |&thing: &usize| match things[thing] {
        S(_) => false,
        O(o) => tables
            .object(o)
            .is_some_and(|object| object.kind == Kind::File && !own.is_at_least(object.label())),
    };
    let mut layer = vec![things.binary_search(&start).ok()?];
    let mut reached = vec![false; things.len()];
    for count in 0.. {
        if layer.is_empty() || layer.iter().any(is_barred) {
            return (!layer.is_empty()).then_some(count);
        }
        layer.iter().for_each(|&thing| reached[thing] = true);
        let next: BTreeSet<usize> = layer.iter().flat_map(|&thing| steps[thing].iter().copied()).collect();
        layer = next.into_iter().filter(|&thing| !reached[thing]).collect();
    }
    None
}

/// The tables once the call has been let through, by hand: what RULES A5 says of its handles.
fn let_through(tables: &Tables, call: Call) -> Tables {
    let mut after = tables.clone();
    match call {
        Call::OpenRead { s, o, p } => after.set_handle(s, p, Some(Handle::new(o, Direction::Reading))),
        Call::OpenWrite { s, o, p } => after.set_handle(s, p, Some(Handle::new(o, Direction::Writing))),
        Call::Map { s, o, p } => after.set_handle(s, p, Some(Handle::mapping(o))),
        Call::Connect { s, t, a, b, .. } => {
            for (pipe, writer) in [(a, s), (b, t)] {
                let label = label(tables, S(writer)).unwrap();
                after.set_object(pipe, Some(Object::new(Kind::Pipe, label)));
            }
            for (holder, place, handle) in call.ends() {
                after.set_handle(holder, place, Some(handle));
            }
        }
        Call::Exec { s, .. } => {
            let mates: Vec<u64> = tables.mates(s).collect();
            mates.into_iter().for_each(|mate| after.set_subject(mate, None));
            let ending: Vec<u64> = tables.places_ending_at_exec(s).collect();
            ending.into_iter().for_each(|p| after.set_handle(s, p, None));
        }
        _ => {}
    }
    after
}

/// RULES A11: no chain has fewer steps, counted the other way round; and R9, A12: for a call whose numbers are in order
/// there is a chain exactly where 9 is its refusal, or would be with the books open.
#[test]
fn the_chain_is_a_shortest_and_there_is_one_exactly_at_a_9() {
    let (mut nines, mut others) = (0, 0);
    for journal in mixed(200) {
        let mut run = Run::new(&journal, Rules::default());
        loop {
            let tables = run.monitor().tables().clone();
            let Some(step) = run.next_step() else {
                break;
            };
            let Content::Body(_, Body::Call { code: 5 | 6 | 10 | 14 | 17, numbers }) = step.content else {
                continue;
            };
            let call = Call::new(step.code, numbers).unwrap();
            let needs = needs_for(&tables, call, Rules::default(), &Needs::none(&tables));
            let holding =
                conditions(&tables, call, &needs).into_iter().filter(|row| row.1).map(|row| row.0);
            let holding: Vec<u32> = holding.collect();
            if holding.iter().any(|number| ![9, 15].contains(number)) {
                continue;
            }
            let objects: Vec<u64> = tables.live_objects().collect();
            let found = shortest(&tables, call, &objects, ChainRules::default());
            assert_eq!(found.is_some(), holding.contains(&9), "{call:?}");
            let after = let_through(&tables, call);
            let steps = steps_of(&after);
            let from =
                |start: Thing, low: Thing| layers(&after, &steps, start, label(&tables, low).unwrap());
            let fewest = match call {
                Call::Exec { s, o } => from(S(s), O(o)),
                _ => live_things(&tables).filter_map(|thing| from(thing, thing)).min(),
            };
            assert_eq!(found.as_ref().map(|chain| chain.steps.len()), fewest, "{call:?}");
            match found {
                Some(chain) => {
                    assert!(chain.steps.len() <= most_steps(call));
                    nines += 1;
                }
                None => others += 1,
            }
        }
    }
    assert!(nines > 1400 && others > 4000, "{nines} {others}");
}

/// RULES A13: where each thing is given other numbers, the chain has as many steps; what comes first is another matter.
#[test]
fn the_order_of_the_objects_decides_ties_alone() {
    for journal in mixed(150) {
        each(&journal, ChainRules::default(), |found, book| {
            let tables = book.monitor().tables();
            let mut objects: Vec<u64> = tables.live_objects().collect();
            objects.reverse();
            let other = behind_by(tables, found.call, &objects, ChainRules::default()).unwrap();
            let own = found.chain.as_ref().unwrap();
            assert_eq!(other.steps.len(), own.steps.len());
            assert_eq!(attack(&book, found.call, &other), Ok(()));
            if let Thing::Subject(_) = own.low {
                assert_eq!(&other, own, "subjects come first");
            }
        });
    }
}

/// What a chain shows.
fn met(found: &Found, tables: &Tables) -> Vec<&'static str> {
    let chain = found.chain.as_ref().unwrap();
    let after = let_through(tables, found.call);
    let seat = |place: u64| (place / LIMITS.places, place % LIMITS.places);
    let handles: Vec<(u64, Handle)> = chain
        .steps
        .iter()
        .map(|&place| (seat(place).0, after.handle(seat(place).0, seat(place).1).unwrap()))
        .collect();
    let mut met = vec![match found.call {
        Call::OpenRead { .. } => "an open for reading",
        Call::OpenWrite { .. } => "an open for writing",
        Call::Map { .. } => "a map",
        Call::Connect { .. } => "a connect",
        _ => "an exec",
    }];
    let kind = |o: u64| tables.object(o).map(|object| object.kind);
    met.push(match chain.low {
        S(_) => "from a subject",
        O(o) if kind(o) == Some(Kind::File) => "from a file",
        O(_) => "from a pipe",
    });
    let low = label(tables, chain.low).unwrap();
    let high = label(tables, O(chain.high)).unwrap();
    let (is_lower, lacks) = (low.level < high.level, high.shops & !low.shops != 0);
    met.push(match (is_lower, lacks) {
        (true, false) => "by the level alone",
        (false, true) => "by marks alone",
        _ => "by both",
    });
    met.push(match chain.steps.len() {
        1 => "1 step",
        2 => "2 steps",
        3..=9 => "3 to 9 steps",
        10..=31 => "10 to 31 steps",
        _ => "32 steps or more",
    });
    // A step that is taken by another member than the one to whom the step before it led.
    if handles.windows(2).any(|pair| pair[0].0 != pair[1].0 && pair[0].1.direction == Direction::Reading) {
        met.push("from member to member");
    }
    if handles.iter().any(|(_, handle)| handle.mapped) {
        met.push("by a mapping");
    }
    if handles.iter().any(|(_, handle)| handle.marked) {
        met.push("by a marked handle");
    }
    let is_mapped = |handle: &Handle| after.mappers(handle.object).next().is_some();
    if handles.iter().any(|(_, handle)| handle.direction == Direction::Writing && is_mapped(handle)) {
        met.push("by a write to a mapped file");
    }
    let sought = |place: u64| tables.handle(seat(place).0, seat(place).1).is_none();
    met.push(match chain.steps.iter().filter(|&&place| sought(place)).count() {
        0 => "by no handle that was sought",
        1 => "by one that was sought",
        _ => "by two that were sought",
    });
    if let Call::Exec { s, .. } = found.call {
        if tables.marked_places(s).next().is_some() {
            met.push("an exec with marked handles");
        }
        if tables.handles_of(s).any(|(_, handle)| handle.mapped) {
            met.push("an exec with mappings");
        }
        if tables.mates(s).next().is_some() {
            met.push("an exec with mates");
        }
    }
    met
}

/// All that a chain can show stands in the journals often enough to be compared.
#[test]
fn chains_of_every_kind_are_met_often() {
    let mut seen: BTreeMap<&str, u64> = BTreeMap::new();
    for journal in mixed(700) {
        each(&journal, ChainRules::default(), |found, book| {
            for what in met(found, book.monitor().tables()) {
                *seen.entry(what).or_default() += 1;
            }
        });
    }
    let expected = [
        "1 step",
        "10 to 31 steps",
        "2 steps",
        "3 to 9 steps",
        "32 steps or more",
        "a connect",
        "a map",
        "an exec",
        "an exec with mappings",
        "an exec with marked handles",
        "an exec with mates",
        "an open for reading",
        "an open for writing",
        "by a mapping",
        "by a marked handle",
        "by a write to a mapped file",
        "by both",
        "by marks alone",
        "by no handle that was sought",
        "by one that was sought",
        "by the level alone",
        "by two that were sought",
        "from a file",
        "from a pipe",
        "from a subject",
        "from member to member",
    ];
    assert_eq!(seen.keys().copied().collect::<Vec<&str>>(), expected);
    for (what, count) in seen {
        assert!(count >= 10, "{what}: {count}");
    }
}

// Tables that no calls made.

/// Tables at random: labels of all kinds, so that some things are below their needs, and groups whose members differ.
fn any_tables(random: &mut Random) -> Tables {
    let mut tables = Tables::new(LIMITS);
    let subjects = random.between(1, 6);
    let objects = random.between(1, 8);
    let label = |random: &mut Random| Label::new(random.below(4) * 4, random.below(4));
    for s in 0..subjects {
        tables.set_subject(s, Some(Subject::new(label(random))));
    }
    for o in 0..objects {
        let kind = if random.once_in(3) { Kind::Pipe } else { Kind::File };
        tables.set_object(o, Some(Object::new(kind, label(random))));
    }
    for _ in 0..random.below(4) {
        let (s, t) = (random.below(subjects), random.below(subjects));
        tables.join_groups(s, t);
    }
    for _ in 0..random.below(16) {
        let direction = if random.once_in(2) { Direction::Reading } else { Direction::Writing };
        let handle =
            Handle { marked: random.once_in(4), ..Handle::new(random.below(objects + 1), direction) };
        tables.set_handle(random.below(subjects + 1), random.below(6), Some(handle));
    }
    tables
}

/// RULES A12: on tables that no calls made, no chain where the call is not refused with 9, and never more than 95 steps.
/// Where nothing is below its need and the members of each group have one label, there is one at every 9, and it is an
/// attack.
#[test]
fn tables_that_no_calls_made_have_chains_where_they_are_sound() {
    let (mut sound, mut unsound, mut no_attack) = (0, 0, 0);
    for index in 0..60_000 {
        let mut random = Random::new(3, index);
        let tables = any_tables(&mut random);
        let [s, t, o] = [6, 6, 8].map(|count| random.below(count));
        let (code, numbers) = random
            .pick(&[
                (5, [s, o, 7, 0, 0, 0]),
                (6, [s, o, 7, 0, 0, 0]),
                (10, [s, o, 0, 0, 0, 0]),
                (14, [s, o, 7, 0, 0, 0]),
                (17, [s, t, 20, 21, 7, 8]),
            ])
            .unwrap();
        let call = Call::new(code, numbers).unwrap();
        let mut monitor = Monitor::of_tables(tables.clone(), Rules::default());
        let book = book(&monitor, index);
        let is_nine = monitor.call(code, numbers) == Answer::Refused(9);
        let found = behind(&tables, call);
        assert!(found.as_ref().is_none_or(|chain| is_nine && chain.steps.len() <= MOST_STEPS));
        if !is_nine {
            continue;
        }
        let is_safe = Needs::of_tables(&tables).unmet(&tables).next().is_none();
        let is_even = tables.pairs_of_mates().all(|(s, t)| tables.subject(s) == tables.subject(t));
        if is_safe && is_even {
            // RULES A8: the members of a group hold one content, as they do in every book (RULES B31).
            let one = |thing: Thing| match thing {
                S(s) => book.content(S(tables.members(s).next().unwrap_or(s))).unwrap_or(0),
                O(_) => book.content(thing).unwrap_or(0),
            };
            let book = Book::of(book.monitor().clone(), one);
            assert_eq!(attack(&book, call, &found.unwrap()), Ok(()), "{call:?}");
            sound += 1;
        } else {
            let is_attack = found.is_some_and(|chain| attack(&book, call, &chain).is_ok());
            no_attack += u64::from(!is_attack);
            unsound += 1;
        }
    }
    assert!(sound > 300 && unsound > 5000 && no_attack > 0, "{sound} {unsound} {no_attack}");
}

// Wrong variants.

/// In the number of steps, but for those of which only the whole chain tells.
#[test]
fn every_variant_of_chains_is_told_apart() {
    for seed in [1, 2] {
        for bite in bite::chains::bite(seed, 2000) {
            let by = if ONLY_BY_CHAIN.contains(&bite.name) { "chain" } else { "steps" };
            assert_eq!(bite.told().map(|told| told.1), Some(by), "{} with seed {seed}", bite.name);
        }
    }
}

#[test]
fn variants_of_chains_have_names_of_their_own() {
    for (variant, name, _) in CHAINS {
        assert_eq!(ChainRules::named(name), Some(ChainRules::from(*variant)));
    }
    assert!(ONLY_BY_CHAIN.iter().all(|name| ChainRules::named(name).is_some()));
    assert_eq!(ChainRules::named("no-such-variant"), None);
    assert!(ChainRules::default().are_right());
}

/// Of those that hand out a chain which is no attack, the attack says what is wrong with it.
#[test]
fn the_attack_finds_wrong_chains_out_by_itself() {
    let expected = [
        ("start-sufficient", "RULES A2"),
        ("new-pipe-starts", "RULES A2"),
        ("mapper-starts", "RULES A2"),
        ("ends-at-pipe", "RULES A2"),
        ("runner-starts", "RULES A2"),
        ("lead-starts", "RULES A10"),
        ("marked-passed", "RULES A5"),
        ("mates-passed", "RULES A5"),
        ("program-reached", "RULES A1"),
        ("sought-left-out", "RULES A1"),
    ];
    for (name, rule) in expected {
        let mut said = BTreeSet::new();
        for journal in mixed(120) {
            if said.contains(rule) {
                break;
            }
            each(&journal, ChainRules::named(name).unwrap(), |found, book| {
                if let Err(what) = found.check(&book) {
                    said.insert(what.split(':').next().unwrap_or("").to_string());
                }
            });
        }
        assert!(said.contains(rule), "{name}: {said:?}");
    }
}

// The lines of `second why`.

#[test]
fn a_line_is_the_position_and_the_number_of_steps() {
    let march = include_bytes!("../examples/march.journal");
    assert_eq!(lines(march, false).unwrap(), "196 2\n198 30\n209 1\n");
    let whole = lines(march, true).unwrap();
    assert!(whole.starts_with("196 2 o1 o0 277 276\n198 30 o1 o5 277 273 "), "{whole}");
    assert!(whole.ends_with("\n209 1 s1 o0 18\n"), "{whole}");
    assert_eq!(lines(b"", true), Ok(String::new()));
    assert_eq!(lines(&[0; 70_000], true), Ok(String::new()));
    let rings = journal(SEED, 1, Wish { style: Style::Rings, ..Wish::default() });
    assert_eq!(lines(&rings, true).unwrap(), lines_by(&rings, true, ChainRules::default()));
}

/// RULES A7: what is taken in, and nothing of the taker's own.
#[test]
fn copying_is_one_handling() {
    let taking = Taking { own: 3, other: 4, position: 5, access: Access::Run, subject: 6, object: 7 };
    assert_eq!(copying(taking), 4);
    assert_eq!(
        copying(Taking { own: 30, position: 50, access: Access::Read, subject: 60, object: 70, ..taking }),
        4
    );
}
