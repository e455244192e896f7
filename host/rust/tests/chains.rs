//! The chain behind a refusal 9, the archive beside the independent program: at each call of generated journals both hand out
//! the same chain, or none (RULES A12, A13); and the archive's is made as an attack in the independent program (RULES A2 to
//! A8). The same comparison has to tell every wrong variant of a chain apart.

use gatekeeper::{Chain, Front, Monitor, State, Step, PLACES};
use gatekeeper_independent::book::Book;
use gatekeeper_independent::calls::{Call, Numbers};
use gatekeeper_independent::chains::{attack, behind_by, Chain as PlainChain};
use gatekeeper_independent::generate::{journal, Wish};
use gatekeeper_independent::monitor::{Answer, Monitor as PlainMonitor};
use gatekeeper_independent::needs::Thing;
use gatekeeper_independent::records::Body;
use gatekeeper_independent::replies::{Content, Run};
use gatekeeper_independent::variants::chains::{ChainRules, CHAINS};
use gatekeeper_independent::variants::Rules;

const SEED: u64 = 1;
const JOURNALS: u64 = 500;

/// Where the slots and the numbers of the objects stand in a monitor's bytes.
const OBJECTS_AT: usize = 96;
const NUMBERS_AT: usize = 2033;
const SLOTS: usize = 64;

/// The codes of the calls that can be refused with 9.
const ASKING: [u64; 5] = [5, 6, 10, 14, 17];

/// The numbers of the live objects, in the order of their slots.
fn objects(monitor: &Monitor) -> Vec<u64> {
    let bytes = monitor.as_bytes();
    let number = |slot: usize| {
        let at = NUMBERS_AT + 8 * slot;
        let digits: [u8; 8] = bytes[at..at + 8].try_into().expect("eight bytes");
        u64::from_le_bytes(digits)
    };
    (0..SLOTS).filter(|slot| matches!(bytes[OBJECTS_AT + 3 * slot], 1 | 2)).map(number).collect()
}

/// A chain of the archive as the independent program has it.
fn plain(chain: &Chain) -> PlainChain {
    let low = match chain.front {
        Front::Subject(s) => Thing::Subject(s),
        Front::Object(o) => Thing::Object(o),
    };
    let steps = chain.steps.iter().map(|&Step { subject, place }| PLACES * subject + place).collect();
    PlainChain { low, high: chain.file, steps }
}

/// Every call of a journal that can be refused with 9, on the monitors before it: those of the archive, as bytes and as a
/// struct, and the plain one.
fn each_call(journal: &[u8], mut look: impl FnMut(&Monitor, &State, &PlainMonitor, u64, Numbers, Answer)) {
    let mut run = Run::new(journal, Rules::default());
    let (mut monitor, mut state) = (Monitor::new(), State::new());
    loop {
        let before = run.monitor().clone();
        let Some(step) = run.next_step() else {
            return;
        };
        let Content::Body(_, Body::Call { code, numbers }) = step.content else {
            continue;
        };
        if ASKING.contains(&code) {
            look(&monitor, &state, &before, code, numbers, step.answer);
        }
        assert_eq!(monitor.direct(code, numbers), state.direct(code, numbers));
    }
}

#[test]
fn the_chains_are_those_of_the_independent_program() {
    let (mut nines, mut others, mut longest) = (0, 0, 0);
    for index in 0..JOURNALS {
        let journal = journal(SEED, index, Wish::default());
        each_call(&journal, |monitor, state, before, code, numbers, answer| {
            let found = monitor.why_direct(code, numbers);
            assert_eq!(state.why_direct(code, numbers), found, "journal {index}: {code} {numbers:?}");
            let found = found.as_ref().map(plain);
            let call = Call::new(code, numbers).expect("one of the calls");
            let right = behind_by(before.tables(), call, &objects(monitor), ChainRules::default());
            assert_eq!(found, right, "journal {index}: {call:?}");
            assert_eq!(found.is_some(), answer == Answer::Refused(9), "journal {index}: {call:?}");
            let Some(chain) = found else {
                others += 1;
                return;
            };
            let content = |thing: Thing| match thing {
                Thing::Subject(s) => 2 * s,
                Thing::Object(o) => o.wrapping_mul(2) + 1,
            };
            let book = Book::of(before.clone(), content);
            assert_eq!(attack(&book, call, &chain), Ok(()), "journal {index}: {call:?}");
            longest = longest.max(chain.steps.len());
            nines += 1;
        });
    }
    println!("beside: the same chain behind {nines} refusals 9, of up to {longest} steps, each made as an attack; none behind {others} other answers");
    assert!(nines > 3000 && others > 10_000 && longest == 64);
}

/// Some chain of the archive is another one than the variant's, or the variant has one at another call.
#[test]
fn every_wrong_chain_is_told_apart_from_the_archive() {
    let mut left: Vec<(ChainRules, &str)> =
        CHAINS.iter().map(|&(variant, name, _)| (ChainRules::from(variant), name)).collect();
    for index in 0..JOURNALS {
        let journal = journal(SEED, index, Wish::default());
        each_call(&journal, |monitor, _, before, code, numbers, answer| {
            if let Answer::Refused(9 | 15) = answer {
                let found = monitor.why_direct(code, numbers).as_ref().map(plain);
                let call = Call::new(code, numbers).expect("one of the calls");
                let objects = objects(monitor);
                left.retain(|&(rules, _)| behind_by(before.tables(), call, &objects, rules) == found);
            }
        });
    }
    assert!(left.is_empty(), "not told apart: {:?}", left.iter().map(|(_, name)| name).collect::<Vec<_>>());
    println!("beside: {} wrong chains told apart", CHAINS.len());
}
