//! The wrong variants: each is told apart, and each is switched on at one place.

use std::collections::BTreeSet;
use std::fs;
use std::path::Path;

use gatekeeper_independent::bite::{self, bite};
use gatekeeper_independent::calls::Call;
use gatekeeper_independent::generate::{journal, Wish};
use gatekeeper_independent::needs::Needs;
use gatekeeper_independent::records::Body;
use gatekeeper_independent::refusals::{conditions, needs_for};
use gatekeeper_independent::replies::{replies, replies_by, Content, Run};
use gatekeeper_independent::variants::chains::CHAINS;
use gatekeeper_independent::variants::lines::{LineRules, LINES, ONLY_BY_CALLS};
use gatekeeper_independent::variants::{Rules, ALL, ONLY_BY_TABLES};

#[test]
fn every_variant_is_told_apart() {
    for seed in [1, 2] {
        for bite in bite(seed, 2000) {
            assert!(bite.is_told(), "{} with seed {seed}", bite.name);
        }
    }
}

/// They are told apart by tables, and by no journal.
#[test]
fn some_variants_are_told_by_tables_that_no_calls_made_alone() {
    let rules_of = |name: &&str| Rules::named(name).unwrap();
    for name in ONLY_BY_TABLES {
        assert!(bite::tables::bite(rules_of(name)).is_some(), "{name}");
    }
    assert_eq!(bite::tables::bite(Rules::default()), None);
    for index in 0..80 {
        let journal = journal(1, index, Wish::default());
        let right = replies(&journal);
        for name in ONLY_BY_TABLES {
            assert_eq!(replies_by(&journal, rules_of(name)), right, "{name}, journal {index}");
        }
    }
}

#[test]
fn there_are_many_variants_with_names_of_their_own() {
    assert!(ALL.len() >= 25);
    for (variant, name, _) in ALL {
        assert_eq!(Rules::named(name), Some(Rules::from(*variant)));
    }
    assert_eq!(Rules::named("no-such-variant"), None);
    assert!(Rules::default().are_right());
}

/// The order of two refusals can be told only where both conditions can hold. These are all such pairs,
/// each meets its turn in the generated journals, and each has a variant that swaps it.
#[test]
fn every_pair_of_conditions_that_can_hold_together_has_a_variant() {
    let mut pairs = BTreeSet::new();
    for index in 0..600 {
        let journal = journal(1, index, Wish::default());
        let mut run = Run::new(&journal, Rules::default());
        loop {
            let tables = run.monitor().tables().clone();
            let Some(step) = run.next_step() else {
                break;
            };
            let Content::Body(_, Body::Call { code, numbers }) = step.content else {
                continue;
            };
            let call = Call::new(code, numbers).unwrap();
            let needs = needs_for(&tables, call, Rules::default(), &Needs::none(&tables));
            let conditions = conditions(&tables, call, &needs);
            let holding: Vec<u32> = conditions.iter().filter(|row| row.1).map(|row| row.0).collect();
            for (index, earlier) in holding.iter().enumerate() {
                pairs.extend(holding[index + 1..].iter().map(|later| (*earlier, *later)));
            }
        }
    }
    let expected =
        "2-3 2-4 2-5 2-7 2-15 2-16 2-17 3-6 3-7 3-9 3-17 4-7 5-7 5-9 7-9 7-15 15-9 16-3 16-7 16-17 \
                    17-6 17-7 17-9";
    let pairs: Vec<String> = pairs.iter().map(|(earlier, later)| format!("{earlier}-{later}")).collect();
    assert_eq!(pairs.join(" "), expected);
    for pair in pairs {
        assert!(Rules::named(&format!("order-{pair}")).is_some());
    }
}

fn sources(folder: &Path, text: &mut String) {
    for entry in fs::read_dir(folder).unwrap() {
        let path = entry.unwrap().path();
        if path.is_dir() {
            sources(&path, text);
        } else {
            text.push_str(&fs::read_to_string(&path).unwrap());
        }
    }
}

/// How often the word stands in the text, not as a part of a longer one.
fn times(text: &str, word: &str) -> usize {
    let is_letter = |next: char| next.is_alphanumeric();
    let is_whole = |start: usize| {
        !text[..start].ends_with(is_letter) && !text[start + word.len()..].starts_with(is_letter)
    };
    text.match_indices(word).filter(|(start, _)| is_whole(*start)).count()
}

#[test]
fn every_variant_is_read_at_exactly_one_place() {
    let mut text = String::new();
    sources(&Path::new(env!("CARGO_MANIFEST_DIR")).join("src"), &mut text);
    for (variant, name, _) in ALL {
        assert_eq!(times(&text, &format!("Variant::{variant:?}")), 1, "{name}");
    }
    for (variant, name, _) in LINES {
        assert_eq!(times(&text, &format!("LineVariant::{variant:?}")), 1, "{name}");
    }
    for (variant, name, _) in CHAINS {
        assert_eq!(times(&text, &format!("ChainVariant::{variant:?}")), 1, "{name}");
    }
}

/// In the answer, but for those of which only the list of calls tells.
#[test]
fn every_variant_of_lines_is_told_apart() {
    for seed in [1, 2] {
        for bite in bite::lines::bite(seed, 2000) {
            let by = if ONLY_BY_CALLS.contains(&bite.name) { "calls" } else { "answer" };
            assert_eq!(bite.told().map(|told| told.1), Some(by), "{} with seed {seed}", bite.name);
        }
    }
}

#[test]
fn variants_of_lines_have_names_of_their_own() {
    assert!(LINES.len() >= 18);
    for (variant, name, _) in LINES {
        assert_eq!(LineRules::named(name), Some(LineRules::from(*variant)));
    }
    assert!(ONLY_BY_CALLS.iter().all(|name| LineRules::named(name).is_some()));
    assert_eq!(LineRules::named("no-such-variant"), None);
    assert!(LineRules::default().are_right());
}
