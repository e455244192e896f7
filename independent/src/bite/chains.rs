//! The same for the chain behind a 9: how many of the generated journals it takes until a wrong variant is seen.
//!
//! What a comparison sees first is how many steps the chain of each record has. A variant that leaves that as it is is told
//! apart by the whole chain: what it starts from, the file and the places.

use crate::chains::lines_by;
use crate::generate::{journal, Wish};
use crate::variants::chains::{ChainRules, ChainVariant, CHAINS, ONLY_BY_CHAIN};

/// A variant and the number of journals, from 1, until it was seen in the number of steps, and until it was seen in the
/// chain; none if it never was.
#[derive(Clone, Copy, Debug)]
pub struct ChainBite {
    pub variant: ChainVariant,
    pub name: &'static str,
    pub what: &'static str,
    pub steps: Option<u64>,
    pub chain: Option<u64>,
}

impl ChainBite {
    /// After how many journals it was told apart, and by what; by the chain only where the number of steps never did.
    pub fn told(&self) -> Option<(u64, &'static str)> {
        let steps = self.steps.map(|journals| (journals, "steps"));
        steps.or(self.chain.map(|journals| (journals, "chain")))
    }

    fn is_done(&self) -> bool {
        let by_chain = self.chain.filter(|_| ONLY_BY_CHAIN.contains(&self.name));
        self.steps.or(by_chain).is_some()
    }
}

/// Tries every variant on up to this many journals of a seed.
pub fn bite(seed: u64, journals: u64) -> Vec<ChainBite> {
    let fresh = |&(variant, name, what): &(ChainVariant, &'static str, &'static str)| ChainBite {
        variant,
        name,
        what,
        steps: None,
        chain: None,
    };
    let mut bites: Vec<ChainBite> = CHAINS.iter().map(fresh).collect();
    for index in 0..journals {
        if bites.iter().all(ChainBite::is_done) {
            break;
        }
        let journal = journal(seed, index, Wish::default());
        let right = lines_by(&journal, true, ChainRules::default());
        for bite in bites.iter_mut().filter(|bite| !bite.is_done()) {
            let bent = lines_by(&journal, true, bite.variant.into());
            if counts(&bent) != counts(&right) {
                bite.steps = Some(index + 1);
            }
            if bite.chain.is_none() && bent != right {
                bite.chain = Some(index + 1);
            }
        }
    }
    bites
}

/// The position and the number of steps of each line.
fn counts(lines: &str) -> Vec<Vec<&str>> {
    lines.lines().map(|line| line.split(' ').take(2).collect()).collect()
}

/// The table of the bites, in the order of the variants.
pub fn table(bites: &[ChainBite]) -> String {
    let width = bites.iter().map(|bite| bite.name.len()).max().unwrap_or(0);
    let mut text = format!("{:<width$}  journals  seen in  what it does wrong\n", "variant of chains");
    for bite in bites {
        let (journals, by) =
            bite.told().map_or(("never".to_string(), ""), |(journals, by)| (journals.to_string(), by));
        text.push_str(&format!("{:<width$}  {journals:>8}  {by:<7}  {}\n", bite.name, bite.what));
    }
    text
}

/// What sums the table up.
pub fn summary(bites: &[ChainBite], journals: u64) -> String {
    let missed = bites.iter().filter(|bite| bite.told().is_none()).count();
    let most = bites.iter().filter_map(|bite| bite.told()).map(|(journals, _)| journals).max().unwrap_or(0);
    let count = bites.len();
    if missed == 0 {
        format!("all {count} of chains, the last after {most} journals")
    } else {
        format!("{missed} of {count} of chains not told apart in {journals} journals")
    }
}
