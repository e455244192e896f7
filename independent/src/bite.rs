//! Shows that the generated journals find mistakes: for each wrong variant, how many of them it takes
//! until its replies differ from the right ones. A variant of which no journal tells is tried on tables that no calls
//! made.

pub mod chains;
pub mod lines;
pub mod tables;

use crate::generate::{journal, Wish};
use crate::replies::{replies, Run};
use crate::variants::{Rules, Variant, ALL, ONLY_BY_TABLES};

/// A variant and the number of journals, from 1, until it was told apart, none if it never was; the same of calls on
/// tables that no calls made, where no journal can tell.
#[derive(Clone, Copy, Debug)]
pub struct Bite {
    pub variant: Variant,
    pub name: &'static str,
    pub what: &'static str,
    pub journals: Option<u64>,
    pub tables: Option<u64>,
}

impl Bite {
    fn of(&(variant, name, what): &(Variant, &'static str, &'static str)) -> Bite {
        let is_tried = ONLY_BY_TABLES.contains(&name);
        let tables = if is_tried { tables::bite(variant.into()) } else { None };
        Bite { variant, name, what, journals: None, tables }
    }

    pub fn is_told(&self) -> bool {
        self.journals.is_some() || self.tables.is_some()
    }
}

/// Tries every variant on up to this many journals of a seed.
pub fn bite(seed: u64, journals: u64) -> Vec<Bite> {
    let mut bites: Vec<Bite> = ALL.iter().map(Bite::of).collect();
    for index in 0..journals {
        if bites.iter().all(Bite::is_told) {
            break;
        }
        let journal = journal(seed, index, Wish::default());
        let right = replies(&journal);
        for bite in bites.iter_mut().filter(|bite| !bite.is_told()) {
            if differs(&journal, Rules::from(bite.variant), &right) {
                bite.journals = Some(index + 1);
            }
        }
    }
    bites
}

/// Whether the replies by these rules are not the right ones. The first line that differs is enough.
fn differs(journal: &[u8], rules: Rules, right: &str) -> bool {
    let mut run = Run::new(journal, rules);
    let mut rest = right;
    while let Some(step) = run.next_step() {
        match rest.strip_prefix(&step.line_by(rules)) {
            Some(behind) => rest = behind,
            None => return true,
        }
    }
    rest != run.end_line()
}

/// The table of the bites, in the order of the variants.
pub fn table(bites: &[Bite]) -> String {
    let width = bites.iter().map(|bite| bite.name.len()).max().unwrap_or(0);
    let mut text = format!("{:<width$}  journals  what it does wrong\n", "variant");
    for bite in bites {
        let count = match (bite.journals, bite.tables) {
            (Some(count), _) => count.to_string(),
            (None, Some(_)) => "tables".to_string(),
            (None, None) => "never".to_string(),
        };
        text.push_str(&format!("{:<width$}  {count:>8}  {}\n", bite.name, bite.what));
    }
    text
}

/// What sums the table up.
pub fn summary(bites: &[Bite], journals: u64) -> String {
    let missed = bites.iter().filter(|bite| !bite.is_told()).count();
    let most = bites.iter().filter_map(|bite| bite.journals).max().unwrap_or(0);
    let by_tables = bites.iter().filter(|bite| bite.tables.is_some()).count();
    let count = bites.len();
    if missed == 0 {
        format!("All {count} variants told apart, {by_tables} by tables and the last after {most} journals")
    } else {
        format!("{missed} of {count} variants not told apart in {journals} journals")
    }
}
