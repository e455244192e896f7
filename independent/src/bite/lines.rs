//! The same for typed lines: how many of the generated ones it takes until a wrong variant is seen.
//!
//! What a comparison sees is the answer: the refusal or the three counts, the tables after the line, and the tally. A
//! variant that leaves all of these as they are is told apart by its list of calls alone.

use crate::generate::lines::trials;
use crate::lines::{Made, Ran};
use crate::monitor::Monitor;
use crate::variants::lines::{LineRules, LineVariant, LINES};

/// A variant and the number of lines, from 1, until it was seen in the answer, and until it was seen in the calls; none
/// if it never was.
#[derive(Clone, Copy, Debug)]
pub struct LineBite {
    pub variant: LineVariant,
    pub name: &'static str,
    pub what: &'static str,
    pub answer: Option<u64>,
    pub calls: Option<u64>,
}

impl LineBite {
    /// After how many lines it was told apart, and by what; by the calls only where the answer never did.
    pub fn told(&self) -> Option<(u64, &'static str)> {
        let answer = self.answer.map(|lines| (lines, "answer"));
        answer.or(self.calls.map(|lines| (lines, "calls")))
    }
}

/// Tries every variant on up to this many lines of a seed.
pub fn bite(seed: u64, lines: u64) -> Vec<LineBite> {
    let fresh = |&(variant, name, what): &(LineVariant, &'static str, &'static str)| LineBite {
        variant,
        name,
        what,
        answer: None,
        calls: None,
    };
    let mut bites: Vec<LineBite> = LINES.iter().map(fresh).collect();
    for (line, trial) in (1..=lines).zip(trials(seed)) {
        let right = trial.run(LineRules::default());
        for bite in bites.iter_mut().filter(|bite| bite.answer.is_none()) {
            let bent = trial.run(bite.variant.into());
            if !is_same_answer(&right, &bent) {
                bite.answer = Some(line);
            }
            if bite.calls.is_none() && !are_same_calls(&right.1, &bent.1) {
                bite.calls = Some(line);
            }
        }
    }
    bites
}

/// Whether two runs of a line have the same refusal or counts, and left the same tables and tally.
pub fn is_same_answer(one: &(Monitor, Ran), other: &(Monitor, Ran)) -> bool {
    let seen = |(monitor, ran): &(Monitor, Ran)| (ran.outcome, monitor.tally());
    seen(one) == seen(other) && one.0.tables() == other.0.tables()
}

/// Whether two runs made the same calls in the same order.
fn are_same_calls(one: &Ran, other: &Ran) -> bool {
    let call = |call: &Made| (call.code, call.numbers);
    one.made.iter().map(call).eq(other.made.iter().map(call))
}

/// The table of the bites, in the order of the variants.
pub fn table(bites: &[LineBite]) -> String {
    let width = bites.iter().map(|bite| bite.name.len()).max().unwrap_or(0);
    let mut text = format!("{:<width$}  lines  seen in  what it does wrong\n", "variant of lines");
    for bite in bites {
        let (lines, by) =
            bite.told().map_or(("never".to_string(), ""), |(lines, by)| (lines.to_string(), by));
        text.push_str(&format!("{:<width$}  {lines:>5}  {by:<7}  {}\n", bite.name, bite.what));
    }
    text
}

/// What sums the table up.
pub fn summary(bites: &[LineBite], lines: u64) -> String {
    let missed = bites.iter().filter(|bite| bite.told().is_none()).count();
    let most = bites.iter().filter_map(|bite| bite.told()).map(|(lines, _)| lines).max().unwrap_or(0);
    let count = bites.len();
    if missed == 0 {
        format!("all {count} of lines, the last after {most} lines")
    } else {
        format!("{missed} of {count} of lines not told apart in {lines} lines")
    }
}
