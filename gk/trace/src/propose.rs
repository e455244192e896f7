//! `gk trace --propose`: changes of the levels file after which nothing of the trace is refused.
//!
//! Each that is shown was tried: the trace was run with the changed file, and nothing was refused; and with each of its
//! lines as it was, something was. No change leaves a file out. What each line gives up is said beside it, since a refusal
//! is rarely the levels file's fault: to lower a file is to trust it less, and to raise one is to vouch for it.

use std::collections::{BTreeMap, BTreeSet};

use gatekeeper::{Answer, Call, Label, Refusal};
use gk_advice::run::{Content, Run};
use gk_advice::things::Thing;
use gk_chain::behind;
use gk_names::{shops, Names};

use crate::levels::{pattern_of, Level, Levels, TOP};
use crate::report::{wrapped, INDENT};
use crate::run::Written;
use crate::text::shown;

/// Rounds in which more lines are changed, at most, and runs of the trace in all.
const MOST_ROUNDS: usize = 16;
const MOST_RUNS: usize = 200;

/// Files that only `else` names and that get a line each where they are raised; more are not proposed.
const MOST_NEW: usize = 8;

/// A line of a levels file, with the number and the text that it had; none where it is new.
#[derive(Clone, PartialEq, Eq)]
struct Row {
    text: Vec<u8>,
    was: Option<(usize, Vec<u8>)>,
}

impl Row {
    fn is_changed(&self) -> bool {
        self.was.as_ref().is_none_or(|(_, was)| *was != self.text)
    }
}

/// A levels file that is being changed.
#[derive(Clone, PartialEq, Eq)]
struct Draft(Vec<Row>);

impl Draft {
    fn new(text: &[u8]) -> Draft {
        let rows = text.split(|&byte| byte == b'\n').enumerate();
        Draft(
            rows.map(|(at, line)| Row { text: line.to_vec(), was: Some((at + 1, line.to_vec())) })
                .collect(),
        )
    }

    fn text(&self) -> Vec<u8> {
        let lines: Vec<&[u8]> = self.0.iter().map(|row| row.text.as_slice()).collect();
        lines.join(&b'\n')
    }

    fn levels(&self) -> Option<Levels> {
        Levels::read(&self.text()).ok()
    }

    /// Gives a line another level.
    fn set(&mut self, line: usize, level: &str) {
        let Some(row) = self.0.get_mut(line - 1) else { return };
        if let Some(pattern) = pattern_of(&row.text).map(<[u8]>::to_vec) {
            row.text = [&pattern, b" ".as_slice(), level.as_bytes()].concat();
        }
    }

    /// A new line before that of `else`.
    fn insert(&mut self, before: usize, pattern: &str, level: &str) {
        self.0.insert(before - 1, Row { text: format!("{pattern} {level}").into_bytes(), was: None });
    }

    fn changed(&self) -> Vec<usize> {
        (0..self.0.len()).filter(|&at| self.0[at].is_changed()).collect()
    }

    /// The same without one of its changes.
    fn without(&self, at: usize) -> Draft {
        let mut other = self.clone();
        match other.0[at].was.clone() {
            Some((_, was)) => other.0[at].text = was,
            None => drop(other.0.remove(at)),
        }
        other
    }
}

/// What a refusal 9 is about: the label of what could get into a file, and the file.
struct Short {
    label: Label,
    high: Ends,
}

/// A file at an end of a chain.
#[derive(Clone, Debug, PartialEq, Eq, PartialOrd, Ord)]
struct Ends {
    line: Option<usize>,
    pattern: String,
    level: u8,
    shops: u8,
}

impl Ends {
    fn label(&self) -> Label {
        Label { level: self.level, shops: self.shops }
    }
}

/// A run of the trace: its refusals, and the files that it reads and writes.
struct Tried {
    shorts: Vec<Short>,
    read: BTreeSet<Ends>,
    written: BTreeSet<Ends>,
    is_clear: bool,
}

impl Tried {
    fn of(written: &Written) -> Tried {
        let files: BTreeMap<u64, Ends> =
            written.seats.iter().map(|seat| (seat.object, ends(seat))).collect();
        let mut tried =
            Tried { shorts: Vec::new(), read: BTreeSet::new(), written: BTreeSet::new(), is_clear: true };
        for step in Run::new(&written.journal) {
            let Content::Call(call) = step.content else { continue };
            let object = call.numbers()[1];
            match call {
                Call::OpenRead { .. } | Call::Map { .. } | Call::Exec { .. } => {
                    tried.read.extend(files.get(&object).cloned());
                }
                Call::OpenWrite { .. } => tried.written.extend(files.get(&object).cloned()),
                _ => {}
            }
            if step.answer != Answer::Refused(Refusal::Flow) {
                continue;
            }
            tried.is_clear = false;
            let chain = behind(&step.before, call.code(), call.numbers());
            let high = chain.last().and_then(|link| match link.thing {
                Thing::Object(object) => files.get(&object).cloned(),
                Thing::Step(_) => None,
            });
            if let (Some(front), Some(high)) = (chain.first(), high) {
                tried.shorts.push(Short { label: front.label, high });
            }
        }
        tried
    }
}

fn ends(seat: &crate::files::Seat) -> Ends {
    let Label { level, shops } = seat.label;
    Ends { line: seat.line, pattern: seat.pattern(), level, shops }
}

/// The search: runs the trace with other levels.
struct Search<F> {
    run: F,
    runs: usize,
    names: Names,
}

impl<F: FnMut(&Levels) -> Option<Written>> Search<F> {
    fn tries(&mut self, draft: &Draft) -> Option<Tried> {
        self.runs += 1;
        if self.runs > MOST_RUNS {
            return None;
        }
        let written = (self.run)(&draft.levels()?)?;
        Some(Tried::of(&written))
    }

    fn clears(&mut self, draft: &Draft) -> bool {
        self.tries(draft).is_some_and(|tried| tried.is_clear)
    }

    /// A level and a set as they stand in a levels file.
    fn words(&self, label: Label) -> String {
        match label.shops {
            shops::ALL => label.level.to_string(),
            set => format!("{} {}", label.level, shops::written(set.into(), &self.names, 1)),
        }
    }

    /// Lets each file that something reaches take it: one that only `else` names has the level of its maker, or else that
    /// of what reaches it. Where `named` is false, lines that are there stay as they are.
    fn lowered(&mut self, mut draft: Draft, named: bool) -> Option<Draft> {
        for _ in 0..MOST_ROUNDS {
            let tried = self.tries(&draft)?;
            let mut falls: BTreeMap<Ends, Label> = BTreeMap::new();
            for Short { label, high } in tried.shorts {
                let own = high.label();
                let fall = falls.entry(high).or_insert(own);
                *fall = fall.fallen_to(label);
            }
            let before = draft.clone();
            for (high, label) in falls {
                let levels = draft.levels()?;
                match high.line {
                    None => draft.insert(levels.other().0, &high.pattern, "step"),
                    Some(line) if named || draft.0.get(line - 1)?.was.is_none() => {
                        draft.set(line, &self.words(label));
                    }
                    Some(_) => {}
                }
                if high.line.is_none() {
                    // The lines below have other numbers now; what else falls, falls in the next round.
                    break;
                }
            }
            if draft == before {
                return Some(draft);
            }
        }
        None
    }

    /// Vouches for each file that is read and lacks what the files demand that it could get into.
    fn raised(&mut self, mut draft: Draft) -> Option<Draft> {
        for _ in 0..MOST_ROUNDS {
            let tried = self.tries(&draft)?;
            let wanted = tried.shorts.iter().map(|short| short.high.label()).reduce(Label::join);
            let Some(wanted) = wanted else { return Some(draft) };
            let low: Vec<Ends> =
                tried.read.into_iter().filter(|file| !file.label().at_least(wanted)).collect();
            if low.is_empty() || low.iter().filter(|file| file.line.is_none()).count() > MOST_NEW {
                return None;
            }
            for file in low {
                let levels = draft.levels()?;
                let words = self.words(file.label().join(wanted));
                match file.line {
                    Some(line) => draft.set(line, &words),
                    None => {
                        draft.insert(levels.other().0, &file.pattern, &words);
                        break;
                    }
                }
            }
        }
        None
    }

    /// Leaves out what is not needed, and raises no file higher than is needed: no line of what is left can stay as it was.
    fn least(&mut self, draft: Draft) -> Option<Draft> {
        if !self.clears(&draft) {
            return None;
        }
        let mut draft = self.fewest(draft);
        for row in draft.changed() {
            draft = self.nearest(draft, row)?;
        }
        Some(self.fewest(draft)).filter(|_| self.runs <= MOST_RUNS)
    }

    /// Takes back each change without which nothing is refused, either.
    fn fewest(&mut self, mut draft: Draft) -> Draft {
        let mut at = 0;
        while let Some(&row) = draft.changed().get(at) {
            let other = draft.without(row);
            match self.clears(&other) {
                true => draft = other,
                false => at += 1,
            }
        }
        draft
    }

    /// Raises a file no higher than is needed.
    fn nearest(&mut self, draft: Draft, row: usize) -> Option<Draft> {
        let before = draft.without(row).levels().and_then(|levels| levels.of_line(row + 1));
        let now = draft.levels()?.of_line(row + 1);
        let (Some(Level::At(before)), Some(Level::At(now))) =
            (before.filter(|_| draft.0[row].was.is_some()), now)
        else {
            return Some(draft);
        };
        for level in before.level + 1..now.level.max(before.level + 1) {
            let mut other = draft.clone();
            other.set(row + 1, &self.words(Label { level, ..now }));
            if self.clears(&other) {
                return Some(other);
            }
        }
        Some(draft)
    }
}

/// A change of the levels file after which nothing is refused.
pub struct Proposal {
    /// The whole levels file.
    pub text: Vec<u8>,
    /// The lines of it that are changed or new, each with what it gives up.
    pub lines: Vec<(String, String)>,
}

/// What is proposed for a trace with these levels, the fewest lines first. `run` runs the trace with other levels; none
/// where it does not fit then.
pub fn proposals(
    text: &[u8],
    levels: &Levels,
    written: &Written,
    run: impl FnMut(&Levels) -> Option<Written>,
) -> Vec<Proposal> {
    let first = Tried::of(written);
    if first.is_clear {
        return Vec::new();
    }
    let mut search = Search { run, runs: 0, names: levels.names().clone() };
    let draft = Draft::new(text);
    let below = search.lowered(draft.clone(), true);
    let made = search.lowered(draft.clone(), false);
    let above = made.clone().and_then(|made| search.raised(made));
    let mut drafts: Vec<Draft> = Vec::new();
    for found in [made, below, above].into_iter().flatten().filter(|found| *found != draft) {
        drafts.extend(search.least(found).filter(|least| !drafts.contains(least)));
    }
    drafts.sort_by_key(|draft| draft.changed().len());
    let told = |draft: &Draft, row: usize| told(draft, row, levels, &first);
    let proposal = |draft: &Draft| Proposal {
        text: draft.text(),
        lines: draft.changed().into_iter().map(|row| told(draft, row)).collect(),
    };
    drafts.iter().map(proposal).collect()
}

/// The same, in lines for the report; and before it, which files are written that only `else` names.
pub fn proposed(
    text: &[u8],
    levels: &Levels,
    written: &Written,
    run: impl FnMut(&Levels) -> Option<Written>,
) -> String {
    let first = Tried::of(written);
    let unnamed = first.written.iter().filter(|file| file.line.is_none());
    let unnamed: Vec<String> = unnamed
        .map(|file| format!("{} ({})", file.pattern, label_words(file.label(), levels.names())))
        .collect();
    let mut lines = String::new();
    if !unnamed.is_empty() {
        let listed = unnamed.join(", ");
        lines.push_str(&wrapped(&format!("  written, and named by no line but else: {listed}")));
    }
    let proposals = proposals(text, levels, written, run);
    lines.push_str(&wrapped(match (first.is_clear, proposals.is_empty()) {
        (true, _) => "  proposed: nothing, as nothing is refused",
        (_, true) => {
            "  proposed: nothing; no change of lines that was tried lets everything through. The way out of each refusal is \
             in gk explain"
        }
        _ => {
            "  proposed: each of these was tried on this trace. Nothing is refused with it, and none of its lines can stay \
             as it was. The way out that gives up nothing is to change the run: gk explain"
        }
    }));
    for (turn, proposal) in (1..).zip(&proposals) {
        for (index, (line, gives_up)) in proposal.lines.iter().enumerate() {
            let head = if index == 0 { format!("{turn:>9}.") } else { " ".repeat(10) };
            lines.push_str(&wrapped(&format!("{head} {line}")));
            lines.push_str(&wrapped(&format!("{}gives up: {gives_up}", " ".repeat(INDENT))));
        }
    }
    lines
}

/// One changed line, and what it gives up.
fn told(draft: &Draft, at: usize, levels: &Levels, first: &Tried) -> (String, String) {
    let row = &draft.0[at];
    let pattern = shown(pattern_of(&row.text).unwrap_or(&row.text));
    let now = draft.levels().and_then(|levels| levels.of_line(at + 1));
    let before = match &row.was {
        Some((was, _)) => levels.of_line(*was),
        None => Some(levels.other().1),
    };
    let place = match &row.was {
        Some((was, text)) => {
            let words = shown(text).split_whitespace().collect::<Vec<_>>().join(" ");
            format!("line {was}, now: {words}")
        }
        None => "a new line, before that of else".to_string(),
    };
    let names = levels.names();
    let gives_up = match (before, now) {
        (_, Some(Level::Step)) => format!(
            "nothing that a line names: {pattern} has the label of the step that makes it, and who reads it falls to that"
        ),
        (Some(Level::At(before)), Some(Level::At(now))) if before.at_least(now) => format!(
            "{pattern} is trusted less: what has {} may be written there, and who reads it falls to that",
            label_words(now, names)
        ),
        (Some(Level::Step | Level::Out), Some(Level::At(now))) => format!(
            "{pattern} has {} whoever makes it, and who reads it falls to that",
            label_words(now, names)
        ),
        (Some(Level::At(before)), Some(Level::At(now))) => {
            let is_opened = |file: &&Ends| !before.at_least(file.label()) && now.at_least(file.label());
            let into: Vec<&str> =
                first.written.iter().filter(is_opened).map(|file| file.pattern.as_str()).collect();
            format!(
                "somebody vouches for whatever stands in {pattern}, as for {}: it may get into {}",
                label_words(now, names),
                if into.is_empty() { "files of that label".to_string() } else { into.join(", ") }
            )
        }
        _ => "the label of these files is another one".to_string(),
    };
    (format!("{}   ({place})", shown(&row.text)), gives_up)
}

fn label_words(label: Label, names: &Names) -> String {
    let marks = match label.shops {
        set if set == TOP.shops => String::new(),
        set => format!(" with {}", shops::words(set, names, 1)),
    };
    format!("level {}{marks}", label.level)
}
