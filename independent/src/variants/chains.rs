//! Wrong variants of the chain behind a 9 (RULES A2 to A13): where it starts, by which handles it goes, where it ends, and
//! which of several it is.
//!
//! `ChainRules` says which one is on; by default none is, and then every function here leaves the rules as they are.
//! Each variant is read at exactly one place here.

use crate::calls::Call;
use crate::chains::Chain;
use crate::labels::Label;
use crate::needs::{label, Thing};
use crate::tables::{Kind, Tables};

variants! {
    ChainVariant CHAINS;
    // Which calls have one.
    FifteenAnswered "15-answered" "hands a chain out at a 15, too";
    // Where it starts and where it ends.
    StartSufficient "start-sufficient" "starts at something whose label is at least that of the file";
    LevelsAlone "levels-alone" "starts at something of an insufficient level only, whatever the marks";
    MarksAlone "marks-alone" "starts at something that lacks a mark only, whatever the level";
    NewPipeStarts "new-pipe-starts" "starts at a pipe that the connect would make";
    MapperStarts "mapper-starts" "starts at a mapper, by the label that the map would leave it";
    RunnerStarts "runner-starts" "says that the chain of an exec starts at the subject";
    ProgramReached "program-reached" "starts at the program of an exec by its handles, and not by the run";
    LeadStarts "lead-starts" "says that a chain from a group starts at its lowest member";
    EndsAtPipe "ends-at-pipe" "ends at a pipe whose label what it starts from is not at least";
    // By which handles it goes. That it goes by mappings of the subject, which the exec would close, cannot be told: they lead
    // to the subject, where it starts.
    SoughtLeftOut "sought-left-out" "goes by the handles before the call alone";
    OneEndSought "one-end-sought" "leaves the pipe from t to s of a connect out";
    MarkedPassed "marked-passed" "goes by marked handles that the exec would close";
    MatesPassed "mates-passed" "goes by handles of mates that the exec would end";
    MatesApart "mates-apart" "takes the members of a group for things of their own";
    MarkedLeftOut "marked-left-out" "leaves marked handles out, whoever asks";
    // How long it is, and which of several.
    RunCounted "run-counted" "counts the run of an exec as a step";
    FirstStart "first-start" "takes the lowest thing that something insufficient comes from, however long its chain is";
    LastStart "last-start" "of several as short takes the one from the highest thing";
    HighestPlace "highest-place" "goes by the highest place that leads nearer";
}

/// These change which chain it is and never how many steps it has: only the whole chain tells them apart.
pub const ONLY_BY_CHAIN: &[&str] = &["runner-starts", "lead-starts", "last-start", "highest-place"];

/// Which rules hold for chains: those of docs/RULES.md, or one variant of them.
#[derive(Clone, Copy, Debug, Default, PartialEq, Eq)]
pub struct ChainRules {
    variant: Option<ChainVariant>,
}

impl From<ChainVariant> for ChainRules {
    fn from(variant: ChainVariant) -> ChainRules {
        ChainRules { variant: Some(variant) }
    }
}

impl ChainRules {
    /// The rules of the variant with this name.
    pub fn named(name: &str) -> Option<ChainRules> {
        let (variant, _, _) = CHAINS.iter().find(|(_, word, _)| *word == name)?;
        Some(ChainRules::from(*variant))
    }

    /// Whether these are the rules of docs/RULES.md.
    pub fn are_right(self) -> bool {
        self.variant.is_none()
    }

    /// Whether a chain is looked for behind a call that is refused with this number, if it is refused.
    pub(crate) fn bend_asked(self, is_nine: bool, number: Option<u32>) -> bool {
        match self.variant {
            Some(ChainVariant::FifteenAnswered) => is_nine || number == Some(15),
            _ => is_nine,
        }
    }

    /// The tables whose handles the chain goes by.
    pub(crate) fn bend_after(self, before: &Tables, call: Call, mut after: Tables) -> Tables {
        match (self.variant, call) {
            (Some(ChainVariant::SoughtLeftOut), _) if !matches!(call, Call::Exec { .. }) => {
                return before.clone();
            }
            (Some(ChainVariant::OneEndSought), Call::Connect { b, .. }) => after.set_object(b, None),
            (Some(ChainVariant::MarkedPassed), Call::Exec { s, .. }) => {
                restore(before, &mut after, s, |place| before.marked_places(s).any(|p| p == place));
            }
            (Some(ChainVariant::MatesPassed), Call::Exec { s, .. }) => {
                let mates: Vec<u64> = before.mates(s).collect();
                for mate in mates {
                    after.set_subject(mate, before.subject(mate));
                    after.join_groups(s, mate);
                    restore(before, &mut after, mate, |_| true);
                }
            }
            (Some(ChainVariant::MarkedLeftOut), _) => {
                let marked: Vec<(u64, u64)> = after
                    .handles()
                    .filter(|(_, _, handle)| handle.marked)
                    .map(|(s, p, _)| (s, p))
                    .collect();
                for (s, p) in marked {
                    after.set_handle(s, p, None);
                }
            }
            _ => {}
        }
        after
    }

    /// Where chains may start, under which label, and what it is that starts there.
    pub(crate) fn bend_starts(
        self,
        before: &Tables,
        after: &Tables,
        call: Call,
        mut starts: Vec<(Thing, Label, Thing)>,
    ) -> Vec<(Thing, Label, Thing)> {
        match (self.variant, call) {
            (Some(ChainVariant::NewPipeStarts), Call::Connect { a, b, .. }) => {
                let pipes = [a, b].map(Thing::Object);
                starts.extend(pipes.iter().filter_map(|&pipe| Some((pipe, label(after, pipe)?, pipe))));
            }
            (Some(ChainVariant::MapperStarts), Call::Map { s, o, .. }) => {
                let mapper = Thing::Subject(s);
                let fallen = label(before, mapper).zip(label(before, Thing::Object(o)));
                starts.extend(fallen.map(|(own, to)| (mapper, own.fallen_to(to), mapper)));
            }
            (Some(ChainVariant::RunnerStarts), Call::Exec { s, .. }) => {
                starts.iter_mut().for_each(|start| start.2 = Thing::Subject(s));
            }
            (Some(ChainVariant::ProgramReached), Call::Exec { .. }) => {
                starts.iter_mut().for_each(|start| start.0 = start.2);
            }
            (Some(ChainVariant::LastStart), _) => starts.reverse(),
            _ => {}
        }
        starts
    }

    /// The objects that a chain from something of this label may end at.
    pub(crate) fn bend_goals(self, low: Label, goals: Vec<u64>, after: &Tables) -> Vec<u64> {
        let objects = |is_goal: &dyn Fn(Kind, Label) -> bool| {
            let is_goal =
                |o: &u64| after.object(*o).is_some_and(|object| is_goal(object.kind, object.label()));
            after.live_objects().filter(is_goal).collect()
        };
        let lacks = |high: Label| high.shops & !low.shops != 0;
        match self.variant {
            Some(ChainVariant::StartSufficient) => {
                objects(&|kind, high| kind == Kind::File && low.is_at_least(high))
            }
            Some(ChainVariant::LevelsAlone) => {
                objects(&|kind, high| kind == Kind::File && low.level < high.level)
            }
            Some(ChainVariant::MarksAlone) => objects(&|kind, high| kind == Kind::File && lacks(high)),
            Some(ChainVariant::EndsAtPipe) => objects(&|_, high| !low.is_at_least(high)),
            _ => goals,
        }
    }

    /// The thing that a subject counts as, told the lowest member of its group.
    pub(crate) fn bend_lead(self, s: u64, lead: u64) -> u64 {
        match self.variant {
            Some(ChainVariant::MatesApart) => s,
            _ => lead,
        }
    }

    /// Whether a chain of so many steps takes the place of the one that was found before it.
    pub(crate) fn wins(self, count: usize, fewest: usize) -> bool {
        match self.variant {
            Some(ChainVariant::FirstStart) => false,
            _ => count < fewest,
        }
    }

    /// Of those that lead nearer, the one to go by.
    pub(crate) fn choose<T>(self, items: impl Iterator<Item = T>, place: impl Fn(&T) -> u64) -> Option<T> {
        match self.variant {
            Some(ChainVariant::HighestPlace) => items.max_by_key(place),
            _ => items.min_by_key(place),
        }
    }

    /// The chain as it is handed out.
    pub(crate) fn bend_chain(self, before: &Tables, call: Call, mut chain: Chain) -> Chain {
        match (self.variant, call, chain.low) {
            (Some(ChainVariant::RunCounted), Call::Exec { .. }, _) => chain.steps.insert(0, 0),
            (Some(ChainVariant::LeadStarts), _, Thing::Subject(s)) => {
                chain.low = Thing::Subject(before.members(s).next().unwrap_or(s));
            }
            _ => {}
        }
        chain
    }
}

/// Puts back what the call has taken from these places of a subject, with the pipes that ended with it.
fn restore(before: &Tables, after: &mut Tables, s: u64, is_wanted: impl Fn(u64) -> bool) {
    let gone: Vec<_> =
        before.handles_of(s).filter(|&(p, _)| after.handle(s, p).is_none() && is_wanted(p)).collect();
    for (p, handle) in gone {
        if after.object(handle.object).is_none() {
            after.set_object(handle.object, before.object(handle.object));
        }
        after.set_handle(s, p, Some(handle));
    }
}
