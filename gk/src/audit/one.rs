//! One journal: its replies, counted, and what was refused in it.

use std::collections::BTreeMap;
use std::fs::{self, File};
use std::io::Read;
use std::path::Path;

use gatekeeper::{Call, Refusal, JOURNAL_BYTES};
use gk_advice::calls::{shape_of_code, Role};
use gk_advice::run::{Content, Step};
use gk_advice::scene::{Past, Scene};
use gk_advice::things::Thing;
use gk_chain::chain_of;

use crate::explain::question::used;
use crate::explain::walk;
use crate::names::{beside, Kind, Names};

/// What a journal came to.
#[derive(Clone, Debug, Default, PartialEq, Eq)]
pub struct Run {
    pub allowed: u64,
    pub lowered: u64,
    pub refused: u64,
    /// What was refused, by refusal and file.
    pub groups: Vec<Group>,
    /// Why the names beside it are not taken.
    pub unnamed: Option<String>,
}

/// Refusals of one number that are about the same.
#[derive(Clone, Debug, PartialEq, Eq)]
pub struct Group {
    pub refusal: Refusal,
    /// The file or pipe that the call is about.
    pub file: Option<Called>,
    /// At a 9 the file that data could have reached, where the call is not about that one itself.
    pub into: Option<Called>,
    pub records: Vec<u64>,
}

/// A file or pipe by its number, and what it is called.
#[derive(Clone, Debug, PartialEq, Eq, PartialOrd, Ord)]
pub struct Called {
    pub called: String,
    pub number: u64,
}

impl Run {
    pub fn records(&self) -> u64 {
        self.allowed + self.lowered + self.refused
    }

    /// RULES R11, R14: whether what is behind some record was not answered.
    pub fn is_cut_off(&self) -> bool {
        let stops = [Refusal::JournalBroken, Refusal::JournalTooLong];
        self.groups.iter().any(|group| stops.contains(&group.refusal))
    }
}

/// The run of a journal; or why it cannot be told.
pub fn run(path: &Path) -> Result<Run, String> {
    let journal = read(path)?;
    let mut run = counted(&gatekeeper::replay(&journal)).ok_or("its replies are not whole")?;
    if run.refused > 0 {
        let names = names(path).unwrap_or_else(|fault| {
            run.unnamed = Some(fault);
            Names::new()
        });
        run.groups = groups(&journal, &names)?;
    }
    Ok(run)
}

/// A journal's bytes; one past the limit is enough to know that it is above it.
fn read(path: &Path) -> Result<Vec<u8>, String> {
    let there = fs::metadata(path).map_err(|error| error.to_string())?;
    if !there.is_file() {
        return Err("it is no file".to_string());
    }
    let mut bytes = Vec::new();
    let opened =
        File::open(path).and_then(|file| file.take(JOURNAL_BYTES as u64 + 1).read_to_end(&mut bytes));
    opened.map(|_| bytes).map_err(|error| error.to_string())
}

/// The names beside a journal; why they are not taken, where they are there.
fn names(journal: &Path) -> Result<Names, String> {
    let path = beside(journal);
    match path.is_file() {
        true => Names::load(&path).map_err(|fault| fault.to_string()),
        false => Ok(Names::new()),
    }
}

/// The outcomes in the replies of the proved run; none where they do not end as replies do.
fn counted(replies: &str) -> Option<Run> {
    let mut run = Run::default();
    let mut lines = replies.lines();
    let end = lines.next_back()?;
    for line in lines {
        match line.split(' ').nth(2)? {
            "A" => run.allowed += 1,
            "L" => run.lowered += 1,
            "R" => run.refused += 1,
            _ => return None,
        }
    }
    end.starts_with("end ").then_some(run)
}

/// What was refused, record by record, held to the proved run of the whole.
fn groups(journal: &[u8], names: &Names) -> Result<Vec<Group>, String> {
    let mut groups: BTreeMap<(u32, Option<Called>, Option<Called>), Vec<u64>> = BTreeMap::new();
    let differs =
        |_| "record by record it got other replies than as a whole: a fault of gk, please report it";
    walk(journal, names, |step, past| {
        if let Some(refusal) = step.refusal() {
            let (file, into) = about(step, past, names, refusal);
            groups.entry((refusal.number(), file, into)).or_default().push(step.position);
        }
    })
    .map_err(differs)?;
    let group = |((number, file, into), records)| {
        Refusal::from_number(number).map(|refusal| Group { refusal, file, into, records })
    };
    Ok(groups.into_iter().filter_map(group).collect())
}

/// What a refused record is about, and what data could have reached.
fn about(step: &Step, past: &Past, names: &Names, refusal: Refusal) -> (Option<Called>, Option<Called>) {
    let Content::Call(call) = step.content else {
        return (None, None);
    };
    let scene = past.before(step, names);
    let called = |number: u64| Called { called: called(call, number, scene), number };
    let asked = object(call).or_else(|| used(call, &step.before));
    let chain = chain_of(&step.before, refusal, call.code(), call.numbers());
    let end = chain.last().and_then(|link| match link.thing {
        Thing::Object(number) => Some(number),
        Thing::Step(_) => None,
    });
    (asked.map(called), end.filter(|end| asked != Some(*end)).map(called))
}

/// The first file or pipe that a call names.
fn object(call: Call) -> Option<u64> {
    let parts = shape_of_code(call.code()).into_iter().flat_map(|shape| shape.parts()).zip(call.numbers());
    let mut objects = parts.filter(|((_, role), _)| matches!(role, Role::Object | Role::File | Role::Pipe));
    objects.next().map(|(_, number)| number)
}

/// A file or pipe by its name, or by its kind and number.
fn called(call: Call, number: u64, scene: Scene) -> String {
    let thing = Thing::Object(number);
    let kind = shape_of_code(call.code()).and_then(|shape| {
        shape.parts().find_map(|(_, role)| match role {
            Role::File => Some(Kind::File),
            Role::Pipe => Some(Kind::Pipe),
            _ => None,
        })
    });
    let is_there = scene.monitor.object(number).is_some();
    let new = kind.filter(|_| !is_there).and_then(|kind| scene.new_name(kind, number));
    new.map_or_else(|| scene.thing(thing), str::to_string)
}
