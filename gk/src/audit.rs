//! Many journals at once: every journal below some folders, answered by the proved gatekeeper on all processors, and what
//! was refused, by run, by refusal and by file.
//!
//! A journal that cannot be read is told and counted, and so is a folder that holds none: what was not read is never
//! taken for clean.

pub mod bar;
pub mod find;
pub mod json;
pub mod one;
pub mod table;

use std::collections::{BTreeMap, BTreeSet};
use std::path::PathBuf;
use std::sync::atomic::{AtomicUsize, Ordering};
use std::sync::Mutex;
use std::thread;

use find::Found;
use one::Run;

/// Why something was not read.
#[derive(Clone, Debug, PartialEq, Eq)]
pub struct Unread {
    pub path: PathBuf,
    pub why: String,
}

/// What all journals came to.
#[derive(Debug, Default)]
pub struct Audit {
    /// Those that were read, by path as they were found.
    pub runs: Vec<(PathBuf, Run)>,
    pub unread: Vec<Unread>,
    /// Files below the folders that are no journals by their names.
    pub others: u64,
    /// Journals and folders that were met under a second name, and were read once.
    pub again: u64,
}

/// The verdict on all of them.
#[derive(Clone, Copy, Debug, PartialEq, Eq)]
pub enum Verdict {
    /// Nothing is refused, and every journal was read.
    Clear,
    Refused,
    /// Nothing is refused of what was read.
    Unread,
}

impl Verdict {
    /// The exit status, as that of `gk trace`.
    pub fn status(self) -> u8 {
        match self {
            Verdict::Clear => 0,
            Verdict::Refused => 3,
            Verdict::Unread => 4,
        }
    }
}

/// How often something was refused, and in how many runs.
#[derive(Clone, Copy, Debug, Default, PartialEq, Eq)]
pub struct Count {
    pub times: u64,
    pub runs: u64,
}

impl Audit {
    pub fn verdict(&self) -> Verdict {
        match (self.refused().next().is_some(), self.unread.is_empty()) {
            (true, _) => Verdict::Refused,
            (false, false) => Verdict::Unread,
            (false, true) => Verdict::Clear,
        }
    }

    /// The runs with refusals.
    pub fn refused(&self) -> impl Iterator<Item = &(PathBuf, Run)> {
        self.runs.iter().filter(|(_, run)| run.refused > 0)
    }

    /// How many runs there are of a kind.
    pub fn count(&self, is_so: impl Fn(&Run) -> bool) -> u64 {
        self.runs.iter().filter(|(_, run)| is_so(run)).count() as u64
    }

    /// A sum over all runs.
    pub fn sum(&self, part: impl Fn(&Run) -> u64) -> u64 {
        self.runs.iter().map(|(_, run)| part(run)).sum()
    }

    /// By the number of the refusal.
    pub fn by_refusal(&self) -> BTreeMap<u32, Count> {
        self.counted(|group| BTreeSet::from([group.refusal.number()]))
    }

    /// By what a file or pipe is called: those that a refused call is about, and those that data could have reached.
    pub fn by_file(&self) -> BTreeMap<&str, Count> {
        self.counted(|group| {
            let files = group.file.iter().chain(&group.into);
            files.map(|file| file.called.as_str()).collect()
        })
    }

    fn counted<'a, K: Ord + Copy>(
        &'a self,
        keys: impl Fn(&'a one::Group) -> BTreeSet<K>,
    ) -> BTreeMap<K, Count> {
        let mut counts: BTreeMap<K, Count> = BTreeMap::new();
        for (_, run) in &self.runs {
            let mut met = BTreeSet::new();
            for group in &run.groups {
                for key in keys(group) {
                    let count = counts.entry(key).or_default();
                    count.times += group.records.len() as u64;
                    count.runs += u64::from(met.insert(key));
                }
            }
        }
        counts
    }
}

/// How far it is.
#[derive(Debug, Default)]
pub struct Progress {
    pub done: AtomicUsize,
    pub refused: AtomicUsize,
    pub unread: AtomicUsize,
}

impl Progress {
    fn note(&self, outcome: &Result<Run, String>) {
        match outcome {
            Ok(run) if run.refused > 0 => self.refused.fetch_add(1, Ordering::Relaxed),
            Ok(_) => 0,
            Err(_) => self.unread.fetch_add(1, Ordering::Relaxed),
        };
        self.done.fetch_add(1, Ordering::Relaxed);
    }
}

/// Answers every journal that was found, so many at a time; `watch` is called until all are done.
pub fn audit(found: Found, jobs: usize, watch: impl FnOnce(&Progress, usize)) -> Audit {
    let total = found.journals.len();
    let (next, progress) = (AtomicUsize::new(0), Progress::default());
    let outcomes: Vec<Mutex<Option<Result<Run, String>>>> = (0..total).map(|_| Mutex::new(None)).collect();
    let work = || loop {
        let index = next.fetch_add(1, Ordering::Relaxed);
        let Some(path) = found.journals.get(index) else {
            break;
        };
        let outcome = one::run(path);
        progress.note(&outcome);
        if let Ok(mut place) = outcomes[index].lock() {
            *place = Some(outcome);
        }
    };
    thread::scope(|scope| {
        let spawn = || thread::Builder::new().spawn_scoped(scope, work).is_ok();
        let started = (0..jobs.clamp(1, total.max(1))).filter(|_| spawn()).count();
        match started {
            0 => work(),
            _ => watch(&progress, total),
        }
    });
    let outcomes = outcomes.into_iter().map(|place| place.into_inner().ok().flatten());
    gathered(found, outcomes)
}

/// What the journals came to, in the order in which they were found.
fn gathered(found: Found, outcomes: impl Iterator<Item = Option<Result<Run, String>>>) -> Audit {
    let Found { journals, unread, others, again } = found;
    let mut audit = Audit { runs: Vec::new(), unread, others, again };
    for (path, outcome) in journals.into_iter().zip(outcomes) {
        match outcome {
            Some(Ok(run)) => audit.runs.push((path, run)),
            Some(Err(why)) => audit.unread.push(Unread { path, why }),
            None => audit.unread.push(Unread { path, why: "it was not come to".to_string() }),
        }
    }
    audit
}
