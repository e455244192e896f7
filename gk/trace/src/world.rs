//! The run as far as the trace has told it: steps with their descriptors, files and pipes with their numbers.
//!
//! A process's number is its place in `steps`; a thread's own is in `threads`. What is written goes through [`World::make`], and the tables here follow
//! the gatekeeper's: what it refuses is not there.

use std::collections::{BTreeMap, BTreeSet};

use gatekeeper::{Call, Label, Way};
use gk_names::number::grouped as counted;

use crate::files::Files;
use crate::journal::{Journal, Trouble};
use crate::kinds::Seen;
use crate::levels::Levels;
use crate::paths::{Key, Paths};
use crate::report::{Left, Note, Report};
use crate::text::shown;
use crate::threads::Thread;

/// How many steps, files and pipes may be live at a time, and how many places a step has.
pub use gatekeeper::{OBJECTS, PLACES, SUBJECTS as STEPS};

/// Why the trace cannot be written as a journal, and the line of the trace.
#[derive(Debug)]
pub struct Stop {
    pub line: u64,
    pub message: String,
}

pub type Done<T = ()> = Result<T, Stop>;

/// What is kept of that which is left out otherwise, and where the run starts.
#[derive(Clone, Debug)]
pub struct Options {
    pub all_files: bool,
    pub repeats: bool,
    /// Threads have no numbers of their own.
    pub one_step: bool,
    /// Files that are only read stand as one from the start, and not only where they do not fit.
    pub fold: bool,
    /// The label of the first step.
    pub start: Label,
    /// The folder that the run was started in, absolute.
    pub folder: Option<Vec<u8>>,
}

impl Default for Options {
    fn default() -> Options {
        Options {
            all_files: false,
            repeats: false,
            one_step: false,
            fold: false,
            start: crate::levels::TOP,
            folder: None,
        }
    }
}

/// A handle in the journal.
#[derive(Clone, Copy, Debug, PartialEq, Eq)]
pub struct End {
    pub place: u64,
    pub object: u64,
}

/// A descriptor of a process. Without an end, `left` says why nothing of it is in the journal.
#[derive(Clone, Debug)]
pub struct Descriptor {
    pub reads: Option<End>,
    pub writes: Option<End>,
    pub left: Left,
    pub path: Option<Key>,
    /// The file that it is on, also where that stands as one with others: `fold`.
    pub file: Option<usize>,
    pub ends_at_exec: bool,
    /// Tells it from an earlier descriptor of the same number.
    pub birth: u64,
}

/// A file that a step has mapped, with the addresses where it shows.
#[derive(Clone, Debug)]
pub struct Mapping {
    pub reads: End,
    pub writes: Option<End>,
    pub ranges: Vec<Range>,
}

/// Addresses, from one up to another, where a file shows.
#[derive(Clone, Copy, Debug, PartialEq, Eq)]
pub struct Range {
    pub from: u64,
    pub to: u64,
    pub file: Option<usize>,
}

#[derive(Clone, Debug)]
pub struct Step {
    pub table: BTreeMap<i32, Descriptor>,
    pub maps: Vec<Mapping>,
    pub folder: Key,
    /// Steps with the same number here share their memory.
    pub memory: u64,
    /// A younger step has a higher one.
    pub birth: u64,
    pub program: String,
    /// The record that admitted it, as long as it has run no program to be named by.
    pub unnamed_from: Option<u64>,
    /// For each place, whether what is there has been read or written.
    pub used: [bool; PLACES as usize],
}

/// A process or thread that strace numbers.
pub struct Task {
    /// The step that has its descriptors.
    pub step: u64,
    /// The key of a thread's own number, which may have gone to another since.
    pub thread: Option<u64>,
    /// The process that a thread belongs to.
    pub group: u32,
    pub pending: Option<Pending>,
    /// Whether a line of its own has come.
    pub is_shown: bool,
}

/// A call whose rest has not come yet.
pub struct Pending {
    pub name: String,
    pub text: String,
    /// What it may do at any moment from now on.
    pub moves: Vec<Move>,
    /// The step that a fork has made, or shares, for the process that is to show up.
    pub child: Option<Child>,
    /// The descriptor that a close is about.
    pub birth: Option<u64>,
    /// The descriptors that another call is about, with their births.
    pub births: Vec<(i32, u64)>,
    /// The numbers of descriptors that other threads have put there since.
    pub touched: Vec<i32>,
}

#[derive(Clone, Copy)]
pub struct Child {
    pub step: u64,
    pub thread: Option<u64>,
    /// Whether it belongs to its maker's process.
    pub is_thread: bool,
    /// Whether it has its maker's memory. Until it shows up, it may have what other threads read meanwhile.
    pub shares_memory: bool,
    pub is_bound: bool,
}

/// A read of the descriptor with this birth, or a write.
#[derive(Clone, Copy, PartialEq, Eq)]
pub enum Move {
    Read(u64),
    Write(End),
}

pub struct World<'a> {
    pub levels: &'a Levels,
    pub options: Options,
    pub journal: Journal,
    pub report: Report,
    pub steps: Vec<Option<Step>>,
    pub tasks: BTreeMap<u32, Task>,
    /// Threads that have numbers of their own, each by a key that no other has had.
    pub threads: BTreeMap<u64, Thread>,
    /// Processes that have exited, up to the line that says so.
    pub gone: BTreeSet<u32>,
    /// Steps of processes that have not shown up, and whose makers have ended.
    pub orphans: Vec<Child>,
    pub files: Files,
    pub paths: Paths,
    /// Which kinds of calls have come.
    pub seen: Seen,
    pub line: u64,
    /// The line of each record.
    pub lines: Vec<u64>,
    clock: u64,
}

impl<'a> World<'a> {
    pub fn new(levels: &'a Levels, options: Options) -> World<'a> {
        let mut paths = Paths::default();
        if let Some(folder) = &options.folder {
            paths.set_start(folder);
        }
        World {
            levels,
            options,
            journal: Journal::naming(levels.names()),
            report: Report::default(),
            steps: (0..STEPS).map(|_| None).collect(),
            tasks: BTreeMap::new(),
            threads: BTreeMap::new(),
            gone: BTreeSet::new(),
            orphans: Vec::new(),
            files: Files::default(),
            paths,
            seen: Seen::default(),
            line: 0,
            lines: Vec::new(),
            clock: 0,
        }
    }

    pub fn stop<T>(&self, message: String) -> Done<T> {
        Err(Stop { line: self.line, message })
    }

    pub fn left(&mut self, why: Left) {
        self.report.left(why, self.line);
    }

    pub fn note(&mut self, note: Note) {
        self.report.note(note, self.line);
    }

    /// A number that rises with each asking.
    pub fn tick(&mut self) -> u64 {
        self.clock += 1;
        self.clock
    }

    /// Writes a call; whether it is granted.
    pub fn make(&mut self, call: Call) -> Done<bool> {
        let made = self.journal.make(call, &mut self.report);
        if made.is_ok() {
            self.lines.push(self.line);
        }
        match made {
            Ok(true) => Ok(true),
            Ok(false) => {
                // Calls that can be refused have the step and the object as their first numbers.
                let [step, object, ..] = call.numbers();
                let program = self.step(step)?.program.clone();
                let what = self.files.asked(object);
                self.report.refused(&program, call.code(), what, self.line);
                Ok(false)
            }
            Err(Trouble::Full) => {
                let records = self.journal.next() - 1;
                let fold = match self.options.fold || self.report.reads() < 2 {
                    true => "",
                    false => ". Or give --fold: files of one line that are only read take fewer calls then",
                };
                let threads = match self.report.threads() {
                    0 => String::new(),
                    count => {
                        format!(". Or give --one-step: the {} threads take no calls then", counted(count))
                    }
                };
                self.stop(format!(
                    "the journal would be longer than 65,536 bytes here, after {records} calls. \
                     Trace a shorter run, or give --until {}: it ends before this line{threads}{fold}",
                    self.line - 1
                ))
            }
            Err(Trouble::Odd(call, refusal)) => self.stop(format!(
                "gk trace is at fault here: the gatekeeper answers {call:?} with: {refusal}"
            )),
        }
    }

    pub fn step(&self, step: u64) -> Done<&Step> {
        match self.steps.get(step as usize).and_then(Option::as_ref) {
            Some(found) => Ok(found),
            None => self.stop(format!("gk trace is at fault here: there is no step {step}")),
        }
    }

    pub fn step_mut(&mut self, step: u64) -> Done<&mut Step> {
        let line = self.line;
        let message = format!("gk trace is at fault here: there is no step {step}");
        self.steps.get_mut(step as usize).and_then(Option::as_mut).ok_or(Stop { line, message })
    }

    /// The steps that are there, the oldest first: which numbers they have depends on how many threads there are.
    pub fn by_age(&self) -> Vec<u64> {
        let births =
            (0..).zip(&self.steps).filter_map(|(number, step)| Some((step.as_ref()?.birth, number)));
        births.collect::<BTreeMap<u64, u64>>().into_values().collect()
    }

    /// A step as a message names it.
    pub fn called(&self, step: u64) -> String {
        let program = self.step(step).map_or("", |step| step.program.as_str());
        let process =
            self.tasks.iter().find(|(_, task)| task.step == step).map(|(process, _)| process.to_string());
        format!("process {} ({})", process.unwrap_or_else(|| "?".to_string()), shown(program.as_bytes()))
    }

    /// An empty place of a step, other than these.
    pub fn free_place_but(&mut self, step: u64, taken: &[u64], wanted: &str) -> Done<u64> {
        let is_free = |place: &u64| !taken.contains(place) && self.step_has_free(step, *place);
        match (0..PLACES).find(is_free) {
            Some(place) => {
                self.step_mut(step)?.used[place as usize] = false;
                Ok(place)
            }
            None if self.fold_for_place(step)? => self.free_place_but(step, taken, wanted),
            None => {
                let holds = self.held_by(step)?;
                let called = self.called(step);
                self.stop(format!(
                    "{called} needs a 17th place for {wanted}, and a step has 16. It holds {holds}. \
                     Let the run open fewer files at once, or trace a part of it (--until {}): a file that is left \
                     out is not seen",
                    self.line - 1
                ))
            }
        }
    }

    fn step_has_free(&self, step: u64, place: u64) -> bool {
        self.step(step).is_ok_and(|step| step.ends().all(|end| end.place != place))
    }

    /// The files and pipes that a step holds, for a message.
    fn held_by(&self, step: u64) -> Done<String> {
        let mut names: Vec<String> =
            self.step(step)?.ends().map(|end| self.files.called(end.object)).collect();
        names.sort();
        names.dedup();
        Ok(names.join(", "))
    }

    /// Opens an object at an empty place; none where it is refused.
    pub fn open(&mut self, step: u64, object: u64, way: Way) -> Done<Option<End>> {
        if let Some(end) = self.shared(step, object, way)? {
            return Ok(Some(end));
        }
        let wanted = self.files.called(object);
        let file = self.files.at(object);
        let place = self.free_place_but(step, &[], &wanted)?;
        // The place may have come free because the file stands as one with others since.
        if let Some(other) =
            file.map(|file| self.object_of(file)).transpose()?.filter(|&other| other != object)
        {
            return self.open(step, other, way);
        }
        self.open_at(step, End { place, object }, way)
    }

    /// Opens an object at this place, which is empty.
    pub fn open_at(&mut self, step: u64, end: End, way: Way) -> Done<Option<End>> {
        let End { place, object } = end;
        let call = match way {
            Way::Reads => Call::OpenRead { subject: step, object, place },
            Way::Writes => Call::OpenWrite { subject: step, object, place },
            Way::Maps => Call::Map { subject: step, object, place },
        };
        Ok(self.make(call)?.then_some(end))
    }

    /// Closes a handle, unless another descriptor of the step goes by it, too. A pipe ends with its last one, and so does
    /// a file that has lost its name.
    pub fn close(&mut self, step: u64, end: End) -> Done {
        if !self.step_has_free(step, end.place) {
            return Ok(());
        }
        self.make(Call::Close { subject: step, place: end.place })?;
        self.reap()
    }

    /// Forgets pipes that have ended, and retires files that have no name and no handle.
    pub fn reap(&mut self) -> Done {
        for object in self.files.live() {
            if !self.journal.is_live(object) {
                self.files.free(object);
            } else if self.files.is_nameless(object) && !self.journal.is_held(object) {
                self.make(Call::Retire { object })?;
                self.files.free(object);
            }
        }
        Ok(())
    }

    /// A new descriptor at a number; one that is there goes.
    pub fn put(&mut self, step: u64, fd: i32, mut descriptor: Descriptor) -> Done {
        self.touch(step, fd);
        descriptor.birth = self.tick();
        let before = self.step_mut(step)?.table.insert(fd, descriptor);
        self.lets_go(step, before)
    }

    /// Closes a descriptor, if it is there.
    pub fn drop_fd(&mut self, step: u64, fd: i32) -> Done {
        let before = self.step_mut(step)?.table.remove(&fd);
        self.lets_go(step, before)
    }

    /// Closes the handles of a descriptor that is no longer there.
    fn lets_go(&mut self, step: u64, before: Option<Descriptor>) -> Done {
        let ends = before.map_or([None; 2], |before| [before.reads, before.writes]);
        ends.into_iter().flatten().try_for_each(|end| self.close(step, end))
    }
}

impl Step {
    /// All the handles of the step.
    pub fn ends(&self) -> impl Iterator<Item = End> + '_ {
        let of_table = self.table.values().flat_map(|descriptor| [descriptor.reads, descriptor.writes]);
        let of_maps = self.maps.iter().flat_map(|mapping| [Some(mapping.reads), mapping.writes]);
        of_table.chain(of_maps).flatten()
    }
}

impl Descriptor {
    /// One of which nothing is in the journal.
    pub fn left(why: Left, path: Option<Key>) -> Descriptor {
        Descriptor { reads: None, writes: None, left: why, path, file: None, ends_at_exec: false, birth: 0 }
    }

    pub fn held(reads: Option<End>, writes: Option<End>, path: Option<Key>) -> Descriptor {
        Descriptor { reads, writes, left: Left::Unknown, path, file: None, ends_at_exec: false, birth: 0 }
    }

    pub fn end(&self, way: Way) -> Option<End> {
        if way == Way::Writes {
            self.writes
        } else {
            self.reads
        }
    }

    pub fn is_held(&self) -> bool {
        self.reads.is_some() || self.writes.is_some()
    }
}
