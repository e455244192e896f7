//! A trace from its first line to its last.

use std::collections::VecDeque;
use std::io::{self, BufRead, Read};

use crate::call;
use crate::files::Seat;
use crate::levels::Levels;
use crate::line::{self, Event};
use crate::report::{Left, Report};
use crate::steps::FORKS;
use crate::world::{Options, Stop, World};

/// The longest line that is read, in bytes.
pub const LONGEST_LINE: usize = 1 << 20;

/// Lines that are read ahead, at most, to learn which process made another.
const MOST_AHEAD: usize = 20_000;

/// Lines that are read ahead, at most, to learn in which folder the run was started.
const MOST_TO_START: usize = 2_000;

/// What a trace has come to.
pub struct Written {
    pub journal: Vec<u8>,
    pub names: String,
    pub report: Report,
    /// For each record, the line of the trace that it comes from.
    pub lines: Vec<u64>,
    /// The files of the journal.
    pub seats: Vec<Seat>,
}

/// Why there is no journal.
#[derive(Debug)]
pub enum Failure {
    Unread(io::Error),
    /// There is no byte in it.
    Empty,
    /// A line that is none of strace's.
    Malformed {
        line: u64,
        column: usize,
        expected: &'static str,
    },
    Stopped(Stop),
}

impl From<Stop> for Failure {
    fn from(stop: Stop) -> Failure {
        Failure::Stopped(stop)
    }
}

/// Writes the journal of a trace, which is read up to its end or to a line.
pub fn journal_of(
    trace: impl BufRead,
    levels: &Levels,
    options: Options,
    until: Option<u64>,
) -> Result<Written, Failure> {
    let world = World::new(levels, options);
    let mut reader = Reader { world, trace, ahead: VecDeque::new(), read: 0, until };
    reader.look_for_start()?;
    while let Some((number, text)) = reader.next()? {
        reader.world.line = number;
        reader.world.report.lines = number;
        reader.take(&text)?;
    }
    let Reader { mut world, read, .. } = reader;
    if read == 0 && until != Some(0) {
        return Err(Failure::Empty);
    }
    if world.report.lines == 0 {
        let message = "there is no whole line in the trace".to_string();
        return Err(Stop { line: 1, message }.into());
    }
    world.settle()?;
    let begun = world.tasks.values().filter(|task| task.pending.is_some()).count();
    for _ in 0..begun {
        world.left(Left::Unresumed);
    }
    let unmet = world.tasks.values().filter(|task| !task.is_shown).count() + world.orphans.len();
    for _ in 0..unmet {
        world.left(Left::Unfollowed);
    }
    if world.report.is_cut || world.report.stopped_at.is_some() {
        world.left(Left::Cut);
    }
    world.report.missing = world.seen.missing();
    if !world.report.missing.is_empty() {
        world.left(Left::Filter);
    }
    let mut names = std::mem::take(&mut world.journal.names);
    world.files.name_pipes(&mut names);
    let journal = world.journal.bytes().to_vec();
    world.report.tell(&journal, names.given(), &world.files);
    Ok(Written {
        journal,
        names: names.text(),
        report: world.report,
        lines: world.lines,
        seats: world.files.seats,
    })
}

struct Reader<'a, T> {
    world: World<'a>,
    trace: T,
    ahead: VecDeque<(u64, String)>,
    /// Lines that were read so far.
    read: u64,
    until: Option<u64>,
}

impl<T: BufRead> Reader<'_, T> {
    /// The next line and its number.
    fn next(&mut self) -> Result<Option<(u64, String)>, Failure> {
        match self.ahead.pop_front() {
            Some(line) => Ok(Some(line)),
            None => self.read_line(),
        }
    }

    fn read_line(&mut self) -> Result<Option<(u64, String)>, Failure> {
        if self.until == Some(self.read) {
            self.world.report.stopped_at = self.until;
            return Ok(None);
        }
        let mut bytes = Vec::new();
        let most = LONGEST_LINE as u64 + 1;
        (&mut self.trace).take(most).read_until(b'\n', &mut bytes).map_err(Failure::Unread)?;
        if bytes.is_empty() {
            return Ok(None);
        }
        self.read += 1;
        if bytes.last() == Some(&b'\n') {
            bytes.pop();
            return Ok(Some((self.read, String::from_utf8_lossy(&bytes).into_owned())));
        }
        if bytes.len() > LONGEST_LINE {
            let message = "the line is longer than 1,048,576 bytes".to_string();
            return Err(Stop { line: self.read, message }.into());
        }
        // strace ends each line with a line feed: this one is cut off.
        self.world.report.is_cut = true;
        Ok(None)
    }

    /// Reads ahead for the folder that the run was started in: the first process is there until it goes elsewhere.
    fn look_for_start(&mut self) -> Result<(), Failure> {
        if self.world.paths.start().is_some() {
            return Ok(());
        }
        let mut first = None;
        while self.ahead.len() < MOST_TO_START {
            let Some(line) = self.read_line()? else { break };
            let text = line.1.clone();
            self.ahead.push_back(line);
            let Ok(line) = line::read(&text) else { break };
            if *first.get_or_insert(line.process) != line.process {
                continue;
            }
            let folder = match line.event {
                Event::Call { name: "chdir" | "fchdir", .. }
                | Event::Begun { name: "chdir" | "fchdir", .. } => break,
                Event::Call { name: "getcwd", text } => {
                    call::arguments(text).0.first().copied().and_then(call::string)
                }
                Event::Call { text, .. } => {
                    let note = call::arguments(text)
                        .0
                        .first()
                        .copied()
                        .and_then(|arg| arg.strip_prefix("AT_FDCWD<"));
                    call::noted_path(note.and_then(|note| note.strip_suffix('>')))
                }
                _ => None,
            };
            if let Some(folder) = folder.filter(|folder| folder.starts_with(b"/")) {
                self.world.paths.set_start(&folder);
                break;
            }
        }
        Ok(())
    }

    fn take(&mut self, text: &str) -> Result<(), Failure> {
        let line = line::read(text).map_err(|fault| self.wrong(fault, 0))?;
        let process = line.process;
        let is_rest = matches!(line.event, Event::Ended | Event::Resumed { .. });
        if self.world.gone.contains(&process) && is_rest {
            if line.event == Event::Ended {
                self.world.gone.remove(&process);
            }
            return Ok(());
        }
        let is_quiet = matches!(line.event, Event::Nothing | Event::Superseded { .. });
        let name = match line.event {
            Event::Call { name, .. } | Event::Begun { name, .. } => name,
            _ => "",
        };
        self.world.seen.take(name);
        if !self.world.tasks.contains_key(&process) && !is_quiet {
            self.meet(process, line.event == Event::Ended, name.starts_with("execve"))?;
        }
        if let Some(task) = self.world.tasks.get_mut(&process) {
            task.is_shown = true;
        }
        match line.event {
            Event::Nothing => {}
            Event::Superseded { by: Some(thread) } => self.world.takes_number(process, thread)?,
            Event::Superseded { by: None } => {}
            Event::Ended => self.world.ends(process)?,
            Event::Call { name, text: rest } => {
                self.world.abandon(process)?;
                let call =
                    call::read(name, rest).map_err(|fault| self.wrong(fault, text.len() - rest.len()))?;
                self.world.complete(process, &call, None)?;
            }
            Event::Begun { name, text, goes_on_as } => {
                self.world.abandon(process)?;
                self.world.begin(process, name, text, goes_on_as)?;
            }
            Event::Resumed { name, text: rest } => {
                let pending = self.world.tasks.get_mut(&process).and_then(|task| task.pending.take());
                let Some(pending) = pending.filter(|pending| pending.name == name) else {
                    return Ok(self
                        .world
                        .stop(format!("{name} is resumed here, and the trace has no start of it"))?);
                };
                let whole = format!("{}{rest}", pending.text);
                let call = call::read(name, &whole).map_err(|fault| {
                    let column = fault.column.saturating_sub(pending.text.len()).max(1);
                    self.wrong(line::Fault { column, ..fault }, text.len() - rest.len())
                })?;
                self.world.complete(process, &call, Some(&pending))?;
            }
        }
        Ok(())
    }

    fn wrong(&self, fault: line::Fault, offset: usize) -> Failure {
        let line::Fault { column, expected } = fault;
        Failure::Malformed { line: self.world.line, column: offset + column, expected }
    }

    /// A process is new here: it is the child of a fork that has begun, or comes from outside.
    fn meet(&mut self, process: u32, is_end: bool, is_start: bool) -> Result<(), Failure> {
        self.world.gone.remove(&process);
        let makers = self.world.makers();
        let orphans = self.world.orphans.len();
        match (makers.as_slice(), orphans) {
            ([], 0) if is_end => Ok(()),
            ([], 0) => Ok(self.world.admit(process, is_start)?),
            ([], 1) => {
                let child = self.world.orphans.remove(0);
                Ok(self.world.bind(process, 0, child, &[])?)
            }
            ([maker], 0) => Ok(self.world.meet_child(process, *maker)?),
            _ => match self.maker_of(process)? {
                Some(maker) if makers.contains(&maker) => Ok(self.world.meet_child(process, maker)?),
                _ => Ok(self.world.stop(format!(
                    "process {process} is new here, and the trace does not tell which of several processes made it"
                ))?),
            },
        }
    }

    /// Reads ahead for the fork that gives back this process.
    fn maker_of(&mut self, process: u32) -> Result<Option<u32>, Failure> {
        let made = |text: &str| {
            let line = line::read(text).ok()?;
            let Event::Resumed { name, text } = line.event else { return None };
            let (_, result) = text.rsplit_once("= ")?;
            let digits = result.split([' ', '<']).next()?;
            (FORKS.contains(&name) && digits.parse() == Ok(process)).then_some(line.process)
        };
        if let Some(maker) = self.ahead.iter().find_map(|(_, text)| made(text)) {
            return Ok(Some(maker));
        }
        while self.ahead.len() < MOST_AHEAD {
            let Some(line) = self.read_line()? else { return Ok(None) };
            let found = made(&line.1);
            self.ahead.push_back(line);
            if found.is_some() {
                return Ok(found);
            }
        }
        Ok(None)
    }
}
