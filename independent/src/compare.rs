//! Runs another program beside this one: the worked cases and generated journals, byte for byte.

use std::ffi::OsString;
use std::fmt;
use std::io::{Read, Write};
use std::process::{Command, Stdio};
use std::sync::atomic::{AtomicBool, AtomicU64, Ordering};
use std::sync::{mpsc, Mutex, MutexGuard, PoisonError};
use std::thread;
use std::time::{Duration, Instant};

use crate::cases;
use crate::generate::{journal, Wish};
use crate::replies::replies_by;
use crate::shrink::shrink;
use crate::text::indented;
use crate::variants::Rules;
use crate::words::words_of;

/// Runs of the other program that a search for a shorter journal may take.
const SHRINKING_RUNS: usize = 2000;
/// How long such a search may take.
const SHRINKING_TIME: Duration = Duration::from_secs(20);
/// Lines of a text that are printed in full.
const MOST_LINES: usize = 60;

/// Another program: it reads a journal from standard input and writes the replies to standard output.
#[derive(Clone, Debug)]
pub struct Program {
    pub path: OsString,
    pub arguments: Vec<OsString>,
    /// How long it may take for one journal.
    pub patience: Duration,
    /// The rules that its replies are held against: those of docs/RULES.md, or a variant of them.
    pub rules: Rules,
}

/// What the other program did with a journal.
#[derive(Clone, Debug, PartialEq, Eq)]
pub enum Reaction {
    Replied(Vec<u8>),
    /// It was ended by a signal.
    Crashed(Vec<u8>),
    /// It did not end in time.
    Silent,
}

impl Program {
    /// Runs the program on one journal; an error is one of starting it.
    pub fn run(&self, journal: &[u8]) -> Result<Reaction, String> {
        let name = self.path.to_string_lossy();
        let mut child = Command::new(&self.path)
            .args(&self.arguments)
            .stdin(Stdio::piped())
            .stdout(Stdio::piped())
            .stderr(Stdio::null())
            .spawn()
            .map_err(|error| format!("cannot start {name}: {error}"))?;
        let (Some(mut input), Some(mut output)) = (child.stdin.take(), child.stdout.take()) else {
            return Err(format!("cannot talk to {name}"));
        };
        let (sender, receiver) = mpsc::channel();
        let journal = journal.to_vec();
        // A program that stops reading early closes its end; its replies are what counts.
        thread::spawn(move || {
            let _ = input.write_all(&journal);
        });
        thread::spawn(move || {
            let mut bytes = Vec::new();
            let _ = output.read_to_end(&mut bytes);
            let _ = sender.send(bytes);
        });
        let received = receiver.recv_timeout(self.patience);
        if received.is_err() {
            let _ = child.kill();
        }
        let status = child.wait().map_err(|error| format!("cannot wait for {name}: {error}"))?;
        Ok(match received {
            Err(_) => Reaction::Silent,
            Ok(bytes) if status.code().is_none() => Reaction::Crashed(bytes),
            Ok(bytes) => Reaction::Replied(bytes),
        })
    }

    /// What it is to reply.
    fn right(&self, journal: &[u8]) -> String {
        replies_by(journal, self.rules)
    }

    fn differs(&self, journal: &[u8]) -> Result<bool, String> {
        let right = self.right(journal).into_bytes();
        Ok(self.run(journal)? != Reaction::Replied(right))
    }
}

/// How much was compared.
#[derive(Clone, Copy, Debug, Default, PartialEq, Eq)]
pub struct Count {
    pub journals: u64,
    pub records: u64,
    /// Records that hold a call.
    pub calls: u64,
    pub bytes: u64,
}

impl fmt::Display for Count {
    fn fmt(&self, out: &mut fmt::Formatter) -> fmt::Result {
        let Count { journals, records, calls, bytes } = self;
        write!(out, "{journals} journals, {records} records with {calls} calls, {bytes} bytes")
    }
}

/// A journal on which the two programs differ.
#[derive(Clone, Debug)]
pub struct Difference {
    /// Where it comes from: a worked case, or a seed and an index.
    pub origin: String,
    pub journal: Vec<u8>,
}

/// What a comparison found.
#[derive(Clone, Debug)]
pub struct Outcome {
    pub count: Count,
    pub difference: Option<Difference>,
}

/// Compares on the worked cases and then on this many journals of a seed, in `jobs` threads.
pub fn compare(program: &Program, seed: u64, journals: u64, jobs: usize) -> Result<Outcome, String> {
    let cases = cases::all();
    let total = cases.len() as u64 + journals;
    let nth = |index: u64| match cases.get(index as usize) {
        Some(case) => (format!("case {}", case.name), case.journal.clone()),
        None => {
            let index = index - cases.len() as u64;
            let origin = format!("seed {seed}, journal {index}");
            (origin, journal(seed, index, Wish::default()))
        }
    };

    let next = AtomicU64::new(0);
    let stop = AtomicBool::new(false);
    let count = Mutex::new(Count::default());
    let first: Mutex<Option<(u64, Result<Difference, String>)>> = Mutex::new(None);
    let work = || {
        while !stop.load(Ordering::Relaxed) {
            let index = next.fetch_add(1, Ordering::Relaxed);
            if index >= total {
                return;
            }
            let (origin, journal) = nth(index);
            let right = program.right(&journal);
            let found = match program.run(&journal) {
                Ok(Reaction::Replied(bytes)) if bytes == right.as_bytes() => None,
                Ok(_) => Some(Ok(Difference { origin, journal: journal.clone() })),
                Err(message) => Some(Err(message)),
            };
            let mut count = lock(&count);
            count.journals += 1;
            count.records += right.lines().count() as u64 - 1;
            count.calls += right.lines().filter(|line| is_of_call(line)).count() as u64;
            count.bytes += journal.len() as u64;
            if let Some(found) = found {
                stop.store(true, Ordering::Relaxed);
                let mut first = lock(&first);
                if first.as_ref().is_none_or(|(known, _)| index < *known) {
                    *first = Some((index, found));
                }
            }
        }
    };
    thread::scope(|scope| {
        for _ in 1..jobs.max(1) {
            scope.spawn(work);
        }
        work();
    });

    let count = *lock(&count);
    let difference = match lock(&first).take() {
        None => None,
        Some((_, found)) => Some(found?),
    };
    Ok(Outcome { count, difference })
}

/// Whether a reply line answers a call: not the end line, and none of the refusals of a record.
fn is_of_call(line: &str) -> bool {
    let is_of_record = [" R 1", " R 11", " R 12", " R 14"].iter().any(|refusal| line.ends_with(refusal));
    !is_of_record && !line.starts_with("end")
}

fn lock<T>(mutex: &Mutex<T>) -> MutexGuard<'_, T> {
    mutex.lock().unwrap_or_else(PoisonError::into_inner)
}

/// The shortest journal found that still differs.
pub fn shortest(program: &Program, journal: &[u8]) -> Result<Vec<u8>, String> {
    let mut failure = None;
    let started = Instant::now();
    let shorter = shrink(journal, SHRINKING_RUNS, &mut |candidate| {
        if failure.is_some() || started.elapsed() > SHRINKING_TIME {
            return false;
        }
        program.differs(candidate).unwrap_or_else(|message| {
            failure = Some(message);
            false
        })
    });
    match failure {
        Some(message) => Err(message),
        None => Ok(shorter),
    }
}

/// A journal on which the programs differ, as text with both replies.
pub fn report(program: &Program, journal: &[u8]) -> Result<String, String> {
    let right = program.right(journal);
    let (note, theirs) = match program.run(journal)? {
        Reaction::Replied(bytes) => (String::new(), bytes),
        Reaction::Crashed(bytes) => (" (it was ended by a signal)".to_string(), bytes),
        Reaction::Silent => (" (it did not end in time and was stopped)".to_string(), Vec::new()),
    };
    let theirs = String::from_utf8_lossy(&theirs).into_owned();
    let line = right.lines().zip(theirs.lines()).take_while(|(ours, theirs)| ours == theirs).count();
    Ok(format!(
        "The journal, {} bytes:\n{}Replies of this program:\n{}Replies of the other program{note}:\n{}\
         The first line that differs is line {}.\n",
        journal.len(),
        indented(&words_of(journal), MOST_LINES),
        indented(&right, MOST_LINES),
        indented(&theirs, MOST_LINES),
        line + 1
    ))
}
