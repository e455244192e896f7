//! What was written, and what was left out and why: the report on standard error.

use std::collections::BTreeMap;

use gatekeeper::{Answer, Call, Way};
use gk_advice::calls::shape_of_code;
use gk_advice::refused::of_record;
use gk_advice::run::{lost, Run};
use gk_advice::scene::Past;
use gk_advice::things::Thing;
use gk_names::number::grouped as counted;
use gk_names::Names;

use crate::files::Files;
use crate::text::shown;

/// Why something of the trace is not in the journal.
#[derive(Clone, Copy, Debug, PartialEq, Eq, PartialOrd, Ord)]
pub enum Left {
    // What was not seen, or not followed.
    Hidden,
    StandardData,
    UnknownData,
    DeviceData,
    Sockets,
    Passed,
    SharedMemory,
    Queues,
    OtherMemory,
    Rings,
    Events,
    Outside,
    Unfollowed,
    Unresumed,
    Filter,
    Cut,
    Roots,
    Parted,
    Raced,
    Strange,
    // What carries nothing that decides.
    Top,
    Repeats,
    ByLevels,
    Refused,
    Standard,
    Unknown,
    Devices,
    Kernel,
    SocketCalls,
    EventCalls,
    Attributes,
    Signals,
    Failed,
    NoData,
}

impl Left {
    fn words(self) -> &'static str {
        match self {
            Left::Top => "calls on files of level 15 that are only read (harmless: docs/TRACE.md says why)",
            Left::Repeats => "reads and writes that come again and lower nobody",
            Left::Hidden => "reads and runs of files that the levels file leaves out: give them a level",
            Left::StandardData => {
                "reads and writes of standard input, output and error without a level: give them one (<stdin> 2)"
            }
            Left::UnknownData => "reads and writes on descriptors whose opening is not in the trace",
            Left::DeviceData => "reads and writes of devices that may hold data (/dev)",
            Left::Sockets => "reads and writes over sockets",
            Left::Passed => "descriptors that were sent over a socket",
            Left::SharedMemory => "shared memory without a file",
            Left::Queues => "message queues and semaphores",
            Left::OtherMemory => "calls into another process's memory",
            Left::Rings => "reads and writes handed in by a ring or a queue",
            Left::Events => "reads and writes of event descriptors (eventfd, epoll, timers)",
            Left::Outside => "processes whose start is not in the trace: each is a step from outside",
            Left::Unfollowed => "processes that were started and are not in the trace: trace with strace -f",
            Left::Unresumed => "calls that the trace does not bring to an end",
            Left::Filter => "kinds of calls that every run makes are missing: trace without a filter (-e)",
            Left::Cut => "the trace goes on, or was cut off: what comes later",
            Left::Roots => "calls that change which files paths mean (mount, chroot): not followed",
            Left::Parted => "threads that take a copy of their process's descriptors: one table in the journal",
            Left::Raced => "calls of a thread while another one changed the descriptor: which file it was is not known",
            Left::ByLevels => "other calls on files that the levels file leaves out",
            Left::Refused => "calls on what was refused before",
            Left::Standard => "calls on standard input, output and error that move no data",
            Left::Unknown => "calls on descriptors whose opening is not in the trace that move no data",
            Left::Devices => "calls on devices that hold no data (/dev/null and its kin, terminals to write to)",
            Left::Kernel => "calls on what the kernel shows as files (/proc, /sys)",
            Left::SocketCalls => "calls on sockets that move no data",
            Left::EventCalls => "calls that make event descriptors",
            Left::Attributes => "names and attributes of files (stat, getdents, chmod, xattr): no contents",
            Left::Signals => "signals and exit statuses",
            Left::Failed => "calls that failed",
            Left::NoData => "calls that carry no data (brk, rt_sigaction and their kin)",
            Left::Strange => "calls that this program does not know",
        }
    }

    /// Whether data may have gone a way that is not in the journal: then nobody may take its answers for an all-clear.
    pub fn is_unseen(self) -> bool {
        self <= Left::Strange
    }

    /// What a call is that is about such a descriptor and moves no data.
    pub fn unmoved(self) -> Left {
        match self {
            Left::Sockets => Left::SocketCalls,
            Left::Events => Left::EventCalls,
            Left::Raced => Left::Unknown,
            other => other,
        }
    }

    /// What a descriptor of this kind is, once data is moved over it.
    pub fn moved(self, way: Way, path: Option<&[u8]>) -> Left {
        match (self, path) {
            (Left::Standard, _) => Left::StandardData,
            (Left::Unknown, _) => Left::UnknownData,
            // What is written to a file that is left out is seen again where the file is read.
            (Left::ByLevels, _) if way != Way::Writes => Left::Hidden,
            (Left::Devices, path) if path.is_none_or(|path| !is_dry(path, way)) => Left::DeviceData,
            (Left::Kernel, Some(path)) if path.ends_with(b"/mem") || path.ends_with(b"/kcore") => {
                Left::OtherMemory
            }
            (other, _) => other,
        }
    }
}

/// Whether a device gives nothing that somebody wrote, or takes what nobody reads but a person.
fn is_dry(path: &[u8], way: Way) -> bool {
    let name = path.strip_prefix(b"/dev/").unwrap_or(path);
    let is_terminal = name.starts_with(b"pts/") || name.starts_with(b"tty") || name == b"console";
    matches!(name, b"null" | b"zero" | b"full" | b"random" | b"urandom")
        || is_terminal && way == Way::Writes
}

/// What is in the journal in a form that a reader should know of.
#[derive(Clone, Copy, Debug, PartialEq, Eq, PartialOrd, Ord)]
pub enum Note {
    Threads,
    SharedRead,
    SharedMap,
    Pairs,
    Moved,
    Linked,
    Named,
    Folded,
}

impl Note {
    fn words(self) -> &'static str {
        match self {
            Note::Threads => "threads: one step with their process",
            Note::SharedRead => "reads by a process that shares memory with another: both have read",
            Note::SharedMap => "writable shared mappings: a map and an open for writing",
            Note::Pairs => "socket pairs: two pipes each",
            Note::Moved => "renames from one level to another: a copy by the step that renames",
            Note::Linked => "links from one level to another: a copy by the step that links",
            Note::Named => {
                "opens by the path that strace -y writes, of descriptors that the run was started with"
            }
            Note::Folded => {
                "opens of files that are only read, each with others of its line as one (docs/TRACE.md says why)"
            }
        }
    }
}

#[derive(Clone, Copy, Debug, PartialEq, Eq)]
struct Count {
    count: u64,
    first: u64,
}

/// Names of unknown calls that are kept.
const MOST_NAMES: usize = 50;

#[derive(Default)]
pub struct Report {
    pub lines: u64,
    pub is_cut: bool,
    pub stopped_at: Option<u64>,
    /// Kinds of calls that every run makes, and that are not in the trace.
    pub missing: Vec<&'static str>,
    made: BTreeMap<u64, u64>,
    answers: [u64; 3],
    /// Shop marks that were lost, all of them counted.
    lost: u64,
    left: BTreeMap<Left, Count>,
    notes: BTreeMap<Note, Count>,
    strange: BTreeMap<String, Count>,
    refused: Vec<Refused>,
}

/// What a trace comes to.
#[derive(Clone, Copy, Debug, PartialEq, Eq)]
pub enum Verdict {
    /// Nothing is refused, and everything was seen.
    Clear,
    Refused,
    /// Nothing is refused of what was seen.
    Unseen,
}

/// Calls of one kind by one program that are refused.
struct Refused {
    program: String,
    code: u64,
    count: u64,
    /// The first of them: the file or pipe, and the line of the trace.
    first: Vec<(String, u64)>,
    /// The record of the first one, and what is said of it.
    record: u64,
    told: Vec<String>,
}

/// Refusals of a kind that are named.
const MOST_REFUSED: usize = 3;

fn count<K: Ord>(counts: &mut BTreeMap<K, Count>, key: K, line: u64) {
    counts.entry(key).or_insert(Count { count: 0, first: line }).count += 1;
}

impl Report {
    pub fn wrote(&mut self, call: Call, answer: Answer) {
        *self.made.entry(call.code()).or_insert(0) += 1;
        let index = match answer {
            Answer::Allowed(_) => 0,
            Answer::Lowered { .. } => 1,
            Answer::Refused(_) => 2,
        };
        self.answers[index] += 1;
        self.lost += u64::from(lost(answer).unwrap_or(0));
    }

    /// How many threads were written.
    pub fn threads(&self) -> u64 {
        self.made_of(Call::Thread { subject: 0, member: 0 })
    }

    /// How many opens for reading were written.
    pub fn reads(&self) -> u64 {
        self.made_of(Call::OpenRead { subject: 0, object: 0, place: 0 })
    }

    /// How many calls of this one's kind were written.
    fn made_of(&self, call: Call) -> u64 {
        self.made.get(&call.code()).copied().unwrap_or(0)
    }

    /// A call on this file or pipe, by a step that runs this program, is refused.
    pub fn refused(&mut self, program: &str, code: u64, what: String, line: u64) {
        let is_same = |kind: &Refused| kind.program == program && kind.code == code;
        let record = self.made.values().sum();
        let index = self.refused.iter().position(is_same).unwrap_or_else(|| {
            let (program, first, told) = (program.to_string(), Vec::new(), Vec::new());
            self.refused.push(Refused { program, code, count: 0, first, record, told });
            self.refused.len() - 1
        });
        let kind = &mut self.refused[index];
        kind.count += 1;
        if kind.first.len() < MOST_REFUSED {
            kind.first.push((what, line));
        }
    }

    /// Says of the first refusal of each kind what `gk explain` says of it: its title and the first way out; and where
    /// a file at an end of its chain has its level from `else` alone, that.
    pub fn tell(&mut self, journal: &[u8], names: &Names, files: &Files) {
        let mut past = Past::default();
        for step in Run::new(journal) {
            let kinds: Vec<&mut Refused> =
                self.refused.iter_mut().filter(|kind| kind.record == step.position).collect();
            if !kinds.is_empty() {
                let refused = of_record(&step, past.before(&step, names), past.closing);
                let told = refused.map_or(Vec::new(), |refused| {
                    let ends = [
                        refused.chain.first().map(|end| (end, false)),
                        refused.chain.last().map(|end| (end, true)),
                    ];
                    let unlisted =
                        ends.into_iter().flatten().filter_map(|((link, _), is_high)| match link.thing {
                            Thing::Object(object) => files.unlisted(object, step.position, is_high, names),
                            Thing::Step(_) => None,
                        });
                    let unlisted: Vec<String> = unlisted.collect();
                    let way = refused.counsel.ways.first().map(|way| format!("What to do: {}", way.text));
                    std::iter::once(refused.title).chain(unlisted).chain(way).collect()
                });
                kinds.into_iter().for_each(|kind| kind.told.clone_from(&told));
            }
            past.follow(&step);
        }
    }

    pub fn left(&mut self, why: Left, line: u64) {
        count(&mut self.left, why, line);
    }

    pub fn note(&mut self, note: Note, line: u64) {
        count(&mut self.notes, note, line);
    }

    pub fn strange(&mut self, name: &str, line: u64) {
        self.left(Left::Strange, line);
        if self.strange.len() < MOST_NAMES || self.strange.contains_key(name) {
            count(&mut self.strange, name.to_string(), line);
        }
    }

    /// How many of a kind were left out.
    pub fn count(&self, why: Left) -> u64 {
        self.left.get(&why).map_or(0, |count| count.count)
    }

    pub fn text(&self, bytes: usize) -> String {
        let made: u64 = self.made.values().sum();
        let [allowed, lowered, refused] = self.answers.map(counted);
        let (lines, calls, bytes) = (counted(self.lines), counted(made), counted(bytes as u64));
        let mut text = format!("gk trace: {lines} lines read, {calls} calls written, {bytes} bytes\n");
        let kinds: Vec<String> =
            self.made.iter().map(|(&code, &count)| format!("{} {}", kind(code), counted(count))).collect();
        if !kinds.is_empty() {
            text.push_str(&wrapped(&format!("  written: {}", kinds.join(", "))));
        }
        let lost = match self.lost {
            0 => String::new(),
            1 => "; 1 shop mark was lost".to_string(),
            lost => format!("; {} shop marks were lost", counted(lost)),
        };
        text.push_str(&format!(
            "  answers: {allowed} allowed, {lowered} lowered, {refused} refused{lost}\n"
        ));
        for Refused { program, code, count, first, record, told } in &self.refused {
            let named: Vec<String> =
                first.iter().map(|(what, line)| format!("{what} (line {line})")).collect();
            let more = count - first.len() as u64;
            let more = if more > 0 { format!(" and {} more", counted(more)) } else { String::new() };
            let (program, kind) = (shown(program.as_bytes()), kind(*code));
            let (count, named) = (counted(*count), named.join(", "));
            text.push_str(&wrapped(&format!("  {count:>9}  refused: {program}, {kind} of {named}{more}")));
            if !told.is_empty() {
                let indent = " ".repeat(INDENT);
                text.push_str(&wrapped(&format!("{indent}Record {record}: {}", told.join(" "))));
            }
        }
        if let Some(line) = self.stopped_at {
            text.push_str(&format!("  read up to line {line}, as --until says\n"));
        }
        if self.is_cut {
            text.push_str("  the last line of the trace is cut off and was left out\n");
        }
        if !self.missing.is_empty() {
            let kinds = self.missing.join(", ");
            text.push_str(&wrapped(&format!("  there is no call of these kinds: {kinds}")));
        }
        let mut section = |title: &str, rows: Vec<(&'static str, Count)>| {
            if !rows.is_empty() {
                text.push_str(&format!("  {title}:\n"));
            }
            for (words, Count { count, first }) in rows {
                text.push_str(&format!("  {:>9}  {words}; first at line {first}\n", counted(count)));
            }
        };
        section(
            "written in another form",
            self.notes.iter().map(|(note, &count)| (note.words(), count)).collect(),
        );
        let those = |is_unseen: bool| {
            let left = self.left.iter().filter(move |(why, _)| why.is_unseen() == is_unseen);
            left.map(|(why, &count)| (why.words(), count)).collect::<Vec<_>>()
        };
        section("NOT SEEN by the gatekeeper", those(true));
        section("left out", those(false));
        if !self.strange.is_empty() {
            let names: Vec<String> =
                self.strange.iter().map(|(name, at)| format!("{name} (line {})", at.first)).collect();
            text.push_str(&wrapped(&format!("  calls that are not known: {}", names.join(", "))));
        }
        text.push_str(match self.verdict() {
            Verdict::Clear => "  nothing is refused, and everything was seen\n",
            Verdict::Refused => "  there are refusals\n",
            Verdict::Unseen => {
                "  nothing is refused, but not everything was seen: look at these lines before you trust that\n"
            }
        });
        text
    }

    /// What the whole comes to.
    pub fn verdict(&self) -> Verdict {
        match (self.answers[2], self.left.keys().any(|why| why.is_unseen())) {
            (0, false) => Verdict::Clear,
            (0, true) => Verdict::Unseen,
            _ => Verdict::Refused,
        }
    }
}

/// A line of the report, broken at spaces where it is long.
pub fn wrapped(line: &str) -> String {
    let mut text = String::new();
    let mut width = 0;
    for (index, word) in line.split(' ').enumerate() {
        let length = word.chars().count();
        if index > 0 && width > INDENT && width + 1 + length > MOST_COLUMNS {
            text.push('\n');
            text.push_str(&" ".repeat(INDENT));
            width = INDENT;
        } else if index > 0 {
            text.push(' ');
            width += 1;
        }
        text.push_str(word);
        width += length;
    }
    text + "\n"
}

/// Columns of a line of the report, and where the rest of a long one starts.
const MOST_COLUMNS: usize = 110;
pub const INDENT: usize = 13;

/// The word of a call.
fn kind(code: u64) -> &'static str {
    shape_of_code(code).map_or("other", |shape| shape.word)
}

#[cfg(test)]
mod tests {
    use super::*;

    #[test]
    fn long_lines_are_broken() {
        let text = wrapped(&format!("  1  {}", "word ".repeat(50).trim_end()));
        assert!(text.lines().count() == 3 && text.lines().all(|line| line.len() <= MOST_COLUMNS), "{text}");
        let words = |text: &str| text.split_whitespace().map(str::to_string).collect::<Vec<_>>();
        assert_eq!(words(&text).len(), 51);
        assert!(wrapped(&"x".repeat(300)).lines().count() == 1);
    }

    #[test]
    fn a_report_counts_and_says_where_first() {
        let mut report = Report { lines: 1200, ..Report::default() };
        report.wrote(Call::Admit { subject: 0, level: 15, shops: 255 }, Answer::Allowed(15));
        report.left(Left::Failed, 7);
        report.left(Left::Failed, 9);
        report.strange("frob", 11);
        let text = report.text(4);
        assert!(
            text.starts_with("gk trace: 1,200 lines read, 1 calls written, 4 bytes\n  written: admit 1\n"),
            "{text}"
        );
        assert!(text.contains("        2  calls that failed; first at line 7\n"), "{text}");
        assert!(text.contains("  calls that are not known: frob (line 11)\n"), "{text}");
        assert!(
            text.contains("NOT SEEN by the gatekeeper:\n          1  calls that this program does not"),
            "{text}"
        );
        assert_eq!(report.count(Left::Failed), 2);
    }
}
