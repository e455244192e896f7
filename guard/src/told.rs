//! What the gatekeeper is told.
//!
//! There is no table of descriptors here. A step's handles are those of the proved monitor, at most one for each object,
//! direction and mark. They may be more than the process has, never less; what is too much is found where an answer
//! could hang on it ([`Told::put_right`]).

mod programs;

use std::collections::{BTreeSet, HashMap};

use gatekeeper::{Answer, Call, Kind, Label, Refusal, State, Way, OBJECTS, PLACES, SUBJECTS};
use gk_advice::how::how;
use gk_advice::refused;
use gk_advice::scene::{Lives, Scene};
use gk_chain::{By, Link, Thing};
use gk_trace::names;

use crate::journal::Journal;
use crate::proc::{Held, Key};
use crate::words::{fail, shown};

/// Acts of a chain that a line has; the middle of a longer one is left out.
const MOST_ACTS: usize = 5;
/// The first of the numbers for what has no inode yet, or one whose number something else has: no file system counts so far.
const OWN_NUMBERS: u64 = 1 << 63;

pub struct Told {
    state: State,
    pub journal: Journal,
    /// The number of each file and pipe by what the kernel says it is: its inode's, where nothing else has it. None is
    /// used for another one.
    numbers: HashMap<Key, u64>,
    /// What each number stands for.
    things: HashMap<u64, Seen>,
    /// How many have a number that is not their inode's.
    others: u64,
    /// The folder that the run was started in: files there go by their path from it.
    folder: Vec<u8>,
    /// What each step runs.
    programs: Vec<String>,
    /// Keys for files that are not made yet.
    fresh: u64,
    pub refused: u64,
}

/// What stands behind a number.
#[derive(Default)]
struct Seen {
    /// What the kernel says it is; none where that is another one by now.
    key: Option<Key>,
    path: Vec<u8>,
}

/// The objects on which a step is loud.
#[derive(Clone, Debug, Default, PartialEq, Eq)]
pub struct Loud {
    reads: BTreeSet<u64>,
    writes: BTreeSet<u64>,
}

impl Loud {
    pub fn is_quiet(&self) -> bool {
        *self == Loud::default()
    }

    /// Whether there is an object on which it was not before.
    pub fn exceeds(&self, before: &Loud) -> bool {
        !self.reads.is_subset(&before.reads) || !self.writes.is_subset(&before.writes)
    }
}

impl Told {
    pub fn new(journal: Journal, folder: Vec<u8>) -> Told {
        Told {
            state: State::new(),
            journal,
            numbers: HashMap::new(),
            things: HashMap::new(),
            others: 0,
            folder,
            programs: vec![String::new(); SUBJECTS as usize],
            fresh: 0,
            refused: 0,
        }
    }

    /// Makes a call: its record goes out, then it is answered. A refusal that is not for the flow is the guard's fault.
    pub fn make(&mut self, call: Call) -> Answer {
        if let Err(message) = self.journal.write(call) {
            fail(&format!("{message}: nothing more is answered, and the run ends"));
        }
        let answer = self.state.call(call);
        self.journal.answered(call, answer);
        match answer {
            Answer::Refused(Refusal::Flow) => self.refused += 1,
            Answer::Refused(why) => fail(&format!("its own tables are wrong: {call:?}: {why}")),
            Answer::Allowed(_) | Answer::Lowered { .. } => {}
        }
        answer
    }

    /// The tally, as the last line of the replies has it.
    pub fn tally(&self) -> String {
        format!("end {} {} {}\n", self.state.made(), self.state.gone(), self.state.open())
    }

    /// What is insufficient at a call that the gatekeeper has just refused for the flow, and how data could get to the file,
    /// in the words of `gk explain`, and proved: "/low has level 2, and /book takes nothing from below level 9; this is
    /// how /low could get into /book, were it let through: sh reads /low and writes /book".
    pub fn how(&self, call: Call) -> String {
        let links = gk_chain::behind(&self.state, call.code(), call.numbers());
        let name = |link: &Link| match link.thing {
            Thing::Step(s) => self.program(s).to_string(),
            Thing::Object(o) => self.object_name(o),
        };
        let chain: Vec<(Link, String)> = links.iter().map(|link| (*link, name(link))).collect();
        let (Some(how), [(low, front), .., (high, file)]) = (how(&chain, Refusal::Flow), &chain[..]) else {
            return Refusal::Flow.words().to_string();
        };
        let why = self.insufficient((low.label, front), (high.label, file));
        let way = how.sentence(MOST_ACTS).replacen("This", "this", 1);
        format!("{why}; {}", way.trim_end_matches('.'))
    }

    /// A label as `gk explain` has it: "level 9", or "level 9, shop marks of north and east".
    pub fn label_words(&self, label: Label) -> String {
        self.with_scene(|scene| scene.label(label))
    }

    /// What a thing lacks for a file, as `gk explain` has it: "west.csv lacks the shop mark of north, and paybook.csv takes
    /// nothing without it".
    pub fn insufficient(&self, (low, name): (Label, &str), (high, file): (Label, &str)) -> String {
        // The words go by the labels alone.
        let link = |label| Link { thing: Thing::Object(0), kind: None, label, by: By::Front };
        let words = self.with_scene(|scene| {
            refused::insufficient((&link(low), "has level"), (&link(high), file), "level ", scene)
        });
        format!("{name} {words}")
    }

    /// The moment that words of gk go by: here, for the names of the shop groups.
    fn with_scene(&self, words: impl Fn(Scene) -> String) -> String {
        let (record, names) = (self.journal.records(), self.journal.names.given());
        words(Scene { monitor: &self.state, record, names, lives: &Lives::default(), unnamed: None })
    }

    // Steps.

    pub fn label(&self, step: u64) -> Label {
        self.state.subject(step).unwrap_or(Label::LEAST)
    }

    pub fn free_step(&self) -> Option<u64> {
        (0..SUBJECTS).find(|&s| self.state.subject(s).is_none())
    }

    pub fn admit(&mut self, step: u64, label: Label, name: &str) {
        self.name_step(step, name);
        let _ = self.make(Call::admit(step, label));
    }

    pub fn fork(&mut self, step: u64, child: u64) {
        let name = self.programs[step as usize].clone();
        self.name_step(child, &name);
        let _ = self.make(Call::Fork { subject: step, child });
    }

    /// A thread of a step, under a number of its own. The step holds all that its threads do.
    pub fn thread(&mut self, step: u64, child: u64) {
        let name = format!("{} thread", self.programs[step as usize]);
        self.name_step(child, &name);
        let _ = self.make(Call::Thread { subject: step, member: child });
    }

    pub fn exit(&mut self, step: u64) {
        let _ = self.make(Call::Exit { subject: step });
    }

    pub fn name_step(&mut self, step: u64, name: &str) {
        self.programs[step as usize] = name.to_string();
        self.journal.name(names::Kind::Step, step, name);
    }

    pub fn program(&self, step: u64) -> &str {
        self.programs.get(step as usize).map_or("", |name| name.as_str())
    }

    // Files and pipes.

    pub fn object_name(&self, object: u64) -> String {
        self.things.get(&object).map_or_else(String::new, |seen| self.short(&seen.path))
    }

    /// A path as people know it.
    pub fn short(&self, path: &[u8]) -> String {
        let own = path.strip_prefix(self.folder.as_slice()).and_then(|rest| rest.strip_prefix(b"/"));
        shown(own.unwrap_or(path))
    }

    pub fn number(&self, key: Key) -> Option<u64> {
        self.own_number(key).filter(|&o| self.state.object(o).is_some())
    }

    /// The number of a file or pipe, live or not.
    fn own_number(&self, key: Key) -> Option<u64> {
        self.numbers.get(&key).copied().filter(|&o| self.key(o) == Some(key))
    }

    fn key(&self, object: u64) -> Option<Key> {
        self.things.get(&object)?.key
    }

    /// Whether what a process holds is what stands behind a number.
    fn is_of(&self, held: &Held, object: u64, writes: bool) -> bool {
        let seen = self.things.get(&object);
        seen.is_some_and(|seen| seen.key.is_some_and(|key| held.is(key, &seen.path, writes)))
    }

    fn is_held(&self, object: u64) -> bool {
        let holds = |s, p| self.state.handle(s, p).is_some_and(|handle| handle.object == object);
        (0..SUBJECTS).any(|s| (0..PLACES).any(|p| holds(s, p)))
    }

    /// Room for one more file or pipe; where 64 are live, a file that nobody holds is retired. None where all are held.
    fn make_room(&mut self) -> Option<()> {
        if self.state.objects().count() == OBJECTS as usize {
            let idle = self.state.objects().map(|(o, _)| o).find(|&o| !self.is_held(o))?;
            let _ = self.make(Call::Retire { object: idle });
        }
        Some(())
    }

    /// A number that nothing had before: the inode's, where it is known and free.
    fn fresh_number(&mut self, key: Option<Key>) -> u64 {
        let inode = key.map(|(_, inode)| inode).filter(|&inode| inode < OWN_NUMBERS);
        inode.filter(|inode| !self.things.contains_key(inode)).unwrap_or_else(|| {
            self.others += 1;
            OWN_NUMBERS + self.others - 1
        })
    }

    /// Whether there is room for one more file or pipe, or can be.
    pub fn has_room(&self) -> bool {
        let mut live = self.state.objects();
        self.state.objects().count() < OBJECTS as usize || live.any(|(o, _)| !self.is_held(o))
    }

    /// Says which file an object is. Another object with this key was a file that is gone by now: its inode is used
    /// again, so nobody has it open, and its handles are closed when tables are put right.
    pub fn seat(&mut self, object: u64, key: Key) {
        if let Some(old) = self.numbers.insert(key, object).filter(|&old| old != object) {
            if self.key(old) == Some(key) {
                self.things.entry(old).or_default().key = None;
            }
        }
        let before = self.things.entry(object).or_default().key.replace(key);
        if let Some(before) = before.filter(|&before| before != key) {
            self.numbers.remove(&before);
        }
    }

    /// The number of a file that is there; where it is not live it is registered, under the number that it had. None
    /// where there is no room for it.
    pub fn file(&mut self, key: Key, label: Label, path: &[u8]) -> Option<u64> {
        if let Some(object) = self.number(key) {
            if self.state.object(object).is_some_and(|found| found.label == label) {
                return Some(object);
            }
            if self.is_held(object) {
                return None;
            }
            let _ = self.make(Call::Retire { object });
        }
        self.make_room()?;
        let object = self.own_number(key).unwrap_or_else(|| self.fresh_number(Some(key)));
        self.named(object, path);
        let _ = self.make(Call::register(object, label));
        self.seat(object, key);
        Some(object)
    }

    /// The number of a file that is about to be made, with its label, or with the step's where none is given.
    pub fn new_file(&mut self, step: u64, label: Option<Label>, path: &[u8]) -> Option<u64> {
        self.make_room()?;
        let object = self.fresh_number(None);
        self.named(object, path);
        let _ = match label {
            Some(label) => self.make(Call::register(object, label)),
            None => self.make(Call::Create { subject: step, object }),
        };
        self.fresh += 1;
        self.seat(object, (u64::MAX, self.fresh));
        Some(object)
    }

    fn named(&mut self, object: u64, path: &[u8]) {
        self.things.entry(object).or_default().path = path.to_vec();
        let name = self.short(path);
        self.journal.name(names::Kind::File, object, &name);
    }

    // Handles.

    /// The place of a handle of the step that an exec does not end by a mark.
    fn hold(&self, step: u64, object: u64, writes: bool) -> Option<u64> {
        (0..PLACES).find(|&p| {
            self.state.handle(step, p).is_some_and(|handle| {
                handle.object == object && !handle.marked && (handle.way == Way::Writes) == writes
            })
        })
    }

    fn free_place(&self, step: u64) -> Option<u64> {
        (0..PLACES).find(|&p| self.state.handle(step, p).is_none())
    }

    /// Whether the step has room for so many more handles.
    pub fn has_places(&self, step: u64, count: usize) -> bool {
        (0..PLACES).filter(|&p| self.state.handle(step, p).is_none()).count() >= count
    }

    /// How many handles an open in these directions adds.
    pub fn adds(&self, step: u64, object: u64, reads: bool, writes: bool) -> usize {
        let adds = |is_wanted, writes| usize::from(is_wanted && self.hold(step, object, writes).is_none());
        adds(reads, false) + adds(writes, true)
    }

    fn open_call(step: u64, object: u64, place: u64, writes: bool) -> Call {
        match writes {
            true => Call::OpenWrite { subject: step, object, place },
            false => Call::OpenRead { subject: step, object, place },
        }
    }

    /// Whether an open would be granted, asked of a copy.
    pub fn would_open(&self, step: u64, object: u64, reads: bool, writes: bool) -> bool {
        let mut copy = self.state.clone();
        [(reads, false), (writes, true)].into_iter().all(|(is_wanted, writes)| {
            if !is_wanted || self.hold(step, object, writes).is_some() {
                return true;
            }
            let place = (0..PLACES).find(|&p| copy.handle(step, p).is_none());
            place.is_some_and(|place| {
                copy.call(Told::open_call(step, object, place, writes)).granted().is_ok()
            })
        })
    }

    /// The open for real; where it is refused, the call that was.
    pub fn open(&mut self, step: u64, object: u64, reads: bool, writes: bool) -> Result<(), Call> {
        let mut made = None;
        for (is_wanted, writes) in [(reads, false), (writes, true)] {
            if !is_wanted || self.hold(step, object, writes).is_some() {
                continue;
            }
            let Some(place) = self.free_place(step) else { fail("no place is left where one was") };
            let call = Told::open_call(step, object, place, writes);
            if self.make(call).granted().is_err() {
                if let Some(place) = made {
                    let _ = self.make(Call::Close { subject: step, place });
                }
                return Err(call);
            }
            made = Some(place);
        }
        Ok(())
    }

    /// A pipe that the step has made; the caller has seen to a number and two places.
    pub fn pipe(&mut self, step: u64, key: Key) {
        let places: Vec<u64> =
            (0..PLACES).filter(|&p| self.state.handle(step, p).is_none()).take(2).collect();
        let (Some(()), &[reads, writes]) = (self.make_room(), &places[..]) else {
            fail("no room or place is left for a pipe where one was")
        };
        let object = self.fresh_number(Some(key));
        let path = format!("pipe of {}", self.program(step)).into_bytes();
        self.things.insert(object, Seen { key: None, path });
        let name = self.object_name(object);
        self.journal.name(names::Kind::Pipe, object, &name);
        let _ = self.make(Call::Pipe { subject: step, object, reads, writes });
        self.seat(object, key);
    }

    /// Closes what the step no longer has.
    pub fn put_right(&mut self, step: u64, held: &[Held]) {
        for place in 0..PLACES {
            let Some(handle) = self.state.handle(step, place) else { continue };
            let writes = handle.way == Way::Writes;
            if !held.iter().any(|held| self.is_of(held, handle.object, writes)) {
                let _ = self.make(Call::Close { subject: step, place });
            }
        }
    }

    /// A read or a write on an object. Where nobody would fall it changes nothing, and is left out. Whether one fell.
    pub fn data(&mut self, step: u64, object: u64, writes: bool) -> bool {
        let (Some(found), Some(own)) = (self.state.object(object), self.state.subject(step)) else {
            return false;
        };
        let lowers = match writes {
            true => found.kind == Kind::Pipe && !own.at_least(found.label),
            false => !found.label.at_least(own),
        };
        let Some(place) = self.hold(step, object, writes).filter(|_| lowers) else { return false };
        let _ = self.make(match writes {
            true => Call::Write { subject: step, place },
            false => Call::Read { subject: step, place },
        });
        true
    }

    /// The objects that a read or a write of the step would lower somebody on.
    pub fn loud(&self, step: u64) -> Loud {
        let mut loud = Loud::default();
        let Some(own) = self.state.subject(step) else { return loud };
        for place in 0..PLACES {
            let Some(handle) = self.state.handle(step, place) else { continue };
            let Some(object) = self.state.object(handle.object) else { continue };
            let (set, lowers) = match handle.way {
                Way::Writes => (&mut loud.writes, object.kind == Kind::Pipe && !own.at_least(object.label)),
                Way::Reads | Way::Maps => (&mut loud.reads, !object.label.at_least(own)),
            };
            if lowers {
                set.insert(handle.object);
            }
        }
        loud
    }
}

#[cfg(test)]
pub mod tests {
    use super::*;
    use gk_trace::TOP;

    /// A level with all shop marks.
    pub fn at(level: u8) -> Label {
        Label { level, ..TOP }
    }

    pub fn told() -> Told {
        let mut journal = Journal::none();
        journal.name_shops(&gk_names::Names::read(b"names 1\nshop 0 1 north\nshop 1 1 east\n").unwrap());
        let mut told = Told::new(journal, b"/run".to_vec());
        told.admit(0, TOP, "sh");
        told
    }

    pub fn held(key: Key, reads: bool, writes: bool, ends: bool) -> Held {
        Held { key, reads, writes, ends, path: None }
    }

    #[test]
    fn one_handle_for_each_object_and_direction() {
        let mut told = told();
        let file = told.file((1, 1), at(5), b"/f").unwrap();
        assert_eq!(told.adds(0, file, true, true), 2);
        assert!(told.would_open(0, file, true, false));
        assert_eq!(told.open(0, file, true, true), Ok(()));
        assert_eq!(told.open(0, file, true, true), Ok(()));
        assert_eq!((told.adds(0, file, true, true), told.state.open()), (0, 2));
        assert!(!told.loud(0).is_quiet() && told.data(0, file, false) && told.loud(0).is_quiet());
        assert!(!told.data(0, file, false) && !told.data(0, file, true));
    }

    #[test]
    fn what_is_gone_is_closed_and_a_chain_is_said() {
        let mut told = told();
        let (low, book) =
            (told.file((1, 1), at(2), b"/low").unwrap(), told.file((1, 2), at(9), b"/book").unwrap());
        told.open(0, book, false, true).unwrap();
        assert!(!told.would_open(0, low, true, false));
        let call = told.open(0, low, true, false).unwrap_err();
        assert_eq!(
            told.how(call),
            "/low has level 2, and /book takes nothing from below level 9; this is how /low could get into /book, were \
             it let through: sh reads /low and writes /book"
        );
        told.put_right(0, &[held((1, 2), true, false, false)]);
        assert!(told.would_open(0, low, true, false) && told.refused == 1);
    }

    #[test]
    fn a_shop_mark_counts_as_a_level_does() {
        let mut told = told();
        let label = |level, shops| Label { level, shops };
        let book = told.file((1, 1), label(9, 0b001), b"/run/book.csv").unwrap();
        let north = told.file((1, 2), label(9, 0b101), b"/run/north.csv").unwrap();
        let west = told.file((1, 3), label(9, 0b100), b"/run/west.csv").unwrap();
        // A mark alone is lost, and once it is lost nothing is loud.
        told.open(0, north, true, false).unwrap();
        assert!(!told.loud(0).is_quiet() && told.data(0, north, false) && told.loud(0).is_quiet());
        assert_eq!(told.label(0), label(9, 0b101));
        told.open(0, book, false, true).unwrap();
        let call = told.open(0, west, true, false).unwrap_err();
        assert_eq!(
            told.how(call),
            "west.csv lacks the shop mark of north, and book.csv takes nothing without it; this is how west.csv could get \
             into book.csv, were it let through: sh reads west.csv and writes book.csv"
        );
        told.put_right(0, &[]);
        // Without the book it reads the sheet, and is refused the book from then on, on the level that it asks for.
        told.open(0, west, true, false).unwrap();
        assert!(told.data(0, west, false) && !told.data(0, west, false));
        let call = told.open(0, book, false, true).unwrap_err();
        assert!(told.how(call).starts_with("sh lacks the shop mark of north, and book.csv takes nothing"));
        let call = told.file((1, 4), label(12, 0), b"/run/high.csv").unwrap();
        let call = told.open(0, call, false, true).unwrap_err();
        assert!(told.how(call).starts_with(
            "sh has level 9, and high.csv takes nothing from below level 12; this is how what sh has"
        ));
        // A pipe falls by a mark alone.
        told.fork(0, 1);
        told.admit(2, label(9, 0b101), "cat");
        told.pipe(2, (1, 9));
        let pipe = told.number((1, 9)).unwrap();
        told.open(1, pipe, false, true).unwrap();
        assert!(!told.loud(1).is_quiet() && told.data(1, pipe, true) && told.loud(1).is_quiet());
        assert!(told.data(2, pipe, false) && told.label(2) == label(9, 0b100));
        // The same file with another set is another one to the gatekeeper: held, there is no number for it.
        assert_eq!(told.file((1, 3), label(9, 0b101), b"/run/west.csv"), None);
    }

    #[test]
    fn an_inode_that_is_used_again_is_another_file() {
        let mut told = told();
        let old = told.file((1, 7), at(9), b"/old").unwrap();
        told.open(0, old, false, true).unwrap();
        let new = told.new_file(0, Some(at(2)), b"/new").unwrap();
        told.seat(new, (1, 7));
        assert_eq!(told.number((1, 7)), Some(new));
        told.put_right(0, &[held((1, 7), true, true, false)]);
        assert_eq!(told.state.open(), 0);
        // Held, and another level: there is no number for it.
        told.open(0, new, true, false).unwrap();
        assert_eq!(told.file((1, 7), at(9), b"/new"), None);
    }

    #[test]
    fn a_file_has_one_number_for_the_whole_run() {
        let mut told = told();
        for n in 0..200 {
            let file = told.file((2, n), at(15), b"/f").unwrap();
            assert!(told.open(0, file, false, true).is_ok() && told.has_room());
            told.put_right(0, &[]);
        }
        // The first one was retired meanwhile, and has its number again.
        assert!(told.number((2, 0)).is_none());
        assert_eq!(told.file((2, 0), at(15), b"/f"), Some(0));
        // The number is that of the inode, but for one on another device.
        assert_eq!(told.file((2, 777), at(15), b"/f"), Some(777));
        assert_eq!(told.file((4, 0), at(15), b"/f"), Some(OWN_NUMBERS));
        assert_eq!(told.file((4, u64::MAX), at(15), b"/f"), Some(OWN_NUMBERS + 1));
        for n in 0..16 {
            let file = told.file((3, n), at(15), b"/f").unwrap();
            assert!(told.open(0, file, false, true).is_ok());
        }
        assert!(!told.has_places(0, 1));
    }
}
