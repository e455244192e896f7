//! The archive beside the independent program: every call is made in both, and answers, tally, tables and kept needs, as
//! they stand in the bytes, are compared after each, the needs beside needs that are worked out from nothing. After many
//! so is all that the archive shows: subjects, groups, objects, handles, the freeze and the kept needs. The calls come from
//! generated journals, which start with empty tables, and are drawn for states that no calls made. The same comparison
//! has to tell every wrong variant of the independent program apart.

use std::cell::Cell;
use std::fmt;

use gatekeeper::{Answer, Monitor, Refusal, Way, ALL_SHOPS, STATE_BYTES};
use gatekeeper_independent::bite;
use gatekeeper_independent::calls::{filled, shape_of_code, Numbers, SHAPES};
use gatekeeper_independent::generate::{self, Wish};
use gatekeeper_independent::labels::Label;
use gatekeeper_independent::monitor::{Answer as PlainAnswer, Monitor as PlainMonitor};
use gatekeeper_independent::needs::{self, Needs, Thing};
use gatekeeper_independent::random::Random;
use gatekeeper_independent::records::{self, Body, Reader};
use gatekeeper_independent::replies::{replies, replies_by};
use gatekeeper_independent::tables::{
    Direction, Handle, Kind, Object, StoredTables, Subject, Tables, LIMITS,
};
use gatekeeper_independent::variants::{self, Rules};
use gatekeeper_independent::{numbers, refusals};

const SEED: u64 = 1;

/// Where the slots, the handles, the tally, the freeze, the kept needs, the numbers and the groups stand in a monitor's
/// bytes.
const OBJECTS_AT: usize = 96;
const HANDLES_AT: usize = 288;
const MADE_AT: usize = 1824;
const FREEZE_AT: usize = 1840;
const NEEDS_AT: usize = 1841;
const NUMBERS_AT: usize = 2033;
const GROUPS_AT: usize = 2545;

const REGISTER: u64 = 2;
const OPEN_READ: u64 = 5;
const OPEN_WRITE: u64 = 6;
const READ: u64 = 7;
const WRITE: u64 = 8;
const EXEC: u64 = 10;
const CLOSE: u64 = 11;
const EXIT: u64 = 12;
const MAP: u64 = 14;
const CONNECT: u64 = 17;
const THREAD: u64 = 18;

/// The refusals that answer a connect, in the order in which they are tested: RULES R105, R120.
const REFUSING_CONNECTS: [usize; 6] = [2, 16, 3, 17, 7, 9];

/// How many calls each of the two large comparisons makes.
const CALLS_OF_JOURNALS: usize = 300_000;
const CALLS_ON_ANY_STATE: usize = 100_000;
const CALLS_ON_EACH_STATE: usize = 20;

/// After how many calls, and of how many states, all that is shown is compared: it takes the archive longer than a call.
const CALLS_TO_A_LOOK: usize = 400;

thread_local! {
    /// How often a test came to where it may look.
    static TURNS: Cell<usize> = const { Cell::new(0) };
}

/// A monitor of the archive and one of the independent program, in the same state.
struct Pair {
    proved: Monitor,
    plain: PlainMonitor,
    rules: Rules,
    /// The proved monitor's counts where the plain one's are 0.
    made: u64,
    gone: u64,
    /// The needs as the independent program works them out, where the proved monitor is right: then it keeps the same.
    needs: Option<Needs>,
}

impl Pair {
    fn empty(rules: Rules) -> Pair {
        let plain = PlainMonitor::by(rules);
        let needs = Some(Needs::of_tables(plain.tables()));
        Pair { proved: Monitor::new(), plain, rules, made: 0, gone: 0, needs }
    }

    /// Whatever the kept needs are, the monitor does not count as right.
    fn of_bytes(state: [u8; STATE_BYTES]) -> Pair {
        Pair::of_bytes_by(state, Rules::default())
    }

    fn of_bytes_by(state: [u8; STATE_BYTES], rules: Rules) -> Pair {
        let proved = Monitor::from_bytes(state);
        let (made, gone) = (proved.made(), proved.gone());
        let plain = PlainMonitor::of_tables(tables_of(&state), rules);
        let mut pair = Pair { plain, proved, rules, made, gone, needs: None };
        pair.look().unwrap_or_else(|difference| panic!("before any call: {difference}"));
        pair
    }

    /// Makes a call in both; the error says how answer or tally differ. Tables are compared too, but for a variant,
    /// which must be found by its answers.
    fn call(&mut self, code: u64, numbers: Numbers) -> Result<Answer, String> {
        let before = self.proved.clone();
        let answer = self.proved.direct(code, numbers);
        let made = self.proved.made().wrapping_sub(self.made);
        let gone = self.proved.gone().wrapping_sub(self.gone);
        let proved = (answer, made, gone);

        let answer_beside = wrapped(self.plain.call(code, numbers));
        let tally = self.plain.tally();
        let plain = (answer_beside, tally.made, tally.gone);
        if proved != plain {
            return Err(format!(
                "code {code}, numbers {numbers:?}: the archive {proved:?}, the independent program {plain:?} \
                 (answer, handles made, handles gone)"
            ));
        }

        if answer.granted().is_err() {
            assert_eq!(self.proved, before, "a refused call changed a byte: {code} {numbers:?}");
        }
        if self.rules.are_right() {
            let tables = tables_of(self.proved.as_bytes());
            assert_eq!(&tables, self.plain.tables(), "other tables after {code} {numbers:?}");
        }
        Ok(answer)
    }

    /// Compares the kept needs, where the monitor is right; and, where it is the turn, what the archive shows. The error
    /// says how it differs.
    fn look(&mut self) -> Result<(), String> {
        if self.needs.is_some() {
            let tables = self.plain.tables();
            let needs = Needs::of_tables(tables);
            for thing in needs::live_things(tables) {
                let kept = need_in(self.proved.as_bytes(), thing);
                alike(("the need of", thing), kept, Some(needs.of(thing)))?;
            }
            self.needs = Some(needs);
        }
        let turn = TURNS.get();
        TURNS.set(turn + 1);
        if turn % CALLS_TO_A_LOOK == 0 {
            self.look_at_all()?;
        }
        Ok(())
    }

    /// Compares what the archive shows of the tables, and of the needs where the monitor is right. Numbers of each that
    /// are out of range, or of no object, are asked for, too.
    fn look_at_all(&self) -> Result<(), String> {
        let (proved, tables) = (&self.proved, self.plain.tables());
        let far = [64, 1 << 32, u64::MAX];
        alike("the freeze", proved.frozen_from().map(u64::from), tables.frozen_from())?;
        for s in (0..=LIMITS.subjects).chain(far) {
            alike(("subject", s), proved.subject(s).map(label_of).map(Subject::new), tables.subject(s))?;
            let group = tables.subject(s).and_then(|_| tables.members(s).next());
            alike(("the group of", s), proved.group(s), group)?;
            if tables.subject(s).is_some() || s % 8 == 0 {
                for p in (0..=LIMITS.places).chain(far) {
                    alike(("the handle", s, p), proved.handle(s, p).map(handle_of), tables.handle(s, p))?;
                }
            }
        }
        let live: Vec<u64> = tables.live_objects().collect();
        alike("the objects", proved.objects().map(|(o, _)| o).collect(), live.clone())?;
        let objects = || live.iter().copied().chain(0..=LIMITS.objects).chain(far);
        for o in objects() {
            alike(("object", o), proved.object(o).map(object_of), tables.object(o))?;
        }

        let Some(needs) = &self.needs else {
            return Ok(());
        };
        for s in (0..=LIMITS.subjects).chain(far) {
            let need = tables.subject(s).map(|_| needs.of(Thing::Subject(s)));
            alike(("the need of subject", s), proved.need_of_subject(s).map(label_of), need)?;
        }
        for o in objects() {
            let need = tables.object(o).map(|_| needs.of(Thing::Object(o)));
            alike(("the need of object", o), proved.need_of_object(o).map(label_of), need)?;
        }
        Ok(())
    }

    /// Puts the proved monitor right, and compares all that it shows. Says whether some kept need was wrong before.
    fn put_right(&mut self) -> Result<bool, String> {
        let before = self.proved.clone();
        self.proved.put_right();
        let all_but_needs = |monitor: &Monitor| {
            let state = monitor.as_bytes();
            [&state[..NEEDS_AT], &state[NUMBERS_AT..]].concat()
        };
        alike("what is not a need", all_but_needs(&self.proved), all_but_needs(&before))?;

        self.needs = Some(Needs::of_tables(self.plain.tables()));
        self.look()?;
        let moved = |thing| need_in(before.as_bytes(), thing) != need_in(self.proved.as_bytes(), thing);
        Ok(needs::live_things(self.plain.tables()).any(moved))
    }
}

/// The error says what differs.
fn alike<T: fmt::Debug + PartialEq>(what: impl fmt::Debug, proved: T, plain: T) -> Result<(), String> {
    if proved == plain {
        return Ok(());
    }
    Err(format!("{what:?}: the archive shows {proved:?}, the independent program has {plain:?}"))
}

/// The kept need of a live thing, by the layout in `host/gatekeeper.h`: that of an object is at the first slot in use
/// that has its number.
fn need_in(state: &[u8; STATE_BYTES], thing: Thing) -> Option<Label> {
    let at = match thing {
        Thing::Subject(s) => usize::try_from(s).ok()?,
        Thing::Object(o) => {
            32 + (0..64).find(|&slot| is_used(state, slot) && number_at(state, slot) == o)?
        }
    };
    let [shops, level] = [0, 1].map(|byte| state[NEEDS_AT + 2 * at + byte].into());
    Some(Label { level, shops })
}

fn is_used(state: &[u8; STATE_BYTES], slot: usize) -> bool {
    matches!(state[OBJECTS_AT + 3 * slot], 1 | 2)
}

fn number_at(state: &[u8; STATE_BYTES], slot: usize) -> u64 {
    u64::from_le_bytes(std::array::from_fn(|byte| state[NUMBERS_AT + 8 * slot + byte]))
}

/// These bytes with the number i at slot i, as objects of low numbers have them, and each subject in a group by itself.
fn numbered(mut state: [u8; STATE_BYTES]) -> [u8; STATE_BYTES] {
    for (bytes, number) in state[NUMBERS_AT..GROUPS_AT].chunks_exact_mut(8).zip(0u64..) {
        bytes.copy_from_slice(&number.to_le_bytes());
    }
    for (byte, group) in state[GROUPS_AT..].iter_mut().zip(0..) {
        *byte = group;
    }
    state
}

fn label_of(label: gatekeeper::Label) -> Label {
    Label { level: label.level.into(), shops: label.shops.into() }
}

fn object_of(object: gatekeeper::Object) -> Object {
    let kind = match object.kind {
        gatekeeper::Kind::File => Kind::File,
        gatekeeper::Kind::Pipe => Kind::Pipe,
    };
    Object::new(kind, label_of(object.label))
}

fn handle_of(handle: gatekeeper::Handle) -> Handle {
    let object = handle.object;
    let unmarked = match handle.way {
        Way::Reads => Handle::new(object, Direction::Reading),
        Way::Writes => Handle::new(object, Direction::Writing),
        Way::Maps => Handle::mapping(object),
    };
    Handle { marked: handle.marked, ..unmarked }
}

fn wrapped(answer: PlainAnswer) -> Answer {
    let refusal = |number| Refusal::from_number(number).expect("a refusal of the rules");
    match answer {
        PlainAnswer::Allowed(level) => Answer::Allowed(level as u8),
        PlainAnswer::Lowered(level, lost) => Answer::Lowered { level: level as u8, lost: lost as u8 },
        PlainAnswer::Refused(number) => Answer::Refused(refusal(number)),
    }
}

/// The tables that a monitor's bytes are, by the layout in `host/gatekeeper.h`.
fn tables_of(state: &[u8; STATE_BYTES]) -> Tables {
    let records = |from: usize, to: usize, bytes: usize| (0u64..).zip(state[from..to].chunks_exact(bytes));
    let mut tables = StoredTables::new();
    let label = |record: &[u8]| Label { level: record[1].into(), shops: record[2].into() };
    for (s, record) in records(0, OBJECTS_AT, 3) {
        let subject = Subject::new(label(record));
        tables.set_subject(s, (record[0] == 1).then_some(subject));
        tables.set_group(s, state[GROUPS_AT + s as usize]);
    }
    for (slot, record) in records(OBJECTS_AT, HANDLES_AT, 3) {
        let (number, label) = (number_at(state, slot as usize), label(record));
        tables.set_slot(
            slot,
            match record[0] {
                1 => Some((number, Object::new(Kind::File, label))),
                2 => Some((number, Object::new(Kind::Pipe, label))),
                _ => None,
            },
        );
    }
    for (at, record) in records(HANDLES_AT, MADE_AT, 3) {
        let (slot, marked) = (record[1].into(), record[2] == 1);
        tables.set_handle(
            at / 16,
            at % 16,
            match record[0] {
                1 => Some(Handle { marked, ..Handle::new(slot, Direction::Reading) }),
                2 => Some(Handle { marked, ..Handle::new(slot, Direction::Writing) }),
                3 => Some(Handle { marked, ..Handle::mapping(slot) }),
                _ => None,
            },
        );
    }
    tables.set_freeze(state[FREEZE_AT].into());
    tables.tables()
}

/// The calls of a journal's records, those with an unknown code among them.
fn calls_of(journal: &[u8]) -> Vec<(u64, Numbers)> {
    let mut calls = Vec::new();
    let mut reader = Reader::new(journal, Rules::default());
    while let Some(Ok(span)) = reader.next_record() {
        match records::read_body(journal, span, Rules::default()) {
            Body::Call { code, numbers } => calls.push((code, numbers)),
            Body::UnknownCode { code } => calls.push((code, filled(&[]))),
            Body::Bad { .. } => {}
        }
    }
    calls
}

/// A state of any bytes. In most of them many records mean something: how many handles, how many of these are
/// marked, and how far levels lie apart, differs from state to state. As many handles are mappings as read and as
/// write. The freeze is any byte, and often one of the levels; so is the third byte of a handle, and often a mark or
/// none. In some states all sets have all shop marks, in some they differ in one group or two, in some they are any. The
/// kept needs are any labels. The numbers of the objects are small or far apart, in some states many slots have the same,
/// and in some nearly every slot is in use. In some there are few groups, in some nearly every subject is by itself; the
/// labels of a group's members differ.
fn drawn_state(random: &mut Random) -> [u8; STATE_BYTES] {
    let mut state = [0; STATE_BYTES];
    for byte in &mut state {
        *byte = random.below(256) as u8;
    }
    if random.once_in(8) {
        return state;
    }
    let levels = random.pick(&[1, 2, 4, 16, 256]).unwrap_or(16);
    let differing = random.pick(&[0, 1, 2, 8]).unwrap_or(0);
    let set = |random: &mut Random| (ALL_SHOPS ^ random.below(1 << differing)) as u8;
    let handles = random.pick(&[4, 8, 40, 200]).unwrap_or(4);
    let marks = random.pick(&[1, 2, 3, 256]).unwrap_or(2);
    let is_full = random.once_in(4);
    let (things, rest) = state.split_at_mut(HANDLES_AT);
    for (index, record) in things.chunks_exact_mut(3).enumerate() {
        let first = match index {
            0..32 => random.below(3),
            _ if is_full && !random.once_in(60) => 1 + random.below(2),
            _ => random.below(4),
        };
        record.copy_from_slice(&[first as u8, random.below(levels) as u8, set(random)]);
    }
    for record in rest[..MADE_AT - HANDLES_AT].chunks_exact_mut(3) {
        let bytes = [random.below(handles), random.below(68), random.below(marks)];
        record.copy_from_slice(&bytes.map(|byte| byte as u8));
    }
    for need in rest[NEEDS_AT - HANDLES_AT..NUMBERS_AT - HANDLES_AT].chunks_exact_mut(2) {
        need.copy_from_slice(&[set(random), random.below(levels) as u8]);
    }
    let repeats = !is_full && random.once_in(3);
    let numbers = &mut rest[NUMBERS_AT - HANDLES_AT..GROUPS_AT - HANDLES_AT];
    for (slot, bytes) in (0..).zip(numbers.chunks_exact_mut(8)) {
        let number = if repeats { random.below(40) } else { slot };
        bytes.copy_from_slice(&drawn_number(random, number).to_le_bytes());
    }
    let groups = random.pick(&[3, 12, 256]).unwrap_or(12);
    for byte in &mut state[GROUPS_AT..] {
        *byte = random.below(groups) as u8;
    }
    if random.once_in(2) {
        state[FREEZE_AT] = random.below(levels.min(16)) as u8;
    }
    state
}

/// A number of an object: mostly the one that goes with a small one, which for some is far away; seldom another.
fn drawn_number(random: &mut Random, small: u64) -> u64 {
    match random.below(50) {
        0 => small,
        1 => random.below(u64::MAX),
        _ => [0, 0, 64, 1 << 32, u64::MAX - 63][small as usize % 5] + small % 64,
    }
}

/// A call whose numbers are mostly in range, and often those of live things. Many are execs, maps, connects and threads:
/// few of those are allowed, and only these close handles, place mappings, make channels and join groups. Many are writes
/// to what is mapped, where something is.
fn drawn_call(random: &mut Random, tables: &Tables) -> (u64, Numbers) {
    // Numbers that the code does not use are ignored, whatever they are.
    let mut numbers = filled(&[]).map(|_| random.below(u64::MAX));
    let code = random.pick(&[EXEC, EXEC, MAP, WRITE, CONNECT, THREAD, 0, 0, 0, 0]).unwrap_or(0);
    if code == WRITE {
        if let Some((s, p)) = random.pick(&writers_of_mapped(tables)) {
            numbers[..2].copy_from_slice(&[s, p]);
            return (WRITE, numbers);
        }
    }
    if code == CONNECT {
        return (CONNECT, drawn_connect(random, tables));
    }
    if code == THREAD {
        let live: Vec<u64> = tables.live_subjects().collect();
        let free: Vec<u64> = (0..33).filter(|s| !live.contains(s)).collect();
        let [s, c] = [live, free].map(|fitting| drawn_pair(random, fitting, 33)[0]);
        numbers[..2].copy_from_slice(&[s, c]);
        return (THREAD, numbers);
    }
    let any = SHAPES.get(random.below(SHAPES.len() as u64 + 1) as usize);
    let Some(shape) = shape_of_code(code).or(any) else {
        // Any code, or one near those that calls have.
        let most = random.pick(&[20, u64::MAX]).unwrap_or(20);
        return (random.below(most), filled(&[]));
    };
    let mut subjects: Vec<u64> = (0..33).collect();
    let mut objects: Vec<u64> = tables.live_objects().collect();
    if random.once_in(2) {
        subjects.retain(|&s| tables.subject(s).is_some());
    } else {
        objects.extend((0..65).map(|o| drawn_number(random, o)));
    }
    for (number, name) in numbers.iter_mut().zip(shape.numbers) {
        if !random.once_in(60) {
            *number = match *name {
                "s" | "c" | "t" => random.pick(&subjects).unwrap_or(0),
                "o" | "a" | "b" => random.pick(&objects).unwrap_or(0),
                "set" => random.below(ALL_SHOPS + 3),
                _ => random.below(18),
            };
        }
    }
    (shape.code, numbers)
}

/// The numbers of a connect: mostly two live subjects, two numbers that no object has, and two places that are empty
/// at both.
fn drawn_connect(random: &mut Random, tables: &Tables) -> Numbers {
    let [s, t] = drawn_pair(random, tables.live_subjects().collect(), 33);
    let mut unused: Vec<u64> = (0..64).map(|o| drawn_number(random, o)).collect();
    unused.retain(|&o| tables.object(o).is_none());
    let [a, b] = drawn_pair(random, unused, 65);
    let empty = (0..16).filter(|&p| [s, t].iter().all(|&holder| tables.handle(holder, p).is_none()));
    let [p, q] = drawn_pair(random, empty.collect(), 18);
    [s, t, a, b, p, q]
}

/// Two of the numbers that fit, or any below `all` where these are too few; now and then one of them is any, or both
/// are the same.
fn drawn_pair(random: &mut Random, mut fitting: Vec<u64>, all: u64) -> [u64; 2] {
    random.shuffle(&mut fitting);
    let [one, other] = [0, 1].map(|at| fitting.get(at).copied().unwrap_or_else(|| random.below(all)));
    match random.below(20) {
        0 => [one, one],
        1 => [random.below(all), other],
        2 => [one, random.below(all)],
        _ => [one, other],
    }
}

/// The places that have an object open for writing which some subject, the same one or another, has mapped.
fn writers_of_mapped(tables: &Tables) -> Vec<(u64, u64)> {
    let writing = tables.handles().filter(|(_, _, handle)| handle.direction == Direction::Writing);
    let mapped = writing.filter(|(_, _, handle)| tables.mappers(handle.object).next().is_some());
    mapped.map(|(s, p, _)| (s, p)).collect()
}

fn is_mapped_file(o: u64, tables: &Tables) -> bool {
    let is_file = tables.object(o).is_some_and(|object| object.kind == Kind::File);
    is_file && tables.mappers(o).next().is_some()
}

/// Which outcomes and refusals were seen, of all calls, of maps, of writes to files that are mapped, of connects and of
/// threads, how many handles execs closed and how many subjects they ended, how often several subjects fell at once, how
/// often shop marks were lost, and how often needs moved; a comparison that saw few says little.
#[derive(Default)]
struct Seen {
    all: Outcomes,
    maps: Outcomes,
    mapped_writes: Outcomes,
    connects: Outcomes,
    threads: Outcomes,
    /// Subjects that the exec of a mate ended.
    mates_at_exec: usize,
    /// Calls at which more than one subject fell.
    falls_together: usize,
    /// Calls at which the thing whose level is given lost shop marks, and calls at which something did and no level fell.
    marks_lost: usize,
    marks_alone: usize,
    ended_at_exec: u64,
    /// How many of these were mappings.
    unmapped_at_exec: u64,
    /// The calls at which the need of something rose that was live before and after it, and those at which one sank.
    rising: Moves,
    sinking: Moves,
    /// The monitors that no calls made, when they were put right, and those of which some kept need was wrong then.
    put_right: usize,
    wrong_before: usize,
}

/// How many calls of each code moved a need.
#[derive(Default)]
struct Moves([usize; 19]);

impl Moves {
    /// Whether there are calls of each of these codes, `least` or more, and none of any other code.
    fn are_at(&self, codes: &[u64], least: usize) -> bool {
        (0..)
            .zip(self.0)
            .all(|(code, calls)| if codes.contains(&code) { calls >= least } else { calls == 0 })
    }
}

impl fmt::Display for Moves {
    fn fmt(&self, f: &mut fmt::Formatter<'_>) -> fmt::Result {
        let moving = SHAPES.iter().map(|shape| (self.0[shape.code as usize], shape.word));
        let words: Vec<String> =
            moving.filter(|&(calls, _)| calls > 0).map(|(n, word)| format!("{n} {word}")).collect();
        write!(f, "{}", words.join(", "))
    }
}

#[derive(Default)]
struct Outcomes {
    allowed: usize,
    lowered: usize,
    refused: [usize; 18],
}

impl Outcomes {
    fn count(&mut self, answer: Answer) {
        match answer {
            Answer::Allowed(_) => self.allowed += 1,
            Answer::Lowered { .. } => self.lowered += 1,
            Answer::Refused(refusal) => self.refused[refusal.number() as usize] += 1,
        }
    }

    fn refused(&self) -> usize {
        self.refused.iter().sum()
    }

    /// How often each of these refusals was seen.
    fn by_number(&self, numbers: &[usize]) -> String {
        let counts: Vec<String> =
            numbers.iter().map(|&number| format!("{} with {number}", self.refused[number])).collect();
        counts.join(", ")
    }
}

impl fmt::Display for Outcomes {
    fn fmt(&self, f: &mut fmt::Formatter<'_>) -> fmt::Result {
        write!(f, "{} allowed, {} lowered, {} refused", self.allowed, self.lowered, self.refused())
    }
}

impl Seen {
    /// Makes a call and counts what came of it.
    fn call(&mut self, pair: &mut Pair, code: u64, numbers: Numbers) -> Result<(), String> {
        let [s, p, ..] = numbers;
        let before = pair.plain.tables();
        let mappings = before.handles_of(s).filter(|(_, handle)| handle.mapped).count() as u64;
        let written = before.handle(s, p).filter(|handle| handle.direction == Direction::Writing);
        let to_mapped_file = written.is_some_and(|handle| is_mapped_file(handle.object, before));
        let gone = pair.proved.gone();
        let mates = before.mates(s).count();
        let mut things: Vec<Thing> = needs::live_things(before).collect();
        let labels: Vec<(Thing, Label)> =
            things.iter().filter_map(|&thing| Some((thing, needs::label(before, thing)?))).collect();
        let needs_before = pair.needs.clone();

        let answer = pair.call(code, numbers)?;
        pair.look()
            .map_err(|difference| format!("after code {code}, numbers {numbers:?}: {difference}"))?;
        self.all.count(answer);
        if let (Some(before), Some(after), Ok(_)) = (needs_before, &pair.needs, answer.granted()) {
            things.retain(|&thing| needs::label(pair.plain.tables(), thing).is_some());
            let some_rose = |from: &Needs, to: &Needs| {
                things.iter().any(|&thing| !from.of(thing).is_at_least(to.of(thing)))
            };
            self.rising.0[code as usize] += usize::from(some_rose(&before, after));
            self.sinking.0[code as usize] += usize::from(some_rose(after, &before));
        }
        if code == MAP {
            self.maps.count(answer);
        }
        if code == WRITE && to_mapped_file {
            self.mapped_writes.count(answer);
        }
        if code == CONNECT {
            self.connects.count(answer);
        }
        if code == THREAD {
            self.threads.count(answer);
        }
        let tables = pair.plain.tables();
        let now = |&(thing, label): &(Thing, Label)| Some((thing, label, needs::label(tables, thing)?));
        let fell: Vec<(Thing, Label, Label)> =
            labels.iter().filter_map(now).filter(|(_, label, now)| !now.is_at_least(*label)).collect();
        let subjects = fell.iter().filter(|(thing, ..)| matches!(thing, Thing::Subject(_)));
        self.falls_together += usize::from(subjects.count() > 1);
        self.marks_lost += usize::from(matches!(answer, Answer::Lowered { lost: 1.., .. }));
        let by_marks = |(_, label, now): &(Thing, Label, Label)| now.level == label.level;
        let is_by_marks = !fell.is_empty() && fell.iter().all(by_marks);
        self.marks_alone += usize::from(matches!(answer, Answer::Lowered { .. }) && is_by_marks);
        if code == EXEC && answer.granted().is_ok() {
            self.mates_at_exec += mates;
            self.ended_at_exec += pair.proved.gone().wrapping_sub(gone);
            self.unmapped_at_exec += mappings;
        }
        Ok(())
    }

    /// Puts a monitor right that no calls made.
    fn put_right(&mut self, pair: &mut Pair) -> Result<(), String> {
        self.put_right += 1;
        self.wrong_before += usize::from(pair.put_right()?);
        Ok(())
    }

    /// Needs moved at calls that make or remove flows, at `least` of each code, and at no others.
    fn moved_needs(&self, least: usize) {
        let Seen { rising, sinking, .. } = self;
        assert!(rising.are_at(&[OPEN_READ, OPEN_WRITE, CONNECT], least), "needs rose at calls to {rising}");
        assert!(sinking.are_at(&[EXEC, CLOSE, EXIT], least), "needs sank at calls to {sinking}");
    }

    fn report(&self, what: &str) {
        let Seen {
            all,
            maps,
            mapped_writes,
            connects,
            threads,
            mates_at_exec,
            falls_together,
            marks_lost,
            marks_alone,
            ended_at_exec,
            unmapped_at_exec,
            rising,
            sinking,
            ..
        } = self;
        let calls = all.allowed + all.lowered + all.refused();
        println!("beside: {what}: {calls} calls, {all}");
        println!("beside: {what}: maps: {maps}; writes to mapped files: {mapped_writes}");
        let by_number = connects.by_number(&REFUSING_CONNECTS);
        println!("beside: {what}: connects: {connects}: {by_number}");
        println!("beside: {what}: threads: {threads}: {}", threads.by_number(&[2, 3]));
        println!(
            "beside: {what}: {ended_at_exec} handles and {mates_at_exec} mates ended at exec, {unmapped_at_exec} of the \
             handles mappings; at {falls_together} calls several subjects fell"
        );
        println!(
            "beside: {what}: at {marks_lost} calls the thing whose level is given lost shop marks, at {marks_alone} marks \
             were lost and no level fell"
        );
        println!("beside: {what}: needs rose at calls to {rising}, and sank at calls to {sinking}");
        assert!(all.allowed > calls / 10 && all.lowered > 100, "few calls were not refused");
        assert!(maps.allowed > 100 && maps.lowered > 100, "few maps were not refused");
        assert!(mapped_writes.allowed > 100, "few writes were to mapped files");
        assert_eq!(mapped_writes.refused(), 0, "a write with a handle that is held was refused");
        assert!(
            connects.allowed > 100 && connects.lowered == 0,
            "few connects were allowed, or one lowered"
        );
        assert!(*unmapped_at_exec > 100, "few mappings ended at exec");
        assert!(ended_at_exec - unmapped_at_exec > 100, "few handles ended at exec for their mark");
        assert!(threads.allowed > 100 && threads.lowered == 0, "few threads were made, or one lowered");
        assert!(threads.refused[2] > 20 && threads.refused[3] > 20, "few threads were refused");
        assert_eq!(
            threads.refused(),
            threads.refused[2] + threads.refused[3],
            "a thread was refused otherwise"
        );
        assert!(*mates_at_exec > 50, "few mates ended at exec");
        assert!(*falls_together > 50, "few calls lowered several subjects");
        assert!(*marks_lost > 100 && *marks_alone > 50, "few calls took shop marks");
        // Those that answer a direct call.
        for number in (1..=10).chain([15, 16, 17]) {
            let words = refusals::meaning(number as u32);
            assert!(all.refused[number] > 0, "no call was refused with {number}: {words}");
        }
        for number in [2, 4, 5, 7, 9] {
            let words = refusals::meaning(number as u32);
            assert!(maps.refused[number] > 0, "no map was refused with {number}: {words}");
        }
        for number in REFUSING_CONNECTS {
            let words = refusals::meaning(number as u32);
            assert!(connects.refused[number] > 20, "few connects were refused with {number}: {words}");
        }
    }
}

#[test]
fn the_calls_of_generated_journals_are_answered_alike() {
    let mut seen = Seen::default();
    let mut calls = 0;
    for index in 0.. {
        let mut pair = Pair::empty(Rules::default());
        for (code, numbers) in calls_of(&generate::journal(SEED, index, Wish::default())) {
            seen.call(&mut pair, code, numbers).unwrap_or_else(|difference| {
                panic!("journal {index} of seed {SEED} (tools/second generate), call {calls}: {difference}")
            });
            calls += 1;
        }
        if calls >= CALLS_OF_JOURNALS {
            break;
        }
    }
    seen.report("calls of generated journals");
    // From empty tables a subject has fallen when it mapped the file: RULES T38.
    assert_eq!(seen.mapped_writes.lowered, 0, "a write to a mapped file lowered a subject");
    seen.moved_needs(100);
}

#[test]
fn calls_on_any_state_are_answered_alike() {
    let mut random = Random::new(SEED, 0);
    let mut seen = Seen::default();
    for state in 0..CALLS_ON_ANY_STATE / CALLS_ON_EACH_STATE {
        let differs = |difference| panic!("state {state}: {difference}");
        let mut pair = Pair::of_bytes(drawn_state(&mut random));
        // Half of them are put right before the calls, the others only after them: either way the rules answer.
        let first = state % 2 == 0;
        if first {
            seen.put_right(&mut pair).unwrap_or_else(differs);
        }
        for _ in 0..CALLS_ON_EACH_STATE {
            let (code, numbers) = drawn_call(&mut random, pair.plain.tables());
            seen.call(&mut pair, code, numbers).unwrap_or_else(differs);
        }
        if !first {
            seen.put_right(&mut pair).unwrap_or_else(differs);
        }
    }
    seen.report("calls on drawn states");
    assert!(seen.mapped_writes.lowered > 100, "few writes to mapped files lowered a subject");
    seen.moved_needs(1);
    let Seen { put_right, wrong_before, .. } = seen;
    println!("beside: {put_right} drawn states were put right, {wrong_before} of which kept a wrong need");
    assert!(wrong_before > put_right / 4, "few of the drawn states kept a wrong need");
}

#[test]
fn opens_at_any_level_with_any_freeze_are_answered_alike() {
    let mut frozen = 0;
    for (freeze, level) in (0..=255).flat_map(|freeze| (0..=255u8).map(move |level| (freeze, level))) {
        let mut state = numbered([0; STATE_BYTES]);
        let set = level ^ freeze; // of all things: a freeze does not ask for it
                                  // Subjects 0, and 1 below the file; file 0 and pipe 1.
        state[..6].copy_from_slice(&[1, 255, set, 1, level.saturating_sub(1), set]);
        state[OBJECTS_AT..][..6].copy_from_slice(&[1, level, set, 2, level, set]);
        state[FREEZE_AT] = freeze;
        let mut pair = Pair::of_bytes(state);
        let mut open = |subject, object, place| {
            let answer = pair.call(OPEN_WRITE, filled(&[subject, object, place]));
            answer.unwrap_or_else(|difference| panic!("freeze {freeze}, level {level}: {difference}"))
        };
        assert_eq!(open(0, 1, 0), Answer::Allowed(level), "a pipe, with the freeze {freeze}");
        let is_frozen = open(0, 0, 1) == Answer::Refused(Refusal::Frozen);
        frozen += usize::from(is_frozen);
        // The flow is said where the file is not frozen.
        if level > 0 {
            let said = if is_frozen { Refusal::Frozen } else { Refusal::Flow };
            assert_eq!(open(1, 0, 0), Answer::Refused(said), "freeze {freeze}, level {level}");
        }
    }
    // By a freeze of 0 all 256 levels, by one of 1 all but one, and so on up to a freeze of 15.
    assert_eq!(frozen, (0..16).map(|freeze| 256 - freeze).sum());
}

#[test]
fn execs_with_any_mark_are_answered_alike() {
    let mut closed = 0;
    for (mark, level) in (0..=255).flat_map(|mark| (0..16).map(move |level| (mark, level))) {
        let mut state = numbered([0; STATE_BYTES]);
        state[..3].copy_from_slice(&[1, 12, 7]); // subject 0
        state[OBJECTS_AT..][..3].copy_from_slice(&[1, 9, 3]); // file 0
        state[OBJECTS_AT + 3..][..3].copy_from_slice(&[1, level, 7]); // file 1, the program
        state[OBJECTS_AT + 6..][..3].copy_from_slice(&[2, 12, 7]); // pipe 2
        state[HANDLES_AT..][..6].copy_from_slice(&[2, 0, mark, 1, 2, 1]); // it writes file 0, and reads the pipe
        state[FREEZE_AT] = 16;
        let mut pair = Pair::of_bytes(state);
        let mut call = |code, numbers: &[u64]| {
            let answer = pair.call(code, filled(numbers));
            answer.unwrap_or_else(|difference| panic!("mark {mark}, level {level}: {difference}"))
        };
        let done = call(EXEC, &[0, 1]).granted().is_ok();
        assert_eq!(done, mark == 1 || level >= 9, "mark {mark}, level {level}");
        // The pipe has ended with its last handle, which is marked.
        assert_eq!(call(OPEN_READ, &[0, 2, 2]) == Answer::Refused(Refusal::NoObject), done);
        closed += usize::from(call(WRITE, &[0, 0]) == Answer::Refused(Refusal::PlaceUnfit));
    }
    // The handle on file 0, by a mark of 1 alone and whatever the program's level.
    assert_eq!(closed, 16);
}

#[test]
fn handles_with_any_first_byte_are_answered_alike() {
    for (byte, level) in (0..=255).flat_map(|byte| (0..16).map(move |level| (byte, level))) {
        for kind in [Kind::File, Kind::Pipe] {
            let first = if kind == Kind::File { 1 } else { 2 };
            let mut state = numbered([0; STATE_BYTES]);
            state[..6].copy_from_slice(&[1, 9, 7, 1, level, 7]); // subjects 0 and 1
                                                                 // Object 0, a file or a pipe; file 1, a program.
            state[OBJECTS_AT..][..6].copy_from_slice(&[first, 9, 7, 1, 15, 7]);
            state[HANDLES_AT..][..3].copy_from_slice(&[2, 0, 0]); // subject 0 writes object 0
            state[HANDLES_AT + 3 * 16..][..6].copy_from_slice(&[byte, 0, 0, byte, 0, 0]); // subject 1 has it twice
            state[FREEZE_AT] = 16;
            let mut pair = Pair::of_bytes(state);
            let mut call = |code, numbers: &[u64]| {
                let answer = pair.call(code, filled(numbers));
                answer.unwrap_or_else(|difference| panic!("byte {byte}, level {level}: {difference}"))
            };
            // The write to a file lowers who has it mapped; one to a pipe is followed by nothing.
            let falls = byte == 3 && level > 9 && kind == Kind::File;
            let answer = if falls { Answer::Lowered { level: 9, lost: 0 } } else { Answer::Allowed(9) };
            assert_eq!(call(WRITE, &[0, 0]), answer, "byte {byte}, level {level}, {kind:?}");
            // An exec closes both mappings, a pipe's too, and no other handle.
            let reads = call(READ, &[1, 0]).granted().is_ok();
            assert!(call(EXEC, &[1, 1]).granted().is_ok());
            let still_reads = call(READ, &[1, 1]).granted().is_ok();
            assert_eq!((reads, still_reads), (matches!(byte, 1 | 3), byte == 1), "byte {byte}, {kind:?}");
        }
    }
}

#[test]
fn maps_are_tested_as_opens_for_reading() {
    let mut random = Random::new(SEED, 3);
    let mut maps = Outcomes::default();
    for draw in 0..20_000 {
        let state = drawn_state(&mut random);
        let slot = random.below(64);
        let object = if random.once_in(4) { random.below(65) } else { number_at(&state, slot as usize) };
        let numbers = filled(&[random.below(33), object, random.below(18)]);
        let answer = |code| {
            let answer = Pair::of_bytes(state).call(code, numbers);
            answer.unwrap_or_else(|difference| panic!("draw {draw}: {difference}"))
        };
        let (open, map) = (answer(OPEN_READ), answer(MAP));
        maps.count(map);
        match (open.granted(), map.granted()) {
            (Ok(_), Ok(_)) => {}
            (Err(refusal), Err(same)) if refusal == same => {}
            // For a pipe the map is refused where the open is not, or only for its place or for the flow.
            (Ok(_) | Err(Refusal::PlaceUnfit | Refusal::Flow), Err(Refusal::IsPipe)) => {}
            _ => panic!("draw {draw}: {open:?} for the open, {map:?} for the map"),
        }
    }
    println!("beside: maps on drawn states, beside opens for reading: {maps}");
    assert!(maps.allowed > 100 && maps.lowered > 100, "few maps were not refused");
    assert!([2, 4, 5, 7, 9].into_iter().all(|number| maps.refused[number] > 100), "few maps were refused");
}

#[test]
fn connects_at_any_levels_are_answered_alike() {
    let four =
        |case: usize| [case % 16, case / 16 % 16, case / 256 % 16, case / 4096].map(|level| level as u8);
    for [one, other, book, list] in (0..16_usize.pow(4)).map(four) {
        let mut state = numbered([0; STATE_BYTES]);
        state[..6].copy_from_slice(&[1, one, 255, 1, other, 255]); // subjects 0 and 1
        state[OBJECTS_AT..][..6].copy_from_slice(&[1, book, 255, 1, list, 255]); // files 0 and 1
        state[HANDLES_AT..][..3].copy_from_slice(&[2, 0, 0]); // subject 0 writes file 0 at its place 0
        state[HANDLES_AT + 3 * 16..][..3].copy_from_slice(&[2, 1, 0]); // subject 1 writes file 1, likewise
        state[FREEZE_AT] = 16;
        let mut pair = Pair::of_bytes(state);
        let mut call = |code, numbers: &[u64]| {
            let answer = pair.call(code, filled(numbers));
            answer.unwrap_or_else(|difference| panic!("{one}, {other}, {book}, {list}: {difference}"))
        };
        let answer = call(CONNECT, &[0, 1, 2, 3, 1, 2]);
        // Both reach both files.
        if one.min(other) < book.max(list) {
            assert_eq!(answer, Answer::Refused(Refusal::Flow), "{one}, {other}, {book}, {list}");
            continue;
        }
        assert_eq!(answer, Answer::Allowed(one), "{one}, {other}, {book}, {list}");
        // Each pipe is at the level of the one that writes it, and brings the one that reads it down to that.
        let falls = |from, to| {
            if to < from {
                Answer::Lowered { level: to, lost: 0 }
            } else {
                Answer::Allowed(from)
            }
        };
        assert_eq!(call(WRITE, &[0, 2]), Answer::Allowed(one));
        assert_eq!(call(WRITE, &[1, 2]), Answer::Allowed(other));
        assert_eq!(call(READ, &[1, 1]), falls(other, one));
        assert_eq!(call(READ, &[0, 1]), falls(one, other));
    }
}

#[test]
fn calls_at_any_two_sets_are_answered_alike() {
    for (step, file) in (0..=255u8).flat_map(|step| (0..=255u8).map(move |file| (step, file))) {
        let mut state = numbered([0; STATE_BYTES]);
        state[..6].copy_from_slice(&[1, 9, step, 1, 9, step]); // subjects 0 and 1
        state[OBJECTS_AT..][..6].copy_from_slice(&[1, 9, file, 1, 12, file]); // files 0 and 1
        state[HANDLES_AT..][..3].copy_from_slice(&[1, 0, 0]); // subject 0 reads file 0
        state[FREEZE_AT] = 16;
        let mut pair = Pair::of_bytes(state);
        let mut call = |code, numbers: &[u64]| {
            let answer = pair.call(code, filled(numbers));
            answer.unwrap_or_else(|difference| panic!("sets {step:#b} and {file:#b}: {difference}"))
        };
        // A fall takes the marks that the file lacks, and no more.
        let lost = (step & !file).count_ones() as u8;
        let falls = if lost > 0 { Answer::Lowered { level: 9, lost } } else { Answer::Allowed(9) };
        assert_eq!(call(READ, &[0, 0]), falls, "sets {step:#b} and {file:#b}");
        assert_eq!(call(READ, &[0, 0]), Answer::Allowed(9));
        // The file is written by who has all of its marks; then a program with the same marks may be run.
        let is_vouched = step | file == step;
        let expected = if is_vouched { Answer::Allowed(9) } else { Answer::Refused(Refusal::Flow) };
        assert_eq!(call(OPEN_WRITE, &[1, 0, 0]), expected, "sets {step:#b} and {file:#b}");
        assert_eq!(call(EXEC, &[1, 1]), falls, "sets {step:#b} and {file:#b}");
    }
}

#[test]
fn connects_on_any_state_join_both_ways() {
    let mut random = Random::new(SEED, 4);
    let mut connects = Outcomes::default();
    for draw in 0..20_000 {
        let mut pair = Pair::of_bytes(drawn_state(&mut random));
        let numbers = drawn_connect(&mut random, pair.plain.tables());
        let made = pair.proved.made();
        let mut call = |code, numbers: &[u64]| {
            let answer = pair.call(code, filled(numbers));
            answer.unwrap_or_else(|difference| panic!("draw {draw}: {difference}"))
        };
        let answer = call(CONNECT, &numbers);
        connects.count(answer);
        if answer.granted().is_err() {
            continue;
        }
        // Whatever the levels are, no read at p and no write at q is refused while the handle is held.
        let [s, t, a, b, p, q] = numbers;
        for (writer, reader) in [(s, t), (t, s)] {
            assert!(call(WRITE, &[writer, q]).granted().is_ok(), "draw {draw}");
            assert!(call(READ, &[reader, p]).granted().is_ok(), "draw {draw}");
        }
        // Each pipe goes with its second handle, and with it its number is free.
        for (writer, reader, pipe) in [(s, t, a), (t, s, b)] {
            for (holder, place) in [(writer, q), (reader, p)] {
                assert_eq!(
                    call(REGISTER, &[pipe, 0]),
                    Answer::Refused(Refusal::NumberTaken),
                    "draw {draw}"
                );
                assert!(call(CLOSE, &[holder, place]).granted().is_ok(), "draw {draw}");
            }
            assert_eq!(call(REGISTER, &[pipe, 0]), Answer::Allowed(0), "draw {draw}");
        }
        assert_eq!(pair.proved.made().wrapping_sub(made), 4, "draw {draw}");
    }
    let by_number = connects.by_number(&REFUSING_CONNECTS);
    println!("beside: connects on drawn states, then both ways: {connects}: {by_number}");
    assert!(connects.allowed > 1000, "few connects were allowed");
    assert!(REFUSING_CONNECTS.into_iter().all(|number| connects.refused[number] > 100), "few were refused");
}

#[test]
fn journals_are_replied_to_alike() {
    for index in 0..400 {
        let journal = generate::journal(SEED, index, Wish::default());
        assert_eq!(gatekeeper::replay(&journal), replies(&journal), "journal {index} of seed {SEED}");
    }
}

#[test]
fn numbers_are_read_alike() {
    let mut random = Random::new(SEED, 1);
    for _ in 0..300_000 {
        let length = random.below(13) as usize;
        let bytes: Vec<u8> = (0..length)
            .map(|_| match random.below(6) {
                0 => 0,
                1 => 0x80,
                2 => random.below(0x80),
                _ => 0x80 + random.below(0x80),
            } as u8)
            .collect();
        let plain = numbers::read(&bytes, Rules::default()).ok();
        assert_eq!(gatekeeper::read_number(&bytes), plain, "{bytes:02x?}");
    }
}

#[test]
fn records_are_written_alike() {
    let mut random = Random::new(SEED, 2);
    for _ in 0..100_000 {
        let shape = &SHAPES[random.below(SHAPES.len() as u64) as usize];
        let numbers = filled(&[]).map(|_| random.below(u64::MAX) >> random.below(64));
        let mut plain = Vec::new();
        records::write(shape.code, &numbers[..shape.numbers.len()], &mut plain);
        let mut proved = [0; gatekeeper::RECORD_ROOM];
        let length = gatekeeper::write_record(&mut proved, shape.code, numbers)
            .expect("there is room for every record");
        assert_eq!(proved[..length], plain);
    }
}

/// Whether a variant answers a journal otherwise: its calls, or the reply to it.
fn told_apart_by_a_journal(rules: Rules) -> bool {
    (0..1000).any(|index| {
        let journal = generate::journal(SEED, index, Wish::default());
        let mut pair = Pair::empty(rules);
        let same_calls =
            calls_of(&journal).into_iter().all(|(code, numbers)| pair.call(code, numbers).is_ok());
        !same_calls || gatekeeper::replay(&journal) != replies_by(&journal, rules)
    })
}

/// Whether a variant answers a call otherwise, or leaves other tables, on a state that no calls made: in some, members of
/// a group have different levels, or a mapper is above the file.
fn told_apart_on_a_state(rules: Rules) -> bool {
    let mut random = Random::new(SEED, 3);
    (0..2000).any(|_| {
        let mut pair = Pair::of_bytes_by(drawn_state(&mut random), rules);
        (0..CALLS_ON_EACH_STATE).any(|_| {
            let (code, numbers) = drawn_call(&mut random, pair.plain.tables());
            pair.call(code, numbers).is_err() || &tables_of(pair.proved.as_bytes()) != pair.plain.tables()
        })
    })
}

#[test]
fn every_wrong_variant_is_told_apart() {
    for &(variant, name, what) in variants::ALL {
        let rules: Rules = variant.into();
        let is_told = if bite::tables::bite(rules).is_some() {
            told_apart_on_a_state(rules) || told_apart_by_a_journal(rules)
        } else {
            told_apart_by_a_journal(rules)
        };
        assert!(is_told, "{name} was not told apart: {what}");
    }
    println!("beside: {} wrong programs were told apart", variants::ALL.len());
}
