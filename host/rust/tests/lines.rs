//! Typed lines beside the independent program. Each of its trials is some calls, and then a line: they are made on a monitor
//! of bytes, on one that is a struct, and in the independent program. Refusal or counts, the tally, the tables and the kept
//! needs have to be the same, the needs beside needs that are worked out from nothing. And so they have to be where the
//! calls that the independent program has for the line are made through the archive one by one. The same comparison has to
//! tell every wrong way to run a line apart.

use std::fmt;

use gatekeeper::{Answer, Counts, Handle, Kind, Label, Monitor, Object, Refusal, State, Way};
use gatekeeper::{PLACES, STATE_BYTES, SUBJECTS};
use gatekeeper_independent::calls::Numbers;
use gatekeeper_independent::cases::lines::{LineCase, LINE_CASES};
use gatekeeper_independent::generate::lines::{trials, Trial};
use gatekeeper_independent::labels::Label as PlainLabel;
use gatekeeper_independent::lines::{self, Start, MOST_STAGES};
use gatekeeper_independent::monitor::{Answer as PlainAnswer, Monitor as PlainMonitor};
use gatekeeper_independent::needs::{Needs, Thing};
use gatekeeper_independent::random::Random;
use gatekeeper_independent::records::{read_body, Body, Reader};
use gatekeeper_independent::refusals;
use gatekeeper_independent::tables::{self, Direction};
use gatekeeper_independent::variants::lines::{LineRules, LINES, ONLY_BY_CALLS};
use gatekeeper_independent::variants::Rules;

const SEEDS: [u64; 2] = [1, 2];
const TRIALS_OF_A_SEED: usize = 600;
/// One trial in so many is made on changed bytes, too.
const TRIALS_TO_A_CHANGE: usize = 4;

/// The refusals that answer a call of a line: RULES L8 to L11.
const REFUSING_CALLS: [u32; 8] = [2, 3, 4, 5, 7, 9, 15, 17];

/// A monitor of the archive, as bytes or as a struct.
trait Proved: Clone + PartialEq + fmt::Debug + Default {
    fn call(&mut self, code: u64, numbers: Numbers) -> Answer;
    fn line(&mut self, line: &[u8], numbers: [u64; 3]) -> Result<Counts, Refusal>;
    fn shown(&self) -> Shown;
}

macro_rules! proved {
    ($kind:ident) => {
        impl Proved for $kind {
            fn call(&mut self, code: u64, numbers: Numbers) -> Answer {
                self.direct(code, numbers)
            }

            fn line(&mut self, line: &[u8], [shell, child, pipe]: [u64; 3]) -> Result<Counts, Refusal> {
                $kind::line(self, line, shell, child, pipe)
            }

            fn shown(&self) -> Shown {
                let places = (0..SUBJECTS).flat_map(|s| (0..PLACES).map(move |p| (s, p)));
                Shown {
                    made: self.made(),
                    gone: self.gone(),
                    frozen_from: self.frozen_from(),
                    subjects: (0..SUBJECTS)
                        .filter_map(|s| {
                            Some((s, self.subject(s)?, self.need_of_subject(s)?, self.group(s)?))
                        })
                        .collect(),
                    objects: self
                        .objects()
                        .filter_map(|(o, object)| Some((o, object, self.need_of_object(o)?)))
                        .collect(),
                    handles: places.filter_map(|(s, p)| Some((s, p, self.handle(s, p)?))).collect(),
                }
            }
        }
    };
}

proved!(Monitor);
proved!(State);

/// All that is shown: the tally, the freeze, each live thing with its label and need, a subject's with its group, and each
/// handle with its place.
#[derive(Debug, PartialEq)]
struct Shown {
    made: u64,
    gone: u64,
    frozen_from: Option<u8>,
    subjects: Vec<(u64, Label, Label, u64)>,
    objects: Vec<(u64, Object, Label)>,
    handles: Vec<(u64, u64, Handle)>,
}

impl Shown {
    fn of_plain(plain: &PlainMonitor) -> Shown {
        let (tables, tally) = (plain.tables(), plain.tally());
        let needs = Needs::of_tables(tables);
        let subject = |s| {
            let (label, need) = (tables.subject(s)?.label(), needs.of(Thing::Subject(s)));
            Some((s, label_of(label), label_of(need), tables.members(s).next()?))
        };
        let object = |o| Some((o, object_of(tables.object(o)?), label_of(needs.of(Thing::Object(o)))));
        Shown {
            made: tally.made,
            gone: tally.gone,
            frozen_from: tables.frozen_from().map(|level| level as u8),
            subjects: tables.live_subjects().filter_map(subject).collect(),
            objects: tables.live_objects().filter_map(object).collect(),
            handles: tables.handles().map(|(s, p, handle)| (s, p, handle_of(handle))).collect(),
        }
    }
}

fn label_of(label: PlainLabel) -> Label {
    Label { level: label.level as u8, shops: label.shops as u8 }
}

fn object_of(object: tables::Object) -> Object {
    let kind = match object.kind {
        tables::Kind::File => Kind::File,
        tables::Kind::Pipe => Kind::Pipe,
    };
    Object { kind, label: label_of(object.label()) }
}

fn handle_of(handle: tables::Handle) -> Handle {
    let way = match handle.direction {
        Direction::Reading if handle.mapped => Way::Maps,
        Direction::Reading => Way::Reads,
        Direction::Writing => Way::Writes,
    };
    Handle { way, object: handle.object, marked: handle.marked }
}

/// A trial, and the name by which it is found again.
struct Case {
    name: String,
    trial: Trial,
}

impl fmt::Display for Case {
    fn fmt(&self, f: &mut fmt::Formatter<'_>) -> fmt::Result {
        write!(f, "{}\n{}", self.name, self.trial)
    }
}

/// The generated trials.
fn cases() -> impl Iterator<Item = Case> {
    SEEDS.into_iter().flat_map(|seed| {
        let trials = trials(seed).take(TRIALS_OF_A_SEED).enumerate();
        trials.map(move |(index, trial)| Case { name: format!("trial {index} of seed {seed}"), trial })
    })
}

/// A worked case as a trial.
fn worked(case: &LineCase) -> Case {
    let (journal, rules) = (case.journal(), Rules::default());
    let mut reader = Reader::new(&journal, rules);
    let mut setup = Vec::new();
    while let Some(Ok(span)) = reader.next_record() {
        if let Body::Call { code, numbers } = read_body(&journal, span, rules) {
            setup.push((code, numbers));
        }
    }
    let Start { shell, child, pipe } = case.start;
    let trial = Trial { setup, line: case.line.into(), shell, child, pipe };
    Case { name: case.name.to_string(), trial }
}

impl Case {
    /// The numbers that come with the line.
    fn numbers(&self) -> [u64; 3] {
        [self.trial.shell, self.trial.child, self.trial.pipe]
    }

    /// The calls of the line, as the independent program has them; none where it is refused.
    fn calls(&self) -> Vec<(u64, Numbers)> {
        let [shell, child, pipe] = self.numbers();
        let pipelines = lines::judge(&self.trial.line).unwrap_or_default();
        pipelines.iter().flat_map(|stages| lines::calls_of(stages, shell, child, pipe)).collect()
    }

    /// The monitor after the calls that come before the line.
    fn set_up<P: Proved>(&self) -> P {
        let mut proved = P::default();
        for &(code, numbers) in &self.trial.setup {
            // Refused ones are among them; the independent program refuses the same.
            let _ = proved.call(code, numbers);
        }
        proved
    }

    /// What comes of the line on this monitor, which has to be the same by itself and by its calls; and what is shown then.
    fn run<P: Proved>(&self, before: P) -> Ran {
        let mut proved = before.clone();
        let outcome = proved.line(&self.trial.line, self.numbers());
        let shown = proved.shown();
        if outcome.is_err() {
            assert_eq!(proved, before, "a refused line changed something: {self}");
        }

        let mut by_calls = before;
        let mut counts = Counts::default();
        for (code, numbers) in self.calls() {
            count(&mut counts, by_calls.call(code, numbers));
        }
        assert_eq!(
            outcome.unwrap_or_default(),
            counts,
            "the calls one by one are counted otherwise: {self}"
        );
        assert_eq!(shown, by_calls.shown(), "the calls one by one leave something else: {self}");
        (outcome, shown)
    }
}

/// The counts of a line or its refusal, and all that is shown after it.
type Ran = (Result<Counts, Refusal>, Shown);

fn count(counts: &mut Counts, answer: Answer) {
    *match answer {
        Answer::Allowed(_) => &mut counts.allowed,
        Answer::Lowered { .. } => &mut counts.lowered,
        Answer::Refused(_) => &mut counts.refused,
    } += 1;
}

/// The outcome of a line as the independent program has it.
fn wrapped(outcome: Result<lines::Counts, u8>) -> Result<Counts, Refusal> {
    let lines::Counts { allowed, lowered, refused } =
        outcome.map_err(|number| Refusal::from_number(number.into()).expect("a refusal of the rules"))?;
    Ok(Counts { allowed, lowered, refused })
}

/// What was met; a comparison that met little says little.
#[derive(Default)]
struct Seen {
    lines: usize,
    broken: usize,
    too_long: usize,
    counts: Counts,
    /// Calls of lines that were refused, by number.
    refused: [usize; 18],
    /// Pipelines by how many stages they have.
    stages: [usize; MOST_STAGES + 1],
    /// Lines of several pipelines, lines with a child's or a pipe's number that goes on from the highest to 0, lines whose
    /// shell held handles before, and lines that left other tables than they found.
    several: usize,
    wrapped: usize,
    held: usize,
    changed: usize,
}

impl Seen {
    /// Makes a trial everywhere, and counts what came of it.
    fn trial(&mut self, case: &Case) {
        let mut plain = case.trial.monitor();
        let before = plain.tables().clone();
        let [shell, child, pipe] = case.numbers();
        let outcome = wrapped(lines::run(&mut plain, &case.trial.line, shell, child, pipe));
        let plain_ran = (outcome, Shown::of_plain(&plain));
        let on_bytes = case.run(case.set_up::<Monitor>());
        assert_eq!(on_bytes, plain_ran, "on bytes (left) and in the independent program: {case}");
        let on_struct = case.run(case.set_up::<State>());
        assert_eq!(on_struct, plain_ran, "on the struct (left) and in the independent program: {case}");

        self.lines += 1;
        let counts = match outcome {
            Err(Refusal::LineBroken) => return self.broken += 1,
            Err(_) => return self.too_long += 1,
            Ok(counts) => counts,
        };
        self.counts.allowed += counts.allowed;
        self.counts.lowered += counts.lowered;
        self.counts.refused += counts.refused;
        let mut again = case.trial.monitor();
        for (code, numbers) in case.calls() {
            if let PlainAnswer::Refused(number) = again.call(code, numbers) {
                self.refused[number as usize] += 1;
            }
        }
        let pipelines = lines::judge(&case.trial.line).unwrap_or_default();
        let longest = pipelines.iter().map(Vec::len).max().unwrap_or(0) as u64;
        for stages in &pipelines {
            self.stages[stages.len()] += 1;
        }
        let wraps = |first: u64, more: u64| first.checked_add(more).is_none();
        self.several += usize::from(pipelines.len() > 1);
        self.wrapped += usize::from(wraps(child, longest - 1) || longest > 1 && wraps(pipe, longest - 2));
        self.held += usize::from(before.handles_of(shell).next().is_some());
        self.changed += usize::from(&before != plain.tables());
    }

    fn report(&self) {
        let Seen { lines, broken, too_long, counts, several, wrapped, held, changed, .. } = self;
        let Counts { allowed, lowered, refused } = counts;
        println!(
            "beside: {lines} typed lines, on bytes, on the struct and by their calls: {} run, {broken} refused with 18, \
             {too_long} with 19",
            lines - broken - too_long
        );
        let by_number: Vec<String> = REFUSING_CALLS
            .iter()
            .map(|&number| format!("{} with {number}", self.refused[number as usize]))
            .collect();
        println!(
            "beside: typed lines: {} calls of theirs, {allowed} allowed, {lowered} lowered, {refused} refused: {}",
            allowed + lowered + refused,
            by_number.join(", ")
        );
        println!(
            "beside: typed lines: {several} of several pipelines, {wrapped} with numbers that start again at 0, {held} by a \
             shell that held handles, {changed} that left other tables"
        );
        assert!(
            [broken, too_long, several, wrapped, held, changed].into_iter().all(|&met| met > 20),
            "few of some kind"
        );
        assert!([allowed, lowered, refused].into_iter().all(|&met| met > 100), "few calls of some outcome");
        assert!(
            self.stages[1..].iter().all(|&met| met > 5),
            "few pipelines of some length: {:?}",
            self.stages
        );
        for number in REFUSING_CALLS {
            let words = refusals::meaning(number);
            assert!(self.refused[number as usize] > 5, "few calls were refused with {number}: {words}");
        }
        assert_eq!(self.refused.iter().sum::<usize>() as u64, *refused);
    }
}

#[test]
fn typed_lines_come_out_alike() {
    let mut seen = Seen::default();
    for case in cases() {
        seen.trial(&case);
    }
    seen.report();
}

#[test]
fn worked_cases_come_out_as_they_should() {
    let mut seen = Seen::default();
    for case in LINE_CASES {
        let trial = worked(case);
        seen.trial(&trial);
        let said = match trial.run(trial.set_up::<Monitor>()).0 {
            Ok(Counts { allowed, lowered, refused }) => format!("counts {allowed} {lowered} {refused}"),
            Err(refusal) => format!("refusal {}", refusal.number()),
        };
        assert_eq!(Some(said.as_str()), case.replies().lines().last(), "{}", case.text());
    }
    println!("beside: {} worked cases of typed lines", seen.lines);
    assert!(seen.broken > 0 && seen.too_long > 0 && seen.counts.lowered > 0 && seen.counts.refused > 0);
}

/// Any monitor goes by the rules: RULES T16. Here some bytes are changed before the line.
#[test]
fn lines_on_any_state_are_their_calls() {
    let mut random = Random::new(1, 7);
    let (mut lines, mut counts, mut unsure) = (0, Counts::default(), 0);
    for case in cases().step_by(TRIALS_TO_A_CHANGE) {
        let mut bytes = *case.set_up::<Monitor>().as_bytes();
        let below = random.pick(&[4, 16, 256]).unwrap_or(4);
        for _ in 0..random.pick(&[3, 30, 300, 3000]).unwrap_or(3) {
            bytes[random.below(STATE_BYTES as u64) as usize] = random.below(below) as u8;
        }
        let mut monitor = Monitor::from_bytes(bytes);
        monitor.put_right();
        let state = State::from(&monitor);
        let is_sure = state.is_sure();
        let ran = case.run(monitor);
        assert_eq!(
            case.run(state.unsure()),
            ran,
            "on a struct that is not sure (left) and on bytes: {case}"
        );
        assert_eq!(case.run(state), ran, "on the struct (left) and on bytes: {case}");
        let Ok(Counts { allowed, lowered, refused }) = ran.0 else { continue };
        lines += 1;
        unsure += usize::from(!is_sure);
        counts.allowed += allowed;
        counts.lowered += lowered;
        counts.refused += refused;
    }
    let Counts { allowed, lowered, refused } = counts;
    println!(
        "beside: {lines} typed lines on changed bytes and on structs of the same tables, {unsure} of which cannot be sure: \
         their calls {allowed} allowed, {lowered} lowered, {refused} refused"
    );
    assert!(unsure > 5 && [allowed, lowered, refused].into_iter().all(|met| met > 20), "few of some kind");
}

/// But for those that leave the same answer, tables and tally.
#[test]
fn every_wrong_way_to_run_a_line_is_told_apart() {
    let cases: Vec<(Ran, Case)> = cases().map(|case| (case.run(case.set_up::<State>()), case)).collect();
    let wrong = || LINES.iter().filter(|(_, name, _)| !ONLY_BY_CALLS.contains(name));
    for &(variant, name, what) in wrong() {
        let differs = |(proved, case): &(Ran, Case)| {
            let (plain, ran) = case.trial.run(LineRules::from(variant));
            (wrapped(ran.outcome), Shown::of_plain(&plain)) != *proved
        };
        assert!(cases.iter().any(differs), "{name} was not told apart: {what}");
    }
    println!("beside: {} wrong ways to run a line were told apart", wrong().count());
}
