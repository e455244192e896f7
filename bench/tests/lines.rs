//! Typed lines in the plain program, beside the archive and the independent program: after the same calls, the same counts
//! or refusal, and the same tally, freeze, labels and handles.

use gatekeeper::{Counts, Handle, Kind, Label, Object, State, Way, PLACES, SUBJECTS};
use gatekeeper_independent::generate::lines::{trials, Trial};
use gatekeeper_independent::labels::Label as LabelBeside;
use gatekeeper_independent::lines;
use gatekeeper_independent::monitor::Monitor as MonitorBeside;
use gatekeeper_independent::tables;
use gatekeeper_plain::lines::{Counts as PlainCounts, Start};
use gatekeeper_plain::tables::{Direction, Kind as PlainKind};
use gatekeeper_plain::{Label as PlainLabel, Monitor as PlainMonitor, When};

const SEED: u64 = 1;
const LINES: usize = 600;

/// The counts, or the refusal's number.
type Outcome = Result<Counts, u8>;

/// The tally, the freeze, the live subjects and objects, and the handles by subject and place.
#[derive(Debug, PartialEq)]
struct Shown {
    tally: [u64; 2],
    frozen_from: Option<u8>,
    subjects: Vec<(u64, Label)>,
    objects: Vec<(u64, Object)>,
    handles: Vec<(u64, u64, Handle)>,
}

impl Shown {
    fn of_archive(state: &State) -> Shown {
        let handle = |(s, p)| Some((s, p, state.handle(s, p)?));
        Shown {
            tally: [state.made(), state.gone()],
            frozen_from: state.frozen_from(),
            subjects: (0..SUBJECTS).filter_map(|s| Some((s, state.subject(s)?))).collect(),
            objects: state.objects().collect(),
            handles: places().filter_map(handle).collect(),
        }
    }

    fn of_plain(monitor: &PlainMonitor) -> Shown {
        let (tables, tally) = (monitor.tables(), monitor.tally());
        let label = |label: PlainLabel| Label { level: label.level(), shops: label.shops() };
        let subject = |s: u64| Some((s, label(tables.live(s as usize)?.label)));
        let object = |(slot, &number): (usize, &u64)| {
            let object = tables.objects[slot]?;
            let kind = match object.kind {
                PlainKind::File => Kind::File,
                PlainKind::Pipe => Kind::Pipe,
            };
            Some((number, Object { kind, label: label(object.label) }))
        };
        let mut objects: Vec<(u64, Object)> =
            tables.numbers.iter().enumerate().filter_map(object).collect();
        objects.sort_by_key(|object| object.0);
        Shown {
            tally: [tally.made, tally.gone],
            frozen_from: Some(tables.freeze).filter(|&level| level < 16),
            subjects: (0..SUBJECTS).filter_map(subject).collect(),
            objects,
            handles: places().filter_map(|(s, p)| Some((s, p, plain_handle(monitor, s, p)?))).collect(),
        }
    }

    fn of_independent(monitor: &MonitorBeside) -> Shown {
        let (tables, tally) = (monitor.tables(), monitor.tally());
        let label = |label: LabelBeside| Label { level: label.level as u8, shops: label.shops as u8 };
        let subject = |s| Some((s, label(tables.subject(s)?.label())));
        let object = |o| {
            let object = tables.object(o)?;
            let kind = match object.kind {
                tables::Kind::File => Kind::File,
                tables::Kind::Pipe => Kind::Pipe,
            };
            Some((o, Object { kind, label: label(object.label()) }))
        };
        let handle = |handle: tables::Handle| {
            let reads = handle.direction == tables::Direction::Reading;
            Handle { way: way(reads, handle.mapped), object: handle.object, marked: handle.marked }
        };
        Shown {
            tally: [tally.made, tally.gone],
            frozen_from: tables.frozen_from().map(|level| level as u8),
            subjects: (0..SUBJECTS).filter_map(subject).collect(),
            objects: tables.live_objects().filter_map(object).collect(),
            handles: tables.handles().map(|(s, p, held)| (s, p, handle(held))).collect(),
        }
    }
}

fn places() -> impl Iterator<Item = (u64, u64)> {
    (0..SUBJECTS).flat_map(|s| (0..PLACES).map(move |p| (s, p)))
}

fn way(reads: bool, mapped: bool) -> Way {
    match (reads, mapped) {
        (true, true) => Way::Maps,
        (true, false) => Way::Reads,
        (false, _) => Way::Writes,
    }
}

fn plain_handle(monitor: &PlainMonitor, s: u64, p: u64) -> Option<Handle> {
    let tables = monitor.tables();
    let [s, p] = [s as usize, p as usize];
    let (slot, direction) = tables.places[s][p].handle()?;
    let mapped = tables.maps[s] >> p & 1 == 1;
    let way = way(direction == Direction::Reading, mapped);
    Some(Handle { way, object: tables.numbers[slot], marked: tables.is_marked(s, p) })
}

fn in_archive(trial: &Trial) -> (Outcome, Shown) {
    let mut state = State::new();
    for &(code, numbers) in &trial.setup {
        // Refused ones are among them; the other programs refuse the same.
        let _ = state.direct(code, numbers);
    }
    let outcome = state.line(&trial.line, trial.shell, trial.child, trial.pipe);
    (outcome.map_err(|refusal| refusal.number() as u8), Shown::of_archive(&state))
}

fn in_plain(trial: &Trial, when: When) -> (Outcome, Shown) {
    let mut monitor = PlainMonitor::new(when);
    for &(code, numbers) in &trial.setup {
        monitor.direct(code, numbers);
    }
    let before = monitor.tables().clone();
    let Trial { shell, child, pipe, .. } = *trial;
    let outcome = monitor.line(&trial.line, Start { shell, child, pipe });
    assert!(outcome.is_ok() || *monitor.tables() == before, "a refused line changed a table: {trial}");
    let counts = |PlainCounts { allowed, lowered, refused }| Counts { allowed, lowered, refused };
    (outcome.map(counts).map_err(|refusal| refusal as u8), Shown::of_plain(&monitor))
}

fn in_independent(trial: &Trial) -> (Outcome, Shown) {
    let mut monitor = trial.monitor();
    let outcome = lines::run(&mut monitor, &trial.line, trial.shell, trial.child, trial.pipe);
    let counts = |lines::Counts { allowed, lowered, refused }| Counts { allowed, lowered, refused };
    (outcome.map(counts), Shown::of_independent(&monitor))
}

#[test]
fn generated_lines_come_out_alike() {
    let (mut broken, mut too_long, mut met) = (0, 0, Counts::default());
    for (index, trial) in trials(SEED).take(LINES).enumerate() {
        let archive = in_archive(&trial);
        for when in [When::EachCall, When::Asked] {
            let plain = in_plain(&trial, when);
            assert_eq!(plain, archive, "plain, {when:?} (left), and archive: line {index}: {trial}");
        }
        let independent = in_independent(&trial);
        assert_eq!(independent, archive, "independent program (left) and archive: line {index}: {trial}");
        match archive.0 {
            Ok(Counts { allowed, lowered, refused }) => {
                met.allowed += allowed;
                met.lowered += lowered;
                met.refused += refused;
            }
            Err(18) => broken += 1,
            Err(_) => too_long += 1,
        }
    }
    // A comparison that met little says little.
    assert!([broken, too_long].into_iter().all(|met| met > 10), "{broken} with 18, {too_long} with 19");
    assert!([met.allowed, met.lowered, met.refused].into_iter().all(|met| met > 100), "{met:?}");
}
