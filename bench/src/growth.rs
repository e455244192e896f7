//! How the instructions of one call grow: with the number of open handles, and with the length of the rings.

use gatekeeper::{Call, Monitor, State};
use gatekeeper_plain::{Monitor as PlainMonitor, When};

use crate::counting::{counted, part_ends, Part};
use crate::inputs::{figure, plain_figure, Side, REFUSED};
use crate::layouts::{one_ring, rings_of, rings_of_4, Layout, LOW_FILE};

/// How many subjects hold handles, 16 each, where the tables grow.
pub const SUBJECTS: [u32; 6] = [1, 2, 4, 8, 16, 32];

/// Tables of several sizes.
#[derive(Debug)]
pub struct Family {
    pub name: &'static str,
    /// What they are, above their panels of the plot.
    pub caption: &'static str,
    pub sizes: &'static [u32],
    /// The calls that are counted.
    pub kinds: &'static [Kind],
    layout: fn(u32) -> Layout,
}

/// Tables that grow, subject by subject.
pub static BY_HANDLES: [Family; 2] = [
    Family {
        name: "rings of 4",
        caption: "Rings of 4 subjects, 16 handles each",
        sizes: &SUBJECTS,
        kinds: &KINDS,
        layout: rings_of_4,
    },
    Family {
        name: "one ring",
        caption: "One ring of all subjects, 16 handles each, where one file is written: \
                  the need travels all the way round",
        sizes: &SUBJECTS,
        kinds: &KINDS,
        layout: one_ring,
    },
];

/// Full tables whose rings grow.
pub static BY_RING: Family = Family {
    name: "full tables",
    caption: "512 handles in rings of so many subjects",
    sizes: &[4, 8, 16, 32],
    kinds: &[Kind::Close, Kind::Open],
    layout: rings_of,
};

/// The programs that are compared.
pub const COMPARED: [Side; 2] = [Side::Proved, Side::Plain];

/// The calls that are counted.
#[derive(Clone, Copy, Debug, PartialEq, Eq)]
pub enum Kind {
    Close,
    Open,
    Read,
    /// An open for reading of a file of level 0 by a subject whose need is 12: refused by the flow rule.
    Refused,
}

pub const KINDS: [Kind; 4] = [Kind::Close, Kind::Open, Kind::Read, Kind::Refused];

impl Kind {
    pub fn name(self) -> &'static str {
        match self {
            Kind::Close => "close",
            Kind::Open => "open",
            Kind::Read => "read",
            Kind::Refused => "open refused by flow",
        }
    }
}

/// What is counted once: a call on tables of one size.
#[derive(Clone, Copy, Debug)]
pub struct Point {
    pub family: &'static Family,
    pub kind: Kind,
    pub side: Side,
    pub size: u32,
}

/// Every point, in the order in which they are counted.
pub fn points() -> Vec<Point> {
    let mut points = Vec::new();
    for family in BY_HANDLES.iter().chain([&BY_RING]) {
        for &kind in family.kinds {
            for side in COMPARED {
                points.extend(family.sizes.iter().map(|&size| Point { family, kind, side, size }));
            }
        }
    }
    points
}

impl Point {
    fn layout(self) -> Layout {
        (self.family.layout)(self.size)
    }

    pub fn handles(self) -> usize {
        self.layout().places().count()
    }

    /// The handles at which the call is made: of all of them about 60, evenly spread; for reads and refused opens those
    /// that read a file, as the needs are the same without them.
    fn sample(self) -> Vec<(u64, u64)> {
        let step = (self.handles() / 64) | 1;
        let reads_file = |place: u64| place % 2 == 0 && place > 0;
        let all = self.layout().places().step_by(step);
        match self.kind {
            Kind::Close | Kind::Open => all.collect(),
            Kind::Read | Kind::Refused => all.filter(|&(_, place)| reads_file(place)).collect(),
        }
    }

    /// Makes the calls, of which those of this kind are counted.
    pub fn run(self) {
        let layout = self.layout();
        let mut monitor = filled(self.side, layout);
        for (subject, place) in self.sample() {
            let close = Call::Close { subject, place };
            let open = layout.opening(subject, place);
            match self.kind {
                Kind::Close => {
                    self.count(&mut monitor, close);
                    monitor(open);
                }
                Kind::Open => {
                    monitor(close);
                    self.count(&mut monitor, open);
                }
                Kind::Read => self.count(&mut monitor, Call::Read { subject, place }),
                Kind::Refused => {
                    monitor(close);
                    self.count(&mut monitor, Call::OpenRead { subject, object: LOW_FILE, place });
                    monitor(open);
                }
            }
        }
        part_ends();
    }

    /// Counts one call, which is refused or not as the kind has it.
    fn count(self, monitor: &mut Machine, call: Call) {
        let mut found = 0;
        counted(&mut || found = monitor(call));
        assert_eq!(found > REFUSED, self.kind == Kind::Refused, "{self:?}: {call:?} was answered {found}");
    }

    /// The instructions of one call.
    pub fn per_call(self, part: &Part) -> f64 {
        part.instructions as f64 / self.sample().len() as f64
    }
}

/// A monitor of one of the programs: it answers a call with a figure, above `REFUSED` for a refusal.
type Machine = Box<dyn FnMut(Call) -> u64>;

/// A monitor whose tables are filled.
fn filled(side: Side, layout: Layout) -> Machine {
    match side {
        Side::Proved => {
            let mut state = State::new();
            fill(layout, |code, numbers| figure(state.direct(code, numbers)));
            Box::new(move |call| figure(state.call(call)))
        }
        Side::Bytes => {
            let mut monitor = Monitor::new();
            fill(layout, |code, numbers| figure(monitor.direct(code, numbers)));
            Box::new(move |call| figure(monitor.call(call)))
        }
        Side::Plain | Side::Sparing => {
            let when = if side == Side::Plain { When::EachCall } else { When::Asked };
            let mut monitor = PlainMonitor::new(when);
            fill(layout, |code, numbers| plain_figure(monitor.direct(code, numbers)));
            Box::new(move |call| plain_figure(monitor.direct(call.code(), call.numbers())))
        }
    }
}

/// Fills the tables of a monitor, which answers its calls with figures.
fn fill(layout: Layout, mut direct: impl FnMut(u64, [u64; 6]) -> u64) {
    for (code, numbers) in layout.filling() {
        direct(code, numbers);
    }
}

/// A line of the plot, and a row of its table.
#[derive(Clone, Copy, Debug, PartialEq, Eq)]
pub enum Line {
    /// As counted now.
    Now(Side),
    /// The proved library before request (g), with a monitor of bytes: constants.
    Before,
}

pub const LINES: [Line; 3] = [Line::Now(Side::Proved), Line::Before, Line::Now(Side::Plain)];

/// Rings, call, handles and instructions, below two lines that say so.
const BEFORE: &str = include_str!("../before.tsv");

impl Line {
    pub fn name(self) -> &'static str {
        match self {
            Line::Now(side) => side.name(),
            Line::Before => "before",
        }
    }

    /// The figures of one call on tables of a family, each with the size.
    pub fn figures(self, figures: &[(Point, f64)], family: &Family, kind: Kind) -> Vec<(u32, f64)> {
        let of_line = |point: &Point| {
            point.family.name == family.name && point.kind == kind && Line::Now(point.side) == self
        };
        match self {
            Line::Now(_) => {
                let points = figures.iter().filter(|(point, _)| of_line(point));
                points.map(|(point, figure)| (point.size, *figure)).collect()
            }
            Line::Before => {
                let rows = BEFORE.lines().skip(2).map(|row| row.split('\t').collect::<Vec<&str>>());
                let rows = rows.filter(|row| row[..2] == [family.name, kind.name()]);
                rows.filter_map(|row| Some((row[2].parse::<u32>().ok()? / 16, row[3].parse().ok()?)))
                    .collect()
            }
        }
    }
}

#[cfg(test)]
mod tests {
    use super::*;

    #[test]
    fn every_point_is_run() {
        for point in points() {
            assert!(point.sample().len() >= 7, "{point:?}");
            point.run();
        }
    }

    #[test]
    fn figures_of_before_are_there() {
        let mut rows = 0;
        for family in &BY_HANDLES {
            for kind in KINDS {
                let figures = Line::Before.figures(&[], family, kind);
                let sizes: Vec<u32> = figures.iter().map(|figure| figure.0).collect();
                assert_eq!(sizes, SUBJECTS, "{}, {}", family.name, kind.name());
                assert!(figures.iter().all(|figure| (20_000.0..60_000.0).contains(&figure.1)));
                rows += figures.len();
            }
        }
        assert_eq!(rows + 2, BEFORE.lines().count());
        let close = Line::Before.figures(&[], &BY_HANDLES[0], Kind::Close);
        assert_eq!((close[0], close[5]), ((1, 32_749.0), (32, 32_815.0)));
    }

    #[test]
    fn full_tables_have_512_handles() {
        for point in points().into_iter().filter(|point| point.family.name == BY_RING.name) {
            assert_eq!(point.handles(), 512, "{point:?}");
        }
    }
}
