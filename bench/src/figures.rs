//! The figures: time and instructions per call of each program, and the tables that show them.

use std::time::Duration;

use crate::clock;
use crate::counting::{self, counted, part_ends, Part};
use crate::growth::{self, Family, Line, Point, BY_HANDLES, BY_RING, LINES, SUBJECTS};
use crate::inputs::{Input, Side, Work, SIDES};
use crate::options::Options;
use crate::report::{self, Table};

/// What one program takes for a call.
type PerCall = (Side, f64);

/// One piece of work with what each program takes for a call of it.
pub struct Row {
    work: Work,
    calls: usize,
    figures: Vec<PerCall>,
}

impl Row {
    fn of(&self, side: Side) -> Option<f64> {
        self.figures.iter().find(|figure| figure.0 == side).map(|figure| figure.1)
    }

    /// One program's figure divided by another one's.
    fn ratio(&self, side: Side, by: Side) -> Option<f64> {
        Some(self.of(side)? / self.of(by)?)
    }
}

/// The figures of each program and their ratios; a dash for what was not run.
pub fn table(rows: &[Row], text: fn(f64) -> String) -> Table {
    let ratios = [(Side::Proved, Side::Plain), (Side::Proved, Side::Sparing), (Side::Bytes, Side::Plain)];
    let mut titles = vec!["input".to_string(), "calls".to_string()];
    titles.extend(SIDES.map(|side| side.name().to_string()));
    titles.extend(ratios.map(|(side, by)| format!("{}/{}", side.name(), by.name())));
    let mut table = Table::of_figures(&titles);
    let or_dash = |cell: Option<String>| cell.unwrap_or("-".to_string());
    for row in rows {
        let mut cells = vec![row.work.name(), report::whole(row.calls as f64)];
        cells.extend(SIDES.map(|side| or_dash(row.of(side).map(text))));
        let ratio = |(side, by)| or_dash(row.ratio(side, by).map(|ratio| format!("{ratio:.2}")));
        cells.extend(ratios.map(ratio));
        table.row(cells);
    }
    table
}

/// On how many inputs the proved program takes at most a half, a quarter and a tenth of what the plain one takes; lines
/// and numbers apart.
pub fn verdict(rows: &[Row]) -> String {
    let calls = rows.iter().filter(|row| !row.work.is_line() && !row.work.is_numbers());
    let ratios: Vec<f64> = calls.filter_map(|row| row.ratio(Side::Proved, Side::Plain)).collect();
    let at_most = |limit: f64| ratios.iter().filter(|&&ratio| ratio <= limit).count();
    format!(
        "Of these {} inputs of calls, the proved program takes at most half of what the plain one takes on {}, at most a \
         quarter on {}, and at most a tenth on {}.",
        ratios.len(),
        at_most(0.5),
        at_most(0.25),
        at_most(0.1)
    )
}

/// The programs that have a run of the work and are not left out.
fn sides(options: &Options, input: &Input) -> Vec<Side> {
    let runs = |side: &Side| input.has(*side);
    let wanted = |side: &Side| options.alone.is_none_or(|alone| alone == *side);
    SIDES.into_iter().filter(runs).filter(wanted).collect()
}

/// Processor time per call, in nanoseconds: the best of some rounds.
pub fn times(options: &Options, works: &[Work]) -> Vec<Row> {
    let time = |&work: &Work| {
        let mut input = work.input();
        let calls = input.calls;
        let per_call = |(side, time): (Side, Duration)| (side, time.as_nanos() as f64 / calls as f64);
        Row { work, calls, figures: best(&mut input, options).into_iter().map(per_call).collect() }
    };
    works.iter().map(time).collect()
}

/// The best time of each program over some rounds. They take turns, so that all meet the same disturbances.
fn best(input: &mut Input, options: &Options) -> Vec<(Side, Duration)> {
    let sides = sides(options, input);
    let mut best: Vec<(Side, Duration)> = sides.into_iter().map(|side| (side, Duration::MAX)).collect();
    let mut sum = None;
    for _ in 0..options.rounds {
        for (side, time) in &mut best {
            let Some(run) = input.run(*side) else { continue };
            let start = clock::now();
            let found = run();
            *time = (clock::now() - start).min(*time);
            assert_eq!(*sum.get_or_insert(found), found, "the programs differ");
        }
    }
    best
}

/// The instructions of one piece of work, for each program.
pub struct Count {
    work: Work,
    calls: usize,
    parts: Vec<(Side, Part)>,
}

/// Counts the instructions of each piece of work, once.
pub fn counts(options: &Options, works: &[Work]) -> Result<Vec<Count>, String> {
    eprintln!("bench: counting instructions under valgrind, about a minute");
    let prepared = works.iter().map(|work| {
        let input = work.input();
        (*work, input.calls, sides(options, &input))
    });
    let prepared: Vec<(Work, usize, Vec<Side>)> = prepared.collect();
    let expected = prepared.iter().map(|(_, _, sides)| sides.len()).sum();
    let mut arguments = vec!["--counted".to_string(), "--only".to_string(), options.only.clone()];
    if let Some(side) = options.alone {
        arguments.extend(["--alone".to_string(), side.name().to_string()]);
    }
    let mut parts = counting::parts(&arguments, expected)?.into_iter();
    let mut count = |(work, calls, sides): (Work, usize, Vec<Side>)| {
        let parts = sides.into_iter().zip(&mut parts).collect();
        Count { work, calls, parts }
    };
    Ok(prepared.into_iter().map(&mut count).collect())
}

/// The other end of `counts`, under valgrind.
pub fn run_counted(options: &Options, works: &[Work]) {
    for work in works {
        let mut input = work.input();
        for side in sides(options, &input) {
            let Some(run) = input.run(side) else { continue };
            counted(&mut || {
                run();
            });
            part_ends();
        }
    }
}

/// Instructions per call.
pub fn instructions(counts: &[Count]) -> Vec<Row> {
    let row = |count: &Count| {
        let per_call = |(side, part): &(Side, Part)| {
            let without_loop = count.work.is_without_loop();
            let instructions = if without_loop { part.without_loop() } else { part.instructions };
            (*side, instructions as f64 / count.calls as f64)
        };
        Row { work: count.work, calls: count.calls, figures: count.parts.iter().map(per_call).collect() }
    };
    counts.iter().map(row).collect()
}

/// Which functions the instructions of calls and lines are in.
pub fn shares(counts: &[Count]) -> Table {
    let mut table = Table::of_words(&["input", "proved", "plain"]);
    for Count { work, parts, .. } in counts.iter().filter(|count| !count.work.is_numbers()) {
        let of = |side: Side| {
            let part = parts.iter().find(|part| part.0 == side);
            part.map_or("-".to_string(), |(_, part)| part.shares())
        };
        table.row(vec![work.name(), of(Side::Proved), of(Side::Plain)]);
    }
    table
}

/// The instructions of one call at each point.
pub fn grown() -> Result<Vec<(Point, f64)>, String> {
    eprintln!("bench: counting instructions by number of open handles under valgrind, some seconds");
    let points = growth::points();
    let parts = counting::parts(&["--counted-growth".to_string()], points.len())?;
    Ok(points.into_iter().zip(&parts).map(|(point, part)| (point, point.per_call(part))).collect())
}

/// By number of open handles, those of before among them.
pub fn growth_table(figures: &[(Point, f64)]) -> Table {
    let mut titles = vec!["call".to_string()];
    titles.extend(SUBJECTS.map(|subjects| format!("{} handles", 16 * subjects)));
    let mut table = Table::of_figures(&titles);
    for family in &BY_HANDLES {
        growth_rows(&mut table, figures, family, &LINES, |call| format!("{}, {call}", family.name));
    }
    table
}

/// By length of the rings.
pub fn ring_table(figures: &[(Point, f64)]) -> Table {
    let mut titles = vec!["call".to_string()];
    titles.extend(BY_RING.sizes.iter().map(|size| format!("rings of {size}")));
    let mut table = Table::of_figures(&titles);
    growth_rows(&mut table, figures, &BY_RING, &growth::COMPARED.map(Line::Now), |call| call);
    table
}

/// A row for each call and line, which is named by the call and the line.
fn growth_rows(
    table: &mut Table,
    figures: &[(Point, f64)],
    family: &Family,
    lines: &[Line],
    name: impl Fn(String) -> String,
) {
    for &kind in family.kinds {
        for line in lines {
            let mut cells = vec![name(format!("{}, {}", kind.name(), line.name()))];
            let row = line.figures(figures, family, kind);
            cells.extend(row.into_iter().map(|(_, figure)| report::whole(figure)));
            table.row(cells);
        }
    }
}

#[cfg(test)]
mod tests {
    use super::*;
    use crate::inputs::WORKS;

    /// Figures of the first input of calls, of the first journal, of the first line and of the first of numbers.
    fn rows() -> Vec<Row> {
        let row = |index: usize, figures: &[PerCall]| Row {
            work: WORKS[index],
            calls: 1024,
            figures: figures.to_vec(),
        };
        let (proved, plain) = (Side::Proved, Side::Plain);
        vec![
            row(0, &[(proved, 40.0), (Side::Bytes, 160.0), (plain, 320.0), (Side::Sparing, 80.0)]),
            row(12, &[(proved, 100.0), (plain, 1000.0), (Side::Sparing, 500.0)]),
            row(17, &[(proved, 1.0), (plain, 100.0)]),
            row(24, &[(proved, 1.0), (plain, 100.0)]),
        ]
    }

    #[test]
    fn figures_and_ratios_have_their_columns() {
        let text = table(&rows(), report::count).text(true);
        let lines: Vec<&str> = text.lines().collect();
        assert_eq!(
            lines[0],
            "| input | calls | proved | bytes | plain | sparing | proved/plain | proved/sparing | bytes/plain |"
        );
        assert_eq!(lines[2], "| 8 rings of 4 | 1,024 | 40.0 | 160.0 | 320.0 | 80.0 | 0.12 | 0.50 | 0.50 |");
        assert_eq!(
            lines[3],
            "| journal, 8 rings of 4 | 1,024 | 100.0 | - | 1,000 | 500.0 | 0.10 | 0.20 | - |"
        );
    }

    #[test]
    fn inputs_of_calls_are_counted_by_ratio() {
        assert_eq!(
            verdict(&rows()),
            "Of these 2 inputs of calls, the proved program takes at most half of what the plain one takes on 2, \
             at most a quarter on 2, and at most a tenth on 1."
        );
    }

    #[test]
    fn tables_of_growth_have_a_row_for_each_line() {
        let figures: Vec<(Point, f64)> =
            growth::points().into_iter().map(|point| (point, f64::from(point.size))).collect();
        let handles = growth_table(&figures).text(true);
        assert_eq!(handles.lines().count(), 2 + 2 * 4 * 3);
        assert!(handles.contains("| rings of 4, close, proved | 1 | 2 | 4 | 8 | 16 | 32 |"));
        assert!(handles
            .contains("| one ring, close, before | 32,075 | 31,772 | 31,634 | 31,925 | 32,278 | 32,244 |"));
        let rings = ring_table(&figures).text(true);
        assert_eq!(rings.lines().count(), 2 + 2 * 2);
        assert!(rings.contains("| open, plain | 4 | 8 | 16 | 32 |"));
    }
}
