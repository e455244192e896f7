//! The plot of `bench/run --plot`, as SVG: a row of panels for each family of tables, one panel for each call. Both axes are
//! logarithmic, and all panels have the same ones. A line has its own dashes, marks and label as well as its colour.

use crate::growth::{Family, Kind, Line, Point, BY_HANDLES, KINDS, LINES, SUBJECTS};
use crate::inputs::Side;
use crate::report::whole;

/// A panel's inside, the room around it, and the margins of the picture.
const PANEL: (f64, f64) = (180.0, 190.0);
const GAP: (f64, f64) = (58.0, 66.0);
const LEFT: f64 = 98.0;
const TOP: f64 = 104.0;
const RIGHT: f64 = 62.0;
const BOTTOM: f64 = 58.0;

/// What a line looks like: colour, dashes, and its marks.
fn look(line: Line) -> (&'static str, &'static str, Marks) {
    match line {
        Line::Now(Side::Proved | Side::Bytes) => ("#1f5a96", "none", Marks::Discs),
        Line::Before => ("#5f7f9f", "7 4", Marks::None),
        Line::Now(Side::Plain | Side::Sparing) => ("#b4490f", "none", Marks::Squares),
    }
}

#[derive(Clone, Copy, Debug, PartialEq, Eq)]
enum Marks {
    Discs,
    Squares,
    None,
}

/// The powers of ten below and above every figure.
struct Range {
    low: i32,
    high: i32,
}

impl Range {
    fn of(figures: impl Iterator<Item = f64>) -> Range {
        let exponents = figures.map(|figure| figure.max(1.0).log10());
        let (low, high) = exponents
            .fold((f64::MAX, 0.0_f64), |(low, high), exponent| (low.min(exponent), high.max(exponent)));
        Range { low: low.floor() as i32, high: high.ceil() as i32 }
    }

    /// How far below a panel's top a figure stands.
    fn y(&self, figure: f64) -> f64 {
        let (low, high) = (f64::from(self.low), f64::from(self.high));
        PANEL.1 * (high - figure.max(1.0).log10()) / (high - low)
    }
}

/// How far right of a panel's left edge a number of subjects stands.
fn x(subjects: u32) -> f64 {
    let last = SUBJECTS.len() as f64 - 1.0;
    8.0 + (PANEL.0 - 16.0) * f64::from(subjects).log2() / last
}

/// The whole picture.
pub fn svg(figures: &[(Point, f64)]) -> String {
    let width = LEFT + KINDS.len() as f64 * (PANEL.0 + GAP.0) - GAP.0 + RIGHT;
    let height = TOP + BY_HANDLES.len() as f64 * (PANEL.1 + GAP.1) - GAP.1 + BOTTOM;
    let panels = BY_HANDLES.iter().flat_map(|family| KINDS.map(|kind| panel(figures, family, kind)));
    let range = Range::of(panels.flatten().flat_map(|(_, figures)| figures).map(|(_, figure)| figure));
    let mut svg = format!(
        "<svg xmlns=\"http://www.w3.org/2000/svg\" width=\"{width:.0}\" height=\"{height:.0}\" \
         viewBox=\"0 0 {width:.0} {height:.0}\" font-family=\"Helvetica, Arial, sans-serif\" font-size=\"12\" fill=\"#222\">\n\
         <title>Instructions of one call by number of open handles</title>\n\
         <rect width=\"100%\" height=\"100%\" fill=\"white\"/>\n"
    );
    svg += &text(
        LEFT,
        26.0,
        "start",
        "font-size=\"16\" font-weight=\"bold\"",
        "Instructions of one call by number of open handles",
    );
    svg += &legend(LEFT, 50.0);
    for (row, family) in BY_HANDLES.iter().enumerate() {
        let top = TOP + row as f64 * (PANEL.1 + GAP.1);
        svg += &text(LEFT, top - 24.0, "start", "font-weight=\"bold\"", family.caption);
        for (column, kind) in KINDS.into_iter().enumerate() {
            let left = LEFT + column as f64 * (PANEL.0 + GAP.0);
            svg += &format!("<g transform=\"translate({left:.1} {top:.1})\">\n");
            svg += &axes(kind, &range, column == 0, row + 1 == BY_HANDLES.len());
            svg += &lines(&panel(figures, family, kind), &range);
            svg += "</g>\n";
        }
    }
    let middle = TOP + (height - TOP - BOTTOM) / 2.0;
    svg += &format!(
        "<text transform=\"translate(20 {middle:.1}) rotate(-90)\" text-anchor=\"middle\">instructions per call (logarithmic)</text>\n"
    );
    let center = LEFT + (width - LEFT - RIGHT) / 2.0;
    svg += &text(center, height - 14.0, "middle", "", "open handles in the tables (logarithmic)");
    svg + "</svg>\n"
}

fn text(x: f64, y: f64, anchor: &str, more: &str, words: &str) -> String {
    format!("<text x=\"{x:.1}\" y=\"{y:.1}\" text-anchor=\"{anchor}\" {more}>{words}</text>\n")
}

/// A line, and its figure at each number of subjects.
type Drawn = (Line, Vec<(u32, f64)>);

/// The lines of one call on tables of a family.
fn panel(figures: &[(Point, f64)], family: &Family, kind: Kind) -> [Drawn; LINES.len()] {
    LINES.map(|line| (line, line.figures(figures, family, kind)))
}

/// A sample of each line, with what it is.
fn legend(left: f64, y: f64) -> String {
    let mut svg = String::new();
    let mut x = left;
    for line in LINES {
        let words = match line {
            Line::Now(Side::Proved | Side::Bytes) => "proved: the library, lent a struct",
            Line::Before => "before: the library before request (g), lent bytes",
            Line::Now(Side::Plain | Side::Sparing) => "plain: works every need out at each call",
        };
        let (colour, dashes, _) = look(line);
        svg += &format!("<path d=\"M{x:.1} {y:.1}h36\" stroke=\"{colour}\" stroke-width=\"2\" stroke-dasharray=\"{dashes}\"/>\n");
        svg += &mark(line, x + 18.0, y);
        svg += &text(x + 44.0, y + 4.0, "start", "", words);
        x += 64.0 + 5.9 * words.len() as f64;
    }
    svg
}

fn mark(line: Line, x: f64, y: f64) -> String {
    let (colour, _, marks) = look(line);
    match marks {
        Marks::Discs => format!("<circle cx=\"{x:.1}\" cy=\"{y:.1}\" r=\"3.5\" fill=\"{colour}\"/>\n"),
        Marks::Squares => {
            let (x, y) = (x - 3.5, y - 3.5);
            format!("<rect x=\"{x:.1}\" y=\"{y:.1}\" width=\"7\" height=\"7\" fill=\"white\" stroke=\"{colour}\" stroke-width=\"1.5\"/>\n")
        }
        Marks::None => String::new(),
    }
}

/// A panel's frame, grid and title; numbers at the outer panels.
fn axes(kind: Kind, range: &Range, first_column: bool, last_row: bool) -> String {
    let (width, height) = PANEL;
    let mut svg = text(width / 2.0, -7.0, "middle", "", kind.name());
    for exponent in range.low..=range.high {
        let y = range.y(10.0_f64.powi(exponent));
        svg += &format!("<path d=\"M0 {y:.1}h{width}\" stroke=\"#ddd\"/>\n");
        if first_column {
            svg += &text(-8.0, y + 4.0, "end", "", &whole(10.0_f64.powi(exponent)));
        }
    }
    for subjects in SUBJECTS {
        let x = x(subjects);
        svg += &format!("<path d=\"M{x:.1} {height}v4\" stroke=\"#888\"/>\n");
        if last_row {
            svg += &text(x, height + 18.0, "middle", "font-size=\"11\"", &(16 * subjects).to_string());
        }
    }
    svg + &format!("<rect width=\"{width}\" height=\"{height}\" fill=\"none\" stroke=\"#888\"/>\n")
}

/// The lines of a panel, with each one's name at its right end.
fn lines(panel: &[Drawn], range: &Range) -> String {
    let mut svg = String::new();
    let mut ends: Vec<(Line, f64)> = Vec::new();
    for (line, figures) in panel {
        let spots: Vec<(f64, f64)> =
            figures.iter().map(|&(subjects, figure)| (x(subjects), range.y(figure))).collect();
        let (colour, dashes, _) = look(*line);
        let path: Vec<String> = spots.iter().map(|(x, y)| format!("{x:.1} {y:.1}")).collect();
        svg += &format!(
            "<path d=\"M{}\" fill=\"none\" stroke=\"{colour}\" stroke-width=\"2\" stroke-dasharray=\"{dashes}\"/>\n",
            path.join("L")
        );
        svg += &spots.iter().map(|&(x, y)| mark(*line, x, y)).collect::<String>();
        ends.extend(spots.last().map(|&(_, y)| (*line, y)));
    }
    // Labels that would touch stand apart.
    ends.sort_by(|a, b| a.1.total_cmp(&b.1));
    let mut lowest = f64::MIN;
    for (line, y) in ends {
        lowest = y.max(lowest + 14.0);
        let more = format!("fill=\"{}\" font-weight=\"bold\"", look(line).0);
        svg += &text(PANEL.0 + 5.0, lowest + 4.0, "start", &more, line.name());
    }
    svg
}

#[cfg(test)]
mod tests {
    use super::*;
    use crate::growth::points;

    #[test]
    fn every_line_and_label_is_drawn() {
        let figures: Vec<(Point, f64)> =
            points().into_iter().map(|point| (point, 100.0 * point.handles() as f64)).collect();
        let svg = svg(&figures);
        let panels = BY_HANDLES.len() * KINDS.len();
        assert_eq!(svg.matches("stroke-dasharray").count(), LINES.len() * (panels + 1));
        assert_eq!(svg.matches("stroke-dasharray=\"none\"").count(), (LINES.len() - 1) * (panels + 1));
        for line in LINES {
            assert_eq!(svg.matches(&format!(">{}<", line.name())).count(), panels);
        }
        assert_eq!(svg.matches(">512<").count(), KINDS.len());
        assert_eq!(svg.matches("<g ").count(), svg.matches("</g>").count());
    }
}
