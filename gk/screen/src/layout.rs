//! How the screen shares a window: a function from what is shown, the window's size and where one looks to its lines.
//!
//! ```text
//! up to 129 columns      from 130 on
//! heading                heading
//! words                  steps             │ words
//! steps                  files and pipes   │
//! files and pipes        what is hidden, and the keys
//! what is hidden, keys
//! ```
//!
//! Each of the three is a pane with a scroll of its own. One that was not scrolled stands so that what the record is
//! about is in its middle: who asks, and the file or pipe that is asked for.

use std::ops::Range;

use crate::part::{Line, Look, Part, Table};
use crate::state::Thing;
use crate::terminal::Screen;
use crate::text::{fitted, width};

/// Columns from which on the words stand beside the tables.
const WIDE: usize = 130;

/// What stands between them.
const BETWEEN: &str = " │ ";

/// Lines that a pane needs for what stands over its table to stay there.
const WITH_HEAD: usize = 3;

/// The panes, in the order in which Tab goes through them.
pub const PANES: [&str; 3] = ["words", "steps", "files"];
pub const WORDS: usize = 0;
pub const STEPS: usize = 1;
pub const FILES: usize = 2;

const KEYS: [&str; 9] = [
    "← → one record back, one on; with Shift ten.",
    "N P the next refusal, the one before.",
    "Home End before the first record, the last record. Where a journal is followed, End goes on with it.",
    "↑ ↓ scroll a line, Page Up and Page Down a pane.",
    "Tab the next pane: words, steps, files and pipes. The last line names it in brackets, and says of each how many \
     lines are above (↑) and below (↓).",
    "C back to who asks, in the middle of its pane.",
    "Q ends; so does Ctrl-C.",
    "? this list, and back.",
    "A row with > is what the record is about. A name that ends with … is whole in a wider window.",
];

/// Columns and lines of a window.
#[derive(Clone, Copy, Debug, PartialEq, Eq)]
pub struct Size {
    pub columns: usize,
    pub rows: usize,
}

/// Where one looks.
#[derive(Clone, Debug, Default, PartialEq, Eq)]
pub struct Glance {
    /// The pane that the keys scroll.
    pub focus: usize,
    /// The first line of each pane; none where it stands by itself.
    pub scroll: [Option<usize>; PANES.len()],
    /// Whether the keys are told in the place of the words.
    pub is_help: bool,
}

/// What is known beside the screen.
#[derive(Clone, Debug, Default)]
pub struct Around {
    /// How many records there are.
    pub records: u64,
    /// The refusal that is shown, and how many there are.
    pub refusal: Option<(usize, usize)>,
    /// Whether records that come are shown as they come.
    pub is_live: bool,
    pub notice: Option<&'static str>,
}

/// A line in pieces, each with its look.
pub type Pieces = Vec<Line>;

/// A window full.
pub struct Frame {
    pub lines: Vec<Pieces>,
    /// Of each pane the first line that is shown, and how many are.
    pub shown: [Range<usize>; PANES.len()],
    /// Of each pane how many lines it has.
    pub of: [usize; PANES.len()],
}

/// The lines of a window: never more than it has, and none longer.
pub fn frame(screen: &Screen, around: &Around, size: Size, glance: &Glance) -> Frame {
    let body = size.rows.saturating_sub(2);
    let is_wide = size.columns >= WIDE;
    let left = if is_wide { size.columns * 11 / 20 } else { size.columns };
    let right = if is_wide { size.columns - left - width(BETWEEN) } else { size.columns };
    let panes = [
        words(screen, around, right, glance.is_help),
        Pane::of_table(screen.steps(left.saturating_sub(1)), screen),
        Pane::of_table(screen.objects(left.saturating_sub(1)), screen),
    ];
    let heights = heights(body, is_wide, [0, 1, 2].map(|index: usize| panes[index].height()));
    let views = [0, 1, 2].map(|index: usize| panes[index].view(heights[index], glance.scroll[index]));
    let shown = [0, 1, 2].map(|index: usize| views[index].1.clone());
    let of = [0, 1, 2].map(|index: usize| panes[index].lines.len());
    let [words, steps, files] = views.map(|(lines, _)| lines);
    let middle = if is_wide {
        let tables: Vec<Line> = steps.into_iter().chain(files).collect();
        beside(tables, words, left)
    } else {
        words.into_iter().chain(steps).chain(files).map(|line| vec![line]).collect()
    };
    let heading = heading(screen, around, size.columns);
    let status = status(&shown, &of, glance.focus, size.columns);
    let filled = middle.into_iter().chain(std::iter::repeat(Vec::new())).take(body);
    let lines = std::iter::once(heading).chain(filled).chain([vec![status]]).take(size.rows).collect();
    Frame { lines, shown, of }
}

/// How many lines each pane gets: the words up to a half, or what the tables leave; beside the tables, all.
fn heights(body: usize, is_wide: bool, want: [usize; 3]) -> [usize; 3] {
    let tables = want[STEPS] + want[FILES];
    let words = if is_wide { body } else { want[WORDS].min((body / 2).max(body.saturating_sub(tables))) };
    let rest = if is_wide { body } else { body - words };
    let steps = want[STEPS].min(rest.div_ceil(2).max(rest.saturating_sub(want[FILES])));
    let files = want[FILES].min(rest - steps);
    [words, steps, files]
}

/// Lines of which some are shown.
struct Pane {
    /// What stays over them.
    head: Vec<Line>,
    lines: Vec<Line>,
    /// Behind which of them a sentence is over.
    ends: Vec<bool>,
    /// Those that the record is about.
    centre: Option<Range<usize>>,
}

impl Pane {
    /// A table, its rows behind a sign where the record is about them.
    fn of_table(table: Table<Thing>, screen: &Screen) -> Pane {
        let blank = |line: Line| Line(line.0, format!(" {}", line.1));
        let head = table.head.into_iter().map(blank).collect();
        let mut pane = Pane { head, lines: Vec::new(), ends: Vec::new(), centre: None };
        for row in table.rows {
            let is_about = row.thing.is_some_and(|thing| screen.is_about(thing));
            let begin = pane.lines.len();
            for (index, Line(_, text)) in row.lines.into_iter().enumerate() {
                let sign = if is_about && index == 0 { ">" } else { " " };
                let look = if is_about { Look::Strong } else { Look::Plain };
                pane.lines.push(Line(look, format!("{sign}{text}")));
                pane.ends.push(true);
            }
            if is_about && pane.centre.is_none() {
                pane.centre = Some(begin..pane.lines.len());
            }
        }
        pane
    }

    fn of_parts(parts: &[Part], columns: usize) -> Pane {
        let mut pane = Pane { head: Vec::new(), lines: Vec::new(), ends: Vec::new(), centre: None };
        for part in parts {
            pane.lines.extend(part.lines(columns));
            pane.ends.resize(pane.lines.len(), false);
            if let Some(end) = pane.ends.last_mut() {
                *end = true;
            }
        }
        pane
    }

    /// The lines that it needs to show all.
    fn height(&self) -> usize {
        self.head.len() + self.lines.len()
    }

    /// What is shown of it in so many lines, and which of its lines these are.
    fn view(&self, height: usize, scroll: Option<usize>) -> (Vec<Line>, Range<usize>) {
        let has_head = height >= self.head.len() + WITH_HEAD || height >= self.height();
        let head = if has_head { &self.head[..] } else { &[] };
        let room = height - head.len().min(height);
        let first = scroll.unwrap_or_else(|| self.own(room)).min(self.lines.len().saturating_sub(room));
        let last = self.whole(first, (first + room).min(self.lines.len()));
        let mut lines: Vec<Line> = head.iter().chain(&self.lines[first..last]).cloned().collect();
        if last < first + room && last < self.lines.len() {
            lines.push(Line::plain("…"));
        }
        lines.resize(height, Line::plain(""));
        (lines, first..last)
    }

    /// The first line where nobody has scrolled: what the record is about in the middle, or from its first line on.
    fn own(&self, room: usize) -> usize {
        let centre = self.centre.clone().unwrap_or(0..0);
        centre.start.saturating_sub(room.saturating_sub(centre.len()) / 2)
    }

    /// The end of what is shown, put back to where a sentence is over, unless none is.
    fn whole(&self, first: usize, last: usize) -> usize {
        let is_over = |&end: &usize| self.ends[end - 1];
        (first + 1..=last).rev().find(is_over).unwrap_or(last)
    }
}

fn words(screen: &Screen, around: &Around, columns: usize, is_help: bool) -> Pane {
    let notice = around.notice.map(|text| Part::new(Look::Refused, "! ", text.to_string(), 2));
    let mut parts: Vec<Part> = notice.into_iter().collect();
    if is_help {
        parts.extend(KEYS.iter().map(|text| Part::new(Look::Plain, "", text.to_string(), 2)));
    } else {
        parts.extend(screen.words());
    }
    Pane::of_parts(&parts, columns)
}

/// Two panes side by side, the first filled up to its columns.
fn beside(left: Vec<Line>, right: Vec<Line>, columns: usize) -> Vec<Pieces> {
    let height = left.len().max(right.len());
    let all = |lines: Vec<Line>| lines.into_iter().chain(std::iter::repeat(Line::plain(""))).take(height);
    let pairs = all(left).zip(all(right));
    let joined = pairs.map(|(Line(look, text), right)| {
        vec![Line(look, fitted(&text, columns)), Line::plain(BETWEEN), right]
    });
    joined.collect()
}

/// The first of these that fits, or the last one cut.
fn fitting(choices: &[String], columns: usize) -> String {
    let fits = choices.iter().find(|text| width(text) <= columns);
    fits.cloned().unwrap_or_else(|| {
        let last = choices.last().map_or("", String::as_str);
        fitted(last, columns).trim_end().chars().take(columns).collect()
    })
}

/// Which record it is, its answer and the books: as much of it as there is room for, the answer always.
fn heading(screen: &Screen, around: &Around, columns: usize) -> Pieces {
    let (look, answer) = screen.answer();
    let (position, records) = (screen.position(), around.records);
    let live = if around.is_live { ", live" } else { "" };
    let record = match position {
        0 => format!("before the first of {records}{live}"),
        _ => format!("record {position} of {records}{live}"),
    };
    let refusal = match around.refusal {
        Some((index, of)) => format!("{answer}, refusal {index} of {of}"),
        None => answer.clone(),
    };
    let (title, books) = (screen.title(), screen.books());
    let short = if position == 0 { "0: ".to_string() } else { format!("{position}: ") };
    let choices = [
        (format!("{title}: {record}  "), refusal.clone(), format!("  {books}")),
        (format!("{title}: {record}  "), refusal, String::new()),
        (format!("{record}  "), answer.clone(), String::new()),
        (short, answer, String::new()),
    ];
    let fits = |(left, middle, right): &(String, String, String)| {
        width(left) + width(middle) + width(right) <= columns
    };
    match choices.iter().find(|choice| fits(choice)) {
        Some((left, middle, right)) => {
            let gap = columns - width(left) - width(middle) - width(right);
            let gap = if right.is_empty() { 0 } else { gap };
            let right = format!("{}{right}", " ".repeat(gap));
            vec![Line::strong(left), Line(look, middle.clone()), Line::strong(right)]
        }
        None => vec![Line(look, fitting(&[format!("{}{}", choices[3].0, choices[3].1)], columns))],
    }
}

/// How many lines of each pane are hidden above and below, and by which keys they are reached.
fn status(shown: &[Range<usize>; 3], of: &[usize; 3], focus: usize, columns: usize) -> Line {
    let hidden = |sign: &str, count: usize, is_counted: bool| match count {
        0 => String::new(),
        _ if is_counted => format!("{sign}{count}"),
        _ => sign.to_string(),
    };
    let pane = |index: usize, letters: usize, is_counted: bool| {
        let name: String = PANES[index].chars().take(letters).collect();
        let above = hidden("↑", shown[index].start, is_counted);
        let below = hidden("↓", of[index] - shown[index].end, is_counted);
        let text = format!("{name}{above}{below}");
        if index == focus {
            format!("[{text}]")
        } else {
            text
        }
    };
    let all = |letters: usize, is_counted: bool, between: &str| {
        [0, 1, 2].map(|index| pane(index, letters, is_counted)).join(between)
    };
    let long = all(9, true, "  ");
    let choices = [
        format!("{long}   N P refusals  ← → records  Tab ↑ ↓ scroll  C centre  ? keys  Q end"),
        format!("{long}   N P refusals  Tab ↑ ↓ scroll  ? keys  Q end"),
        format!("{long}  Tab ↑ ↓  ? keys"),
        format!("{long} ? keys"),
        format!("{} ? keys", all(1, true, " ")),
        format!("{} ? keys", all(1, false, " ")),
        format!("{} ?", all(1, false, "")),
    ];
    Line::strong(fitting(&choices, columns))
}

#[cfg(test)]
pub mod tests;
