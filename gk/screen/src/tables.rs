//! The tables of the screen: who runs and holds what, which files and pipes there are.

use gatekeeper::{Kind, Label, Way};
use gk_names::number::shown;
use gk_names::shops;

use crate::part::{Line, Row, Table};
use crate::phrase::ranges;
use crate::state::{Thing, OBJECTS};
use crate::terminal::Screen;
use crate::text::{fitted, width, wrapped};

/// Columns of a number in a table: what has up to eight digits.
const NUMBER: usize = 10;

/// Columns of a list of steps that write.
const WRITERS: usize = 20;

/// Columns that a table leaves to its last list, over which stands "read by"; with fewer, a row is a sentence.
const LAST: usize = 7;

impl Screen {
    fn name(&self, kind: &str, n: u64) -> String {
        self.names.name(kind, n, self.position()).unwrap_or("").to_string()
    }

    /// "file" or "pipe".
    fn kind(&self, o: u64) -> &'static str {
        if self.state.kind(o) == Some(Kind::File) {
            "file"
        } else {
            "pipe"
        }
    }

    /// What a step holds, by place.
    fn held(&self, s: u64) -> String {
        let held = self.state.held(s).map(|(p, handle)| {
            let way = match handle.way {
                Way::Reads => "reads",
                Way::Writes => "writes",
                Way::Maps => "maps",
            };
            let mark = if handle.marked { ", marked" } else { "" };
            format!("{p}: {way} {} {}{mark}", self.kind(handle.object), shown(handle.object))
        });
        let held: Vec<String> = held.collect();
        if held.is_empty() {
            "nothing".to_string()
        } else {
            held.join("; ")
        }
    }

    /// The running steps. Where the columns are too few for a table, each is a sentence.
    pub fn steps(&self, columns: usize) -> Table<Thing> {
        let state = &self.state;
        let groups = state.groups();
        let rows: Vec<(u64, String)> =
            groups.iter().flatten().map(|&s| (s, self.name("step", s))).collect();
        let names = name_columns(&rows, columns).max(2);
        let labels = rows.iter().filter_map(|(s, _)| Some(self.label(state.step(*s)?.label)));
        let levels = level_columns(labels);
        let is_table = names + levels + 19 + 3 * LAST <= columns;
        let head = match is_table {
            true => {
                format!("{} {:<levels$}  may fall to  holds", fitted("Steps", 3 + names), "level")
            }
            false => format!("Steps: {}", rows.len()),
        };
        let mut table = Table { head: vec![Line::strong(head)], rows: Vec::new() };
        for (s, name) in &rows {
            let Some(step) = state.step(*s) else {
                continue;
            };
            let (label, need, held) = (self.label(step.label), self.label(step.need), self.held(*s));
            let lines = if is_table {
                let start = format!("{s:>2} {} {label:<levels$}  {need:<11}  ", fitted(name, names));
                wrapped(&start, &held, width(&start), columns)
            } else {
                let (label, need) = (label.trim_start(), need.trim_start());
                let text = format!("level {label}, may fall to {need}; holds {held}");
                wrapped(&format!("{s:>2} "), &named(name, &text), 3, columns)
            };
            table.rows.push(Row::plain(Some(Thing::Step(*s)), lines));
            // Below the last one of them: threads of one step stand together.
            if let Some(group) = groups.iter().find(|group| group.len() > 1 && group.last() == Some(s)) {
                let words = format!("threads of one step: {}", ranges(group));
                table.rows.push(Row::plain(None, wrapped("   ", &words, 5, columns)));
            }
        }
        if rows.is_empty() {
            table.rows.push(Row::plain(None, vec!["no step runs".to_string()]));
        }
        table
    }

    /// The steps that hold a file or pipe in one of these ways, in short.
    fn who(&self, o: u64, way: Way) -> String {
        let holders = self.state.holders(o).filter(|(_, _, handle)| handle.way == way);
        let mut steps: Vec<u64> = holders.map(|(s, _, _)| s).collect();
        steps.dedup();
        ranges(&steps)
    }

    /// Who reads a file or pipe and who has it mapped.
    fn readers(&self, o: u64) -> String {
        let (readers, mappers) = (self.who(o, Way::Reads), self.who(o, Way::Maps));
        match (readers.is_empty(), mappers.is_empty()) {
            (_, true) => or_none(readers),
            (true, false) => format!("mapped by {mappers}"),
            (false, false) => format!("{readers}; mapped by {mappers}"),
        }
    }

    /// The files and pipes. Where the columns are too few for a table, each is a sentence.
    pub fn objects(&self, columns: usize) -> Table<Thing> {
        let state = &self.state;
        let rows: Vec<(u64, String)> =
            state.objects().map(|(o, _)| (o, self.name(self.kind(o), o))).collect();
        let names = name_columns(&rows, columns).max(8);
        let numbers = number_columns(&rows);
        let levels = level_columns(state.objects().map(|(_, object)| self.label(object.label)));
        let start = 9 + numbers + names + levels;
        let is_table = start + WRITERS + 2 + LAST <= columns;
        let live = format!("{} of {OBJECTS} live", rows.len());
        let head = if is_table {
            let head = fitted("Files and pipes", 6 + numbers + names);
            let head = format!("{head} {:<levels$}  {:<WRITERS$}  read by", "level", "written by");
            // The count stands at the end of the line, or where there is no room below it.
            match columns.checked_sub(width(&head) + width(&live)).filter(|&gap| gap > 1) {
                Some(gap) => vec![Line::strong(format!("{head}{}{live}", " ".repeat(gap)))],
                None => vec![Line::strong(head), Line::plain(live)],
            }
        } else {
            let head = wrapped("", &format!("Files and pipes: {live}"), 2, columns);
            head.into_iter().map(Line::strong).collect()
        };
        let mut table = Table { head, rows: Vec::new() };
        for ((o, object), (_, name)) in state.objects().zip(&rows) {
            let label = self.label(object.label);
            let lines = if is_table {
                let name = format!("{} {label:<levels$}", fitted(name, names));
                self.object_row(o, &name, numbers, columns)
            } else {
                let (label, writers) = (label.trim_start(), or_none(self.who(o, Way::Writes)));
                let text = format!("level {label}; written by {writers}; read by {}", self.readers(o));
                let start = format!("{} {} ", self.kind(o), shown(o));
                wrapped(&start, &named(name, &text), 3, columns)
            };
            table.rows.push(Row::plain(Some(Thing::Object(o)), lines));
        }
        if rows.is_empty() {
            table.rows.push(Row::plain(None, vec!["no file and no pipe".to_string()]));
        }
        if state.is_marked() {
            table.rows.push(Row::plain(None, wrapped("Shop marks: ", &self.legend(), 12, columns)));
        }
        table
    }

    /// The lines of a file or pipe in the table.
    fn object_row(&self, o: u64, name: &str, numbers: usize, columns: usize) -> Vec<String> {
        let (mut word, mut number) = (self.kind(o), shown(o));
        let mut lines = Vec::new();
        if width(&number) > numbers {
            // A long one stands alone, so that what is behind it keeps its columns.
            lines.push(format!("{word} {number}"));
            (word, number) = ("", String::new());
        }
        let start = format!("{word:4} {number:>numbers$} {name}  ");
        let (writers, readers) = (or_none(self.who(o, Way::Writes)), self.readers(o));
        let indent = width(&start) + WRITERS + 2;
        if width(&writers) <= WRITERS {
            let start = format!("{start}{}  ", fitted(&writers, WRITERS));
            lines.extend(wrapped(&start, &readers, indent, columns));
        } else {
            lines.extend(wrapped(&start, &writers, width(&start), columns));
            lines.extend(wrapped(&" ".repeat(indent), &readers, indent, columns));
        }
        lines
    }

    /// A label in a table: the level, and small beside it the set of shop marks.
    fn label(&self, label: Label) -> String {
        let signs = self.names.signs(self.position());
        format!("{:>2} {}", label.level, shops::compact(label.shops, &signs))
    }

    /// Which sign is which shop group's.
    fn legend(&self) -> String {
        let signs = self.names.signs(self.position());
        let named = (0..).zip(signs).filter_map(|(group, sign)| {
            Some(format!("{sign} {}", self.names.name("shop", group, self.position())?))
        });
        let named: Vec<String> = named.collect();
        let numbers =
            if named.len() < signs.len() { "a digit is the number of a shop group, " } else { "" };
        let named = if named.is_empty() { String::new() } else { format!("{}; ", named.join(", ")) };
        format!("{named}{numbers}· is one that is not there")
    }
}

/// Columns of levels with their shop marks.
fn level_columns(labels: impl Iterator<Item = String>) -> usize {
    labels.map(|label| width(&label)).max().unwrap_or(0).max(5)
}

/// Columns of the numbers of files and pipes: as many as the longest has that is not too long for a table.
fn number_columns(rows: &[(u64, String)]) -> usize {
    rows.iter().map(|&(o, _)| width(&shown(o))).filter(|&width| width <= NUMBER).max().unwrap_or(0).max(2)
}

/// Columns for names: none where there is none, and no more than a quarter of the screen.
fn name_columns(rows: &[(u64, String)], columns: usize) -> usize {
    rows.iter().map(|(_, name)| width(name)).max().unwrap_or(0).min(columns.div_ceil(4))
}

fn or_none(list: String) -> String {
    if list.is_empty() {
        "-".to_string()
    } else {
        list
    }
}

/// A text about a thing, behind its name where it has one.
fn named(name: &str, text: &str) -> String {
    if name.is_empty() {
        text.to_string()
    } else {
        format!("{name}: {text}")
    }
}
