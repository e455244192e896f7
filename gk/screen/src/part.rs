//! What a screen is made of: parts, which become lines of any width, and how these stand out.

use crate::text::wrapped;

/// How a line stands out where there is colour. No colour says what no word says.
#[derive(Clone, Copy, Debug, PartialEq, Eq)]
pub enum Look {
    Plain,
    Strong,
    Allowed,
    Lowered,
    Refused,
}

impl Look {
    fn code(self) -> &'static str {
        match self {
            Look::Plain => "",
            Look::Strong => "\u{1b}[1m",
            Look::Allowed => "\u{1b}[32m",
            Look::Lowered => "\u{1b}[33m",
            Look::Refused => "\u{1b}[31m",
        }
    }

    /// A text as it is sent to the terminal.
    pub fn coloured(self, text: &str, is_coloured: bool) -> String {
        match self {
            Look::Plain => text.to_string(),
            _ if !is_coloured => text.to_string(),
            look => format!("{}{text}\u{1b}[0m", look.code()),
        }
    }
}

/// A line of the screen.
#[derive(Clone, Debug, PartialEq, Eq)]
pub struct Line(pub Look, pub String);

impl Line {
    pub fn plain(text: impl Into<String>) -> Line {
        Line(Look::Plain, text.into())
    }

    pub fn strong(text: impl Into<String>) -> Line {
        Line(Look::Strong, text.into())
    }
}

/// A sentence or two that stand together, whatever the width.
#[derive(Clone, Debug)]
pub struct Part {
    pub look: Look,
    /// What stands before the first line.
    pub start: String,
    pub text: String,
    /// Columns before the later lines.
    pub indent: usize,
}

impl Part {
    pub fn new(look: Look, start: &str, text: String, indent: usize) -> Part {
        Part { look, start: start.to_string(), text, indent }
    }

    pub fn lines(&self, columns: usize) -> Vec<Line> {
        // Few columns are for the words.
        let lines = wrapped(&self.start, &self.text, self.indent.min(columns / 8), columns);
        lines.into_iter().map(|line| Line(self.look, line)).collect()
    }
}

/// A table: what stands over it, and its rows.
pub struct Table<T> {
    pub head: Vec<Line>,
    pub rows: Vec<Row<T>>,
}

/// A row, which may take several lines, and the thing that it tells of.
pub struct Row<T> {
    pub thing: Option<T>,
    pub lines: Vec<Line>,
}

impl<T> Row<T> {
    /// A row of plain lines.
    pub fn plain(thing: Option<T>, lines: Vec<String>) -> Row<T> {
        Row { thing, lines: lines.into_iter().map(Line::plain).collect() }
    }
}

impl<T> Table<T> {
    /// All lines, those over it first.
    pub fn lines(self) -> impl Iterator<Item = Line> {
        self.head.into_iter().chain(self.rows.into_iter().flat_map(|row| row.lines))
    }
}
