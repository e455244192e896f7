//! Tables of figures, for a terminal or as markdown.

/// Columns of text. The first is set to the left, and so are the others if they are words; figures are set to the right.
pub struct Table {
    rows: Vec<Vec<String>>,
    words: bool,
}

impl Table {
    pub fn of_figures(header: &[impl ToString]) -> Table {
        Table { rows: vec![header.iter().map(ToString::to_string).collect()], words: false }
    }

    pub fn of_words(header: &[impl ToString]) -> Table {
        Table { words: true, ..Table::of_figures(header) }
    }

    pub fn row(&mut self, cells: Vec<String>) {
        self.rows.push(cells);
    }

    pub fn text(&self, markdown: bool) -> String {
        if markdown {
            self.markdown()
        } else {
            self.plain()
        }
    }

    fn markdown(&self) -> String {
        let mut text = String::new();
        for (index, row) in self.rows.iter().enumerate() {
            text += &format!("| {} |\n", row.join(" | "));
            if index == 0 {
                let column = if self.words { "---|" } else { "---:|" };
                text += &format!("|---|{}\n", column.repeat(row.len() - 1));
            }
        }
        text
    }

    fn plain(&self) -> String {
        let columns = self.rows[0].len();
        let width =
            |column: usize| self.rows.iter().map(|row| row[column].chars().count()).max().unwrap_or(0);
        let widths: Vec<usize> = (0..columns).map(width).collect();
        let mut text = String::new();
        for row in &self.rows {
            let cells = row.iter().zip(&widths).enumerate().map(|(column, (cell, &width))| match column {
                column if column == 0 || self.words => format!("{cell:width$}"),
                _ => format!("{cell:>width$}"),
            });
            text += cells.collect::<Vec<String>>().join("  ").trim_end();
            text.push('\n');
        }
        text
    }
}

/// Nanoseconds, or microseconds where they are many.
pub fn time(nanoseconds: f64) -> String {
    if nanoseconds < 1000.0 {
        format!("{nanoseconds:.1} ns")
    } else {
        format!("{:.2} µs", nanoseconds / 1000.0)
    }
}

/// A number of instructions; where they are few, with a decimal.
pub fn count(number: f64) -> String {
    if number < 1000.0 {
        format!("{number:.1}")
    } else {
        whole(number)
    }
}

/// A whole number, with commas.
pub fn whole(number: f64) -> String {
    let digits = format!("{number:.0}");
    let mut text = String::new();
    for (index, digit) in digits.chars().enumerate() {
        if index > 0 && (digits.len() - index) % 3 == 0 {
            text.push(',');
        }
        text.push(digit);
    }
    text
}

#[cfg(test)]
mod tests {
    use super::*;

    #[test]
    fn figures_are_written() {
        assert_eq!([time(8.54), time(43_390.0)], ["8.5 ns", "43.39 µs"]);
        assert_eq!([count(112.94), count(999.96)], ["112.9", "1000.0"]);
        assert_eq!([whole(16.0), count(1000.0), count(2_886_270.4)], ["16", "1,000", "2,886,270"]);
    }

    #[test]
    fn a_table_is_written_in_both_ways() {
        let mut table = Table::of_figures(&["input", "calls"]);
        table.row(vec!["8 rings".to_string(), "9".to_string()]);
        assert_eq!(table.text(false), "input    calls\n8 rings      9\n");
        assert_eq!(table.text(true), "| input | calls |\n|---|---:|\n| 8 rings | 9 |\n");
    }
}
