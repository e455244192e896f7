//! An audit as tables for people.

use std::cmp::Reverse;

use gatekeeper::Refusal;
use gk_names::number::{grouped, shown as with_commas};

use super::one::{Called, Group};
use super::{Audit, Count, Verdict};
use crate::text::plain;

/// Records that are listed in one row.
const MOST_RECORDS: usize = 8;

/// The whole report.
pub fn text(audit: &Audit) -> String {
    let mut text = head(audit);
    text.push_str(&titled("By run", &by_run(audit)));
    text.push_str(&titled("By refusal", &by_refusal(audit)));
    text.push_str(&titled("By file or pipe", &by_file(audit)));
    if !audit.unread.is_empty() {
        text.push_str("\nNot read, and not cleared\n");
        let line = |unread: &super::Unread| {
            format!("  {}: {}\n", plain(&unread.path.to_string_lossy()), plain(&unread.why))
        };
        text.extend(audit.unread.iter().map(line));
    }
    format!("{text}\n{}\n", verdict(audit))
}

/// How much was read.
fn head(audit: &Audit) -> String {
    let journals = audit.runs.len() as u64;
    let refused = audit.refused().count() as u64;
    let mut text = format!(
        "{} read: {} with refusals, {} without. {} not read.\n",
        many(journals, "journal"),
        grouped(refused),
        grouped(journals - refused),
        grouped(audit.unread.len() as u64)
    );
    text.push_str(&format!(
        "{}: {} allowed, {} lowered, {} refused.\n",
        many(audit.sum(|run| run.records()), "record"),
        grouped(audit.sum(|run| run.allowed)),
        grouped(audit.sum(|run| run.lowered)),
        grouped(audit.sum(|run| run.refused))
    ));
    for (count, what) in [
        (audit.count(|run| run.is_cut_off()), "cut off (11, 14): what is behind is not answered"),
        (audit.count(|run| run.records() == 0), "empty"),
    ] {
        if count > 0 {
            text.push_str(&format!("{}: {what}.\n", many(count, "journal")));
        }
    }
    if audit.again > 0 {
        text.push_str(&format!("{} met again under another name, read once.\n", grouped(audit.again)));
    }
    if audit.others > 0 {
        text.push_str(&format!(
            "{} not looked at: the name of a journal ends in .journal.\n",
            many(audit.others, "other file")
        ));
    }
    text
}

fn verdict(audit: &Audit) -> String {
    match audit.verdict() {
        Verdict::Clear => "Nothing is refused, and every journal was read.".to_string(),
        Verdict::Refused if audit.unread.is_empty() => {
            "There are refusals. gk explain --refused JOURNAL says what to do.".to_string()
        }
        Verdict::Refused => {
            "There are refusals, and something was not read. gk explain --refused JOURNAL says what to do."
                .to_string()
        }
        Verdict::Unread => "Nothing is refused of what was read, but not everything was read.".to_string(),
    }
}

fn by_run(audit: &Audit) -> Vec<Vec<String>> {
    let called = |file: &Option<Called>| file.as_ref().map_or("-".to_string(), |file| plain(&file.called));
    let row = |path: &str, group: &Group| {
        vec![
            path.to_string(),
            group.refusal.number().to_string(),
            called(&group.file),
            called(&group.into),
            grouped(group.records.len() as u64),
            records(&group.records),
        ]
    };
    let mut rows = vec![words(&["run", "refusal", "file or pipe", "could reach", "times", "records"])];
    for (path, run) in audit.refused() {
        let path = plain(&path.to_string_lossy());
        rows.extend(run.groups.iter().map(|group| row(&path, group)));
    }
    rows
}

fn by_refusal(audit: &Audit) -> Vec<Vec<String>> {
    let mut rows = vec![words(&["refusal", "times", "runs", "meaning"])];
    for (number, count) in audit.by_refusal() {
        let meaning = Refusal::from_number(number).map_or("", Refusal::words);
        rows.push(vec![number.to_string(), grouped(count.times), grouped(count.runs), meaning.to_string()]);
    }
    rows
}

/// Those with the most refusals first.
fn by_file(audit: &Audit) -> Vec<Vec<String>> {
    let mut rows = vec![words(&["file or pipe", "times", "runs"])];
    let mut files: Vec<(&str, Count)> = audit.by_file().into_iter().collect();
    files.sort_by_key(|(_, count)| Reverse(count.times));
    for (called, count) in files {
        rows.push(vec![plain(called), grouped(count.times), grouped(count.runs)]);
    }
    rows
}

/// The positions of records, as many as fit.
fn records(all: &[u64]) -> String {
    let some: Vec<String> = all.iter().take(MOST_RECORDS).map(|&record| with_commas(record)).collect();
    match all.len().saturating_sub(MOST_RECORDS) {
        0 => some.join(" "),
        more => format!("{} and {} more", some.join(" "), grouped(more as u64)),
    }
}

/// "1 journal", "2 journals".
fn many(count: u64, what: &str) -> String {
    format!("{} {what}{}", grouped(count), if count == 1 { "" } else { "s" })
}

fn words(words: &[&str]) -> Vec<String> {
    words.iter().map(|word| word.to_string()).collect()
}

/// A table with a title; nothing where it has no row beside its first. Columns of numbers stand to the right.
fn titled(title: &str, rows: &[Vec<String>]) -> String {
    if rows.len() < 2 {
        return String::new();
    }
    let width = |column: usize| rows.iter().map(|row| row[column].chars().count()).max().unwrap_or(0);
    let widths: Vec<usize> = (0..rows[0].len()).map(width).collect();
    let cell = |(column, text): (usize, &String)| {
        let width = widths[column];
        match ["refusal", "times", "runs"].contains(&rows[0][column].as_str()) {
            true => format!("{text:>width$}"),
            false => format!("{text:<width$}"),
        }
    };
    let line = |row: &Vec<String>| {
        let cells: Vec<String> = row.iter().enumerate().map(cell).collect();
        format!("  {}\n", cells.join("  ").trim_end())
    };
    format!("\n{title}\n{}", rows.iter().map(line).collect::<String>())
}
