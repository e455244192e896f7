//! An audit as JSON, an object a line: one for each journal, and a last one for the end. docs/JSON.md has the schema.

use gatekeeper::Refusal;

use super::one::{Called, Group, Run};
use super::{Audit, Count, Unread};
use crate::explain::json::{list, Object};

/// The whole report.
pub fn text(audit: &Audit) -> String {
    let runs = audit.runs.iter().map(|(path, run)| run_text(&path.to_string_lossy(), run));
    let unread = audit.unread.iter().map(unread_text);
    runs.chain(unread).chain([end(audit)]).collect()
}

fn run_text(path: &str, run: &Run) -> String {
    let groups: Vec<String> = run.groups.iter().map(group).collect();
    let mut object = Object::default();
    object.string("run", path);
    object.number("records", run.records());
    object.number("allowed", run.allowed);
    object.number("lowered", run.lowered);
    object.number("refused", run.refused);
    object.raw("refusals", list(&groups));
    if run.is_cut_off() {
        object.raw("cut_off", "true".to_string());
    }
    object.line()
}

fn group(group: &Group) -> String {
    let records: Vec<String> = group.records.iter().map(u64::to_string).collect();
    let mut object = Object::default();
    object.number("refusal", group.refusal.number().into());
    object.string("meaning", group.refusal.words());
    for (key, file) in [("file", &group.file), ("into", &group.into)] {
        if let Some(file) = file {
            object.raw(key, called(file));
        }
    }
    object.number("times", group.records.len() as u64);
    object.raw("records", list(&records));
    object.text()
}

fn called(file: &Called) -> String {
    let mut object = Object::default();
    object.number("number", file.number);
    object.digits(&[("number", file.number)]);
    object.string("called", &file.called);
    object.text()
}

fn unread_text(unread: &Unread) -> String {
    let mut object = Object::default();
    object.string("unread", &unread.path.to_string_lossy());
    object.string("why", &unread.why);
    object.line()
}

fn end(audit: &Audit) -> String {
    let mut end = Object::default();
    for (key, count) in [
        ("read", audit.runs.len() as u64),
        ("with_refusals", audit.refused().count() as u64),
        ("cut_off", audit.count(Run::is_cut_off)),
        ("empty", audit.count(|run| run.records() == 0)),
        ("unread", audit.unread.len() as u64),
        ("others", audit.others),
        ("again", audit.again),
        ("allowed", audit.sum(|run| run.allowed)),
        ("lowered", audit.sum(|run| run.lowered)),
        ("refused", audit.sum(|run| run.refused)),
    ] {
        end.number(key, count);
    }
    let refusals: Vec<String> = audit.by_refusal().into_iter().map(refusal).collect();
    let files: Vec<String> = audit.by_file().into_iter().map(file).collect();
    end.raw("refusals", list(&refusals));
    end.raw("files", list(&files));
    end.number("status", audit.verdict().status().into());
    let mut last = Object::default();
    last.raw("end", end.text());
    last.line()
}

fn refusal((number, count): (u32, Count)) -> String {
    let mut object = Object::default();
    object.number("refusal", number.into());
    object.string("meaning", Refusal::from_number(number).map_or("", Refusal::words));
    counts(count, &mut object);
    object.text()
}

fn file((called, count): (&str, Count)) -> String {
    let mut object = Object::default();
    object.string("called", called);
    counts(count, &mut object);
    object.text()
}

fn counts(count: Count, object: &mut Object) {
    object.number("times", count.times);
    object.number("runs", count.runs);
}
