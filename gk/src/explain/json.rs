//! A journal as JSON, an object a line: one for each record, and a last one for the end. docs/JSON.md has the schema.

use gatekeeper::{Answer, Call, Kind as ObjectKind, State as Monitor, Way};
use gk_chain::Link;

use super::question::Question;
use super::{tell, Differs, Thread, Told};
use crate::names::{Kind, Names};
use gk_advice::calls::{assembly_of, shape_of_code};
use gk_advice::how::Act;
use gk_advice::run::{Content, Step};
use gk_advice::things::{is_file, Held, Thing};
use gk_advice::ways::Advice;

/// The records that are asked for, and the end.
pub fn json(journal: &[u8], names: &Names, question: impl Into<Question>) -> Result<String, Differs> {
    let question = question.into();
    let is_narrow = question.is_narrow();
    let mut text = String::new();
    let end = tell(journal, names, question, |told| {
        text.push_str(&record(&told).line());
    })?;
    let mut counts = Object::default();
    for (key, count) in [
        ("allowed", end.allowed),
        ("lowered", end.lowered),
        ("refused", end.refused),
        ("made", end.made),
        ("gone", end.gone),
        ("open", end.open),
    ] {
        counts.number(key, count);
    }
    if is_narrow {
        counts.number("told", end.told);
    }
    let mut last = Object::default();
    last.raw("end", counts.text());
    text.push_str(&last.line());
    Ok(text)
}

fn record(told: &Told) -> Object {
    let step = &told.step;
    let mut object = Object::default();
    object.number("record", step.position);
    object.number("code", step.code);
    match step.answer {
        Answer::Allowed(level) => {
            object.string("outcome", "allowed");
            object.number("level", level.into());
        }
        Answer::Lowered { level, lost } => {
            object.string("outcome", "lowered");
            object.number("level", level.into());
            object.number("lost", lost.into());
        }
        Answer::Refused(refusal) => {
            object.string("outcome", "refused");
            object.number("refusal", refusal.number().into());
            object.string("meaning", refusal.words());
        }
    }
    if let Content::Call(call) = step.content {
        call_fields(call, &told.names, &mut object);
    } else {
        object.digits(&[("code", step.code)]);
    }
    let said: Vec<String> =
        std::iter::once(&told.title).chain(&told.facts).map(|text| string(text)).collect();
    object.raw("said", list(&said));
    if !told.chain.is_empty() {
        let links: Vec<String> = told.chain.iter().map(|(link, name)| link_text(*link, name)).collect();
        let mut chain = Object::default();
        chain.raw("proved", "true".to_string());
        chain.raw("links", list(&links));
        if let Some(how) = &told.how {
            let acts: Vec<String> = how.acts.iter().map(act).collect();
            chain.string("text", &how.title);
            chain.raw("acts", list(&acts));
        }
        object.raw("chain", chain.text());
    }
    if !told.threads.is_empty() {
        let threads: Vec<String> = told.threads.iter().map(|thread| thread_text(thread, step)).collect();
        object.raw("threads", list(&threads));
    }
    if step.refusal().is_some() {
        let ways: Vec<String> = told.counsel.ways.iter().map(way).collect();
        object.raw("advice", list(&ways));
        let notes: Vec<String> = told.counsel.notes.iter().map(|note| string(note)).collect();
        object.raw("notes", list(&notes));
    }
    object
}

/// The call's word, its numbers, and the names that they have.
fn call_fields(call: Call, names: &[(&'static str, String)], object: &mut Object) {
    let Some(shape) = shape_of_code(call.code()) else {
        return;
    };
    object.string("call", shape.word);
    object.string("words", &assembly_of(call));
    let parts: Vec<(&str, u64)> = shape.numbers.iter().copied().zip(call.numbers()).collect();
    let mut numbers = Object::default();
    for &(key, number) in &parts {
        numbers.number(key, number);
    }
    object.raw("numbers", numbers.text());
    object.digits(&parts);
    if !names.is_empty() {
        let mut named = Object::default();
        for (key, name) in names {
            named.string(key, name);
        }
        object.raw("names", named.text());
    }
}

fn link_text(link: Link, name: &str) -> String {
    let (kind, number) = match (link.thing, link.kind) {
        (Thing::Step(s), _) => (Kind::Step, s),
        (Thing::Object(o), Some(ObjectKind::File)) => (Kind::File, o),
        (Thing::Object(o), _) => (Kind::Pipe, o),
    };
    let mut object = Object::default();
    object.string("kind", kind.word());
    object.number("number", number);
    object.digits(&[("number", number)]);
    object.number("level", link.label.level.into());
    object.number("set", link.label.shops.into());
    object.string("called", name);
    object.text()
}

/// A thread of the step that asks, and what it holds.
fn thread_text(thread: &Thread, step: &Step) -> String {
    let monitor = if thread.is_ended { &step.before } else { &step.after };
    let holds: Vec<String> = thread.holds.iter().map(|held| held_text(held, monitor)).collect();
    let mut object = Object::default();
    object.number("number", thread.number);
    object.number("level", thread.label.level.into());
    object.number("set", thread.label.shops.into());
    object.string("called", &thread.called);
    if thread.is_ended {
        object.raw("ended", "true".to_string());
    }
    object.raw("holds", list(&holds));
    object.text()
}

fn held_text(held: &Held, monitor: &Monitor) -> String {
    let way = match held.handle.way {
        Way::Reads => "reads",
        Way::Writes => "writes",
        Way::Maps => "maps",
    };
    let kind = if is_file(monitor, held.object()) { Kind::File } else { Kind::Pipe };
    let mut object = Object::default();
    object.number("place", held.place);
    object.string("way", way);
    object.string("kind", kind.word());
    object.number("number", held.object());
    object.digits(&[("number", held.object())]);
    if held.handle.marked {
        object.raw("marked", "true".to_string());
    }
    object.text()
}

fn way(advice: &Advice) -> String {
    let mut object = Object::default();
    object.string("text", &advice.text);
    object.raw("calls", lines(&advice.calls));
    object.text()
}

fn act(act: &Act) -> String {
    let mut object = Object::default();
    object.string("text", &act.text);
    object.raw("does", lines(&act.calls));
    object.text()
}

/// Calls as lines for `gk assemble`.
fn lines(calls: &[Call]) -> String {
    let calls: Vec<String> = calls.iter().map(|&call| string(&assembly_of(call))).collect();
    list(&calls)
}

/// The highest number up to which every whole number is exact in JavaScript: 2 to the 53rd, less 1.
const MOST_EXACT: u64 = (1 << 53) - 1;

/// An object's fields in their order, each as JSON.
#[derive(Default)]
pub struct Object {
    fields: Vec<String>,
}

impl Object {
    pub fn raw(&mut self, key: &str, value: String) {
        self.fields.push(format!("{}:{value}", string(key)));
    }

    pub fn string(&mut self, key: &str, value: &str) {
        self.raw(key, string(value));
    }

    pub fn number(&mut self, key: &str, value: u64) {
        self.raw(key, value.to_string());
    }

    /// Those of some numbers that a reader with numbers of 53 bits would round, as strings.
    pub fn digits(&mut self, numbers: &[(&str, u64)]) {
        let mut long = Object::default();
        for (key, number) in numbers.iter().filter(|(_, number)| *number > MOST_EXACT) {
            long.string(key, &number.to_string());
        }
        if !long.fields.is_empty() {
            self.raw("digits", long.text());
        }
    }

    pub fn text(&self) -> String {
        format!("{{{}}}", self.fields.join(","))
    }

    pub fn line(&self) -> String {
        format!("{}\n", self.text())
    }
}

pub fn list(values: &[String]) -> String {
    format!("[{}]", values.join(","))
}

/// A string in quotes, with what JSON asks to be escaped.
pub fn string(text: &str) -> String {
    let mut quoted = String::from('"');
    for character in text.chars() {
        match character {
            '"' => quoted.push_str("\\\""),
            '\\' => quoted.push_str("\\\\"),
            control if control < ' ' => quoted.push_str(&format!("\\u{:04x}", control as u32)),
            other => quoted.push(other),
        }
    }
    quoted.push('"');
    quoted
}

#[cfg(test)]
mod tests {
    use super::{string, Object};

    #[test]
    fn what_would_be_rounded_is_there_as_digits() {
        let mut object = Object::default();
        object.digits(&[("s", 0), ("o", 9_007_199_254_740_991)]);
        assert_eq!(object.text(), "{}");
        object.digits(&[("s", 0), ("o", 9_007_199_254_740_992), ("a", u64::MAX)]);
        let digits = r#"{"digits":{"o":"9007199254740992","a":"18446744073709551615"}}"#;
        assert_eq!(object.text(), digits);
    }

    #[test]
    fn strings_are_escaped() {
        assert_eq!(string("a\"b\\c\n→"), "\"a\\\"b\\\\c\\u000a→\"");
    }
}
