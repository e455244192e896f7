//! A run step by step: for each step when it was there, its levels over time, the threads that were one step with it, what
//! it held, and what it was refused.

use gatekeeper::{Call, Label, Way};

use super::{Differs, End};
use crate::names::Names;
use crate::text::paragraph;
use gk_advice::asked::asked;
use gk_advice::calls::{shape_of_code, Role};
use gk_advice::run::{agrees, Content, Run, Step};
use gk_advice::scene::{capital, way_word, Lives, Scene};
use gk_advice::things::{mates, Thing, PLACES, STEPS};
use gk_advice::threads::named;

/// The time of one step under its number.
struct Stay {
    number: u64,
    called: String,
    from: u64,
    until: Option<u64>,
    /// Its labels, each from a record on, with the shop marks in words.
    labels: Vec<(u64, Label, String)>,
    /// Its mates from a record on, and what they are called; from the first record at which it has some.
    mates: Vec<(u64, Vec<u64>, String)>,
    handles: Vec<Hold>,
    refused: Vec<String>,
}

/// A handle that was held.
struct Hold {
    place: u64,
    way: Way,
    object: u64,
    called: String,
    from: u64,
    until: Option<u64>,
}

/// The whole journal, a paragraph for each step.
pub fn summary(journal: &[u8], names: &Names) -> Result<String, Differs> {
    let mut stays: Vec<Stay> = Vec::new();
    let mut elsewhere: Vec<String> = Vec::new();
    let mut lines = String::new();
    let mut lives = Lives::default();
    let mut end = End::default();
    let mut run = Run::new(journal);
    for step in &mut run {
        lines.push_str(&step.line());
        lines.push('\n');
        let before =
            Scene { monitor: &step.before, record: step.position, names, lives: &lives, unnamed: None };
        match step.refusal() {
            None => end.allowed += 1,
            Some(_) => {
                end.refused += 1;
                let (asker, words) = refused(&step, before);
                match asker.and_then(|s| present(&mut stays, s)) {
                    Some(stay) => stay.refused.push(words),
                    None => elsewhere.push(words),
                }
            }
        }
        lives.follow(&step);
        let after =
            Scene { monitor: &step.after, record: step.position, names, lives: &lives, unnamed: None };
        follow(&step, after, &mut stays);
    }
    lines.push_str(&run.end_line());
    lines.push('\n');
    if !agrees(journal, &lines) {
        return Err(Differs);
    }
    stays.sort_by_key(|stay| (stay.number, stay.from));
    let mut text: String = stays.iter().map(paragraphs).collect();
    if !elsewhere.is_empty() {
        text.push_str("Asked by no step that was there.\n");
        text.extend(elsewhere.iter().map(|words| paragraph("  Refused at ", words)));
    }
    let monitor = run.monitor();
    text.push_str(&format!(
        "{} steps. {} records allowed or lowered, {} refused. Handles: {} made, {} gone, {} still open.\n",
        stays.len(),
        end.allowed,
        end.refused,
        monitor.made(),
        monitor.gone(),
        monitor.open()
    ));
    Ok(text)
}

/// The stay of a step that is there.
fn present(stays: &mut [Stay], number: u64) -> Option<&mut Stay> {
    stays.iter_mut().rev().find(|stay| stay.number == number && stay.until.is_none())
}

/// A refusal in a line, and who asked.
fn refused(step: &Step, before: Scene) -> (Option<u64>, String) {
    let refusal = step
        .refusal()
        .map_or(String::new(), |refusal| format!("{}, {}", refusal.number(), refusal.words()));
    match step.content {
        Content::Call(call) => {
            let asker = shape_of_code(call.code())
                .filter(|shape| shape.parts().next().is_some_and(|(_, role)| role == Role::Step))
                .filter(|_| !matches!(call, Call::Admit { .. }))
                .map(|_| call.numbers()[0]);
            (asker, format!("record {}: {} ({refusal}).", step.position, asked(call, before, false)))
        }
        _ => (None, format!("record {}: no call ({refusal}).", step.position)),
    }
}

/// Takes note of what a record has changed for the steps that it names.
fn follow(step: &Step, after: Scene, stays: &mut Vec<Stay>) {
    let Content::Call(call) = step.content else {
        return;
    };
    if step.refusal().is_some() {
        return;
    }
    let parts = shape_of_code(call.code()).into_iter().flat_map(|shape| shape.parts());
    let steps = parts.zip(call.numbers()).filter(|((_, role), _)| *role == Role::Step);
    // A write to a mapped file can lower who has it mapped; else only the steps that the call names are concerned, and
    // their mates.
    let mut concerned: Vec<u64> = match call {
        Call::Write { .. } => (0..STEPS).collect(),
        _ => steps.map(|(_, number)| number).collect(),
    };
    for number in concerned.clone() {
        let more = mates(&step.before, number).chain(mates(&step.after, number));
        concerned.extend(more.filter(|mate| !concerned.contains(mate)).collect::<Vec<u64>>());
    }
    for number in concerned {
        follow_step(number, step, after, stays);
    }
}

fn follow_step(number: u64, step: &Step, after: Scene, stays: &mut Vec<Stay>) {
    let position = step.position;
    let label = step.after.subject(number);
    if step.before.subject(number).is_none() {
        if let Some(label) = label {
            stays.push(Stay {
                number,
                called: after.whole(Thing::Step(number)),
                from: position,
                until: None,
                labels: vec![(position, label, after.with_marks(label.shops))],
                mates: Vec::new(),
                handles: Vec::new(),
                refused: Vec::new(),
            });
        }
    }
    let Some(stay) = present(stays, number) else {
        return;
    };
    // A name that it was given since.
    if after.name(Thing::Step(number)).is_some() {
        stay.called = after.whole(Thing::Step(number));
    }
    let is_new = |label: &Label| stay.labels.last().is_none_or(|(_, last, _)| last != label);
    if let Some(label) = label.filter(is_new) {
        stay.labels.push((position, label, after.with_marks(label.shops)));
    }
    let mates: Vec<u64> = mates(&step.after, number).collect();
    let known = stay.mates.last().map_or(&[][..], |(_, known, _)| known);
    if label.is_some() && known != mates {
        let called = named(&mates, after);
        stay.mates.push((position, mates, called));
    }
    for place in 0..PLACES {
        let handle = step.after.handle(number, place);
        let known = stay.handles.iter_mut().rev().find(|hold| hold.place == place && hold.until.is_none());
        let is_same = match (&known, handle) {
            (Some(hold), Some(handle)) => hold.way == handle.way && hold.object == handle.object,
            (None, None) => true,
            _ => false,
        };
        if is_same {
            continue;
        }
        if let Some(hold) = known {
            hold.until = Some(position);
        }
        if let Some(handle) = handle {
            stay.handles.push(Hold {
                place,
                way: handle.way,
                object: handle.object,
                called: after.whole(Thing::Object(handle.object)),
                from: position,
                until: None,
            });
        }
    }
    if label.is_none() {
        stay.until = Some(position);
    }
}

fn paragraphs(stay: &Stay) -> String {
    let until =
        |until: Option<u64>| until.map_or("the end".to_string(), |record| format!("record {record}"));
    let mut text = paragraph(
        "",
        &format!("{}, from record {} to {}.", capital(&stay.called), stay.from, until(stay.until)),
    );
    let levels: Vec<String> = stay
        .labels
        .iter()
        .map(|(record, label, marks)| format!("{}{marks} from record {record} on", label.level))
        .collect();
    text.push_str(&paragraph("  ", &format!("Level: {}.", levels.join(", "))));
    let mates: Vec<String> = stay
        .mates
        .iter()
        .map(|(record, mates, called)| match mates.is_empty() {
            true => format!("by itself from record {record} on"),
            false => format!("with {called} from record {record} on"),
        })
        .collect();
    if !mates.is_empty() {
        text.push_str(&paragraph("  ", &format!("A thread of one step: {}.", mates.join(", "))));
    }
    if stay.handles.is_empty() {
        text.push_str("  Held nothing.\n");
    }
    for hold in &stay.handles {
        text.push_str(&paragraph(
            "  ",
            &format!(
                "Held place {}, {} {}, from record {} to {}.",
                hold.place,
                way_word(hold.way),
                hold.called,
                hold.from,
                until(hold.until)
            ),
        ));
    }
    if stay.refused.is_empty() {
        text.push_str("  Never refused.\n");
    }
    text.extend(stay.refused.iter().map(|words| paragraph("  Refused at ", words)));
    text
}
