//! Which records of a journal are asked for: those of a step, of a file or pipe, of a call, with a refusal, or from one
//! record to another. A record is told where it is all that is asked for.

use gatekeeper::{Call, State as Monitor};
use gk_advice::calls::{shape_of_code, Role};
use gk_advice::run::{Content, Step};
use gk_advice::scene::Scene;
use gk_advice::things::{handles_of, handles_on, has_mapped, label, Held, Thing};
use gk_chain::chain_of;
use gk_names::number::{of_text, shown as with_commas};

use super::Which;
use crate::names::{Kind, Names};
use crate::text::{meant, shown};

/// What is asked of a journal. The default asks for every record.
#[derive(Clone, Debug, PartialEq, Eq)]
pub struct Question {
    pub which: Which,
    pub step: Option<Sought>,
    /// A file or pipe: they share their numbers.
    pub file: Option<Sought>,
    /// The code of a call.
    pub code: Option<u64>,
    /// The number of a refusal.
    pub refusal: Option<u32>,
    /// The first record and the last one.
    pub from: u64,
    pub to: u64,
}

/// A thing that is asked for.
#[derive(Clone, Debug, PartialEq, Eq)]
pub enum Sought {
    Number(u64),
    /// At the records at which it is called so.
    Name(String),
}

const STEP: &[Kind] = &[Kind::Step];
const FILE: &[Kind] = &[Kind::File, Kind::Pipe];

impl Default for Question {
    fn default() -> Question {
        let (from, to) = (1, u64::MAX);
        Question { which: Which::All, step: None, file: None, code: None, refusal: None, from, to }
    }
}

impl From<Which> for Question {
    fn from(which: Which) -> Question {
        Question { which, ..Question::default() }
    }
}

impl Question {
    /// Whether anything is asked beside which outcomes are to be told.
    pub fn is_narrow(&self) -> bool {
        *self != Question::from(self.which)
    }

    /// Whether a record is asked for; `scene` is the moment before it.
    pub fn asks_for(&self, step: &Step, scene: Scene) -> bool {
        let refusal = step.refusal().map(|refusal| refusal.number());
        (self.which == Which::All || refusal.is_some())
            && (self.from..=self.to).contains(&step.position)
            && self.code.is_none_or(|code| step.code == code)
            && self.refusal.is_none_or(|number| refusal == Some(number))
            && self.step.as_ref().is_none_or(|sought| sought.is_of(STEP, step, scene))
            && self.file.as_ref().is_none_or(|sought| sought.is_of(FILE, step, scene))
    }

    /// What is asked for, in words, and how many records that is.
    pub fn words(&self, told: u64, records: u64) -> String {
        let mut parts: Vec<String> = Vec::new();
        parts.extend(self.step.as_ref().map(|sought| sought.words("step")));
        parts.extend(self.file.as_ref().map(|sought| sought.words("file or pipe")));
        parts.extend(self.code.map(code_words));
        parts.extend(self.refusal.map(|number| format!("refusal {number}")));
        parts.extend(self.range());
        parts.extend((self.which == Which::Refused).then(|| "refused records alone".to_string()));
        let [told, records] = [told, records].map(with_commas);
        format!("Asked for: {}. That is {told} of {records} records.", parts.join("; "))
    }

    fn range(&self) -> Option<String> {
        let [from, to] = [self.from, self.to].map(with_commas);
        match (self.from, self.to) {
            (1, u64::MAX) => None,
            (_, u64::MAX) => Some(format!("from record {from} on")),
            (_, _) => Some(format!("from record {from} to record {to}")),
        }
    }

    /// What to say where a name is asked for that no step, or no file or pipe, ever has.
    pub fn unknown(&self, names: &Names) -> Option<String> {
        let step = self.step.as_ref().and_then(|sought| sought.unknown("step", STEP, names));
        step.or_else(|| self.file.as_ref()?.unknown("file or pipe", FILE, names))
    }
}

/// A code with the word of its call. Refusals have numbers of their own, and who means one is told how to ask for it.
fn code_words(code: u64) -> String {
    let word = shape_of_code(code).map_or("no call", |shape| shape.word);
    let number = u32::try_from(code).ok().and_then(gatekeeper::Refusal::from_number);
    let refusal =
        number.map_or(String::new(), |_| format!("; the refusal of this number: --refusal {code}"));
    format!("code {} ({word}{refusal})", with_commas(code))
}

impl Sought {
    /// A number, a kind with a number behind it, or a name; none where nothing stands there.
    pub fn of_text(text: &str) -> Option<Sought> {
        let words: Vec<&str> = text.split_whitespace().collect();
        let number = match words.as_slice() {
            [] => return None,
            [one] => of_text(one),
            ["step" | "file" | "pipe", number] => of_text(number),
            _ => None,
        };
        Some(number.map_or_else(|| Sought::Name(words.join(" ")), Sought::Number))
    }

    fn words(&self, kind: &str) -> String {
        match self {
            Sought::Number(number) => format!("{kind} {}", with_commas(*number)),
            Sought::Name(name) => format!("{kind} \"{}\"", shown(name)),
        }
    }

    fn unknown(&self, what: &str, kinds: &[Kind], names: &Names) -> Option<String> {
        let Sought::Name(name) = self else {
            return None;
        };
        let mut known: Vec<&str> = names
            .entries()
            .filter(|entry| kinds.contains(&entry.kind))
            .map(|entry| entry.name.as_str())
            .collect();
        known.sort_unstable();
        known.dedup();
        if known.contains(&name.as_str()) {
            return None;
        }
        let advice = match (meant(name, &known).as_slice(), known.is_empty()) {
            (_, true) => "None has a name here: ask for a number, or give --names FILE".to_string(),
            ([], _) => format!("Ask for a number, or for a name: {}", some(&known)),
            (meant, _) => format!("Did you mean: {}", some(meant)),
        };
        Some(format!("no {what} is called \"{}\". {advice}", shown(name)))
    }

    /// The thing of one of these kinds that is asked for, at a moment.
    fn thing(&self, kinds: &[Kind], scene: Scene) -> Option<Thing> {
        let thing = |number| if kinds == STEP { Thing::Step(number) } else { Thing::Object(number) };
        match self {
            Sought::Number(number) => Some(thing(*number)),
            Sought::Name(name) => {
                let (kind, number) = scene.names.find(name, scene.record)?;
                let thing = thing(number);
                let called = [scene.name(thing), scene.new_name(kind, number)];
                (kinds.contains(&kind) && called.contains(&Some(name.as_str()))).then_some(thing)
            }
        }
    }

    fn is_of(&self, kinds: &[Kind], step: &Step, scene: Scene) -> bool {
        self.thing(kinds, scene).is_some_and(|thing| concerns(step, thing))
    }
}

/// Names in quotes, the first ten.
fn some(names: &[&str]) -> String {
    let mut words: Vec<String> = names.iter().take(10).map(|name| format!("\"{}\"", shown(name))).collect();
    words.extend((names.len() > 10).then(|| "…".to_string()));
    words.join(", ")
}

/// Whether a record has to do with a thing: its call names it, or uses a handle on it; the thing's label or handles are
/// others after it; or the thing stands in the chain behind its refusal.
fn concerns(step: &Step, thing: Thing) -> bool {
    let Content::Call(call) = step.content else {
        return false;
    };
    is_named(call, thing)
        || is_used(call, thing, &step.before)
        || label(&step.before, thing) != label(&step.after, thing)
        || handles(&step.before, thing) != handles(&step.after, thing)
        || is_behind(step, call, thing)
}

/// Whether one of the call's numbers is the thing's.
fn is_named(call: Call, thing: Thing) -> bool {
    let parts = shape_of_code(call.code()).into_iter().flat_map(|shape| shape.parts()).zip(call.numbers());
    let mut things = parts.filter_map(|((_, role), number)| match role {
        Role::Step => Some(Thing::Step(number)),
        Role::Object | Role::File | Role::Pipe => Some(Thing::Object(number)),
        Role::Place | Role::Level | Role::Set => None,
    });
    things.any(|named| named == thing)
}

/// Whether the call is by a handle on the thing, or writes to a file that the thing, a step, has mapped.
fn is_used(call: Call, thing: Thing, monitor: &Monitor) -> bool {
    let object = used(call, monitor);
    match thing {
        Thing::Object(_) => object.map(Thing::Object) == Some(thing),
        Thing::Step(s) => {
            let is_write = matches!(call, Call::Write { .. });
            is_write && object.is_some_and(|object| has_mapped(monitor, s, object))
        }
    }
}

/// The file or pipe of the handle that a call goes by.
pub fn used(call: Call, monitor: &Monitor) -> Option<u64> {
    match call {
        Call::Read { subject, place }
        | Call::Write { subject, place }
        | Call::Close { subject, place }
        | Call::Mark { subject, place } => monitor.handle(subject, place).map(|handle| handle.object),
        _ => None,
    }
}

/// What a step holds, or who holds a file or pipe.
fn handles(monitor: &Monitor, thing: Thing) -> Vec<Held> {
    match thing {
        Thing::Step(s) => handles_of(monitor, s).collect(),
        Thing::Object(o) => handles_on(monitor, o).collect(),
    }
}

fn is_behind(step: &Step, call: Call, thing: Thing) -> bool {
    let chain = step.refusal().map(|refusal| chain_of(&step.before, refusal, call.code(), call.numbers()));
    chain.is_some_and(|chain| chain.iter().any(|link| link.thing == thing))
}
