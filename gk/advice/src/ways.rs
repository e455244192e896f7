//! Ways out of a refusal. Each has been tried: its calls were made one after the other on a copy of the monitor, and
//! none of them was refused. What is said to be refused all the same has been tried, too.

mod closing;
mod cut;
mod flow;
mod frozen;
mod numbers;
mod places;
mod room;

use gatekeeper::{Answer, Call, Label, Refusal, State as Monitor, NO_FREEZE};
use gk_chain::is_nine_once_open;

pub use closing::places_words;

use crate::scene::{listed, Closing, Scene};
use crate::things::{is_frozen, Held, ALL_SHOPS, HIGHEST};

/// Things of a kind that are named one by one.
const MOST_NAMED: usize = 3;

/// A way out: what to do in words, and the calls that do it. The last one is most often the call that was refused.
#[derive(Clone, Debug, PartialEq, Eq)]
pub struct Advice {
    pub text: String,
    pub calls: Vec<Call>,
}

/// The ways out of a refusal, the cheapest first, and what else is to be known.
#[derive(Clone, Debug, Default, PartialEq, Eq)]
pub struct Counsel {
    pub ways: Vec<Advice>,
    pub notes: Vec<String>,
}

impl Counsel {
    /// An advice that names no calls, and so cannot be tried.
    pub fn without_calls(text: String) -> Counsel {
        Counsel { ways: vec![Advice { text, calls: Vec::new() }], notes: Vec::new() }
    }

    /// Whether there is an advice that was tried.
    pub fn is_tried(&self) -> bool {
        self.ways.iter().any(|way| !way.calls.is_empty())
    }

    fn way(&mut self, text: String, calls: Vec<Call>) {
        self.ways.push(Advice { text, calls });
    }

    fn note(&mut self, text: String) {
        self.notes.push(text);
    }
}

/// A level and those above it, to follow "level".
pub fn or_above(level: u64) -> String {
    if level >= HIGHEST {
        level.to_string()
    } else {
        format!("{level} or above")
    }
}

/// The ways out of a call's refusal; `scene` is the moment before it.
pub fn counsel(call: Call, refusal: Refusal, scene: Scene, closing: Option<Closing>) -> Counsel {
    let mut counsel = match refusal {
        Refusal::NoSubject => numbers::missing_step(call, scene),
        Refusal::NumberTaken => numbers::taken(call, scene),
        Refusal::NoObject => numbers::missing_object(call, scene),
        Refusal::IsPipe => numbers::named_pipe(call, scene),
        Refusal::LevelTooHigh => numbers::high_level(call, scene),
        Refusal::PlaceUnfit => places::unfit(call, scene),
        Refusal::WrongDirection => places::wrong_direction(call, scene),
        Refusal::Flow => flow::counsel(call, scene),
        Refusal::StillOpen => closing::still_open(call, scene),
        Refusal::Frozen => frozen::counsel(call, scene),
        Refusal::SameSubject => numbers::same_step(call, scene),
        Refusal::TooManyObjects => room::counsel(call, scene),
        _ => Counsel::default(),
    };
    if let (Call::OpenWrite { object, .. }, Some(closing)) = (call, closing) {
        if refusal != Refusal::Frozen && is_frozen(scene.monitor, object) {
            counsel.note(format!(
                "Also: the books are {}, so that the open is refused with 15 when nothing else is in the way, until \
                 they are open again (freeze {NO_FREEZE}).",
                closing.words()
            ));
        }
    }
    if counsel.ways.is_empty() && counsel.notes.is_empty() {
        counsel.note("No other number that was tried in its place is allowed either.".to_string());
    }
    counsel
}

/// Makes calls one after the other on a copy: the copy after them, or the first refusal.
pub fn tried(monitor: &Monitor, calls: &[Call]) -> Result<Monitor, Refusal> {
    let mut copy = monitor.clone();
    for &call in calls {
        copy.call(call).granted()?;
    }
    Ok(copy)
}

/// Why a call would be refused.
fn refusal_of(monitor: &Monitor, call: Call) -> Option<Refusal> {
    match monitor.clone().call(call) {
        Answer::Refused(refusal) => Some(refusal),
        _ => None,
    }
}

/// What leads to a call's being let through now, the call last: it alone, or the books opened before it.
fn aim(monitor: &Monitor, call: Call) -> Option<Vec<Call>> {
    match refusal_of(monitor, call) {
        None => Some(vec![call]),
        Some(Refusal::Frozen) => {
            let calls = vec![Call::Freeze { level: NO_FREEZE }, call];
            tried(monitor, &calls).is_ok().then_some(calls)
        }
        Some(_) => None,
    }
}

/// The same after other calls, which come first in what is given.
fn aim_after(monitor: &Monitor, first: &[Call], call: Call) -> Option<Vec<Call>> {
    let then = aim(&tried(monitor, first).ok()?, call)?;
    Some(first.iter().copied().chain(then).collect())
}

/// The shop marks that a thing from outside is to have in an advice.
#[derive(Clone, Copy, Debug, PartialEq, Eq)]
enum Marks {
    /// These, and any others may be there.
    AtLeast(u8),
    /// No others than these.
    AtMost(u8),
}

impl Marks {
    /// The set that the advised calls have. Where no mark is asked for, it is the one with all of them, as where nothing is
    /// said of shop marks.
    fn set(self) -> u8 {
        match self {
            Marks::AtLeast(0) => ALL_SHOPS,
            Marks::AtLeast(set) | Marks::AtMost(set) => set,
        }
    }

    /// To follow a level: " with the shop marks of north and east". Nothing where all shop marks will do and no other set is
    /// better, so that nothing is said where shop marks are not used.
    fn words(self, scene: Scene) -> String {
        match self {
            Marks::AtLeast(0 | ALL_SHOPS) => String::new(),
            Marks::AtLeast(set) => format!(" with {}", scene.marks(set)),
            Marks::AtMost(0) => " with no shop marks".to_string(),
            Marks::AtMost(set) => {
                let marks = scene.marks(set).replacen("shop ", "", 1);
                format!(" with no other shop marks than {marks}")
            }
        }
    }
}

/// The shop marks with which there are calls: the fewest where with all of them there are, or else the most where with
/// none there are; none where there are not. What a call asks of a thing from outside goes one way only: it is to have at
/// least some, or at most some.
fn marks_for(has_calls: impl Fn(u8) -> bool) -> Option<Marks> {
    let each = || (0..8).map(|group| 1u8 << group);
    if has_calls(ALL_SHOPS) {
        let fewer = |set: u8, mark: u8| if has_calls(set & !mark) { set & !mark } else { set };
        return Some(Marks::AtLeast(each().fold(ALL_SHOPS, fewer)));
    }
    has_calls(0).then(|| {
        let more = |set: u8, mark: u8| if has_calls(set | mark) { set | mark } else { set };
        Marks::AtMost(each().fold(0, more))
    })
}

/// A label of an advice, as numbers of a call.
fn label_of(level: u64, shops: u8) -> Label {
    Label { level: u8::try_from(level).unwrap_or(u8::MAX), shops }
}

/// The least level from which on, up to the highest, there are calls, the shop marks that go with it, and the calls of that
/// level.
fn from_level(calls_at: impl Fn(Label) -> Option<Vec<Call>>) -> Option<(u64, Marks, Vec<Call>)> {
    let marks = marks_for(|set| calls_at(label_of(HIGHEST, set)).is_some())?;
    let at = |level: u64| calls_at(label_of(level, marks.set())).map(|calls| (level, marks, calls));
    (0..=HIGHEST).rev().map_while(at).last()
}

/// Levels at which there are calls, the shop marks that go with them, and the calls of the lowest.
struct Between {
    low: u64,
    high: u64,
    marks: Marks,
    calls: Vec<Call>,
}

/// The lowest level at which there are calls, the highest up to which there are at all between, and the calls of the
/// lowest. Where these do not open the books, those between do not, either.
fn between_levels(calls_at: impl Fn(Label) -> Option<Vec<Call>>) -> Option<Between> {
    let lowest = |set: u8| (0..=HIGHEST).find_map(|level| Some((level, calls_at(label_of(level, set))?)));
    let marks = marks_for(|set| lowest(set).is_some())?;
    let set = marks.set();
    let (low, calls) = lowest(set)?;
    let is_like = |level: &u64| {
        calls_at(label_of(*level, set)).is_some_and(|others| opens_books(&others) == opens_books(&calls))
    };
    let high = (low..=HIGHEST).take_while(is_like).last()?;
    Some(Between { low, high, marks, calls })
}

/// These levels with their shop marks, and what a level means to who gives one.
fn level_words(between: &Between, scene: Scene) -> String {
    let Between { low, high, marks, .. } = *between;
    let at = match (low, high) {
        (0, HIGHEST) => "at any level".to_string(),
        (_, HIGHEST) => format!("at level {}", or_above(low)),
        _ if low == high => format!("at level {low}"),
        _ => format!("at level {low} to {high}"),
    };
    at + &marks.words(scene)
}

/// What is to be minded where a thing from outside is to get such a label.
fn no_higher(between: &Between, scene: Scene) -> String {
    match between.marks.words(scene).is_empty() {
        true => NO_HIGHER.to_string(),
        false => format!("{NO_HIGHER} {NO_MORE}"),
    }
}

/// Said where a thing from outside is to get a level.
const NO_HIGHER: &str = "A level says how well a thing has been looked over: give it no higher one.";

/// And likewise where it is to get shop marks.
const NO_MORE: &str = "A shop mark says that a shop group is vouched for: give it none that is not.";

/// Whether the calls of an [`aim`] open the books.
fn opens_books(calls: &[Call]) -> bool {
    calls.contains(&Call::Freeze { level: NO_FREEZE })
}

/// " once the books are open again (freeze 16)", where the calls open them.
fn once_open(calls: &[Call]) -> &'static str {
    if opens_books(calls) {
        " once the books are open again (freeze 16)"
    } else {
        ""
    }
}

/// What a call would be refused with, in words, to follow "it would be".
fn refused_words(refusal: Refusal) -> String {
    format!("refused with {}: {}", refusal.number(), refusal.words())
}

/// What a call would be refused with here, to follow "it would be"; where that is 15, also the 9 behind it.
fn refused_here(monitor: &Monitor, call: Call) -> Option<String> {
    let refusal = refusal_of(monitor, call)?;
    let words = refused_words(refusal);
    let is_nine = refusal == Refusal::Frozen && is_nine_once_open(monitor, call.code(), call.numbers());
    Some(if is_nine { format!("{words}, and {}", nine_once_open("with")) } else { words })
}

/// RULES R117: what comes once the books are open, where the freeze is said first; `with` leads up to the number.
pub fn nine_once_open(with: &str) -> String {
    let nine = Refusal::Flow;
    format!("once the books are open again (freeze {NO_FREEZE}) {with} {}: {}", nine.number(), nine.words())
}

/// Some of these, with "for example" where there are more.
fn some_of(words: &[String], last: &str) -> String {
    if words.len() > MOST_NAMED {
        format!("for example {}", listed(&words[..MOST_NAMED], last))
    } else {
        listed(words, last)
    }
}

/// All of these, the later ones by their number alone where there are many.
fn with_others(words: &[String]) -> String {
    match words.len().saturating_sub(MOST_NAMED) {
        0 => listed(words, "and"),
        1 => format!("{} and another one", words[..MOST_NAMED].join(", ")),
        more => format!("{} and {more} others", words[..MOST_NAMED].join(", ")),
    }
}

fn close_calls(handles: &[Held]) -> Vec<Call> {
    handles.iter().map(|held| Call::Close { subject: held.step, place: held.place }).collect()
}
