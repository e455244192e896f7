//! What is on the screen after a record: the record and its answer, the tables, the last refusals; each as lines of any
//! width. How they share a window is `layout`'s.

use std::collections::VecDeque;

use gatekeeper::{Answer, Refusal};
use gk_advice::how::PROVED;
use gk_advice::run::Step;

use crate::names::Names;
use crate::part::{Line, Look, Part};
use crate::phrase::Phrase;
use crate::state::{State, Thing};
use crate::text::{fitted, width};
use crate::told::{Memory, Told};

/// Refusals that are kept on the screen.
pub const MOST_REFUSALS: usize = 5;

/// The state after the last record, that record, and the last refusals.
#[derive(Clone)]
pub struct Screen {
    title: String,
    pub(crate) names: Names,
    pub(crate) state: State,
    memory: Memory,
    position: u64,
    answer: Option<Answer>,
    /// The things that the record is about: who asks is the first step of them.
    about: Vec<Thing>,
    last: Vec<Part>,
    /// Each in full, for when it is the last one, and in short.
    refusals: VecDeque<[Vec<Part>; 2]>,
}

impl Screen {
    pub fn new(title: String, file: gk_names::Names, state: State) -> Screen {
        let names = Names::given(&file);
        let (memory, refusals) = (Memory::new(file), VecDeque::new());
        let (about, last) = (Vec::new(), Vec::new());
        Screen { title, names, state, memory, position: 0, answer: None, about, last, refusals }
    }

    /// The screen before the first record, with other names.
    pub fn blank(&self, names: gk_names::Names) -> Screen {
        Screen::new(self.title.clone(), names, State::empty())
    }

    /// The record that is shown; 0 before the first.
    pub fn position(&self) -> u64 {
        self.position
    }

    /// The answer to the record, in a word or two.
    pub fn answer(&self) -> (Look, String) {
        match self.answer {
            None => (Look::Plain, String::new()),
            Some(Answer::Refused(refusal)) => (Look::Refused, format!("Refused ({})", refusal.number())),
            Some(answer @ Answer::Allowed(_)) => (look(answer), "Allowed".to_string()),
            Some(answer @ Answer::Lowered { .. }) => (look(answer), "Lowered".to_string()),
        }
    }

    pub fn title(&self) -> &str {
        &self.title
    }

    /// Whether the record is about a thing.
    pub fn is_about(&self, thing: Thing) -> bool {
        self.about.contains(&thing)
    }

    /// Takes the next record, of which nothing will be shown but what it has changed.
    pub fn pass(&mut self, turn: &Step) {
        self.follow(turn);
        self.memory.note(turn, &self.state);
    }

    /// The state before a record, which is followed.
    fn follow(&mut self, turn: &Step) -> State {
        let before = self.state.clone();
        if turn.before != turn.after {
            self.state = State::of(&turn.after);
        }
        self.names.follow(turn.position, &before, &self.state);
        self.position = turn.position;
        before
    }

    /// Takes the next record onto the screen, and says it in a line.
    pub fn take(&mut self, turn: &Step) -> String {
        let before = self.follow(turn);
        let told = self.memory.tell(turn, &before, &self.state);
        self.last = self.record(turn, &told);
        self.answer = Some(turn.answer);
        self.about.clone_from(&told.about);
        if matches!(turn.answer, Answer::Refused(_)) {
            let said = [self.refusal(turn, &told, true), self.refusal(turn, &told, false)];
            self.refusals.push_front(said);
            self.refusals.truncate(MOST_REFUSALS);
        }
        let way = match (told.ways.first(), told.notes.first()) {
            (Some(way), _) => format!(" Way out: {}", self.said(way)),
            (None, Some(note)) => format!(" {}", self.said(note)),
            (None, None) => String::new(),
        };
        format!("{}  {}. {}.{way}\n", turn.line(), self.said(&told.asked), answer_words(turn.answer))
    }

    /// What was last said of a refusal, in full and in short.
    pub fn last_refusal(&self) -> Option<[Vec<Part>; 2]> {
        self.refusals.front().cloned()
    }

    /// Shows these as the last refusals, the last one first.
    pub fn show_refusals(&mut self, refusals: VecDeque<[Vec<Part>; 2]>) {
        self.refusals = refusals;
    }

    fn said(&self, phrase: &Phrase) -> String {
        phrase.text(&self.names, self.position)
    }

    /// The record and its answer.
    fn record(&self, turn: &Step, told: &Told) -> Vec<Part> {
        let asked = Part::new(Look::Strong, "", format!("{}.", self.said(&told.asked)), 2);
        let answer = Part::new(look(turn.answer), "  ", format!("{}.", answer_words(turn.answer)), 2);
        let is_refused = matches!(turn.answer, Answer::Refused(_));
        let why = if is_refused { &[] } else { &told.why[..] };
        let more = told.changed.iter().chain(why);
        let more = more.map(|phrase| Part::new(Look::Plain, "  ", self.said(phrase), 4));
        [asked, answer].into_iter().chain(more).collect()
    }

    /// A refusal, the way out first; in full with all ways, the chain and why.
    fn refusal(&self, turn: &Step, told: &Told, is_full: bool) -> Vec<Part> {
        let blank = " ".repeat(7);
        let most = if is_full { usize::MAX } else { 1 };
        let ways = told.ways.iter().take(most).enumerate().map(|(index, way)| {
            let word = if index == 0 { "Way out" } else { "Or" };
            (Look::Plain, format!("{word}: {}", self.said(way)))
        });
        let notes = told.notes.iter().filter(|_| told.ways.is_empty() || is_full);
        let notes = notes.map(|note| (Look::Plain, self.said(note)));
        let what = format!("{}. {}.", self.said(&told.asked), answer_words(turn.answer));
        let behind = if is_full { self.behind(turn, told) } else { Vec::new() };
        let behind = behind.into_iter().map(|text| (Look::Plain, text));
        let texts = ways.chain(notes).chain([(Look::Refused, what)]).chain(behind);
        let parts = texts.enumerate().map(|(index, (look, text))| {
            let start = if index == 0 { format!("{:>5}  ", turn.position) } else { blank.clone() };
            Part::new(look, &start, text, 9)
        });
        parts.collect()
    }

    /// How data could get to a file, and why it may not.
    fn behind(&self, turn: &Step, told: &Told) -> Vec<String> {
        let how = self.how(&told.how);
        let why = told.why.iter().map(|why| self.said(why));
        // At a 15 it is that of the 9 behind it, of which the words speak first.
        match turn.refusal() {
            Some(Refusal::Frozen) => why.chain(how).collect(),
            _ => how.into_iter().chain(why).collect(),
        }
    }

    /// How data could get to a file, in words, and that this is proved.
    fn how(&self, how: &[Phrase]) -> Option<String> {
        let (title, acts) = how.split_first()?;
        let acts: Vec<String> = acts.iter().map(|act| self.said(act)).collect();
        Some(format!("{}: {}. {PROVED}", self.said(title), acts.join("; ")))
    }

    /// The whole screen, as long as it is, on lines of so many columns.
    pub fn text(&self, of: Option<u64>, is_coloured: bool, columns: usize) -> String {
        let blank = || [Line::plain("")];
        let lines = [self.heading(of, columns)].into_iter().chain(self.record_lines(columns));
        let lines = lines.chain(blank()).chain(self.steps(columns).lines());
        let lines = lines.chain(blank()).chain(self.objects(columns).lines());
        let refusals = self.last_refusals();
        let gap = blank().into_iter().filter(|_| !refusals.is_empty());
        let lines = lines.chain(gap).chain(refusals.iter().flat_map(|part| part.lines(columns)));
        lines.map(|Line(look, text)| look.coloured(&text, is_coloured) + "\n").collect()
    }

    fn record_lines(&self, columns: usize) -> Vec<Line> {
        self.last.iter().flat_map(|part| part.lines(columns)).collect()
    }

    /// The last refusals, the newest in full.
    fn last_refusals(&self) -> Vec<Part> {
        let parts = (0..).zip(&self.refusals).flat_map(|(index, said)| &said[usize::from(index > 0)]);
        titled("The last refusals", parts.cloned().collect())
    }

    /// All that is said of the record and of the refusals before it. Where it is refused, what is said of it stands once.
    pub fn words(&self) -> Vec<Part> {
        if !matches!(self.answer, Some(Answer::Refused(_))) {
            return self.last.iter().cloned().chain(self.last_refusals()).collect();
        }
        let own = self.refusals.front().map_or(&[][..], |said| &said[0]);
        let own = own.iter().filter(|part| part.look != Look::Refused);
        let own = own.map(|part| Part { start: "  ".to_string(), indent: 4, ..part.clone() });
        let before = self.refusals.iter().skip(1).flat_map(|said| said[1].clone()).collect();
        self.last.iter().cloned().chain(own).chain(titled("Refusals before it", before)).collect()
    }

    /// The books, and how many handles are open.
    pub fn books(&self) -> String {
        let books = match self.state.frozen_from {
            Some(level) => format!("books closed from level {level} up"),
            None => "books open".to_string(),
        };
        let open = self.state.made.wrapping_sub(self.state.gone);
        let handles = if open == 1 { "handle" } else { "handles" };
        format!("{books}, {open} {handles} open")
    }

    fn heading(&self, of: Option<u64>, columns: usize) -> Line {
        let right = self.books();
        let of = of.map_or(String::new(), |of| format!(" of {of}"));
        let left = match self.position {
            0 => "before the first record".to_string(),
            position => format!("record {position}{of}"),
        };
        let title = fitted(&self.title, columns.saturating_sub(4 + width(&left) + width(&right)));
        let gap = " ".repeat(2 + width(&title) - width(title.trim_end()));
        Line::strong(format!("{}: {left}{gap}{right}", title.trim_end()))
    }
}

/// Parts behind a line that says what they are; nothing where there is none.
fn titled(title: &str, parts: Vec<Part>) -> Vec<Part> {
    let title = Part::new(Look::Strong, "", title.to_string(), 2);
    let title = (!parts.is_empty()).then_some(title);
    title.into_iter().chain(parts).collect()
}

fn look(answer: Answer) -> Look {
    match answer {
        Answer::Allowed(_) => Look::Allowed,
        Answer::Lowered { .. } => Look::Lowered,
        Answer::Refused(_) => Look::Refused,
    }
}

/// The answer in words.
fn answer_words(answer: Answer) -> String {
    match answer {
        Answer::Allowed(level) => format!("Allowed, level {level}"),
        Answer::Lowered { level, lost: 0 } => format!("Lowered: level {level} now"),
        Answer::Lowered { level, lost: 1 } => format!("Lowered: level {level} now, 1 shop mark lost"),
        Answer::Lowered { level, lost } => format!("Lowered: level {level} now, {lost} shop marks lost"),
        Answer::Refused(refusal) => format!("Refused ({}): {}", refusal.number(), refusal.words()),
    }
}
