//! A journal's replies in plain words, for a payroll clerk: who asked what, what was answered, what did not happen
//! where it was refused, and what can be done about it.

mod alike;
pub mod json;
mod outcome;
pub mod question;
pub mod summary;

use gatekeeper::{Answer, Label, State as Monitor};
use gk_advice::asked;
use gk_advice::calls::{shape_of_code, Role};
use gk_advice::how::{How, PROVED};
use gk_advice::refused::{of_record, Refused};
use gk_advice::run::{agrees, Content, Run, Step};
use gk_advice::scene::{Past, Scene};
use gk_advice::things::{handles_of, members, Held, Thing};
use gk_advice::ways::Counsel;
use gk_chain::Link;

use crate::names::{Kind, Names};
use crate::text::{paragraph, wrapped};
use alike::Alike;
use question::Question;

/// What is said of a record.
pub struct Told {
    pub step: Step,
    /// Who asked what; where it was refused, that it did not happen, and why.
    pub title: String,
    /// The names that the call's numbers have, by what the numbers are called.
    pub names: Vec<(&'static str, String)>,
    /// Sentences about what happened, or what did not.
    pub facts: Vec<String>,
    /// The chain behind a 9, or behind a 15 that is a 9 once the books are open, with what each thing is called.
    pub chain: Vec<(Link, String)>,
    /// The chain in words.
    pub how: Option<How>,
    /// The threads of the step that asks, itself among them; none where it has no mates.
    pub threads: Vec<Thread>,
    pub counsel: Counsel,
}

/// A thread of a step as it is after a record; one that the record has ended, as it last was.
#[derive(Clone, Debug, PartialEq, Eq)]
pub struct Thread {
    pub number: u64,
    pub called: String,
    pub label: Label,
    pub is_ended: bool,
    pub holds: Vec<Held>,
}

/// How a run came out.
#[derive(Clone, Debug, Default, PartialEq, Eq)]
pub struct End {
    pub allowed: u64,
    pub lowered: u64,
    pub refused: u64,
    /// How many records were asked for.
    pub told: u64,
    pub made: u64,
    pub gone: u64,
    pub open: u64,
}

impl End {
    /// How many records there were.
    pub fn records(&self) -> u64 {
        self.allowed + self.lowered + self.refused
    }
}

/// Said where the records, answered one by one, get other replies than the whole journal: a fault of this program.
#[derive(Clone, Copy, Debug, PartialEq, Eq)]
pub struct Differs;

/// What an advice is worth, said where one is given.
pub const ADVICE: &str = "The answers are the proved gatekeeper's. What to do is advice of gk and not proved; every \
                          advice that names calls was tried on a copy of the tables as they were before its record, \
                          and was allowed there.";

/// Which records are told.
#[derive(Clone, Copy, Debug, PartialEq, Eq)]
pub enum Which {
    All,
    Refused,
}

/// Tells the records that are asked for, one by one, and then how the run ended. Each reply is held to the proved run of
/// the whole journal.
pub fn tell(
    journal: &[u8],
    names: &Names,
    question: impl Into<Question>,
    mut each: impl FnMut(Told),
) -> Result<End, Differs> {
    look(journal, names, &question.into(), |moment| each(moment.told()))
}

/// Goes through a journal record by record, each with what came before it. The replies are held as [`tell`] holds them.
pub fn walk(journal: &[u8], names: &Names, mut each: impl FnMut(&Step, &Past)) -> Result<End, Differs> {
    look(journal, names, &Question::default(), |moment| each(moment.step, moment.past))
}

/// A record in its run, of which something may be said.
struct Moment<'a> {
    step: &'a Step,
    names: &'a Names,
    past: &'a Past,
}

/// Goes through a journal record by record, as [`tell`] does.
fn look(
    journal: &[u8],
    names: &Names,
    question: &Question,
    mut each: impl FnMut(Moment),
) -> Result<End, Differs> {
    let mut end = End::default();
    let mut lines = String::new();
    let mut past = Past::default();
    let mut run = Run::new(journal);
    for step in &mut run {
        lines.push_str(&step.line());
        lines.push('\n');
        match step.answer {
            Answer::Allowed(_) => end.allowed += 1,
            Answer::Lowered { .. } => end.lowered += 1,
            Answer::Refused(_) => end.refused += 1,
        }
        let moment = Moment { step: &step, names, past: &past };
        if question.asks_for(&step, moment.before()) {
            end.told += 1;
            each(moment);
        }
        past.follow(&step);
    }
    let monitor: &Monitor = run.monitor();
    (end.made, end.gone, end.open) = (monitor.made(), monitor.gone(), monitor.open());
    lines.push_str(&run.end_line());
    lines.push('\n');
    if agrees(journal, &lines) {
        Ok(end)
    } else {
        Err(Differs)
    }
}

/// What is said of a record, be it in a journal or not; `past` is what came before it.
pub fn told(step: &Step, names: &Names, past: &Past) -> Told {
    Moment { step, names, past }.told()
}

impl<'a> Moment<'a> {
    /// The tables before the record.
    fn before(&self) -> Scene<'a> {
        self.past.before(self.step, self.names)
    }

    /// What is said of the record.
    fn told(&self) -> Told {
        self.told_in(self.before())
    }

    /// The same with a file or pipe that is not named, in words that may hold of other records, too.
    fn told_without(&self, thing: Thing) -> Told {
        self.told_in(Scene { unnamed: Some(thing), ..self.before() })
    }

    fn told_in(&self, before: Scene) -> Told {
        let step = self.step.clone();
        let threads = self.threads(before);
        let names = match step.content {
            Content::Call(call) => asked::names_in(call, before),
            _ => Vec::new(),
        };
        if let Some(refused) = of_record(&step, before, self.past.closing) {
            let Refused { title, answer, mut facts, chain, how, counsel } = refused;
            match facts.first_mut() {
                Some(first) => *first = format!("{answer} {first}"),
                None if !answer.is_empty() => facts.push(answer),
                None => {}
            }
            return Told { title, names, facts, chain, how, threads, counsel, step };
        }
        let Content::Call(call) = step.content else {
            let (title, facts) = (String::new(), Vec::new());
            return Told {
                title,
                names,
                facts,
                chain: Vec::new(),
                how: None,
                threads,
                counsel: Counsel::default(),
                step,
            };
        };
        let title = format!("{}.", asked::asked(call, before, true));
        // What the record makes is not called as the thing before it under its number was.
        let mut lives = self.past.lives.clone();
        lives.follow(&step);
        let now = Scene { monitor: &step.after, lives: &lives, ..before };
        let mut facts = outcome::outcome(call, before, now, self.past.closing);
        let letter = if matches!(step.answer, Answer::Lowered { .. }) { "Lowered." } else { "Allowed." };
        match facts.first_mut() {
            Some(first) => *first = format!("{letter} {first}"),
            None => facts.push(letter.to_string()),
        }
        let (chain, how, counsel) = (Vec::new(), None, Counsel::default());
        Told { title, names, facts, chain, how, threads, counsel, step }
    }

    /// The threads of the step that asks, by number: those before the record, and those after it.
    fn threads(&self, before: Scene) -> Vec<Thread> {
        let Content::Call(call) = self.step.content else {
            return Vec::new();
        };
        let is_asked_by_step = shape_of_code(call.code())
            .and_then(|shape| shape.parts().next())
            .is_some_and(|(_, role)| role == Role::Step);
        let (old, new) = (&self.step.before, &self.step.after);
        let asks = call.numbers()[0];
        let mut all = [members(old, asks), members(new, asks)].concat();
        all.sort_unstable();
        all.dedup();
        if !is_asked_by_step || all.len() < 2 {
            return Vec::new();
        }
        let thread = |number: u64| {
            let is_ended = new.subject(number).is_none();
            let monitor = if is_ended { old } else { new };
            let label = monitor.subject(number).unwrap_or(Label::LEAST);
            let called = match old.subject(number) {
                Some(_) => before.step(number),
                None => {
                    before.new_name(Kind::Step, number).map_or_else(|| before.step(number), str::to_string)
                }
            };
            Thread { number, called, label, is_ended, holds: handles_of(monitor, number).collect() }
        };
        all.into_iter().map(thread).collect()
    }
}

impl Told {
    /// The record in sentences, on lines.
    pub fn text(&self) -> String {
        let title = match self.step.content {
            Content::TooLong => paragraph("", &self.title),
            _ => paragraph(&format!("{}. ", self.step.position), &self.title),
        };
        title + &self.below()
    }

    /// What stands below the title.
    fn below(&self) -> String {
        let mut text = String::new();
        for fact in &self.facts {
            text.push_str(&paragraph("  ", fact));
        }
        if let Some(how) = &self.how {
            text.push_str(&paragraph("  ", &format!("{}:", how.title)));
            let last = how.acts.len().saturating_sub(1);
            let acts = how.acts.iter().enumerate().map(|(index, act)| {
                let end = if index == last { "." } else { ";" };
                format!("{}{end}", act.text)
            });
            text.push_str(&wrapped(acts, "    ", "    "));
            text.push_str(&paragraph("  ", PROVED));
        }
        for (index, advice) in self.counsel.ways.iter().enumerate() {
            let start = if index == 0 { "  What to do: " } else { "  Or: " };
            text.push_str(&paragraph(start, &advice.text));
        }
        for note in &self.counsel.notes {
            text.push_str(&paragraph("  ", note));
        }
        text
    }
}

/// The records that are asked for in sentences, and the end; where only refusals are told, those that are alike in one
/// paragraph.
pub fn explain(journal: &[u8], names: &Names, question: impl Into<Question>) -> Result<String, Differs> {
    let question = question.into();
    let mut text = String::new();
    let mut has_ways = false;
    let mut alike = Alike::default();
    let end = look(journal, names, &question, |moment| match question.which {
        Which::All => {
            let told = moment.told();
            has_ways |= told.counsel.is_tried();
            text.push_str(&told.text());
        }
        Which::Refused => has_ways |= alike.take(&moment),
    })?;
    text.push_str(&alike.text());
    if question.is_narrow() {
        text.insert_str(0, &paragraph("", &question.words(end.told, end.records())));
    }
    text.push_str(&format!(
        "End of the run: {} allowed, {} lowered, {} refused.\nHandles: {} made, {} gone, {} still open.\n",
        end.allowed, end.lowered, end.refused, end.made, end.gone, end.open
    ));
    if has_ways {
        text.push_str(&paragraph("", ADVICE));
    }
    Ok(text)
}
