//! The program's replies: RULES P1 to P14, P23, R14 and R113 to R115.

use crate::monitor::{Answer, Monitor};
use crate::records::{self, Body, BodyFault, LengthFault, Reader, Span};
use crate::tables::Tally;
use crate::variants::{Rules, Variant};

/// RULES R14, R115: a journal above 65,536 bytes is not run.
pub const LONGEST_JOURNAL: usize = 65_536;

/// What stood in a record: its call, or why there is none.
#[derive(Clone, Copy, Debug, PartialEq, Eq)]
pub enum Content {
    /// The record lies there and holds this.
    Body(Span, Body),
    /// RULES R11, with the offset of the length.
    Stop(usize, LengthFault),
    /// RULES R14.
    TooLong,
}

/// One reply and what it replies to.
#[derive(Clone, Copy, Debug, PartialEq, Eq)]
pub struct Step {
    /// RULES P5: the record's position, from 1.
    pub position: u64,
    /// RULES P6: the code, 0 where none was read.
    pub code: u64,
    pub content: Content,
    pub answer: Answer,
}

impl Step {
    /// RULES P4: position, code, letter, value; and of a lowered call RULES P23, how many marks were lost.
    pub fn line(&self) -> String {
        self.line_by(Rules::default())
    }

    /// The same by other rules; see `variants`.
    pub fn line_by(&self, rules: Rules) -> String {
        let Step { position, code, answer, .. } = self;
        let fields = [Some(answer.number()), answer.marks_lost()];
        let fields: Vec<String> = rules
            .bend_fields(*answer, fields)
            .into_iter()
            .flatten()
            .map(|field| field.to_string())
            .collect();
        format!("{position} {code} {} {}\n", answer.letter(), fields.join(" "))
    }
}

/// A run of a journal from empty tables, record by record.
#[derive(Clone, Debug)]
pub struct Run<'a> {
    journal: &'a [u8],
    reader: Reader<'a>,
    monitor: Monitor,
    position: u64,
    rules: Rules,
    over: bool,
}

impl<'a> Run<'a> {
    pub fn new(journal: &'a [u8], rules: Rules) -> Run<'a> {
        Run {
            journal,
            reader: Reader::new(journal, rules),
            monitor: Monitor::by(rules),
            position: 0,
            rules,
            over: false,
        }
    }

    /// The monitor as it stands after the steps so far.
    pub fn monitor(&self) -> &Monitor {
        &self.monitor
    }

    pub fn tally(&self) -> Tally {
        self.monitor.tally()
    }

    /// The next record's step; none at the end of the run.
    pub fn next_step(&mut self) -> Option<Step> {
        if self.over {
            return None;
        }
        let step = self.reply()?;
        self.over = step.content == Content::TooLong || self.rules.stops_after(&step);
        Some(self.rules.bend_step(step, &mut self.position))
    }

    fn reply(&mut self) -> Option<Step> {
        // RULES R106: before all others.
        if self.position == 0 && self.journal.len() > self.rules.longest_journal() {
            return Some(self.refused(1, 0, Content::TooLong, 14));
        }
        let start = self.reader.offset();
        let record = self.reader.next_record()?;
        self.position += 1;
        let position = self.position;
        Some(match record {
            // RULES R11, R113: the reader has stopped.
            Err(fault) => self.refused(position, 0, Content::Stop(start, fault), 11),
            Ok(span) => {
                let body = records::read_body(self.journal, span, self.rules);
                let content = Content::Body(span, body);
                match body {
                    Body::Call { code, numbers } => {
                        Step { position, code, content, answer: self.monitor.call(code, numbers) }
                    }
                    // RULES R1, R114.
                    Body::UnknownCode { code } => self.refused(position, code, content, 1),
                    // RULES R12, R114.
                    Body::Bad { code, fault } => {
                        let number = self.twelve_or(code, fault);
                        self.refused(position, code, content, number)
                    }
                }
            }
        })
    }

    fn refused(&self, position: u64, code: u64, content: Content, number: u32) -> Step {
        let answer = Answer::Refused(number);
        Step { position, code, content, answer }
    }

    /// RULES R107: the call is not looked at.
    fn twelve_or(&self, code: u64, fault: BodyFault) -> u32 {
        match fault {
            BodyFault::LeftOver { numbers, .. } if !self.rules.are_right() => {
                match self.monitor.clone().call(code, numbers) {
                    Answer::Refused(number) if self.rules.says_before_12(number) => number,
                    _ => 12,
                }
            }
            _ => 12,
        }
    }

    /// RULES P9, P10: the last line.
    pub fn end_line(&self) -> String {
        let tally = self.tally();
        let open = if self.rules.has(Variant::OpenAsMade) { tally.made } else { tally.open() };
        format!("end {} {} {}\n", tally.made, tally.gone, open)
    }
}

/// The replies to a journal, by the rules as they are.
pub fn replies(journal: &[u8]) -> String {
    replies_by(journal, Rules::default())
}

/// RULES P22: the monitor that a journal leads to.
pub fn monitor_after(journal: &[u8]) -> Monitor {
    let mut run = Run::new(journal, Rules::default());
    while run.next_step().is_some() {}
    run.monitor
}

/// The replies to a journal by other rules; see `variants`.
pub fn replies_by(journal: &[u8], rules: Rules) -> String {
    let mut run = Run::new(journal, rules);
    let mut lines = String::new();
    while let Some(step) = run.next_step() {
        lines.push_str(&step.line_by(rules));
    }
    lines.push_str(&run.end_line());
    lines
}
