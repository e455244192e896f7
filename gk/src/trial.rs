//! Calls tried on a copy of the tables that a journal leaves, each told with its answer as `explain` tells a record.

use gatekeeper::{Answer, Call, Counts, Refusal, State as Monitor, JOURNAL_BYTES};
use gk_advice::records::Records;
use gk_advice::run::{agrees, Content, Run, Step};
use gk_advice::scene::Past;

use crate::explain::{told, Which, ADVICE};
use crate::names::Names;
use crate::text::paragraph;

/// The tables that a journal leaves, and what a later record looks back on.
pub struct Start {
    pub monitor: Monitor,
    pub records: u64,
    /// The first record that was refused.
    pub refused: Option<(u64, Refusal)>,
    pub past: Past,
}

/// Why nothing is tried after a journal.
#[derive(Clone, Copy, Debug, PartialEq, Eq)]
pub enum Unfit {
    /// RULES R11, R14: it is not run to its end.
    Refused(Refusal),
    /// It has only so many records.
    Shorter(u64),
    /// Record by record it got other replies than as a whole: a fault of this program.
    Differs,
}

impl Start {
    /// The tables after a journal. Its replies are held to the proved run of it.
    pub fn after(journal: &[u8]) -> Result<Start, Unfit> {
        let mut run = Run::new(journal);
        let mut start = Start { monitor: Monitor::new(), records: 0, refused: None, past: Past::default() };
        let mut lines = String::new();
        for step in &mut run {
            if let (Content::Stop(..) | Content::TooLong, Some(refusal)) = (step.content, step.refusal()) {
                return Err(Unfit::Refused(refusal));
            }
            lines.push_str(&step.line());
            lines.push('\n');
            start.past.follow(&step);
            start.records = step.position;
            start.refused = start.refused.or(step.refusal().map(|refusal| (step.position, refusal)));
        }
        lines.push_str(&run.end_line());
        lines.push('\n');
        start.monitor = run.monitor().clone();
        match agrees(journal, &lines) {
            true => Ok(start),
            false => Err(Unfit::Differs),
        }
    }

    /// The tables after so many records of a journal: those after the journal that ends there.
    pub fn at(journal: &[u8], records: u64) -> Result<Start, Unfit> {
        if journal.len() > JOURNAL_BYTES {
            return Err(Unfit::Refused(Refusal::JournalTooLong));
        }
        let (mut count, mut end) = (0, 0);
        for entry in Records::new(journal).take(usize::try_from(records).unwrap_or(usize::MAX)) {
            count += 1;
            end = entry.map_or(journal.len(), |record| record.start + record.bytes.len());
        }
        match count == records {
            true => Start::after(&journal[..end]),
            false => Err(Unfit::Shorter(count)),
        }
    }

    /// What is tried, and after what, as a sentence.
    pub fn words(&self) -> String {
        match self.records {
            0 => "Tried on empty tables.".to_string(),
            1 => "Tried on a copy of the tables after 1 record.".to_string(),
            records => format!("Tried on a copy of the tables after {records} records."),
        }
    }
}

/// Calls that are made one by one on a copy of the tables, as the records behind those of the start.
pub struct Trial<'a> {
    names: &'a Names,
    which: Which,
    monitor: Monitor,
    past: Past,
    position: u64,
    counts: Counts,
    has_ways: bool,
}

impl<'a> Trial<'a> {
    pub fn new(start: &Start, names: &'a Names, which: Which) -> Trial<'a> {
        Trial {
            names,
            which,
            monitor: start.monitor.clone(),
            past: start.past.clone(),
            position: start.records,
            counts: Counts::default(),
            has_ways: false,
        }
    }

    /// Makes a call, and says what is to be said of it; none where it is not one of those that are told.
    pub fn call(&mut self, call: Call) -> Option<String> {
        self.position += 1;
        let before = self.monitor.clone();
        let answer = self.monitor.call(call);
        match answer {
            Answer::Allowed(_) => self.counts.allowed += 1,
            Answer::Lowered { .. } => self.counts.lowered += 1,
            Answer::Refused(_) => self.counts.refused += 1,
        }
        let (position, code, content) = (self.position, call.code(), Content::Call(call));
        let step = Step { position, code, content, answer, before, after: self.monitor.clone() };
        let is_told = self.which == Which::All || step.refusal().is_some();
        let told = is_told.then(|| told(&step, self.names, &self.past));
        self.past.follow(&step);
        told.map(|told| {
            self.has_ways |= told.counsel.is_tried();
            told.text()
        })
    }

    /// How the calls came out, what they are the calls of, and what an advice is worth where one was given.
    pub fn end(&self, of: &str) -> String {
        let (Counts { allowed, lowered, refused }, monitor) = (self.counts, &self.monitor);
        let mut text = format!(
            "End of the {of}: {allowed} allowed, {lowered} lowered, {refused} refused.\n\
             Handles: {} made, {} gone, {} still open.\n",
            monitor.made(),
            monitor.gone(),
            monitor.open()
        );
        if self.has_ways {
            text.push_str(&paragraph("", ADVICE));
        }
        text
    }
}

#[cfg(test)]
mod tests {
    use super::*;

    #[test]
    fn a_journal_that_is_not_run_to_its_end_leaves_no_tables() {
        let unfit = |journal: &[u8]| Start::after(journal).map(|start| start.records);
        assert_eq!(unfit(&[4, 1, 0, 9, 3]), Ok(1));
        assert_eq!(unfit(&[4, 1, 0, 9, 3, 3]), Err(Unfit::Refused(Refusal::JournalBroken)));
        assert_eq!(unfit(&[0; JOURNAL_BYTES + 1]), Err(Unfit::Refused(Refusal::JournalTooLong)));
        let start = Start::after(&[1, 77, 4, 1, 0, 9, 3]).unwrap();
        assert_eq!((start.records, start.refused), (2, Some((1, Refusal::UnknownCode))));
    }

    #[test]
    fn the_tables_after_some_records_are_those_of_the_journal_that_ends_there() {
        // Three records, of which the second makes no call, and a fourth that is cut off.
        let journal = [4, 1, 0, 9, 3, 1, 77, 2, 12, 0, 3];
        let at = |records: u64| {
            let level = |start: &Start| start.monitor.subject(0).map(|label| label.level);
            Start::at(&journal, records).map(|start| (start.records, level(&start)))
        };
        assert_eq!(
            [at(0), at(1), at(2), at(3)],
            [Ok((0, None)), Ok((1, Some(9))), Ok((2, Some(9))), Ok((3, None))]
        );
        assert_eq!(at(4), Err(Unfit::Refused(Refusal::JournalBroken)));
        assert_eq!([at(5), at(u64::MAX)], [Err(Unfit::Shorter(4)); 2]);
        let long = Start::at(&[0; JOURNAL_BYTES + 1], 0).map(|start| start.records);
        assert_eq!(long, Err(Unfit::Refused(Refusal::JournalTooLong)));
    }
}
