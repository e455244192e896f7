//! A journal answered record by record, each call made on the proved monitor; with the monitor before and after it.

use gatekeeper::{Answer, Call, Refusal, State as Monitor, JOURNAL_BYTES};

use crate::records::{entry_at, Body, Entry, LengthFault};

/// What stood in a record: its call, or why there is none.
#[derive(Clone, Copy, Debug, PartialEq, Eq)]
pub enum Content {
    Call(Call),
    /// RULES R1, R12.
    NoCall(Body),
    /// RULES R11, with the offset of the length.
    Stop(usize, LengthFault),
    /// RULES R14.
    TooLong,
}

/// One record with its answer.
#[derive(Clone, Debug)]
pub struct Step {
    /// RULES P5: from 1.
    pub position: u64,
    /// RULES P6: 0 where none was read.
    pub code: u64,
    pub content: Content,
    pub answer: Answer,
    pub before: Monitor,
    pub after: Monitor,
}

impl Step {
    /// RULES P4, P7, P8: the reply line, without its end. That of a lowered call ends with the number of shop marks lost.
    pub fn line(&self) -> String {
        let (letter, value) = letter_and_value(self.answer);
        let lost = lost(self.answer).map_or(String::new(), |lost| format!(" {lost}"));
        format!("{} {} {letter} {value}{lost}", self.position, self.code)
    }

    /// Why it was refused; none where it was not.
    pub fn refusal(&self) -> Option<Refusal> {
        match self.answer {
            Answer::Refused(refusal) => Some(refusal),
            _ => None,
        }
    }
}

/// RULES P7: the outcome's letter, and the level or the refusal's number.
pub fn letter_and_value(answer: Answer) -> (char, u32) {
    match answer {
        Answer::Allowed(level) => ('A', level.into()),
        Answer::Lowered { level, .. } => ('L', level.into()),
        Answer::Refused(refusal) => ('R', refusal.number()),
    }
}

/// How many shop marks the thing lost whose level the answer gives; none where the answer does not say so.
pub fn lost(answer: Answer) -> Option<u8> {
    match answer {
        Answer::Lowered { lost, .. } => Some(lost),
        _ => None,
    }
}

/// A run from an empty monitor. It is handed the journal's bytes at each record, so that they may grow.
#[derive(Clone, Default)]
pub struct Growing {
    monitor: Monitor,
    position: u64,
    offset: usize,
    is_over: bool,
}

/// What comes next in a journal.
pub enum Next {
    Step(Box<Step>),
    /// There is nothing behind the last record.
    End,
    /// The last record is not whole; more bytes may come.
    Unfinished,
}

impl Growing {
    pub fn new() -> Growing {
        Growing::default()
    }

    /// The monitor after the records so far.
    pub fn monitor(&self) -> &Monitor {
        &self.monitor
    }

    /// How many bytes of the journal the records so far are.
    pub fn offset(&self) -> usize {
        self.offset
    }

    /// RULES P9: the last reply line, without its end.
    pub fn end_line(&self) -> String {
        format!("end {} {} {}", self.monitor.made(), self.monitor.gone(), self.monitor.open())
    }

    /// The next record of a journal that is still being written: a record that is cut off may yet become whole.
    pub fn next(&mut self, journal: &[u8]) -> Next {
        let entry = if self.is_over { None } else { entry_at(journal, self.offset) };
        match entry {
            None => Next::End,
            Some(Err((start, fault))) if fault.may_pass(journal.len() - start) => Next::Unfinished,
            Some(entry) => Next::Step(self.take(entry)),
        }
    }

    /// The record that is not whole and never will be.
    pub fn break_off(&mut self, journal: &[u8]) -> Next {
        entry_at(journal, self.offset).map_or(Next::End, |entry| Next::Step(self.take(entry)))
    }

    /// The next record of a journal that is whole.
    pub fn next_whole(&mut self, journal: &[u8]) -> Option<Box<Step>> {
        if self.is_over {
            return None;
        }
        if journal.len() > JOURNAL_BYTES && self.position == 0 {
            self.is_over = true;
            return Some(self.step(0, Content::TooLong, Some(Refusal::JournalTooLong)));
        }
        entry_at(journal, self.offset).map(|entry| self.take(entry))
    }

    fn take(&mut self, entry: Entry) -> Box<Step> {
        let record = match entry {
            Err((start, fault)) => {
                self.is_over = true;
                return self.step(0, Content::Stop(start, fault), Some(Refusal::JournalBroken));
            }
            Ok(record) => record,
        };
        self.offset = record.start + record.bytes.len();
        match record.body {
            Body::Call(call) => self.step(call.code(), Content::Call(call), None),
            body @ Body::UnknownCode(code) => {
                self.step(code, Content::NoCall(body), Some(Refusal::UnknownCode))
            }
            body @ Body::Bad(code, _) => {
                self.step(code, Content::NoCall(body), Some(Refusal::RecordBroken))
            }
        }
    }

    fn step(&mut self, code: u64, content: Content, refusal: Option<Refusal>) -> Box<Step> {
        self.position += 1;
        let before = self.monitor.clone();
        let answer = match (content, refusal) {
            (Content::Call(call), None) => self.monitor.call(call),
            (_, refusal) => Answer::Refused(refusal.unwrap_or(Refusal::RecordBroken)),
        };
        let after = self.monitor.clone();
        Box::new(Step { position: self.position, code, content, answer, before, after })
    }
}

/// A run of a whole journal.
pub struct Run<'a> {
    journal: &'a [u8],
    run: Growing,
}

impl<'a> Run<'a> {
    pub fn new(journal: &'a [u8]) -> Run<'a> {
        Run { journal, run: Growing::new() }
    }

    /// The monitor after the records so far.
    pub fn monitor(&self) -> &Monitor {
        self.run.monitor()
    }

    /// RULES P9: the last reply line, without its end.
    pub fn end_line(&self) -> String {
        self.run.end_line()
    }
}

impl Iterator for Run<'_> {
    type Item = Step;

    fn next(&mut self) -> Option<Step> {
        self.run.next_whole(self.journal).map(|step| *step)
    }
}

/// Whether the run of a journal, record by record, has given the replies that the proved run of the whole gives.
pub fn agrees(journal: &[u8], lines: &str) -> bool {
    gatekeeper::replay(journal) == lines
}

#[cfg(test)]
mod tests {
    use super::*;

    fn lines(journal: &[u8]) -> String {
        let mut run = Run::new(journal);
        let mut text = String::new();
        for step in &mut run {
            text += &step.line();
            text.push('\n');
        }
        text + &run.end_line() + "\n"
    }

    #[test]
    fn the_lines_are_those_of_the_replay() {
        for journal in [
            &[][..],
            &[0x80, 0x00],
            &[0x00],
            &[0x80],
            &[0xff; 4],
            &[0xff; 6],
            &[0xff; 11],
            &[2, 1],
            &[1, 99],
            &[1, 0],
            &[3, 2, 0, 2, 3, 1, 0, 9, 4, 5, 0, 0, 0, 3, 7, 0, 0],
            &[5, 2, 0, 2, 0xff, 1, 5, 1, 0, 9, 0xff, 1, 4, 5, 0, 0, 0, 3, 7, 0, 0],
            &[4, 2, 0, 2, 3, 5, 1, 0, 9, 0xff, 1, 4, 5, 0, 0, 0, 3, 7, 0, 0],
            &[4, 2, 0, 2, 9, 2, 2, 0, 3, 1, 0, 0x80],
            &[0; JOURNAL_BYTES + 1],
        ] {
            assert_eq!(lines(journal), gatekeeper::replay(journal));
        }
    }

    #[test]
    fn a_record_in_the_making_is_waited_for() {
        let journal = [4, 2, 0, 2, 3, 4, 1, 0, 9, 3];
        for end in 0..=journal.len() {
            let mut run = Growing::new();
            let mut records = 0;
            let last = loop {
                match run.next(&journal[..end]) {
                    Next::Step(_) => records += 1,
                    last => break last,
                }
            };
            assert_eq!(records, end / 5);
            assert_eq!(matches!(last, Next::Unfinished), end % 5 != 0, "{end}");
        }
        assert!(matches!(Growing::new().next(&[0x80, 0x80]), Next::Unfinished));
        assert!(matches!(Growing::new().next(&[0x80, 0x00]), Next::Step(_)));
        assert!(matches!(Growing::new().next(&[0xff; 9]), Next::Unfinished));
        assert!(matches!(Growing::new().next(&[0xff; 10]), Next::Step(_)));
    }
}
