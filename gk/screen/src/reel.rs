//! A journal to go back and forth in, whole or still growing.

use std::collections::BTreeMap;

use gatekeeper::JOURNAL_BYTES;
use gk_advice::run::{Content, Growing, Next, Step};

use crate::part::Part;
use crate::terminal::{Screen, MOST_REFUSALS};

/// What a look at a journal has brought.
#[derive(Clone, Copy, Debug, PartialEq, Eq)]
pub enum More {
    /// It was read whole before any of it is shown.
    Whole,
    /// Bytes have come, or will come without a wait.
    Now,
    /// All is read; there may be more later.
    Later,
    /// The file has fewer bytes than were read of it.
    Cut,
    /// There will be no more.
    End,
}

/// The next record of a journal.
pub fn next(run: &mut Growing, journal: &[u8], more: More) -> Next {
    if more == More::Whole {
        return run.next_whole(journal).map_or(Next::End, Next::Step);
    }
    match run.next(journal) {
        Next::Unfinished if more == More::End => run.break_off(journal),
        // What was read of the record that is not whole belongs to a journal that is gone.
        Next::Unfinished if more == More::Cut => Next::End,
        next => next,
    }
}

/// What is to be said where the records end, of a journal that is followed.
pub fn notice(more: More, is_unfinished: bool, is_broken: bool, bytes: usize) -> Option<&'static str> {
    if is_broken {
        Some("The journal is broken here: nothing behind it is read.")
    } else if is_unfinished {
        Some("The next record is not whole yet.")
    } else if more == More::Cut {
        Some("The journal has become shorter: it is another one now. Start again to see it.")
    } else if bytes > JOURNAL_BYTES {
        Some("The journal has grown too long: read as a whole it is refused (14).")
    } else {
        None
    }
}

/// The records of a journal, one of which is on the screen.
pub struct Reel {
    pub journal: Vec<u8>,
    more: More,
    /// Has read all records.
    head: Growing,
    records: u64,
    refused: Vec<u64>,
    is_broken: bool,
    /// The run and the screen before the first record, and at every so many records that were shown or passed.
    kept: Vec<(Growing, Screen)>,
    /// What is said of refusals that were shown.
    told: BTreeMap<u64, [Vec<Part>; 2]>,
    /// How many records were run for the screen.
    ran: u64,
    /// Has read the records up to the one on the screen.
    run: Growing,
    screen: Screen,
}

/// From one record that is kept to the next.
const EVERY: u64 = 256;

impl Reel {
    pub fn new(blank: Screen) -> Reel {
        let (screen, more) = (blank.clone(), More::Later);
        let (journal, refused) = (Vec::new(), Vec::new());
        let (head, run) = (Growing::new(), Growing::new());
        let (kept, told) = (vec![(Growing::new(), blank)], BTreeMap::new());
        Reel { journal, more, head, records: 0, refused, is_broken: false, kept, told, ran: 0, run, screen }
    }

    /// A whole journal.
    pub fn whole(blank: Screen, journal: Vec<u8>) -> Reel {
        let mut reel = Reel { journal, ..Reel::new(blank) };
        reel.grow(More::Whole);
        reel
    }

    /// Reads the records of the bytes that have come, and says what is to be said where they end.
    pub fn grow(&mut self, more: More) -> Option<&'static str> {
        self.more = more;
        let is_unfinished = loop {
            match next(&mut self.head, &self.journal, more) {
                Next::Step(step) => self.count(&step),
                Next::End => break false,
                Next::Unfinished => break true,
            }
        };
        notice(more, is_unfinished, self.is_broken, self.journal.len())
    }

    /// Other names, for all records.
    pub fn rename(&mut self, names: gk_names::Names) {
        let blank = self.screen.blank(names);
        (self.run, self.screen) = (Growing::new(), blank.clone());
        (self.kept, self.told) = (vec![(Growing::new(), blank)], BTreeMap::new());
    }

    /// Whether no more records can come.
    pub fn is_over(&self) -> bool {
        self.is_broken || matches!(self.more, More::Whole | More::Cut | More::End)
    }

    fn count(&mut self, step: &Step) {
        self.records = step.position;
        self.refused.extend(step.refusal().map(|_| step.position));
        self.is_broken |= matches!(step.content, Content::Stop(..));
    }

    pub fn records(&self) -> u64 {
        self.records
    }

    /// The next refusal behind a record.
    pub fn refusal_after(&self, record: u64) -> Option<u64> {
        self.refused.get(self.refused.partition_point(|&refused| refused <= record)).copied()
    }

    /// The last refusal before a record.
    pub fn refusal_before(&self, record: u64) -> Option<u64> {
        self.refused[..self.refused.partition_point(|&refused| refused < record)].last().copied()
    }

    /// Which refusal a record is, from 1, and how many there are.
    pub fn refusal(&self, record: u64) -> Option<(usize, usize)> {
        Some((self.refused.binary_search(&record).ok()? + 1, self.refused.len()))
    }

    /// The screen after a record.
    pub fn show(&mut self, record: u64) -> &Screen {
        let record = record.min(self.records);
        let behind = self.refused.partition_point(|&refused| refused <= record);
        let last = self.refused[behind.saturating_sub(MOST_REFUSALS)..behind].to_vec();
        for &refused in last.iter().filter(|refused| !self.told.contains_key(refused)).collect::<Vec<_>>() {
            self.go(refused);
            self.told.extend(self.screen.last_refusal().map(|told| (refused, told)));
        }
        if self.screen.position() != record {
            self.go(record);
        }
        let told = last.iter().rev().filter_map(|refused| self.told.get(refused).cloned());
        self.screen.show_refusals(told.collect());
        &self.screen
    }

    /// Goes to a record, from the one on the screen or from the last one before it that is kept, and tells it alone.
    fn go(&mut self, record: u64) {
        let kept = self.kept.partition_point(|(_, screen)| screen.position() < record).saturating_sub(1);
        let here = self.screen.position();
        if here >= record || here < self.kept[kept].1.position() {
            (self.run, self.screen) = self.kept[kept].clone();
        }
        while self.screen.position() < record {
            let Next::Step(step) = next(&mut self.run, &self.journal, self.more) else {
                break;
            };
            if step.position == record {
                self.screen.take(&step);
            } else {
                self.screen.pass(&step);
            }
            if step.position == self.kept.len() as u64 * EVERY {
                self.kept.push((self.run.clone(), self.screen.clone()));
            }
            self.ran += 1;
        }
    }
}

#[cfg(test)]
mod tests {
    use super::*;
    use crate::layout::tests::{crowd, reel};

    /// Wherever one comes from, a record has one screen; and to go back a record is no run from the first one.
    #[test]
    fn a_record_has_one_screen_and_is_near() {
        let (mut far, records) = (reel(crowd()), reel(crowd()).records());
        let long: Vec<u8> = crowd().iter().copied().cycle().take(20 * crowd().len()).collect();
        let mut long = reel(long);
        assert!(records > EVERY && long.records() > 10 * records, "{records}");
        let text = |reel: &mut Reel, record: u64| reel.show(record).text(None, false, 120);
        for record in [records, records - 1, 3, 260, 257, 256, 255, 0, 1, records, 256, 0] {
            assert_eq!(text(&mut far, record), text(&mut reel(crowd()), record), "record {record}");
        }
        let last = long.records();
        long.show(last);
        for record in (last - 40..last).rev() {
            let before = long.ran;
            long.show(record);
            assert!(
                long.ran - before <= (1 + MOST_REFUSALS as u64) * EVERY,
                "{} for one",
                long.ran - before
            );
        }
    }
}
