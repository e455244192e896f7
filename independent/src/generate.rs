//! Journals by seed, made to find differences between two programs.
//!
//! Most calls are meaningful: a monitor of its own is the generator's picture of what is live, so that it
//! knows which numbers to draw. Levels come from a few that a journal keeps to, so that tests of level
//! against need are often close. Objects have numbers that the journal keeps to, small ones as a rule. Then numbers go
//! wrong, records are damaged, tables fill up, pipes form chains and rings, and journals take every length up to 65,537
//! bytes, as the style says. In every second journal the books are closed now and then, for a few calls; in most of them
//! launchers mark what they opened and run programs below it, importers map sheets that others write to, print
//! stations are connected, and tax steps run as threads. Sets of shop marks come from a few, too: all marks in many
//! journals, small sets in the others, where steps lose marks and need them. Typed lines, with calls that come before
//! them, are in `lines`.

mod arrangements;
mod channels;
mod crowds;
mod damage;
mod draws;
mod imports;
mod launches;
pub mod lines;
mod shops;
mod stores;
mod threads;

use crate::calls::filled;
use crate::monitor::{Answer, Monitor};
use crate::numbers;
use crate::random::Random;
use crate::records;
use crate::replies::LONGEST_JOURNAL;
use crate::tables::LIMITS;

/// What kind of journal to make.
#[derive(Clone, Copy, Debug, PartialEq, Eq)]
pub enum Style {
    Mixed,
    Payrun,
    Calls,
    Edges,
    Full,
    Rings,
    Garbled,
    Bytes,
    Long,
}

/// Every style with its name and what it makes.
pub const STYLES: &[(Style, &str, &str)] = &[
    (Style::Mixed, "mixed", "one of the others, by turns (the default)"),
    (Style::Payrun, "payrun", "a shell that joins steps by pipes and forks, then lets them work"),
    (Style::Calls, "calls", "all eighteen calls, mostly allowed"),
    (Style::Edges, "edges", "numbers out of range, in use or not live; several faults in one call"),
    (Style::Full, "full", "32 subjects, 64 objects, 512 handles, then calls on them; or the objects alone, and calls for more"),
    (Style::Rings, "rings", "long chains and rings of pipes, opened and closed"),
    (Style::Garbled, "garbled", "padded, cut, missing and left-over numbers, unknown codes"),
    (Style::Bytes, "bytes", "bytes without order"),
    (Style::Long, "long", "lengths up to 65,537 bytes, most at the limit"),
];

/// A wish for a journal: where nothing is given, it is drawn.
#[derive(Clone, Copy, Debug)]
pub struct Wish {
    pub style: Style,
    /// About how many records.
    pub calls: Option<u32>,
    /// Exactly how many bytes.
    pub bytes: Option<usize>,
}

impl Default for Wish {
    fn default() -> Wish {
        Wish { style: Style::Mixed, calls: None, bytes: None }
    }
}

/// The journal `index` of a seed.
pub fn journal(seed: u64, index: u64, wish: Wish) -> Vec<u8> {
    let mut random = Random::new(seed, index);
    let style = match wish.style {
        Style::Mixed => {
            let weights = [0, 4, 4, 4, 4, 5, 5, 1, 2];
            STYLES[random.weighted(&weights)].0
        }
        style => style,
    };
    let mut draft = Draft::new(random);
    let calls = wish.calls.unwrap_or_else(|| draft.drawn_length(style));
    draft.fill(style, calls);
    draft.finish(style, wish)
}

/// A journal in the making.
struct Draft {
    random: Random,
    /// What is live after the records so far.
    picture: Monitor,
    /// The levels that this journal keeps to, rising.
    levels: Vec<u64>,
    /// The sets of shop marks that this journal keeps to.
    sets: Vec<u64>,
    /// The numbers that objects have in this journal, more than may be live at a time.
    store: Vec<u64>,
    /// One number in so many is drawn wrong on purpose; 0 for none.
    odd_numbers: u64,
    /// One record in so many is damaged; 0 for none.
    damage: u64,
    /// One call in so many closes the books for a while; 0 for none.
    closings: u64,
    /// One call in so many is the first of a launcher's; 0 for none, and then no handle is marked.
    launches: u64,
    /// One call in so many is the first of an importer's; 0 for none, and then hardly a file is mapped.
    imports: u64,
    /// One call in so many is the first of a print station's; 0 for none, and then hardly a step is connected.
    channels: u64,
    /// One call in so many is the first of a tax step's; 0 for none, and then hardly a step has mates.
    threads: u64,
    /// One call in so many is the first of a step that loses shop marks; 0 for none.
    vouchings: u64,
    journal: Vec<u8>,
    records: u32,
}

impl Draft {
    fn new(mut random: Random) -> Draft {
        let count = random.between(2, 4);
        let mut levels: Vec<u64> = (0..count).map(|_| random.below(LIMITS.levels)).collect();
        if random.once_in(3) {
            levels.extend([0, 15]);
        }
        levels.sort_unstable();
        levels.dedup();
        let sets = shops::sets(&mut random);
        // Of one level, labels differ by their sets alone.
        if sets.len() > 1 && random.once_in(8) {
            levels.truncate(1);
        }
        let store = stores::store(&mut random);
        Draft {
            random,
            picture: Monitor::new(),
            levels,
            sets,
            store,
            odd_numbers: 0,
            damage: 0,
            closings: 0,
            launches: 0,
            imports: 0,
            channels: 0,
            threads: 0,
            vouchings: 0,
            journal: Vec::new(),
            records: 0,
        }
    }

    fn drawn_length(&mut self, style: Style) -> u32 {
        let length = match style {
            Style::Garbled => self.random.between(1, 150),
            Style::Bytes => self.random.between(0, 60),
            _ if self.random.once_in(4) => self.random.between(0, 40),
            Style::Full => self.random.between(150, 900),
            _ => self.random.between(60, 450),
        };
        length as u32
    }

    /// Draws about so many records in this style.
    fn fill(&mut self, style: Style, calls: u32) {
        (self.odd_numbers, self.damage) = match style {
            Style::Edges => (4, 0),
            Style::Garbled => (60, 4),
            Style::Rings => (0, 0),
            Style::Full => (60, 0),
            _ => (40, 150),
        };
        // In a ring one handle matters that a freeze would keep out.
        let closings = if style == Style::Rings { [0, 0, 0, 40] } else { [0, 0, 15, 40] };
        self.closings = self.random.pick(&closings).unwrap_or(0);
        // Nor should an exec take its links away, a map lower its members, a connect fill its places, or a thread
        // shorten it.
        let turns = if style == Style::Rings { [0, 0, 0, 60] } else { [0, 20, 20, 50] };
        self.launches = self.random.pick(&turns).unwrap_or(0);
        self.imports = self.random.pick(&turns).unwrap_or(0);
        self.channels = self.random.pick(&turns).unwrap_or(0);
        // A tax step has many calls.
        let turns = if style == Style::Rings { [0, 0, 0, 60] } else { [0, 30, 40, 60] };
        self.threads = self.random.pick(&turns).unwrap_or(0);
        // Where every set is the same there is nothing to lose.
        let turns = if self.sets.len() == 1 { [0, 0, 0, 60] } else { [0, 25, 40, 60] };
        self.vouchings = self.random.pick(&turns).unwrap_or(0);
        match style {
            Style::Payrun => self.pipeline(calls),
            Style::Rings => self.ring(),
            Style::Full if self.random.once_in(2) => self.full_tables(),
            Style::Full => self.crowded_tables(calls),
            Style::Bytes => {
                for _ in 0..calls {
                    self.loose_byte();
                }
                return;
            }
            Style::Edges => self.starting_things(),
            _ => {}
        }
        while self.records < calls {
            if self.random.once_in(self.closings) {
                self.closed_books();
            } else if self.random.once_in(self.launches) {
                self.launch();
            } else if self.random.once_in(self.imports) {
                self.import();
            } else if self.random.once_in(self.channels) {
                self.channel();
            } else if self.random.once_in(self.threads) {
                self.group();
            } else if self.random.once_in(self.vouchings) {
                self.vouching();
            } else if self.random.once_in(200) {
                let code = self.random.between(1, 2);
                self.record_without_set(code);
            } else if style == Style::Rings && self.random.once_in(3) {
                self.ring_turn();
            } else {
                self.any_call();
            }
        }
    }

    /// Brings the journal to its length in bytes.
    fn finish(mut self, style: Style, wish: Wish) -> Vec<u8> {
        let bytes = match (wish.bytes, style) {
            (Some(bytes), _) => bytes,
            (None, Style::Long) => {
                let limit = LONGEST_JOURNAL as u64;
                let near = self.random.between(limit - 1, limit + 1);
                let any = self.random.between(0, limit + 1);
                (if self.random.once_in(3) { any } else { near }) as usize
            }
            // Now and then a record is cut off at the end.
            (None, Style::Garbled | Style::Calls) if self.random.once_in(6) => {
                self.random.below(self.journal.len() as u64 + 1) as usize
            }
            (None, _) => return self.journal,
        };
        self.journal.truncate(bytes);
        self.pad_to(bytes);
        self.journal
    }

    /// Fills the journal up to exactly this length: with one long record of an unknown code, with records
    /// without a body, or with more calls.
    fn pad_to(&mut self, bytes: usize) {
        let way = self.random.below(8);
        while self.journal.len() < bytes {
            let left = bytes - self.journal.len();
            if way == 0 {
                self.journal.push(0);
            } else if way == 1 && left > 40 {
                self.any_call();
                self.journal.truncate(bytes);
            } else {
                match longest_body(left) {
                    Some(length) => {
                        let mut body = Vec::new();
                        numbers::write(self.unknown_code(), &mut body);
                        while body.len() < length {
                            body.push(self.random.below(256) as u8);
                        }
                        body.truncate(length);
                        records::write_body(&body, &mut self.journal);
                    }
                    None => self.journal.push(0),
                }
            }
        }
    }

    /// Adds a record, damaged now and then, and brings the picture up to date.
    fn record(&mut self, code: u64, numbers: &[u64]) {
        self.records += 1;
        if self.random.once_in(self.damage) {
            self.damaged_record(code, numbers);
        } else {
            // A refused record is as good for a comparison.
            let _ = self.good_record(code, numbers);
        }
    }

    fn good_record(&mut self, code: u64, numbers: &[u64]) -> Answer {
        records::write(code, numbers, &mut self.journal);
        self.picture.call(code, filled(numbers))
    }

    fn loose_byte(&mut self) {
        let byte = match self.random.below(4) {
            0 => self.random.below(256),
            1 => self.random.between(1, 5),
            _ => self.random.below(16),
        };
        self.journal.push(byte as u8);
        self.records += 1;
    }
}

/// The longest body of a record that fits into so many bytes exactly.
fn longest_body(bytes: usize) -> Option<usize> {
    [1, 2, 3]
        .into_iter()
        .filter_map(|prefix| bytes.checked_sub(prefix).map(|body| (prefix, body)))
        .find(|&(prefix, body)| {
            let mut length = Vec::new();
            numbers::write(body as u64, &mut length);
            length.len() == prefix
        })
        .map(|(_, body)| body)
}

#[cfg(test)]
mod tests {
    use super::*;

    #[test]
    fn a_seed_gives_the_same_journal_again() {
        for index in 0..40 {
            let wish = Wish::default();
            assert_eq!(journal(5, index, wish), journal(5, index, wish));
        }
        assert_ne!(journal(5, 0, Wish::default()), journal(6, 0, Wish::default()));
    }

    #[test]
    fn a_wish_for_bytes_is_met_exactly() {
        for bytes in [0, 1, 2, 127, 128, 129, 130, 131, 1000, 16_385, 16_387, 65_536, 65_537] {
            for &(style, _, _) in STYLES {
                for index in 0..4 {
                    let wish = Wish { style, calls: Some(20), bytes: Some(bytes) };
                    assert_eq!(journal(1, index, wish).len(), bytes);
                }
            }
        }
    }

    #[test]
    fn full_tables_are_full() {
        let wish = Wish { style: Style::Full, calls: Some(1), bytes: None };
        let mut most = (0, 0, 0);
        for index in 0..30 {
            let journal = journal(3, index, wish);
            let mut run = crate::replies::Run::new(&journal, Default::default());
            while run.next_step().is_some() {
                let tables = run.monitor().tables();
                most.0 = most.0.max(tables.live_subjects().count());
                most.1 = most.1.max(tables.live_objects().count());
                most.2 = most.2.max(tables.handle_count());
            }
        }
        assert_eq!(most, (32, 64, 512));
    }
}
