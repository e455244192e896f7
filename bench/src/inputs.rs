//! What is measured: the same work for each program, made from fixed settings.

use std::hint::black_box;

use gatekeeper::{Answer, Monitor, State};
use gatekeeper_independent::generate::{self, Style, Wish};
use gatekeeper_independent::numbers;
use gatekeeper_independent::random::Random;
use gatekeeper_plain::{replies, Answer as PlainAnswer, Monitor as PlainMonitor, When};

use crate::layouts::{Layout, LAYOUTS};
use crate::leb::{self, Form};
use crate::typed::{Typed, TYPED};

const SEED: u64 = 1;

/// The bytes of the generated journal.
const GENERATED_BYTES: usize = 65_000;

/// How many numbers are read.
const NUMBERS: usize = 100_000;

/// The programs that are measured.
#[derive(Clone, Copy, Debug, PartialEq, Eq)]
pub enum Side {
    /// The proved library, through the archive for hosts, its monitor a struct.
    Proved,
    /// The same with a monitor of bytes.
    Bytes,
    /// The plain program, which works needs out at each call.
    Plain,
    /// The plain program, where it works needs out only at calls that go by them.
    Sparing,
}

pub const SIDES: [Side; 4] = [Side::Proved, Side::Bytes, Side::Plain, Side::Sparing];

impl Side {
    pub fn name(self) -> &'static str {
        match self {
            Side::Proved => "proved",
            Side::Bytes => "bytes",
            Side::Plain => "plain",
            Side::Sparing => "sparing",
        }
    }
}

/// What is measured, by name.
#[derive(Clone, Copy, Debug)]
pub enum Work {
    /// A round over full tables, call by call.
    Calls(Layout),
    /// The filling of the tables and a round, as a journal.
    Journal(Layout),
    /// A generated journal.
    Generated,
    /// A typed line, again and again.
    Line(Typed),
    /// Numbers alone, each at most so large, beside a plain reader in one of its forms.
    Numbers(u64, Form),
}

/// Every piece of work, in the order of the table.
pub const WORKS: [Work; 33] = [
    Work::Calls(LAYOUTS[0]),
    Work::Calls(LAYOUTS[1]),
    Work::Calls(LAYOUTS[2]),
    Work::Calls(LAYOUTS[3]),
    Work::Calls(LAYOUTS[4]),
    Work::Calls(LAYOUTS[5]),
    Work::Calls(LAYOUTS[6]),
    Work::Calls(LAYOUTS[7]),
    Work::Calls(LAYOUTS[8]),
    Work::Calls(LAYOUTS[9]),
    Work::Calls(LAYOUTS[10]),
    Work::Calls(LAYOUTS[11]),
    Work::Journal(LAYOUTS[0]),
    Work::Journal(LAYOUTS[1]),
    Work::Journal(LAYOUTS[7]),
    Work::Journal(LAYOUTS[10]),
    Work::Generated,
    Work::Line(TYPED[0]),
    Work::Line(TYPED[1]),
    Work::Line(TYPED[2]),
    Work::Line(TYPED[3]),
    Work::Line(TYPED[4]),
    Work::Line(TYPED[5]),
    Work::Line(TYPED[6]),
    Work::Numbers(leb::MIX, Form::Called),
    Work::Numbers(leb::MIX, Form::Words),
    Work::Numbers(leb::MIX, Form::Inlined),
    Work::Numbers(leb::SHORT, Form::Called),
    Work::Numbers(leb::SHORT, Form::Words),
    Work::Numbers(leb::SHORT, Form::Inlined),
    Work::Numbers(leb::ANY, Form::Called),
    Work::Numbers(leb::ANY, Form::Words),
    Work::Numbers(leb::ANY, Form::Inlined),
];

impl Work {
    pub fn name(self) -> String {
        match self {
            Work::Calls(layout) => layout.name.to_string(),
            Work::Journal(layout) => format!("journal, {}", layout.name),
            Work::Generated => "journal, generated".to_string(),
            Work::Line(typed) => typed.name.to_string(),
            Work::Numbers(largest, form) => leb::name(largest, form),
        }
    }

    /// Whether a typed line is run.
    pub fn is_line(self) -> bool {
        matches!(self, Work::Line(_))
    }

    /// Whether numbers are read, and no calls made.
    pub fn is_numbers(self) -> bool {
        matches!(self, Work::Numbers(..))
    }

    /// Whether the loop around the calls takes a part of the instructions that matters, and can be told from them: not where
    /// the plain reader is inlined into it.
    pub fn is_without_loop(self) -> bool {
        matches!(self, Work::Numbers(_, Form::Called | Form::Words))
    }

    /// Makes what the work needs.
    pub fn input(self) -> Input {
        match self {
            Work::Calls(layout) => called(layout),
            Work::Journal(layout) => replayed(as_journal(layout)),
            Work::Generated => replayed(generated()),
            Work::Line(typed) => typed.input(),
            Work::Numbers(largest, Form::Called) => numbers_read(largest, leb::read_called),
            Work::Numbers(largest, Form::Words) => numbers_read(largest, leb::read_words),
            Work::Numbers(largest, Form::Inlined) => numbers_read(largest, leb::read),
        }
    }
}

/// Work as one program does it. It answers with a sum over what it found, and each program finds the same.
pub type Run = Box<dyn FnMut() -> u64>;

/// One piece of work, done in two ways to four.
pub struct Input {
    /// How many calls, records, lines or numbers it has.
    pub calls: usize,
    pub proved: Run,
    /// None where no monitor is lent.
    pub bytes: Option<Run>,
    pub plain: Run,
    /// None where no needs are worked out.
    pub sparing: Option<Run>,
}

impl Input {
    /// Whether a program does the work.
    pub fn has(&self, side: Side) -> bool {
        match side {
            Side::Proved | Side::Plain => true,
            Side::Bytes => self.bytes.is_some(),
            Side::Sparing => self.sparing.is_some(),
        }
    }

    pub fn run(&mut self, side: Side) -> Option<&mut Run> {
        match side {
            Side::Proved => Some(&mut self.proved),
            Side::Bytes => self.bytes.as_mut(),
            Side::Plain => Some(&mut self.plain),
            Side::Sparing => self.sparing.as_mut(),
        }
    }
}

/// A journal, replayed into a buffer that is kept.
fn replayed(journal: Vec<u8>) -> Input {
    let reply = gatekeeper::replay(&journal);
    let plain = |when| {
        let mut text = Vec::new();
        replies(&journal, when, &mut text);
        assert_eq!(text, reply.as_bytes(), "the two programs differ");
        let journal = journal.clone();
        Box::new(move || {
            text.clear();
            replies(black_box(&journal), when, &mut text);
            text.len() as u64
        })
    };
    let mut text = vec![0; reply.len()];
    Input {
        calls: reply.lines().count() - 1,
        plain: plain(When::EachCall),
        sparing: Some(plain(When::Asked)),
        bytes: None,
        proved: Box::new(move || match gatekeeper::replay_into(black_box(&journal), &mut text) {
            Some(bytes) => bytes as u64,
            None => 0,
        }),
    }
}

/// The tables filled, then a round over them.
fn as_journal(layout: Layout) -> Vec<u8> {
    let mut journal = Vec::new();
    for (code, numbers) in layout.filling().into_iter().chain(layout.round()) {
        let mut record = [0; gatekeeper::RECORD_ROOM];
        let length = gatekeeper::write_record(&mut record, code, numbers).expect("each code is a call's");
        journal.extend_from_slice(&record[..length]);
    }
    journal
}

/// A round over full tables, call by call.
fn called(layout: Layout) -> Input {
    let (filling, round) = (layout.filling(), layout.round());
    let (mut proved, mut bytes) = (State::new(), Monitor::new());
    for &(code, numbers) in &filling {
        for answer in [proved.direct(code, numbers), bytes.direct(code, numbers)] {
            answer.granted().expect("the calls that fill the tables are allowed");
        }
    }
    let round_of_bytes = round.clone();
    let plain = |when| {
        let mut monitor = PlainMonitor::new(when);
        for &(code, numbers) in &filling {
            monitor.direct(code, numbers);
        }
        let round = round.clone();
        Box::new(move || {
            let answers = black_box(&round).iter().map(|&(code, numbers)| monitor.direct(code, numbers));
            answers.map(plain_figure).sum()
        })
    };
    Input {
        calls: round.len(),
        plain: plain(When::EachCall),
        sparing: Some(plain(When::Asked)),
        bytes: Some(Box::new(move || {
            let answers =
                black_box(&round_of_bytes).iter().map(|&(code, numbers)| bytes.direct(code, numbers));
            answers.map(figure).sum()
        })),
        proved: Box::new(move || {
            let answers = black_box(&round).iter().map(|&(code, numbers)| proved.direct(code, numbers));
            answers.map(figure).sum()
        }),
    }
}

/// The figure of a refusal is its number and this; that of no other answer is so large.
pub const REFUSED: u64 = 300;

/// An answer as one number.
pub fn figure(answer: Answer) -> u64 {
    match answer {
        Answer::Allowed(level) => level.into(),
        Answer::Lowered { level, lost } => 100 + 16 * u64::from(lost) + u64::from(level),
        Answer::Refused(refusal) => REFUSED + u64::from(refusal.number()),
    }
}

/// The same of the plain program's.
pub fn plain_figure(answer: PlainAnswer) -> u64 {
    match answer {
        PlainAnswer::Allowed(level) => level.into(),
        PlainAnswer::Lowered(level, lost) => 100 + 16 * u64::from(lost) + u64::from(level),
        PlainAnswer::Refused(number) => REFUSED + u64::from(number),
    }
}

/// A journal as `tools/second generate --seed 1 --calls 20000 --bytes 65000` makes it.
fn generated() -> Vec<u8> {
    let wish = Wish { style: Style::Mixed, calls: Some(20_000), bytes: Some(GENERATED_BYTES) };
    generate::journal(SEED, 0, wish)
}

/// Numbers that are at most so large, as many of each length, one after the other in a buffer.
fn numbers_read(largest: u64, plain: impl Fn(&[u8]) -> Option<(u64, usize)> + 'static) -> Input {
    let mut random = Random::new(SEED, 0);
    let mut bytes = Vec::new();
    for _ in 0..NUMBERS {
        numbers::write(drawn(&mut random, largest), &mut bytes);
    }
    let bytes_beside = bytes.clone();
    Input {
        calls: NUMBERS,
        proved: Box::new(move || sum(black_box(&bytes), gatekeeper::read_number)),
        bytes: None,
        plain: Box::new(move || sum(black_box(&bytes_beside), &plain)),
        sparing: None,
    }
}

/// How many bytes the longest number has that is at most so large: one for each seven bits.
fn longest(largest: u64) -> u64 {
    (u64::BITS - largest.leading_zeros()).div_ceil(7).into()
}

/// A number that is at most so large, of one byte or more, each length as likely.
fn drawn(random: &mut Random, largest: u64) -> u64 {
    let length = random.between(1, longest(largest));
    let low = if length == 1 { 0 } else { 1 << (7 * (length - 1)) };
    let high = u64::MAX >> 64_u64.saturating_sub(7 * length);
    random.between(low, high.min(largest))
}

/// The sum of the numbers in a buffer that holds nothing else, modulo 2 to the 64th.
#[inline(always)]
fn sum(mut bytes: &[u8], read: impl Fn(&[u8]) -> Option<(u64, usize)>) -> u64 {
    let mut sum = 0_u64;
    while let Some((value, used)) = read(bytes) {
        sum = sum.wrapping_add(value);
        bytes = &bytes[used..];
    }
    sum
}

#[cfg(test)]
mod tests {
    use std::iter;

    use super::*;
    use gatekeeper_independent::records::Reader;
    use gatekeeper_independent::replies::replies as replies_beside;
    use gatekeeper_independent::variants::Rules;

    #[test]
    fn each_program_finds_the_same() {
        for work in WORKS {
            let mut input = work.input();
            let found = (input.proved)();
            assert!(found > 0, "{}", work.name());
            for side in SIDES {
                // Twice, as a round leaves the tables as they were.
                for _ in 0..2 {
                    let has = input.has(side);
                    let Some(run) = input.run(side) else {
                        assert!(!has);
                        continue;
                    };
                    assert_eq!(run(), found, "{}, {}", work.name(), side.name());
                }
            }
        }
    }

    #[test]
    fn numbers_of_every_length_are_drawn() {
        for (largest, longest) in [(leb::SHORT, 2), (leb::MIX, 5), (leb::ANY, 10)] {
            let mut random = Random::new(SEED, 0);
            let mut counts = [0_usize; 11];
            for _ in 0..NUMBERS {
                let number = drawn(&mut random, largest);
                assert!(number <= largest);
                let mut bytes = Vec::new();
                numbers::write(number, &mut bytes);
                counts[bytes.len()] += 1;
            }
            let share = NUMBERS / longest;
            for (length, count) in counts.into_iter().enumerate() {
                let expected = if (1..=longest).contains(&length) { share } else { 0 };
                assert!(count.abs_diff(expected) <= expected / 10, "{count} of {length} bytes");
            }
        }
    }

    /// How many bytes of a journal are whole records.
    fn in_records(journal: &[u8]) -> usize {
        let mut reader = Reader::new(journal, Rules::default());
        let records = iter::from_fn(|| reader.next_record()?.ok());
        records.last().map_or(0, |record| record.end)
    }

    #[test]
    fn the_generated_journal_is_run_to_its_end() {
        let journal = generated();
        assert_eq!(journal.len(), GENERATED_BYTES);
        // What is left is the beginning of a record.
        assert!(GENERATED_BYTES - in_records(&journal) < 62);
        let reply = replies_beside(&journal);
        assert!(reply.lines().count() > 5_000);
        assert_eq!(gatekeeper::replay(&journal), reply);
    }
}
