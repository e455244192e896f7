//! Windows of many sizes.

use gatekeeper::Call;

use super::*;
use crate::reel::Reel;
use crate::state::State;

const COLUMNS: [usize; 13] = [20, 21, 33, 40, 60, 61, 79, 80, 100, 129, 130, 200, 250];
const ROWS: [usize; 6] = [8, 9, 12, 24, 40, 80];

/// A run in which step 17 of 31 is refused a sheet with 9: each step holds eight files.
pub fn crowd() -> Vec<u8> {
    let admit = |subject| Call::Admit { subject, level: 12, shops: 255 };
    let register = |object| Call::Register { object, level: 9, shops: 255 };
    let opens = (0..31).flat_map(|subject| {
        (0..8).map(move |place| Call::OpenWrite { subject, object: (subject + place) % 40, place })
    });
    let sheet = Call::Register { object: u64::MAX, level: 2, shops: 3 };
    let asks = Call::OpenRead { subject: 17, object: u64::MAX, place: 9 };
    let calls = (0..31).map(admit).chain((0..40).map(register)).chain(opens).chain([sheet, asks]);
    let mut journal = Vec::new();
    calls.for_each(|call| call.write_record(&mut journal));
    journal
}

const NAMES: &[u8] =
    b"names 1\nstep 17 1 the reader of the northern hours sheet\nfile 3 1 the pay book of March\n";

pub fn reel(journal: Vec<u8>) -> Reel {
    let names = gk_names::Names::read(NAMES).expect("names");
    Reel::whole(Screen::new("run.journal".to_string(), names, State::empty()), journal)
}

fn march() -> Vec<u8> {
    std::fs::read(concat!(env!("CARGO_MANIFEST_DIR"), "/../../crates/payrun/stdin")).expect("March")
}

fn around(reel: &Reel, record: u64) -> Around {
    let (records, refusal) = (reel.records(), reel.refusal(record));
    Around { records, refusal, is_live: false, notice: None }
}

fn text(pieces: &Pieces) -> String {
    pieces.iter().map(|piece| piece.1.as_str()).collect()
}

fn sizes() -> impl Iterator<Item = Size> {
    COLUMNS.into_iter().flat_map(|columns| ROWS.map(|rows| Size { columns, rows }))
}

/// Every record of these runs that is worth a look, with who asks where it is a step that runs.
fn for_each(look: impl Fn(&Screen, &Around, Size, Option<u64>)) {
    let crowded = crowd();
    for (journal, records) in
        [(crowded, vec![(0, None), (321, Some(17))]), (march(), vec![(196, Some(17)), (205, Some(1))])]
    {
        let mut reel = reel(journal);
        for (record, asker) in records {
            let around = around(&reel, record);
            let screen = reel.show(record);
            assert_eq!(screen.position(), record);
            sizes().for_each(|size| look(screen, &around, size, asker));
        }
    }
}

#[test]
fn a_window_is_filled_and_never_left() {
    for_each(|screen, around, size, _| {
        for is_help in [false, true] {
            let glance = Glance { is_help, ..Glance::default() };
            let frame = frame(screen, around, size, &glance);
            assert_eq!(frame.lines.len(), size.rows, "{size:?}");
            for line in &frame.lines {
                assert!(width(&text(line)) <= size.columns, "{size:?}: {}", text(line));
            }
        }
    });
}

#[test]
fn the_smallest_windows_are_no_fault() {
    let mut reel = reel(crowd());
    let around = around(&reel, 321);
    for columns in 0..24 {
        for rows in 0..9 {
            let frame = frame(reel.show(321), &around, Size { columns, rows }, &Glance::default());
            assert!(frame.lines.len() <= rows);
            assert!(
                frame.lines.iter().all(|line| width(&text(line)) <= columns.max(2)),
                "{columns} {rows}"
            );
        }
    }
}

/// Issue 38, 4: step 17 of 31 is there, and that it was refused.
#[test]
fn who_asks_and_the_answer_are_always_in_sight() {
    for_each(|screen, around, size, asker| {
        let Some(asker) = asker else {
            return;
        };
        let frame = frame(screen, around, size, &Glance::default());
        let lines: Vec<String> = frame.lines.iter().map(text).collect();
        assert!(lines[0].contains(&screen.answer().1), "{size:?}: {}", lines[0]);
        let row = format!(">{asker:>2} ");
        assert!(lines.iter().any(|line| line.starts_with(&row)), "{size:?}:\n{}", lines.join("\n"));
        // In its middle, where there is a middle.
        let shown = &frame.shown[STEPS];
        let pane = Pane::of_table(screen.steps(table_columns(size)), screen);
        let centre = pane.centre.expect("a row");
        assert!(shown.contains(&centre.start), "{size:?}");
        let (above, below) = (centre.start - shown.start, shown.end.saturating_sub(centre.end));
        let is_at_end = shown.start == 0 || shown.end == frame.of[STEPS];
        assert!(is_at_end || below == 0 || above.abs_diff(below) <= 1, "{size:?} {above} {below}");
    });
}

fn table_columns(size: Size) -> usize {
    if size.columns >= WIDE {
        size.columns * 11 / 20 - 1
    } else {
        size.columns - 1
    }
}

#[test]
fn from_eighty_columns_and_twenty_four_lines_on_a_refusal_has_its_way_out_in_sight() {
    for_each(|screen, around, size, _| {
        if size.columns < 79 || size.rows < 24 || screen.answer().0 != Look::Refused {
            return;
        }
        let frame = frame(screen, around, size, &Glance::default());
        let words = Pane::of_parts(&screen.words(), 1 << 20);
        let seen: Vec<String> = match size.columns >= WIDE {
            true => frame.lines.iter().filter_map(|line| Some(line.get(2)?.1.clone())).collect(),
            false => frame.lines.iter().map(text).collect(),
        };
        let seen = seen.join(" ").split_whitespace().collect::<Vec<_>>().join(" ");
        for Line(_, sentence) in &words.lines[..3] {
            assert!(seen.contains(sentence.trim()), "{size:?}: {sentence}\n{seen}");
        }
        assert!(seen.contains("Way out: "), "{size:?}");
    });
}

/// What the words show ends with a sentence, unless there is no room for one.
#[test]
fn no_sentence_is_cut_that_has_room() {
    for_each(|screen, around, size, _| {
        for first in [None, Some(3), Some(11)] {
            let glance = Glance { scroll: [first, None, None], ..Glance::default() };
            let shown = frame(screen, around, size, &glance).shown[WORDS].clone();
            let right = match size.columns >= WIDE {
                true => size.columns - size.columns * 11 / 20 - width(BETWEEN),
                false => size.columns,
            };
            let pane = Pane::of_parts(&screen.words(), right);
            let is_over = shown.is_empty() || pane.ends[shown.end - 1];
            assert!(is_over || !pane.ends[shown.clone()].contains(&true), "{size:?} {shown:?}");
        }
    });
}

/// Every line of every pane can be scrolled to, and where some are hidden the last line says on which side.
#[test]
fn nothing_is_hidden_that_cannot_be_reached() {
    for_each(|screen, around, size, _| {
        if ![20, 40, 80, 130, 250].contains(&size.columns) || ![8, 24, 80].contains(&size.rows) {
            return;
        }
        for pane in [WORDS, STEPS, FILES] {
            let (mut reached, mut first) = (0, 0);
            loop {
                let mut glance = Glance { focus: pane, ..Glance::default() };
                glance.scroll[pane] = Some(first);
                let frame = frame(screen, around, size, &glance);
                let (shown, of) = (frame.shown[pane].clone(), frame.of[pane]);
                assert!(shown.start <= reached, "{size:?}: {shown:?} of {of}, {reached}");
                let status = text(&frame.lines[size.rows - 1]);
                let open = status.find('[').expect("the pane that is scrolled");
                let said = &status[open..status[open..].find(']').expect("its end") + open];
                assert_eq!(said.contains('↑'), shown.start > 0, "{size:?} {status}");
                assert_eq!(said.contains('↓'), shown.end < of, "{size:?} {status}");
                assert!(status.contains('?'), "{size:?} {status}");
                reached = shown.end;
                if reached >= of {
                    break;
                }
                assert!(shown.start >= first, "{size:?}: {shown:?} of {of} cannot be left");
                first += shown.len().max(1);
            }
        }
    });
}

/// All words of what is said stand in the pane, in their order, none of them cut.
#[test]
fn words_are_broken_at_spaces() {
    for_each(|screen, _, size, _| {
        let parts = screen.words();
        let said = parts.iter().flat_map(|part| [part.start.as_str(), part.text.as_str()]);
        let said: Vec<&str> = said.flat_map(str::split_whitespace).collect();
        if said.iter().any(|word| width(word) > size.columns - 9) {
            return;
        }
        let pane = Pane::of_parts(&parts, size.columns);
        let shown: Vec<&str> = pane.lines.iter().flat_map(|line| line.1.split_whitespace()).collect();
        assert_eq!(shown, said, "{size:?}");
    });
}

/// Issue 38, 4: 200 columns are used.
#[test]
fn a_wide_window_is_used() {
    let mut reel = reel(crowd());
    let around = around(&reel, 321);
    let screen = reel.show(321);
    let lines = |columns, rows| frame(screen, &around, Size { columns, rows }, &Glance::default()).lines;
    for columns in [100, 130, 160, 200, 250] {
        let widest = lines(columns, 40).iter().map(|line| width(text(line).trim_end())).max();
        assert!(widest > Some(columns - 14), "{columns}: {widest:?}");
    }
    let rows = lines(200, 80);
    let is_full = |line: &&Pieces| !text(line).replace('│', "").trim().is_empty();
    assert!(rows.iter().filter(is_full).count() > 70);
}
