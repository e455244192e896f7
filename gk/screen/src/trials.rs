//! Trials on generated journals of a fixed seed: what is shown beside the independent program, and that nothing fails.

use gatekeeper::{replay, Call, Kind, Label, Way, JOURNAL_BYTES, NO_FREEZE};
use gatekeeper_independent::generate::{journal, Style, Wish, STYLES};
use gatekeeper_independent::labels::Label as OtherLabel;
use gatekeeper_independent::monitor::{Answer as OtherAnswer, Monitor as OtherMonitor};
use gatekeeper_independent::needs::{Needs, Thing as Other};
use gatekeeper_independent::replies;
use gatekeeper_independent::tables::{Direction, Kind as OtherKind, Tables};
use gatekeeper_independent::variants::Rules;
use gk_advice::run::{Content, Run};
use gk_chain::sought;
use gk_names::Names;

use crate::advised::Advised;
use crate::layout::{frame, Around, Glance, Pieces, Size};
use crate::page::page;
use crate::state::{flow, State, Thing, PLACES, STEPS};
use crate::terminal::Screen;
use crate::text::{width, COLUMNS};
use crate::told::Memory;

const SEED: u64 = 20_260_331;

/// Journals of every style, and of every style one of the greatest length.
fn journals() -> Vec<Vec<u8>> {
    let mut all = Vec::new();
    for &(style, _, _) in STYLES.iter().filter(|(style, _, _)| *style != Style::Mixed) {
        all.extend((0..12).map(|index| journal(SEED, index, Wish { style, ..Wish::default() })));
        let wish = Wish { style, calls: Some(20_000), bytes: Some(JOURNAL_BYTES) };
        all.push(journal(SEED, 99, wish));
    }
    all.push(vec![0; JOURNAL_BYTES]);
    all.push(vec![0; JOURNAL_BYTES + 1]);
    all
}

/// A label as the independent program has it.
fn other(label: Label) -> OtherLabel {
    OtherLabel { level: label.level.into(), shops: label.shops.into() }
}

fn agrees(state: &State, tables: &Tables) {
    let needs = Needs::of_tables(tables);
    for s in 0..STEPS {
        let known = state.step(s).map(|step| (other(step.label), other(step.need), Some(step.group)));
        let other = tables
            .subject(s)
            .map(|subject| (subject.label(), needs.of(Other::Subject(s)), tables.members(s).next()));
        assert_eq!(known, other, "step {s}");
        assert!(state.mates(s).into_iter().eq(tables.mates(s)), "the threads of step {s}");
        for p in 0..PLACES {
            let known = state.handle(s, p).map(|handle| {
                (handle.object, handle.way == Way::Writes, handle.way == Way::Maps, handle.marked)
            });
            let other = tables.handle(s, p).map(|handle| {
                (handle.object, handle.direction == Direction::Writing, handle.mapped, handle.marked)
            });
            assert_eq!(known, other, "place {p} of step {s}");
        }
    }
    let live: Vec<u64> = state.objects().map(|(o, _)| o).collect();
    assert!(live.is_sorted() && live.iter().copied().eq(tables.live_objects()), "{live:?}");
    for o in live {
        let known = state
            .object(o)
            .map(|object| (object.kind == Kind::File, other(object.label), other(object.need)));
        let other = tables
            .object(o)
            .map(|object| (object.kind == OtherKind::File, object.label(), needs.of(Other::Object(o))));
        assert_eq!(known, other, "file or pipe {o}");
    }
    assert_eq!(state.frozen_from.map(u64::from), tables.frozen_from());
}

/// The tables are the independent program's, and every advice that is given is followed, by its calls and by its words
/// alone, and is allowed.
#[test]
fn what_is_shown_is_so_and_what_is_advised_holds() {
    let (mut records, mut nines, mut hidden, mut by_marks) = (0, 0, 0, 0);
    let mut advised = Advised::default();
    for journal in journals() {
        let mut other = replies::Run::new(&journal, Rules::default());
        let mut memory = Memory::default();
        let mut state = State::empty();
        let mut lines = String::new();
        for turn in Run::new(&journal) {
            assert!(other.next_step().is_some());
            let before = state.clone();
            state = if turn.before == turn.after { state } else { State::of(&turn.after) };
            // The independent program's needs are slow: a sample of the long journals is enough.
            if turn.position < 900 || turn.position % 61 == 0 {
                agrees(&state, other.monitor().tables());
            }
            lines.push_str(&turn.line());
            lines.push('\n');
            let told = memory.tell(&turn, &before, &state);
            let is_nine = lines.ends_with(" R 9\n");
            let is_hidden = lines.ends_with(" R 15\n") && is_nine_once_open(other.monitor(), turn.content);
            assert_eq!(!told.chain.is_empty(), is_nine || is_hidden, "{}", turn.line());
            hidden += u64::from(is_hidden);
            if let (Content::Call(call), [low, .., high]) = (turn.content, &told.chain[..]) {
                is_a_way(
                    call.code(),
                    call.numbers(),
                    &before,
                    &told.chain.iter().map(|link| link.thing).collect::<Vec<_>>(),
                );
                assert!(!low.label.at_least(high.label) && high.kind == Some(Kind::File));
                nines += 1;
                by_marks += u64::from(low.label.level >= high.label.level);
            }
            let has_advice = !(told.ways.is_empty() && told.notes.is_empty());
            assert_eq!(has_advice, turn.refusal().is_some(), "{}", turn.line());
            advised.follow(&turn, &told);
            records += 1;
        }
        assert!(replay(&journal).starts_with(&lines));
        assert!(other.next_step().is_none());
    }
    assert!(records > 50_000 && nines > 1_500, "{records} records, {nines} nines");
    assert!(by_marks > 100, "{by_marks} nines for a shop mark alone");
    assert!(hidden > 100, "{hidden} nines behind a fifteen");
    advised.is_enough();
}

/// Whether the independent program refuses a call with 9 once there is no freeze.
fn is_nine_once_open(monitor: &OtherMonitor, content: Content) -> bool {
    let Content::Call(call) = content else {
        return false;
    };
    let mut open = monitor.clone();
    let _ = open.call(16, [NO_FREEZE, 0, 0, 0, 0, 0]);
    open.call(call.code(), call.numbers()) == OtherAnswer::Refused(9)
}

/// Each link of a chain is a handle that is open, a flow between two threads of one step or a flow that the call asks for,
/// and one of these is among them.
fn is_a_way(code: u64, numbers: [u64; 6], before: &State, things: &[Thing]) {
    let sought = sought(code, numbers);
    let open: Vec<(Thing, Thing)> = before.handles().map(|(s, _, handle)| flow(s, handle)).collect();
    let links: Vec<(Thing, Thing)> = things.windows(2).map(|pair| (pair[0], pair[1])).collect();
    let is_shared = |link: &(Thing, Thing)| match *link {
        (Thing::Step(one), Thing::Step(other)) => before.mates(one).contains(&other),
        _ => false,
    };
    assert!(links.iter().all(|link| open.contains(link) || is_shared(link) || sought.contains(link)));
    assert!(links.iter().any(|link| sought.contains(link)));
}

#[test]
fn no_journal_is_too_much_for_the_screen_and_the_page() {
    for journal in journals() {
        let mut screen = Screen::new("a journal".to_string(), Names::new(), State::empty());
        let mut records = 0;
        for turn in Run::new(&journal) {
            records = turn.position;
            if records % 97 > 1 {
                screen.pass(&turn);
            } else {
                screen.take(&turn);
            }
            if records % 97 == 1 {
                fits(&screen.text(Some(records), false, COLUMNS), COLUMNS);
                let size = Size { columns: 20 + records as usize % 231, rows: 8 + records as usize % 73 };
                window_fits(&screen, size);
            }
        }
        fits(&screen.text(Some(records), false, COLUMNS), COLUMNS);
        let page = page(&journal, "a journal", &Names::new(), None);
        assert!(page.len() < 6_000_000, "{} bytes for {records} records", page.len());
        assert_eq!(page.matches("</script>").count(), 2);
    }
}

fn fits(text: &str, columns: usize) {
    for line in text.lines() {
        assert!(width(line) <= columns, "{line}");
        assert!(!line.chars().any(char::is_control), "{line:?}");
    }
}

/// A window of any size is full, and what the record is about is in it.
fn window_fits(screen: &Screen, size: Size) {
    let around = Around { records: screen.position(), notice: Some("a notice"), ..Around::default() };
    let frame = frame(screen, &around, size, &Glance::default());
    let line = |pieces: &Pieces| pieces.iter().map(|piece| piece.1.as_str()).collect::<String>();
    let lines: Vec<String> = frame.lines.iter().map(line).collect();
    assert_eq!(lines.len(), size.rows);
    fits(&lines.join("\n"), size.columns);
    assert!(lines[0].contains(&screen.answer().1), "{size:?}: {}", lines[0]);
    for s in
        (0..STEPS).filter(|&s| screen.state.step(s).is_some() && screen.is_about(Thing::Step(s))).take(1)
    {
        assert!(lines.iter().any(|line| line.starts_with('>')), "{size:?}, step {s}: {lines:?}");
    }
}

#[test]
fn colours_only_stand_beside_words() {
    let mut screen = Screen::new("a journal".to_string(), Names::new(), State::empty());
    let journal = journal(SEED, 3, Wish { style: Style::Payrun, ..Wish::default() });
    for turn in Run::new(&journal) {
        screen.take(&turn);
        let plain = screen.text(None, false, COLUMNS);
        let coloured = screen.text(None, true, COLUMNS);
        let stripped: String = coloured
            .split('\u{1b}')
            .map(|part| {
                part.strip_prefix('[').and_then(|part| part.split_once('m')).map_or(part, |(_, rest)| rest)
            })
            .collect();
        assert_eq!(stripped, plain);
    }
}

/// RULES R117: the terminal has the books first, then that a 9 comes once they are open, and its chain after that.
#[test]
fn a_fifteen_is_shown_with_the_nine_behind_it() {
    let mut journal = Vec::new();
    for call in [
        Call::Admit { subject: 0, level: 9, shops: 255 },
        Call::Register { object: 0, level: 9, shops: 255 },
        Call::Register { object: 1, level: 2, shops: 255 },
        Call::OpenRead { subject: 0, object: 1, place: 0 },
        Call::Freeze { level: 9 },
        Call::OpenWrite { subject: 0, object: 0, place: 1 },
    ] {
        call.write_record(&mut journal);
    }
    let mut screen = Screen::new("a journal".to_string(), Names::new(), State::empty());
    for turn in Run::new(&journal) {
        screen.take(&turn);
    }
    let text = screen.text(None, false, COLUMNS);
    let text = text.split_whitespace().collect::<Vec<_>>().join(" ");
    let mut rest = text.split_once("The last refusals").expect("refusals").1;
    for part in [
        "Way out: Close place 0 (reading file 1) of step 0; open it after that once the books are open again",
        "the books are closed from level 9 up since record 5",
        "Refused (15): ",
        "it would be refused with 9: ",
        "This is how file 1 could get into file 0, were the books open and it let through: step 0 reads file 1 and writes \
         file 0. Proved (RULES A1 to A12)",
    ] {
        rest = rest.split_once(part).unwrap_or_else(|| panic!("{part}: not in its place: {text}")).1;
    }
}

/// Any number is shown with all its digits, in rising order, and how many are live.
#[test]
fn long_numbers_are_shown_whole() {
    let mut journal = Vec::new();
    let numbers = [u64::MAX, 12_345_678, 5];
    let registers = numbers.map(|object| Call::Register { object, level: 9, shops: 255 });
    let mut step = vec![Call::Admit { subject: 3, level: 9, shops: 255 }];
    step.extend((0..).zip(numbers).map(|(place, object)| Call::OpenRead { subject: 3, object, place }));
    registers.iter().chain(&step).for_each(|call| call.write_record(&mut journal));
    let mut screen = Screen::new("a journal".to_string(), Names::new(), State::empty());
    Run::new(&journal).for_each(|turn| drop(screen.take(&turn)));
    let text = screen.text(None, false, COLUMNS);
    fits(&text, COLUMNS);
    let (_, table) = text.split_once("\nFiles and pipes ").expect("a table");
    assert!(table.lines().next().is_some_and(|head| head.ends_with("3 of 64 live")), "{text}");
    let rows: Vec<&str> = table.lines().skip(1).map(str::trim_end).collect();
    assert!(rows[0].starts_with("file          5 ") && rows[0].ends_with(" 3"), "{text}");
    assert!(rows[1].starts_with("file 12,345,678 ") && rows[1].ends_with(" 3"), "{text}");
    assert_eq!(rows[2], "file 18,446,744,073,709,551,615");
    assert!(rows[3].starts_with("                ") && rows[3].ends_with(" 3"), "{text}");
    assert!(text.contains("0: reads file 18,446,744,073,709,551,615; 1: reads"), "{text}");
    // The page has them as texts, and no script reads them as numbers.
    let page = page(&journal, "a journal", &Names::new(), None);
    let objects = "\"objects\":[\"5\",\"12,345,678\",\"18,446,744,073,709,551,615\"]";
    assert!(page.contains(objects) && !page.contains("18446744073709551615"));
}
