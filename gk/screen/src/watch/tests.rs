//! The loop on a window that is none.

use std::collections::VecDeque;

use super::*;
use crate::layout::tests::{crowd, reel};

/// What happens: a key, another size, or the end.
enum Event {
    Keys(&'static str),
    Size(usize, usize),
}

struct Fake {
    size: Size,
    events: VecDeque<Event>,
    /// Every window full that was shown.
    shown: Vec<Vec<String>>,
    waits: usize,
}

impl Window for Fake {
    fn size(&self) -> Size {
        self.size
    }

    fn show(&mut self, lines: &[Pieces]) -> Result<(), Failure> {
        let text = |line: &Pieces| line.iter().map(|piece| piece.1.as_str()).collect();
        self.shown.push(lines.iter().map(text).collect());
        Ok(())
    }

    fn wait(&mut self, _: Duration, _: bool) -> Result<Woken, Failure> {
        self.waits += 1;
        match self.events.pop_front() {
            Some(Event::Keys(typed)) => Ok(Woken::Typed(typed.as_bytes().to_vec())),
            Some(Event::Size(columns, rows)) => {
                self.size = Size { columns, rows };
                Ok(Woken::Nothing)
            }
            None => Ok(Woken::Gone),
        }
    }
}

/// What is shown of the crowd, from its last record on.
fn seen(events: Vec<Event>) -> Vec<Vec<String>> {
    let size = Size { columns: 80, rows: 24 };
    let mut window = Fake { size, events: events.into(), shown: Vec::new(), waits: 0 };
    watch(&mut window, None, reel(crowd()), Stand::at(Some(321))).expect("it ends");
    window.shown
}

#[test]
fn it_is_drawn_again_where_something_is_another_and_only_then() {
    let shown = seen(vec![
        Event::Size(80, 24),
        Event::Keys("x"),
        Event::Size(200, 50),
        Event::Size(200, 50),
        Event::Size(40, 10),
    ]);
    let sizes: Vec<usize> = shown.iter().map(Vec::len).collect();
    assert_eq!(sizes, [24, 50, 10]);
    assert!(shown.iter().all(|lines| lines.iter().any(|line| line.starts_with(">17 "))), "{shown:?}");
}

#[test]
fn keys_go_through_the_records_as_on_the_page() {
    let keys = ["\u{1b}[D", "\u{1b}[1;2D", "\u{1b}[C", "\u{1b}[H", "N", "p", "\u{1b}[F"];
    let shown = seen(keys.map(Event::Keys).into());
    let records: Vec<&str> = shown.iter().map(|lines| lines[0].split("  ").next().unwrap_or("")).collect();
    // At the only refusal `p` leads nowhere; End is at the last record, too.
    let expected = [
        "run.journal: record 321 of 321",
        "run.journal: record 320 of 321",
        "run.journal: record 310 of 321",
        "run.journal: record 311 of 321",
        "run.journal: before the first of 321",
        "run.journal: record 321 of 321",
        "run.journal: record 321 of 321",
    ];
    assert_eq!(records, expected);
    assert!(shown[0][0].contains("Refused (9), refusal 1 of 1"), "{}", shown[0][0]);
    assert!(shown[1][0].contains("Allowed"), "{}", shown[1][0]);
}

#[test]
fn a_pane_is_scrolled_and_centred_again() {
    let has = |lines: &[String], row: &str| lines.iter().any(|line| line.starts_with(row));
    let far_up: &str = "\u{1b}[5~".repeat(20).leak();
    let shown = seen(["\t", far_up, "c"].map(Event::Keys).into());
    assert!(has(&shown[0], ">17 ") && !has(&shown[0], "  0 "));
    assert!(shown[1][23].contains("[steps↑"), "{}", shown[1][23]);
    assert!(!has(&shown[2], ">17 ") && has(&shown[2], "  0 "), "{:?}", shown[2]);
    assert!(has(&shown[3], ">17 "));
    // A move to another record centres, too; keys that come together are pressed one after the other.
    let shown = seen(["\t\u{1b}[A\u{1b}[A\u{1b}[D\u{1b}[C", "q", "n"].map(Event::Keys).into());
    assert!(shown.len() == 2 && has(&shown[1], ">17 "), "{shown:?}");
}

#[test]
fn the_keys_are_told() {
    let shown = seen(["?", "?"].map(Event::Keys).into());
    assert!(
        shown[1].iter().any(|line| line.contains("the next refusal, the one before")),
        "{:?}",
        shown[1]
    );
    assert!(!shown[2].iter().any(|line| line.contains("the next refusal, the one before")));
}

/// A journal that grows is shown as it comes, but for one who has gone back.
#[test]
fn what_comes_is_shown_to_those_who_wait_for_it() {
    let folder = std::env::temp_dir().join(format!("gk-screen-watch-{}", std::process::id()));
    std::fs::create_dir_all(&folder).expect("a folder");
    let path = folder.join("run.journal");
    let whole = crowd();
    std::fs::write(&path, &whole).expect("a file");
    let names = folder.join("run.names");
    std::fs::write(&names, "names 1\nstep 17 1 merge\n").expect("a file");
    let source = Source::of(&path.to_string_lossy(), Some(names)).expect("it opens");
    let size = Size { columns: 100, rows: 30 };
    let events = ["\u{1b}[D", "\u{1b}[F"].map(Event::Keys).into();
    let mut window = Fake { size, events, shown: Vec::new(), waits: 0 };
    watch(&mut window, Some(source), reel(Vec::new()), Stand::at(None)).expect("it ends");
    std::fs::remove_dir_all(&folder).expect("it goes");
    let first = |index: usize| window.shown[index][0].as_str();
    assert!(first(0).contains("record 321 of 321, live"), "{}", first(0));
    assert!(first(1).contains("record 320 of 321  "), "{}", first(1));
    assert!(first(2).contains("record 321 of 321, live"), "{}", first(2));
    // The names are those that stand beside it by now.
    assert!(window.shown[0][1].starts_with("merge (step 17) may not open"), "{}", window.shown[0][1]);
}
