//! Typed lines: the worked cases, the reader beside a second one, and what holds of every line.

use std::collections::{BTreeMap, BTreeSet};

use gatekeeper_independent::cases::lines::LINE_CASES;
use gatekeeper_independent::generate::lines::{trials, Trial};
use gatekeeper_independent::lines::{
    calls_of, judge, read, run, run_by, written, Counts, Made, Ran, Stage,
};
use gatekeeper_independent::monitor::{Answer, Monitor};
use gatekeeper_independent::needs::Needs;
use gatekeeper_independent::tables::{Kind, Tables};
use gatekeeper_independent::variants::lines::LineRules;

#[test]
fn every_case_gets_its_answers() {
    let mut names = BTreeSet::new();
    for case in LINE_CASES {
        let mut monitor = case.monitor();
        let ran = run_by(&mut monitor, case.line.as_bytes(), case.start, LineRules::default());
        assert_eq!(ran.text(), case.replies(), "case {}", case.name);
        assert!(names.insert(case.name) && case.text().contains(case.line), "case {}", case.name);
    }
    for name in ["line-k6", "line-k7", "line-goes-on", "line-lowered", "line-mates", "line-18", "line-19"] {
        assert!(names.contains(name), "{name}");
    }
}

/// File 0 at level 9, file 1 at level 2, subject 0 at level 9: RULES K0. File 2 is a program at level 9.
fn counting_house() -> Monitor {
    let mut monitor = Monitor::new();
    for (code, number, level) in [(2, 0, 9), (2, 1, 2), (1, 0, 9), (2, 2, 9)] {
        assert_eq!(monitor.call(code, [number, level, 0, 0, 0, 0]), Answer::Allowed(level));
    }
    monitor
}

/// RULES L15, on a line: each stage reads and writes file 0, and all is allowed.
#[test]
fn a_pipeline_of_full_stages_makes_so_many_calls() {
    for (n, calls) in (1..).zip([5, 15, 29, 47, 69, 95, 125, 159]) {
        let line = vec!["2<0>0"; n].join("|");
        let mut monitor = counting_house();
        let counts = Counts { allowed: calls, lowered: 0, refused: 0 };
        assert_eq!(run(&mut monitor, line.as_bytes(), 0, 1, 64), Ok(counts), "{n}");
        // Nothing is left of it.
        assert_eq!(monitor.tables(), counting_house().tables());
        assert_eq!(monitor.tally().open(), 0);
        // Nor is it the line's affair how much of it may be done.
        let refused = Counts { allowed: 0, lowered: 0, refused: calls };
        assert_eq!(run(&mut Monitor::new(), line.as_bytes(), 0, 1, 64), Ok(refused), "{n}");
    }
    let nine = ["2<0>0"; 9].join("|");
    assert_eq!(run(&mut counting_house(), nine.as_bytes(), 0, 1, 64), Err(19));
}

/// RULES L14: lines one after the other, with one tally.
#[test]
fn the_tally_goes_on_over_lines() {
    let mut monitor = counting_house();
    assert!(run(&mut monitor, b"2|2", 0, 1, 64).is_ok());
    // Two for the pipe, two for each fork.
    assert_eq!((monitor.tally().made, monitor.tally().gone), (6, 6));
    assert!(run(&mut monitor, b"2<0;2>0", 0, 1, 64).is_ok());
    assert_eq!((monitor.tally().made, monitor.tally().gone), (8, 8));
}

// Reading.

/// A second reader, which splits the line at its signs: RULES L1 to L5.
fn read_by_splitting(line: &[u8]) -> Option<Vec<Vec<Stage>>> {
    let text = std::str::from_utf8(line).ok()?;
    text.split(';').map(|pipeline| pipeline.split('|').map(stage_by_splitting).collect()).collect()
}

fn stage_by_splitting(text: &str) -> Option<Stage> {
    let (rest, output) = behind(text, '>')?;
    let (program, input) = behind(rest, '<')?;
    Some(Stage { program: number(program)?, input, output })
}

/// What stands before the sign, and the number behind it if the sign is there.
fn behind(text: &str, sign: char) -> Option<(&str, Option<u64>)> {
    match text.split_once(sign) {
        None => Some((text, None)),
        Some((before, after)) => Some((before, Some(number(after)?))),
    }
}

fn number(text: &str) -> Option<u64> {
    let digits = text.trim_matches(' ');
    let value: u64 = digits.parse().ok()?;
    (value.to_string() == digits).then_some(value)
}

#[test]
fn all_short_lines_are_read_as_by_a_second_reader() {
    let alphabet = b" 012<>|;\t";
    let mut lines: Vec<Vec<u8>> = vec![Vec::new()];
    let mut good = 0;
    for _ in 0..6 {
        let longer = |line: &Vec<u8>| alphabet.map(|byte| [line.as_slice(), &[byte]].concat());
        lines = lines.iter().flat_map(longer).collect();
        for line in &lines {
            let expected = read_by_splitting(line);
            good += u64::from(expected.is_some());
            assert_eq!(read(line), expected, "{:?}", String::from_utf8_lossy(line));
        }
    }
    assert!(good > 10_000, "{good}");
    assert_eq!(read(b""), read_by_splitting(b""));
}

#[test]
fn the_lines_of_the_trials_are_read_as_by_a_second_reader() {
    for trial in trials(1).take(4000) {
        let expected = read_by_splitting(&trial.line);
        assert_eq!(read(&trial.line), expected, "{trial}");
        // RULES L6.
        if let Some(pipelines) = expected {
            let line = written(&pipelines);
            assert!(!line.contains(&b' '));
            assert_eq!(read(&line), Some(pipelines), "{trial}");
        }
    }
}

// What holds of every line.

fn right(trial: &Trial) -> (Monitor, Ran) {
    trial.run(LineRules::default())
}

/// RULES L12, L13, L14: the calls of the pipelines, one after the other, by direct calls.
#[test]
fn a_line_is_its_list_of_calls() {
    for trial in trials(2).take(600) {
        let (monitor, ran) = right(&trial);
        let mut by_calls = trial.monitor();
        let mut counts = Counts::default();
        let judged = judge(&trial.line);
        for stages in judged.iter().flatten() {
            let calls = calls_of(stages, trial.shell, trial.child, trial.pipe);
            // RULES L15.
            let n = stages.len();
            let opens = stages.iter().flat_map(|stage| [stage.input, stage.output]).flatten().count();
            assert_eq!(calls.len(), 2 * (n - 1) * (n - 1) + 3 * (n - 1) + 3 * n + opens);
            for (code, numbers) in calls {
                counts.count(by_calls.call(code, numbers));
            }
        }
        assert_eq!(ran.outcome, judged.map(|_| counts), "{trial}");
        assert_eq!((monitor.tables(), monitor.tally()), (by_calls.tables(), by_calls.tally()), "{trial}");
        let mut again = trial.monitor();
        let outcome = run(&mut again, &trial.line, trial.shell, trial.child, trial.pipe);
        assert_eq!((outcome, again.tables()), (ran.outcome, monitor.tables()), "{trial}");
    }
}

/// RULES R125.
#[test]
fn a_refused_line_changes_nothing() {
    for trial in trials(3).take(600) {
        let (monitor, ran) = right(&trial);
        if ran.outcome.is_err() {
            let before = trial.monitor();
            assert!(ran.made.is_empty(), "{trial}");
            assert_eq!((monitor.tables(), monitor.tally()), (before.tables(), before.tally()), "{trial}");
        }
    }
}

/// RULES L16: T26, F8 and Y10 after a line.
#[test]
fn after_a_line_holds_what_holds_after_every_call() {
    for trial in trials(4).take(600) {
        let (monitor, _) = right(&trial);
        let tables = monitor.tables();
        let is_pipe = |o: &u64| tables.object(*o).is_some_and(|object| object.kind == Kind::Pipe);
        assert!(tables.live_objects().filter(is_pipe).all(|o| tables.is_held(o)), "{trial}");
        assert_eq!(Needs::of_tables(tables).unmet(tables).count(), 0, "{trial}");
        assert_eq!(monitor.tally().open(), tables.handle_count(), "{trial}");
    }
}

// What the trials reach.

fn is_live(tables: &Tables, s: u64) -> bool {
    tables.subject(s).is_some()
}

/// What this trial shows.
fn met(trial: &Trial) -> Vec<&'static str> {
    let before = trial.monitor();
    let tables = before.tables();
    let (monitor, ran) = right(trial);
    let mut met = Vec::new();
    let mut add = |name: &'static str, is_met: bool| {
        if is_met {
            met.push(name);
        }
    };
    let stages: Vec<usize> = read(&trial.line).iter().flatten().map(Vec::len).collect();
    add("18", ran.outcome == Err(18));
    add(
        "18 of a long line",
        ran.outcome == Err(18) && trial.line.iter().filter(|&&b| b == b'|').count() > 8,
    );
    add("19", ran.outcome == Err(19));
    add("19 behind a good pipeline", ran.outcome == Err(19) && stages[0] <= 8);
    add("nine stages", stages.contains(&9));
    add("no bytes or spaces alone", trial.line.iter().all(|&byte| byte == b' '));
    let Ok(counts) = ran.outcome else {
        return met;
    };
    add("one stage", stages == [1]);
    add("eight stages", stages.contains(&8));
    add("eight stages, all allowed", stages == [8] && counts.lowered + counts.refused == 0);
    add("several pipelines", stages.len() > 1);
    add("ten pipelines", stages.len() >= 10);
    add("spaces at the ends", trial.line.starts_with(b" ") && trial.line.ends_with(b" "));
    add("all allowed", counts.lowered + counts.refused == 0);
    add("all refused", counts.allowed + counts.lowered == 0);
    add("all three", counts.allowed > 0 && counts.lowered > 0 && counts.refused > 0);
    add("more than 255", counts.allowed > 255);
    let refused = |number: u32| move |answer: Answer| answer == Answer::Refused(number);
    let is_refused = |answer: Answer| matches!(answer, Answer::Refused(_));
    let first = ran.made.iter().position(|call| is_refused(call.answer)).unwrap_or(ran.made.len());
    let goes_on = |is_met: fn(Answer) -> bool| ran.made[first..].iter().any(|call| is_met(call.answer));
    add("allowed after a refused one", goes_on(|answer| matches!(answer, Answer::Allowed(_))));
    add("lowered after a refused one", goes_on(|answer| matches!(answer, Answer::Lowered(_, 0))));
    let call = |code: u64, is_met: &dyn Fn(Answer) -> bool| {
        ran.made.iter().any(|call| call.code == code && is_met(call.answer))
    };
    let later = |pipeline: usize, code: u64, is_met: &dyn Fn(Answer) -> bool| {
        ran.made.iter().any(|call| call.pipeline > pipeline && call.code == code && is_met(call.answer))
    };
    add("pipe: number in use", call(4, &refused(3)));
    add("pipe: no room", call(4, &refused(17)));
    add("pipe: place taken", call(4, &refused(7)));
    add("pipe again at a later pipeline", later(0, 4, &|answer| !is_refused(answer)));
    add("fork: number in use or too high", call(9, &refused(3)));
    add("fork: no shell", call(9, &refused(2)));
    add("close: empty place", call(11, &refused(7)));
    add("open-read: flow", call(5, &refused(9)));
    add("open-read: place taken", call(5, &refused(7)));
    add("open-read: not live", call(5, &refused(4)));
    add("open-write: flow", call(6, &refused(9)));
    add("open-write: frozen", call(6, &refused(15)));
    add("open-write: place taken", call(6, &refused(7)));
    add("exec: lowered", call(10, &|answer| matches!(answer, Answer::Lowered(_, 0))));
    add("exec: flow", call(10, &refused(9)));
    add("exec: pipe", call(10, &refused(5)));
    add("exec: not live", call(10, &refused(4)));
    add("shell is not live", !is_live(tables, trial.shell));
    add("shell goes", is_live(tables, trial.shell) && !is_live(monitor.tables(), trial.shell));
    add("shell holds handles", tables.handles_of(trial.shell).count() > 0);
    let inherits = |p: u64| tables.handle(trial.shell, p).is_some_and(|handle| handle.ends_at_exec());
    add("shell holds a marked handle or a mapping", (0..16).any(inherits));
    let most = stages.iter().copied().max().unwrap_or(1) as u64;
    let children: Vec<u64> = (0..most).map(|i| trial.child.wrapping_add(i)).collect();
    let lives = |s: &u64| is_live(tables, *s);
    add("some children in use", children.iter().any(lives) && !children.iter().all(lives));
    add("the shell is a child", children.contains(&trial.shell));
    let mates: Vec<u64> = tables.mates(trial.shell).collect();
    let is_ended_by_mate =
        |call: &Made| call.code == 10 && mates.contains(&call.numbers[0]) && !is_refused(call.answer);
    add("shell has mates", !mates.is_empty());
    add("shell has mates that hold handles", mates.iter().any(|&mate| tables.handles_of(mate).count() > 0));
    add("a mate is a child", children.iter().any(|child| mates.contains(child)));
    add("a mate's exec ends the shell", ran.made.iter().any(is_ended_by_mate));
    add("children past 31", children.contains(&31) && children.contains(&32));
    add("children go on at 0", children.contains(&u64::MAX) && children.contains(&0));
    let pipes: Vec<u64> = (0..most - 1).map(|i| trial.pipe.wrapping_add(i)).collect();
    add("pipes go on at 0", pipes.contains(&u64::MAX) && pipes.contains(&0));
    let others = |stage: &Stage| [Some(stage.program), stage.input, stage.output];
    let named: Vec<u64> =
        judge(&trial.line).iter().flatten().flatten().flat_map(others).flatten().collect();
    add("the largest number", named.contains(&u64::MAX));
    add(
        "a number above 2 to the 63rd that is live",
        named.iter().any(|&o| o > 1 << 63 && tables.object(o).is_some()),
    );
    add("one of its own pipes", named.iter().any(|o| pipes.contains(o)));
    add("tables changed", monitor.tables() != tables);
    met
}

#[test]
fn the_trials_reach_all_that_a_line_can_meet() {
    let expected: BTreeSet<&str> = [
        "18",
        "18 of a long line",
        "19",
        "19 behind a good pipeline",
        "nine stages",
        "no bytes or spaces alone",
        "one stage",
        "eight stages",
        "eight stages, all allowed",
        "several pipelines",
        "ten pipelines",
        "spaces at the ends",
        "all allowed",
        "all refused",
        "all three",
        "more than 255",
        "allowed after a refused one",
        "lowered after a refused one",
        "pipe: number in use",
        "pipe: no room",
        "pipe: place taken",
        "pipe again at a later pipeline",
        "fork: number in use or too high",
        "fork: no shell",
        "close: empty place",
        "open-read: flow",
        "open-read: place taken",
        "open-read: not live",
        "open-write: flow",
        "open-write: frozen",
        "open-write: place taken",
        "exec: lowered",
        "exec: flow",
        "exec: pipe",
        "exec: not live",
        "shell is not live",
        "shell goes",
        "shell holds handles",
        "shell holds a marked handle or a mapping",
        "some children in use",
        "the shell is a child",
        "shell has mates",
        "shell has mates that hold handles",
        "a mate is a child",
        "a mate's exec ends the shell",
        "children past 31",
        "children go on at 0",
        "pipes go on at 0",
        "the largest number",
        "a number above 2 to the 63rd that is live",
        "one of its own pipes",
        "tables changed",
    ]
    .into();
    for seed in [1, 2] {
        let mut often: BTreeMap<&str, u64> = BTreeMap::new();
        for trial in trials(seed).take(1000) {
            met(&trial).into_iter().for_each(|name| *often.entry(name).or_default() += 1);
        }
        for name in &expected {
            let count = often.get(name).copied().unwrap_or(0);
            assert!(count >= 3, "{name}: {count} times with seed {seed}");
        }
        assert!(often.keys().all(|name| expected.contains(name)));
    }
}
