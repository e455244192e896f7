//! Recorded traces of real runs: their journals, names and reports, and the replies of the proved gatekeeper.
//!
//! `gk/trace/record` records them anew and has these tests write what they come to (GK_TRACE_WRITE=1).

mod common;

use std::fs;
use std::io::Write;
use std::path::{Path, PathBuf};
use std::process::{Command, Stdio};

use common::{plain, words};
use gk_trace::{journal_of, Levels, Options, Written};

/// The recorded runs, each with the levels file that goes with it.
const RUNS: [(&str, &str); 7] = [
    ("pay", "pay"),
    ("plain", "pay"),
    ("apart", "apart"),
    ("files", "files"),
    ("steps", "steps"),
    ("threads", "threads"),
    ("merge", "pay"),
];

fn folder() -> PathBuf {
    Path::new(env!("CARGO_MANIFEST_DIR")).join("tests/runs")
}

fn read(name: &str) -> Vec<u8> {
    fs::read(folder().join(name)).unwrap_or_else(|error| panic!("{name}: {error}"))
}

fn written(trace: &[u8], levels: &[u8], options: Options) -> Written {
    let levels = Levels::read(levels).unwrap();
    journal_of(trace, &levels, options, None).unwrap_or_else(|failure| panic!("{failure:?}"))
}

/// A recorded run with the levels of that file. What is stored of `steps` takes threads for their process.
fn recorded(run: &str, levels: &str) -> Written {
    let options = Options { one_step: run == "steps", ..Options::default() };
    written(&read(&format!("{run}.trace")), &read(&format!("{levels}.levels")), options)
}

/// The refusals in a reply: which call, and which number.
fn refusals(replies: &str) -> Vec<(u32, u32)> {
    let number = |word: Option<&str>| word.and_then(|word| word.parse().ok()).unwrap();
    let fields = replies.lines().map(|line| line.split(' ').collect::<Vec<_>>());
    let refused = fields.filter(|fields| fields.get(2) == Some(&"R"));
    refused.map(|fields| (number(fields.get(1).copied()), number(fields.get(3).copied()))).collect()
}

fn agrees(run: &str, levels: &str) -> String {
    let Written { journal, names, report, .. } = recorded(run, levels);
    let replies = gatekeeper::replay(&journal);
    let report = report.text(journal.len());
    for (ending, bytes) in [
        ("journal", &journal[..]),
        ("names", names.as_bytes()),
        ("report", report.as_bytes()),
        ("replies", replies.as_bytes()),
    ] {
        let name = format!("{run}.{ending}");
        if std::env::var_os("GK_TRACE_WRITE").is_some() {
            fs::write(folder().join(&name), bytes).unwrap();
        }
        assert!(read(&name) == bytes, "{name} is another one");
    }
    for (_, number) in refusals(&replies) {
        assert_eq!(number, 9, "{run}: a trace leads to no other refusal");
    }
    replies
}

#[test]
fn the_pay_run_is_refused_all_thirty_sheets() {
    for run in ["pay", "plain"] {
        let replies = agrees(run, "pay");
        assert_eq!(refusals(&replies), [(5, 9); 30], "{run}");
    }
}

/// More sheets at once than a step has places: they stand as one, and each open is refused that would be alone.
#[test]
fn eighty_sheets_are_merged_and_kept_from_the_pay_book() {
    assert_eq!(refusals(&agrees("merge", "pay")), [(5, 9); 80]);
}

#[test]
fn both_ways_to_trace_come_to_the_same_calls() {
    // The two are two runs, whose steps went at their own pace: the same calls, in another order.
    let counts = |run| {
        let report = recorded(run, "pay").report.text(0);
        report.lines().nth(1).map(str::to_string)
    };
    assert_eq!(counts("pay"), counts("plain"));
}

#[test]
fn checked_hours_are_refused_nothing() {
    let replies = agrees("apart", "apart");
    assert_eq!(refusals(&replies), []);
}

#[test]
fn a_sheet_that_is_moved_up_is_refused() {
    let replies = agrees("files", "files");
    // Nothing but mv's own open of the pay book for writing, where it has the low file open.
    assert_eq!(refusals(&replies), [(6, 9)]);
    let names = recorded("files", "files").names;
    assert!(names.lines().any(|line| line.ends_with(" mv")), "{names}");
}

#[test]
fn threads_pairs_and_mappings_are_seen() {
    let replies = agrees("steps", "steps");
    let report = recorded("steps", "steps").report.text(0);
    for words in ["threads: one step", "socket pairs: two pipes", "writable shared mappings"] {
        assert!(report.contains(words), "{words}: {report}");
    }
    // What the child sends comes from a sheet, so that the pay book is refused.
    assert!(refusals(&replies).contains(&(6, 9)), "{replies}");
}

#[test]
fn threads_of_one_step_are_seen() {
    let replies = agrees("threads", "threads");
    // The sheet, while another thread writes the pay book; later it may be read.
    assert_eq!(refusals(&replies), [(5, 9)]);
    let Written { journal, names, .. } = recorded("threads", "threads");
    let words = words(&journal);
    let threads: Vec<&String> = words.iter().filter(|call| call.starts_with("thread ")).collect();
    assert_eq!(threads, ["thread 0 1", "thread 0 2", "thread 0 1"]);
    // The last of them runs a program, which ends it: it has no exit of its own.
    let exits: Vec<&String> = words.iter().filter(|call| call.starts_with("exit ")).collect();
    assert_eq!(exits, ["exit 2", "exit 1", "exit 0"]);
    for name in ["python3 thread", "python3 thread-2", "python3 thread-3"] {
        assert!(names.lines().any(|line| line.ends_with(&format!(" {name}"))), "{names}");
    }
}

#[test]
fn with_one_step_every_other_answer_is_the_same() {
    for (run, levels) in RUNS {
        let one_step = Options { one_step: true, ..Options::default() };
        let (trace, levels) = (read(&format!("{run}.trace")), read(&format!("{levels}.levels")));
        let with = written(&trace, &levels, Options::default());
        let without = written(&trace, &levels, one_step);
        assert_eq!(plain(&with.journal), plain(&without.journal), "{run}");
        assert_eq!(with.report.verdict(), without.report.verdict(), "{run}");
        let has_threads = ["steps", "threads"].contains(&run);
        assert_eq!((with.report.threads() > 0, without.report.threads()), (has_threads, 0), "{run}");
    }
}

#[test]
fn with_all_files_the_refusals_are_the_same() {
    // Law top-read-harmless: files of the highest level that are only read change no answer.
    for (run, levels) in RUNS.into_iter().filter(|(run, _)| *run != "steps") {
        let all = Options { all_files: true, ..Options::default() };
        let (trace, levels) = (read(&format!("{run}.trace")), read(&format!("{levels}.levels")));
        let few = gatekeeper::replay(&written(&trace, &levels, Options::default()).journal);
        let many = gatekeeper::replay(&written(&trace, &levels, all).journal);
        assert!(many.lines().count() > few.lines().count(), "{run}");
        assert_eq!(refusals(&many), refusals(&few), "{run}");
    }
}

#[test]
fn with_repeats_the_refusals_are_the_same() {
    for (run, levels) in RUNS.into_iter().filter(|(run, _)| *run != "plain") {
        let repeats = Options { repeats: true, ..Options::default() };
        let (trace, levels) = (read(&format!("{run}.trace")), read(&format!("{levels}.levels")));
        let few = gatekeeper::replay(&written(&trace, &levels, Options::default()).journal);
        let many = gatekeeper::replay(&written(&trace, &levels, repeats).journal);
        assert!(many.lines().count() > few.lines().count(), "{run}");
        assert_eq!(refusals(&many), refusals(&few), "{run}");
    }
}

#[test]
fn nothing_of_the_machine_is_in_a_recorded_trace() {
    for (run, _) in RUNS {
        let trace = String::from_utf8(read(&format!("{run}.trace"))).unwrap();
        assert!(!trace.contains("uname("), "{run}");
        let quoted = trace.split("\"/").skip(1).map(|rest| rest.split('"').next());
        let noted = trace.split("</").skip(1).map(|rest| rest.split('>').next());
        for path in quoted.chain(noted).flatten() {
            let top = path.split('/').next().unwrap_or("");
            let is_common =
                ["usr", "lib", "lib64", "bin", "etc", "dev", "proc", "sys", "selinux"].contains(&top);
            assert!(is_common || path.starts_with("tmp/payrun"), "{run}: /{path}");
        }
    }
}

#[test]
fn the_page_shows_the_recorded_run() {
    let page = fs::read_to_string(folder().join("../../../../docs/TRACE.md")).unwrap();
    let text = |name: &str| String::from_utf8(read(name)).unwrap();
    let report = text("pay.report");
    let (front, _) = report.split_once("; first at line").unwrap();
    let script = text("pay.sh");
    let (_, script) = script.split_once('\n').unwrap();
    for part in [front, script, &text("pay.levels")] {
        assert!(page.contains(part), "docs/TRACE.md has another one:\n{part}");
    }
    let option = "strace -f -y -s 2 -o pay.trace sh pay.sh\n";
    assert!(page.contains(option) && gk_trace::cli::HELP.contains(option));
}

/// What strace writes of a run in a fresh folder; why it writes nothing, where it does not.
fn traced(file: &str, with: &[&str]) -> Result<Vec<u8>, &'static str> {
    let room = std::env::temp_dir().join(format!("gk-trace-{file}-{}", std::process::id()));
    fs::create_dir_all(room.join("sheets")).unwrap();
    fs::create_dir_all(room.join("hours")).unwrap();
    for number in 1..=30 {
        fs::write(room.join(format!("sheets/{number}.csv")), format!("{number};160\n")).unwrap();
    }
    fs::write(room.join("hours/checked.csv"), "1;160\n").unwrap();
    fs::copy(folder().join(file), room.join(file)).unwrap();
    let quiet = Stdio::null;
    let traced = Command::new("strace")
        .args(["-f", "-y", "-s", "2", "-o", "run.trace"])
        .args(with)
        .arg(file)
        .current_dir(&room)
        .stdin(quiet())
        .stdout(quiet())
        .stderr(quiet())
        .status();
    let trace = fs::read(room.join("run.trace"));
    let _ = fs::remove_dir_all(&room);
    match (traced, trace) {
        (Ok(status), Ok(trace)) if status.success() => Ok(trace),
        (Err(error), _) if error.kind() == std::io::ErrorKind::NotFound => Err("strace is not installed"),
        // Where it may not trace, it ends before it has written a line.
        (Ok(_), trace) if trace.as_ref().map_or(true, Vec::is_empty) => Err("strace may not trace here"),
        (outcome, _) => panic!("strace: {outcome:?}"),
    }
}

/// Traces that are recorded here and now, where strace is installed.
#[test]
fn runs_that_are_traced_anew_are_refused_their_sheets() {
    let python = "/usr/bin/python3";
    let threads = |_: ()| match Path::new(python).exists() {
        true => traced("threads.py", &[python, "-I", "-S"]),
        false => Err("python3 is not installed"),
    };
    let of = |trace: &[u8], levels: &str| {
        refusals(&gatekeeper::replay(&written(trace, &read(levels), Options::default()).journal))
    };
    let outcome = traced("pay.sh", &["sh"])
        .map(|trace| assert_eq!(of(&trace, "pay.levels"), [(5, 9); 30]))
        .and_then(threads)
        .map(|trace| assert_eq!(of(&trace, "threads.levels"), [(5, 9)]));
    if let Err(why) = outcome {
        // Straight to standard error, so that it is seen where tests pass.
        drop(writeln!(std::io::stderr(), "gk trace: {why}; no trace was recorded anew"));
    }
}
