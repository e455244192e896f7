//! The command `gk trace`: its options, its exit statuses and what it writes where.

use std::fs;
use std::io::Write;
use std::path::PathBuf;
use std::process::{Command, Output, Stdio};

fn runs() -> PathBuf {
    PathBuf::from(env!("CARGO_MANIFEST_DIR")).join("tests/runs")
}

fn run(arguments: &[&str], input: &[u8]) -> Output {
    let mut child = Command::new(env!("CARGO_BIN_EXE_gk-trace"))
        .args(arguments)
        .current_dir(runs())
        .stdin(Stdio::piped())
        .stdout(Stdio::piped())
        .stderr(Stdio::piped())
        .spawn()
        .unwrap();
    // The program may end before it has read everything.
    let _ = child.stdin.take().unwrap().write_all(input);
    child.wait_with_output().unwrap()
}

fn errors(output: &Output) -> String {
    String::from_utf8(output.stderr.clone()).unwrap()
}

/// A folder of one test, which is gone after it.
struct Room(PathBuf);

impl Room {
    fn new(name: &str) -> Room {
        let path = std::env::temp_dir().join(format!("gk-trace-{name}-{}", std::process::id()));
        fs::create_dir_all(&path).unwrap();
        Room(path)
    }

    fn path(&self, name: &str) -> String {
        self.0.join(name).to_string_lossy().into_owned()
    }
}

impl Drop for Room {
    fn drop(&mut self) {
        let _ = fs::remove_dir_all(&self.0);
    }
}

#[test]
fn a_trace_by_name_or_on_standard_input() {
    let journal = fs::read(runs().join("pay.journal")).unwrap();
    let report = fs::read_to_string(runs().join("pay.report")).unwrap();
    let trace = fs::read(runs().join("pay.trace")).unwrap();
    for (arguments, input) in [
        (&["pay.trace", "--levels", "pay.levels"][..], &b""[..]),
        (&["--levels", "pay.levels", "-"][..], &trace[..]),
        (&["--levels", "pay.levels"][..], &trace[..]),
        (&["--levels", "pay.levels", "--", "pay.trace"][..], &b""[..]),
    ] {
        let output = run(arguments, input);
        assert_eq!(output.status.code(), Some(3), "{}", errors(&output));
        assert!(output.stdout == journal, "{arguments:?}");
        assert_eq!(errors(&output), report);
    }
    let quiet = run(&["pay.trace", "--levels", "pay.levels", "--quiet"], b"");
    assert_eq!((quiet.status.code(), errors(&quiet)), (Some(3), String::new()));
}

#[test]
fn the_status_is_the_verdict() {
    let room = Room::new("status");
    let hidden = room.path("hidden.levels");
    fs::write(&hidden, "sheets/*.csv out\nhours/* 12\npaybook.csv 9\nbank.csv 12\nelse 15\n").unwrap();
    let all_clear = "  nothing is refused, and everything was seen\n";
    for (trace, levels, status, words) in [
        ("apart.trace", "apart.levels", 0, all_clear),
        ("pay.trace", "pay.levels", 3, "  there are refusals\n"),
        ("pay.trace", &hidden, 4, "  nothing is refused, but not everything was seen"),
        ("apart.trace", &hidden, 4, "  nothing is refused, but not everything was seen"),
    ] {
        let output = run(&[trace, "--levels", levels], b"");
        assert_eq!(output.status.code(), Some(status), "{trace}, {levels}: {}", errors(&output));
        assert!(errors(&output).contains(words), "{}", errors(&output));
        assert_eq!(errors(&output).contains(all_clear), status == 0, "{}", errors(&output));
        assert_eq!(errors(&output).contains("NOT SEEN by the gatekeeper:\n"), status == 4);
        let only = run(&[trace, "--levels", levels, "--report-only"], b"");
        assert_eq!((only.status.code(), only.stdout), (Some(0), output.stdout));
        assert_eq!(only.stderr, output.stderr);
    }
}

/// What is proposed stands behind the report; the journal and the status are the same.
#[test]
fn levels_are_proposed_where_that_is_asked() {
    let trace = fs::read(runs().join("pay.trace")).unwrap();
    let plain = run(&["pay.trace", "--levels", "pay.levels"], b"");
    for (arguments, input) in [(&["pay.trace"][..], &b""[..]), (&["-"][..], &trace[..])] {
        let output = run(&[arguments, &["--levels", "pay.levels", "--propose"]].concat(), input);
        assert_eq!((output.status.code(), &output.stdout), (Some(3), &plain.stdout));
        let said = errors(&output);
        let proposal = said.strip_prefix(&errors(&plain)).expect("the report comes first");
        let words = proposal.split_whitespace().collect::<Vec<_>>().join(" ");
        assert!(
            words.contains(" 1. sheets/*.csv 12 (line 2, now: sheets/*.csv 2) gives up: somebody vouches"),
            "{words}"
        );
        assert!(
            words.contains(" 2. paybook.csv 2 (line 3, now: paybook.csv 9) gives up: paybook.csv is"),
            "{words}"
        );
    }
    let clear = run(&["apart.trace", "--levels", "apart.levels", "--propose"], b"");
    assert!(errors(&clear).ends_with("  proposed: nothing, as nothing is refused\n"), "{}", errors(&clear));
}

/// Each kind of call is taken out of a trace that is clear, as a filter of strace does: nobody gets an all-clear.
#[test]
fn a_filtered_trace_is_no_all_clear() {
    let whole = fs::read_to_string(runs().join("apart.trace")).unwrap();
    let name_of = |line: &str| {
        let rest = line.split_once(' ').map_or("", |(_, rest)| rest.trim_start());
        let rest = rest.strip_prefix("<... ").unwrap_or(rest);
        rest.split(['(', ' ']).next().unwrap_or("").to_string()
    };
    let without = |is_out: &dyn Fn(&str) -> bool| -> String {
        whole.lines().filter(|line| !is_out(&name_of(line))).map(|line| format!("{line}\n")).collect()
    };
    let status = |trace: &str| {
        let output = run(&["--levels", "apart.levels"], trace.as_bytes());
        (output.status.code(), errors(&output))
    };
    assert_eq!(status(&whole).0, Some(0));
    // strace has written these since it was asked to follow; they are no calls.
    let is_call = |name: &str| !name.starts_with('+') && !name.starts_with('-');
    for hidden in ["read", "write", "openat", "close", "mmap", "execve", "clone", "pipe2", "dup2"] {
        let trace = without(&|name| name == hidden);
        assert!(trace.len() < whole.len(), "{hidden} is in the trace");
        let (code, said) = status(&trace);
        assert!(matches!(code, Some(1 | 3 | 4)), "without {hidden}: {said}");
    }
    for kept in [
        &["openat", "read", "write", "close"][..],
        &["openat", "close", "execve", "clone", "exit_group"],
        &[
            "execve",
            "openat",
            "read",
            "write",
            "close",
            "mmap",
            "clone",
            "dup2",
            "pipe2",
            "exit_group",
            "fcntl",
        ],
    ] {
        let (code, said) = status(&without(&|name| is_call(name) && !kept.contains(&name)));
        assert!(matches!(code, Some(1 | 3 | 4)), "with {kept:?} alone: {said}");
    }
}

#[test]
fn what_strace_does_not_follow_is_not_seen() {
    // Without -f: the processes that the shell starts have no line.
    let whole = fs::read_to_string(runs().join("apart.trace")).unwrap();
    let first = whole.split(' ').next().unwrap();
    let alone: String =
        whole.lines().filter(|line| line.starts_with(first)).map(|line| format!("{line}\n")).collect();
    let output = run(&["--levels", "apart.levels"], alone.as_bytes());
    assert_eq!(output.status.code(), Some(4), "{}", errors(&output));
    assert!(errors(&output).contains("trace with strace -f; first at"), "{}", errors(&output));
    // From the middle on, as of a process that strace was told to join.
    let later: String = whole.lines().skip(10).map(|line| format!("{line}\n")).collect();
    let output = run(&["--levels", "apart.levels", "--folder", "/tmp/payrun"], later.as_bytes());
    assert!(matches!(output.status.code(), Some(3 | 4)), "{}", errors(&output));
    assert!(errors(&output).contains("processes whose start is not in the trace"), "{}", errors(&output));
}

#[test]
fn the_journal_and_the_names_go_to_files() {
    let room = Room::new("files");
    let names = fs::read(runs().join("pay.names")).unwrap();
    let journal = room.path("march.journal");
    let output = run(&["pay.trace", "--levels", "pay.levels", "-o", &journal], b"");
    assert_eq!((output.status.code(), output.stdout.len()), (Some(3), 0));
    assert_eq!(fs::read(&journal).unwrap(), fs::read(runs().join("pay.journal")).unwrap());
    assert_eq!(fs::read(room.path("march.names")).unwrap(), names);
    let other = room.path("other.txt");
    let output = run(&["pay.trace", "--levels", "pay.levels", "--names", &other], b"");
    assert_eq!(output.status.code(), Some(3));
    assert_eq!(fs::read(other).unwrap(), names);
}

#[test]
fn no_file_is_lost_by_what_is_written() {
    let room = Room::new("lost");
    let [trace, levels, other] = ["run.trace", "run.names", "other.names"].map(|name| room.path(name));
    let link = room.path("link");
    std::os::unix::fs::symlink("run.names", &link).unwrap();
    for (from, to) in [("pay.trace", &trace), ("pay.levels", &levels), ("pay.levels", &other)] {
        fs::copy(runs().join(from), to).unwrap();
    }
    let beside = |name: &str| room.path(&format!("{name}.journal"));
    let replaces =
        "gk trace: the output would replace the input: nothing is written. Type: gk trace --help\n";
    let no_names = format!("gk trace: {other} is there and is no names file (line 1: ");
    for (output, names, status, words) in [
        (&trace, None, 2, replaces),
        (&levels, Some(room.path("new.names")), 2, replaces),
        (&link, Some(room.path("new.names")), 2, replaces),
        (&beside("run"), None, 2, replaces),
        (&beside("new"), Some(trace.clone()), 2, replaces),
        (&beside("other"), None, 1, &no_names),
        (&beside("new"), Some(other.clone()), 1, &no_names),
    ] {
        let mut arguments = vec![trace.as_str(), "--levels", &levels, "-o", output];
        arguments.extend(names.iter().flat_map(|names| ["--names", names]));
        let output = run(&arguments, b"");
        assert_eq!(output.status.code(), Some(status), "{arguments:?}");
        assert!(errors(&output).starts_with(words), "{}", errors(&output));
        for (from, to) in [("pay.trace", &trace), ("pay.levels", &levels), ("pay.levels", &other)] {
            assert_eq!(fs::read(to).unwrap(), fs::read(runs().join(from)).unwrap(), "{arguments:?}");
        }
        assert_eq!(fs::read_dir(&room.0).unwrap().count(), 4, "{arguments:?}");
    }
    // A names file is replaced by a new one, and a dash is standard output.
    fs::write(&other, "names 1\nstep 1 1 old\n").unwrap();
    let journal = beside("other");
    assert_eq!(run(&[&trace, "--levels", &levels, "-o", &journal], b"").status.code(), Some(3));
    assert_eq!(fs::read(&other).unwrap(), fs::read(runs().join("pay.names")).unwrap());
    let dash = run(&[&trace, "--levels", &levels, "-o", "-"], b"");
    assert_eq!(dash.stdout, fs::read(&journal).unwrap());
}

#[test]
fn the_help_has_the_line_to_type() {
    for help in ["--help", "-h"] {
        let output = run(&["--levels", help], b"");
        let text = String::from_utf8(output.stdout).unwrap();
        assert_eq!(output.status.code(), Some(0));
        assert!(text.contains("strace -f -y -s 2 -o pay.trace sh pay.sh\n"), "{text}");
        assert!(text.lines().all(|line| line.chars().count() <= 118), "{text}");
    }
}

#[test]
fn bad_usage_is_two() {
    for (arguments, words) in [
        (&[][..], "expected --levels FILE"),
        (&["--levels"][..], "--levels needs a value"),
        (&["--frob"][..], "there is no option \"--frob\""),
        (&["-\x1b[2J"][..], "there is no option \"-\\u{1b}[2J\""),
        (&["a", "b", "--levels", "pay.levels"][..], "expected one trace, found \"b\" as well"),
        (&["--start", "16"][..], "--start needs a number, 0 to 15, not \"16\""),
        (&["--until", "+1"][..], "--until needs a number, not \"+1\""),
        (&["--levels", "pay.levels", "-o", "a.names"][..], "the journal and the names need two files"),
        (
            &["--levels", "pay.levels", "-o", "a", "--names", "a"][..],
            "the journal and the names need two files",
        ),
        (&["--folder", "here"][..], "--folder needs an absolute path, not \"here\""),
        (&["--levels", "pay.levels", "--names", "-"][..], "--names needs a file, not standard output"),
    ] {
        let output = run(arguments, b"");
        assert_eq!(output.status.code(), Some(2), "{arguments:?}");
        assert!(errors(&output).starts_with(&format!("gk trace: {words}")), "{}", errors(&output));
        assert!(errors(&output).ends_with("Type: gk trace --help\n"));
    }
}

#[test]
fn what_cannot_be_read_or_written_is_one() {
    let room = Room::new("wrong");
    let wrong = room.path("wrong.levels");
    fs::write(&wrong, "a 2\nb \x1b[2J\nelse 1\n").unwrap();
    let nowhere = room.path("nowhere/a.journal");
    for (arguments, input, words) in [
        (&["--levels", "none"][..], &b""[..], "cannot read none: "),
        (&["--levels", "."][..], b"", "cannot read .: it is a folder"),
        (&["--levels", "pay.levels", "."][..], b"", "cannot read .: it is a folder"),
        (&["--levels", "pay.levels", "none"][..], b"", "cannot read none: "),
        (&["--levels", "pay.levels"][..], b"", "standard input: the trace is empty"),
        (
            &["--levels", "pay.levels"][..],
            b"\x1b[2J\n",
            "standard input, line 1, column 1: expected the number",
        ),
        (
            &["--levels", &wrong][..],
            b"",
            "line 2, column 3: expected a level, 0 to 15, or step or out, not \"\\u{1b}",
        ),
        (&["--levels", "pay.levels", "pay.trace", "-o", &nowhere][..], b"", "cannot write "),
    ] {
        let output = run(arguments, input);
        assert_eq!(output.status.code(), Some(1), "{arguments:?}");
        assert!(
            errors(&output).contains(words) && !errors(&output).contains('\x1b'),
            "{}",
            errors(&output)
        );
        assert!(output.stdout.is_empty(), "{arguments:?}");
    }
}

#[test]
fn until_and_start_are_heeded() {
    let output = run(&["pay.trace", "--levels", "pay.levels", "--until", "5", "--start", "9"], b"");
    assert_eq!(output.stdout, [5, 1, 0, 9, 255, 1, 5, 2, 0, 15, 255, 1, 3, 10, 0, 0]);
    assert!(errors(&output).contains("read up to line 5, as --until says"), "{}", errors(&output));
    assert_eq!(output.status.code(), Some(4), "what comes later is not seen");
    // The shop marks of the first step: by number, or by names that the levels file has.
    let start =
        |set: &str| run(&["pay.trace", "--levels", "pay.levels", "--until", "5", "--shops", set], b"");
    assert_eq!(start("3").stdout[..5], [4, 1, 0, 15, 3]);
    let output = start("north");
    assert_eq!((output.status.code(), output.stdout.is_empty()), (Some(2), true));
    assert!(
        errors(&output).contains("--shops: expected a set of shop marks: all, none,"),
        "{}",
        errors(&output)
    );
}

#[test]
fn a_reader_that_stops_ends_it_without_a_word() {
    let mut child = Command::new(env!("CARGO_BIN_EXE_gk-trace"))
        .arg("--help")
        .stdout(Stdio::piped())
        .stderr(Stdio::piped())
        .spawn()
        .unwrap();
    drop(child.stdout.take());
    let output = child.wait_with_output().unwrap();
    // It may have written everything before the reader stopped.
    assert!(matches!(output.status.code(), Some(0 | 141)), "{output:?}");
    assert!(output.stderr.is_empty());
}
