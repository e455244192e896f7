//! What is NOT SEEN: a trace that hides something gets no all-clear, and one that hides nothing gets it.

mod common;

use common::told;
use gk_trace::Verdict;

const LEVELS: &str = "low* 2\nhigh* 12\nout* out\nelse 15\n";
/// What every program does when it starts.
const START: &str = "1 execve(\"/bin/sh\", [\"sh\"], 0x1) = 0\n1 brk(NULL) = 0x1000\n\
                     1 openat(AT_FDCWD, \"/lib/libc.so\", O_RDONLY) = 3\n1 read(3, \"\", 832) = 832\n\
                     1 mmap(NULL, 4096, PROT_READ, MAP_PRIVATE, 3, 0) = 0x1000\n1 close(3) = 0";

/// What a run that goes on with these lines comes to, and its report.
fn verdict(lines: &str, levels: &str) -> (Verdict, String) {
    let written = told(&format!("{START}\n{lines}\n1 exit_group(0) = ?\n1 +++ exited with 0 +++"), levels);
    (written.report.verdict(), written.report.text(0))
}

#[track_caller]
fn is_unseen(lines: &str, words: &str) {
    let (found, report) = verdict(lines, LEVELS);
    assert_eq!(found, Verdict::Unseen, "{lines}\n{report}");
    let (_, unseen) =
        report.split_once("NOT SEEN by the gatekeeper:\n").expect("a part of what is not seen");
    let unseen = unseen.split("  left out:").next().unwrap_or("");
    assert!(unseen.contains(words), "{words} is not in\n{report}");
}

#[track_caller]
fn is_clear(lines: &str) {
    let (found, report) = verdict(lines, LEVELS);
    assert_eq!(found, Verdict::Clear, "{lines}\n{report}");
    assert!(!report.contains("NOT SEEN") && report.ends_with("everything was seen\n"), "{report}");
}

fn open(path: &str, flags: &str, fd: u32) -> String {
    format!("1 openat(AT_FDCWD, \"{path}\", {flags}) = {fd}")
}

#[test]
fn what_a_line_out_hides_is_not_seen_where_it_is_read() {
    let words = "reads and runs of files that the levels file leaves out: give them a level";
    let (reads, writes) = (open("out1", "O_RDONLY", 3), open("out1", "O_WRONLY", 3));
    is_unseen(&format!("{reads}\n1 read(3, \"\", 9) = 9"), words);
    is_unseen(&format!("{reads}\n1 mmap(NULL, 4096, PROT_READ, MAP_PRIVATE, 3, 0) = 0x9000"), words);
    is_unseen(&format!("{reads}\n1 dup2(3, 0) = 0\n1 read(0, \"\", 9) = 9"), words);
    is_unseen(&format!("{reads}\n{}\n1 sendfile(4, 3, NULL, 9) = 9", open("high", "O_WRONLY", 4)), words);
    is_unseen("1 execve(\"out1\", [], 0x1) = 0", words);
    is_unseen("1 rename(\"out1\", \"high\") = 0", words);
    is_unseen("1 link(\"out1\", \"high\") = 0", words);
    is_clear(&format!("{reads}\n1 close(3) = 0"));
    is_clear(&format!("{writes}\n1 write(3, \"\", 9) = 9\n1 close(3) = 0"));
    is_clear("1 rename(\"low\", \"out1\") = 0");
}

#[test]
fn what_the_run_was_started_with_has_a_level_or_is_not_seen() {
    let words = "standard input, output and error without a level: give them one (<stdin> 2)";
    is_unseen("1 read(0, \"\", 9) = 9", words);
    is_unseen("1 write(1, \"\", 9) = 9", words);
    is_unseen("1 read(0<pipe:[7]>, \"\", 9) = 9", words);
    let levels = format!("<stdin> 2\n<stdout> 0\n{LEVELS}");
    let (found, report) = verdict("1 read(0, \"\", 9) = 9\n1 write(1, \"\", 9) = 9", &levels);
    assert_eq!(found, Verdict::Clear, "{report}");
    is_clear("1 fcntl(1, F_DUPFD, 10) = 10\n1 close(1) = 0\n1 dup2(10, 1) = 1");
    // strace -y says what they are.
    is_clear("1 read(0</dev/null>, \"\", 9) = 0\n1 write(1</dev/pts/3>, \"\", 9) = 9\n1 write(2</dev/tty>, \"\", 9) = 9");
    is_unseen("1 read(0</dev/pts/3>, \"\", 9) = 9", "devices that may hold data");
    is_unseen("1 read(0</dev/sda1>, \"\", 9) = 9", "devices that may hold data");
    is_unseen(
        &format!("{}\n1 write(3, \"\", 9) = 9", open("/dev/sda1", "O_WRONLY", 3)),
        "devices that may hold",
    );
}

#[test]
fn descriptors_and_processes_from_nowhere_are_not_seen() {
    let words = "descriptors whose opening is not in the trace";
    is_unseen("1 read(7, \"\", 9) = 9", words);
    is_unseen("1 getcwd(\"/run\", 9) = 5\n1 write(7</run/high>, \"\", 9) = 9", words);
    is_unseen(
        "2 read(0</dev/null>, \"\", 9) = 0\n2 +++ exited with 0 +++",
        "processes whose start is not in the trace",
    );
    is_unseen("1 fork() = 2", "processes that were started and are not in the trace: trace with strace -f");
    is_clear("1 fork() = 2\n2 exit_group(0) = ?\n2 +++ exited with 0 +++");
    is_clear("1 fork() = 2\n2 +++ killed by SIGKILL +++");
    let joined = told(&START.replacen("1 execve(\"/bin/sh\", [\"sh\"], 0x1) = 0\n", "", 1), LEVELS);
    assert_eq!(joined.report.verdict(), Verdict::Unseen);
}

#[test]
fn sockets_count_where_they_carry_data() {
    let socket = "1 socket(AF_UNIX, SOCK_STREAM, 0) = 3";
    is_clear(&format!(
        "{socket}\n1 connect(3, {{sa_family=AF_UNIX}}, 110) = -1 ENOENT (no)\n1 close(3) = 0"
    ));
    is_unseen(
        &format!("{socket}\n1 recvfrom(3, \"\", 9, 0, NULL, NULL) = 9"),
        "reads and writes over sockets",
    );
    is_unseen(
        &format!("{socket}\n1 dup2(3, 1) = 1\n1 write(1, \"\", 9) = 9"),
        "reads and writes over sockets",
    );
}

#[test]
fn a_trace_without_what_every_run_does_was_filtered() {
    let words = "kinds of calls that every run makes are missing: trace without a filter (-e)";
    for kind in ["brk", "openat", "read", "mmap", "close", "execve"] {
        let start: String =
            START.lines().filter(|line| !line.contains(kind)).map(|line| format!("{line}\n")).collect();
        let written = told(&format!("{start}1 exit_group(0) = ?"), LEVELS);
        let report = written.report.text(0);
        assert_eq!(written.report.verdict(), Verdict::Unseen, "without {kind}: {report}");
        assert!(report.contains(words), "{report}");
        let named = if kind == "openat" { "open" } else { kind };
        assert!(report.contains("there is no call of these kinds: ") && report.contains(named), "{report}");
    }
    is_unseen("1 pipe([3, 4]) = 0\n1 close(3) = 0\n1 close(4) = 0", words);
    is_clear("1 pipe([3, 4]) = 0\n1 write(4, \"\", 1) = 1");
}

/// A file behind a refusal whose level nobody has given: that is said, and the line.
#[test]
fn a_level_from_else_behind_a_refusal_is_said() {
    let lines = [
        "1 getcwd(\"/run\", 9) = 5",
        &open("low1", "O_RDONLY", 3),
        "1 read(3, \"\", 9) = 9",
        &open("/tmp/sortAb1", "O_RDWR|O_CREAT|O_EXCL", 4),
    ]
    .join("\n");
    let said = |levels: &str| {
        let (found, report) = verdict(&lines, levels);
        (found, report.split_whitespace().collect::<Vec<_>>().join(" "))
    };
    let (found, report) = said(LEVELS);
    assert_eq!(found, Verdict::Refused);
    let words = "No line of the levels file names /tmp/sortAb1: it has level 15 from the line else. Give it a line, \
                 as: /tmp/* step (a file that the run makes has the level of its maker).";
    assert!(report.contains(words), "{report}");
    // With that line nothing is refused, and with a line of its own nothing is said of else.
    let (found, report) = said(&format!("/tmp/* step\n{LEVELS}"));
    assert_eq!(found, Verdict::Clear, "{report}");
    let (found, report) = said(&format!("/tmp/* 15\n{LEVELS}"));
    assert!(found == Verdict::Refused && !report.contains("No line of the levels file"), "{report}");
    // The low end of a chain, where else is low.
    let lines = ["1 getcwd(\"/run\", 9) = 5", &open("low1", "O_RDONLY", 3), &open("high", "O_WRONLY", 4)]
        .join("\n");
    let (_, report) = verdict(&lines, "high* 12\n/lib/** 15\n/bin/** 15\nelse 3\n");
    let report = report.split_whitespace().collect::<Vec<_>>().join(" ");
    assert!(
        report.contains("names low1: it has level 3 from the line else. Give it a line, as: low1 LEVEL."),
        "{report}"
    );
}

/// More files at once than a step has places: the advice is never to leave out what decides, and who does so all the
/// same gets no all-clear.
#[test]
fn nobody_is_told_to_leave_out_what_decides() {
    let sheets: Vec<String> = (0..80).map(|n| open(&format!("low{n}"), "O_RDONLY", 3 + n)).collect();
    let reads: Vec<String> = (0..80).map(|n| format!("1 read({}, \"\", 9) = 9", 3 + n)).collect();
    let lines = format!(
        "{}\n{}\n{}\n1 write(90, \"\", 9) = 9",
        sheets.join("\n"),
        reads.join("\n"),
        open("high", "O_WRONLY", 90)
    );
    let (found, report) = verdict(&lines, "low* out\nhigh* 12\nelse 15\n");
    assert_eq!(found, Verdict::Unseen, "{report}");
    assert!(report.contains("80  reads and runs of files that the levels file leaves out"), "{report}");
}
