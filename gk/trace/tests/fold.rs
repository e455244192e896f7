//! Files that stand as one: what becomes of them, and that no answer changes by it.

mod common;

use common::random::{line, Random};
use common::{attempt, refused, stop, told, words};
use gk_trace::{journal_of, Levels, Options, Verdict, Written};

const LEVELS: &str = "low* 2\nmid* 9\nhigh* 12\nelse 15\n";
const START: &str = "1 execve(\"/bin/sort\", [\"sort\"], 0x1 /* 1 var */) = 0";

fn written(lines: &str, fold: bool) -> Written {
    let options = Options { fold, ..Options::default() };
    attempt(format!("{START}\n{lines}\n").as_bytes(), LEVELS, options)
        .unwrap_or_else(|failure| panic!("{failure:?}\n{lines}"))
}

/// What a journal says of its trace: the calls by which files are not merely held and read, and every answer that is not
/// merely allowed, each with the line, the step and the answer.
fn said(written: &Written) -> Vec<(u64, String, String)> {
    let replies = gatekeeper::replay(&written.journal);
    let rows = words(&written.journal).into_iter().zip(replies.lines()).zip(&written.lines);
    let rows = rows.map(|((call, reply), &line)| {
        let (name, numbers) = call.split_once(' ').expect("a call has numbers");
        let step = numbers.split(' ').next().expect("a number");
        let answer = reply.split(' ').skip(2).collect::<Vec<_>>().join(" ");
        (line, format!("{name} {step}"), answer)
    });
    let is_mere = |name: &str, answer: &str| {
        let kinds = ["register ", "retire ", "open-read ", "map ", "read ", "close ", "mark "];
        answer.starts_with('A') && kinds.iter().any(|kind| name.starts_with(kind))
    };
    rows.filter(|(_, name, answer)| !is_mere(name, answer)).collect()
}

/// Holds the folded run beside the other one.
#[track_caller]
fn agree(one: &Written, other: &Written, what: &str) {
    assert_eq!(said(one), said(other), "{what}");
    assert_eq!(one.report.verdict(), other.report.verdict(), "{what}");
}

/// The calls behind the first three, as they are with `--fold`.
#[track_caller]
fn folded(lines: &str) -> Vec<String> {
    let written = written(lines, true);
    agree(&written, &self::written(lines, false), lines);
    words(&written.journal).split_off(3)
}

fn open(path: &str, flags: &str, fd: usize) -> String {
    format!("1 openat(AT_FDCWD, \"{path}\", {flags}) = {fd}")
}

#[test]
fn what_is_only_read_has_one_number_and_one_place() {
    let lines = [
        open("low1", "O_RDONLY", 3),
        open("low2", "O_RDONLY", 4),
        "1 read(4, \"\", 1) = 1".to_string(),
        "1 close(3) = 0".to_string(),
        open("low3", "O_RDONLY", 3),
        open("mid1", "O_RDONLY", 5),
        "1 close(4) = 0".to_string(),
        "1 close(3) = 0".to_string(),
    ];
    let calls = folded(&lines.join("\n"));
    assert_eq!(
        calls,
        ["register 1 2", "open-read 0 1 0", "read 0 0", "register 2 9", "open-read 0 2 1", "close 0 0"]
    );
    let written = written(&lines.join("\n"), true);
    assert!(written.names.contains("file 1 4 low1 and others\n"), "{}", written.names);
    let report = written.report.text(0);
    assert!(
        report.contains("4  opens of files that are only read, each with others of its line as one"),
        "{report}"
    );
}

/// Handles that end at an exec, and mappings, are handles of their own.
#[test]
fn an_exec_leaves_what_it_leaves_of_each() {
    let lines = [
        open("low1", "O_RDONLY|O_CLOEXEC", 3),
        open("low2", "O_RDONLY", 4),
        open("low3", "O_RDONLY|O_CLOEXEC", 5),
        "1 mmap(NULL, 4096, PROT_READ, MAP_PRIVATE, 3, 0) = 0x1000".to_string(),
        "1 mmap(NULL, 4096, PROT_READ, MAP_PRIVATE, 4, 0) = 0x2000".to_string(),
        "1 munmap(0x1000, 4096) = 0".to_string(),
        "1 execve(\"/bin/sh\", [], 0x1) = 0".to_string(),
        open("high1", "O_WRONLY", 3),
        "1 close(4) = 0".to_string(),
        "1 close(5) = 0".to_string(),
    ];
    let calls = folded(&lines.join("\n"));
    let expected = [
        "register 1 2",
        "open-read 0 1 0",
        "mark 0 0",
        "open-read 0 1 1",
        // The third is opened by the unmarked handle, and goes by the marked one from then on.
        "map 0 1 2",
        "register 2 15",
        "exec 0 2",
        "register 3 12",
        "open-write 0 3 0",
        "close 0 1",
    ];
    assert_eq!(calls, expected);
    // The flag is taken off one of two, and set on one of two.
    let lines = [
        open("low1", "O_RDONLY|O_CLOEXEC", 3),
        open("low2", "O_RDONLY|O_CLOEXEC", 4),
        "1 fcntl(3, F_SETFD, 0) = 0".to_string(),
        "1 dup2(3, 6) = 6".to_string(),
        "1 fcntl(6, F_SETFD, FD_CLOEXEC) = 0".to_string(),
        "1 execve(\"/bin/sort\", [], 0x1) = 0".to_string(),
        "1 close(3) = 0".to_string(),
    ];
    let calls = folded(&lines.join("\n"));
    let expected = [
        "open-read 0 1 0",
        "mark 0 0",
        "open-read 0 1 1",
        "close 0 1",
        "open-read 0 1 1",
        "exec 0 0",
        "close 0 1",
    ];
    assert_eq!(calls[1..], expected);
}

/// A file that is written after all has a number of its own from then on, and who has it open has it open there.
#[test]
fn what_is_written_stands_by_itself() {
    let lines = [
        open("low1", "O_RDONLY", 3),
        open("low2", "O_RDONLY", 4),
        "1 dup2(4, 7) = 7".to_string(),
        "1 mmap(NULL, 4096, PROT_READ, MAP_PRIVATE, 4, 0) = 0x1000".to_string(),
        "1 fork() = 2".to_string(),
        "2 openat(AT_FDCWD, \"low2\", O_WRONLY) = 5".to_string(),
        "2 write(5, \"\", 1) = 1".to_string(),
        "1 openat(AT_FDCWD, \"high1\", O_WRONLY) = 6".to_string(),
        "1 close(3) = 0".to_string(),
        "1 openat(AT_FDCWD, \"high1\", O_WRONLY) = 6".to_string(),
    ];
    let calls = folded(&lines.join("\n"));
    let apart = [
        "register 2 2",
        "open-read 0 2 2",
        "close 0 1",
        "map 0 2 1",
        "open-read 1 2 2",
        "close 1 1",
        "map 1 2 1",
    ];
    assert_eq!(calls[4..11], apart, "{calls:?}");
    assert_eq!(calls[11..13], ["open-write 1 2 3", "write 1 3"], "{calls:?}");
    // By a path of its own descriptor, by a rename over it, by a link, by a move to another level and back.
    for change in [
        "1 openat(AT_FDCWD, \"/dev/fd/4\", O_WRONLY) = 5\n1 write(5, \"\", 1) = 1",
        "1 rename(\"mid1\", \"low2\") = 0",
        "1 rename(\"low2\", \"low3\") = 0\n1 openat(AT_FDCWD, \"low3\", O_RDWR) = 5",
        "1 rename(\"low1\", \"mid2\") = 0\n1 rename(\"mid2\", \"low1\") = 0",
        "1 renameat2(AT_FDCWD, \"low1\", AT_FDCWD, \"mid2\", RENAME_EXCHANGE) = 0",
        "1 link(\"low2\", \"low9\") = 0\n1 openat(AT_FDCWD, \"low9\", O_WRONLY) = 5",
        "1 unlink(\"low2\") = 0\n1 openat(AT_FDCWD, \"low2\", O_WRONLY|O_CREAT|O_EXCL) = 5\n1 write(5, \"\", 1) = 1",
        "1 truncate(\"low1\", 0) = 0",
    ] {
        let reads = format!("{}\n{}\n1 read(3, \"\", 1) = 1", open("low1", "O_RDONLY", 3), open("low2", "O_RDONLY", 4));
        folded(&format!("{reads}\n{change}\n{}\n{}", open("low1", "O_RDONLY", 8), open("mid1", "O_WRONLY", 9)));
    }
}

/// `sort -m` of 80 sheets: more than a step has places for, and more than can be live.
#[test]
fn eighty_sheets_at_once_fit_and_are_refused_where_each_would_be() {
    let sheets: Vec<String> = (0..80).map(|n| open(&format!("low{n}"), "O_RDONLY", 3 + n)).collect();
    let reads: Vec<String> = (0..80).map(|n| format!("1 read({}, \"\", 1) = 1", 3 + n)).collect();
    // Into a file that takes them, and into one that does not; opened before them, or after.
    let into = |path: &str| open(path, "O_WRONLY", 99);
    for (lines, refusals) in [
        (format!("{}\n{}\n{}", sheets.join("\n"), reads.join("\n"), into("low.sum")), 0),
        (format!("{}\n{}\n{}", sheets.join("\n"), into("high.sum"), reads.join("\n")), 1),
        (format!("{}\n{}\n{}", into("high.sum"), sheets.join("\n"), reads.join("\n")), 80),
    ] {
        let (at_need, from_start) = (written(&lines, false), written(&lines, true));
        agree(&at_need, &from_start, &lines);
        assert_eq!(refused(&at_need.journal).len(), refusals, "{lines}");
        let verdict = if refusals == 0 { Verdict::Clear } else { Verdict::Refused };
        let report = at_need.report.text(0);
        assert!(!report.contains("eave"), "nothing is to be left out: {report}");
        assert!(at_need.report.verdict() == verdict || report.contains("kinds of calls"), "{report}");
    }
    // Each that is refused is named by its own path.
    let report = written(&format!("{}\n{}", into("high.sum"), sheets.join("\n")), true).report.text(0);
    assert!(
        report.contains("open-read of low0 (line 3), low1 (line 4), low2 (line 5) and 77 more"),
        "{report}"
    );
}

/// With 64 live, all of them held by several steps.
#[test]
fn sixty_four_files_that_are_held_make_room() {
    let opens = |p: usize| {
        (0..13).map(move |n| format!("{p} openat(AT_FDCWD, \"low{p}.{n}\", O_RDONLY) = {}", 3 + n))
    };
    let steps: Vec<String> =
        (2..8).flat_map(|p| std::iter::once(format!("1 fork() = {p}")).chain(opens(p))).collect();
    let lines = format!("{}\n1 pipe([3, 4]) = 0", steps.join("\n"));
    agree(&written(&lines, false), &written(&lines, true), &lines);
    assert!(words(&written(&lines, false).journal).iter().any(|call| call.starts_with("pipe ")));
}

/// What is written cannot stand with others: there the limits are what they are.
#[test]
fn what_does_not_fit_is_still_said() {
    let files: Vec<String> = (0..17).map(|n| open(&format!("low{n}"), "O_WRONLY", 3 + n)).collect();
    let (line, message) = stop(&format!("{START}\n{}", files.join("\n")), LEVELS);
    assert!(line == 18 && message.contains("17th place"), "{line}: {message}");
    // A file that is left out is not seen, folded or not.
    let lines = format!("{START}\n{}\n1 read(3, \"\", 1) = 1", open("low1", "O_RDONLY", 3));
    let report = told(&lines, "low1 out\nelse 15\n").report;
    assert!(
        report.text(0).contains("1  reads and runs of files that the levels file leaves out"),
        "{}",
        report.text(0)
    );
}

#[test]
fn recorded_runs_have_the_same_answers() {
    for (run, levels) in [
        ("pay", "pay"),
        ("plain", "pay"),
        ("apart", "apart"),
        ("files", "files"),
        ("steps", "steps"),
        ("threads", "threads"),
        ("merge", "pay"),
    ] {
        let read = |name: String| {
            std::fs::read(format!("{}/tests/runs/{name}", env!("CARGO_MANIFEST_DIR"))).unwrap()
        };
        let (trace, levels) =
            (read(format!("{run}.trace")), Levels::read(&read(format!("{levels}.levels"))).unwrap());
        for (all_files, one_step) in [(false, true), (true, true), (false, false)] {
            let of = |fold: bool| {
                let options = Options { fold, all_files, one_step, ..Options::default() };
                journal_of(&trace[..], &levels, options, None)
            };
            match (of(true), of(false)) {
                (Ok(one), Ok(other)) => agree(&one, &other, run),
                (Err(_), Ok(_)) => panic!("{run} does not fit folded"),
                (_, Err(failure)) => assert!(run == "steps" && !one_step, "{run}: {failure:?}"),
            }
        }
    }
}

/// Random traces: with few descriptors nothing folds at need, and the one run is not folded; with many, it folds at need.
#[test]
fn random_runs_have_the_same_answers() {
    const LEVELS: &str = "f1 3\nf2 7\nf[3-5] 15\nlow* 2\nt* step\n<stdin> 4\nd/out out\nelse 15\n";
    let mut random = Random(4);
    let (mut compared, mut at_need) = (0, 0);
    for round in 0..2400 {
        let is_wide = round % 2 == 1;
        let next = |random: &mut Random| match is_wide && random.below(2) == 0 {
            true => {
                let (process, path, fd) = (100 + random.below(2), random.below(40), random.below(30));
                let flags = ["O_RDONLY", "O_RDONLY", "O_RDONLY|O_CLOEXEC", "O_RDWR"];
                let last = if random.below(9) == 0 { 4 } else { 3 };
                let flags = flags[random.below(last)];
                format!("{process} openat(AT_FDCWD, \"low{path}\", {flags}) = {fd}")
            }
            false => line(random, if is_wide { 30 } else { 9 }),
        };
        let count = 1 + random.below(if is_wide { 150 } else { 80 });
        let lines: Vec<String> = (0..count).map(|_| next(&mut random)).collect();
        let trace = lines.join("\n") + "\n";
        let (all_files, repeats) = (round % 3 == 0, round % 5 == 0);
        let of = |fold| {
            attempt(trace.as_bytes(), LEVELS, Options { fold, all_files, repeats, ..Options::default() })
        };
        if let (Ok(one), Ok(other)) = (of(true), of(false)) {
            compared += usize::from(one.journal != other.journal);
            at_need += usize::from(other.report.text(0).contains("others of its line as one"));
            if !repeats {
                agree(&one, &other, &trace);
            }
        }
    }
    assert!(compared > 100 && at_need > 20, "{compared} compared, {at_need} folded at need");
}
