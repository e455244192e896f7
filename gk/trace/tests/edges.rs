//! Paths and names that come and go, limits, and traces that are cut, malformed or of another shape.

mod common;

use common::{attempt, refused, stop, told, words};
use gk_trace::Options;

const LEVELS: &str = "low* 2\nmid* 9\nhigh* 12\nin.d/* 2\nup.d/* 12\nown* step\nelse 15\n";
const START: &str = "1 execve(\"/bin/sh\", [\"sh\"], 0x1) = 0";

fn calls(lines: &str) -> Vec<String> {
    words(&told(&format!("{START}\n{lines}"), LEVELS).journal).split_off(3)
}

fn refusals(lines: &str, levels: &str) -> Vec<String> {
    let journal = told(&format!("{START}\n{lines}"), levels).journal;
    refused(&journal).into_iter().map(|(call, _)| call).collect()
}

fn open(path: &str, flags: &str, fd: u32) -> String {
    format!("1 openat(AT_FDCWD, \"{path}\", {flags}) = {fd}")
}

#[test]
fn a_file_without_a_name_goes_with_its_last_handle() {
    let lines = [
        &open("low", "O_RDONLY", 3),
        "1 unlink(\"low\") = 0",
        &open("low", "O_RDONLY", 4),
        "1 close(3) = 0",
        "1 unlinkat(AT_FDCWD, \"low\", 0) = 0",
        "1 close(4) = 0",
    ]
    .join("\n");
    assert_eq!(
        calls(&lines),
        [
            "register 1 2",
            "open-read 0 1 0",
            "register 2 2",
            "open-read 0 2 1",
            "close 0 0",
            "retire 1",
            "close 0 1",
            "retire 2"
        ]
    );
}

#[test]
fn a_rename_within_a_level_keeps_the_file() {
    let lines = [
        &open("low1", "O_RDONLY", 3),
        &open("low2", "O_RDONLY", 4),
        "1 close(4) = 0",
        "1 rename(\"low1\", \"low2\") = 0",
        &open("low2", "O_RDONLY", 4),
    ]
    .join("\n");
    assert_eq!(calls(&lines)[5..], ["retire 2", "open-read 0 1 1"]);
}

#[test]
fn a_rename_to_another_level_is_a_copy() {
    // Up: refused, and the file stays where it was.
    let up = [&open("low", "O_RDONLY", 3), "1 close(3) = 0", "1 rename(\"low\", \"high\") = 0"].join("\n");
    assert_eq!(refusals(&up, LEVELS), ["open-write 0 2 1"]);
    assert_eq!(
        refusals("1 renameat2(AT_FDCWD, \"low\", AT_FDCWD, \"high\", RENAME_NOREPLACE) = 0", LEVELS),
        ["open-write 0 2 1"]
    );
    assert_eq!(
        refusals("1 renameat2(AT_FDCWD, \"high\", AT_FDCWD, \"low\", RENAME_EXCHANGE) = 0", LEVELS).len(),
        1
    );
    assert_eq!(refusals("1 link(\"low\", \"high\") = 0", LEVELS), ["open-write 0 2 1"]);
    // Down: who has it open for writing has the copy open, too.
    let down = [&open("mid", "O_WRONLY", 3), "1 rename(\"mid\", \"low\") = 0", "1 write(3, \"\", 1) = 1"]
        .join("\n");
    assert_eq!(
        calls(&down)[2..],
        [
            "open-read 0 1 1",
            "register 2 2",
            "open-write 0 2 2",
            "read 0 1",
            "write 0 2",
            "close 0 2",
            "close 0 1",
            "open-write 0 2 1",
            "close 0 0",
            "retire 1",
            "write 0 1"
        ]
    );
}

#[test]
fn a_folder_that_is_renamed_lends_no_level() {
    let lines = ["1 rename(\"in.d\", \"up.d\") = 0", &open("up.d/a", "O_RDONLY", 3)].join("\n");
    assert_eq!(calls(&lines), ["register 1 2", "open-read 0 1 0"]);
    let known =
        [&open("in.d/a", "O_RDONLY", 3), "1 close(3) = 0", "1 rename(\"in.d\", \"up.d\") = 0"].join("\n");
    assert_eq!(refusals(&known, LEVELS), ["open-write 0 2 1"]);
}

#[test]
fn links_that_the_run_makes_are_followed() {
    let lines = [
        "1 symlink(\"../low\", \"x/now\") = 0",
        &open("x/now", "O_RDONLY", 3),
        "1 linkat(AT_FDCWD, \"low\", AT_FDCWD, \"low2\", 0) = 0",
        &open("low2", "O_RDONLY", 4),
    ]
    .join("\n");
    assert_eq!(calls(&lines), ["register 1 2", "open-read 0 1 0", "open-read 0 1 1"]);
    let gone = ["1 symlink(\"low\", \"now\") = 0", "1 unlink(\"now\") = 0", &open("now", "O_WRONLY", 3)]
        .join("\n");
    assert_eq!(calls(&gone), ["register 1 15", "open-write 0 1 0"]);
}

#[test]
fn a_file_without_a_name_may_get_one() {
    let made = "1 openat(AT_FDCWD, \".\", O_RDWR|O_TMPFILE, 0600) = 3";
    let named = format!(
        "{made}\n1 linkat(AT_FDCWD, \"/proc/self/fd/3\", AT_FDCWD, \"high\", AT_SYMLINK_FOLLOW) = 0"
    );
    // It was made at level 15: a copy goes down to 12, and what was open on it is open on the copy.
    let copied = [
        "open-read 0 1 2",
        "register 2 12",
        "open-write 0 2 3",
        "read 0 2",
        "write 0 3",
        "close 0 3",
        "close 0 2",
    ];
    let moved = ["open-write 0 2 2", "close 0 1", "open-read 0 2 1", "close 0 0", "retire 1"];
    let all = calls(&named).split_off(3);
    assert_eq!(all[..7], copied);
    assert_eq!(all[7..], moved);
    let empty = format!("{made}\n1 linkat(3, \"\", AT_FDCWD, \"any\", AT_EMPTY_PATH) = 0\n1 close(3) = 0");
    assert_eq!(calls(&empty)[3..], ["close 0 0", "close 0 1"]);
    // What the run did not make has no level that anybody vouches for.
    assert_eq!(refusals("1 rename(\"own\", \"high\") = 0", LEVELS), ["open-write 0 2 1"]);
}

#[test]
fn a_file_cannot_have_two_levels() {
    let (line, message) = stop(&format!("{START}\n1 link(\"high\", \"low\") = 0"), LEVELS);
    assert!(line == 2 && message.contains("\"low\" is made another path"), "{line}: {message}");
}

#[test]
fn who_is_killed_in_a_write_may_have_written() {
    let lines = "1 pipe([3, 4]) = 0\n1 fork() = 2\n1 close(4) = 0\n2 close(3) = 0\n\
                 2 openat(AT_FDCWD, \"low\", O_RDONLY) = 3\n2 read(3, \"\", 1) = 1\n\
                 2 write(4, \"\", 1 <unfinished ...>\n2 +++ killed by SIGKILL +++\n1 read(3, \"\", 1) = 1\n\
                 1 close(3) = 0\n\
                 1 openat(AT_FDCWD, \"mid\", O_WRONLY) = 3";
    assert_eq!(refusals(lines, LEVELS), ["open-write 0 3 0"]);
}

#[test]
fn folders_are_followed() {
    let lines =
        "1 openat(AT_FDCWD, \"in.d\", O_RDONLY|O_DIRECTORY) = 3\n1 openat(3, \"a\", O_RDONLY) = 4\n\
                 1 fchdir(3) = 0\n\
                 1 openat(AT_FDCWD, \"a\", O_RDONLY) = 5\n1 chdir(\"..\") = 0\n\
                 1 openat(AT_FDCWD, \"in.d/./a\", O_RDONLY) = 6\n1 truncate(\"in.d/a\", 0) = 0";
    assert_eq!(
        calls(lines),
        [
            "register 1 2",
            "open-read 0 1 0",
            "open-read 0 1 1",
            "open-read 0 1 2",
            "open-write 0 1 3",
            "write 0 3",
            "close 0 3"
        ]
    );
    let (line, message) = stop(&format!("{START}\n1 openat(7, \"a\", O_RDONLY) = 4"), LEVELS);
    assert!(line == 2 && message.contains("strace -y"), "{message}");
}

#[test]
fn the_starting_folder_is_learned_or_given() {
    let two = [open("low", "O_RDONLY", 3), open("/run/low", "O_RDONLY", 4)].join("\n");
    let known = format!("1 getcwd(\"/run\", 9) = 5\n{two}");
    assert_eq!(calls(&known), ["register 1 2", "open-read 0 1 0", "open-read 0 1 1"]);
    let noted = two.replace("AT_FDCWD", "AT_FDCWD</run>");
    assert_eq!(calls(&noted), ["register 1 2", "open-read 0 1 0", "open-read 0 1 1"]);
    // Without it, two paths may be one file: that is said, and not guessed.
    let (line, message) = stop(&format!("{START}\n{two}"), LEVELS);
    assert!(
        line == 3 && message.contains("line 1 of the levels file") && message.contains("--folder"),
        "{message}"
    );
    let (line, message) = stop(&format!("{START}\n{two}"), "low 2\n/run/low 2\n/run/high 12\nelse 15");
    assert!(line == 3 && message.contains("line 1 of the levels file"), "{message}");
    let (line, message) = stop(&format!("{START}\n{two}"), "**/low 2\nelse 15");
    assert!(
        line == 3 && message.contains("may be the same file") && message.contains("--folder"),
        "{message}"
    );
    let late = format!(
        "1 chdir(\"x\") = 0\n{}\n1 chdir(\"..\") = 0\n1 getcwd(\"/run\", 9) = 5",
        two.replace("\"low", "\"../../low").replace("/run/low", "/low")
    );
    let (line, message) = stop(&format!("{START}\n{late}"), "**/low 2\nelse 15");
    assert!(line == 6 && message.contains("has come under two paths"), "{line}: {message}");
    let given = Options { folder: Some(b"/run".to_vec()), ..Options::default() };
    let written = attempt(format!("{START}\n{two}\n").as_bytes(), LEVELS, given)
        .unwrap_or_else(|failure| panic!("{failure:?}"));
    assert_eq!(words(&written.journal)[3..], ["register 1 2", "open-read 0 1 0", "open-read 0 1 1"]);
}

#[test]
fn real_paths_are_taken_from_the_notes() {
    let lines =
        "1 openat(AT_FDCWD</run>, \"now\", O_RDONLY) = 3</run/low>\n1 read(3</run/low>, \"\", 1) = 1";
    assert_eq!(calls(lines), ["register 1 2", "open-read 0 1 0", "read 0 0"]);
    // What the run was started with.
    let lines = "1 getcwd(\"/run\", 9) = 5\n1 write(1</run/high>, \"\", 1) = 1\n\
                 1 read(0</dev/pts/0>, \"\", 1) = 1\n1 write(2<pipe:[7]>, \"\", 1) = 1";
    assert_eq!(calls(lines), ["register 1 12", "open-write 0 1 0", "write 0 0"]);
}

#[test]
fn standard_input_and_output_may_have_levels() {
    let levels = format!("<stdin> 2\n<stdout> 12\n{LEVELS}");
    let written = told(&format!("{START}\n1 read(0, \"\", 1) = 1\n1 write(2, \"\", 1) = 1"), &levels);
    assert_eq!(
        words(&written.journal)[..5],
        ["admit 0 15", "register 0 2", "open-read 0 0 0", "register 1 12", "open-write 0 1 1"]
    );
    assert!(written.names.contains("file 0 2 standard input\n"), "{}", written.names);
    assert!(written
        .report
        .text(0)
        .contains("1  reads and writes of standard input, output and error without"));
}

#[test]
fn a_path_of_an_own_descriptor_is_the_same_pipe() {
    let lines = "1 pipe([63, 64]) = 0\n1 openat(AT_FDCWD, \"/dev/fd/63\", O_RDONLY) = 3\n\
                 1 openat(AT_FDCWD, \"/proc/self/fd/64\", O_WRONLY) = 4";
    assert_eq!(calls(lines), ["pipe 0 1 0 1", "open-read 0 1 2", "open-write 0 1 3"]);
}

#[test]
fn a_file_has_one_number_and_no_number_is_used_twice() {
    // Five hundred files one after the other, and as many steps; then the first of them once more.
    let one = |n: u32| {
        let (process, path) = (2 + n, format!("low{n}"));
        format!("1 fork() = {process}\n{process} openat(AT_FDCWD, \"{path}\", O_RDONLY) = 3\n\
                 {process} read(3, \"\", 1) = 1\n{process} exit_group(0) = ?\n{process} +++ exited with 0 +++")
    };
    let lines: Vec<String> = (0..500).chain([0]).map(one).collect();
    let written = told(&format!("{START}\n{}", lines.join("\n")), LEVELS);
    assert!(refused(&written.journal).is_empty());
    let words = words(&written.journal);
    assert_eq!(words.iter().filter(|line| line.starts_with("retire")).count(), 501 - 63);
    assert!(words.iter().all(|line| !line.starts_with("fork") || line == "fork 0 1"));
    let registered: Vec<&str> = words.iter().filter_map(|line| line.strip_prefix("register ")).collect();
    // The program's own file is number 0, and was asked for longest ago: it is retired, too.
    let again = registered[1];
    assert_eq!((registered.len(), registered.last()), (502, Some(&again)));
    let mut numbers = registered[..501].to_vec();
    numbers.sort_unstable();
    numbers.dedup();
    assert_eq!(numbers.len(), 501);
    let of_first = written.names.lines().filter(|line| line.ends_with(" low0")).collect::<Vec<&str>>();
    assert!(
        matches!(of_first[..], [one, other] if one.starts_with("file 1 ") && other.starts_with("file 1 "))
    );
    assert!(
        written.names.contains("\nfile 500 ") && written.names.contains(" low499\n"),
        "{}",
        written.names
    );
}

#[test]
fn limits_are_said_with_what_and_where() {
    let steps: Vec<String> = (0..32).map(|n| format!("1 fork() = {}", 2 + n)).collect();
    let (line, message) = stop(&format!("{START}\n{}", steps.join("\n")), LEVELS);
    assert!(
        line == 33 && message.contains("process 1 (sh)") && message.contains("--until 32"),
        "{line}: {message}"
    );
    // Files that are only read would stand as one.
    let places: Vec<String> = (0..17).map(|n| open(&format!("low{n}"), "O_WRONLY", 3 + n)).collect();
    let (line, message) = stop(&format!("{START}\n{}", places.join("\n")), LEVELS);
    assert!(
        line == 18
            && message.contains("low16")
            && message.contains("low3")
            && message.contains("17th place")
            && !message.contains("Leave"),
        "{line}: {message}"
    );
    let objects: Vec<String> =
        (0..5)
            .flat_map(|p| {
                let fork = format!("1 fork() = {}", 2 + p);
                [fork].into_iter().chain((0..13).map(move |n| {
                    format!("{} openat(AT_FDCWD, \"low{p}.{n}\", O_WRONLY) = {}", 2 + p, 3 + n)
                }))
            })
            .collect();
    let (line, message) = stop(&format!("{START}\n{}", objects.join("\n")), LEVELS);
    assert!(
        line == 71
            && message.contains("low4.12")
            && message.contains("65th")
            && !message.contains("Leave")
            && message.contains("64 files and 0 pipes"),
        "{line}: {message}"
    );
    let long: Vec<String> = (0..20_000).map(|_| "1 fork() = 2\n2 exit_group(0) = ?".to_string()).collect();
    let (line, message) = stop(&format!("{START}\n{}", long.join("\n")), LEVELS);
    assert!(
        line > 18_000
            && message.contains("65,536 bytes")
            && message.contains(&format!("--until {}", line - 1)),
        "{line}: {message}"
    );
}

#[test]
fn a_cut_trace_is_told_up_to_its_end() {
    let whole = format!("{START}\n1 pipe([3, 4]) = 0\n1 fork() = 2\n1 read(3, ");
    let written = attempt(whole.as_bytes(), LEVELS, Options::default())
        .unwrap_or_else(|failure| panic!("{failure:?}"));
    assert_eq!(words(&written.journal)[3..], ["pipe 0 1 0 1", "fork 0 1"]);
    assert!(written.report.text(0).contains("the last line of the trace is cut off"));
    let begun = told(&format!("{START}\n1 pipe([3, 4]) = 0\n1 read(3,  <unfinished ...>"), LEVELS);
    assert!(begun
        .report
        .text(0)
        .contains("1  calls that the trace does not bring to an end; first at line 3"));
}

#[test]
fn what_is_malformed_is_said_where() {
    for (lines, at, words) in [
        ("", 1, "column 1: expected the number of a process"),
        ("total 4", 1, "column 1: expected the number of a process"),
        ("1 close(3) = 0\n1 close(3", 2, "column 10: expected ) at the end of the call"),
        ("1 close(3) = 0\n\n1 close(3) = 0", 2, "column 1: expected the number of a process"),
        ("1 close(3) 0", 1, "column 12: expected = and the result"),
        ("1 <... read resumed>) = 1", 1, "read is resumed here, and the trace has no start of it"),
        ("1 read(3, <unfinished ...>\n1 <... write resumed>) = 1", 2, "write is resumed here"),
        ("1 read(3, <unfinished ...>\n1 <... read resumed>) x", 2, "column 23: expected = and the result"),
        ("1 openat(AT_FDCWD, 0x7f00, O_RDONLY) = 3", 1, "the path of the call is not in the trace"),
        ("1 openat(AT_FDCWD, \"a\") = 3", 1, "the flags of the open are not in the trace"),
        ("1 pipe2([...], 0) = 0", 1, "strace -s 2 or more"),
        ("1 socketpair(AF_UNIX, SOCK_STREAM, 0, [3, ...]) = 0", 1, "strace -s 2 or more"),
        ("1 fork() = 1", 1, "process 1 cannot have made itself"),
    ] {
        let (line, message) = stop(lines, LEVELS);
        assert!(line == at && message.contains(words), "{lines:?}: line {line}: {message}");
    }
    let (_, message) = stop(&format!("1 {}(3) = 0", "a".repeat(2_000_000)), LEVELS);
    assert!(message.contains("longer than 1,048,576 bytes"), "{message}");
    assert!(attempt(b"", LEVELS, Options::default()).is_err());
}

#[test]
fn what_has_no_counterpart_is_counted() {
    let lines = "1 socket(AF_INET, SOCK_STREAM, 0) = 3\n1 connect(3, {sa_family=AF_INET}, 16) = 0\n\
                 1 sendto(3, \"\", 1, 0, NULL, 0) = 1\n\
                 1 eventfd2(0, 0) = 4\n1 write(4, \"\", 8) = 8\n1 process_vm_readv(9, [], 1, [], 1, 0) = 1\n\
                 1 io_uring_setup(8, {}) = 5\n\
                 1 msgsnd(1, {}, 1, 0) = 0\n1 frobnicate(1) = 0\n1 chroot(\"/x\") = 0\n\
                 1 read(77, \"\", 1) = 1\n1 kill(1, SIGTERM) = 0\n\
                 1 brk(NULL) = 0x1\n1 stat(\"a\", {}) = 0\n\
                 1 sendmsg(3, {msg_control=[{cmsg_type=SCM_RIGHTS, cmsg_data=[4]}]}, 0) = 1";
    let text = told(&format!("{START}\n{lines}"), LEVELS).report.text(0);
    for row in [
        "2  reads and writes over sockets; first at line 4",
        "2  calls on sockets that move no data; first at line 2",
        "1  descriptors that were sent over a socket; first at line 16",
        "1  reads and writes of event descriptors (eventfd, epoll, timers); first at line 6",
        "1  calls that make event descriptors",
        "1  calls into another process's memory",
        "1  reads and writes handed in by a ring",
        "1  message queues",
        "1  calls that change which files paths mean",
        "1  reads and writes on descriptors whose opening is not in the trace; first at line 12",
        "1  signals and exit statuses",
        "1  calls that carry no data",
        "1  names and attributes",
        "1  calls that this program does not know; first at line 10",
        "calls that are not known: frobnicate (line 10)",
    ] {
        assert!(text.contains(row), "{row}\n{text}");
    }
}

/// Shop marks stand behind the level, and a file is opened for what its label lets through.
#[test]
fn sets_of_the_levels_file_are_in_the_journal() {
    let levels = "name shop 0 north\nname shop 1 east\nlow 9 east\nmid 9 north\nown step\nelse 15\n";
    let opens = "1 openat(AT_FDCWD, \"mid\", O_WRONLY) = 3\n1 openat(AT_FDCWD, \"low\", O_RDONLY) = 4\n\
                 1 openat(AT_FDCWD, \"own\", O_RDONLY) = 5";
    let written = told(&format!("{START}\n{opens}"), levels);
    assert_eq!(
        words(&written.journal)[3..],
        [
            "register 1 9 1",
            "open-write 0 1 0",
            "register 2 9 2",
            "open-read 0 2 1",
            "register 3 0 0",
            "open-read 0 3 1"
        ]
    );
    assert_eq!(refused(&written.journal).iter().map(|(_, number)| *number).collect::<Vec<u32>>(), [9, 9]);
    assert!(written.names.starts_with("names 1\nshop 0 1 north\nshop 1 1 east\n"), "{}", written.names);
    let report = written.report.text(0).split_whitespace().collect::<Vec<&str>>().join(" ");
    assert!(report.contains("may not open low (file 2) for reading at place 1: it writes mid"), "{report}");
    // A read that takes a mark away is written, each time; a file of level 15 that lacks one is no top file.
    let levels = "low 15 1\nelse 15\n";
    let reads = "1 openat(AT_FDCWD, \"low\", O_RDONLY) = 3\n1 read(3, \"\", 1) = 1\n1 read(3, \"\", 1) = 1";
    let written = told(&format!("{START}\n{reads}"), levels);
    assert_eq!(words(&written.journal)[3..], ["register 1 15 1", "open-read 0 1 0", "read 0 0"]);
    let report = written.report.text(0);
    assert!(report.contains("1 lowered, 0 refused; 7 shop marks were lost\n"), "{report}");
}
