//! Threads: what becomes of them, and that no other answer hangs on them.

mod common;

use common::{attempt, plain, refused, stop, told, words};
use gk_trace::{Options, Verdict, Written};

const LEVELS: &str = "low* 2\nmid* 9\nhigh* 12\nskip* out\nelse 15\n";
const START: &str = "1 execve(\"/bin/sh\", [\"sh\"], 0x1 /* 1 var */) = 0";
const THREAD: &str = "CLONE_VM|CLONE_FS|CLONE_FILES|CLONE_SIGHAND|CLONE_THREAD";

/// Another thread of a process, or one with these flags.
fn clone(process: u32, flags: &str, made: u32) -> String {
    format!("{process} clone(child_stack=0x1, flags={flags}) = {made}")
}

fn written(lines: &str, one_step: bool) -> Written {
    let options = Options { one_step, ..Options::default() };
    let trace = format!("{START}\n{lines}\n");
    attempt(trace.as_bytes(), LEVELS, options).unwrap_or_else(|failure| panic!("{failure:?}\n{trace}"))
}

/// The calls behind the first three. With `--one-step` they are the same, but for those of threads.
#[track_caller]
fn calls(lines: &str) -> Vec<String> {
    let (with, without) = (written(lines, false), written(lines, true));
    assert_eq!(plain(&with.journal), plain(&without.journal), "{lines}");
    assert_eq!(with.report.verdict(), without.report.verdict(), "{lines}");
    assert_eq!(without.report.threads(), 0);
    let mut words = words(&with.journal);
    assert_eq!(words[..3], ["admit 0 15", "register 0 15", "exec 0 0"]);
    words.split_off(3)
}

#[track_caller]
fn is_unseen(lines: &str, row: &str) {
    calls(lines);
    let report = written(lines, false).report;
    assert!(report.text(0).contains(row), "{row}: {}", report.text(0));
    assert_ne!(report.verdict(), Verdict::Clear);
}

#[test]
fn a_thread_holds_nothing_and_its_process_all() {
    let lines = [
        &clone(1, THREAD, 5),
        "5 openat(AT_FDCWD, \"low\", O_RDONLY) = 3",
        "1 read(3, \"\", 1) = 1",
        &clone(5, THREAD, 6),
        "6 fork() = 7",
        "7 close(3) = 0",
        "5 exit(0) = ?",
        "5 +++ exited with 0 +++",
        "6 close(3) = 0",
        "1 exit_group(0) = ?",
        "6 +++ exited with 0 +++",
        "1 +++ exited with 0 +++",
        "7 +++ exited with 0 +++",
    ]
    .join("\n");
    let expected = [
        "thread 0 1",
        "register 1 2",
        "open-read 0 1 0",
        "read 0 0",
        "thread 1 2",
        "fork 0 3",
        "close 3 0",
        "exit 1",
        "close 0 0",
        "exit 2",
        "exit 0",
        "exit 3",
    ];
    assert_eq!(calls(&lines), expected);
    let names = written(&lines, false).names;
    for line in ["step 1 4 sh thread\n", "step 2 8 sh thread-2\n", "step 3 9 sh-2\n"] {
        assert!(names.contains(line), "{names}");
    }
    let report = written(&lines, false).report.text(0);
    assert!(report.contains(", thread 2\n") && !report.contains("threads: one step"), "{report}");
    let report = written(&lines, true).report.text(0);
    assert!(report.contains("2  threads: one step with their process; first at line 2\n"), "{report}");
}

#[test]
fn with_one_step_a_thread_is_taken_for_its_process() {
    let one = |lines: &str| words(&written(lines, true).journal).split_off(3);
    let clone = clone(1, THREAD, 5);
    let lines = format!(
        "{clone}\n5 openat(AT_FDCWD, \"low\", O_RDONLY) = 3\n1 read(3, \"\", 1) = 1\n5 exit(0) = ?\n\
         5 +++ exited with 0 +++\n1 exit_group(0) = ?\n1 +++ exited with 0 +++"
    );
    assert_eq!(one(&lines), ["register 1 2", "open-read 0 1 0", "read 0 0", "exit 0"]);
    let lines = format!(
        "{clone}\n5 execve(\"/bin/sh\", [], 0x1 <pid changed to 1 ...>\n\
         1 +++ superseded by execve in pid 5 +++\n1 <... execve resumed>) = 0\n1 pipe([3, 4]) = 0"
    );
    assert_eq!(one(&lines), ["exec 0 0", "pipe 0 1 0 1"]);
}

#[test]
fn a_process_is_there_until_its_last_thread() {
    let lines = [
        &clone(1, THREAD, 5),
        "1 exit(0) = ?",
        "5 pipe([3, 4]) = 0",
        "5 exit_group(0) = ?",
        "5 +++ exited with 0 +++",
        "1 +++ exited with 0 +++",
    ]
    .join("\n");
    assert_eq!(calls(&lines), ["thread 0 1", "pipe 0 1 0 1", "exit 1", "exit 0"]);
}

#[test]
fn a_program_that_a_thread_runs_ends_the_others() {
    let two = [clone(1, THREAD, 5), clone(1, THREAD, 6)].join("\n");
    // As strace writes it where other lines come between, and where none does. The process's own thread may have exited.
    let between = "5 execve(\"/bin/sh\", [], 0x1 <unfinished ...>\n6 +++ exited with 0 +++";
    let taken = "1 +++ superseded by execve in pid 5 +++\n1 <... execve resumed>) = 0\n1 pipe([3, 4]) = 0";
    let waits = "1 nanosleep({tv_sec=1}, <unfinished ...>";
    for before in ["1 exit(0) = ?", waits, "1 brk(NULL) = 0x1"] {
        let lines = format!("{two}\n{before}\n{between}\n{taken}");
        assert_eq!(calls(&lines), ["thread 0 1", "thread 0 2", "exit 2", "exec 0 0", "pipe 0 1 0 1"]);
        let lines = format!(
            "{}\n{before}\n5 execve(\"/bin/sh\", [], 0x1 <pid changed to 1 ...>\n{taken}",
            clone(1, THREAD, 5)
        );
        assert_eq!(calls(&lines), ["thread 0 1", "exec 0 0", "pipe 0 1 0 1"]);
    }
    // What the gatekeeper does not run, the run did: the threads have ended there.
    let lines = format!(
        "1 openat(AT_FDCWD, \"high\", O_WRONLY) = 3\n{two}\n5 execve(\"low.sh\", [], 0x1 <unfinished ...>\n\
         6 +++ exited with 0 +++\n1 +++ superseded by execve in pid 5 +++\n1 <... execve resumed>) = 0"
    );
    assert_eq!(calls(&lines)[4..], ["exit 2", "register 2 2", "exec 0 2", "exit 1"]);
    let hidden = lines.replace("low.sh", "skip.sh");
    assert_eq!(calls(&hidden)[4..], ["exit 2", "exit 1"]);
}

#[test]
fn a_process_that_shares_memory_and_descriptors_is_a_thread_until_it_runs_a_program() {
    let shares = clone(1, "CLONE_VM|CLONE_FILES|SIGCHLD", 6);
    let lines = format!(
        "1 pipe([3, 4]) = 0\n{shares}\n{}\n6 execve(\"/bin/sh\", [], 0x1) = 0\n6 close(3) = 0\n1 close(4) = 0",
        clone(6, THREAD, 7)
    );
    assert_eq!(
        calls(&lines),
        [
            "pipe 0 1 0 1",
            "thread 0 1",
            "thread 1 2",
            "exit 2",
            "exit 1",
            "fork 0 1",
            "exec 1 0",
            "close 1 0",
            "close 0 1"
        ]
    );
    // The last one that has the descriptors needs no step of its own.
    let lines = format!("{shares}\n1 +++ exited with 0 +++\n6 execve(\"/bin/sh\", [], 0x1) = 0");
    assert_eq!(calls(&lines), ["thread 0 1", "exec 0 0"]);
    // Descriptors alone: its memory counts as its maker's.
    let lines = format!("{}\n6 pipe([3, 4]) = 0", clone(1, "CLONE_FILES|SIGCHLD", 6));
    assert_eq!(calls(&lines), ["pipe 0 1 0 1"]);
    let report = written(&lines, false).report.text(0);
    assert!(report.contains("1  threads: one step with their process"), "{report}");
}

#[test]
fn a_thread_with_descriptors_of_its_own_is_a_step_that_shares_memory() {
    let own = clone(1, "CLONE_VM|CLONE_THREAD", 6);
    let lines = format!(
        "1 openat(AT_FDCWD, \"mid\", O_RDONLY) = 3\n{own}\n6 close(3) = 0\n\
         6 openat(AT_FDCWD, \"low\", O_RDONLY) = 3\n6 read(3, \"\", 1) = 1\n1 read(3, \"\", 1) = 1\n\
         1 execve(\"/bin/sh\", [], 0x1) = 0"
    );
    assert_eq!(
        calls(&lines)[2..],
        [
            "fork 0 1",
            "close 1 0",
            "register 2 2",
            "open-read 1 2 0",
            "read 1 0",
            "open-read 0 2 1",
            "read 0 1",
            "close 0 1",
            "read 0 0",
            "exit 1",
            "exec 0 0"
        ]
    );
    // Unlike one with which it shares them, it has what it had when another part changes its own.
    is_unseen(
        &format!("{}\n6 close_range(3, 9, CLOSE_RANGE_UNSHARE) = 0", clone(1, THREAD, 6)),
        "1  threads that take a copy of their process's descriptors: one table in the journal; first at line 3\n",
    );
}

#[test]
fn a_thread_may_speak_before_it_is_seen_to_be_made() {
    let begun = format!("1 clone3({{flags={THREAD}}} <unfinished ...>");
    let lines =
        format!("{begun}\n5 pipe([3, 4]) = 0\n1 <... clone3 resumed>, 88) = 5\n5 +++ exited with 0 +++");
    assert_eq!(calls(&lines), ["thread 0 1", "pipe 0 1 0 1", "exit 1"]);
    // It was not made.
    let lines = format!("{begun}\n1 <... clone3 resumed>, 88) = -1 EAGAIN (Resource)\n1 pipe([3, 4]) = 0");
    assert_eq!(calls(&lines), ["thread 0 1", "exit 1", "pipe 0 1 0 1"]);
    // Its maker is killed with the whole process, or by another thread that runs a program.
    let other = clone(1, THREAD, 7);
    let lines = format!("{other}\n{begun}\n1 +++ killed by SIGKILL +++\n5 +++ killed by SIGKILL +++\n7 +++ killed by SIGKILL +++");
    assert_eq!(calls(&lines), ["thread 0 1", "thread 0 2", "exit 2", "exit 1", "exit 0"]);
    let lines = format!(
        "{other}\n{begun}\n7 execve(\"/bin/sh\", [], 0x1 <unfinished ...>\n\
         1 +++ superseded by execve in pid 7 +++\n1 <... execve resumed>) = 0\n1 pipe([3, 4]) = 0"
    );
    assert_eq!(calls(&lines), ["thread 0 1", "thread 0 2", "exit 2", "exec 0 0", "pipe 0 1 0 1"]);
}

/// What another thread does between the two lines of a call.
#[test]
fn what_threads_leave_open_is_taken_for_more_or_not_seen() {
    let two = clone(1, THREAD, 5);
    let fork = "1 clone(child_stack=NULL, flags=SIGCHLD <unfinished ...>";
    let made = "1 <... clone resumed>) = 9";
    // The new process may have in memory what another thread reads while it is made.
    let lines = format!(
        "1 openat(AT_FDCWD, \"low\", O_RDONLY) = 3\n{two}\n{fork}\n5 read(3, \"\", 1) = 1\n{made}\n\
         9 openat(AT_FDCWD, \"mid\", O_WRONLY) = 4"
    );
    assert_eq!(
        calls(&lines)[3..],
        ["fork 0 2", "read 0 0", "read 2 0", "register 2 9", "open-write 2 2 1"]
    );
    assert_eq!(refused(&written(&lines, false).journal), [("open-write 2 2 1".to_string(), 9)]);
    // And what is opened meanwhile, with its mark.
    let lines = format!(
        "{two}\n{fork}\n5 openat(AT_FDCWD, \"low\", O_RDONLY|O_CLOEXEC) = 3\n{made}\n9 read(3, \"\", 1) = 1\n\
         9 execve(\"/bin/sh\", [], 0x1) = 0\n9 pipe([3, 4]) = 0"
    );
    assert_eq!(
        calls(&lines)[1..],
        [
            "fork 0 2",
            "register 1 2",
            "open-read 0 1 0",
            "mark 0 0",
            "open-read 2 1 0",
            "mark 2 0",
            "read 2 0",
            "exec 2 0",
            "pipe 2 2 0 1"
        ]
    );
    // What is mapped meanwhile shows in its memory, too.
    let lines = format!(
        "1 openat(AT_FDCWD, \"low\", O_RDWR) = 3\n{two}\n{fork}\n\
         5 mmap(NULL, 4096, PROT_READ, MAP_SHARED, 3, 0) = 0x1000\n{made}"
    );
    let maps = calls(&lines);
    assert!(
        ["map 0 1 2", "map 2 1 2", "open-write 2 1 3", "mark 2 3"]
            .iter()
            .all(|call| maps.contains(&call.to_string())),
        "{maps:?}"
    );
    // Under one number it may have either of two.
    let row =
        "1  calls of a thread while another one changed the descriptor: which file it was is not known";
    let open = |path: &str| format!("openat(AT_FDCWD, \"{path}\", O_RDONLY) = 3");
    let lines = format!(
        "1 {}\n{two}\n{fork}\n5 close(3) = 0\n5 {}\n{made}\n9 read(3, \"\", 1) = 1",
        open("mid"),
        open("low")
    );
    is_unseen(&lines, row);
    let lines = format!(
        "{two}\n{fork}\n5 {}\n5 close(3) = 0\n5 {}\n{made}\n9 read(3, \"\", 1) = 1",
        open("low"),
        open("mid")
    );
    is_unseen(&lines, row);
    // A read that has begun is of the old file, or of the new one.
    for change in ["5 close(3) = 0", "5 dup2(4, 3) = 3"] {
        let lines = format!(
            "1 pipe([3, 4]) = 0\n1 openat(AT_FDCWD, \"low\", O_RDONLY) = 5\n{two}\n1 read(3,  <unfinished ...>\n\
             {change}\n1 <... read resumed>\"\", 1) = 1"
        );
        is_unseen(&lines, row);
    }
}

#[test]
fn where_there_are_no_numbers_threads_are_taken_for_their_process() {
    let threads: Vec<String> = (0..40).map(|n| clone(1, THREAD, 10 + n)).collect();
    let reads = "45 openat(AT_FDCWD, \"low\", O_RDONLY) = 3\n49 read(3, \"\", 1) = 1";
    let lines = format!("{}\n{reads}", threads.join("\n"));
    let all = calls(&lines);
    assert_eq!(all[30..], ["thread 0 31", "register 1 2", "open-read 0 1 0", "read 0 0"]);
    let report = written(&lines, false).report.text(0);
    assert!(report.contains("9  threads: one step with their process; first at line 33\n"), "{report}");
    // A process that needs a number gets that of the youngest thread.
    let lines =
        format!("{lines}\n12 fork() = 60\n60 fork() = 61\n40 exit(0) = ?\n39 exit(0) = ?\n38 exit(0) = ?");
    let all = calls(&lines);
    assert_eq!(all[34..], ["exit 31", "fork 0 31", "exit 30", "fork 31 30", "exit 29"]);
    // The 33rd process does not fit, with threads or without.
    let forks: Vec<String> = (0..32).map(|n| format!("1 fork() = {}", 100 + n)).collect();
    let lines = format!("{START}\n{}\n{}", threads.join("\n"), forks.join("\n"));
    let (line, message) = stop(&lines, LEVELS);
    assert!(line == 73 && message.contains("would be the 33rd step at once"), "{line}: {message}");
}

#[test]
fn a_journal_that_threads_fill_says_so() {
    let long: Vec<String> =
        (0..10_000).map(|n| format!("{}\n{} exit(0) = ?", clone(1, THREAD, 10 + n), 10 + n)).collect();
    let lines = long.join("\n");
    let (line, message) = stop(&format!("{START}\n{lines}"), LEVELS);
    assert!(
        line > 18_000
            && message.contains(&format!(
                "--until {}: it ends before this line. Or give --one-step: the 9,3",
                line - 1
            ))
            && message.ends_with(" threads take no calls then"),
        "{line}: {message}"
    );
    assert_eq!(words(&written(&lines, true).journal).len(), 3);
    // Where there are none, there is no word of it.
    let long: Vec<String> = (0..20_000).map(|_| "1 fork() = 2\n2 exit_group(0) = ?".to_string()).collect();
    let (_, message) = stop(&format!("{START}\n{}", long.join("\n")), LEVELS);
    assert!(message.ends_with("it ends before this line"), "{message}");
}

#[test]
fn a_call_that_carries_nothing_may_end_with_its_thread() {
    // Threads of a process that ends are most often waiting.
    let start = "1 brk(NULL) = 0x1000\n1 openat(AT_FDCWD, \"/lib/libc.so\", O_RDONLY) = 3\n\
                 1 read(3, \"\", 832) = 832\n1 mmap(NULL, 4096, PROT_READ, MAP_PRIVATE, 3, 0) = 0x1000\n1 close(3) = 0";
    let waits = |call: &str| {
        let clone = clone(1, THREAD, 5);
        let (name, _) = call.split_once('(').unwrap();
        format!(
            "{start}\n{clone}\n5 {call} <unfinished ...>\n1 exit_group(0) = ?\n5 <... {name} resumed>) = ?\n\
             5 +++ exited with 0 +++\n1 +++ exited with 0 +++"
        )
    };
    let verdict = |lines: &str| told(&format!("{START}\n{lines}"), LEVELS).report.verdict();
    assert_eq!(verdict(&waits("futex(0x1, FUTEX_WAIT, 2, NULL")), Verdict::Clear);
    assert_eq!(verdict(&waits("frobnicate(1")), Verdict::Unseen);
    // One that reads a file which is left out has been seen to begin.
    let reads = |end: &str| {
        format!(
            "{start}\n1 openat(AT_FDCWD, \"skip\", O_RDONLY) = 3\n{}\n5 read(3,  <unfinished ...>\n{end}5 +++ exited with 0 \
             +++\n1 exit_group(0) = ?\n1 +++ exited with 0 +++",
            clone(1, THREAD, 5)
        )
    };
    for end in ["", "5 <... read resumed> <unfinished ...>) = ?\n"] {
        assert_eq!(verdict(&reads(end)), Verdict::Unseen, "{end}");
    }
}
