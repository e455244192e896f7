//! What single calls of a trace come to.

mod common;

use common::{refused, stop, told, words};

const LEVELS: &str = "low* 2\nmid* 9\nhigh* 12\nown* step\nskip* out\nelse 15\n";
const START: &str = "1 execve(\"/bin/sh\", [\"sh\"], 0x1 /* 1 var */) = 0";

/// The calls behind the first three, which admit the first step and run its program.
fn calls(lines: &str) -> Vec<String> {
    let lines = format!("{START}\n{lines}");
    let mut words = words(&told(&lines, LEVELS).journal);
    assert_eq!(words[..3], ["admit 0 15", "register 0 15", "exec 0 0"]);
    words.split_off(3)
}

fn report(lines: &str) -> String {
    told(&format!("{START}\n{lines}"), LEVELS).report.text(0)
}

fn refusals(lines: &str) -> Vec<String> {
    let lines = format!("{START}\n{lines}");
    refused(&told(&lines, LEVELS).journal).into_iter().map(|(call, _)| call).collect()
}

#[test]
fn opens_become_registers_creates_and_handles() {
    let open = |path: &str, flags: &str| calls(&format!("1 openat(AT_FDCWD, \"{path}\", {flags}) = 3"));
    assert_eq!(open("low", "O_RDONLY"), ["register 1 2", "open-read 0 1 0"]);
    assert_eq!(open("mid", "O_WRONLY|O_CREAT|O_TRUNC, 0666"), ["register 1 9", "open-write 0 1 0"]);
    assert_eq!(open("own", "O_WRONLY|O_CREAT|O_EXCL, 0600"), ["create 0 1", "open-write 0 1 0"]);
    // What the run has not made itself has no level that anybody vouches for.
    assert_eq!(open("own", "O_RDONLY"), ["register 1 0", "open-read 0 1 0"]);
    assert_eq!(
        open("low", "O_RDWR|O_CLOEXEC"),
        ["register 1 2", "open-read 0 1 0", "open-write 0 1 1", "mark 0 0", "mark 0 1"]
    );
    for (path, flags) in [
        ("any", "O_RDONLY"),
        ("skip", "O_RDWR"),
        ("/dev/null", "O_RDWR"),
        ("/proc/self/maps", "O_RDONLY"),
        (".", "O_RDONLY|O_DIRECTORY"),
    ] {
        assert_eq!(open(path, flags), [""; 0], "{path}");
    }
    assert_eq!(calls("1 creat(\"mid\", 0666) = 3"), ["register 1 9", "open-write 0 1 0"]);
    assert_eq!(calls("1 open(\"low\", O_RDONLY) = 3"), ["register 1 2", "open-read 0 1 0"]);
    assert_eq!(
        calls("1 openat2(AT_FDCWD, \"low\", {flags=O_RDONLY, resolve=0}, 24) = 3"),
        ["register 1 2", "open-read 0 1 0"]
    );
    assert_eq!(
        calls("1 memfd_create(\"x\", MFD_CLOEXEC) = 3\n1 close(3) = 0"),
        [
            "create 0 1",
            "open-read 0 1 0",
            "open-write 0 1 1",
            "mark 0 0",
            "mark 0 1",
            "close 0 0",
            "close 0 1",
            "retire 1"
        ]
    );
}

#[test]
fn a_descriptor_may_have_any_number() {
    let lines =
        "1 openat(AT_FDCWD, \"low\", O_RDONLY) = 900\n1 dup2(900, 255) = 255\n1 read(255, \"\", 1) = 0";
    assert_eq!(calls(lines), ["register 1 2", "open-read 0 1 0", "open-read 0 1 1", "read 0 1"]);
}

#[test]
fn duplicates_are_opens_of_the_same() {
    let lines = "1 pipe([3, 4]) = 0\n1 dup2(4, 1) = 1\n1 close(4) = 0\n1 fcntl(1, F_DUPFD, 10) = 10\n1 dup(3) = 4\n\
                 1 dup3(3, 5, O_CLOEXEC) = 5\n1 dup2(10, 4) = 4\n1 dup2(4, 4) = 4";
    assert_eq!(
        calls(lines),
        [
            "pipe 0 1 0 1",
            "open-write 0 1 2",
            "close 0 1",
            "open-write 0 1 1",
            "open-read 0 1 3",
            "open-read 0 1 4",
            "mark 0 4",
            "close 0 3",
            "open-write 0 1 3"
        ]
    );
}

#[test]
fn marks_come_and_go() {
    let lines = "1 pipe2([3, 4], O_CLOEXEC) = 0\n1 fcntl(3, F_SETFD, 0) = 0\n\
                 1 execve(\"/bin/sh\", [], 0x1) = 0\n1 close(3) = 0";
    assert_eq!(
        calls(lines),
        [
            "pipe 0 1 0 1",
            "mark 0 0",
            "mark 0 1",
            // No call takes a mark off: the handle goes to another place.
            "open-read 0 1 2",
            "close 0 0",
            "exec 0 0",
            "close 0 2"
        ]
    );
    let lines = "1 pipe([3, 4]) = 0\n1 ioctl(3, FIOCLEX) = 0\n1 close_range(4, 4294967295, CLOSE_RANGE_CLOEXEC) = 0";
    assert_eq!(calls(lines), ["pipe 0 1 0 1", "mark 0 0", "mark 0 1"]);
}

#[test]
fn a_refused_exec_closes_what_the_run_closed() {
    let lines =
        "1 openat(AT_FDCWD, \"high\", O_WRONLY) = 3\n1 openat(AT_FDCWD, \"mid\", O_WRONLY|O_CLOEXEC) = 4\n\
                 1 execve(\"low.sh\", [], 0x1) = 0\n1 close(4) = -1 EBADF (Bad file descriptor)\n\
                 1 write(3, \"\", 1) = 1";
    let all = calls(lines);
    assert_eq!(all[5..], ["register 3 2", "exec 0 3", "close 0 1", "write 0 0"], "{all:?}");
    assert_eq!(refusals(lines), ["exec 0 3"]);
}

#[test]
fn programs_may_be_run_by_a_descriptor() {
    let open = "1 openat(AT_FDCWD, \"low.sh\", O_RDONLY) = 5";
    for exec in ["execve(\"/proc/self/fd/5\", [], 0x1)", "execveat(5, \"\", [], 0x1, AT_EMPTY_PATH)"] {
        assert_eq!(
            calls(&format!("{open}\n1 {exec} = 0")),
            ["register 1 2", "open-read 0 1 0", "exec 0 1"]
        );
    }
    let noted = "1 execveat(5</run/low.sh>, \"\", [], 0x1, AT_EMPTY_PATH) = 0";
    assert_eq!(calls(&format!("1 getcwd(\"/run\", 9) = 5\n{noted}")), ["register 1 2", "exec 0 1"]);
    let made = "1 memfd_create(\"x\", 0) = 5\n1 execveat(5, \"\", [], 0x1, AT_EMPTY_PATH) = 0";
    assert_eq!(calls(made), ["create 0 1", "open-read 0 1 0", "open-write 0 1 1", "exec 0 1"]);
    let (line, message) =
        stop(&format!("{START}\n1 execveat(5, \"\", [], 0x1, AT_EMPTY_PATH) = 0"), LEVELS);
    assert!(line == 2 && message.contains("the file of the program is not in the trace"), "{message}");
}

#[test]
fn nothing_is_done_with_what_is_refused() {
    let lines = "1 openat(AT_FDCWD, \"high\", O_WRONLY) = 3\n1 openat(AT_FDCWD, \"low\", O_RDWR) = 4\n\
                 1 dup2(4, 0) = 0\n\
                 1 read(0, \"\", 1) = 1\n1 close(4) = 0";
    assert_eq!(calls(lines)[2..], ["register 2 2", "open-read 0 2 1"]);
    assert!(
        report(lines).contains("3  calls on what was refused before; first at line 4\n"),
        "{}",
        report(lines)
    );
    // An open for both is all or nothing.
    let lines = "1 openat(AT_FDCWD, \"low\", O_RDONLY) = 3\n1 openat(AT_FDCWD, \"high\", O_RDWR) = 4";
    assert_eq!(calls(lines)[2..], ["register 2 12", "open-read 0 2 1", "open-write 0 2 2", "close 0 1"]);
}

#[test]
fn children_may_speak_before_the_fork_is_seen() {
    let lines = "1 pipe([3, 4]) = 0\n1 clone(child_stack=NULL, flags=SIGCHLD <unfinished ...>\n2 close(3) = 0\n\
                 1 <... clone resumed>, child_tidptr=0x1) = 2\n2 write(4, \"\", 1) = 1\n2 +++ killed by SIGPIPE +++";
    assert_eq!(calls(lines), ["pipe 0 1 0 1", "fork 0 1", "close 1 0", "write 1 1", "exit 1"]);
    // Two forks at once: what is read ahead tells whose child it is.
    let lines = "1 fork() = 2\n1 pipe([3, 4]) = 0\n1 fork( <unfinished ...>\n2 vfork( <unfinished ...>\n\
                 3 openat(AT_FDCWD, \"low\", O_RDONLY) = 3\n4 read(3, \"\", 1) = 0\n2 <... vfork resumed>) = 3\n\
                 1 <... fork resumed>) = 4";
    assert_eq!(
        calls(lines),
        ["fork 0 1", "pipe 0 1 0 1", "fork 0 2", "fork 1 3", "register 2 2", "open-read 3 2 0", "read 2 0"]
    );
    let cut = lines.lines().take(6).collect::<Vec<_>>().join("\n");
    let (line, message) = stop(&format!("{START}\n{cut}"), LEVELS);
    assert!(line == 6 && message.contains("process 3 is new here"), "{line}: {message}");
}

#[test]
fn a_fork_that_fails_has_made_nobody() {
    let lines = "1 clone(child_stack=NULL, flags=SIGCHLD) = -1 EAGAIN (Resource)\n\
                 1 clone(child_stack=NULL, flags=SIGCHLD <unfinished ...>\n\
                 1 <... clone resumed>) = -1 EAGAIN (Resource)";
    assert_eq!(calls(lines), ["fork 0 1", "exit 1"]);
    assert!(report(lines).contains("2  calls that failed; first at line 2\n"));
}

#[test]
fn what_two_lines_leave_open_is_taken_early() {
    // Step 1 has read something low, and begins to write it. Step 0 reads it before the second line of that write, lets
    // go of the pipe and opens a higher file: refused, as what it has is low.
    let lines = "1 pipe([3, 4]) = 0\n1 fork() = 2\n1 close(4) = 0\n2 close(3) = 0\n\
                 2 openat(AT_FDCWD, \"low\", O_RDONLY) = 3\n\
                 2 read(3, \"\", 1) = 1\n2 write(4, \"\", 1 <unfinished ...>\n1 read(3, \"\", 1) = 1\n\
                 1 close(3) = 0\n\
                 1 openat(AT_FDCWD, \"mid\", O_WRONLY) = 3\n2 <... write resumed>) = 1";
    assert_eq!(refusals(lines), ["open-write 0 3 0"]);
    // The same with a read that has begun, by a thread, and a write of the other thread.
    let lines = "1 clone3({flags=CLONE_VM|CLONE_FILES|CLONE_THREAD}, 88) = 5\n\
                 1 openat(AT_FDCWD, \"low\", O_RDONLY) = 3\n\
                 1 pipe([6, 7]) = 0\n1 fork() = 2\n2 close(3) = 0\n2 close(7) = 0\n5 read(3,  <unfinished ...>\n\
                 1 write(7, \"\", 1) = 1\n2 read(6, \"\", 1) = 1\n2 close(6) = 0\n\
                 2 openat(AT_FDCWD, \"mid\", O_WRONLY) = 3\n\
                 5 <... read resumed>\"\", 1) = 1";
    assert_eq!(refusals(lines), ["open-write 2 3 0"]);
}

#[test]
fn who_shares_memory_has_read_it_too() {
    let lines =
        "1 vfork( <unfinished ...>\n2 openat(AT_FDCWD, \"low\", O_RDONLY) = 3\n2 read(3, \"\", 1) = 1\n\
                 2 execve(\"/bin/sh\", [], 0x1) = 0\n1 <... vfork resumed>) = 2\n2 read(3, \"\", 1) = 1";
    assert_eq!(
        calls(lines),
        [
            "fork 0 1",
            "register 1 2",
            "open-read 1 1 0",
            "read 1 0",
            "open-read 0 1 0",
            "read 0 0",
            "close 0 0",
            "exec 1 0"
        ]
    );
    // After its exec it has a memory of its own.
    let lines =
        "1 vfork( <unfinished ...>\n2 execve(\"/bin/sh\", [], 0x1) = 0\n1 <... vfork resumed>) = 2\n\
                 2 openat(AT_FDCWD, \"low\", O_RDONLY) = 3\n2 read(3, \"\", 1) = 1";
    assert_eq!(calls(lines), ["fork 0 1", "exec 1 0", "register 1 2", "open-read 1 1 0", "read 1 0"]);
}

#[test]
fn threads_are_threads_of_one_step() {
    let clone = "1 clone(child_stack=0x1, flags=CLONE_VM|CLONE_FS|CLONE_FILES|CLONE_THREAD) = 5";
    let lines = format!(
        "{clone}\n5 openat(AT_FDCWD, \"low\", O_RDONLY) = 3\n1 read(3, \"\", 1) = 1\n5 exit(0) = ?\n\
                         5 +++ exited with 0 +++\n1 exit_group(0) = ?\n1 +++ exited with 0 +++"
    );
    assert_eq!(
        calls(&lines),
        ["thread 0 1", "register 1 2", "open-read 0 1 0", "read 0 0", "exit 1", "exit 0"]
    );
    // A thread that runs a program goes on as its process.
    let lines = format!(
        "{clone}\n5 execve(\"/bin/sh\", [], 0x1 <pid changed to 1 ...>\n\
                 1 +++ superseded by execve in pid 5 +++\n\
                         1 <... execve resumed>) = 0\n1 pipe([3, 4]) = 0"
    );
    assert_eq!(calls(&lines), ["thread 0 1", "exec 0 0", "pipe 0 1 0 1"]);
    // A process that shares the descriptors has its own after an exec.
    let lines = "1 pipe([3, 4]) = 0\n1 clone(child_stack=0x1, flags=CLONE_FILES|SIGCHLD) = 6\n\
                 6 execve(\"/bin/sh\", [], 0x1) = 0\n\
                 6 close(3) = 0\n1 +++ exited with 0 +++";
    assert_eq!(calls(lines), ["pipe 0 1 0 1", "fork 0 1", "exec 1 0", "close 1 0", "exit 0"]);
}

#[test]
fn data_moves_by_many_calls() {
    let lines = "1 openat(AT_FDCWD, \"low\", O_RDONLY) = 3\n1 openat(AT_FDCWD, \"low2\", O_WRONLY) = 4\n\
                 1 copy_file_range(3, NULL, 4, NULL, 1, 0) = 1\n1 sendfile(4, 3, NULL, 1) = 1\n\
                 1 pread64(3, \"\", 1, 0) = 0";
    assert_eq!(calls(lines)[2..], ["register 2 2", "open-write 0 2 1", "read 0 0", "write 0 1"]);
    assert!(report(lines).contains("3  reads and writes that come again"), "{}", report(lines));
    let lines = "1 pipe([3, 4]) = 0\n1 socketpair(AF_UNIX, SOCK_STREAM|SOCK_CLOEXEC, 0, [5, 6]) = 0\n\
                 1 splice(3, NULL, 6, NULL, 1, 0) = 1\n\
                 1 recvfrom(5, \"\", 1, 0, NULL, NULL) = 1\n1 vmsplice(4, [], 1, 0) = 1\n\
                 1 tee(3, 4, 1, 0) = 1\n1 writev(5, [], 1) = 1";
    assert_eq!(
        calls(lines),
        [
            "pipe 0 1 0 1",
            "pipe 0 2 2 3",
            "pipe 0 3 4 5",
            "mark 0 4",
            "mark 0 3",
            "mark 0 2",
            "mark 0 5",
            "read 0 0",
            "write 0 5",
            "read 0 4",
            "write 0 1",
            "write 0 3"
        ]
    );
    let clone = "1 openat(AT_FDCWD, \"low\", O_RDONLY) = 3\n1 openat(AT_FDCWD, \"low2\", O_WRONLY) = 4\n\
                 1 ioctl(4, BTRFS_IOC_CLONE or FICLONE, 3) = 0";
    assert_eq!(calls(clone)[4..], ["read 0 0", "write 0 1"]);
}

#[test]
fn mappings_are_maps() {
    let lines = "1 openat(AT_FDCWD, \"low\", O_RDWR) = 3\n1 mmap(NULL, 4096, PROT_READ, MAP_PRIVATE, 3, 0) = 0x1000\n\
                 1 mmap(NULL, 4096, PROT_READ, MAP_SHARED, 3, 0) = 0x3000\n1 close(3) = 0\n\
                 1 munmap(0x1000, 4096) = 0\n\
                 1 mremap(0x3000, 4096, 8192, MREMAP_MAYMOVE) = 0x9000\n1 munmap(0x9000, 4096) = 0\n\
                 1 munmap(0x9000, 8192) = 0";
    assert_eq!(
        calls(lines)[3..],
        [
            "map 0 1 2",
            "open-write 0 1 3",
            "write 0 3",
            "mark 0 3",
            "close 0 0",
            "close 0 1",
            "close 0 2",
            "close 0 3"
        ]
    );
    let lines = "1 mmap(NULL, 4096, PROT_READ|PROT_WRITE, MAP_SHARED|MAP_ANONYMOUS, -1, 0) = 0x1000\n\
                 1 shmget(1, 2, 3) = 4";
    assert_eq!(calls(lines), [""; 0]);
    assert!(report(lines).contains("2  shared memory without a file; first at line 2\n"));
}
