//! Lines of traces that nobody has recorded.
#![allow(dead_code)]

/// A small generator with a fixed seed (splitmix64).
pub struct Random(pub u64);

impl Random {
    pub fn next(&mut self) -> u64 {
        self.0 = self.0.wrapping_add(0x9e37_79b9_7f4a_7c15);
        let mut value = self.0;
        value = (value ^ (value >> 30)).wrapping_mul(0xbf58_476d_1ce4_e5b9);
        value = (value ^ (value >> 27)).wrapping_mul(0x94d0_49bb_1331_11eb);
        value ^ (value >> 31)
    }

    pub fn below(&mut self, bound: usize) -> usize {
        (self.next() % bound.max(1) as u64) as usize
    }

    pub fn pick<'a, T>(&mut self, from: &'a [T]) -> &'a T {
        &from[self.below(from.len())]
    }
}

/// A line that may follow in some trace, with so many descriptors.
pub fn line(random: &mut Random, fds: usize) -> String {
    let process = *random.pick(&[100, 100, 101, 102, 103, 104]);
    let fd = |random: &mut Random| {
        let number = random.below(fds);
        match random.below(6) {
            0 => format!("{number}</f{number}>"),
            1 => format!("{number}<pipe:[7]>"),
            _ => number.to_string(),
        }
    };
    let path = |random: &mut Random| {
        let paths = [
            "f1",
            "f1",
            "low1",
            "low2",
            "low3",
            "low4",
            "f2",
            "f3",
            "t1",
            "t2",
            "d/f1",
            "d/out",
            "/f1",
            "../f1",
            "/dev/null",
            "/dev/fd/4",
            "d",
            ".",
        ];
        format!("\"{}\"", random.pick(&paths))
    };
    let flags = [
        "O_RDONLY",
        "O_RDONLY",
        "O_RDONLY|O_CLOEXEC",
        "O_WRONLY",
        "O_RDWR",
        "O_WRONLY|O_CREAT|O_TRUNC",
        "O_RDWR|O_CREAT|O_EXCL|O_CLOEXEC",
        "O_RDONLY|O_DIRECTORY",
    ];
    let clones = [
        "SIGCHLD",
        "CLONE_VM|CLONE_VFORK",
        "CLONE_VM|CLONE_FILES|CLONE_THREAD",
        "CLONE_VM|CLONE_FILES|CLONE_THREAD",
        "CLONE_VM|CLONE_FILES",
        "CLONE_VM|CLONE_THREAD",
        "CLONE_FILES",
        "CLONE_VM",
    ];
    let child = 101 + random.below(5);
    let (one, other, number) = (fd(random), fd(random), random.below(fds));
    let call = match random.below(29) {
        0 | 1 => format!("openat(AT_FDCWD, {}, {}) = {number}", path(random), random.pick(&flags)),
        2 => format!("pipe2([{number}, {}], O_CLOEXEC) = 0", number + 1),
        3 => format!("pipe([{number}, {}]) = 0", number + 1),
        4 => format!("socketpair(AF_UNIX, SOCK_STREAM, 0, [{number}, {}]) = 0", number + 1),
        5 => format!("dup2({one}, {number}) = {number}"),
        6 => format!("fcntl({one}, F_DUPFD_CLOEXEC, 3) = {number}"),
        7 => format!("fcntl({one}, F_SETFD, {}) = 0", random.pick(&["FD_CLOEXEC", "0"])),
        8 | 9 => format!("read({one}, \"\", 1) = 1"),
        10 | 11 => format!("write({one}, \"\", 1) = 1"),
        12 => format!("splice({one}, NULL, {other}, NULL, 1, 0) = 1"),
        13 => format!("close({one}) = 0"),
        14 | 15 => format!("clone(child_stack=NULL, flags={}) = {child}", random.pick(&clones)),
        16 => format!("vfork() = {child}"),
        17 => format!("execve({}, [], 0x1) = 0", path(random)),
        18 => "exit_group(0) = ?".to_string(),
        19 => format!(
            "mmap(NULL, 4096, PROT_READ, {}, {one}, 0) = 0x{number}000",
            random.pick(&["MAP_SHARED", "MAP_PRIVATE"])
        ),
        20 => format!("munmap(0x{number}000, 4096) = 0"),
        21 => format!("rename({}, {}) = 0", path(random), path(random)),
        22 => format!("unlink({}) = 0", path(random)),
        23 => format!("link({}, {}) = 0", path(random), path(random)),
        24 => {
            let flags = ["0", "CLOSE_RANGE_CLOEXEC", "CLOSE_RANGE_UNSHARE"];
            format!("close_range({number}, 8, {}) = 0", random.pick(&flags))
        }
        25 => {
            return format!(
                "{process} execve(\"f3\", [], 0x1 <pid changed to {child} ...>\n{child} <... execve resumed>) = 0"
            )
        }
        26 => {
            return format!(
                "{child} execve(\"f3\", [], 0x1 <unfinished ...>\n{process} +++ superseded by execve in pid {child} +++\n\
                 {process} <... execve resumed>) = 0"
            )
        }
        27 => "exit(0) = ?".to_string(),
        _ => format!("getcwd(\"/run\", 9) = 5\n{process} chdir({}) = 0", path(random)),
    };
    match random.below(9) {
        0 => format!("{process} +++ exited with 0 +++"),
        1 => {
            let cut = call.find([',', ')']).unwrap_or(call.len());
            let between = if random.below(3) == 0 { String::new() } else { line(random, fds) + "\n" };
            let (name, _) = call.split_once('(').unwrap_or((&call, ""));
            if call.contains('\n') {
                return format!("{process} {call}");
            }
            format!(
                "{process} {} <unfinished ...>\n{between}{process} <... {name} resumed>{}",
                &call[..cut],
                &call[cut..]
            )
        }
        2 => format!("{process} {}", call.replace(" = ", " = -1 EIO (no) x")),
        _ => format!("{process} {call}"),
    }
}
