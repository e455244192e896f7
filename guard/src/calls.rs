//! Every call of the kernel, and what becomes of it. One table: the filter is made of it, and the words of a refusal.
//!
//! A call that is not named here is refused. `Free` are those that move no contents of files from one step to another
//! but through handles that are held; what they may carry besides (names, sizes, times, signals) is said on the page.

use std::sync::OnceLock;

/// What becomes of a call.
#[derive(Clone, Copy, Debug, PartialEq, Eq)]
pub enum Rule {
    /// The kernel carries it out, and nobody is asked.
    Free,
    /// The guard is asked by seccomp's notification, and carries it out itself.
    Ask,
    /// It stops by ptrace at its entry, where the guard looks at it; the kernel carries it out.
    Trace,
    /// It fails without a word: programs take another way then.
    Quiet(i32),
    /// It fails, and the guard says why.
    Refused(i32, &'static str),
}

/// A case of a call by one of its arguments: where its low half, masked, has the value. The first that fits counts.
pub struct Case {
    pub call: u32,
    pub argument: u32,
    pub mask: u32,
    pub value: u32,
    pub rule: Rule,
}

pub const EPERM: i32 = 1;
pub const ENOENT: i32 = 2;
pub const EIO: i32 = 5;
pub const ENXIO: i32 = 6;
pub const EAGAIN: i32 = 11;
pub const EACCES: i32 = 13;
pub const EFAULT: i32 = 14;
pub const EBUSY: i32 = 16;
pub const EEXIST: i32 = 17;
pub const EXDEV: i32 = 18;
pub const EISDIR: i32 = 21;
pub const EINVAL: i32 = 22;
pub const ENFILE: i32 = 23;
pub const EMFILE: i32 = 24;
pub const ENOTTY: i32 = 25;
pub const ENOSPC: i32 = 28;
pub const ENOSYS: i32 = 38;
pub const ELOOP: i32 = 40;
pub const EOPNOTSUPP: i32 = 95;

pub const MMAP: u32 = 9;
pub const IOCTL: u32 = 16;
pub const DUP: u32 = 32;
pub const DUP2: u32 = 33;
pub const PIPE: u32 = 22;
pub const OPEN: u32 = 2;
pub const CLONE: u32 = 56;
pub const FORK: u32 = 57;
pub const VFORK: u32 = 58;
pub const EXECVE: u32 = 59;
pub const FCNTL: u32 = 72;
pub const TRUNCATE: u32 = 76;
pub const RENAME: u32 = 82;
pub const CREAT: u32 = 85;
pub const LINK: u32 = 86;
pub const PRCTL: u32 = 157;
pub const OPENAT: u32 = 257;
pub const RENAMEAT: u32 = 264;
pub const LINKAT: u32 = 265;
pub const DUP3: u32 = 292;
pub const PIPE2: u32 = 293;
pub const PRLIMIT64: u32 = 302;
pub const RENAMEAT2: u32 = 316;
pub const SECCOMP: u32 = 317;
pub const EXECVEAT: u32 = 322;
pub const CLOSE_RANGE: u32 = 436;
pub const OPENAT2: u32 = 437;

/// Flags of clone.
pub const CLONE_VM: u64 = 0x100;
pub const CLONE_VFORK: u64 = 0x4000;
const CLONE_FILES: u32 = 0x400;
const CLONE_THREAD: u32 = 0x1_0000;
const CLONE_UNTRACED: u32 = 0x80_0000;
const CLONE_PARENT: u32 = 0x8000;
/// Namespaces of their own: mounts, control groups, names, messages, users, processes, networks.
const CLONE_NEW: [u32; 7] =
    [0x2_0000, 0x200_0000, 0x400_0000, 0x800_0000, 0x1000_0000, 0x2000_0000, 0x4000_0000];

const MEMORY: &str = "memory that steps share would carry contents without a call";
const MESSAGES: &str = "it would carry contents from step to step past the gatekeeper";
const OTHERS: &str = "it reaches into another process";
const LATER: &str = "its reads and writes would be made where no filter sees them";
const ELSEWHERE: &str = "it is another way to a file than an open";
const RIGHTS: &str = "the guard opens files with its own rights, which are then no longer the step's";
const FOLLOWED: &str = "nobody would follow the new process";
const TABLES: &str = "two steps would share one table of descriptors, or two threads would have two";
const SYSTEM: &str = "it changes the system and not the run";
const FIFO: &str = "named pipes and devices that a step makes are not followed";
const UNKNOWN: &str = "the guard does not know this call";

/// Calls that the kernel carries out: on memory and handles that the step has, on names and attributes, on itself. setuid
/// and its kin are among them: the guard runs only where each would leave a step as it is.
const FREE: &[u32] = &[
    0, 1, 3, 4, 5, 6, 7, 8, 9, 10, 11, 12, 13, 14, 15, 17, 18, 19, 20, 21, 23, 24, 25, 26, 27, 28, 32, 33,
    34, 35, 36, 37, 38, 39, 40, 51, 52, 55, 60, 61, 62, 63, 72, 73, 74, 75, 77, 78, 79, 80, 81, 83, 84, 87,
    88, 89, 90, 91, 92, 93, 94, 95, 96, 97, 98, 99, 100, 102, 104, 107, 108, 109, 110, 111, 112, 115, 118,
    120, 121, 124, 125, 127, 128, 130, 131, 132, 135, 136, 137, 138, 140, 141, 142, 143, 144, 145, 146,
    147, 148, 149, 150, 151, 152, 157, 158, 160, 162, 186, 187, 200, 201, 202, 203, 204, 205, 211, 216,
    217, 218, 219, 221, 222, 223, 224, 225, 226, 228, 229, 230, 231, 234, 235, 237, 238, 239, 247, 251,
    252, 258, 260, 261, 262, 263, 266, 267, 268, 269, 270, 271, 273, 275, 276, 277, 280, 282, 285, 289,
    292, 295, 296, 302, 306, 309, 314, 315, 317, 318, 324, 325, 326, 327, 328, 329, 330, 331, 332, 334,
    436, 439, 449, 452, 454, 455, 456, 462, 105, 106, 113, 114, 117, 119, 122, 123,
];

/// Calls that the guard carries out.
const ASK: &[u32] = &[OPEN, TRUNCATE, RENAME, CREAT, LINK, OPENAT, RENAMEAT, LINKAT, RENAMEAT2, OPENAT2];

/// Calls that stop at their entry.
const TRACE: &[u32] = &[PIPE, CLONE, FORK, VFORK, EXECVE, PIPE2, EXECVEAT];

/// Calls that fail without a word, and with what.
const QUIET: &[(i32, &[u32])] = &[
    // clone3 keeps its flags in memory, where no filter sees them: the C library goes on with clone.
    (ENOSYS, &[435]),
    (ENOTTY, &[IOCTL]),
    // Attributes that carry contents; inotify, epoll, pidfd_open, landlock: programs do without.
    (EOPNOTSUPP, &[188, 189, 190, 191, 192, 193, 194, 195, 196, 197, 198, 199, 463, 464, 465, 466]),
    (ENOSYS, &[253, 254, 255, 294, 213, 291, 434, 444, 445, 446, 451]),
];

/// Calls that are refused, and why.
const REFUSED: &[(i32, &str, &[u32])] = &[
    (EPERM, MEMORY, &[29, 30, 31, 67, 319, 447, 278, 323]),
    (
        EPERM,
        MESSAGES,
        &[
            41, 42, 43, 44, 45, 46, 47, 48, 49, 50, 53, 54, 288, 299, 307, 64, 65, 66, 220, 68, 69, 70, 71,
            240, 241, 242, 243, 244, 245, 248, 249, 250, 284, 290, 283, 286, 287, 214, 215, 232, 233, 281,
            441, 129, 297, 424, 300, 301,
        ],
    ),
    (EPERM, OTHERS, &[101, 310, 311, 312, 438, 440, 448, 256, 279, 274, 298]),
    (EPERM, LATER, &[206, 207, 208, 209, 210, 333, 425, 426, 427, 321]),
    (
        EPERM,
        ELSEWHERE,
        &[303, 304, 134, 161, 155, 165, 166, 272, 308, 428, 429, 430, 431, 432, 433, 442, 467],
    ),
    (EPERM, RIGHTS, &[116, 126]),
    (EPERM, FIFO, &[133, 259]),
    (
        EPERM,
        SYSTEM,
        &[
            103, 139, 153, 154, 156, 159, 163, 164, 167, 168, 169, 170, 171, 172, 173, 175, 176, 179, 227,
            246, 305, 313, 320, 443,
        ],
    ),
];

const fn case(call: u32, argument: u32, mask: u32, value: u32, rule: Rule) -> Case {
    Case { call, argument, mask, value, rule }
}

/// The cases of all calls, in the order in which they are tried.
pub fn cases() -> &'static [Case] {
    static CASES: OnceLock<Vec<Case>> = OnceLock::new();
    CASES.get_or_init(all_cases)
}

fn all_cases() -> Vec<Case> {
    let refused = |why| Rule::Refused(EPERM, why);
    let mut cases = vec![
        case(CLONE, 0, CLONE_UNTRACED, CLONE_UNTRACED, refused(FOLLOWED)),
        case(CLONE, 0, CLONE_PARENT, CLONE_PARENT, refused(FOLLOWED)),
        case(CLONE, 0, CLONE_THREAD | CLONE_FILES, CLONE_THREAD, refused(TABLES)),
        case(CLONE, 0, CLONE_THREAD | CLONE_FILES, CLONE_FILES, refused(TABLES)),
        // Of no file, and shared.
        case(MMAP, 3, 0x21, 0x21, refused(MEMORY)),
        // PR_SET_DUMPABLE would shut /proc, PR_SET_MM moves what /proc shows, PR_SET_PTRACER lets others in.
        case(PRCTL, 0, !0, 4, refused(OTHERS)),
        case(PRCTL, 0, !0, 35, refused(OTHERS)),
        case(PRCTL, 0, !0, 0x5961_6d61, refused(OTHERS)),
        // A listener of its own would be asked in place of the guard.
        case(SECCOMP, 1, 8, 8, refused(OTHERS)),
        // With a table of its own for one thread.
        case(CLOSE_RANGE, 2, 2, 2, refused(TABLES)),
        // O_NOTIFICATION_PIPE.
        case(PIPE2, 1, 0x80, 0x80, refused(MESSAGES)),
        // F_SETLEASE: the guard's own open would wait for the step.
        case(FCNTL, 1, !0, 1024, Rule::Quiet(EINVAL)),
        // The limits of another process are numbers that both can see.
        case(PRLIMIT64, 0, !0, 0, Rule::Free),
        case(PRLIMIT64, 0, 0, 0, refused(OTHERS)),
        // Copies made by the file system, which no read tells of: cp copies by reads then.
        case(IOCTL, 1, !0, 0x4004_9409, Rule::Quiet(EOPNOTSUPP)),
        case(IOCTL, 1, !0, 0x4020_940d, Rule::Quiet(EOPNOTSUPP)),
        case(IOCTL, 1, !0, 0xc018_9436, Rule::Quiet(EOPNOTSUPP)),
        // TIOCSTI and TIOCLINUX type on the terminal, TIOCCONS takes what is written there.
        case(IOCTL, 1, !0, 0x5412, refused(MESSAGES)),
        case(IOCTL, 1, !0, 0x541c, refused(MESSAGES)),
        case(IOCTL, 1, !0, 0x541d, refused(MESSAGES)),
        // Else terminals are asked what they are, and handles about themselves.
        case(IOCTL, 1, !0xff, 0x5400, Rule::Free),
    ];
    cases.splice(1..1, CLONE_NEW.map(|flag| case(CLONE, 0, flag, flag, refused(ELSEWHERE))));
    cases.push(case(CLONE, 0, CLONE_THREAD, CLONE_THREAD, Rule::Free));
    cases
}

/// The first number that no kernel has given to a call yet; from there on all are refused alike.
pub const END: u32 = 480;

/// What becomes of the call of a number where none of its cases fits.
pub fn rule(call: u32) -> Rule {
    if FREE.contains(&call) {
        return Rule::Free;
    }
    if ASK.contains(&call) {
        return Rule::Ask;
    }
    if TRACE.contains(&call) {
        return Rule::Trace;
    }
    if let Some((error, _)) = QUIET.iter().find(|(_, calls)| calls.contains(&call)) {
        return Rule::Quiet(*error);
    }
    let refused = REFUSED.iter().find(|(_, _, calls)| calls.contains(&call));
    refused.map_or(Rule::Refused(ENOSYS, UNKNOWN), |(error, why, _)| Rule::Refused(*error, why))
}

/// What becomes of a call with its arguments.
pub fn rule_with(call: u32, arguments: &[u64; 6]) -> Rule {
    let fits = |case: &&Case| {
        case.call == call && arguments[case.argument as usize] as u32 & case.mask == case.value
    };
    cases().iter().find(fits).map_or_else(|| rule(call), |case| case.rule)
}

/// The names of calls that are refused in words; others go by their number.
pub fn name(call: u32) -> String {
    let known: &[(u32, &str)] = &[
        (9, "mmap of shared memory"),
        (16, "ioctl"),
        (29, "shmget"),
        (41, "socket"),
        (53, "socketpair"),
        (56, "clone"),
        (64, "semget"),
        (68, "msgget"),
        (72, "fcntl"),
        (101, "ptrace"),
        (116, "setgroups"),
        (126, "capset"),
        (129, "rt_sigqueueinfo"),
        (133, "mknod"),
        (157, "prctl"),
        (161, "chroot"),
        (165, "mount"),
        (206, "io_setup"),
        (240, "mq_open"),
        (250, "keyctl"),
        (259, "mknodat"),
        (272, "unshare"),
        (278, "vmsplice"),
        (283, "timerfd_create"),
        (284, "eventfd"),
        (290, "eventfd2"),
        (293, "pipe2"),
        (302, "prlimit64"),
        (304, "open_by_handle_at"),
        (308, "setns"),
        (310, "process_vm_readv"),
        (311, "process_vm_writev"),
        (317, "seccomp"),
        (319, "memfd_create"),
        (321, "bpf"),
        (323, "userfaultfd"),
        (425, "io_uring_setup"),
        (436, "close_range"),
        (438, "pidfd_getfd"),
    ];
    let found = known.iter().find(|(number, _)| *number == call);
    found.map_or_else(|| format!("call {call} of the kernel"), |(_, name)| name.to_string())
}

#[cfg(test)]
mod tests {
    use super::*;

    #[test]
    fn no_call_is_named_twice() {
        let mut all: Vec<u32> = [FREE, ASK, TRACE].concat();
        all.extend(QUIET.iter().flat_map(|(_, calls)| calls.iter()));
        all.extend(REFUSED.iter().flat_map(|(_, _, calls)| calls.iter()));
        let count = all.len();
        all.sort_unstable();
        all.dedup();
        assert_eq!(all.len(), count);
        assert!(all.iter().all(|&call| call < END));
    }

    #[test]
    fn what_the_guard_does_not_know_is_refused() {
        for call in [174, 183, 335, 400, 423, 457, END, 100_000] {
            assert_eq!(rule(call), Rule::Refused(ENOSYS, UNKNOWN), "{call}");
        }
    }

    #[test]
    fn cases_go_by_their_argument() {
        let with = |call, argument: usize, value| {
            let mut arguments = [0; 6];
            arguments[argument] = value;
            rule_with(call, &arguments)
        };
        let is_refused = |rule| matches!(rule, Rule::Refused(..));
        assert!(is_refused(with(MMAP, 3, 0x21)) && is_refused(with(MMAP, 3, 0x23)));
        assert_eq!([with(MMAP, 3, 0x22), with(MMAP, 3, 1)], [Rule::Free; 2]);
        assert!(is_refused(with(CLONE, 0, 0x80_0011)) && is_refused(with(CLONE, 0, 0x411)));
        assert!(is_refused(with(CLONE, 0, 0x1_0900)) && is_refused(with(CLONE, 0, 0x1000_0011)));
        assert_eq!(with(CLONE, 0, 0x1_0f00), Rule::Free); // a thread
        assert_eq!([with(CLONE, 0, 17), with(CLONE, 0, 0x4111)], [Rule::Trace; 2]);
        assert_eq!(with(IOCTL, 1, 0x5401), Rule::Free);
        assert_eq!(with(IOCTL, 1, 0xc028_660f), Rule::Quiet(ENOTTY));
        assert!(is_refused(with(PRLIMIT64, 0, 7)));
    }
}
