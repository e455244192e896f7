//! Calls without a counterpart in the journal, by kind.

use crate::report::Left;

/// Calls that carry no data between steps and files, or only to the caller itself.
const NO_DATA: &[&str] = &[
    "_llseek",
    "alarm",
    "arch_prctl",
    "brk",
    "capget",
    "capset",
    "clock_getres",
    "clock_gettime",
    "clock_nanosleep",
    "clock_settime",
    "epoll_pwait",
    "epoll_pwait2",
    "epoll_wait",
    "fadvise64",
    "fdatasync",
    "flock",
    "fsync",
    "futex",
    "get_mempolicy",
    "get_robust_list",
    "getcpu",
    "getegid",
    "geteuid",
    "getgid",
    "getgroups",
    "getitimer",
    "getpgid",
    "getpgrp",
    "getpid",
    "getppid",
    "getpriority",
    "getrandom",
    "getresgid",
    "getresuid",
    "getrlimit",
    "getrusage",
    "getsid",
    "gettid",
    "gettimeofday",
    "getuid",
    "ioprio_get",
    "ioprio_set",
    "lseek",
    "madvise",
    "mbind",
    "membarrier",
    "mincore",
    "mlock",
    "mlock2",
    "mlockall",
    "mprotect",
    "msync",
    "munlock",
    "munlockall",
    "nanosleep",
    "pause",
    "personality",
    "poll",
    "ppoll",
    "prctl",
    "prlimit64",
    "pselect6",
    "readahead",
    "restart_syscall",
    "rseq",
    "rt_sigaction",
    "rt_sigpending",
    "rt_sigprocmask",
    "rt_sigreturn",
    "rt_sigsuspend",
    "rt_sigtimedwait",
    "sched_get_priority_max",
    "sched_get_priority_min",
    "sched_getaffinity",
    "sched_getattr",
    "sched_getparam",
    "sched_getscheduler",
    "sched_setaffinity",
    "sched_setattr",
    "sched_setparam",
    "sched_setscheduler",
    "sched_yield",
    "select",
    "set_mempolicy",
    "set_robust_list",
    "set_thread_area",
    "set_tid_address",
    "setfsgid",
    "setfsuid",
    "setgid",
    "setgroups",
    "setitimer",
    "setpgid",
    "setpriority",
    "setregid",
    "setresgid",
    "setresuid",
    "setreuid",
    "setrlimit",
    "setsid",
    "setuid",
    "sigaltstack",
    "sync",
    "sync_file_range",
    "syncfs",
    "sysinfo",
    "time",
    "timer_create",
    "timer_delete",
    "timer_getoverrun",
    "timer_gettime",
    "timer_settime",
    "timerfd_gettime",
    "timerfd_settime",
    "times",
    "umask",
    "uname",
    "epoll_ctl",
    "inotify_add_watch",
    "inotify_rm_watch",
    "seccomp",
    "process_madvise",
    "futex_waitv",
    "landlock_create_ruleset",
    "landlock_add_rule",
    "landlock_restrict_self",
];

const ATTRIBUTES: &[&str] = &[
    "access",
    "chmod",
    "chown",
    "faccessat",
    "faccessat2",
    "fchmod",
    "fchmodat",
    "fchmodat2",
    "fchown",
    "fchownat",
    "fgetxattr",
    "flistxattr",
    "fremovexattr",
    "fsetxattr",
    "fstat",
    "fstat64",
    "fstatat64",
    "fstatfs",
    "fstatfs64",
    "futimesat",
    "getdents",
    "getdents64",
    "getxattr",
    "lchown",
    "lgetxattr",
    "listxattr",
    "llistxattr",
    "lremovexattr",
    "lsetxattr",
    "lstat",
    "lstat64",
    "mkdir",
    "mkdirat",
    "mknod",
    "mknodat",
    "newfstatat",
    "readlink",
    "readlinkat",
    "removexattr",
    "rmdir",
    "setxattr",
    "stat",
    "stat64",
    "statfs",
    "statfs64",
    "statx",
    "utime",
    "utimensat",
    "utimes",
    "name_to_handle_at",
    "ustat",
];

const SIGNALS: &[&str] = &[
    "kill",
    "pidfd_send_signal",
    "rt_sigqueueinfo",
    "rt_tgsigqueueinfo",
    "tgkill",
    "tkill",
    "wait4",
    "waitid",
    "waitpid",
];

const SOCKETS: &[&str] = &[
    "accept",
    "accept4",
    "bind",
    "connect",
    "getpeername",
    "getsockname",
    "getsockopt",
    "listen",
    "setsockopt",
    "shutdown",
    "socket",
];

const QUEUES: &[&str] = &[
    "mq_getsetattr",
    "mq_notify",
    "mq_open",
    "mq_timedreceive",
    "mq_timedsend",
    "mq_unlink",
    "msgctl",
    "msgget",
    "msgrcv",
    "msgsnd",
    "semctl",
    "semget",
    "semop",
    "semtimedop",
];

const EVENTS: &[&str] = &[
    "epoll_create",
    "epoll_create1",
    "eventfd",
    "eventfd2",
    "fanotify_init",
    "inotify_init",
    "inotify_init1",
    "pidfd_open",
    "signalfd",
    "signalfd4",
    "timerfd_create",
    "userfaultfd",
];

/// The kind of a call, if it is known.
pub fn kind_of(name: &str) -> Option<Left> {
    let kinds: [(&[&str], Left); 9] = [
        (NO_DATA, Left::NoData),
        (ATTRIBUTES, Left::Attributes),
        (SIGNALS, Left::Signals),
        (SOCKETS, Left::SocketCalls),
        (QUEUES, Left::Queues),
        (EVENTS, Left::EventCalls),
        (&["shmat", "shmctl", "shmdt", "shmget"], Left::SharedMemory),
        (&["ptrace", "process_vm_readv", "process_vm_writev", "kcmp", "pidfd_getfd"], Left::OtherMemory),
        (
            &["chroot", "mount", "pivot_root", "setns", "umount", "umount2", "unshare", "move_mount"],
            Left::Roots,
        ),
    ];
    let rings = name.starts_with("io_");
    let found = kinds.into_iter().find(|(names, _)| names.contains(&name)).map(|(_, kind)| kind);
    found.or(rings.then_some(Left::Rings))
}

/// The kind of the descriptor that such a call gives back, if it gives one.
pub fn gives_descriptor(name: &str) -> Option<Left> {
    match name {
        "socket" | "accept" | "accept4" => Some(Left::Sockets),
        "mq_open" => Some(Left::Queues),
        "pidfd_getfd" => Some(Left::Unknown),
        "io_uring_setup" => Some(Left::Rings),
        name if EVENTS.contains(&name) => Some(Left::Events),
        _ => None,
    }
}

/// Kinds of calls that every run of a program makes, by what a reader knows them as: where there is none of a kind, the
/// trace was made with a filter, and what else it hides is not known.
const EVERY_RUN: [(&str, &[&str]); 5] = [
    ("execve", &["execve", "execveat"]),
    ("open", &["open", "openat", "openat2", "creat"]),
    ("read", &["read"]),
    ("close", &["close", "close_range"]),
    ("mmap", &["mmap", "mmap2"]),
];

/// Calls that make pipes, and those that write to them.
const PIPES: &[&str] = &["pipe", "pipe2", "socketpair"];
const WRITES: &[&str] = &[
    "write",
    "writev",
    "sendto",
    "sendmsg",
    "send",
    "splice",
    "tee",
    "sendfile",
    "sendfile64",
    "vmsplice",
];

/// Which kinds of calls a trace has.
#[derive(Default)]
pub struct Seen {
    kinds: [bool; EVERY_RUN.len()],
    has_no_data: bool,
    has_pipes: bool,
    has_writes: bool,
}

impl Seen {
    /// Takes a call in by its name.
    pub fn take(&mut self, name: &str) {
        for (is_seen, (_, names)) in self.kinds.iter_mut().zip(EVERY_RUN) {
            *is_seen |= names.contains(&name);
        }
        self.has_no_data |= NO_DATA.contains(&name);
        self.has_pipes |= PIPES.contains(&name);
        self.has_writes |= WRITES.contains(&name);
    }

    /// The kinds that are missing.
    pub fn missing(&self) -> Vec<&'static str> {
        let every = self.kinds.iter().zip(EVERY_RUN).filter(|(is_seen, _)| !**is_seen);
        let mut missing: Vec<&'static str> = every.map(|(_, (kind, _))| kind).collect();
        if self.has_pipes && !self.has_writes {
            missing.push("write");
        }
        if !self.has_no_data {
            missing.push("brk and others without data");
        }
        missing
    }
}

#[cfg(test)]
mod tests {
    use super::*;

    #[test]
    fn a_call_has_one_kind() {
        let lists = [NO_DATA, ATTRIBUTES, SIGNALS, SOCKETS, QUEUES, EVENTS];
        let mut names: Vec<&str> = lists.concat();
        let count = names.len();
        names.sort();
        names.dedup();
        assert_eq!(names.len(), count);
        assert_eq!(kind_of("brk"), Some(Left::NoData));
        assert_eq!(kind_of("io_uring_enter"), Some(Left::Rings));
        assert_eq!(kind_of("frob"), None);
    }
}
