//! The first process, and the signals of the guard itself.

use std::ffi::{c_char, c_int, CString};
use std::fs::File;
use std::io;
use std::os::fd::{AsRawFd, BorrowedFd, FromRawFd, OwnedFd, RawFd};
use std::os::unix::process::CommandExt;
use std::process::{Child, Command};

use super::{
    _exit, done, dup2, execvp, fcntl, fork, owned, pipe2, prctl, read, setrlimit, signal, signalfd,
    sigprocmask, syscall, write, Errno, Tid, O_CLOEXEC, O_NONBLOCK, SYS_CLOSE_RANGE, SYS_SECCOMP,
};
use crate::filter::Instruction;

/// The C library's set of signals: 1,024 bits.
pub(super) type SignalSet = [u64; 16];

#[repr(C)]
struct Program {
    length: u16,
    instructions: *const Instruction,
}

pub const SIGHUP: i32 = 1;
pub const SIGTERM: i32 = 15;
const SIGINT: i32 = 2;
const SIGQUIT: i32 = 3;
const SIGPIPE: i32 = 13;
const SIGCHLD: i32 = 17;

/// The signals that do not reach the guard but wait to be read, and the mask that it had before, for the command.
pub struct Signals {
    pub file: OwnedFd,
    before: SignalSet,
}

/// From now on the end of children, and what people send, waits to be read.
pub fn keep_signals() -> Result<Signals, Errno> {
    let mut set: SignalSet = [0; 16];
    for number in [SIGHUP, SIGINT, SIGQUIT, SIGTERM, SIGCHLD] {
        set[0] |= 1 << (number - 1);
    }
    let mut before: SignalSet = [0; 16];
    // Sound: both sets have the C library's size.
    unsafe {
        sigprocmask(0, &set, &mut before);
        Ok(Signals { file: owned(signalfd(-1, &set, (O_CLOEXEC | O_NONBLOCK) as c_int).into())?, before })
    }
}

/// The next signal that waits.
pub fn next_signal(signals: BorrowedFd) -> Option<i32> {
    let mut bytes = [0u8; 128];
    // Sound: at most as many bytes as there are.
    let count = unsafe { read(signals.as_raw_fd(), bytes.as_mut_ptr().cast(), bytes.len()) };
    (count == 128).then(|| i32::from_le_bytes([bytes[0], bytes[1], bytes[2], bytes[3]]))
}

// The first process.

/// The number of the listener in the first process: all above this one are closed there.
pub const REPORT: RawFd = 3;
pub const LISTENER: RawFd = 4;

/// What the first process reports where it cannot run the command.
#[derive(Clone, Copy, Debug, PartialEq, Eq)]
pub enum Trouble {
    Filter = 1,
    Exec = 2,
    Setup = 3,
}

pub struct First {
    pub pid: Tid,
    go: OwnedFd,
    report: OwnedFd,
}

/// Makes the first process. It waits until it is let go, then puts the filter on itself and runs the command.
/// `streams` are what it gets as standard input, output and error.
pub fn start(
    command: &[CString],
    filter: &[Instruction],
    streams: [BorrowedFd; 3],
    signals: &Signals,
) -> Result<First, Errno> {
    let (go, go_end) = pair()?;
    let (report, report_end) = pair()?;
    let mut arguments: Vec<*const c_char> = command.iter().map(|word| word.as_ptr()).collect();
    arguments.push(std::ptr::null());
    let length = u16::try_from(filter.len()).map_err(|_| Errno(crate::calls::EINVAL))?;
    let program = Program { length, instructions: filter.as_ptr() };
    let streams = streams.map(|stream| stream.as_raw_fd());
    // Sound: the guard has one thread, so that the child may do what it likes; it makes only plain calls and never returns.
    let pid = unsafe { fork() };
    if pid < 0 {
        return Err(Errno::last());
    }
    if pid == 0 {
        unsafe {
            // The guard's end of the pipe is the guard's alone, so that its death is seen.
            let end = go_end.as_raw_fd();
            syscall(SYS_CLOSE_RANGE, end, end, 0);
            become_first(&arguments, &program, streams, go.as_raw_fd(), report_end.as_raw_fd(), signals)
        }
    }
    drop((go, report_end));
    Ok(First { pid, go: go_end, report })
}

/// A pipe: the end to read from, and the one to write to.
pub fn pipe() -> Result<(File, OwnedFd), Errno> {
    pair().map(|(reads, writes)| (File::from(reads), writes))
}

/// Starts a program that gets this signal where the guard ends before it, in whatever way.
pub fn spawn_below(mut command: Command, signal: c_int) -> io::Result<Child> {
    const DEATH_SIGNAL: c_int = 1;
    // Sound: the child makes one plain call before it runs the program.
    unsafe {
        command.pre_exec(move || match prctl(DEATH_SIGNAL, signal) {
            0 => Ok(()),
            _ => Err(io::Error::last_os_error()),
        });
    }
    command.spawn()
}

fn pair() -> Result<(OwnedFd, OwnedFd), Errno> {
    let mut ends = [0; 2];
    // Sound: two numbers are written, each of a descriptor that is the guard's alone.
    unsafe {
        done(pipe2(ends.as_mut_ptr(), O_CLOEXEC as c_int).into())?;
        Ok((OwnedFd::from_raw_fd(ends[0]), OwnedFd::from_raw_fd(ends[1])))
    }
}

/// In the first process. The caller sees to it that the pointers lead to what lives until the exec.
unsafe fn become_first(
    arguments: &[*const c_char],
    program: *const Program,
    streams: [RawFd; 3],
    go: RawFd,
    report: RawFd,
    signals: &Signals,
) -> ! {
    let mut byte = 0u8;
    if read(go, (&mut byte as *mut u8).cast(), 1) != 1 {
        _exit(125); // the guard has gone
    }
    // Above everything that is still needed, so that no dup2 hits one.
    let (above, numbers) = (10, [streams[0], streams[1], streams[2], report]);
    let mut moved = [0; 4];
    for (to, from) in moved.iter_mut().zip(numbers) {
        *to = fcntl(from, 0, above);
    }
    for (to, from) in (0..).zip(moved) {
        if from < 0 || dup2(from, to) < 0 {
            _exit(125);
        }
    }
    let say = |trouble: Trouble, error: i32| {
        let words = [trouble as i32, error];
        write(REPORT, words.as_ptr().cast(), 8);
        _exit(125)
    };
    let last = || Errno::last().0;
    fcntl(REPORT, 2, 1); // closed by the exec
    syscall(SYS_CLOSE_RANGE, LISTENER, c_int::MAX, 0);
    let no_core = [0u64; 2];
    let is_set_up = setrlimit(4, &no_core) == 0 && prctl(38, 1u64, 0u64, 0u64, 0u64) == 0;
    if !is_set_up {
        say(Trouble::Setup, last());
    }
    signal(SIGPIPE, 0); // Rust ignores it, and the command would, too
    sigprocmask(2, &signals.before, std::ptr::null_mut());
    // A listener; once the guard has a call, only a kill takes it back.
    const FLAGS: u64 = 8 | 32;
    if syscall(SYS_SECCOMP, 1u64, FLAGS, program) != LISTENER.into() {
        say(Trouble::Filter, last());
    }
    execvp(arguments[0], arguments.as_ptr());
    say(Trouble::Exec, last());
    _exit(125)
}

impl First {
    /// Lets it go.
    pub fn release(&self) {
        let byte = [0u8; 1];
        // Sound: one byte, which is there.
        unsafe { write(self.go.as_raw_fd(), byte.as_ptr().cast(), 1) };
    }

    /// What it reports: nothing where it runs the command.
    pub fn trouble(&self) -> Option<(Trouble, Errno)> {
        let mut words = [0i32; 2];
        // Sound: at most as many bytes as there are.
        let count = unsafe { read(self.report.as_raw_fd(), words.as_mut_ptr().cast(), 8) };
        let trouble = match words[0] {
            1 => Trouble::Filter,
            2 => Trouble::Exec,
            _ => Trouble::Setup,
        };
        (count == 8).then_some((trouble, Errno(words[1])))
    }
}

#[cfg(test)]
mod tests {
    use super::*;

    #[test]
    fn an_instruction_is_the_kernels() {
        assert_eq!(size_of::<Instruction>(), 8);
    }
}
