//! Threads of steps, by ptrace: why one stopped, and how it goes on.

use std::ffi::{c_int, c_long};

use super::{kill, ptrace, waitpid, Errno, Tid};

/// A call as ptrace shows it at a stop: at its entry `number` is the call's, at its exit what it comes back with.
#[repr(C)]
#[derive(Clone, Copy, Debug, Default)]
pub struct CallInfo {
    pub op: u8,
    pad: [u8; 3],
    architecture: u32,
    instruction: u64,
    stack: u64,
    pub number: u64,
    pub arguments: [u64; 6],
    more: u64,
}

impl CallInfo {
    pub fn is_entry(&self) -> bool {
        self.op == 1
    }

    pub fn is_exit(&self) -> bool {
        self.op == 2
    }
}

/// Why a thread has stopped, or that it has ended.
#[derive(Clone, Copy, Debug, PartialEq, Eq)]
pub enum Stop {
    Exited(i32),
    Killed(i32),
    /// At the entry or the exit of a call.
    Call,
    /// By one of the events below.
    Event(i32, i32),
    /// A signal is about to reach it.
    Signal(i32),
}

pub const EVENT_FORK: i32 = 1;
pub const EVENT_VFORK: i32 = 2;
pub const EVENT_CLONE: i32 = 3;
pub const EVENT_EXEC: i32 = 4;
pub const EVENT_EXIT: i32 = 6;
pub const EVENT_SECCOMP: i32 = 7;
pub const EVENT_STOP: i32 = 128;
pub const SIGKILL: i32 = 9;
pub const SIGTRAP: i32 = 5;

impl Stop {
    fn of(status: c_int) -> Stop {
        let (low, high) = (status & 0x7f, status >> 8 & 0xff);
        match status & 0xff {
            0x7f if status >> 16 != 0 => Stop::Event(status >> 16, high),
            0x7f if high == SIGTRAP | 0x80 => Stop::Call,
            0x7f => Stop::Signal(high),
            _ if low == 0 => Stop::Exited(high),
            _ => Stop::Killed(low),
        }
    }
}

/// The next stop of a thread, or of any where none is named; none where there is nobody, or nothing yet.
pub fn wait(tid: Option<Tid>, is_patient: bool) -> Option<(Tid, Stop)> {
    const ALL: c_int = 0x4000_0000;
    let mut status = 0;
    loop {
        // Sound: the status is written to a number of the guard's.
        let found = unsafe { waitpid(tid.unwrap_or(-1), &mut status, ALL | c_int::from(!is_patient)) };
        if found > 0 {
            return Some((found, Stop::of(status)));
        }
        if found == 0 || Errno::last() != Errno(4) {
            return None;
        }
    }
}

/// A request that takes numbers alone. A thread that has been killed meanwhile is not there: its end comes by itself.
fn trace(request: c_long, tid: Tid, address: u64, data: u64) -> bool {
    // Sound: with these requests the kernel takes both as numbers, and writes nothing to the guard's memory.
    unsafe { ptrace(request, tid, address, data) >= 0 }
}

/// Follows a process and all that it makes; they die with the guard.
pub fn seize(tid: Tid) -> Result<(), Errno> {
    // Calls told apart, fork, vfork, clone, exec, end of vfork, exit, seccomp; killed when the guard ends.
    const OPTIONS: u64 = 1 | 2 | 4 | 8 | 0x10 | 0x20 | 0x40 | 0x80 | 0x10_0000;
    if trace(0x4206, tid, 0, OPTIONS) {
        Ok(())
    } else {
        Err(Errno::last())
    }
}

/// Lets a thread go on to the filter's next stop.
pub fn go_on(tid: Tid, signal: i32) -> bool {
    trace(7, tid, 0, signal as u64)
}

/// Lets a thread go on to the entry or exit of its next call.
pub fn go_to_call(tid: Tid, signal: i32) -> bool {
    trace(24, tid, 0, signal as u64)
}

/// Asks a thread to stop.
pub fn interrupt(tid: Tid) -> bool {
    trace(0x4207, tid, 0, 0)
}

/// Lets a thread that a signal has stopped stay so, until another wakes it.
pub fn stay_stopped(tid: Tid) -> bool {
    trace(0x4208, tid, 0, 0)
}

/// Puts a number into a register of a thread at the entry of a call.
fn set_register(tid: Tid, offset: u64, value: u64) -> bool {
    trace(6, tid, offset, value)
}

/// At a call's entry: it is not made, and fails with this.
pub fn fail_call(tid: Tid, error: i32) {
    const CALL: u64 = 120;
    const RESULT: u64 = 80;
    set_register(tid, CALL, u64::MAX);
    set_register(tid, RESULT, (-i64::from(error)) as u64);
}

/// At a call's entry: another is made in its place.
pub fn set_call(tid: Tid, call: u32) -> bool {
    set_register(tid, 120, call.into())
}

/// At a call's entry: another first argument.
pub fn set_first_argument(tid: Tid, value: u64) -> bool {
    set_register(tid, 112, value)
}

/// The process or thread that one has made, at the event of it; none where it was killed since.
pub fn made_by(tid: Tid) -> Option<Tid> {
    let mut message = 0u64;
    // Sound: the kernel writes one number of this size.
    let result = unsafe { ptrace(0x4201, tid, 0u64, &mut message as *mut u64) };
    Tid::try_from(message).ok().filter(|&made| result == 0 && made > 0)
}

pub fn call_info(tid: Tid) -> CallInfo {
    let mut info = CallInfo::default();
    // Sound: the kernel writes at most as many bytes as it is told that there are.
    unsafe { ptrace(0x420e, tid, size_of::<CallInfo>() as u64, &mut info as *mut CallInfo) };
    info
}

pub fn send_signal(pid: Tid, number: i32) {
    // Sound: numbers alone.
    unsafe { kill(pid, number) };
}

#[cfg(test)]
mod tests {
    use super::*;

    #[test]
    fn the_structure_is_the_kernels() {
        assert_eq!(size_of::<CallInfo>(), 88);
    }

    #[test]
    fn a_status_is_told_apart() {
        assert_eq!(Stop::of(0x0300), Stop::Exited(3));
        assert_eq!(Stop::of(9), Stop::Killed(9));
        assert_eq!(Stop::of(0x0b | 0x80), Stop::Killed(11));
        assert_eq!(Stop::of(0x857f), Stop::Call);
        assert_eq!(Stop::of(0x117f), Stop::Signal(17));
        assert_eq!(Stop::of(0x7_057f), Stop::Event(EVENT_SECCOMP, SIGTRAP));
        assert_eq!(Stop::of(0x80_137f), Stop::Event(EVENT_STOP, 19));
    }
}
