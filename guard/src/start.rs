//! The first process: what it is started with, and how the guard comes to follow it.

use std::ffi::CString;
use std::fs::{self, File, OpenOptions};
use std::os::fd::{AsFd, OwnedFd};
use std::os::unix::ffi::OsStringExt;
use std::os::unix::fs::{FileTypeExt, MetadataExt, OpenOptionsExt};

use gatekeeper::Label;

use crate::files::{Files, Standing};
use crate::filter;
use crate::guard::{Counts, Guard, Step, Task};
use crate::proc::{self, Key};
use crate::sys::{self, Errno, First, Signals, Stop, Trouble, EVENT_SECCOMP, O_NOCTTY, O_NONBLOCK};
use crate::told::Told;
use crate::words::{fail, say, shown};

const STREAMS: [(&str, &str); 3] =
    [("standard input", "<stdin>"), ("standard output", "<stdout>"), ("standard error", "<stderr>")];

/// A stream as the command gets it, and as the gatekeeper is told of it.
struct Stream {
    file: OwnedFd,
    told: Option<(Key, Label, Vec<u8>)>,
    reads: bool,
    writes: bool,
}

/// Starts the command, and stands before its first instruction.
pub fn start(
    told: Told,
    mut files: Files,
    label: Label,
    command: &[CString],
    is_dry: bool,
) -> (Guard, Signals, First) {
    let streams: Vec<Stream> = (0..3).map(|which| stream(which, &mut files)).collect();
    let signals =
        sys::keep_signals().unwrap_or_else(|error| fail(&format!("cannot keep signals: {error}")));
    let given = [streams[0].file.as_fd(), streams[1].file.as_fd(), streams[2].file.as_fd()];
    let first = sys::start(command, &filter::program(), given, &signals);
    let first = first.unwrap_or_else(|error| fail(&format!("cannot make a process: {error}")));
    if let Err(error) = sys::seize(first.pid) {
        fail(&format!("this system does not let it follow a process (ptrace: {error}): nothing is run"));
    }
    first.release();
    let stop = first_stop(&first, command);
    let listener = sys::descriptor_of(first.pid, sys::LISTENER).unwrap_or_else(|error| {
        fail(&format!(
            "this system does not hand it the filter's questions (pidfd_getfd: {error}): nothing is run"
        ))
    });
    let mut guard = Guard {
        told,
        files,
        tasks: [(first.pid, Task::of(first.pid, false))].into(),
        steps: [(first.pid, Step { number: 0, loud: Default::default(), is_over: false })].into(),
        parked: Default::default(),
        dead: Default::default(),
        backlog: [(first.pid, stop)].into(),
        listener,
        proc_devices: proc::proc_devices(),
        is_dry,
        first: first.pid,
        status: 0,
        said: Default::default(),
        counts: Counts { steps: 1, ..Counts::default() },
    };
    let name = command[0].as_bytes().rsplit(|&byte| byte == b'/').next().unwrap_or_default();
    guard.told.admit(0, label, &shown(name));
    for (stream, (words, _)) in streams.iter().zip(STREAMS) {
        tell(&mut guard, stream, words);
    }
    guard.settle(first.pid);
    (guard, signals, first)
}

/// The first process stops where it runs the command: by then its filter is there.
fn first_stop(first: &First, command: &[CString]) -> Stop {
    loop {
        match sys::wait(Some(first.pid), true) {
            Some((_, stop @ Stop::Event(EVENT_SECCOMP, _))) => return stop,
            Some((tid, Stop::Signal(signal))) => {
                sys::go_on(tid, signal);
            }
            Some((tid, Stop::Event(..) | Stop::Call)) => {
                sys::go_on(tid, 0);
            }
            Some((_, Stop::Exited(_) | Stop::Killed(_))) | None => {
                let name = shown(command[0].as_bytes());
                match first.trouble() {
                    Some((Trouble::Filter, error)) => fail(&format!(
                        "this kernel does not take the filter ({error}): it needs Linux 5.19 or later with seccomp"
                    )),
                    Some((_, error)) => fail(&format!("cannot start {name}: {error}")),
                    None => fail(&format!("cannot start {name}")),
                }
            }
        }
    }
}

/// The status where the command could not be run: 127 where it is not there, else 126.
pub fn unrun(first: &First, command: &[CString]) -> Option<i32> {
    let (Trouble::Exec, error) = first.trouble()? else { return None };
    say(&format!("cannot run {}: {error}", shown(command[0].as_bytes())));
    Some(if error == Errno(crate::calls::ENOENT) { 127 } else { 126 })
}

/// A stream of the guard's own, as the command is to have it.
fn stream(which: usize, files: &mut Files) -> Stream {
    let (words, pattern) = STREAMS[which];
    let link = format!("/proc/self/fd/{which}");
    let Ok(meta) = fs::metadata(&link) else { fail(&format!("{words} is closed, or cannot be looked at")) };
    let path = fs::read_link(&link).unwrap_or_default().into_os_string().into_vec();
    let key = (meta.dev(), meta.ino());
    let is_input = which == 0;
    if meta.is_file() || meta.is_dir() {
        return file_stream(which, files, &path, &meta);
    }
    let is_device = meta.file_type().is_char_device();
    if is_device && files.standing(&path, &meta, false, !is_input) == Standing::Harmless {
        return Stream { file: own(which), told: None, reads: false, writes: false };
    }
    let label = files.standard(which);
    if label.is_none() && is_input {
        say(&format!(
            "{words} has no level (no line {pattern} in the levels file): for the run it is empty"
        ));
        let null = File::open("/dev/null")
            .unwrap_or_else(|error| fail(&format!("cannot read /dev/null: {error}")));
        return Stream { file: null.into(), told: None, reads: false, writes: false };
    }
    let file = one_way(which, &meta, is_input);
    match label {
        Some(label) => {
            let told = Some((key, label, pattern.as_bytes().to_vec()));
            Stream { file, told, reads: is_input, writes: !is_input }
        }
        None => {
            files.outside.push(key);
            Stream { file, told: None, reads: false, writes: false }
        }
    }
}

/// A file has the label of its path.
fn file_stream(which: usize, files: &mut Files, path: &[u8], meta: &fs::Metadata) -> Stream {
    let (words, _) = STREAMS[which];
    let flags = flags_of(which);
    let (reads, writes) = (flags & 3 != 1, flags & 3 != 0);
    let told = match files.standing(path, meta, false, writes) {
        Standing::At(label) => Some(((meta.dev(), meta.ino()), label, path.to_vec())),
        Standing::Out | Standing::Harmless | Standing::Absent => None,
        Standing::No(why) => fail(&format!("{words}, {}: {why}: nothing is run", shown(path))),
    };
    Stream { file: own(which), told: told.filter(|_| meta.is_file()), reads, writes }
}

fn flags_of(which: usize) -> u64 {
    let info = fs::read_to_string(format!("/proc/self/fdinfo/{which}")).unwrap_or_default();
    proc::flags(&info).unwrap_or(2)
}

/// A copy of the guard's own stream.
fn own(which: usize) -> OwnedFd {
    let copy = match which {
        0 => std::io::stdin().as_fd().try_clone_to_owned(),
        1 => std::io::stdout().as_fd().try_clone_to_owned(),
        _ => std::io::stderr().as_fd().try_clone_to_owned(),
    };
    copy.unwrap_or_else(|error| fail(&format!("cannot copy {}: {error}", STREAMS[which].0)))
}

/// The same stream for one direction: a terminal is mostly open for both, and what comes in by its output has no level.
fn one_way(which: usize, meta: &fs::Metadata, is_input: bool) -> OwnedFd {
    let (words, _) = STREAMS[which];
    let wanted = if is_input { 0 } else { 1 };
    if flags_of(which) & 3 == wanted {
        return own(which);
    }
    if meta.file_type().is_socket() {
        fail(&format!(
            "{words} is a socket, which goes both ways: put a pipe before it, as | cat. Nothing is run"
        ));
    }
    let flags = (O_NOCTTY | O_NONBLOCK) as i32;
    let link = format!("/proc/self/fd/{which}");
    let opened = OpenOptions::new().read(is_input).write(!is_input).custom_flags(flags).open(link);
    let file = opened
        .unwrap_or_else(|error| fail(&format!("cannot open {words} for one direction alone: {error}")));
    let file = OwnedFd::from(file);
    if let Err(error) = sys::make_blocking(file.as_fd(), wanted) {
        fail(&format!("cannot set {words} up: {error}"));
    }
    file
}

/// Tells the gatekeeper what the first step is started with.
fn tell(guard: &mut Guard, stream: &Stream, words: &str) {
    let Some((key, label, path)) = &stream.told else { return };
    if *label == gk_trace::TOP && !stream.writes {
        return;
    }
    let Some(object) = guard.told.file(*key, *label, path) else {
        fail(&format!("{words} and another stream are one thing with two levels, or two sets of shop marks: nothing is run"));
    };
    if let Err(call) = guard.told.open(0, object, stream.reads, stream.writes) {
        let how = guard.told.how(call);
        fail(&format!("the run may not start with this {words}: {how}"));
    }
}
