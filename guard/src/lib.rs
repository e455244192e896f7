//! Real programs under the proved gatekeeper, on Linux x86-64.
//!
//! The guard starts a command and follows every process that comes of it. An open is asked of the guard by seccomp's
//! notification, which opens the very file that it asked the gatekeeper about; pipes, forks, execs and exits stop by
//! ptrace. Reads and writes run at full speed, but for steps for which one would lower somebody. `docs/GUARD.md` is the
//! page for people, and says what is not seen.
//!
//! | module | has |
//! |---|---|
//! | [`cli`], `start`, `words` | the command line; the first process; what is said |
//! | `screen` | the duty screen beside a run |
//! | `guard` | steps and their threads; who stands still and who goes on |
//! | `events`, `data`, `exec` | what a thread stopped for: the loop; reads and writes; pipes, forks and programs |
//! | `open`, `moves` | calls that the guard makes in a step's place: opens; rename, link and truncate |
//! | `told`, `journal` | the proved monitor, numbers and handles; the journal |
//! | `files`, `paths`, `proc` | labels; paths as a step means them; what a process holds |
//! | `calls`, `filter`, `sys` | every call of the kernel; the filter; all that is unsafe |
#![deny(unsafe_code)]

mod calls;
pub mod cli;
mod data;
mod events;
mod exec;
mod files;
mod filter;
mod guard;
mod journal;
mod moves;
mod open;
mod paths;
mod proc;
mod screen;
mod start;
mod sys;
mod told;
mod words;
