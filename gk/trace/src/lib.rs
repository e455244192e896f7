//! The trace of a real pay run, written as a journal for the gatekeeper.
//!
//! `strace -f -o TRACE` writes every call that the processes of a run make. [`journal_of`] reads that and writes a
//! journal: each process is a step, its threads are threads of that step, each file and pipe has a number, and a levels
//! file says which level a file has.
//! The calls are made on the proved gatekeeper as they are written, so that the journal goes on as the gatekeeper
//! would have let it: on what it refuses nothing more is done. `docs/TRACE.md` is the page for the clerk.
//!
//! Where a trace leaves open what happened, the reading that shows more flow is chosen.
//!
//! | module | has |
//! |---|---|
//! | `line`, `call`, `text` | lines and calls as strace writes them |
//! | `levels`, `glob` | the levels file and its patterns |
//! | `run`, `dispatch` | a trace from its first line to its last, and each call of it |
//! | `world`, `files`, `fold`, `journal` | steps, files and pipes with their numbers; files that stand as one; the journal |
//! | `open`, `data`, `table`, `maps`, `moves`, `steps`, `threads`, `races`, `paths` | what each call comes to |
//! | `kinds`, `report` | what is left out, and the report |
//! | `propose` | changes of the levels file that clear the refusals |
//! | [`names`] | the names file |
//! | [`cli`], `output` | the command `gk trace` |

mod call;
pub mod cli;
mod data;
mod dispatch;
mod files;
mod fold;
mod glob;
mod journal;
mod kinds;
mod levels;
mod line;
mod maps;
mod moves;
pub mod names;
mod open;
mod output;
mod paths;
mod propose;
mod races;
mod report;
mod run;
mod steps;
mod table;
mod text;
mod threads;
mod world;

pub use cli::main;
pub use files::Seat;
pub use gk_names::number::grouped as counted;
pub use levels::{Fault, Found, Level, Levels, LONGEST_FILE, TOP};
pub use propose::{proposals, proposed, Proposal};
pub use report::{Report, Verdict};
pub use run::{journal_of, Failure, Written};
pub use text::shown;
pub use world::{Options, Stop};
