//! The gatekeeper's rules as a plain Rust program: the yardstick that the benchmark holds the proved library to.
//!
//! It is what one would write by hand, for speed and to be read: tables in arrays, nothing on the heap during a call,
//! no figure that a later call goes by. At each call it works every need out from nothing, in passes over all handles
//! until none changes; with [`When::Asked`], only at calls that go by a need. It takes every list of calls, but no
//! tables that no calls could have made.
//!
//! | module | has |
//! |---|---|
//! | [`labels`] | labels: a level and a set of shop marks |
//! | [`tables`] | subjects, their groups, objects with their numbers, and handles, the marks, the mappings and the freeze |
//! | [`needs`] | the need of every subject and object |
//! | [`calls`] | the eighteen calls by code, and what a call is answered with |
//! | [`refusals`] | what refuses a call's numbers |
//! | [`monitor`] | the calls: each refuses, then takes effect |
//! | [`journal`] | numbers and records |
//! | [`mod@replies`] | the reply to a whole journal |
//! | [`lines`] | typed lines: their calls, and how many of them were allowed, lowered and refused |
//!
//! To add a call: its variant, its code and its numbers in [`calls`]; a method in [`monitor`] that first refuses, in
//! the order that [`refusals`] tells, and then takes effect; a refusal of its own in [`refusals`].

#![forbid(unsafe_code)]

pub mod calls;
pub mod journal;
pub mod labels;
pub mod lines;
pub mod monitor;
pub mod needs;
pub mod refusals;
pub mod replies;
pub mod tables;

pub use calls::Answer;
pub use labels::Label;
pub use monitor::{Monitor, When};
pub use replies::replies;
