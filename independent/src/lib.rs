//! The pay-run gatekeeper, written a second time from the rules alone.
//!
//! It is compared byte for byte with the proved program, so it shares nothing with it: it is plain Rust,
//! it keeps no figure from one call to the next, and at each call it works every need out from nothing.
//! It is written to be read beside docs/RULES.md: over each rule stands the number of its sentence.
//!
//! In the order of the rules:
//!
//! | module | states |
//! |---|---|
//! | [`labels`] | T: a level and a set of shop marks |
//! | [`tables`] | T: subjects and their groups, objects, handles with their marks and mappings, their limits, and the freeze |
//! | [`needs`] | F: flow and need |
//! | [`calls`] | C: the eighteen codes and what their numbers name |
//! | [`monitor`] | C: effects and answers; the direct call |
//! | [`refusals`] | R: conditions and which is said |
//! | [`chains`] | A: what is behind a refusal 9, and the attack itself |
//! | [`book`] | B: contents, for A |
//! | [`numbers`], [`records`] | J: numbers and records |
//! | [`replies`] | P: the program's reply lines |
//! | [`lines`] | L: typed lines |
//! | [`cases`] | K: worked cases, and DWARF's examples of numbers |
//!
//! Tools around it: [`generate`] (journals and lines by seed), [`variants`] and [`bite`] (wrong programs that these
//! must tell apart), [`compare`] and [`shrink`] (another program beside this one), [`words`] (journals as
//! text, for the cases and for what is shown of a difference).

#[doc = include_str!("../README.md")]
#[cfg(doctest)]
struct Readme;

pub mod bite;
pub mod book;
pub mod calls;
pub mod cases;
pub mod chains;
pub mod cli;
pub mod compare;
pub mod generate;
pub mod help;
pub mod labels;
pub mod lines;
pub mod monitor;
pub mod needs;
pub mod numbers;
pub mod random;
pub mod records;
pub mod refusals;
pub mod replies;
pub mod shrink;
pub mod tables;
pub mod text;
pub mod variants;
pub mod words;
