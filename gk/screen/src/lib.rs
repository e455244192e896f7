//! The duty screen: a pay run to look at, in the terminal and as a page for a browser.
//!
//! What it shows comes from the proved archive through the crate `gatekeeper`: records and answers, levels, kinds,
//! handles, needs and the freeze. It works none of that out. What is said of a refusal, the ways out and the chain
//! behind a 9 are those of `gk_advice`, word for word as `gk explain` has them; the screen has no advice of its own.
//!
//! ```text
//! cli ── watch ── layout ──┐    watch: a window with keys, on tty, keys and reel
//!  ├──── follow ── terminal ┼── told ── words, gk_advice, gk_chain
//!  ├──── serve ──┐          │    └── phrase ── names
//!  └──── page ───┴──────────┘
//!         └── order                   state ── the archive
//! ```

#[cfg(test)]
mod advised;
mod cli;
mod follow;
mod keys;
mod layout;
mod names;
mod order;
mod page;
mod part;
mod phrase;
mod reel;
mod serve;
mod state;
mod tables;
mod terminal;
mod text;
mod told;
#[cfg(test)]
mod trials;
mod tty;
mod watch;
mod words;

pub use told::sentences;

/// Runs the duty screen with the arguments behind its name, and says its exit status.
pub fn main(args: &[String]) -> i32 {
    cli::run(args)
}
