//! The proved pay-run gatekeeper, for a host in Rust.
//!
//! Every call here is made by the archive `libhost.a`, whose functions are proved to meet the rules; this
//! crate adds types, and no rule of its own. A host keeps a [`Monitor`] and asks it before each step that it
//! takes for a program:
//!
//! ```
//! use gatekeeper::{Answer, Monitor, Refusal};
//!
//! let mut monitor = Monitor::new();
//! monitor.admit(0, 9, 0b11).granted()?; // a step of level 9, vouched for by shop groups 0 and 1
//! monitor.register(0, 9, 0b01).granted()?; // the pay book of group 0, which takes nothing from below level 9
//! monitor.register(1, 2, 0b11).granted()?; // an hours sheet that nobody has checked
//! monitor.register(2, 9, 0b10).granted()?; // one that was checked, for group 1 alone
//!
//! assert_eq!(monitor.open_write(0, 0, 0), Answer::Allowed(9));
//! assert_eq!(monitor.open_read(0, 1, 1), Answer::Refused(Refusal::Flow)); // its level is too low
//! assert_eq!(monitor.open_read(0, 2, 1), Answer::Refused(Refusal::Flow)); // it lacks the mark of group 0
//!
//! monitor.close(0, 0).granted()?; // with the pay book closed, both sheets may be read
//! assert_eq!(monitor.open_read(0, 1, 1), Answer::Allowed(2));
//! assert_eq!(monitor.read(0, 1), Answer::Lowered { level: 2, lost: 0 });
//! assert_eq!(monitor.open_read(0, 2, 2), Answer::Allowed(9));
//! assert_eq!(monitor.read(0, 2), Answer::Lowered { level: 2, lost: 1 }); // a shop mark alone
//! # Ok::<(), Refusal>(())
//! ```
//!
//! A step, a file and a pipe has a [`Label`]: a level, and a set of shop marks. [`Monitor::subject`],
//! [`Monitor::object`] and [`Monitor::handle`] show what the tables hold, and [`Monitor::need_of_subject`] how far a step
//! may fall.
//!
//! [`State`] is a monitor that is kept as a struct in place of bytes, and answers the same, faster.
//!
//! [`Monitor::line`] makes the calls of a pipeline that a clerk has typed.
//!
//! [`Monitor::why`] tells the chain behind a [`Refusal::Flow`].
//!
//! [`replay`] answers a whole journal, [`Call::write_record`] writes one, [`read_number`] reads its numbers.

mod answer;
mod archive;
mod call;
mod chain;
mod journal;
mod label;
mod lent;
mod line;
mod look;
mod monitor;

pub use answer::{Answer, Refusal};
pub use call::{Call, NO_FREEZE};
pub use chain::{Chain, Front, Step, STEPS};
pub use journal::{read_number, replay, replay_into, write_record};
pub use journal::{JOURNAL_BYTES, RECORD_ROOM, REPLY_ROOM};
pub use label::{Label, ALL_SHOPS, SHOPS};
pub use lent::State;
pub use line::Counts;
pub use look::{Handle, Kind, Object, Way, OBJECTS, PLACES, SUBJECTS};
pub use monitor::{Monitor, STATE_BYTES};

/// The version of this crate and of the archive that belongs to it, as `GATEKEEPER_VERSION` in C.
pub const VERSION: &str = env!("CARGO_PKG_VERSION");

/// The three parts of the version of the archive that is linked, which is [`VERSION`] where they belong together.
pub fn archive_version() -> [u32; 3] {
    let version = archive::version();
    [version >> 16, version >> 8 & 255, version & 255]
}
