//! What is said of a record, and the ways out of a refusal: one engine for `gk explain`, the duty screen, its page and
//! `gk trace`.
//!
//! Every answer is the proved gatekeeper's: each record's call is made on `gatekeeper::Monitor`, which calls the proved
//! archive, which gives the chain behind a refusal 9, too. What is worked out here, and not proved, is the wording and the
//! search for a way out ([`ways`]). Each way
//! out has been tried on a copy of the monitor before it is given, whoever shows it: no tool has advice of its own.
//!
//! | module | has |
//! |---|---|
//! | [`calls`], [`records`] | the words of the calls; a journal cut into records |
//! | [`run`] | a journal answered record by record, whole or still growing |
//! | [`things`], [`scene`] | what a monitor holds; a moment of a run, and what things are called at it |
//! | [`asked`], [`refused`] | who asks what; why it is refused |
//! | [`how`] | the chain behind a refusal 9: how data could get to the file |
//! | [`threads`] | the threads of a step: which they are, and which of them holds what |
//! | [`trail`] | where each thing has its label from, record by record |
//! | [`ways`] | ways out of a refusal, which were tried |

pub mod asked;
pub mod calls;
pub mod how;
pub mod records;
pub mod refused;
pub mod run;
pub mod scene;
pub mod things;
pub mod threads;
pub mod trail;
pub mod ways;
