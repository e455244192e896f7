//! The pay-run gatekeeper's command for people: journals in words, and their replies in plain words.
//!
//! Every answer is the proved gatekeeper's: each record's call is made on `gatekeeper::Monitor`, which calls the proved
//! archive, and levels, kinds, handles, the freeze and the chain behind a refusal 9 are asked of it. What is worked out
//! here, and not proved, is the wording and the search for a way out ([`gk_advice`]); each way out has been tried on a
//! copy of the monitor before it is given.
//!
//! | module | has |
//! |---|---|
//! | [`cli`], [`help`] | the commands, in one table, and their help |
//! | [`names`] | names for steps, files, pipes and shop groups, and the file that keeps them |
//! | [`assembly`], [`disassembly`] | journals as text |
//! | [`conversion`] | journals from before shop marks, with sets |
//! | [`explain`] | all of it in sentences, as a summary, or as JSON |
//! | [`audit`] | many journals at once: what was refused, by run, refusal and file |
//! | [`trial`] | calls tried after a journal, each with its answer |
//! | [`line`] | a typed line, each of its calls with its answer |
//! | [`why`] | where the level of a step or pipe comes from, and why it lacks shop marks |

pub mod assembly;
pub mod audit;
pub mod cli;
pub mod conversion;
pub mod disassembly;
pub mod explain;
pub mod help;
pub mod line;
pub mod names;
pub mod text;
pub mod trial;
pub mod why;
