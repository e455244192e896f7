//! The journal as it grows: each call is made on a proved monitor first, so that the answer is known.

use gatekeeper::{Answer, Call, Handle, Kind, Label, Refusal, State as Monitor, JOURNAL_BYTES};

use crate::levels::TOP;
use crate::names::Names;
use crate::report::Report;
use crate::world::{PLACES, STEPS};

#[derive(Default)]
pub struct Journal {
    monitor: Monitor,
    bytes: Vec<u8>,
    records: u64,
    pub names: Names,
}

/// Why a call cannot be written.
pub enum Trouble {
    /// The journal would be longer than 65,536 bytes.
    Full,
    /// The gatekeeper refuses it for another reason than the flow, which no trace leads to.
    Odd(Call, Refusal),
}

impl Journal {
    /// An empty journal, with the names that shop groups have.
    pub fn naming(shops: &gk_names::Names) -> Journal {
        let mut journal = Journal::default();
        shops.entries().for_each(|entry| journal.names.give_shop(entry.number, &entry.name));
        journal
    }

    /// Writes a call. Whether it is granted: it is not where the gatekeeper refuses it for the flow (9).
    pub fn make(&mut self, call: Call, report: &mut Report) -> Result<bool, Trouble> {
        let end = self.bytes.len();
        call.write_record(&mut self.bytes);
        if self.bytes.len() > JOURNAL_BYTES {
            self.bytes.truncate(end);
            return Err(Trouble::Full);
        }
        let answer = self.monitor.call(call);
        if let Answer::Refused(refusal) = answer {
            if refusal != Refusal::Flow {
                self.bytes.truncate(end);
                return Err(Trouble::Odd(call, refusal));
            }
        }
        self.records += 1;
        report.wrote(call, answer);
        Ok(answer.granted().is_ok())
    }

    pub fn bytes(&self) -> &[u8] {
        &self.bytes
    }

    /// The position of the next record.
    pub fn next(&self) -> u64 {
        self.records + 1
    }

    /// The label of a step; the least where it is not there.
    pub fn step_label(&self, step: u64) -> Label {
        self.monitor.subject(step).unwrap_or(Label::LEAST)
    }

    /// The label of a file or pipe; the highest where it is not there.
    pub fn object_label(&self, object: u64) -> Label {
        self.monitor.object(object).map_or(TOP, |object| object.label)
    }

    pub fn is_live(&self, object: u64) -> bool {
        self.monitor.object(object).is_some()
    }

    pub fn is_pipe(&self, object: u64) -> bool {
        self.monitor.object(object).is_some_and(|object| object.kind == Kind::Pipe)
    }

    /// Whether any handle is on an object.
    pub fn is_held(&self, object: u64) -> bool {
        let is_on = |handle: Handle| handle.object == object;
        (0..STEPS).any(|step| (0..PLACES).any(|place| self.handle(step, place).is_some_and(is_on)))
    }

    pub fn handle(&self, step: u64, place: u64) -> Option<Handle> {
        self.monitor.handle(step, place)
    }
}
