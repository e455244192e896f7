//! What a monitor holds, as lists: its steps, its files and pipes, and every handle with the flow that it lets through.

use gatekeeper::{Handle, Kind, Label, State as Monitor, Way};

/// How many steps and places of a step there can be, and how many files and pipes at a time.
pub use gatekeeper::{OBJECTS, PLACES, SUBJECTS as STEPS};
pub use gk_chain::{mates, Thing};

/// The highest level.
pub const HIGHEST: u64 = 15;

/// The set of all shop marks.
pub const ALL_SHOPS: u8 = u8::MAX;

/// A handle with its holder and its place.
#[derive(Clone, Copy, Debug, PartialEq, Eq)]
pub struct Held {
    pub step: u64,
    pub place: u64,
    pub handle: Handle,
}

impl Held {
    pub fn object(self) -> u64 {
        self.handle.object
    }

    pub fn writes(self) -> bool {
        self.handle.way == Way::Writes
    }

    pub fn is_mapping(self) -> bool {
        self.handle.way == Way::Maps
    }

    /// RULES F1, F2: from where to where data can flow through it.
    pub fn flow(self) -> (Thing, Thing) {
        gk_chain::flow(self.step, self.handle)
    }
}

/// The steps that are there.
pub fn steps(monitor: &Monitor) -> impl Iterator<Item = u64> + '_ {
    (0..STEPS).filter(|&s| monitor.subject(s).is_some())
}

/// RULES T45: a step and its mates, by number; none where it is not there.
pub fn members(monitor: &Monitor, step: u64) -> Vec<u64> {
    let group = monitor.group(step);
    steps(monitor).filter(|&other| group.is_some() && monitor.group(other) == group).collect()
}

/// The files and pipes that are there, by number.
pub fn objects(monitor: &Monitor) -> impl Iterator<Item = u64> + '_ {
    monitor.objects().map(|(o, _)| o)
}

/// The lowest numbers that no file or pipe has.
pub fn free_objects(monitor: &Monitor) -> impl Iterator<Item = u64> + '_ {
    (0..).filter(|&o| monitor.object(o).is_none())
}

/// RULES R17: how many files and pipes would be too many with so many new ones.
pub fn too_many(monitor: &Monitor, new: usize) -> usize {
    (objects(monitor).count() + new).saturating_sub(OBJECTS as usize)
}

/// The handles of a step, by place.
pub fn handles_of(monitor: &Monitor, step: u64) -> impl Iterator<Item = Held> + '_ {
    (0..PLACES)
        .filter_map(move |place| monitor.handle(step, place).map(|handle| Held { step, place, handle }))
}

/// Every handle, by step and place.
pub fn handles(monitor: &Monitor) -> impl Iterator<Item = Held> + '_ {
    steps(monitor).flat_map(|step| handles_of(monitor, step))
}

/// The handles on a file or pipe.
pub fn handles_on(monitor: &Monitor, object: u64) -> impl Iterator<Item = Held> + '_ {
    handles(monitor).filter(move |held| held.object() == object)
}

/// The label of a thing; none where it is not there.
pub fn label(monitor: &Monitor, thing: Thing) -> Option<Label> {
    match thing {
        Thing::Step(s) => monitor.subject(s),
        Thing::Object(o) => monitor.object(o).map(|object| object.label),
    }
}

/// The level of a thing; none where it is not there.
pub fn level(monitor: &Monitor, thing: Thing) -> Option<u8> {
    label(monitor, thing).map(|label| label.level)
}

pub fn is_file(monitor: &Monitor, object: u64) -> bool {
    monitor.object(object).is_some_and(|object| object.kind == Kind::File)
}

pub fn is_pipe(monitor: &Monitor, object: u64) -> bool {
    monitor.object(object).is_some_and(|object| object.kind == Kind::Pipe)
}

/// Whether a step has a file mapped (RULES C110).
pub fn has_mapped(monitor: &Monitor, step: u64, object: u64) -> bool {
    handles_of(monitor, step).any(|held| held.is_mapping() && held.object() == object)
}

/// The empty places of a step.
pub fn empty_places(monitor: &Monitor, step: u64) -> impl Iterator<Item = u64> + '_ {
    (0..PLACES).filter(move |&place| monitor.handle(step, place).is_none())
}

/// RULES R15: whether a file can at present not be opened for writing, whoever asks.
pub fn is_frozen(monitor: &Monitor, object: u64) -> bool {
    let level =
        monitor.object(object).filter(|object| object.kind == Kind::File).map(|object| object.label.level);
    matches!((monitor.frozen_from(), level), (Some(freeze), Some(level)) if level >= freeze)
}
