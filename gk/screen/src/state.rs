//! What a monitor's tables hold at one moment, all of it asked of the proved archive through the crate.

use std::collections::BTreeMap;

use gatekeeper::{Handle, Kind, Label, State as Monitor};
use gk_names::shops;

/// How many there can be of each; of files and pipes, at a time.
pub use gatekeeper::{OBJECTS, PLACES, SUBJECTS as STEPS};
pub use gk_chain::{flow, Thing};

/// What is known of a running step.
#[derive(Clone, Copy, Debug, PartialEq, Eq)]
pub struct Step {
    pub label: Label,
    /// The lowest label that it may fall to while no handle goes.
    pub need: Label,
    /// The lowest number of a thread of the same step: its own where it is by itself.
    pub group: u64,
}

/// What is known of a file or pipe.
#[derive(Clone, Copy, Debug, PartialEq, Eq)]
pub struct Object {
    pub kind: Kind,
    pub label: Label,
    pub need: Label,
}

/// Who holds what at one moment.
#[derive(Clone, Debug, PartialEq, Eq)]
pub struct State {
    steps: [Option<Step>; STEPS as usize],
    /// By number.
    objects: BTreeMap<u64, Object>,
    handles: [Option<Handle>; (STEPS * PLACES) as usize],
    /// The level from which on files are frozen.
    pub frozen_from: Option<u8>,
    pub made: u64,
    pub gone: u64,
}

impl State {
    /// Nothing is there, as a run starts.
    pub fn empty() -> State {
        State::of(&Monitor::new())
    }

    pub fn of(monitor: &Monitor) -> State {
        let object = |o, object: gatekeeper::Object| {
            let need = monitor.need_of_object(o)?;
            Some((o, Object { kind: object.kind, label: object.label, need }))
        };
        let mut state = State {
            steps: [None; STEPS as usize],
            objects: monitor.objects().filter_map(|(o, known)| object(o, known)).collect(),
            handles: [None; (STEPS * PLACES) as usize],
            frozen_from: monitor.frozen_from(),
            made: monitor.made(),
            gone: monitor.gone(),
        };
        for s in 0..STEPS {
            let known = monitor.subject(s).zip(monitor.need_of_subject(s)).zip(monitor.group(s));
            state.steps[s as usize] = known.map(|((label, need), group)| Step { label, need, group });
            for p in 0..PLACES {
                state.handles[(PLACES * s + p) as usize] = monitor.handle(s, p);
            }
        }
        state
    }

    pub fn step(&self, s: u64) -> Option<Step> {
        self.steps.get(s as usize).copied().flatten()
    }

    pub fn object(&self, o: u64) -> Option<Object> {
        self.objects.get(&o).copied()
    }

    pub fn handle(&self, s: u64, p: u64) -> Option<Handle> {
        let at = if p < PLACES { PLACES.checked_mul(s)?.checked_add(p)? } else { return None };
        self.handles.get(at as usize).copied().flatten()
    }

    /// The running steps, by number.
    pub fn steps(&self) -> impl Iterator<Item = (u64, Step)> + '_ {
        (0..STEPS).filter_map(|s| Some((s, self.step(s)?)))
    }

    /// The running steps, threads of one step together: by the lowest number of each step, and in it by number.
    pub fn groups(&self) -> Vec<Vec<u64>> {
        let mut groups: BTreeMap<u64, Vec<u64>> = BTreeMap::new();
        for (s, step) in self.steps() {
            groups.entry(step.group).or_default().push(s);
        }
        groups.into_values().collect()
    }

    /// The other threads of the same step, by number.
    pub fn mates(&self, s: u64) -> Vec<u64> {
        let group = self.step(s).map(|step| step.group);
        let is_mate = |&(other, step): &(u64, Step)| other != s && Some(step.group) == group;
        self.steps().filter(is_mate).map(|(other, _)| other).collect()
    }

    /// The files and pipes that are there, by number.
    pub fn objects(&self) -> impl Iterator<Item = (u64, Object)> + '_ {
        self.objects.iter().map(|(&o, &object)| (o, object))
    }

    /// The numbers of the files and pipes that are there in one of two states, by number.
    pub fn objects_of(before: &State, after: &State) -> Vec<u64> {
        let mut objects: Vec<u64> = before.objects.keys().chain(after.objects.keys()).copied().collect();
        objects.sort_unstable();
        objects.dedup();
        objects
    }

    /// Every handle with its step and place.
    pub fn handles(&self) -> impl Iterator<Item = (u64, u64, Handle)> + '_ {
        (0..STEPS).flat_map(|s| self.held(s).map(move |(p, handle)| (s, p, handle)))
    }

    /// The handles of a step, by place.
    pub fn held(&self, s: u64) -> impl Iterator<Item = (u64, Handle)> + '_ {
        (0..PLACES).filter_map(move |p| Some((p, self.handle(s, p)?)))
    }

    /// The handles on a file or pipe, with step and place.
    pub fn holders(&self, o: u64) -> impl Iterator<Item = (u64, u64, Handle)> + '_ {
        self.handles().filter(move |(_, _, handle)| handle.object == o)
    }

    /// The label of a thing that is there.
    pub fn label(&self, thing: Thing) -> Option<Label> {
        match thing {
            Thing::Step(s) => self.step(s).map(|step| step.label),
            Thing::Object(o) => self.object(o).map(|object| object.label),
        }
    }

    /// Whether a thing lacks a shop mark: where none does, they are not spoken of.
    pub fn is_marked(&self) -> bool {
        let labels =
            self.steps().map(|(_, step)| step.label).chain(self.objects().map(|(_, object)| object.label));
        labels.into_iter().any(|label| label.shops != shops::ALL)
    }

    pub fn kind(&self, o: u64) -> Option<Kind> {
        self.object(o).map(|object| object.kind)
    }
}
