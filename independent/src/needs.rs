//! Flow and need: RULES F1 to F7 and F22.
//!
//! Where data can flow, and the need of every thing, a label, worked out from nothing in passes over all handles and all
//! mates until none changes.

use crate::labels::Label;
use crate::tables::{Direction, Handle, Kind, Tables};
use crate::variants::Rules;

/// A subject or an object, by number; the subjects come first.
#[derive(Clone, Copy, Debug, PartialEq, Eq, PartialOrd, Ord)]
pub enum Thing {
    Subject(u64),
    Object(u64),
}

/// Data can flow from one thing to another.
#[derive(Clone, Copy, Debug, PartialEq, Eq)]
pub struct Flow {
    pub from: Thing,
    pub to: Thing,
}

impl Flow {
    /// RULES F1, F2: the flow that a handle is.
    pub fn of(s: u64, handle: Handle) -> Flow {
        let (subject, object) = (Thing::Subject(s), Thing::Object(handle.object));
        match handle.direction {
            Direction::Writing => Flow { from: subject, to: object },
            Direction::Reading => Flow { from: object, to: subject },
        }
    }

    /// RULES F22: the flow from a member of a group to another one.
    pub fn between((s, t): (u64, u64)) -> Flow {
        Flow { from: Thing::Subject(s), to: Thing::Subject(t) }
    }
}

/// The label of a live thing.
pub fn label(tables: &Tables, thing: Thing) -> Option<Label> {
    match thing {
        Thing::Subject(s) => tables.subject(s).map(|subject| subject.label()),
        Thing::Object(o) => tables.object(o).map(|object| object.label()),
    }
}

/// Every live thing: the subjects, then the objects.
pub fn live_things(tables: &Tables) -> impl Iterator<Item = Thing> + '_ {
    let subjects = tables.live_subjects().map(Thing::Subject);
    subjects.chain(tables.live_objects().map(Thing::Object))
}

/// A need for every thing; the least label for what is not live.
#[derive(Clone, Debug, PartialEq, Eq)]
pub struct Needs {
    /// How many subjects there may be.
    subjects: usize,
    /// The numbers of the live objects, rising.
    objects: Vec<u64>,
    /// The needs of the subjects, and then of these objects.
    needs: Vec<Label>,
}

impl Needs {
    /// RULES F6: the least label where no file is reached.
    pub fn none(tables: &Tables) -> Needs {
        let subjects = tables.limits().subjects as usize;
        let objects: Vec<u64> = tables.live_objects().collect();
        let needs = vec![Label::LEAST; subjects + objects.len()];
        Needs { subjects, objects, needs }
    }

    /// Where the need of a thing stands.
    fn place(&self, thing: Thing) -> Option<usize> {
        match thing {
            Thing::Subject(s) => usize::try_from(s).ok().filter(|&s| s < self.subjects),
            Thing::Object(o) => self.objects.binary_search(&o).ok().map(|rank| self.subjects + rank),
        }
    }

    pub fn of(&self, thing: Thing) -> Label {
        self.place(thing).map_or(Label::LEAST, |place| self.needs[place])
    }

    /// Joins the need of a thing with `need`.
    fn raise(&mut self, thing: Thing, need: Label) {
        if let Some(place) = self.place(thing) {
            self.needs[place] = self.needs[place].joined_with(need);
        }
    }

    /// For variants: each need of a live thing is joined with such a part of the one kept, `part` being told both.
    pub(crate) fn join_kept(
        &mut self,
        tables: &Tables,
        kept: &Needs,
        part: impl Fn(Label, Label) -> Label,
    ) {
        for thing in live_things(tables) {
            self.raise(thing, part(self.of(thing), kept.of(thing)));
        }
    }

    /// For variants: every need is another one.
    pub(crate) fn change_all(&mut self, change: impl Fn(Label) -> Label) {
        self.needs.iter_mut().for_each(|need| *need = change(*need));
    }

    /// RULES F4, F5, F6: the join of the labels of all files that a chain of flows leads to, the least label if there
    /// are none.
    ///
    /// `sought` are flows that are tried beside those of the handles in the table and those between mates.
    pub fn work_out(tables: &Tables, sought: &[Flow], rules: Rules, kept: &Needs) -> Needs {
        // A chain of no flow: a file reaches itself.
        let mut needs = Needs::none(tables);
        for o in tables.live_objects() {
            if let Some(object) = tables.object(o).filter(|object| object.kind == Kind::File) {
                needs.raise(Thing::Object(o), object.label());
            }
        }
        rules.bend_start(tables, kept, &mut needs);

        // A chain that is one flow longer: what the flow's end reaches, its beginning reaches too.
        let held = tables.handles().map(|(s, _, handle)| Flow::of(s, handle));
        let shared = tables.pairs_of_mates().filter(|&pair| rules.joins(pair)).map(Flow::between);
        let flows = held.chain(shared).chain(sought.iter().copied());
        let flows = flows.filter(|&flow| rules.carries(tables, flow));
        let places = flows.filter_map(|flow| needs.place(flow.from).zip(needs.place(flow.to)));
        let places: Vec<(usize, usize)> = places.collect();
        for pass in 0.. {
            let mut changed = false;
            for &(from, to) in &places {
                let (own, beyond) = (needs.needs[from], needs.needs[to]);
                needs.needs[from] = rules.bend_join(own, beyond);
                changed |= rules.bend_changed(own, needs.needs[from]);
            }
            if !changed || rules.gives_up_after(pass) {
                break;
            }
        }
        rules.bend_end(tables, kept, &mut needs);
        needs
    }

    /// The needs of the tables as they stand, by the rules.
    pub fn of_tables(tables: &Tables) -> Needs {
        Needs::work_out(tables, &[], Rules::default(), &Needs::none(tables))
    }

    /// The live things whose label is below their need.
    pub fn unmet<'a>(&'a self, tables: &'a Tables) -> impl Iterator<Item = Thing> + 'a {
        live_things(tables)
            .filter(|&thing| label(tables, thing).is_some_and(|label| !label.is_at_least(self.of(thing))))
    }
}
