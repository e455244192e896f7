//! Names for the steps, files and pipes of a journal and for the shop groups, from a names file as `gk_names` reads it.
//!
//! A number has the name that was given to it last; files and pipes share their numbers. A name is one thing's: given
//! to another, it is no longer the first one's from that record on. And it goes with its thing: where a number is used
//! again, a name from before is not the new thing's.

use std::collections::BTreeMap;

use gk_names::shops;

use crate::state::{State, Thing, STEPS};

const KINDS: [&str; 4] = ["step", "file", "pipe", "shop"];

/// Names of one number after the other, each with the record from which on it holds.
type Given = Vec<(u64, Option<String>)>;

/// The names of a journal.
#[derive(Clone, Debug, Default)]
pub struct Names {
    /// For each kind and number the names that it has; none from where on it has lost one.
    of: BTreeMap<(&'static str, u64), Given>,
    /// The record at which the last thing of a number went.
    went: BTreeMap<Thing, u64>,
}

impl Names {
    /// What a thing is called at a record.
    pub fn name(&self, kind: &str, n: u64, record: u64) -> Option<&str> {
        let kind = KINDS.into_iter().find(|known| *known == kind)?;
        let given = self.of.get(&(kind, n))?;
        let behind = given.partition_point(|(from, _)| *from <= record);
        given[..behind].last()?.1.as_deref()
    }

    /// What a shop group is called at a record.
    pub fn shop(&self, group: u64, record: u64) -> String {
        self.name("shop", group, record).map_or_else(|| format!("shop {group}"), str::to_string)
    }

    /// A set of shop marks in a sentence: "the shop marks of north and east".
    pub fn marks(&self, set: u8, record: u64) -> String {
        shops::words_by(set, |group| self.shop(group, record))
    }

    /// A sign for each shop group at a record.
    pub fn signs(&self, record: u64) -> [char; shops::GROUPS as usize] {
        shops::signs(|group| self.name("shop", group, record))
    }

    /// Every name with its kind, its number, and the record from which on it holds; none where a name is lost.
    pub fn all(&self) -> impl Iterator<Item = (&'static str, u64, u64, Option<&str>)> {
        self.of.iter().flat_map(|(&(kind, n), given)| {
            given.iter().map(move |(from, name)| (kind, n, *from, name.as_deref()))
        })
    }

    /// Takes note of who goes with a record and who comes: a number that is used again has no name of before.
    pub fn follow(&mut self, record: u64, before: &State, after: &State) {
        if self.of.is_empty() {
            return;
        }
        let objects = State::objects_of(before, after).into_iter().map(Thing::Object);
        for thing in (0..STEPS).map(Thing::Step).chain(objects) {
            match (before.label(thing).is_some(), after.label(thing).is_some()) {
                (true, false) => drop(self.went.insert(thing, record)),
                (false, true) => {
                    if let Some(went) = self.went.get(&thing).copied() {
                        self.renew(thing, went, record);
                    }
                }
                _ => {}
            }
        }
    }

    fn renew(&mut self, thing: Thing, went: u64, record: u64) {
        let (kinds, number): (&[&str], u64) = match thing {
            Thing::Step(s) => (&KINDS[..1], s),
            Thing::Object(o) => (&KINDS[1..3], o),
        };
        for (_, given) in self.of.iter_mut().filter(|((kind, n), _)| *n == number && kinds.contains(kind)) {
            let behind = given.partition_point(|(from, _)| *from <= record);
            if behind > 0 && given[behind - 1].0 <= went {
                given.insert(behind, (record, None));
            }
        }
    }

    /// The names that the entries of a names file give.
    pub fn given(file: &gk_names::Names) -> Names {
        let mut names = Names::default();
        // The names of shop groups are apart from those of things.
        let mut holders: BTreeMap<(bool, &str), (&'static str, u64)> = BTreeMap::new();
        for entry in file.entries() {
            let (kind, number, from, name) =
                (entry.kind.word(), entry.number, entry.from, entry.name.as_str());
            let is_shop = kind == "shop";
            if kind == "file" || kind == "pipe" {
                let other = if kind == "file" { "pipe" } else { "file" };
                names.set(other, number, from, None);
            }
            if let Some(&(kind, number)) = holders.get(&(is_shop, name)) {
                if names.name(kind, number, from) == Some(name) {
                    names.set(kind, number, from, None);
                }
            }
            names.set(kind, number, from, Some(name.to_string()));
            holders.insert((is_shop, name), (kind, number));
        }
        names
    }

    /// Gives or takes a name from a record on, which is none before the last one.
    fn set(&mut self, kind: &'static str, number: u64, from: u64, name: Option<String>) {
        let given = self.of.entry((kind, number)).or_default();
        if given.last().is_some_and(|(record, _)| *record == from) {
            given.pop();
        }
        given.push((from, name));
    }
}

#[cfg(test)]
mod tests {
    use super::*;

    fn read(text: &str) -> Names {
        Names::given(&gk_names::Names::read(text.as_bytes()).expect("names"))
    }

    #[test]
    fn a_number_has_the_name_that_was_given_last() {
        let text = "names 1\r\n# by hand\n\nstep 1 204 sheet reader\nstep 1 1 hours\nfile 5 1 pay book\n\
                    pipe 5 9 to the bank\n";
        let names = read(text);
        for (kind, n, at, expected) in [
            ("step", 1, 203, Some("hours")),
            ("step", 1, 204, Some("sheet reader")),
            ("file", 5, 8, Some("pay book")),
            ("pipe", 5, 8, None),
            ("file", 5, 9, None),
            ("pipe", 5, 9, Some("to the bank")),
            ("step", 5, 9, None),
            ("file or pipe", 5, 9, None),
        ] {
            assert_eq!(names.name(kind, n, at), expected, "{kind} {n} at {at}");
        }
    }

    #[test]
    fn a_name_is_one_things_at_a_time() {
        let names = read("names 1\nstep 3 1 merge\nstep 17 40 merge\nstep 17 50 other");
        assert_eq!(names.name("step", 3, 39), Some("merge"));
        assert_eq!(names.name("step", 3, 40), None);
        assert_eq!(names.name("step", 3, 60), None);
        assert_eq!(names.name("step", 17, 40), Some("merge"));
        assert_eq!(names.name("step", 17, 50), Some("other"));
    }

    #[test]
    fn a_name_goes_with_its_thing() {
        let mut names = read("names 1\nstep 1 1 hours\nstep 2 1 merge\nstep 2 9 reader\n");
        let mut monitor = gatekeeper::Monitor::new();
        let mut follow = |record, call: fn(&mut gatekeeper::Monitor, u64) -> gatekeeper::Answer| {
            let before = State::of(&gatekeeper::State::from(&monitor));
            for s in [1, 2] {
                call(&mut monitor, s).granted().expect("it is allowed");
            }
            names.follow(record, &before, &State::of(&gatekeeper::State::from(&monitor)));
        };
        follow(3, |monitor, s| monitor.admit(s, 9, 255));
        follow(8, |monitor, s| monitor.exit(s));
        follow(9, |monitor, s| monitor.admit(s, 9, 255));
        assert_eq!((names.name("step", 1, 8), names.name("step", 1, 9)), (Some("hours"), None));
        assert_eq!((names.name("step", 2, 8), names.name("step", 2, 9)), (Some("merge"), Some("reader")));
    }

    #[test]
    fn shop_groups_have_names_apart() {
        let names = read("names 1\nshop 0 1 north\nfile 0 1 north\nshop 1 4 east\nshop 2 9 north\n");
        assert_eq!(names.name("file", 0, 9), Some("north"));
        assert_eq!([8, 9].map(|at| names.shop(0, at)), ["north", "shop 0"]);
        assert_eq!(names.marks(3, 4), "the shop marks of north and east");
        assert_eq!(names.marks(2, 3), "the shop mark of shop 1");
        assert_eq!(names.signs(4).iter().collect::<String>(), "NE234567");
    }

    /// What could be taken for more than a name is none.
    #[test]
    fn a_name_is_text_and_nothing_else() {
        for name in ["<script>alert(1)</script>", "a\u{1b}[2J", "the Steps 3 and 4", "a. Allowed", "17"] {
            let text = format!("names 1\nstep 1 1 {name}\n");
            assert!(gk_names::Names::read(text.as_bytes()).is_err(), "{name}");
        }
    }
}
