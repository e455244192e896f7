//! Names for the steps, files and pipes of a journal and for the shop groups, and the file that keeps them beside it.
//!
//! A journal has numbers alone. A names file says what people call the things behind them, and from which record on,
//! since a number is used again once its thing is gone:
//!
//! ```text
//! names 1
//! step 17 1 merge
//! file 1 1 the hours sheet of shop 3
//! # step 1 exits at record 203; from record 204 on the number is another step's
//! step 1 204 sheet reader
//! shop 0 1 north
//! ```
//!
//! The first line is `names 1`. Each other line is empty, a comment (its first character is `#`), or a kind (`step`,
//! `file`, `pipe` or `shop`), a number in decimal digits (0 to 31 for a step, 0 to 18446744073709551615 for a file or
//! pipe, 0 to 7 for a shop group), the record from which on the name holds (from 1), and the name, with one space between
//! two of them. The file is UTF-8, lines end in a line feed, with or without a carriage return. [`beside`] says where it
//! stands: `run.names` beside `run.journal`.
//!
//! What holds at a record:
//!
//! - A number has the name that was given to it last, at that record or before. Files and pipes share their numbers,
//!   so that a name for file 5 takes the place of one for pipe 5.
//! - A name is one thing's: given to another one, it is no longer the first one's from that record on.
//! - The eight shop groups have names apart from those of things: a file may be called as a group is. No group is called
//!   `all` or `none`, or `shop` and a number, which say something else in a set ([`shops`]).
//! - Of two lines for the same record, the later one counts.
//!
//! A name cannot be taken for anything else in a text: see [`Name::new`] for what it may be made of.
//!
//! | to | use |
//! |---|---|
//! | find the file of a journal | [`beside`] |
//! | read it | [`Names::load`] from a path, [`Names::read`] from bytes |
//! | ask what a thing is called at a record | [`Names::get`], or [`Names::object`] where file or pipe is not known |
//! | ask what a name stands for at a record | [`Names::find`], or [`Names::find_shop`] for a shop group |
//! | write a set of shop marks, or read one | [`shops`]: `north,east`, `all`, `none`, or a number |
//! | give a name from a record on | [`Names::give`] with a [`Name`]: [`Name::new`], or [`Name::fitted`] for any text |
//! | write the file | [`Names::text`], or [`FIRST_LINE`] and a [`line`] for each name as it is given |
//! | lose no file by it, and no word | [`files`]: what every command asks before it reads and writes |
//! | write a long number so that it can be read | [`number`]: thousands apart |
//!
//! ```
//! use gk_names::{Kind, Name, Names};
//!
//! let mut names = Names::new();
//! names.give(Kind::Step, 1, 1, Name::new("hours")?);
//! names.give(Kind::Step, 1, 204, Name::fitted("sheet\treader"));
//! assert_eq!(names.get(Kind::Step, 1, 203).map(Name::as_str), Some("hours"));
//! assert_eq!(names.get(Kind::Step, 1, 204).map(Name::as_str), Some("sheet_reader"));
//! assert_eq!(names.find("hours", 9), Some((Kind::Step, 1)));
//! assert_eq!(names.text(), "names 1\nstep 1 1 hours\nstep 1 204 sheet_reader\n");
//! assert_eq!(Names::read(names.text().as_bytes()), Ok(names));
//! # Ok::<(), gk_names::Unfit>(())
//! ```

mod file;
pub mod files;
mod name;
pub mod number;
pub mod shops;

use std::collections::BTreeMap;

pub use file::{beside, line, Fault, FIRST_LINE, LONGEST_FILE};
pub use name::{Name, Unfit, LONGEST};

/// What a number is the number of.
#[derive(Clone, Copy, Debug, PartialEq, Eq, PartialOrd, Ord, Hash)]
pub enum Kind {
    Step,
    File,
    Pipe,
    /// A shop group, which is no thing of the tables.
    Shop,
}

impl Kind {
    pub const ALL: [Kind; 4] = [Kind::Step, Kind::File, Kind::Pipe, Kind::Shop];

    /// The kind as a word: in a names file, in assembly and in sentences.
    pub fn word(self) -> &'static str {
        match self {
            Kind::Step => "step",
            Kind::File => "file",
            Kind::Pipe => "pipe",
            Kind::Shop => "shop",
        }
    }

    /// The kind of this word.
    pub fn of_word(word: &str) -> Option<Kind> {
        Kind::ALL.into_iter().find(|kind| kind.word() == word)
    }

    /// The highest number that a thing of this kind can have.
    pub fn highest(self) -> u64 {
        match self {
            Kind::Step => 31,
            Kind::File | Kind::Pipe => u64::MAX,
            Kind::Shop => shops::GROUPS - 1,
        }
    }

    /// What a number of this kind may be, in words.
    pub fn numbers_words(self) -> &'static str {
        match self {
            Kind::Step => "a number behind the kind: steps have 0 to 31",
            Kind::File | Kind::Pipe => {
                "a number behind the kind: files and pipes have 0 to 18,446,744,073,709,551,615"
            }
            Kind::Shop => "a number behind the kind: shop groups have 0 to 7",
        }
    }

    /// Steps and shop groups have numbers of their own; files and pipes share theirs.
    fn numbers(self) -> Numbers {
        match self {
            Kind::Step => Numbers::Steps,
            Kind::File | Kind::Pipe => Numbers::Objects,
            Kind::Shop => Numbers::Shops,
        }
    }
}

/// A space of numbers.
#[derive(Clone, Copy, Debug, PartialEq, Eq, PartialOrd, Ord)]
enum Numbers {
    Steps,
    Objects,
    Shops,
}

/// A name that is given to a thing from a record on.
#[derive(Clone, Debug, PartialEq, Eq)]
pub struct Entry {
    pub kind: Kind,
    pub number: u64,
    /// The position of the first record at which the name holds, from 1.
    pub from: u64,
    pub name: Name,
}

/// The names of a journal.
#[derive(Clone, Debug, Default)]
pub struct Names {
    /// As they were given.
    entries: Vec<Entry>,
    /// For each number the entries of it, rising by record, then as given.
    by_number: BTreeMap<(Numbers, u64), Vec<usize>>,
    /// For each name the entries with it, likewise; those of shop groups apart.
    by_name: BTreeMap<(bool, String), Vec<usize>>,
}

/// Two are equal if they have the same entries in the order of [`Names::entries`].
impl PartialEq for Names {
    fn eq(&self, other: &Names) -> bool {
        self.entries().eq(other.entries())
    }
}

impl Eq for Names {}

impl Names {
    pub fn new() -> Names {
        Names::default()
    }

    pub fn is_empty(&self) -> bool {
        self.entries.is_empty()
    }

    /// Gives a name to a thing, from a record on.
    pub fn give(&mut self, kind: Kind, number: u64, from: u64, name: Name) {
        let index = self.entries.len();
        let of_number = self.by_number.entry((kind.numbers(), number)).or_default();
        let of_name = self.by_name.entry(key(kind, name.as_str())).or_default();
        for list in [of_number, of_name] {
            let place = list.partition_point(|&other| self.entries[other].from <= from);
            list.insert(place, index);
        }
        self.entries.push(Entry { kind, number, from, name });
    }

    /// What a thing is called at a record; none where it has no name, or the name there is for the other kind.
    pub fn get(&self, kind: Kind, number: u64, at: u64) -> Option<&Name> {
        self.entry(kind, number, at).map(|entry| &entry.name)
    }

    /// The entry behind [`Names::get`], for a reader who asks from which record on the name holds.
    pub fn entry(&self, kind: Kind, number: u64, at: u64) -> Option<&Entry> {
        self.of_number(kind.numbers(), number, at).filter(|entry| entry.kind == kind)
    }

    /// What a file or pipe is called at a record, where it is not known which of the two it is.
    pub fn object(&self, number: u64, at: u64) -> Option<(Kind, &Name)> {
        self.of_number(Numbers::Objects, number, at).map(|entry| (entry.kind, &entry.name))
    }

    /// The thing that a name stands for at a record.
    pub fn find(&self, name: &str, at: u64) -> Option<(Kind, u64)> {
        self.found(Kind::Step, name, at)
    }

    /// The shop group that a name stands for at a record.
    pub fn find_shop(&self, name: &str, at: u64) -> Option<u64> {
        self.found(Kind::Shop, name, at).map(|(_, group)| group)
    }

    /// What a name stands for among things, or where the kind is that of shop groups among these.
    fn found(&self, among: Kind, name: &str, at: u64) -> Option<(Kind, u64)> {
        let index = self.last(self.by_name.get(&key(among, name))?, at)?;
        let Entry { kind, number, .. } = self.entries[index];
        // The thing may have been given another name since.
        (self.last(self.by_number.get(&(kind.numbers(), number))?, at) == Some(index))
            .then_some((kind, number))
    }

    /// The names as they were up to a record: those that were given later are left out.
    pub fn until(&self, record: u64) -> Names {
        let mut names = Names::new();
        for entry in self.entries().take_while(|entry| entry.from <= record) {
            names.give(entry.kind, entry.number, entry.from, entry.name.clone());
        }
        names
    }

    /// Every entry, rising by record, then as given.
    pub fn entries(&self) -> impl Iterator<Item = &Entry> {
        let mut order: Vec<&Entry> = self.entries.iter().collect();
        order.sort_by_key(|entry| entry.from);
        order.into_iter()
    }

    fn of_number(&self, numbers: Numbers, number: u64, at: u64) -> Option<&Entry> {
        let index = self.last(self.by_number.get(&(numbers, number))?, at)?;
        let entry = &self.entries[index];
        // The name may have been given to another thing since.
        let of_name = self.by_name.get(&key(entry.kind, entry.name.as_str()))?;
        (self.last(of_name, at) == Some(index)).then_some(entry)
    }

    /// The last of these entries that holds at a record.
    fn last(&self, list: &[usize], at: u64) -> Option<usize> {
        let behind = list.partition_point(|&index| self.entries[index].from <= at);
        behind.checked_sub(1).map(|place| list[place])
    }
}

/// A name as it is looked up: those of shop groups apart from those of things.
fn key(kind: Kind, name: &str) -> (bool, String) {
    (kind == Kind::Shop, name.to_string())
}

#[cfg(test)]
mod tests {
    use super::*;

    fn name(text: &str) -> Name {
        Name::new(text).unwrap()
    }

    fn called(names: &Names, kind: Kind, number: u64, at: u64) -> Option<&str> {
        names.get(kind, number, at).map(Name::as_str)
    }

    #[test]
    fn a_number_has_the_name_that_was_given_last() {
        let mut names = Names::new();
        names.give(Kind::Step, 1, 20, name("later"));
        names.give(Kind::Step, 1, 3, name("first"));
        names.give(Kind::Step, 1, 3, name("corrected"));
        for (at, expected) in
            [(2, None), (3, Some("corrected")), (19, Some("corrected")), (20, Some("later"))]
        {
            assert_eq!(called(&names, Kind::Step, 1, at), expected);
        }
        assert_eq!(names.find("first", 5), None);
        assert_eq!(names.find("corrected", 5), Some((Kind::Step, 1)));
        assert_eq!(names.find("corrected", 20), None);
    }

    #[test]
    fn files_and_pipes_share_their_numbers_and_steps_do_not() {
        let mut names = Names::new();
        names.give(Kind::File, 5, 1, name("pay book"));
        names.give(Kind::Step, 5, 1, name("merge"));
        names.give(Kind::Pipe, 5, 9, name("to the bank"));
        assert_eq!(called(&names, Kind::File, 5, 8), Some("pay book"));
        assert_eq!(called(&names, Kind::Pipe, 5, 8), None);
        assert_eq!(called(&names, Kind::File, 5, 9), None);
        assert_eq!(
            names.object(5, 9).map(|(kind, name)| (kind, name.as_str())),
            Some((Kind::Pipe, "to the bank"))
        );
        assert_eq!(called(&names, Kind::Step, 5, 9), Some("merge"));
    }

    #[test]
    fn a_name_is_one_things_at_a_time() {
        let mut names = Names::new();
        names.give(Kind::Step, 3, 1, name("merge"));
        names.give(Kind::Step, 17, 40, name("merge"));
        assert_eq!(called(&names, Kind::Step, 3, 39), Some("merge"));
        assert_eq!(called(&names, Kind::Step, 3, 40), None);
        assert_eq!(called(&names, Kind::Step, 17, 40), Some("merge"));
        assert_eq!(names.find("merge", 39), Some((Kind::Step, 3)));
        assert_eq!(names.find("merge", 40), Some((Kind::Step, 17)));
        assert_eq!(names.until(39).find("merge", u64::MAX), Some((Kind::Step, 3)));
        assert_eq!(names.until(40), names);
        assert!(names.until(0).is_empty());
    }

    #[test]
    fn shop_groups_have_names_of_their_own() {
        let mut names = Names::new();
        names.give(Kind::Shop, 0, 1, name("north"));
        names.give(Kind::File, 0, 1, name("north"));
        names.give(Kind::Shop, 3, 9, name("north"));
        assert_eq!(names.find("north", 9), Some((Kind::File, 0)));
        assert_eq!([8, 9].map(|at| names.find_shop("north", at)), [Some(0), Some(3)]);
        assert_eq!([8, 9].map(|at| called(&names, Kind::Shop, 0, at)), [Some("north"), None]);
        assert_eq!(called(&names, Kind::File, 0, 9), Some("north"));
        assert_eq!(names.find_shop("east", 9), None);
    }
}
