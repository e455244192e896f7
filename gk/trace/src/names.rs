//! The names of a trace's steps, files and pipes, for the names file that stands beside the journal (`gk_names`).
//!
//! A name is one thing's, so that two steps which run `sort` are `sort` and `sort-2`.

use std::collections::BTreeMap;

pub use gk_names::Kind;
use gk_names::{Name, LONGEST};

/// Room for a number behind a name that another thing has, and for letters before one that has none.
const ROOM: usize = 16;

#[derive(Default)]
pub struct Names {
    names: gk_names::Names,
    /// For each name that was given, how often.
    counts: BTreeMap<String, u64>,
}

impl Names {
    /// Gives a thing a name that no other has: the name, or with a number behind it. Says which.
    pub fn give_new(&mut self, kind: Kind, number: u64, from: u64, text: &str) -> String {
        let mut name = fitted(text, LONGEST);
        let count = self.counts.entry(name.to_string()).or_insert(0);
        *count += 1;
        let mut again = *count;
        while again > 1 {
            let other = Name::fitted(&format!("{}-{again}", fitted(text, LONGEST - ROOM)));
            if !self.counts.contains_key(other.as_str()) {
                self.counts.insert(other.to_string(), 1);
                name = other;
                break;
            }
            again += 1;
        }
        self.names.give(kind, number, from, name.clone());
        name.to_string()
    }

    /// Gives a thing the name that it has had under another number.
    pub fn give_again(&mut self, kind: Kind, number: u64, from: u64, name: &str) {
        self.names.give(kind, number, from, Name::fitted(name));
    }

    /// Gives a shop group its name, for the whole run.
    pub fn give_shop(&mut self, group: u64, name: &Name) {
        self.names.give(Kind::Shop, group, 1, name.clone());
    }

    /// All that were given.
    pub fn given(&self) -> &gk_names::Names {
        &self.names
    }

    /// The text of the file.
    pub fn text(&self) -> String {
        self.names.text()
    }
}

/// The name nearest to any text, of so many characters; a long one loses its front, as paths tell by their ends.
fn fitted(text: &str, longest: usize) -> Name {
    match text.chars().count().checked_sub(longest) {
        None | Some(0) => Name::fitted(text),
        Some(more) => {
            let end: String = text.chars().skip(more + 1).collect();
            Name::fitted(&format!("_{end}"))
        }
    }
}

#[cfg(test)]
mod tests {
    use super::*;

    #[test]
    fn a_name_is_one_things() {
        let mut names = Names::default();
        let mut give = |text: &str| names.give_new(Kind::Step, 0, 1, text);
        assert_eq!(
            ["sort", "sort", "sort-2", "sort", "sort-3"].map(&mut give),
            ["sort", "sort-2", "sort-2-2", "sort-3", "sort-3-2"]
        );
        for text in ["dir/".repeat(40), "7".repeat(99), String::new()] {
            assert_ne!(give(&text), give(&text), "{text:?}");
        }
    }

    #[test]
    fn a_long_text_loses_its_front() {
        let text = "dir/".repeat(40);
        for longest in [LONGEST, LONGEST - ROOM] {
            let name = fitted(&text, longest).to_string();
            assert!(
                name.chars().count() == longest && name.starts_with('_') && name.ends_with("dir/"),
                "{name}"
            );
        }
        assert_eq!(fitted("bank.csv", LONGEST).as_str(), "bank.csv");
    }

    #[test]
    fn the_file_rises_by_record() {
        let mut names = Names::default();
        names.give_new(Kind::File, 3, 9, "bank.csv");
        names.give_new(Kind::Step, 0, 1, "sh");
        names.give_again(Kind::File, 4, 12, "bank.csv");
        assert_eq!(names.text(), "names 1\nstep 0 1 sh\nfile 3 9 bank.csv\nfile 4 12 bank.csv\n");
    }
}
