//! The same for variants that answer every journal as the rules do: tables that no calls made, with one call on them.
//!
//! From empty tables the members of a group have one label, a mapper fell when it mapped the file, and who writes to the
//! file has its marks (RULES T38, T48, F8). Here members have labels of their own, above, below and beside that of a file
//! which some of them have mapped, and its writer lacks a mark.

use crate::calls::{filled, Numbers};
use crate::labels::Label;
use crate::monitor::Monitor;
use crate::tables::{Direction, Handle, Kind, Object, Subject, Tables, LIMITS};
use crate::variants::Rules;

/// The label of the file.
const FILE: Label = Label::new(5, 0b0011);

/// The labels that a member may have: with the marks of the file and others, with fewer, with others alone.
const LABELS: [Label; 6] = [
    Label::new(2, 0b0011),
    Label::new(4, 0b0111),
    Label::new(5, 0b0011),
    Label::new(9, 0b0011),
    Label::new(9, 0b1111),
    Label::new(5, 0b0110),
];

/// The label of the one who writes to the file, which lacks a mark of it.
const WRITER: Label = Label::new(9, 0b1101);

/// Who has the file mapped.
const MAPPERS: [&[u64]; 7] = [&[], &[0], &[1], &[2], &[0, 1], &[1, 2], &[3]];

/// The calls: a write to the file by subject 4, which is no mate of the others; the rest are by subject 1.
const CALLS: [(u64, &[u64]); 7] =
    [(8, &[4, 0]), (7, &[1, 1]), (14, &[1, 0, 2]), (18, &[1, 9]), (9, &[1, 9]), (10, &[1, 0]), (12, &[1])];

/// How many of the calls it takes, from 1, until the answer, the tables or the tally by these rules are not the right
/// ones; none if they always are.
pub fn bite(rules: Rules) -> Option<u64> {
    let differs = |(tables, code, numbers): &(Tables, u64, Numbers)| {
        let [right, bent] = [Rules::default(), rules].map(|rules| {
            let mut monitor = Monitor::of_tables(tables.clone(), rules);
            let answer = monitor.call(*code, *numbers);
            (answer, monitor.tables().clone(), monitor.tally())
        });
        right != bent
    };
    (1..).zip(trials()).find(|(_, trial)| differs(trial)).map(|(calls, _)| calls)
}

/// Each of the tables with each of the calls.
fn trials() -> impl Iterator<Item = (Tables, u64, Numbers)> {
    let count = LABELS.len();
    (0..count * count * count).flat_map(move |index| {
        let labels =
            [index % count, index / count % count, index / count / count].map(|label| LABELS[label]);
        MAPPERS.iter().flat_map(move |mappers| {
            CALLS.iter().map(move |&(code, numbers)| (tables(labels, mappers), code, filled(numbers)))
        })
    })
}

/// Subjects 0 to 2 of these labels are in one group, 3 and 4 in groups of their own. Subject 1 has the file open for
/// reading, and 4 for writing.
fn tables(labels: [Label; 3], mappers: &[u64]) -> Tables {
    let mut tables = Tables::new(LIMITS);
    tables.set_object(0, Some(Object::new(Kind::File, FILE)));
    for (s, label) in (0..).zip(labels.into_iter().chain([Label::full(9), WRITER])) {
        tables.set_subject(s, Some(Subject::new(label)));
    }
    tables.join_groups(0, 1);
    tables.join_groups(0, 2);
    tables.set_handle(1, 1, Some(Handle::new(0, Direction::Reading)));
    tables.set_handle(4, 0, Some(Handle::new(0, Direction::Writing)));
    for &s in mappers {
        tables.set_handle(s, 0, Some(Handle::mapping(0)));
    }
    tables
}
