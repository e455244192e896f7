//! Calls that are tried after a journal: what is said of them, and that it is what their records would get.

mod common;

use std::fs;

use common::{err, gk, journals, out, sees, Folder};
use gatekeeper::Call;
use gk::explain::{explain, Which};
use gk::names::Names;
use gk::trial::{Start, Trial};
use gk_advice::calls::assembly_of;
use gk_advice::records::{Body, Records};

const MARCH: &str = "crates/payrun/stdin";

/// The calls of a journal that stand behind so many of its records, up to the first record that is none.
fn calls_behind(journal: &[u8], records: usize) -> Vec<Call> {
    let calls = Records::new(journal).skip(records).map_while(|entry| match entry.ok()?.body {
        Body::Call(call) => Some(call),
        _ => None,
    });
    calls.collect()
}

/// A journal's own records, tried from some points of it on, are told as `explain` tells them.
#[test]
fn what_is_tried_is_told_as_the_records_are() {
    let names = Names::new();
    let (mut tried, mut refused) = (0, 0);
    for (name, journal) in journals() {
        let explained = explain(&journal, &names, Which::All).unwrap();
        let records = Records::new(&journal).count();
        for at in [0, records / 2, records.saturating_sub(5)] {
            let Ok(start) = Start::at(&journal, at as u64) else {
                continue;
            };
            let mut calls = calls_behind(&journal, at);
            calls.truncate(12);
            let mut trial = Trial::new(&start, &names, Which::All);
            let told: String = calls.iter().filter_map(|&call| trial.call(call)).collect();
            let is_there = explained.starts_with(&told) || explained.contains(&format!("\n{told}"));
            assert!(is_there, "{name} from {at}:\n{told}");
            (tried, refused) = (tried + calls.len(), refused + told.matches("  Refused (").count());
        }
    }
    assert!(tried > 500 && refused > 50, "{tried} {refused}");
}

/// From outside, on March: each way out that is given leads on, and the journal stays as it is.
#[test]
fn calls_are_tried_from_any_point() {
    let journal = fs::read(format!("{}/{MARCH}", common::ROOT)).unwrap();
    let calls: Vec<String> = calls_behind(&journal, 194).into_iter().map(assembly_of).collect();
    let calls: Vec<&str> = calls.iter().map(String::as_str).collect();
    let output = gk(&[&["try", MARCH, "--at", "194"], &calls[..]].concat(), b"");
    assert_eq!((output.status.code(), err(&output)), (Some(0), String::new()));
    let explained = out(&gk(&["explain", MARCH], b""));
    let from = explained.find("\n195. ").unwrap() + 1;
    let behind = explained[from..].replace("End of the run: 300", "End of the calls: 106");
    let head = "Tried on a copy of the tables after 194 records.\n";
    assert_eq!(calls.len(), 112);
    assert_eq!(out(&output), format!("{head}{behind}"));

    // Without --at it is the end; 0 is before the first record.
    let output = gk(&["try", MARCH, "exit 0"], b"");
    sees(
        &out(&output),
        &["after 306 records.\n307. Step 0 may not exit: ", "0 allowed, 0 lowered, 1 refused"],
    );
    assert_eq!(output.status.code(), Some(0));
    let output = gk(&["try", "-", "--at", "0", "admit 0 9 all", "call 12 0"], &journal);
    assert_eq!(
        out(&output),
        "Tried on empty tables.\n1. Step 0 is admitted from outside at level 9.\n  Allowed. Step 0 runs at level 9, \
         with no handles.\n2. Step 0 exits.\n  Allowed. Its last level was 9; it held no handles. Its number is \
         free.\nEnd of the calls: 2 allowed, 0 lowered, 0 refused.\nHandles: 0 made, 0 gone, 0 still open.\n"
    );
    let output = gk(&["try", "--refused", MARCH, "admit 0 9 all", "exit 1", "exit 0"], b"");
    assert_eq!(out(&output).matches("Step ").count(), 1, "{}", out(&output));
    assert_eq!(fs::read(format!("{}/{MARCH}", common::ROOT)).unwrap(), journal);
}

#[test]
fn a_name_stands_for_what_it_stood_for_then() {
    let folder = Folder::new("try-names");
    let journal = folder.path("march.journal");
    assert_eq!(gk(&["assemble", "gk/examples/march.txt", "-o", &journal], b"").status.code(), Some(0));
    let output = gk(&["try", &journal, "--at", "196", "exit intake", "fork shell 1"], b"");
    sees(&out(&output), &["197. intake (step 1) exits.\n", "198. shell (step 0) forks step 1.\n"]);
    // The name that step 1 gets at record 203 is not known before, nor is it told of the step that is tried.
    let output = gk(&["try", &journal, "--at", "196", "exit \"sheet reader\""], b"");
    assert_eq!((output.status.code(), out(&output)), (Some(1), String::new()));
    sees(
        &err(&output),
        &["try: call 1, column 6: expected the number s in decimal, or the name of a step"],
    );
    let many = ["exit 1", "fork 0 1", "exit 1", "fork 0 1", "exit 1", "fork 0 1", "exit 1", "fork 0 1"];
    let output = gk(&[&["try", &journal, "--at", "196"], &many[..]].concat(), b"");
    assert!(!out(&output).contains("sheet reader"), "{}", out(&output));
    let output = gk(&["try", &journal, "--at", "203", "exit \"sheet reader\""], b"");
    sees(&out(&output), &["204. sheet reader (step 1) exits.\n"]);
    // The names file may be another one, and the output a file.
    let [names, text] = ["march.names", "text"].map(|name| folder.path(name));
    let bytes = fs::read(&journal).unwrap();
    let output = gk(&["try", "-", "--names", &names, "-o", &text, "admit shell 3 all"], &bytes);
    assert_eq!((output.status.code(), out(&output)), (Some(0), String::new()));
    sees(&fs::read_to_string(&text).unwrap(), &["307. Step 0 is admitted from outside at level 3.\n"]);
}

#[test]
fn what_is_no_call_is_shown_and_nothing_is_written() {
    let folder = Folder::new("try-wrong");
    let text = folder.path("text");
    let wrong = |arguments: &[&str], input: &[u8], words: &[&str]| {
        let output = gk(&[&["try", "-", "-o", &text], arguments].concat(), input);
        assert_eq!((output.status.code(), out(&output)), (Some(1), String::new()), "{arguments:?}");
        sees(&err(&output), words);
        assert!(folder.files().is_empty(), "{arguments:?}");
    };
    wrong(
        &["exit 0", "close 17"],
        b"",
        &[
            "gk: try: call 2, column 9: expected the number p, found the end of the line\n    close 17\n            ^\n",
            "Type: close s p",
        ],
    );
    wrong(&["opne-read 0 1 2"], b"", &["call 1, column 1: ", "Did you mean: open-read"]);
    wrong(&["exit 0\nexit 1"], b"", &["call 1, column 8: expected the end of the line, found \"exit\""]);
    for none in
        ["", "# nothing", "name step 1 a", "call 77 1", "call 12", "bytes 80", "bytes 02 0c 00 02 0c 00"]
    {
        wrong(&["exit 0", none], b"", &["call 2, column 1: expected a call, found none", "Type a call"]);
    }
    // A journal that is not run so far has no tables.
    wrong(
        &["exit 0"],
        &[3, 1, 0, 9, 3],
        &["try: standard input: Refused (11)", "No call is tried after it"],
    );
    wrong(&["--at", "0", "exit 0"], &[0; 65_537], &["Refused (14)", "No call is tried after it"]);
    let output = gk(&["try", "-", "--at", "1", "exit 0"], &[3, 1, 0, 9, 3]);
    assert_eq!(output.status.code(), Some(0), "{}", err(&output));
}
