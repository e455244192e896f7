//! Levels proposed from a trace: each clears the refusals, none of its lines can stay, and none leaves a file out.

mod common;

use common::random::{line, Random};
use common::{attempt, refused};
use gk_trace::{journal_of, proposals, proposed, Levels, Options, Written};

const START: &str = "1 execve(\"/bin/sort\", [\"sort\"], 0x1 /* 1 var */) = 0";

fn run(trace: &str, levels: &Levels) -> Option<Written> {
    journal_of(format!("{trace}\n").as_bytes(), levels, Options::default(), None).ok()
}

/// The changed lines of each proposal. Each was tried once more, whole and with each of its lines as it was.
#[track_caller]
fn tried(trace: &str, text: &str) -> Vec<Vec<String>> {
    let levels = Levels::read(text.as_bytes()).unwrap();
    let written = run(trace, &levels).unwrap();
    let proposals = proposals(text.as_bytes(), &levels, &written, |levels| run(trace, levels));
    let is_refused = |text: &[u8]| {
        let levels = Levels::read(text).unwrap_or_else(|fault| panic!("{fault:?}"));
        // What does not fit with other levels is not let through, either.
        run(trace, &levels).is_none_or(|written| !refused(&written.journal).is_empty())
    };
    let outs = |text: &str| text.lines().filter(|line| line.contains(" out")).count();
    for proposal in &proposals {
        let new = String::from_utf8(proposal.text.clone()).unwrap();
        assert!(!is_refused(new.as_bytes()), "{trace}\n{new}");
        assert_eq!(outs(&new), outs(text), "{new}");
        assert!(!proposal.lines.is_empty());
        for (line, gives_up) in &proposal.lines {
            let (now, _) = line.split_once("   (").unwrap();
            let was = line.split_once(", now: ").map(|(_, was)| was.trim_end_matches(')'));
            let mut kept: Vec<&str> = new.lines().collect();
            let at = kept.iter().position(|other| *other == now).unwrap();
            match was {
                Some(was) => kept[at] = was,
                None => drop(kept.remove(at)),
            }
            assert!(is_refused(kept.join("\n").as_bytes()), "{line} is not needed\n{trace}\n{new}");
            assert!(!gives_up.is_empty());
        }
    }
    proposals.iter().map(|proposal| proposal.lines.iter().map(|(line, _)| line.clone()).collect()).collect()
}

#[test]
fn a_temporary_file_that_only_else_names_gets_its_makers_level() {
    let trace = format!(
        "{START}\n1 openat(AT_FDCWD, \"low1\", O_RDONLY) = 3\n1 read(3, \"\", 1) = 1\n\
         1 openat(AT_FDCWD, \"/tmp/sortab12\", O_RDWR|O_CREAT|O_EXCL) = 4"
    );
    let text = "low* 2\nelse 15\n";
    let found = tried(&trace, text);
    // That gives up nothing, so that nobody is asked to vouch for the sheet.
    assert_eq!(found, [["/tmp/* step   (a new line, before that of else)"]]);
    let levels = Levels::read(text.as_bytes()).unwrap();
    let report =
        proposed(text.as_bytes(), &levels, &run(&trace, &levels).unwrap(), |levels| run(&trace, levels));
    assert!(report.contains("  written, and named by no line but else: /tmp/* (level 15)\n"), "{report}");
    assert!(
        report.contains("gives up: nothing that a line names: /tmp/* has the label of the step"),
        "{report}"
    );
    // One that was there before has no maker in the run.
    let there = trace.replace("|O_CREAT|O_EXCL", "").replace("/tmp/sortab12", "sum");
    assert_eq!(tried(&there, text)[0], ["sum step   (a new line, before that of else)"]);
}

#[test]
fn a_file_falls_to_what_reaches_it_or_the_others_rise_no_higher_than_needed() {
    let trace = format!(
        "{START}\n1 openat(AT_FDCWD, \"book\", O_WRONLY) = 3\n1 openat(AT_FDCWD, \"low1\", O_RDONLY) = 4\n\
         1 close(3) = 0\n1 close(4) = 0\n1 fork() = 2\n2 openat(AT_FDCWD, \"bank\", O_WRONLY) = 3\n\
         2 openat(AT_FDCWD, \"mid\", O_RDONLY) = 4"
    );
    let found = tried(&trace, "# levels\nlow* 2 # unchecked\nmid 5\nbook 9\nbank 12\nelse 15\n");
    let rises = ["low* 9   (line 2, now: low* 2 # unchecked)", "mid 12   (line 3, now: mid 5)"];
    let falls = ["book 2   (line 4, now: book 9)", "bank 5   (line 5, now: bank 12)"];
    assert!(found.contains(&rises.map(str::to_string).to_vec()), "{found:?}");
    assert!(found.contains(&falls.map(str::to_string).to_vec()), "{found:?}");
    // Shop marks fall and rise as levels do.
    let marks = "name shop 0 north\nlow* 9 none\nbook 9 north\nelse 15\n";
    let found = tried(&trace, marks);
    assert!(found.contains(&vec!["book 9 none   (line 3, now: book 9 north)".to_string()]), "{found:?}");
    assert!(found.contains(&vec!["low* 9 north   (line 2, now: low* 9 none)".to_string()]), "{found:?}");
    // Nothing is proposed where nothing is refused.
    assert!(tried(&trace, "else 15\n").is_empty());
    // Standard output is a line as any other.
    let trace = format!("{START}\n1 openat(AT_FDCWD, \"low1\", O_RDONLY) = 4");
    assert_eq!(
        tried(&trace, "low* 2\n<stdout> 9\nelse 15\n")[0],
        ["<stdout> 2   (line 2, now: <stdout> 9)"]
    );
}

#[test]
fn what_is_proposed_for_random_runs_clears_them() {
    const LEVELS: &str = "f1 3\nf2 7\nf[3-5] 15\nlow* 2\nt* step\n<stdin> 4\nd/out out\nelse 15\n";
    let mut random = Random(5);
    let (mut found, mut none) = (0, 0);
    for _ in 0..300 {
        let lines: Vec<String> = (0..1 + random.below(60)).map(|_| line(&mut random, 9)).collect();
        let trace = lines.join("\n");
        let Ok(written) = attempt(format!("{trace}\n").as_bytes(), LEVELS, Options::default()) else {
            continue;
        };
        if refused(&written.journal).is_empty() {
            continue;
        }
        match tried(&trace, LEVELS).is_empty() {
            true => none += 1,
            false => found += 1,
        }
    }
    assert!(found > 5 && found > 4 * none, "{found} with a proposal, {none} without");
}
