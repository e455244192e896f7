//! Typed lines: where one goes wrong, what its calls come to, and that all of it is what the archive says.

mod common;

use std::fs;
use std::os::unix::fs::PermissionsExt;

use common::{err, gk, journals, out, sees, types, Folder, ROOT};
use gatekeeper::{Refusal, State as Monitor};
use gk::assembly::assemble;
use gk::explain::{explain, Which};
use gk::line::calls::Numbers;
use gk::line::taken::{taken, Given};
use gk::line::{reading, verdict, Made, Verdict};
use gk::names::Names;
use gk::trial::Start;

const MONTH_END: &str = "gk/examples/month-end.txt";

#[test]
fn the_place_of_an_18_and_the_pipeline_of_a_19_are_marked() {
    assert_eq!(types("tests/refused-lines.txt", include_str!("refused-lines.txt")), 27);
    // Of a long line the part around the place is shown, and marked as far as it is.
    let long = wrong(&format!("{}1 3", "1 ; ".repeat(5_000)));
    sees(&long, &["Column 20003: ", " ; 1 3\n"]);
    assert!(long.lines().all(|line| line.chars().count() < 160), "{long}");
    let long = wrong(&"9".repeat(5_000));
    assert!(long.lines().all(|line| line.chars().count() < 180), "{long}");
    let long = wrong(&format!("{}3", "3|".repeat(500)));
    sees(&long, &["found 501\n", &format!("…\n    {}\n", "^".repeat(120))]);
}

/// What is said of a line that is refused.
fn wrong(line: &str) -> String {
    let output = gk(&["line", line], b"");
    assert_eq!((output.status.code(), out(&output)), (Some(1), String::new()), "{line}");
    err(&output)
}

#[test]
fn a_refused_line_writes_nothing() {
    let folder = Folder::new("line-refused");
    let [journal, text] = ["run.journal", "text"].map(|name| folder.path(name));
    fs::write(&journal, [3, 1, 0, 9]).unwrap();
    for line in ["3 |", "3|3|3|3|3|3|3|3|3"] {
        let output = gk(&["line", "--append", &journal, "-o", &text, line], b"");
        assert_eq!((output.status.code(), out(&output)), (Some(1), String::new()));
        assert_eq!(
            (fs::read(&journal).unwrap(), folder.files()),
            (vec![3, 1, 0, 9], vec!["run.journal".to_string()])
        );
    }
}

#[test]
fn the_calls_are_told_stage_by_stage() {
    let output = gk(&["line", "--set-up", MONTH_END, "--child", "4", "--pipe", "10,000", "3<1|3>0;3"], b"");
    assert_eq!((output.status.code(), err(&output)), (Some(0), String::new()));
    assert_eq!(
        out(&output),
        "\
Tried on a copy of the tables after 8 records. Shell: shell (step 0), the lowest that is there.
    Children: from step 4 on, as given. Pipes: from number 10,000 on, as given.
Pipeline 1: 3 < 1 | 3 > 0
Its pipes:
9. shell (step 0) makes pipe 10,000, reading at place 0 and writing at place 1.
  Allowed. Pipe 10,000 is empty and starts at the level of shell, 12.
Stage 1: 3 < 1
10. shell (step 0) forks step 4.
  Allowed. Step 4 starts at level 12 with copies of the 2 handles of shell.
11. Step 4 closes place 0, its reading handle on pipe 10,000 (level 12).
  Allowed. Place 0 is empty.
12. Step 4 opens the hours sheet of shop 3 (file 1) for reading at place 14.
  Allowed. The hours sheet of shop 3 has level 2; step 4 keeps level 12 until it reads.
13. Step 4 runs the pay programs (file 3).
  Allowed. Step 4 stays at level 12.
Stage 2: 3 > 0
14. shell (step 0) forks step 5.
  Allowed. Step 5 starts at level 12 with copies of the 2 handles of shell.
15. Step 5 closes place 1, its writing handle on pipe 10,000 (level 12).
  Allowed. Place 1 is empty.
16. Step 5 may not open the pay book (file 0) for writing at place 15: what the hours sheet of shop
    3 has could get there through it.
  Refused (9): data could reach a file of a higher level or with a shop mark that it lacks. Nothing
    is opened.
  The hours sheet of shop 3 has level 2, and the pay book takes nothing from below level 9.
  This is how the hours sheet of shop 3 could get into the pay book, were it let through:
    step 4 reads the hours sheet of shop 3 and writes pipe 10,000;
    step 5 reads it and writes the pay book.
  Proved (RULES A1 to A12): none of these reads and writes would be refused; no chain is shorter.
  What to do: close place 0 (reading pipe 10,000) of step 5; open it after that.
  Or: let step 5 fork a step, number 1 is free, which closes place 0 and opens it.
  Or: admit a step at level 9 or above, number 1 is free, and let it open it.
17. Step 5 runs the pay programs (file 3).
  Allowed. Step 5 stays at level 12.
The shell's ends of the pipes:
18. shell (step 0) closes place 0, its reading handle on pipe 10,000 (level 12).
  Allowed. Place 0 is empty.
19. shell (step 0) closes place 1, its writing handle on pipe 10,000 (level 12).
  Allowed. Place 1 is empty.
The exits:
20. Step 4 exits.
  Allowed. Its last level was 12; 2 handles are closed. Its number is free.
21. Step 5 exits.
  Allowed. Its last level was 12; 1 handle is closed. Its number is free. That was the last handle
    on pipe 10,000, which ends.
Pipeline 2: 3
22. shell (step 0) forks step 4.
  Allowed. Step 4 starts at level 12 with no handles.
23. Step 4 runs the pay programs (file 3).
  Allowed. Step 4 stays at level 12.
The exits:
24. Step 4 exits.
  Allowed. Its last level was 12; it held no handles. Its number is free.
End of the line: 15 allowed, 0 lowered, 1 refused.
Handles: 7 made, 7 gone, 0 still open.
The answers are the proved gatekeeper's. What to do is advice of gk and not proved; every advice
    that names calls was tried on a copy of the tables as they were before its record, and was
    allowed there.
"
    );
    // A program below the shell lowers the child; a program that is a pipe, or not there, is refused.
    let text = gk(
        &["line", "--set-up", "-", "20 ; 21 ; 22"],
        b"admit 0 9 all\nregister 20 5 all\npipe 0 21 2 3\n",
    );
    sees(
        &out(&text),
        &[
            "Pipeline 1: 20\n4. Step 0 forks step 1.\n",
            "5. Step 1 runs file 20.\n  Lowered. Step 1 falls from level 9 to level 5.\n",
            "Step 1 may not run pipe 21: it is a pipe.\n  Refused (5)",
            "there is no file or pipe 22.\n  Refused (4)",
            "End of the line: 6 allowed, 1 lowered, 2 refused.\n",
        ],
    );
    // What came before is looked back on: the freeze, and that a name is of a step that is gone.
    let set_up =
        b"name step 1 intake\nadmit 0 12 all\nregister 0 9 all\nregister 3 15 all\nadmit 1 9 all\nexit 1\nfreeze 9\n";
    let text = out(&gk(&["line", "--set-up", "-", "3 > 0"], set_up));
    let flat = text.split_whitespace().collect::<Vec<&str>>().join(" ");
    sees(
        &flat,
        &[
            "7. Step 0 forks step 1. ",
            "closed from level 9 up since record 6, and it has level 9. Refused (15)",
        ],
    );
    assert!(!text.contains("intake"), "{text}");
}

/// What a line is told to come to is what its records come to, once they stand in the journal.
#[test]
fn what_is_appended_is_explained_alike() {
    let folder = Folder::new("line-append");
    let journal = folder.path("run.journal");
    assert_eq!(gk(&["assemble", MONTH_END, "-o", &journal], b"").status.code(), Some(0));
    let mut records = 8;
    for (line, calls) in
        [("3 < 1 > 6", 5), ("3<1|3>0", 13), ("3 < 2 | 3 < 1 > 0 | 3 > 5 ; 3", 30), ("77 < 78", 4)]
    {
        let tried = gk(&["line", "--after", &journal, line], b"");
        let output = gk(&["line", "--append", &journal, line], b"");
        assert_eq!((output.status.code(), err(&output)), (Some(0), String::new()), "{line}");
        let (first, last) = (records + 1, records + calls);
        let said = format!("Appended to {journal}: records {first} to {last}.\n");
        assert_eq!(out(&output), format!("{}{said}", out(&tried)), "{line}");

        // The paragraphs of the records, without what stands between them.
        let told = out(&gk(&["explain", &journal], b""));
        let behind = format!("\n{first}. ");
        let explained = &told[told.find(&behind).unwrap() + 1..told.find("End of the run").unwrap()];
        let headings = ["Tried", "Pipeline ", "Its pipes:", "Stage ", "The shell's ends", "The exits:"];
        let text = out(&tried);
        let body = &text[text.find("Pipeline 1").unwrap()..text.find("End of the line").unwrap()];
        let kept = |line: &&str| !headings.iter().any(|heading| line.starts_with(heading));
        let told: Vec<&str> = body.lines().filter(kept).collect();
        assert_eq!(told, explained.lines().collect::<Vec<&str>>(), "{line}");
        records = last;
    }
    assert_eq!(folder.files(), ["run.journal", "run.names"]);

    // Names hold as before, and those that are not beside the journal are given.
    let bytes = fs::read(&journal).unwrap();
    let names = folder.path("run.names");
    for arguments in
        [vec!["line", "--after", &journal, "3"], vec!["line", "--after", "-", "--names", &names, "3"]]
    {
        sees(&out(&gk(&arguments, &bytes)), &["61. shell (step 0) forks step 1.\n"]);
    }
    sees(&out(&gk(&["line", "--after", "-", "3"], &bytes)), &["61. Step 0 forks step 1.\n"]);
}

#[test]
fn an_append_is_whole_or_not_at_all() {
    let folder = Folder::new("line-whole");
    let journal = folder.path("run.journal");
    let fails = |bytes: &[u8], arguments: &[&str], words: &str| {
        fs::write(&journal, bytes).unwrap();
        let output = gk(&[&["line"], arguments, &["3 < 1 | 3"]].concat(), b"");
        assert_eq!((output.status.code(), out(&output)), (Some(1), String::new()), "{words}");
        assert!(err(&output).contains(words), "{}", err(&output));
        assert_eq!(fs::read(&journal).unwrap(), bytes);
        assert_eq!(folder.files(), ["run.journal"]);
    };
    // The records of this line have 49 bytes, an exit has 3, and a body without bytes 1.
    let full = [2, 12, 9].repeat((65_536 - 49) / 3);
    let above = [&full[..], &[0]].concat();
    let words = "would have 65,537 bytes, and above 65,536 a journal is refused (14): nothing is appended";
    fails(&above, &["--append", &journal], words);
    fs::write(&journal, &full).unwrap();
    assert_eq!(gk(&["line", "--append", &journal, "3 < 1 | 3"], b"").status.code(), Some(0));
    assert_eq!(fs::metadata(&journal).unwrap().len(), 65_536);

    fails(
        &[3, 1, 0, 9, 3, 1],
        &["--append", &journal],
        "Refused (11): the journal breaks off here. No line is tried",
    );
    fails(
        &[3, 1, 0, 9, 3, 1],
        &["--append", &journal, "--set-up", "/dev/null"],
        "breaks off at record 2 (11)",
    );
    fails(
        &[0; 65_537],
        &["--append", &journal],
        "Refused (14): the journal is longer than 65,536 bytes. No line",
    );
    let nowhere = folder.path("no/such/file");
    fails(&[], &["--append", &nowhere], "cannot read ");
    fails(&[], &["--append", &nowhere, "--after", &journal], "cannot read ");
    fails(&[], &["--append", &folder.path(""), "--after", &journal], "is no file: nothing is appended");
    fails(
        &[],
        &["--append", "/dev/null", "--after", &journal],
        "/dev/null is no file: nothing is appended",
    );
    fails(&[], &["--append", &journal, "-o", &folder.path("no/such/file")], "cannot write ");

    // To another journal than it was tried after it is appended with a word.
    fs::write(&journal, [3, 1, 0, 9]).unwrap();
    let output = gk(&["line", "--set-up", MONTH_END, "--append", &journal, "3"], b"");
    assert_eq!(output.status.code(), Some(0));
    assert!(err(&output).contains("is not what the line was tried after"), "{}", err(&output));
    assert!(out(&output).ends_with("records 2 to 4.\n"), "{}", out(&output));
    assert_eq!(fs::read(&journal).unwrap(), [3, 1, 0, 9, 3, 9, 0, 1, 3, 10, 1, 3, 2, 12, 1]);

    // Who may read it stays as it was, and a link stays a link.
    fs::set_permissions(&journal, fs::Permissions::from_mode(0o640)).unwrap();
    std::os::unix::fs::symlink("run.journal", folder.path("link")).unwrap();
    let output = gk(&["line", "--append", &folder.path("link"), "--after", &journal, "3"], b"");
    assert_eq!((output.status.code(), err(&output)), (Some(0), String::new()));
    assert!(fs::symlink_metadata(folder.path("link")).unwrap().is_symlink());
    assert_eq!(fs::metadata(&journal).unwrap().permissions().mode() & 0o777, 0o640);
    assert_eq!(fs::read(&journal).unwrap().len(), 15 + 11);
}

#[test]
fn the_numbers_are_taken_and_said() {
    let numbers = |text: &str, line: &str, given: Given| {
        let start = Start::after(&assemble(text.as_bytes()).unwrap().journal).unwrap();
        let (numbers, words) =
            taken(given, &start, &reading::read(line.as_bytes()).unwrap(), &Names::new());
        (numbers, words.split_whitespace().collect::<Vec<&str>>().join(" "))
    };
    let none = Given::default();
    let (taken, words) = numbers("", "3 | 3", none);
    assert_eq!(taken, Numbers { shell: 0, child: 1, pipe: 0 });
    assert_eq!(
        words,
        "Tried on empty tables. Shell: step 0, and none is there. Children: from step 1 on, the lowest that are free. \
         Pipes: from number 0 on, the lowest that are free and not in the line."
    );
    // Enough in a row: steps 3 to 5, and for pipes neither files nor what the line names.
    let text = "admit 2 9 all\nadmit 6 9 all\nregister 1 9 all\nregister 4 9 all\n";
    let (taken, words) = numbers(text, "1 < 7 | 3 | 1", none);
    assert_eq!(taken, Numbers { shell: 2, child: 3, pipe: 5 });
    sees(
        &words,
        &["after 4 records. Shell: step 2, the lowest that is there. Children: from step 3 on, the"],
    );
    assert_eq!(numbers(text, "1 ; 1|1|1|1 ; 1", none).0, Numbers { shell: 2, child: 7, pipe: 5 });
    assert_eq!(numbers(text, "1", none).0, Numbers { shell: 2, child: 0, pipe: 0 });
    sees(&numbers("admit 2 9 all", "1", none).1, &["after 1 record. Shell: ", "free. No pipes."]);
    // As given, whatever they are.
    let given = Given { shell: Some(9), child: Some(u64::MAX), pipe: Some(1) };
    let (taken, words) = numbers(text, "1 | 1", given);
    assert_eq!(taken, Numbers { shell: 9, child: u64::MAX, pipe: 1 });
    sees(
        &words,
        &[
            "Shell: step 9, as given, which is not there. Children: from step 18,446,744,073,709,551,615 on, as given. \
             Pipes: from number 1 on, as given.",
        ],
    );
    // Where there are not enough in a row, and where there are none.
    let all: String = (0..32).filter(|s| s % 2 == 0).map(|s| format!("admit {s} 9 all\n")).collect();
    let (taken, words) = numbers(&all, "1 | 1", none);
    assert_eq!(taken, Numbers { shell: 0, child: 1, pipe: 0 });
    sees(&words, &["Children: from step 1 on, which are not all free: no others are."]);
    let all: String = (0..32).map(|s| format!("admit {s} 9 all\n")).collect();
    assert_eq!(numbers(&all, "1 | 1", none).0.child, 0);
}

#[test]
fn standard_input_is_the_line_or_the_set_up() {
    let set_up = fs::read(format!("{ROOT}/{MONTH_END}")).unwrap();
    let typed = out(&gk(&["line", "--set-up", MONTH_END, "3 < 2"], b""));
    for input in ["3 < 2", "3 < 2\n", "3 < 2\r\n"] {
        for arguments in [vec!["line", "--set-up", MONTH_END], vec!["line", "--set-up", MONTH_END, "-"]] {
            assert_eq!(out(&gk(&arguments, input.as_bytes())), typed, "{input:?}");
        }
    }
    assert_eq!(out(&gk(&["line", "--set-up", "-", "3 < 2"], &set_up)), typed);
    let output = gk(&["line", "--set-up", MONTH_END], b"3 < 2\n\n");
    assert_eq!(output.status.code(), Some(1));
    sees(&err(&output), &["Column 6: expected >, |, ; or the end of the line, found \"\\n\""]);
    let output = gk(&["line"], "1;".repeat(40_000).as_bytes());
    assert_eq!(output.status.code(), Some(1));
    sees(&err(&output), &["line: above 65,536 bytes a line is not tried"]);
    let output = gk(&["line", "--set-up", MONTH_END, "-o", "/dev/null", "3"], b"");
    assert_eq!((output.status.code(), out(&output)), (Some(0), String::new()));

    // What is not as it seems to be meant is said.
    let output = gk(&["line", "3"], b"");
    assert_eq!(output.status.code(), Some(0));
    sees(&err(&output), &["tried on empty tables; --after JOURNAL or --set-up TEXT gives others"]);
    let output = gk(&["line", "--set-up", "-", "3"], b"admit 0 9 all\nadmit 0 9 all\n");
    sees(
        &err(&output),
        &["the set-up's record 2: Refused (3): the number for the new thing cannot be used."],
    );
    let output = gk(&["line", "--set-up", "-", "3"], b"admit 0\n");
    assert_eq!((output.status.code(), out(&output)), (Some(1), String::new()));
    sees(&err(&output), &["standard input:1:8: expected the number level, found the end of the line"]);
}

/// A drawn number below a limit.
struct Draw(u64);

impl Draw {
    fn below(&mut self, limit: u64) -> u64 {
        self.0 = self.0.wrapping_mul(6_364_136_223_846_793_005).wrapping_add(1_442_695_040_888_963_407);
        (self.0 >> 33) % limit
    }

    fn one_of<T: Copy>(&mut self, all: &[T]) -> T {
        all[self.below(all.len() as u64) as usize]
    }

    fn number(&mut self) -> String {
        match self.below(40) {
            0 => u64::MAX.to_string(),
            1 => (u64::MAX - self.below(3)).to_string(),
            2 => self.one_of(&["18446744073709551616", "00", "01", "99999999999999999999999"]).to_string(),
            _ => self.below(12).to_string(),
        }
    }

    fn spaced(&mut self, part: &str) -> String {
        let spaces = self.one_of(&["", "", "", " ", "  "]);
        format!("{spaces}{part}{}", self.one_of(&["", "", " "]))
    }

    /// A line by L1 to L5, but for some numbers, and for long pipelines.
    fn line(&mut self) -> String {
        let pipelines = 1 + self.below(3);
        let mut line = String::new();
        for pipeline in 0..pipelines {
            line += if pipeline > 0 { ";" } else { "" };
            let stages = 1 + self.one_of(&[0, 0, 1, 1, 2, 3, 7, 8]);
            for stage in 0..stages {
                line += if stage > 0 { "|" } else { "" };
                let number = self.number();
                line += &self.spaced(&number);
                for sign in ["<", ">"] {
                    if self.below(3) == 0 {
                        let number = self.number();
                        line += sign;
                        line += &self.spaced(&number);
                    }
                }
            }
        }
        line
    }

    /// A line, or what is left of one where bytes come and go.
    fn bytes(&mut self) -> Vec<u8> {
        let mut bytes = self.line().into_bytes();
        for _ in 0..self.one_of(&[0, 0, 0, 1, 2, 9]) {
            let at = self.below(bytes.len() as u64 + 1) as usize;
            let byte = self.one_of(b" 0123<>|;;,x\t\n\x00\xff");
            match (self.below(3), at < bytes.len()) {
                (0, true) => drop(bytes.remove(at)),
                (1, true) => bytes[at] = byte,
                _ => bytes.insert(at, byte),
            }
        }
        bytes
    }
}

/// The tables of every stored journal that is run to its end, and of the first records of some.
fn starts() -> Vec<Start> {
    let mut starts: Vec<Start> =
        journals().iter().filter_map(|(_, journal)| Start::after(journal).ok()).collect();
    let march = fs::read(format!("{ROOT}/crates/payrun/stdin")).unwrap();
    let ends: Vec<usize> =
        gk_advice::records::Records::new(&march).map(|record| record.unwrap().start).collect();
    starts.extend([7, 12, 40, 150, 200].map(|records| Start::after(&march[..ends[records]]).ok().unwrap()));
    starts.push(
        Start::after(&assemble(&fs::read(format!("{ROOT}/{MONTH_END}")).unwrap()).unwrap().journal)
            .ok()
            .unwrap(),
    );
    starts
}

/// RULES L1 to L14: the reader and the list of calls against what the archive makes of the whole line.
#[test]
fn gk_and_the_archive_agree_on_drawn_lines() {
    let starts = starts();
    assert!(starts.len() >= 20, "{}", starts.len());
    let mut draw = Draw(1);
    let (mut made, mut refused, mut calls) = (0, [0; 2], [0; 3]);
    for count in 0..DRAWN {
        let line = draw.bytes();
        let start = &starts[count % starts.len()];
        let near = |draw: &mut Draw, most: u64| match draw.below(10) {
            0 => u64::MAX - draw.below(4),
            _ => draw.below(most),
        };
        let (given, _) =
            taken(Given::default(), start, &reading::read(&line).unwrap_or_default(), &Names::new());
        let numbers = match draw.below(2) {
            0 => given,
            _ => Numbers {
                shell: near(&mut draw, 33),
                child: near(&mut draw, 34),
                pipe: near(&mut draw, 60),
            },
        };
        let at =
            format!("{:?} after {} records, {numbers:?}", String::from_utf8_lossy(&line), start.records);
        match verdict(start, &line, numbers) {
            Err(differs) => panic!("{differs:?}: {at}"),
            Ok(Verdict::Refused(fault)) => {
                refused[usize::from(fault.refusal == Refusal::TooManyStages)] += 1;
                the_place_is_right(&line, &fault, &at);
            }
            Ok(Verdict::Made(line)) => {
                made += 1;
                let counts = [line.counts.allowed, line.counts.lowered, line.counts.refused];
                (0..3).for_each(|index| calls[index] += counts[index]);
                assert_eq!(counts.iter().sum::<u64>(), line.calls().len() as u64, "{at}");
            }
        }
    }
    println!("{made} lines made, {refused:?} refused; calls {calls:?}");
    assert!(made > DRAWN / 4 && refused[0] > DRAWN / 4 && refused[1] > DRAWN / 50, "{made} {refused:?}");
    assert!(calls.iter().all(|&count| count > 200), "{calls:?}");
}

const DRAWN: usize = 4_000;

/// What the archive says of bytes, whatever tables there are.
fn refusal_of(line: &[u8]) -> Option<Refusal> {
    Monitor::new().line(line, 0, 1, 2).err()
}

/// RULES R18, R19, asked of the archive. What stands before the place of an 18 is the start of a line; up to the end of
/// the place it is none, whatever comes behind. The pipeline of a 19 is one alone, and what stands before it is not.
fn the_place_is_right(line: &[u8], fault: &reading::Fault, at: &str) {
    let with = |end: usize, more: &str| refusal_of(&[&line[..end], more.as_bytes()].concat());
    let (start, end) = (fault.at.start, fault.at.end);
    if fault.refusal == Refusal::TooManyStages {
        assert_eq!(refusal_of(&line[start..end]), Some(Refusal::TooManyStages), "{at}");
        assert_eq!(with(start, "0"), None, "{at}");
        return;
    }
    let is_start = ["", "0"].iter().any(|more| with(start, more) != Some(Refusal::LineBroken));
    assert!(is_start, "{at}: {fault:?}");
    for more in ["", "0", " 0", "<0", ">0", "|0", ";0", " < 0 > 0"] {
        let is_end = start == end && !more.is_empty();
        assert!(is_end || with(end, more) == Some(Refusal::LineBroken), "{at}: {fault:?}, {more:?}");
    }
}

/// The text of drawn lines, and of the journal with their calls in it: what is refused is told alike.
#[test]
fn drawn_lines_are_told_as_their_records_are() {
    let mut draw = Draw(2);
    let names = Names::new();
    let mut seen = 0;
    for (name, journal) in journals() {
        let Ok(start) = Start::after(&journal) else {
            continue;
        };
        let line = draw.line().into_bytes();
        let read = reading::read(&line).unwrap_or_default();
        let (numbers, _) = taken(Given::default(), &start, &read, &names);
        let Ok(Verdict::Made(made)) = verdict(&start, &line, numbers) else {
            continue;
        };
        let mut longer = journal.clone();
        made.calls().iter().for_each(|call| call.write_record(&mut longer));
        let explained = explain(&longer, &names, Which::All).unwrap();
        for paragraph in paragraphs(&made, &start, &names) {
            assert!(explained.contains(&format!("\n{paragraph}")), "{name}: {paragraph}");
            seen += 1;
        }
    }
    assert!(seen >= 100, "{seen}");
}

/// What is said of each call.
fn paragraphs(made: &Made, start: &Start, names: &Names) -> Vec<String> {
    let text = made.text(start, names, Which::All);
    let body = &text[..text.find("End of the line").unwrap()];
    let mut paragraphs: Vec<String> = Vec::new();
    for line in body.lines() {
        match line.split_once(". ").filter(|(number, _)| number.parse::<u64>().is_ok()) {
            Some(_) => paragraphs.push(format!("{line}\n")),
            None if line.starts_with(' ') => {
                paragraphs.last_mut().into_iter().for_each(|paragraph| *paragraph += &format!("{line}\n"))
            }
            None => {}
        }
    }
    paragraphs
}
