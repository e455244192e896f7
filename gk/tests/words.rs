//! Journals as text, both ways, and the names that a text gives.

mod common;

use std::fs;

use common::{err, gk, journals, out, sees, Folder, ROOT};
use gk::assembly::assemble;
use gk::disassembly::disassemble;
use gk::names::{Kind, Name, Names};

fn wrong(text: &str) -> (usize, usize, String) {
    let fault = assemble(text.as_bytes()).unwrap_err();
    let message = format!("{}. {}", fault.expected, fault.advice);
    (fault.line, fault.column, message)
}

#[test]
fn words_become_records() {
    let text = "# a comment\nregister 0 2 all\n\nadmit 0 9 all # a step\r\nopen-read 0 0 0\n  read 0 0";
    let assembled = assemble(text.as_bytes()).unwrap();
    assert_eq!(assembled.journal, [5, 2, 0, 2, 0xff, 1, 5, 1, 0, 9, 0xff, 1, 4, 5, 0, 0, 0, 3, 7, 0, 0]);
    assert!(assembled.names.is_empty());
    let bytes = |text: &str| assemble(text.as_bytes()).unwrap().journal;
    assert_eq!(bytes("call 77 1 2"), [3, 77, 1, 2]);
    assert_eq!(bytes("call 300"), [2, 0xac, 0x02]);
    assert_eq!(bytes("call 12 0 5"), [3, 12, 0, 5]);
    assert_eq!(bytes("bytes 80 00 aBcD"), [0x80, 0, 0xab, 0xcd]);
    assert_eq!(bytes(""), []);
    assert_eq!(bytes("exit 4294967295").len(), 7);
    assert_eq!(bytes("retire 18446744073709551615").len(), 12);
    assert_eq!(bytes("retire 18,446,744,073,709,551,615"), bytes("retire 18446744073709551615"));
    assert_eq!(bytes("call 1,000 2,000"), bytes("call 1000 2000"));
    assert_eq!(bytes("\u{feff}admit 0 9 all\r\n"), [5, 1, 0, 9, 0xff, 1]);
    assert_eq!(bytes("connect 0 1 5 6 0 1"), [7, 17, 0, 1, 5, 6, 0, 1]);
    assert_eq!(bytes("thread 0 1"), [3, 18, 0, 1]);
    assert_eq!(
        bytes("name step 4 tax\nname step 5 \"tax reader\"\nthread tax \"tax reader\""),
        [3, 18, 4, 5]
    );
}

#[test]
fn what_is_wrong_is_named_with_its_place() {
    for (text, line, column, words) in [
        ("admit 0 9 all\n  opne-read 0 1 2", 2, 3, "Did you mean: open-read"),
        ("ADMIT 0 9", 1, 1, "Did you mean: admit"),
        ("open 0 9 1", 1, 1, "Did you mean: open-read or open-write"),
        ("payroll", 1, 1, "The words are: admit, register"),
        ("\"admit\" 0 9", 1, 1, "expected a call's word"),
        ("\u{feff}admit x 9 all", 1, 7, "or the name of a step"),
        ("admit 0", 1, 8, "expected the number level, found the end of the line"),
        ("admit", 1, 6, "Type: admit s level"),
        ("admit 0 +9", 1, 9, "in decimal"),
        ("admit 0 high", 1, 9, "in decimal"),
        ("exit 18446744073709551616", 1, 6, "at most 18,446,744,073,709,551,615"),
        ("exit 18,446,744,073,709,551,616", 1, 6, "at most 18,446,744,073,709,551,615"),
        ("admit 0,9", 1, 7, "a space between two numbers"),
        ("admit 0 1000,000", 1, 9, "a comma stands before each three digits"),
        ("exit -1", 1, 6, "in decimal"),
        ("exit 0 1 2", 1, 8, "call 12 0 1 2"),
        ("thread 0", 1, 9, "expected the number c, found the end of the line"),
        ("thred 0 1", 1, 1, "Did you mean: thread"),
        ("name file 0 book\nthread 0 book", 2, 10, "expected a step, found \"book\", the name of a file"),
        ("call", 1, 5, "expected a code"),
        ("call 77 -1", 1, 9, "expected a number in decimal"),
        ("bytes", 1, 6, "expected bytes in hex"),
        ("bytes 80 0", 1, 10, "two hex digits"),
        ("bytes \"\"", 1, 7, "two hex digits"),
        ("name", 1, 5, "expected step, file, pipe or shop"),
        ("admit 0 9", 1, 10, "From a text without sets: gk convert TEXT -o NEW"),
        ("register 0 9 # old", 1, 13, "expected a set of shop marks"),
        ("admit 0 9 north", 1, 11, "names that lines above declare, as: name shop 0 NAME"),
        ("name shop 0 north\nadmit 0 9 nort", 2, 11, "Did you mean: north"),
        ("name shop 0 north\nadmit 0 9 north,east", 2, 11, "found \"east\" in \"north,east\""),
        ("name file 0 north\nadmit 0 9 north", 2, 11, "expected a set of shop marks"),
        ("name shop 0 north\nexit north", 2, 6, "or the name of a step"),
        ("admit 0 9 north,", 1, 11, "expected a set of shop marks"),
        ("admit 0 9 1,2", 1, 11, "expected a set of shop marks"),
        ("admit 0 9 all all", 1, 15, "expected the end of the line"),
        ("name shop 8 north", 1, 11, "shop groups have 0 to 7, found 8"),
        ("name shop 0 all", 1, 13, "is not all or none"),
        ("name shop 0 \"shop 3\"", 1, 13, "has no shop before a number"),
        ("name steps 0 a", 1, 6, "found \"steps\""),
        ("name step a 0", 1, 11, "expected a number in decimal"),
        ("name step 32 a", 1, 11, "steps have 0 to 31, found 32"),
        ("name step 31 a\nname step 32 b", 2, 11, "steps have 0 to 31, found 32"),
        ("name pipe 64 a\nname file 18446744073709551616 b", 2, 11, "at most 18,446,744,073,709,551,615"),
        ("name step 0", 1, 12, "expected a name, found the end of the line"),
        ("name step 0 \"\"", 1, 13, "at least one character"),
        ("name step 0 17", 1, 13, "at least one letter"),
        ("name step 0 3com", 1, 13, "starts with a letter, or one in quotes"),
        ("name step 0 a b", 1, 15, "between two quotes"),
        ("name file 0 \"file 3\"", 1, 13, "before a number"),
        ("name step 0 \"a", 1, 13, "expected a second quote"),
        ("exit merge", 1, 6, "or a name that a line above declares"),
        ("name step 0 merge\nexit merg", 2, 6, "Did you mean: merge"),
        ("name file 0 book\nexit book", 2, 6, "expected a step, found \"book\", the name of a file"),
        ("name pipe 0 out\nregister out 9 all", 2, 10, "expected a file"),
        ("name step 0 a\nclose 0 a", 2, 9, "in decimal"),
        ("name step 0 a\nclose 0 \"a\"", 2, 9, "places and levels have no names"),
    ] {
        let (at_line, at_column, message) = wrong(text);
        assert_eq!((at_line, at_column), (line, column), "{text:?}: {message}");
        assert!(message.contains(words), "{text:?}: {message}");
    }
    let fault = assemble(b"admit 0 9 all\nadmit \xff").unwrap_err();
    assert_eq!((fault.line, fault.column), (2, 7));
    for text in [
        "a".repeat(100_000),
        format!("exit {}", "9".repeat(100_000)),
        format!("exit{}", " 1".repeat(50_000)),
    ] {
        assert!(wrong(&text).2.chars().count() < 500);
    }
}

#[test]
fn a_fault_is_shown_with_its_line() {
    let output = gk(&["assemble"], b"admit 0 9 all\nopen-raed 0 1 2\n");
    assert_eq!((output.status.code(), output.stdout.len()), (Some(1), 0));
    sees(
        &err(&output),
        &[
            "standard input:2:1: expected a call's word, found \"open-raed\"\n    open-raed 0 1 2\n    ^\n",
            "Did you mean: open-read",
        ],
    );
    let message = err(&gk(&["assemble"], b"\tadmit\t0 x"));
    assert!(message.contains("    \tadmit\t0 x\n    \t     \t  ^\n"), "{message}");
}

/// What is advised for words that are left over assembles as it stands, or is no line to type at all.
#[test]
fn what_is_advised_for_words_left_over_assembles() {
    let advised = |text: &str| {
        let (_, _, message) = wrong(text);
        message.split_once("numbers left over: ").map(|(_, line)| line.to_string())
    };
    assert_eq!(advised("register 1 2 all 7").as_deref(), Some("call 2 1 2 255 7"));
    let named = advised("name file 9 \"pay book\"\nregister \"pay book\" 2 3 4").unwrap();
    assert_eq!(named, "call 2 9 2 3 4");
    for line in ["call 2 1 2 255 7", &named] {
        assert!(assemble(line.as_bytes()).is_ok(), "{line}");
    }
    for text in ["register 1 2 all // comment", "register 1 2 7 -- 3", "exit 1 and then"] {
        assert_eq!(advised(text), None, "{text}");
        assert!(wrong(text).2.ends_with("A comment starts with #"), "{}", wrong(text).2);
    }
    let many = format!("exit 1 {}", "7 ".repeat(400));
    assert_eq!(advised(&many), None);
}

#[test]
fn a_journal_that_will_be_refused_is_written_with_a_word() {
    let line = b"admit 0 9 all\n";
    let output = gk(&["assemble"], &line.repeat(65_536 / 6));
    assert_eq!((output.status.code(), output.stdout.len(), err(&output)), (Some(0), 65_532, String::new()));
    let output = gk(&["assemble"], &line.repeat(65_536 / 6 + 1));
    assert_eq!((output.status.code(), output.stdout.len()), (Some(0), 65_538));
    assert!(err(&output).contains("the journal has 65538 bytes"), "{}", err(&output));
}

#[test]
fn calls_and_faults_are_shown() {
    let journal = [
        5, 1, 0, 9, 255, 1, // admit 0 9 all
        3, 1, 0, 9, // a set missing
        3, 77, 1, 2, // an unknown code
        0, // no code
        2, 12, 0x80, // a number cut off
        3, 12, 0, 5, // a number left over
        1, 16, // a number missing
        0x80, 0x00, 3, 1, // a padded length
    ];
    let text = "\
admit 0 9 all
call 1 0 9               # refusal 12: the number set of admit is missing
call 77 1 2              # refusal 1: no call has the code 77
bytes 00                 # refusal 12: the body is empty, there is no code
bytes 02 0c 80           # refusal 12: the number s of exit is cut off
call 12 0 5              # refusal 12: 1 byte is left over behind exit
call 16                  # refusal 12: the number level of freeze is missing
bytes 80 00 03 01        # refusal 11: the length is longer than it need be; the run stops here
";
    assert_eq!(disassemble(&journal, &Names::new()), text);
    assert_eq!(assemble(text.as_bytes()).unwrap().journal, journal);
}

#[test]
fn every_journal_comes_back() {
    let names = Names::new();
    for first in 0..=255 {
        for second in 0..=255 {
            let journal = [first, second];
            assert_eq!(assemble(disassemble(&journal, &names).as_bytes()).unwrap().journal, journal);
        }
    }
    for (name, journal) in journals() {
        let text = disassemble(&journal, &names);
        assert_eq!(assemble(text.as_bytes()).unwrap().journal, journal, "{name}");
    }
}

/// Names that are drawn at random, used again and moved about, change no byte; and the names come back, too.
#[test]
fn every_journal_comes_back_with_names() {
    let mut seed: u64 = 1;
    let mut drawn = move |limit: u64| {
        seed = seed.wrapping_mul(6_364_136_223_846_793_005).wrapping_add(1_442_695_040_888_963_407);
        (seed >> 33) % limit
    };
    for (name, journal) in journals() {
        let mut names = Names::new();
        let records = gk_advice::records::Records::new(&journal).count() as u64;
        for _ in 0..60 {
            let kind = Kind::ALL[drawn(3) as usize];
            let called = ["a", "b 2", "c", "d", "e-5", "f"][drawn(6) as usize];
            names.give(kind, drawn(8), 1 + drawn(records), Name::new(called).unwrap());
        }
        let text = disassemble(&journal, &names);
        let again = assemble(text.as_bytes()).unwrap();
        assert_eq!(again.journal, journal, "{name}");
        assert_eq!(again.names, names, "{name}");
        let told = gk::explain::explain(&journal, &names, gk::explain::Which::All).unwrap();
        assert!(told.chars().all(|letter| letter == '\n' || !letter.is_control()), "{name}");
        // Names change no answer and no record.
        let plain = gk::explain::explain(&journal, &Names::new(), gk::explain::Which::All).unwrap();
        for letter in ["  Allowed. ", "  Lowered. ", "  Refused ("] {
            assert_eq!(told.matches(letter).count(), plain.matches(letter).count(), "{name}");
        }
    }
}

#[test]
fn a_name_holds_from_the_next_record_on() {
    let text = "name step 1 first\nadmit first 9 all\nbytes 03 01 02 09\nname step 1 second\nname file 0 \
                first\nregister first 2 all\nexit second\nname pipe 5 last";
    let assembled = assemble(text.as_bytes()).unwrap();
    assert_eq!(
        assembled.names.text(),
        "names 1\nstep 1 1 first\nstep 1 3 second\nfile 0 3 first\npipe 5 5 last\n"
    );
    assert_eq!(assembled.journal, [5, 1, 1, 9, 255, 1, 3, 1, 2, 9, 5, 2, 0, 2, 255, 1, 2, 12, 1]);
    // The number has another name now, and the name another number.
    assert!(wrong("name step 1 intake\nname step 1 reader\nexit intake")
        .2
        .contains("or a name that a line above declares"));
    let moved = assemble(b"name step 1 a\nname step 2 a\nexit a").unwrap();
    assert_eq!(moved.journal, [2, 12, 2]);
}

#[test]
fn the_names_are_kept_beside_the_journal() {
    let folder = Folder::new("names");
    let journal = folder.path("run.journal");
    let text =
        b"name step 17 merge\nname file 1 \"the sheet\"\nadmit merge 9 all\nregister \"the sheet\" 2 all\n\
                 open-read merge \"the sheet\" 0\n";
    let output = gk(&["assemble", "-o", &journal], text);
    assert_eq!((output.status.code(), err(&output)), (Some(0), String::new()));
    assert_eq!(folder.files(), ["run.journal", "run.names"]);
    let names = fs::read_to_string(folder.path("run.names")).unwrap();
    assert_eq!(names, "names 1\nstep 17 1 merge\nfile 1 1 the sheet\n");
    assert_eq!(out(&gk(&["disassemble", &journal], b"")), String::from_utf8_lossy(text));
    let told = out(&gk(&["explain", &journal], b""));
    sees(
        &told,
        &["3. merge (step 17) opens the sheet (file 1) for reading at place 0.\n  Allowed. The sheet has"],
    );
    // From standard input there is nothing beside it; --names says where.
    let bytes = fs::read(&journal).unwrap();
    assert!(!out(&gk(&["explain"], &bytes)).contains("merge"));
    assert_eq!(out(&gk(&["explain", "--names", &folder.path("run.names")], &bytes)), told);

    // A text without names leaves none of an earlier one.
    assert_eq!(gk(&["assemble", "-o", &journal], b"admit 17 9 all\n").status.code(), Some(0));
    assert_eq!(fs::read_to_string(folder.path("run.names")).unwrap(), "names 1\n");
    // What is no names file is not written over.
    fs::write(folder.path("run.names"), "a list of my own\n").unwrap();
    let output = gk(&["assemble", "-o", &journal], text);
    assert_eq!(output.status.code(), Some(1));
    assert!(err(&output).contains("is no names file"), "{}", err(&output));
    assert_eq!(fs::read(&journal).unwrap(), [5, 1, 17, 9, 255, 1]);
    assert_eq!(fs::read_to_string(folder.path("run.names")).unwrap(), "a list of my own\n");

    let output = gk(&["assemble"], text);
    assert_eq!((output.status.code(), output.stdout), (Some(0), bytes.clone()));
    assert!(err(&gk(&["assemble"], text)).contains("the names are not kept"));
    let output = gk(&["assemble", "--names", &folder.path("other")], text);
    assert_eq!((output.status.code(), err(&output), output.stdout), (Some(0), String::new(), bytes));
    assert_eq!(fs::read_to_string(folder.path("other")).unwrap(), names);
    // No names file is made where there are no names and none is asked for.
    assert_eq!(gk(&["assemble", "-o", &folder.path("plain")], b"admit 0 9 all").status.code(), Some(0));
    assert_eq!(folder.files(), ["other", "plain", "run.journal", "run.names"]);
}

#[test]
fn a_name_is_not_taken_for_that_of_the_next_thing() {
    let folder = Folder::new("again");
    let text = b"name step 1 intake\nname file 2 sheet\nadmit 1 9 all\nregister 2 9 all\nretire 2\nexit 1\nread 1 0\nadmit \
                 1 4 all\nexit 1\nname step 1 reader\nadmit 1 5 all\nname pipe 2 line\npipe 1 2 0 1\n";
    let journal = folder.path("run.journal");
    assert_eq!(gk(&["assemble", "-o", &journal], text).status.code(), Some(0));
    let told = out(&gk(&["explain", &journal], b""));
    sees(
        &told,
        &[
            "1. intake (step 1) is admitted",
            "3. sheet (file or pipe 2) is retired".replace("file or pipe", "file").as_str(),
            "4. intake (step 1) exits",
            "5. intake (step 1) may not read",
            "6. Step 1 is admitted from outside at level 4.\n  Allowed. Step 1 runs at level 4, with no handles.",
            "7. Step 1 exits",
            "8. reader (step 1) is admitted",
            "9. reader (step 1) makes line (pipe 2), reading",
            "Allowed. line is empty and starts at the level of reader, 5.",
        ],
    );
    assert_eq!(told.matches("intake").count(), 5, "{told}");
}

#[test]
fn the_pay_run_of_march_in_words_is_the_one_that_is_run() {
    let text = fs::read(format!("{ROOT}/gk/examples/march.txt")).unwrap();
    let assembled = assemble(&text).unwrap();
    assert_eq!(assembled.journal, fs::read(format!("{ROOT}/crates/payrun/stdin")).unwrap());
    let told = gk::explain::explain(&assembled.journal, &assembled.names, gk::explain::Which::All).unwrap();
    let stored = include_str!("../examples/march.explained.txt");
    for (line, (one, other)) in (1..).zip(told.lines().zip(stored.lines())) {
        assert_eq!(one, other, "line {line}");
    }
    assert_eq!(told, stored);
}

#[test]
fn sets_of_shop_marks_are_words() {
    let bytes = |text: &str| assemble(text.as_bytes()).unwrap().journal;
    let set = |text: &str| {
        bytes(&format!("name shop 0 north\nname shop 5 \"the east\"\nadmit 0 9 {text}"))[4..].to_vec()
    };
    for (text, expected) in [
        ("none", vec![0]),
        ("all", vec![255, 1]),
        ("0", vec![0]),
        ("255", vec![255, 1]),
        ("256", vec![128, 2]),
        ("north", vec![1]),
        ("\"north,the east\"", vec![33]),
        ("\"the east, shop 3\"", vec![40]),
    ] {
        assert_eq!(set(text), expected, "{text}");
    }
    // Back to words: names where each group has one, or else the number.
    let text = "name shop 0 north\nname shop 5 \"the east\"\nadmit 0 9 north\nregister 1 9 \"north,the east\"\nadmit 2 9 3\n\
                name shop 1 west\nname shop 0 south\nadmit 3 9 south,west\nadmit 4 9 none\nregister 5 9 all\nregister 6 9 300\n";
    let assembled = assemble(text.as_bytes()).unwrap();
    assert_eq!(disassemble(&assembled.journal, &assembled.names), text);
    assert_eq!(
        assembled.names.text(),
        "names 1\nshop 0 1 north\nshop 5 1 the east\nshop 1 4 west\nshop 0 4 south\n"
    );
}

#[test]
fn an_old_journal_is_converted_with_its_names() {
    let folder = Folder::new("convert");
    let old = [3, 2, 1, 2, 3, 1, 0, 9, 4, 5, 0, 1, 0, 3, 7, 0, 0];
    fs::write(folder.path("old.journal"), old).unwrap();
    let names = "names 1\nstep 0 1 reader\nfile 1 1 sheet\n";
    fs::write(folder.path("old.names"), names).unwrap();
    let output = gk(&["convert", &folder.path("old.journal"), "-o", &folder.path("new.journal")], b"");
    assert_eq!((output.status.code(), err(&output), out(&output)), (Some(0), String::new(), String::new()));
    assert_eq!(folder.files(), ["new.journal", "new.names", "old.journal", "old.names"]);
    assert_eq!(fs::read_to_string(folder.path("new.names")).unwrap(), names);
    let new = fs::read(folder.path("new.journal")).unwrap();
    assert_eq!(new, [5, 2, 1, 2, 255, 1, 5, 1, 0, 9, 255, 1, 4, 5, 0, 1, 0, 3, 7, 0, 0]);
    assert_eq!(out(&gk(&["run"], &new)), "1 2 A 2\n2 1 A 9\n3 5 A 2\n4 7 L 2 0\nend 1 0 1\n");
    // To standard output the names do not go; beside another ending they are there already.
    let output = gk(&["convert", &folder.path("old.journal")], b"");
    assert_eq!((output.status.code(), &output.stdout), (Some(0), &new));
    assert!(err(&output).contains("the names are not kept: give -o FILE"), "{}", err(&output));
    let output = gk(&["convert", &folder.path("old.journal"), "-o", &folder.path("old.new")], b"");
    assert_eq!((output.status.code(), err(&output)), (Some(0), String::new()));
    assert_eq!(fs::read_to_string(folder.path("old.names")).unwrap(), names);
    // What has sets is left alone, and what drew 14 as well.
    for (bytes, said) in [(new, "have sets already"), (vec![0; 65_537], "as it was it drew 14")] {
        let output = gk(&["convert"], &bytes);
        assert_eq!((output.status.code(), out(&output)), (Some(1), String::new()));
        assert!(err(&output).contains(said), "{}", err(&output));
    }
    let text = "# hours\nregister 1 2 # unchecked\nadmit 0 9\n";
    let output = gk(&["convert"], text.as_bytes());
    assert_eq!((output.status.code(), err(&output)), (Some(0), String::new()));
    assert_eq!(out(&output), "# hours\nregister 1 2 all # unchecked\nadmit 0 9 all\n");
    let output = gk(&["convert"], out(&output).as_bytes());
    assert_eq!(output.status.code(), Some(1));
    sees(&err(&output), &["have sets already"]);
    // Where it goes beyond, and what is left as it is.
    let long = [[3, 1, 0, 9].repeat(16_383), vec![2, 1, 0]].concat();
    let output = gk(&["convert"], &long);
    assert_eq!((output.status.code(), output.stdout.len()), (Some(0), 6 * 16_383 + 3));
    sees(
        &err(&output),
        &[
            "record 16384 drew 12 (the number level of admit is missing) and is left as it is: it draws 12 again",
            "with its sets the journal has 98,301 bytes: it goes beyond 65,536 at record 10923. So it is refused (14)",
        ],
    );
}
