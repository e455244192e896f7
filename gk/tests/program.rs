//! The program from outside: help, exit statuses, reading and writing.

mod common;

use std::fs;
use std::io::Read;
use std::process::{Command, Stdio};

use common::{err, gk, journals, out, types, Folder, ROOT};
use gk::{cli, help};

const MARCH: &str = "crates/payrun/stdin";
/// Those that read a file; `line` takes a line in its place, `try` calls and `why` a thing behind it.
const COMMANDS: [&str; 4] = ["run", "explain", "assemble", "disassemble"];

#[test]
fn help_teaches_with_an_example() {
    for arguments in [vec!["--help"], vec!["help"], vec!["-h"], vec!["help", "help"]] {
        let output = gk(&arguments, b"");
        assert_eq!((output.status.code(), out(&output)), (Some(0), cli::whole_help()));
    }
    let helps = cli::helps();
    let words: Vec<&str> = helps.iter().map(|(word, _)| *word).collect();
    assert_eq!(
        words,
        ["run", "explain", "why", "assemble", "disassemble", "convert", "line", "try", "audit"]
    );
    for (command, text) in helps {
        assert!(cli::whole_help().contains(&format!("  {command} ")), "{command}");
        assert!(text.contains("Example"), "{command}");
        assert!(text.starts_with(&format!("gk {command} - ")), "{command}");
        for arguments in [vec![command, "--help"], vec!["help", command], vec![command, "-h"]] {
            let output = gk(&arguments, b"");
            assert_eq!((output.status.code(), out(&output)), (Some(0), text.to_string()));
        }
    }
    assert_eq!(out(&gk(&["help", "names"], b"")), help::NAMES);
    // Libraries of their own have these, and their help.
    for command in ["trace", "screen", "guard"] {
        assert!(cli::whole_help().contains(&format!("  {command} ")), "{command}");
        let [one, other] = [["help", command], [command, "--help"]].map(|words| gk(&words, b""));
        assert_eq!((one.status.code(), out(&one)), (Some(0), out(&other)));
        assert!(out(&one).contains(&format!("gk {command} ")), "{}", out(&one));
    }
}

#[test]
fn the_version_is_that_of_the_gatekeeper() {
    let manifest = fs::read_to_string(format!("{ROOT}/host/rust/Cargo.toml")).unwrap();
    let version = manifest.lines().find_map(|line| line.strip_prefix("version = ")).unwrap();
    assert_eq!(out(&gk(&["--version"], b"")), format!("gk {}\n", version.trim_matches('"')));
}

/// The examples in the help texts do what they say, typed in a folder like the repository's.
#[test]
fn the_examples_of_the_help_run() {
    let folder = Folder::new("examples");
    fs::create_dir(folder.0.join("tools")).unwrap();
    std::os::unix::fs::symlink(env!("CARGO_BIN_EXE_gk"), folder.0.join("tools/gk")).unwrap();
    for name in ["crates", "gk"] {
        std::os::unix::fs::symlink(format!("{ROOT}/{name}"), folder.0.join(name)).unwrap();
    }
    let mut tried = 0;
    let whole = cli::whole_help();
    let topics = help::TOPICS.iter().copied();
    for (page, text) in cli::helps().into_iter().chain(topics).chain([("help", whole.as_str())]) {
        let mut lines = text.lines().peekable();
        while let Some(line) = lines.next() {
            if !line.starts_with("  ") || !line.contains("tools/gk ") || line.contains("which builds it") {
                continue;
            }
            let output = Command::new("bash")
                .args(["-c", &format!("set -o pipefail; {line}")])
                .current_dir(&folder.0)
                .stdin(Stdio::null())
                .output()
                .unwrap();
            assert_eq!(output.status.code(), Some(0), "{page}: {line}\n{}", err(&output));
            // What stands below an example, indented further, is what it writes.
            let mut shown = String::new();
            while let Some(below) = lines.next_if(|below| below.starts_with("    ")) {
                shown.push_str(&format!("{}\n", &below[4..]));
            }
            assert!(shown.is_empty() || shown == out(&output), "{page}: {line}\n{}", out(&output));
            assert!(line.contains(" -o ") || !output.stdout.is_empty(), "{page}: {line}");
            tried += 1;
        }
    }
    assert!(tried >= 30, "only {tried} examples were found");
    assert!(folder.files().contains(&"march.names".to_string()));
}

/// The text that the page for operators has on shop marks is assembled, and what the page shows of it is what comes.
#[test]
fn the_page_for_operators_shows_shop_marks() {
    let folder = Folder::new("shops-page");
    let page = fs::read_to_string(format!("{ROOT}/docs/OPERATOR.md")).unwrap();
    let block = |behind: &str| {
        let rest = page.split(behind).nth(1).unwrap_or_else(|| panic!("no \"{behind}\" on the page"));
        rest.split("```\n").nth(1).unwrap().to_string()
    };
    let journal = folder.path("sheets.journal");
    let assembled = gk(&["assemble", "-", "-o", &journal], block("`sheets.txt`:").as_bytes());
    assert_eq!((assembled.status.code(), err(&assembled)), (Some(0), String::new()));
    assert!(out(&gk(&["run", &journal], b"")).contains("\n6 7 L 12 6\n") && page.contains("`6 7 L 12 6`"));
    let told = out(&gk(&["explain", &journal], b""));
    for part in block("`tools/gk explain sheets.journal`):").split("…\n") {
        assert!(part.lines().count() > 2 && told.contains(part), "{part} is not in:\n{told}");
    }
}

#[test]
fn the_page_for_operators_shows_what_comes() {
    let page = fs::read_to_string(format!("{ROOT}/docs/OPERATOR.md")).unwrap();
    let blocks = page.split("```\n").skip(1).step_by(2);
    assert_eq!(blocks.map(|block| types("docs/OPERATOR.md", block)).sum::<usize>(), 10);
}

#[test]
fn a_bad_command_line_has_status_2() {
    let wrong: &[(&[&str], &str)] = &[
        (&[], "expected a command"),
        (&["payroll"], "There are: run, explain"),
        (&["EXPLAIN"], "Did you mean: explain"),
        (&["exlain"], "Did you mean: explain"),
        (&["help", "payroll"], "there is no help on"),
        (&["help", "name"], "Did you mean: names"),
        (&["help", "run", "explain"], "found \"explain\" as well"),
        (&["explain", "--refuse"], "Did you mean: --refused"),
        (&["explain", "--summry"], "Did you mean: --summary"),
        (&["explain", "--summary", "--json"], "--summary stands alone"),
        (&["explain", "--summary", "--refused"], "--summary stands alone"),
        (&["explain", "--summary", "--step", "1"], "--summary stands alone"),
        (&["explain", "--names"], "--names needs a file"),
        (&["explain", "--step"], "--step needs a name or a number behind it"),
        (&["explain", "--file", " ", MARCH], "--file needs a name or a number behind it"),
        (&["explain", "--step", "1", "--step", "2", MARCH], "--step is given twice"),
        (&["explain", "--code"], "--code needs a number or the word of a call behind it"),
        (&["explain", "--code", "opne-read", MARCH], "found \"opne-read\": did you mean open-read?"),
        (
            &["explain", "--refusal", "20", MARCH],
            "--refusal needs the number of a refusal, 1 to 19, not 20",
        ),
        (&["explain", "--refusal", "nine", MARCH], "--refusal needs a number behind it, found \"nine\""),
        (&["explain", "--from", "0", MARCH], "the first one is 1"),
        (&["explain", "--to", "0", MARCH], "the first one is 1"),
        (&["explain", "--from", "9", "--to", "8", MARCH], "nothing would be told"),
        (
            &["explain", "--from", "307", MARCH],
            "--from needs a record of the journal, which has 306 records",
        ),
        (&["run", "-o"], "-o needs a file"),
        (&["run", "-o", "/dev/null", "-o", "/dev/null"], "-o is given twice"),
        (&["run", "--names", "x"], "Its options are: -o"),
        (&["run", "one", "two"], "found \"two\" as well"),
        (&["assemble", "-o", "run.names", "/dev/null"], "need two files"),
        (&["disassemble", "--json"], "there is no option \"--json\""),
        (&["assemble", "--names", "-"], "--names needs a file, not standard output"),
        (&["--version", "x"], "expected nothing behind it, found \"x\""),
        (&["line", "3", "<", "1"], "expected one line, found \"<\" as well: put the line in quotes"),
        (&["line", "--shell"], "--shell needs a number behind it"),
        (&["line", "--child", "x", "3"], "--child needs a number behind it, found \"x\""),
        (&["line", "--pipe", "18446744073709551616", "3"], "--pipe needs a number behind it"),
        (&["line", "--after"], "--after needs a file behind it"),
        (&["line", "--after", MARCH, "--set-up", "/dev/null", "3"], "do not go together"),
        (&["line", "--set-up", "/dev/null", "--names", "x", "3"], "--names goes with a journal"),
        (&["line", "--names", "x", "3"], "--names goes with a journal"),
        (&["line", "--after", "-"], "standard input cannot be two things"),
        (&["line", "--set-up", "-", "-"], "standard input cannot be two things"),
        (&["line", "--append", "-", "3"], "--append needs a file, not standard output"),
        (&["line", "-3"], "there is no option \"-3\""),
        (&["lines"], "Did you mean: line"),
        (&["why"], "expected a journal, and a thing behind it, as: step 17, pipe 37, or a name"),
        (&["why", MARCH], "expected a journal, and a thing behind it"),
        (&["why", MARCH, "17"], "expected a journal, and a thing behind it"),
        (&["why", MARCH, "step 1", "--at", "307"], "a record of the journal, which has 306 records"),
        (&["why", MARCH, "step 1", "--at", "x"], "--at needs a number behind it, found \"x\""),
        (&["why", "--refused", MARCH, "step 1"], "Its options are: --at, --names, -o"),
        (&["audit"], "expected a folder, or several"),
        (&["audit", "-"], "standard input is none"),
        (&["audit", "--jobs", "crates"], "--jobs needs a number behind it, found \"crates\""),
        (&["audit", "--jobs", "0", "crates"], "--jobs needs a number from 1 to 1024, not 0"),
        (&["audit", "--jsn", "crates"], "Did you mean: --json"),
        (&["try"], "expected a journal, and calls behind it, each in quotes"),
        (&["try", MARCH], "expected a journal, and calls behind it, each in quotes"),
        (&["try", MARCH, "--at"], "--at needs a number behind it"),
        (&["try", MARCH, "--at", "last", "exit 0"], "--at needs a number behind it, found \"last\""),
        (&["try", MARCH, "--at", "307", "exit 0"], "a record of the journal, which has 306 records"),
        (&["try", "--json", MARCH, "exit 0"], "Its options are: --at, --names, -o, --refused"),
    ];
    for (arguments, words) in wrong {
        let output = gk(arguments, b"");
        assert_eq!(output.status.code(), Some(2), "{arguments:?}");
        assert!(
            err(&output).starts_with("gk: ") && err(&output).contains(words),
            "{arguments:?}: {}",
            err(&output)
        );
        assert!(output.stdout.is_empty(), "{arguments:?}");
    }
}

#[test]
fn a_failed_read_has_status_1() {
    for command in COMMANDS {
        for (file, words) in
            [("no/such/file", "cannot read no/such/file"), ("crates", "cannot read crates: it is a folder")]
        {
            let output = gk(&[command, file], b"");
            assert_eq!(output.status.code(), Some(1), "{command}");
            assert!(err(&output).contains(words), "{command}: {}", err(&output));
        }
    }
    for (names, words) in
        [("no/such/file", "No such file"), ("crates", "it is a folder"), ("README.md", "line 1")]
    {
        let output = gk(&["explain", "--names", names, MARCH], b"");
        assert_eq!((output.status.code(), out(&output)), (Some(1), String::new()), "{names}");
        assert!(err(&output).contains(words), "{}", err(&output));
    }
}

#[test]
fn standard_input_is_read_for_a_dash_or_no_file() {
    let journal = fs::read(format!("{ROOT}/{MARCH}")).unwrap();
    for command in ["run", "explain", "disassemble"] {
        let of_file = gk(&[command, MARCH], b"");
        for arguments in [vec![command], vec![command, "-"]] {
            assert_eq!(gk(&arguments, &journal).stdout, of_file.stdout);
        }
    }
    assert_eq!(gk(&["assemble", "-"], b"admit 0 9 all").stdout, [5, 1, 0, 9, 255, 1]);
    assert_eq!(gk(&["assemble", "-", "-o", "-"], b"admit 0 9 all").stdout, [5, 1, 0, 9, 255, 1]);
}

#[test]
fn a_file_behind_o_is_written_whole_or_not_at_all() {
    let folder = Folder::new("whole");
    let file = folder.path("replies");
    let output = gk(&["run", MARCH, "-o", &file], b"");
    assert_eq!((output.status.code(), out(&output), err(&output)), (Some(0), String::new(), String::new()));
    assert_eq!(fs::read_to_string(&file).unwrap(), out(&gk(&["run", MARCH], b"")));
    assert_eq!(folder.files(), ["replies"]);

    // What was there stays where the work fails, and nothing else is left.
    fs::write(&file, "as it was").unwrap();
    assert_eq!(gk(&["assemble", "-o", &file], b"payroll").status.code(), Some(1));
    assert_eq!(fs::read_to_string(&file).unwrap(), "as it was");
    let output = gk(&["run", MARCH, "-o", &folder.path("no/such/file")], b"");
    assert_eq!(output.status.code(), Some(1));
    assert!(err(&output).contains("cannot write"), "{}", err(&output));
    let output = gk(&["run", MARCH, "-o", ""], b"");
    assert!(err(&output).contains("cannot write \"\": "), "{}", err(&output));
    let output = gk(&["run", MARCH, "-o", &folder.path("")], b"");
    assert_eq!(output.status.code(), Some(1));
    assert!(err(&output).contains("it is a folder"), "{}", err(&output));
    assert_eq!(folder.files(), ["replies"]);

    // A link stays one, and a device is written to.
    std::os::unix::fs::symlink(&file, folder.path("link")).unwrap();
    assert_eq!(gk(&["run", MARCH, "-o", &folder.path("link")], b"").status.code(), Some(0));
    assert!(fs::symlink_metadata(folder.path("link")).unwrap().is_symlink());
    assert_eq!(fs::read_to_string(&file).unwrap().lines().last(), Some("end 157 157 0"));
    assert_eq!(gk(&["run", MARCH, "-o", "/dev/null"], b"").status.code(), Some(0));
    let output = gk(&["run", MARCH, "-o", "/dev/full"], b"");
    assert_eq!(output.status.code(), Some(1));
    assert!(err(&output).contains("cannot write /dev/full"), "{}", err(&output));
}

#[test]
fn an_output_replaces_no_input() {
    let folder = Folder::new("replaces");
    fs::create_dir(folder.0.join("sub")).unwrap();
    let text = "admit 0 9 all\nname step 0 merge\n";
    let files = [
        ("run.journal", "\u{4}\u{1}\0\t\u{3}"),
        ("run.names", "names 1\n"),
        ("run.txt", text),
        ("old.journal", "\u{3}\u{1}\0\t"),
        ("old.txt", "admit 0 9\n"),
    ];
    for (name, bytes) in files {
        fs::write(folder.path(name), bytes).unwrap();
    }
    std::os::unix::fs::symlink("run.journal", folder.path("link")).unwrap();
    for line in [
        "run run.journal -o run.journal",
        "run run.journal -o sub/../run.journal",
        "run link -o run.journal",
        "run -o run.journal <run.journal",
        "run run.journal -o run.names",
        "explain run.journal -o run.journal",
        "explain run.journal -o link",
        "explain run.journal --json -o run.names",
        "explain run.journal --names run.names -o ./run.names",
        "explain --names run.names -o run.names <run.journal",
        "disassemble run.journal -o run.journal",
        "disassemble run.journal -o run.names",
        "assemble run.txt -o run.txt",
        "assemble -o run.txt <run.txt",
        "assemble run.txt -o other.journal --names run.txt",
        "convert old.journal -o old.journal",
        "convert old.journal --names run.names -o run.names",
        "convert old.txt -o old.txt",
        "line --after run.journal -o run.journal 3",
        "line --after run.journal -o run.names 3",
        "line --after run.journal --names run.names -o run.names 3",
        "line --append run.journal -o link 3",
        "line --set-up /dev/null --append run.journal -o run.journal 3",
        "line --set-up run.txt -o run.txt 3",
        "line --set-up - -o run.txt 3 <run.txt",
        "line --set-up run.txt -o run.journal <run.journal",
        "why run.journal -o run.journal step 0",
        "why - step 0 -o run.journal <run.journal",
        "try run.journal -o run.journal 'exit 0'",
        "try - -o run.journal 'exit 0' <run.journal",
        "try run.journal -o run.names 'exit 0'",
    ] {
        let output = Command::new("bash")
            .args(["-c", &format!("'{}' {line}", env!("CARGO_BIN_EXE_gk"))])
            .current_dir(&folder.0)
            .stdin(Stdio::null())
            .output()
            .unwrap();
        assert_eq!((output.status.code(), out(&output)), (Some(2), String::new()), "{line}");
        let said = "the output would replace the input: nothing is written";
        assert!(err(&output).contains(said), "{line}: {}", err(&output));
        for (name, bytes) in files {
            assert_eq!(fs::read_to_string(folder.path(name)).unwrap(), bytes, "{line}");
        }
        assert_eq!(
            folder.files(),
            ["link", "old.journal", "old.txt", "run.journal", "run.names", "run.txt", "sub"],
            "{line}"
        );
    }
}

#[test]
fn a_closed_input_has_status_1_where_it_is_to_be_read() {
    let folder = Folder::new("closed");
    let levels = format!("{ROOT}/gk/trace/tests/runs/pay.levels");
    let trace = format!("trace --levels '{levels}' -o a.journal");
    for line in [
        "run",
        "explain -",
        "disassemble",
        "assemble -o a.journal",
        "line",
        "line --after - 3",
        "line --set-up - 3",
        "try - 'exit 0'",
        "why - step 0",
        &trace,
        "screen -",
    ] {
        let line = format!("'{}' {line} <&-", env!("CARGO_BIN_EXE_gk"));
        let output = Command::new("bash").args(["-c", &line]).current_dir(&folder.0).output().unwrap();
        assert_eq!((output.status.code(), out(&output)), (Some(1), String::new()), "{line}");
        assert!(err(&output).ends_with(": standard input is closed\n"), "{line}: {}", err(&output));
        assert!(folder.files().is_empty(), "{line}");
    }
    // Where a file is read, and where the input is empty, all is well.
    for line in [format!("run {MARCH} <&-"), "run </dev/null".to_string()] {
        let line = format!("'{}' {line}", env!("CARGO_BIN_EXE_gk"));
        let output = Command::new("bash").args(["-c", &line]).current_dir(ROOT).output().unwrap();
        assert_eq!((output.status.code(), err(&output)), (Some(0), String::new()), "{line}");
    }
}

#[test]
fn a_closed_or_full_output_has_status_1() {
    for command in ["run", "explain", "help"] {
        let line = format!("{} {command} {MARCH} >&-", env!("CARGO_BIN_EXE_gk"));
        let line = if command == "help" { line.replace(MARCH, "") } else { line };
        let output = Command::new("bash").args(["-c", &line]).current_dir(ROOT).output().unwrap();
        assert_eq!(output.status.code(), Some(1), "{command}");
        assert!(err(&output).contains("standard output is closed"), "{}", err(&output));
    }
    let output = Command::new(env!("CARGO_BIN_EXE_gk"))
        .args(["run", MARCH])
        .current_dir(ROOT)
        .stdout(fs::File::create("/dev/full").unwrap())
        .output()
        .unwrap();
    assert_eq!(output.status.code(), Some(1));
    assert!(err(&output).contains("cannot write standard output"), "{}", err(&output));
    // Into nothing is no fault.
    for nothing in ["> /dev/null", "<> /dev/null >&0"] {
        let line = format!("{} run {MARCH} {nothing}", env!("CARGO_BIN_EXE_gk"));
        let output = Command::new("bash").args(["-c", &line]).current_dir(ROOT).output().unwrap();
        assert_eq!((output.status.code(), err(&output)), (Some(0), String::new()));
    }
}

#[test]
fn a_reader_that_stops_ends_the_program_without_a_word() {
    let mut child = Command::new(env!("CARGO_BIN_EXE_gk"))
        .args(["explain", MARCH])
        .current_dir(ROOT)
        .stdin(Stdio::null())
        .stdout(Stdio::piped())
        .stderr(Stdio::piped())
        .spawn()
        .unwrap();
    drop(child.stdout.take());
    let mut message = String::new();
    child.stderr.take().unwrap().read_to_string(&mut message).unwrap();
    assert_eq!((child.wait().unwrap().code(), message), (Some(141), String::new()));
    let line = format!("{} explain {MARCH} | head -n 1", env!("CARGO_BIN_EXE_gk"));
    let output = Command::new("bash").args(["-c", &line]).current_dir(ROOT).output().unwrap();
    assert_eq!(err(&output), "");
}

#[test]
fn what_is_foreign_is_shown_escaped_and_cut() {
    let long = "x".repeat(1 << 20);
    let word = "x".repeat(1 << 16);
    let wrong: &[(&[&str], &[u8])] = &[
        (&["assemble"], b"\x1b]0;title\x07 0 9"),
        (&["assemble"], b"admit \x1b[2J 9"),
        (&["assemble"], b"admit 0 9 all # \x1b[2J\x9b\xff"),
        (&["assemble"], b"name step 0 \"\x1b[2J\""),
        (&["assemble"], b"name step 0 \x1b[2J"),
        (&["assemble"], b"name \x1b[2J 0 a"),
        (&["assemble"], b"admit 0 \"\x1b[2J"),
        (&["assemble"], long.as_bytes()),
        (&["\x1b[2J"], b""),
        (&["help", "\x1b[2J"], b""),
        (&["explain", "--\x1b[2J"], b""),
        (&["explain", "no/such/\x1b[2J"], b""),
        (&["explain", "--names", "no/such/\x1b[2J"], b""),
        (&["run", "-o", "no/such/\x1b[2J"], b""),
        (&["line", "3 \x1b[2J"], b""),
        (&["line"], b"3 < \x9b\xff\x07"),
        (&["line", "--shell", "\x1b[2J", "3"], b""),
        (&["line", "--after", "no/such/\x1b[2J", "3"], b""),
        (&["line"], long.as_bytes()),
        (&[&word], b""),
    ];
    for (arguments, input) in wrong {
        let output = gk(arguments, input);
        assert_ne!(output.status.code(), Some(0), "{arguments:?}");
        let message = err(&output);
        assert!(message.chars().all(|letter| letter == '\n' || !letter.is_control()), "{message:?}");
        assert!(message.len() < 1000, "{arguments:?}");
    }
}

#[test]
fn input_without_end_is_not_read_to_its_end() {
    for (command, status, words) in [
        ("run", 0, "1 0 R 14\nend 0 0 0\n"),
        ("explain", 0, "The journal is refused (14)"),
        ("disassemble", 0, "# refusal 14: the journal is longer than 65536 bytes"),
        ("assemble", 1, ""),
    ] {
        let output = gk(&[command, "/dev/zero"], b"");
        assert_eq!(output.status.code(), Some(status), "{command}");
        assert!(out(&output).starts_with(words), "{command}");
        assert_eq!(err(&output).is_empty(), command == "run", "{command}");
    }
    let output = gk(&["explain", "--names", "/dev/zero", MARCH], b"");
    assert_eq!(output.status.code(), Some(1));
}

#[test]
fn a_text_in_the_place_of_a_journal_is_answered_with_a_word() {
    let texts: [&[u8]; 2] = [b"admit 0 9 all\n", b"\xef\xbb\xbfadmit"];
    let journals: [&[u8]; 2] = [b"\x03\x01\x00\x09", b""];
    for command in ["run", "explain", "disassemble"] {
        for (bytes, is_said) in
            texts.map(|text| (text, true)).into_iter().chain(journals.map(|bytes| (bytes, false)))
        {
            let output = gk(&[command], bytes);
            assert_eq!(output.status.code(), Some(0), "{command}");
            assert_eq!(err(&output).contains("looks like a text"), is_said, "{command}: {}", err(&output));
        }
    }
}

#[test]
fn behind_two_dashes_stands_a_file() {
    for command in COMMANDS {
        let output = gk(&[command, "-x"], b"");
        assert_eq!(output.status.code(), Some(2), "{command}");
        assert!(err(&output).contains("there is no option \"-x\""), "{command}");
        let output = gk(&[command, "--", "-x"], b"");
        assert_eq!(output.status.code(), Some(1), "{command}");
        assert!(err(&output).contains("cannot read -x"), "{command}");
    }
}

/// In a pipe the names file is not there yet when the second program starts.
#[test]
fn a_trace_is_explained_from_a_pipe_with_its_names() {
    let folder = Folder::new("traced");
    let program = env!("CARGO_BIN_EXE_gk");
    let runs = format!("{ROOT}/gk/trace/tests/runs");
    for (command, most) in [("explain --refused", 40), ("disassemble", 300)] {
        let names = folder.path(&format!("{}.names", command.len()));
        let trace = format!(
            "trace '{runs}/pay.trace' --quiet --report-only --levels '{runs}/pay.levels' --names '{names}'"
        );
        let line =
            format!("set -o pipefail; '{program}' {trace} | '{program}' {command} --names '{names}' -");
        let output = Command::new("bash").args(["-c", &line]).stdin(Stdio::null()).output().unwrap();
        assert_eq!(output.status.code(), Some(0), "{}", err(&output));
        assert!(out(&output).contains("paybook.csv"), "{}", out(&output));
        // Thirty refusals that are alike are a page and no more.
        assert!(out(&output).lines().count() <= most, "{}", out(&output));
        if command.starts_with("explain") {
            let page = fs::read_to_string(format!("{ROOT}/docs/TRACE.md")).unwrap();
            let shown = page.split_once("$ gk explain --refused pay.journal\n").unwrap().1;
            for line in shown.lines().take_while(|line| !line.starts_with("```")) {
                let is_said = line.trim() == "…" || out(&output).lines().any(|said| said == line);
                assert!(is_said, "docs/TRACE.md shows: {line}");
            }
        }
    }
}

#[test]
fn every_stored_journal_is_answered_as_the_proved_run_of_it() {
    for (name, journal) in journals() {
        let replies = gatekeeper::replay(&journal);
        assert_eq!(out(&gk(&["run"], &journal)), replies, "{name}");
        for arguments in [vec!["explain"], vec!["explain", "--summary"], vec!["explain", "--json"]] {
            let output = gk(&arguments, &journal);
            assert_eq!((output.status.code(), err(&output)), (Some(0), String::new()), "{name}");
        }
        // A record a line in JSON, with the same outcome.
        let lines = out(&gk(&["explain", "--json"], &journal));
        assert_eq!(lines.lines().count(), replies.lines().count(), "{name}");
        for (line, reply) in lines.lines().zip(replies.lines()) {
            let parts: Vec<&str> = reply.split(' ').collect();
            let start = match parts[..] {
                ["end", ..] => "{\"end\":{".to_string(),
                [position, code, "R", number] => {
                    format!("{{\"record\":{position},\"code\":{code},\"outcome\":\"refused\",\"refusal\":{number},")
                }
                [position, code, "A", level] => {
                    format!("{{\"record\":{position},\"code\":{code},\"outcome\":\"allowed\",\"level\":{level},")
                }
                [position, code, "L", level, lost] => format!(
                    "{{\"record\":{position},\"code\":{code},\"outcome\":\"lowered\",\"level\":{level},\"lost\":{lost},"
                ),
                _ => unreachable!("{reply}"),
            };
            assert!(line.starts_with(&start), "{name}: {line}");
        }
        let refused = out(&gk(&["explain", "--json", "--refused"], &journal));
        assert_eq!(refused.lines().count(), replies.matches(" R ").count() + 1, "{name}");
    }
}
