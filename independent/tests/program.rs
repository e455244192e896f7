//! The program `second` from outside: help, exit statuses, reading and writing, comparing.

use std::io::{Read, Write};
use std::process::{Command, Output, Stdio};

use gatekeeper_independent::cases::lines::LINE_CASES;
use gatekeeper_independent::lines::Start;
use gatekeeper_independent::variants::chains::CHAINS;
use gatekeeper_independent::variants::lines::LINES;
use gatekeeper_independent::{cases, help};

fn second(arguments: &[&str], input: &[u8]) -> Output {
    let mut child = Command::new(env!("CARGO_BIN_EXE_second"))
        .args(arguments)
        .stdin(Stdio::piped())
        .stdout(Stdio::piped())
        .stderr(Stdio::piped())
        .spawn()
        .unwrap();
    let mut stdin = child.stdin.take().unwrap();
    let input = input.to_vec();
    let writer = std::thread::spawn(move || {
        let _ = stdin.write_all(&input);
    });
    let output = child.wait_with_output().unwrap();
    writer.join().unwrap();
    output
}

fn out(output: &Output) -> String {
    String::from_utf8_lossy(&output.stdout).into_owned()
}

fn err(output: &Output) -> String {
    String::from_utf8_lossy(&output.stderr).into_owned()
}

#[test]
fn help_teaches_with_an_example() {
    for arguments in [vec!["--help"], vec!["help"], vec!["-h"]] {
        let output = second(&arguments, b"");
        assert_eq!((output.status.code(), out(&output)), (Some(0), help::WHOLE.to_string()));
    }
    for (command, text) in help::COMMANDS {
        assert!(help::WHOLE.contains(&format!("  {command} ")), "{command}");
        assert!(text.contains("Example"), "{command}");
        assert!(text.starts_with(&format!("second {command} - ")), "{command}");
        for arguments in [vec![*command, "--help"], vec!["help", *command]] {
            let output = second(&arguments, b"");
            assert_eq!((output.status.code(), out(&output)), (Some(0), text.to_string()));
        }
    }
}

#[test]
fn run_reads_standard_input_or_a_file() {
    let case = cases::named("K6").unwrap();
    for arguments in [vec!["run"], vec!["run", "-"]] {
        let output = second(&arguments, &case.journal);
        assert_eq!((output.status.code(), out(&output)), (Some(0), case.replies.clone()));
    }
    let output = second(&["run", concat!(env!("CARGO_MANIFEST_DIR"), "/examples/march.journal")], b"");
    assert_eq!(out(&output), include_str!("../examples/march.replies"));
    let output = second(&["run"], &[0; 200_000]);
    assert_eq!(out(&output), "1 0 R 14\nend 0 0 0\n");
}

/// Each case of a line, after its journal from standard input.
#[test]
fn line_makes_the_calls_of_a_line() {
    let all = out(&second(&["cases", "--lines"], b""));
    for case in LINE_CASES {
        let Start { shell, child, pipe } = case.start;
        let [shell, child, pipe] = [shell, child, pipe].map(|number| number.to_string());
        let arguments = ["line", "--journal", "-", "--shell", &shell, "--child", &child, "--pipe", &pipe];
        let output = second(&[&arguments[..], &[case.line]].concat(), &case.journal());
        assert_eq!((output.status.code(), out(&output)), (Some(0), case.replies()), "{}", case.name);
        assert_eq!(out(&second(&["cases", "--lines", case.name], b"")), case.text());
        assert!(all.contains(&case.text()), "{}", case.name);
    }
}

#[test]
fn a_line_starts_from_nothing_with_numbers_of_its_own() {
    let output = second(&["line", "7|7"], b"");
    assert_eq!(output.status.code(), Some(0));
    assert!(out(&output).starts_with("pipe 0 64 0 1: R 2\nfork 0 1: R 2\n"), "{}", out(&output));
    assert!(out(&output).ends_with("\ncounts 0 0 11\n"), "{}", out(&output));
    for line in ["", " ", "1;", "\t1", "7 7", "-7"] {
        let output = second(&["line", "--", line], b"");
        assert_eq!((output.status.code(), out(&output)), (Some(0), "refusal 18\n".to_string()), "{line:?}");
    }
    let output = second(&["line", "--variant", "trailing-semicolon", "1;"], b"");
    assert_eq!(out(&output), "fork 0 1: R 2\nexec 1 1: R 2\nexit 1: R 2\ncounts 0 0 3\n");
    let output = second(&["line", "--journal", "no/such/file", "1"], b"");
    assert_eq!(output.status.code(), Some(1));
}

/// A line for each record that is answered with 9, and nothing else.
#[test]
fn why_counts_the_steps_behind_each_9() {
    for case in cases::all() {
        let output = second(&["why"], &case.journal);
        let nines = case.replies.lines().filter(|line| line.ends_with(" R 9"));
        let nines: Vec<&str> = nines.filter_map(|line| line.split(' ').next()).collect();
        let told = out(&output);
        let told: Vec<Vec<&str>> = told.lines().map(|line| line.split(' ').collect()).collect();
        assert_eq!(output.status.code(), Some(0), "{}: {}", case.name, err(&output));
        assert_eq!(told.iter().map(|fields| fields[0]).collect::<Vec<&str>>(), nines, "{}", case.name);
        assert!(told.iter().all(|fields| fields.len() == 2 && fields[1] != "0"), "{}", case.name);
    }
    let march = concat!(env!("CARGO_MANIFEST_DIR"), "/examples/march.journal");
    assert_eq!(out(&second(&["why", march], b"")), "196 2\n198 30\n209 1\n");
    let whole = out(&second(&["why", "--chain", march], b""));
    assert!(whole.starts_with("196 2 o1 o0 277 276\n"), "{whole}");
    let bent = second(&["why", "--variant", "sought-left-out", march], b"");
    assert_eq!((bent.status.code(), out(&bent)), (Some(0), "196 0\n198 0\n209 0\n".to_string()));
    assert_eq!(out(&second(&["why"], &[0; 200_000])), "");
}

/// The example of the help has the line that it says.
#[test]
fn the_example_of_why_is_right() {
    let (_, text) = help::COMMANDS.iter().find(|(name, _)| *name == "why").unwrap();
    let journal = cases::named("K6").unwrap().journal;
    let line = out(&second(&["why", "--chain"], &journal));
    assert!(text.ends_with(&format!("\n    {line}")), "{line}");
}

#[test]
fn variants_of_lines_are_listed_by_themselves() {
    let names = |arguments: &[&str]| -> Vec<String> {
        let text = out(&second(arguments, b""));
        text.lines().map(|line| line.split(' ').next().unwrap_or("").to_string()).collect()
    };
    let own = names(&["variants", "--lines"]);
    assert_eq!(own, LINES.iter().map(|(_, name, _)| *name).collect::<Vec<&str>>());
    assert!(names(&["variants"]).iter().all(|name| !own.contains(name)));
    let of_chains = names(&["variants", "--chains"]);
    assert_eq!(of_chains, CHAINS.iter().map(|(_, name, _)| *name).collect::<Vec<&str>>());
    assert!(own.iter().all(|name| !of_chains.contains(name)));
}

#[test]
fn a_bad_command_line_has_status_2() {
    let wrong: &[&[&str]] = &[
        &[],
        &["payroll"],
        &["help", "payroll"],
        &["run", "--fast"],
        &["run", "-x"],
        &["run", "one", "two"],
        &["run", "--variant"],
        &["run", "--variant", "none"],
        &["why", "--variant", "opener-only"],
        &["why", "one", "two"],
        &["variants", "--lines", "--chains"],
        &["generate"],
        &["generate", "--seed", "x"],
        &["generate", "--seed", "1", "--style", "none"],
        &["generate", "--seed", "1", "--bytes", "99999999"],
        &["cases", "K99"],
        &["cases", "--journal"],
        &["cases", "--hex", "--replies"],
        &["cases", "--numbers", "K1"],
        &["variants", "more"],
        &["bite", "--journals", "-1"],
        &["bite", "--lines", "x"],
        &["line"],
        &["line", "1", "2"],
        &["line", "--shell", "x", "1"],
        &["line", "--variant", "none", "1"],
        &["line", "--variant", "opener-only", "1"],
        &["cases", "--lines", "K1"],
        &["cases", "--lines", "--hex"],
        &["compare"],
    ];
    for arguments in wrong {
        let output = second(arguments, b"");
        assert_eq!(output.status.code(), Some(2), "{arguments:?}");
        assert!(err(&output).starts_with("second: "), "{arguments:?}");
        assert!(output.stdout.is_empty(), "{arguments:?}");
    }
}

#[test]
fn a_failed_read_has_status_1() {
    for (file, words) in
        [("no/such/file", "cannot read no/such/file"), (env!("CARGO_MANIFEST_DIR"), "it is a folder")]
    {
        let output = second(&["run", file], b"");
        assert_eq!(output.status.code(), Some(1), "{file}");
        assert!(err(&output).contains(words), "{file}");
    }
}

#[test]
fn what_is_foreign_is_shown_escaped_and_cut() {
    let long = "x".repeat(1 << 16);
    let wrong: &[&[&str]] = &[
        &["\x1b[2J"],
        &["run", "--\x1b[2J"],
        &["run", "no/such/\x1b[2J"],
        &["cases", "\x1b[2J"],
        &["bite", "--seed", "\x1b[2J"],
        &[&long],
    ];
    for arguments in wrong {
        let output = second(arguments, b"");
        assert_ne!(output.status.code(), Some(0), "{arguments:?}");
        let message = err(&output);
        assert!(message.chars().all(|letter| letter == '\n' || !letter.is_control()), "{message:?}");
        assert!(message.len() < 1000, "{arguments:?}");
    }
}

#[test]
fn a_word_that_was_meant_is_named() {
    assert!(err(&second(&["generat"], b"")).contains("Did you mean: generate"));
    assert!(err(&second(&["payroll"], b"")).contains("The commands are: run, why, line, cases"));
}

#[test]
fn input_without_end_is_not_read_to_its_end() {
    let output = second(&["run", "/dev/zero"], b"");
    assert_eq!((output.status.code(), out(&output)), (Some(0), "1 0 R 14\nend 0 0 0\n".to_string()));
}

#[test]
fn behind_two_dashes_stands_a_file() {
    let output = second(&["run", "-x"], b"");
    assert_eq!(output.status.code(), Some(2));
    assert!(err(&output).contains("there is no option \"-x\""));
    let output = second(&["run", "--", "-x"], b"");
    assert_eq!(output.status.code(), Some(1));
    assert!(err(&output).contains("cannot read -x"));
}

/// The examples in the help texts do what they say, typed in the repository's folder.
#[test]
fn the_examples_of_the_help_run() {
    let root = concat!(env!("CARGO_MANIFEST_DIR"), "/..");
    let mut tried = 0;
    for (command, text) in help::COMMANDS.iter().chain([&("--help", help::WHOLE)]) {
        for line in text.lines().filter(|line| line.starts_with("  ") && line.contains("tools/second ")) {
            // The proved program is built by other means.
            let line = line.replace("./run -", "tools/second run");
            let line = line.replace("tools/second", env!("CARGO_BIN_EXE_second"));
            let output = Command::new("bash")
                .args(["-c", &format!("set -o pipefail; {line}")])
                .current_dir(root)
                .stdin(Stdio::null())
                .output()
                .unwrap();
            // A difference is what the example of compare shows.
            let status = if *command == "compare" { 1 } else { 0 };
            assert_eq!(output.status.code(), Some(status), "{command}: {line}\n{}", err(&output));
            assert!(
                line.contains("> ") || *command == "cases" || !output.stdout.is_empty(),
                "{command}: {line}"
            );
            tried += 1;
        }
    }
    assert!(tried >= 7, "only {tried} examples were found");
}

#[test]
fn an_output_that_is_full_has_status_1() {
    let output = Command::new(env!("CARGO_BIN_EXE_second"))
        .args(["cases", "--hex"])
        .stdout(std::fs::File::create("/dev/full").unwrap())
        .output()
        .unwrap();
    assert_eq!(output.status.code(), Some(1));
    assert!(err(&output).contains("cannot write standard output"), "{}", err(&output));
}

#[test]
fn a_reader_that_stops_ends_the_program_without_a_word() {
    let mut child = Command::new(env!("CARGO_BIN_EXE_second"))
        .args(["cases", "--hex"])
        .stdin(Stdio::null())
        .stdout(Stdio::piped())
        .stderr(Stdio::piped())
        .spawn()
        .unwrap();
    drop(child.stdout.take());
    let mut message = String::new();
    child.stderr.take().unwrap().read_to_string(&mut message).unwrap();
    assert_eq!((child.wait().unwrap().code(), message), (Some(141), String::new()));
}

#[test]
fn cases_are_printed_for_other_programs() {
    for case in cases::all() {
        let journal = second(&["cases", "--journal", &case.name], b"").stdout;
        assert_eq!(journal, case.journal);
        assert_eq!(out(&second(&["cases", "--replies", &case.name], b"")), case.replies);
    }
    assert!(out(&second(&["cases", "--hex"], b"")).contains("K10 8000\n"));
    assert!(out(&second(&["cases"], b"")).contains("K1: 0 opens file 0 for writing"));
    let numbers = out(&second(&["cases", "--numbers"], b""));
    assert!(numbers.starts_with(
        "2 02\n127 7f\n128 80 01\n129 81 01\n130 82 01\n12857 b9 64\n18446744073709551615 ff "
    ));
    assert!(numbers.ends_with("\nmalformed 80 80 80 80 80 80 80 80 80 80 01\n"), "{numbers}");
}

#[test]
fn a_right_program_is_found_the_same() {
    let program = env!("CARGO_BIN_EXE_second");
    let output =
        second(&["compare", "--program", program, "--seed", "4", "--journals", "60", "--", "run"], b"");
    assert_eq!(output.status.code(), Some(0), "{}", err(&output));
    assert!(out(&output).contains("Seed 4; repeat with --seed 4"), "{}", out(&output));
    assert!(out(&output).contains("The same replies, byte for byte: "), "{}", out(&output));
}

#[test]
fn a_wrong_program_is_found_out_with_a_short_journal() {
    let program = env!("CARGO_BIN_EXE_second");
    let wrong = |name| {
        second(&["compare", "--program", program, "--seed", "4", "--", "run", "--variant", name], b"")
    };
    let output = wrong("opener-only");
    assert_eq!(output.status.code(), Some(1));
    let text = out(&output);
    for part in ["open-write 0 0 0", "open-read 0 1 1", "5 5 R 9", "The first line that differs is line 5."]
    {
        assert!(text.contains(part), "{text}");
    }
    // No worked case shows this one: it is found in the generated journals.
    let output = wrong("equal-as-lowered");
    assert_eq!(output.status.code(), Some(1));
    assert!(out(&output).contains("The replies differ: "), "{}", out(&output));
}

/// As one would hold a program from before request (j) against the rules of then.
#[test]
fn a_program_can_be_held_against_a_variant() {
    let program = env!("CARGO_BIN_EXE_second");
    let start =
        ["compare", "--program", program, "--seed", "4", "--journals", "60", "--variant", "order-15-9"];
    let output = second(&[&start[..], &["--", "run", "--variant", "order-15-9"]].concat(), b"");
    assert_eq!(output.status.code(), Some(0), "{}{}", out(&output), err(&output));
    let output = second(&[&start[..], &["--", "run"]].concat(), b"");
    assert_eq!(output.status.code(), Some(1), "{}", out(&output));
    assert!(out(&output).contains("The replies differ: case freeze-flow."), "{}", out(&output));
    let output = second(&["compare", "--program", program, "--variant", "none"], b"");
    assert_eq!(output.status.code(), Some(2), "{}", err(&output));
}

#[test]
fn a_program_that_cannot_be_started_is_said() {
    let output = second(&["compare", "--program", "no/such/program"], b"");
    assert_eq!(output.status.code(), Some(1));
    assert!(err(&output).contains("cannot start no/such/program"), "{}", err(&output));
}
