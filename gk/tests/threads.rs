//! Threads of one step: what is said of them, together and each by itself.

mod common;

use common::{err, explained, gk, journals, out, sees, Folder, ROOT};
use gk_advice::calls::assembly_of;
use gk_advice::run::{Content, Run};
use gk_advice::things::mates;

/// The pay book, an hours sheet, a program, and a step of level 9 with two threads, of which one writes the pay book.
const TAX: &str =
    "register 0 9 all\nregister 1 2 all\nregister 2 12 all\nadmit 0 9 all\nthread 0 1\nthread 1 2\nopen-write 1 0 4\n";

#[test]
fn a_thread_is_told_with_its_step() {
    let text = explained(TAX);
    sees(
        &text,
        &[
            "5. Step 0 starts step 1 as a thread. Allowed. Step 1 starts at level 9, with no handles. Step 0 and step 1 \
             are threads of one step: what one of them has read, the other has, too. None of them holds anything. 6.",
            "6. Step 1 starts step 2 as a thread. Allowed. Step 2 starts at level 9, with no handles. Step 0, step 1 and \
             step 2 are threads of one step: what one of them has read, all of them have. None of them holds anything. 7.",
        ],
    );
    let text = explained(&format!("{TAX}thread 2 3\nfork 1 4\nfork 4 5\nexit 1\nexit 0\nexit 3\n"));
    sees(
        &text,
        &[
            "Step 1 holds place 4 (writing file 0). The others hold nothing. 9.",
            "9. Step 1 forks step 4. Allowed. Step 4 starts at level 9 with a copy of the handle of step 1. It has a memory \
             of its own: it is no thread of that step. 10.",
            "10. Step 4 forks step 5. Allowed. Step 5 starts at level 9 with a copy of the handle of step 4. 11.",
            "11. Step 1 exits. Allowed. Its last level was 9; 1 handle is closed. Its number is free. Step 0, step 2 and \
             step 3, threads of the same step, stay. 12.",
            "13. Step 3 exits. Allowed. Its last level was 9; it held no handles. Its number is free. Step 2, a thread of \
             the same step, stays. End",
        ],
    );
}

#[test]
fn a_9_through_a_thread_has_its_chain_and_ways_out() {
    let text = explained(&format!("{TAX}open-read 2 1 0\n"));
    sees(
        &text,
        &[
            "8. Step 2 may not open file 1 for reading at place 0: step 1, a thread of the same step, writes file 0. Refused \
             (9): data could reach a file of a higher level or with a shop mark that it lacks. Nothing is opened. File 1 has level 2, and file 0 takes nothing from \
             below level 9. Step 0, step 1 and step 2 are threads of one step: what one of them has read, all of them have. \
             Step 1 holds place 4 (writing file 0). The others hold nothing. With the handles that there are, step 2 has to \
             stay at level 9 or above. This is how file 1 could get into file 0, were it let through: step 2 reads file 1; \
             step 1, a thread of the same step, writes file 0. Proved (RULES A1 to A12): none of these reads and writes \
             would be refused; no chain is shorter. What to do: close place 4 (writing file 0) of step 1; open it after that. Or: let \
             step 2 fork a step, number 3 is free, which opens it. Or: when a clerk",
        ],
    );
    // A thread's handle is taken before another step's, and the caller's own before both.
    let text = explained(&format!("{TAX}open-write 2 0 1\nadmit 5 12 all\nopen-write 5 0 0\nmap 2 1 0\n"));
    sees(
        &text,
        &["What to do: close place 1 (writing file 0) of step 2, and place 4 (writing file 0) of step 1; map"],
    );
    // Through a pipe to another step with threads.
    let text = explained(
        "register 0 9 all\nregister 1 2 all\nadmit 0 9 all\nadmit 5 9 all\nthread 5 6\npipe 0 7 0 1\nclose 0 0\nopen-read 5 7 0\n\
         open-write 6 0 3\nopen-read 0 1 2\n",
    );
    sees(
        &text,
        &[
            "10. Step 0 may not open file 1 for reading at place 2: what it passes on could reach file 0.",
            "Step 5 and step 6 are threads of one step: what one of them has read, the other has, too. Step 5 holds place 0 \
             (reading pipe 7). Step 6 holds place 3 (writing file 0). With",
            "through: step 0 reads file 1 and writes pipe 7; step 5 reads it; step 6, a thread of the same step, writes \
             file 0. Proved",
        ],
    );
}

#[test]
fn all_fall_because_one_has_read() {
    let text = explained(&format!("{TAX}close 1 4\nopen-read 2 1 0\nread 2 0\nread 2 0\n"));
    sees(
        &text,
        &[
            "10. Step 2 reads at place 0, its reading handle on file 1 (level 2). Lowered. Step 2 falls from level 9 to \
             level 2. Step 0 and step 1 fall with it: all of them are threads of one step, and what one of them reads, all \
             have read. Step 2 holds place 0 (reading file 1). The others hold nothing. 11.",
            "11. Step 2 reads at place 0, its reading handle on file 1 (level 2). Allowed. Step 2 stays at level 2. End",
        ],
    );
    let text = explained("register 1 2 all\nadmit 0 9 all\nthread 0 1\nmap 1 1 0\n");
    sees(
        &text,
        &[
            "Lowered. File 1 (level 2) is read at that moment: step 1 falls from level 9 to level 2. Step 0 falls with it: \
             the two are threads of one step, and what one of them reads, both have read. Step 1 holds place 0 (mapping file \
             1). Step 0 holds nothing. From now on step 1 reads it",
        ],
    );
}

#[test]
fn an_exec_says_whom_it_ends() {
    let text = explained(&format!("{TAX}pipe 2 7 0 1\nexec 1 1\nexec 0 2\n"));
    sees(
        &text,
        &[
            "9. Step 1 may not run file 1: it writes file 0. Refused (9): data could reach a file of a higher level or with a shop mark that it lacks. Nothing is run, \
             and no handle is closed. No thread of the step ends. File 1 has level 2,",
            "Or: let another thread of the same step run it: step 0 and step 2 may. The others end with that, and what they \
             hold is closed. Or: let step 1 fork",
            "10. Step 0 runs file 2. Allowed. Step 0 stays at level 9. Step 1 and step 2, threads of the same step, end \
             before it is run; 3 handles are closed with that. Their numbers are free. Pipe 7 has no handle left and ends. \
             End of the run: 9 allowed, 0 lowered, 1 refused. Handles: 3 made, 3 gone, 0 still open.",
        ],
    );
    // With a marked handle of its own, and one mate that holds nothing.
    let text = explained(
        "register 2 12 all\nadmit 0 9 all\nthread 0 1\npipe 0 7 0 1\nmark 0 0\nmark 0 1\nexec 0 2\n",
    );
    sees(
        &text,
        &[
            "Step 1, a thread of the same step, ends before it is run; no handle goes with that. Its number is free. Pipe 7 \
             has no handle left and ends. Its marked handles are closed: place 0 (reading pipe 7), place 1 (writing pipe 7). \
             End",
        ],
    );
}

#[test]
fn a_summary_has_the_threads_of_each_step() {
    let text =
        "register 1 2 all\nadmit 0 9 all\nthread 0 1\nopen-read 1 1 3\nthread 1 2\nread 1 3\nexit 0\nexec 2 1\n";
    let journal = gk(&["assemble"], text.as_bytes());
    assert_eq!(
        out(&gk(&["explain", "--summary"], &journal.stdout)),
        "\
Step 0, from record 2 to record 7.
  Level: 9 from record 2 on, 2 from record 6 on.
  A thread of one step: with step 1 from record 3 on, with step 1 and step 2 from record 5 on.
  Held nothing.
  Never refused.
Step 1, from record 3 to record 8.
  Level: 9 from record 3 on, 2 from record 6 on.
  A thread of one step: with step 0 from record 3 on, with step 0 and step 2 from record 5 on, with
    step 2 from record 7 on.
  Held place 3, reading file 1, from record 4 to record 8.
  Never refused.
Step 2, from record 5 to the end.
  Level: 9 from record 5 on, 2 from record 6 on.
  A thread of one step: with step 0 and step 1 from record 5 on, with step 1 from record 7 on, by
    itself from record 8 on.
  Held nothing.
  Never refused.
3 steps. 8 records allowed or lowered, 0 refused. Handles: 1 made, 1 gone, 0 still open.
"
    );
}

#[test]
fn a_level_is_told_that_came_by_another_thread() {
    let text = "name step 0 tax\nname step 1 reader\nregister 1 2 all\nadmit 0 9 all\nthread 0 1\nopen-read 1 1 3\nread 1 3\nthread 0 2\n";
    let folder = Folder::new("threads-why");
    let journal = folder.path("run.journal");
    assert_eq!(gk(&["assemble", "-o", &journal], text.as_bytes()).status.code(), Some(0));
    let told = |what: &str| {
        let output = gk(&["why", &journal, what], b"");
        assert_eq!((output.status.code(), err(&output)), (Some(0), String::new()));
        out(&output).split_whitespace().collect::<Vec<&str>>().join(" ")
    };
    let tax = told("tax");
    assert!(
        tax.starts_with(
            "After record 6, tax (step 0) has level 2. It has had it since record 5, when reader (step 1), a thread of the \
             same step, read; it started with level 9, at record 2. The level is that of file 1. How it came there"
        ),
        "{tax}"
    );
    sees(&tax, &["1. File 1 is registered", "5. reader (step 1) reads at place 3"]);
    let reader = told("reader");
    sees(&reader, &["It has had it since record 5; it started with level 9, at record 3."]);
    let late = told("step 2");
    sees(
        &late,
        &[
            "that is the level it started with. The level is that of file 1.",
            "6. tax (step 0) starts step 2",
        ],
    );
}

/// The threads of the step that asks, as docs/JSON.md has them.
#[test]
fn a_record_in_json_has_the_threads() {
    let text = format!(
        "name step 1 \"tax writer\"\n{TAX}mark 1 4\nexec 0 2\nread 0 0\nthread 0 1\nexit 0\nfreeze 9\n"
    );
    let folder = Folder::new("threads-json");
    let journal = folder.path("run.journal");
    assert_eq!(gk(&["assemble", "-o", &journal], text.as_bytes()).status.code(), Some(0));
    let lines = out(&gk(&["explain", "--json", &journal], b""));
    let lines: Vec<&str> = lines.lines().collect();
    let threads = |record: usize| {
        let (_, threads) = lines[record - 1].split_once(",\"threads\":")?;
        Some(threads.trim_end_matches('}').split(",\"advice\"").next().unwrap_or("").to_string())
    };
    let free = r#"[{"number":0,"level":9,"set":255,"called":"step 0","holds":[]},{"number":1,"level":9,"set":255,"called":"tax writer","holds":[]}]"#;
    assert_eq!(threads(5).as_deref(), Some(free.trim_end_matches('}')));
    let holds = r#"{"number":1,"level":9,"set":255,"called":"tax writer","holds":[{"place":4,"way":"writes","kind":"file","number":0,"marked":true}]}"#;
    sees(
        &threads(8).unwrap(),
        &[holds, r#"{"number":2,"level":9,"set":255,"called":"step 2","holds":[]}"#],
    );
    let ended = r#"{"number":1,"level":9,"set":255,"called":"tax writer","ended":true,"holds":[{"place":4,"way":"writes","#;
    sees(
        &threads(9).unwrap(),
        &[r#"[{"number":0,"level":9,"set":255,"called":"step 0","holds":[]}"#, ended],
    );
    // Of a step by itself there are none, nor of a call that no step makes.
    assert_eq!([1, 4, 10, 13].map(threads), [None, None, None, None]);
    sees(
        &threads(12).unwrap(),
        &[r#"{"number":0,"level":9,"set":255,"called":"step 0","ended":true,"holds":[]}"#],
    );
    let page = std::fs::read_to_string(format!("{ROOT}/docs/JSON.md")).unwrap();
    for key in ["threads", "ended", "holds", "place", "way", "marked"] {
        assert!(page.contains(&format!("`{key}`")), "{key}");
    }
}

/// Of every record of the stored journals: who falls with a step that reads, and whom an exec ends, is said by name.
#[test]
fn who_falls_and_who_ends_is_said_in_every_journal() {
    let (mut falls, mut ends) = (0, 0);
    for (name, journal) in journals() {
        let told = out(&gk(&["explain"], &journal));
        let paragraphs = told.split("\n").fold(Vec::<String>::new(), |mut list, line| {
            match line.starts_with(' ') {
                true => list.last_mut().expect("a title").push_str(&format!(" {}", line.trim_start())),
                false => list.push(line.to_string()),
            }
            list
        });
        for step in Run::new(&journal) {
            let (Content::Call(call), None) = (step.content, step.refusal()) else {
                continue;
            };
            let said = &paragraphs[step.position as usize - 1];
            let asks = call.numbers()[0];
            let of_asks: Vec<u64> = mates(&step.before, asks).collect();
            let fell = of_asks
                .iter()
                .filter(|&&s| step.after.subject(s).is_some_and(|now| Some(now) != step.before.subject(s)));
            for mate in fell {
                assert!(
                    said.contains(&format!("tep {mate}")) && said.contains(" with it: "),
                    "{name}: {said}"
                );
                falls += 1;
            }
            if call.code() == 10 {
                for mate in of_asks {
                    assert!(step.after.subject(mate).is_none(), "{name}: {}", assembly_of(call));
                    assert!(
                        said.contains(&format!("tep {mate}")) && said.contains(" before it is run; "),
                        "{name}: {said}"
                    );
                    ends += 1;
                }
            }
        }
    }
    assert!(falls > 10 && ends > 10, "{falls} fell with another, {ends} ended at exec");
}

/// What the tables hold after the calls of a line is held to the archive, threads and all.
#[test]
fn a_line_is_typed_where_there_are_threads() {
    let text = format!("{TAX}thread 0 3\nregister 9 15 all\n");
    let folder = Folder::new("threads-line");
    let set_up = folder.path("set-up");
    std::fs::write(&set_up, text).unwrap();
    let output =
        gk(&["line", "--set-up", &set_up, "--shell", "2", "--child", "5", "--pipe", "50", "9 | 9"], b"");
    assert_eq!((output.status.code(), err(&output)), (Some(0), String::new()));
    sees(
        &out(&output).split_whitespace().collect::<Vec<&str>>().join(" "),
        &[
            "Step 2 forks step 5. Allowed. Step 5 starts at level 9 with copies of the 2 handles of step 2. It has a memory \
             of its own: it is no thread of that step.",
            "End of the line: 11 allowed, 0 lowered, 0 refused.",
        ],
    );
    // Where a child's number is a thread's, it is the thread that runs the program, and the others end.
    let output = gk(&["line", "--set-up", &set_up, "--shell", "2", "--child", "3", "9"], b"");
    sees(
        &out(&output).split_whitespace().collect::<Vec<&str>>().join(" "),
        &[
            "Step 2 may not fork step 3: step 3 is there already.",
            "Step 3 runs file 9. Allowed. Step 3 stays at level 9. Step 0, step 1 and step 2, threads of the same step, end \
             before it is run; 1 handle is closed with that. Their numbers are free.",
        ],
    );
}
