//! What is said of calls that are allowed and of such as are refused.

mod common;

use common::{err, explained, gk, journals, out, sees, Folder};

/// The pay book, an hours sheet, a step of level 9 and one of level 8.
const BOOKS: &str = "register 0 9 all\nregister 1 2 all\nadmit 0 9 all\nadmit 1 8 all\n";

#[test]
fn a_refusal_says_what_did_not_happen() {
    let text = explained(&format!("{BOOKS}open-write 0 0 0\nopen-read 0 1 1\n"));
    sees(
        &text,
        &[
            "6. Step 0 may not open file 1 for reading at place 1: it writes file 0. Refused (9): data could reach \
             a file of a higher level or with a shop mark that it lacks. Nothing is opened. File 1 has level 2, and file 0 takes nothing from below level 9. \
             With the handles that there are, step 0 has to stay at level 9 or above. This is how file 1 \
             could get into file 0, were it let through: step 0 reads file 1 and writes file 0. Proved (RULES A1 to \
             A12): none of these reads and writes would be refused; no chain is shorter. What to do: close place 0 (writing file \
             0) of step 0; open it after that. Or: let another step open it: step 1 may. Or: let step 0 fork a step, \
             number 2 is free, which closes place 0 and opens it. Or: when a clerk has looked file 1 over, retire it, \
             register it at level 9 or above, and open it then. End of the run",
            "The answers are the proved gatekeeper's. What to do is advice of gk and not proved;",
        ],
    );
    for (call, title, nothing) in [
        (
            "admit 0 9 all",
            "Step 0 is not admitted from outside at level 9: step 0 is there already",
            "No step is admitted",
        ),
        (
            "admit 2 16 all",
            "Step 2 is not admitted from outside at level 16: levels are 0 to 15",
            "No step is admitted",
        ),
        ("register 0 9 all", "File 0 is not registered", "No file is registered"),
        ("create 0 0", "Step 0 may not create file 0: file 0 is there already", "No file is created"),
        (
            "pipe 0 18446744073709551615 0 16",
            "Step 0 may not make pipe 18,446,744,073,709,551,615, reading at place 0 and writing at place 16: places \
             have the numbers 0 to 15",
            "No pipe is made",
        ),
        (
            "open-read 0 10,000 0",
            "Step 0 may not open file or pipe 10,000 for reading at place 0: there is no file or pipe 10,000",
            "Nothing is opened",
        ),
        ("pipe 0 5 1 1", "reading and writing need two places", "No pipe is made"),
        (
            "open-read 0 9 0",
            "Step 0 may not open file or pipe 9 for reading at place 0: there is no file or pipe 9",
            "Nothing is opened",
        ),
        (
            "read 0 3",
            "Step 0 may not read at place 3, where it has nothing: that place is empty",
            "Nothing is read",
        ),
        ("write 9 0", "Step 9 may not write at place 0: step 9 is not there", "Nothing is written"),
        ("fork 0 32", "Step 0 may not fork step 32: steps have the numbers 0 to 31", "No step is forked"),
        ("exec 0 9", "Step 0 may not run file or pipe 9", "Nothing is run, and no handle is closed"),
        (
            "close 0 16",
            "Step 0 may not close place 16, where it has nothing: places have the numbers 0 to 15",
            "Nothing is closed",
        ),
        ("exit 40", "Step 40 may not exit: steps have the numbers 0 to 31", "No step exits"),
        ("retire 9", "File or pipe 9 is not retired: there is no file or pipe 9", "Nothing is retired"),
        (
            "map 0 9 0",
            "Step 0 may not map file or pipe 9 at place 0",
            "Nothing is mapped, and nothing is read",
        ),
        ("mark 0 0", "Step 0 may not mark place 0", "Nothing is marked"),
        (
            "freeze 17",
            "The freeze is not set to 17: a freeze is 0 to 15, or 16 for none",
            "The freeze stays as it was",
        ),
        (
            "connect 0 0 5 6 0 1",
            "Step 0 is not connected to step 0 by pipe 5 and back by pipe 6, both reading at place 0 and \
                                 writing at place 1: both ends would be the same step",
            "Neither pipe is made",
        ),
        ("connect 0 1 5 5 0 1", "both pipes would have the same number", "Neither pipe is made"),
        (
            "thread 0 1",
            "Step 0 may not start step 1 as a thread: step 1 is there already",
            "No thread is started",
        ),
        (
            "thread 0 32",
            "Step 0 may not start step 32 as a thread: steps have the numbers 0 to 31",
            "No thread is started",
        ),
        (
            "thread 9 2",
            "Step 9 may not start step 2 as a thread: step 9 is not there",
            "No thread is started",
        ),
    ] {
        let text = explained(&format!("{BOOKS}{call}\n"));
        sees(&text, &[title, &format!(". {nothing}. ")]);
        assert!(text.contains("Refused ("), "{text}");
    }
}

#[test]
fn handles_for_the_same_are_named_together() {
    let text = explained(&format!(
        "{BOOKS}open-write 0 0 0\nopen-write 0 0 3\nopen-write 0 0 4\nopen-read 0 1 1\n"
    ));
    sees(&text, &["What to do: close places 0, 3, 4 (writing file 0) of step 0; open it after that."]);
}

/// A pipe ends with its last handle: closing that one to open the pipe afterwards would be refused with 4.
#[test]
fn a_pipe_that_is_to_be_opened_is_not_closed_away() {
    // Step 1 holds the only handle on pipe 5, for writing; step 0 has the pay book open and asks to read the pipe.
    let text = explained(
        "register 0 9 all\nadmit 0 9 all\nadmit 1 2 all\npipe 1 5 0 1\nclose 1 0\nopen-write 0 0 0\nopen-read 0 5 1\n",
    );
    sees(&text, &["What to do: close place 0 (writing file 0) of step 0; open it after that. Or:"]);
    assert!(!text.contains("Pipe 5 ends"), "{text}");
    // Here the pipe's one handle is what leads up, so that it has to stay, and the pay book is closed.
    let text = explained(
        "register 0 9 all\nadmit 0 9 all\nadmit 1 2 all\npipe 0 5 0 1\nclose 0 1\nopen-write 0 0 1\nopen-write 1 5 0\n",
    );
    sees(&text, &["What to do: close place 1 (writing file 0) of step 0; open it after that."]);
}

#[test]
fn every_way_is_closed_at_once() {
    let ways = "open-write 0 0 0\npipe 0 5 1 2\nopen-read 1 5 0\nregister 2 8 all\nopen-write 1 2 1\n";
    let text = explained(&format!("{BOOKS}{ways}exec 0 1\n"));
    sees(
        &text,
        &[
            "close place 0 (writing file 0) and place 2 (writing pipe 5) of step 0; run it after that.",
            "if the program does not need them, mark place 0 (writing file 0) and place 2 (writing pipe 5) of step \
             0: the exec closes them.",
            "let step 0 fork a step, number 2 is free, which closes places 0, 2 and runs it.",
        ],
    );
    // What only another step can close is named as its.
    let text = explained(&format!(
        "{BOOKS}pipe 1 5 0 1\nopen-read 0 5 0\nopen-write 1 5 2\nclose 1 0\nfreeze 16\nopen-write 0 0 1\n"
    ));
    sees(
        &text,
        &["10. Step 0 may not open file 0 for writing at place 1: what pipe 5 has could get there through it."],
    );
}

#[test]
fn closed_books_are_explained() {
    let freezes = "freeze 9\nopen-write 0 0 0\nopen-write 0 2 0\nfreeze 5\nfreeze 16\nfreeze 16\n";
    let text = explained(&format!("{BOOKS}register 2 4 all\n{freezes}"));
    sees(
        &text,
        &[
            "6. The freeze is set to 9. Allowed. Books closed from level 9 up: no such file can be opened for writing. \
             Handles that are open go on writing; freeze 16 opens the books again. 7.",
            "7. Step 0 may not open file 0 for writing at place 0: the books are closed from level 9 up since \
             record 6, and it has level 9. Refused (15): the file is frozen while the books are closed. Nothing is \
             opened. What to do: wait until the books are open again (freeze 16) and open it then. Or: open a file \
             that is not frozen: file 1 or file 2. Nobody has file 0 open for writing. 8.",
            "Before, they were closed from level 9 up since record 6. 10.",
            "10. The freeze is lifted. Allowed. Books open again: no open is refused with 15. They were closed from \
             level 5 up since record 9. 11.",
            "Books open, as they were: there was no freeze. End",
        ],
    );
    let text = explained(&format!("{BOOKS}open-write 0 0 3\nfork 0 2\nfreeze 9\nopen-write 2 0 0\n"));
    sees(
        &text,
        &["Or: use a handle that is held and goes on writing: place 3 of step 2, or place 3 of step 0."],
    );
}

/// RULES R117: of the two the freeze is said; that a 9 comes once the books are open is said with it.
#[test]
fn a_15_tells_of_the_9_behind_it() {
    let text = explained(&format!("{BOOKS}freeze 9\nopen-read 0 1 0\nopen-write 0 0 1\n"));
    sees(
        &text,
        &[
            "7. Step 0 may not open file 0 for writing at place 1: the books are closed from level 9 up since record 5, \
             and it has level 9. Refused (15): the file is frozen while the books are closed. Nothing is opened. Once \
             the books are open again (freeze 16) it would be refused with 9: data could reach a file of a higher level or with a shop mark that it lacks. File \
             1 has level 2, and file 0 takes nothing from below level 9. This is how file 1 could get into \
             file 0, were the books open and it let through: step 0 reads file 1 and writes file 0. Proved (RULES A1 to \
             A12): none of these reads and writes would be refused; no chain is shorter. What to do: close place 0 (reading file 1) of step 0; \
             open it after that once the books are open again (freeze 16). Or: let step 0 fork",
            "Or: open a file that is not frozen: file 1. Nobody has file 0 open for writing. End",
        ],
    );
    // To wait is not advised where that is not enough.
    assert!(!text.contains("wait until"), "{text}");
    let journal = gk(&["assemble"], format!("{BOOKS}freeze 9\nopen-write 1 0 0\n").as_bytes()).stdout;
    let chain = concat!(
        r#""chain":{"proved":true,"links":[{"kind":"step","number":1,"level":8,"set":255,"called":"step 1"},"#,
        r#"{"kind":"file","number":0,"level":9,"set":255,"called":"file 0"}],"text":"This is how what step 1 has could "#,
        r#"get into file 0, were the books open and it let through","acts":[{"text":"step 1 writes file 0","#,
        r#""does":["write 1 0"]}]}"#
    );
    let then = "Once the books are open again (freeze 16) it would be refused with 9: data could reach";
    let calls = r#""calls":["freeze 16","open-write 0 0 0"]}"#;
    let lines = out(&gk(&["explain", "--json", "--refused"], &journal));
    sees(&lines, &[r#""refusal":15,"#, then, chain, calls]);

    // A step that is too low itself: others may, and a handle that is held goes on writing.
    let text = explained(&format!("{BOOKS}open-write 0 0 3\nfreeze 0\nopen-write 1 0 0\n"));
    sees(
        &text,
        &[
            "What to do: let another step open it once the books are open again (freeze 16): step 0 may. Or: admit a \
             step at level 9 or above, number 2 is free, and let it open it once the books are open again (freeze 16). \
             Or: use a handle that is held and goes on writing: place 3 of step 0. No closing of handles helps: step \
             1 has level 8 itself, which is too low for file 0. End",
        ],
    );
    // The freeze alone, and the flow alone.
    let text = explained(&format!("{BOOKS}freeze 9\nopen-write 0 0 0\n"));
    sees(&text, &["What to do: wait until the books are open again (freeze 16) and open it then."]);
    assert!(!text.contains("refused with 9") && !text.contains("This is how"), "{text}");
    let text = explained(&format!("{BOOKS}freeze 10\nopen-write 1 0 0\n"));
    sees(
        &text,
        &["Refused (9): data could reach a file of a higher level or with a shop mark that it lacks."],
    );
    assert!(!text.contains("books are"), "{text}");
}

/// The same where another number is said, and it is told what comes after that.
#[test]
fn what_would_be_refused_with_15_and_then_with_9_is_told_so() {
    let text = explained(&format!("{BOOKS}freeze 9\nopen-write 1 0 16\n"));
    sees(
        &text,
        &[
            "At an empty place, for example 0, it would be refused with 15: the file is frozen while the books are \
             closed, and once the books are open again (freeze 16) with 9: data could reach a file of a higher level or with a shop mark that it lacks. Also: \
             the books are closed from level 9 up since record 5, so that the open is refused with 15 when nothing \
             else is in the way",
        ],
    );
}

#[test]
fn a_handle_that_is_not_had_again_is_minded() {
    let text = explained(&format!("{BOOKS}open-write 0 0 0\nfreeze 9\nopen-read 0 1 1\n"));
    sees(&text, &["Mind: file 0, once closed, is not opened for writing again before the books are open."]);
    let text = explained(&format!("{BOOKS}open-write 0 0 0\nopen-read 0 1 1\n"));
    assert!(!text.contains("Mind"), "{text}");
}

#[test]
fn marks_and_what_exec_closes_are_explained() {
    let text = explained(&format!(
        "{BOOKS}open-write 0 0 0\nmark 0 0\nmark 0 0\npipe 0 5 1 2\nmark 0 1\nfork 0 2\nmark 0 2\nexec 0 1\nexec 2 1\n"
    ));
    sees(
        &text,
        &[
            "6. Step 0 marks place 0, its writing handle on file 0 (level 9). Allowed. The next exec of step 0 that is \
             allowed closes it; until then it is used as before. 7.",
            "7. Step 0 marks place 0, its marked writing handle on file 0 (level 9). Allowed. It was marked before: \
             nothing changes. 8.",
            "10. Step 0 forks step 2. Allowed. Step 2 starts at level 9 with copies of the 3 handles of step 0, 2 \
             of them marked. 11.",
            "12. Step 0 runs file 1. Lowered. Step 0 falls from level 9 to level 2. Its marked handles are closed: \
             place 0 (writing file 0), place 1 (reading pipe 5), place 2 (writing pipe 5). 13.",
            "Its marked handles are closed: place 0 (writing file 0), place 1 (reading pipe 5). End",
        ],
    );
    let text = explained(&format!("{BOOKS}pipe 0 5 1 2\nmark 0 1\nmark 0 2\nexec 0 0\n"));
    sees(&text, &["place 2 (writing pipe 5). Pipe 5 has no handle left and ends. End of the run"]);
}

#[test]
fn mappings_are_explained() {
    let text = explained(&format!(
        "{BOOKS}map 0 1 0\nfork 0 2\nmap 1 1 0\nopen-write 1 1 1\nwrite 1 1\nread 0 0\nmark 2 0\nexec 0 0\nmap 1 1 3\n"
    ));
    sees(
        &text,
        &[
            "5. Step 0 maps file 1 at place 0. Lowered. File 1 (level 2) is read at that moment: step 0 falls from \
             level 9 to level 2. From now on step 0 reads it after each write to it, until place 0 is closed; its \
             next exec that is allowed closes it, too. 6.",
            "with a copy of the handle of step 0, a mapping. 7.",
            "Then step 0, step 1 and step 2, which have it mapped, read it, each once and in this order. 10.",
            "10. Step 0 reads at place 0, its mapping of file 1 (level 2). Allowed. Step 0 stays at level 2. 11.",
            "It is a mapping, which the next exec of step 2 that is allowed closes in any case. 12.",
            "Its mapping is closed: place 0 (file 1). 13.",
            "Step 1 had it mapped before: it reads it once after each write to it, as until now.",
        ],
    );
    let text = explained(&format!("{BOOKS}pipe 0 5 1 2\nmap 0 5 3\nmap 0 1 4\nwrite 0 4\nretire 1\n"));
    sees(
        &text,
        &[
            "Step 0 may not map pipe 5 at place 3: it is a pipe. Refused (5): a pipe cannot be run, retired or \
             mapped. Nothing is mapped, and nothing is read. What to do: open pipe 5 for reading in place of that, \
             and read it. Or: name a file: file 0 or file 1.",
            "8. Step 0 may not write at place 4, its mapping of file 1 (level 2): that handle is for reading. \
             Refused (8): the handle is for the other direction. Nothing is written. What to do: open it for \
             writing at an empty place, for example 0, and use that place.",
            "File 1 is not retired: step 0 has it open. Refused (10): a handle is still open on the file. Nothing \
             is retired. What to do: close place 4 (mapping file 1) of step 0; retire it after that. Or: let step 0 \
             exit; retire it after that.",
        ],
    );
}

#[test]
fn channels_are_explained() {
    let text = explained(&format!("{BOOKS}connect 0 1 5 6 3 4\nread 0 3\nclose 0 4\nclose 1 3\n"));
    sees(
        &text,
        &[
            "Allowed. Both pipes are empty. One way: step 0 writes pipe 5 (level 9) at place 4, and step 1 reads it \
             at place 3. Back: step 1 writes pipe 6 (level 8) at place 4, and step 0 reads it at place 3. 6.",
            "Place 3 is empty. That was the last handle on pipe 5, which ends. End",
        ],
    );
    let text = explained(&format!("{BOOKS}open-write 0 0 0\nconnect 0 1 5 6 3 4\n"));
    sees(
        &text,
        &[
            "writing at place 4: what step 1 has could then reach file 0. Refused (9): data could reach a \
             file of a higher level or with a shop mark that it lacks. Neither pipe is made.",
            "This is how what step 1 has could get into file 0, were it let through: step 1 writes pipe 6; step 0 \
             reads it and writes file 0. Proved (RULES A1 to A12): none of these reads and writes would be refused; no \
             chain is shorter. What to do: close place 0 (writing file 0) of step 0; connect them after that. Or: if data need only go from step 0 to step 1, \
             let step 0 make pipe 5 and step 1 open it for reading. End",
        ],
    );
    let full: String = (0..15).map(|p| format!("open-read 0 0 {p}\n")).collect();
    let text = explained(&format!("{BOOKS}{full}connect 0 1 5 6 0 1\n"));
    sees(
        &text,
        &["close place 0 of step 0; then places 0 and 15 are empty at step 0 and at step 1: use these."],
    );
}

#[test]
fn a_number_is_made_free_where_none_is() {
    let files: String = (0..64).map(|o| format!("register {o} 15 all\n")).collect();
    // A number that is in use, and no room for another one.
    let text = explained(&format!("{files}admit 0 0 all\ncreate 0 63\n"));
    sees(
        &text,
        &["retire a file that nobody has open, for example file 0, file 1 or file 2; then use a free number, for example 64."],
    );
    // Every file is open somewhere.
    let steps: String = (0..4).map(|s| format!("admit {s} 0 all\n")).collect();
    let opens: String = (0..64).map(|o| format!("open-read {} {o} {}\n", o / 16, o % 16)).collect();
    let text = explained(&format!("{files}{steps}{opens}create 0 3\n"));
    sees(
        &text,
        &[
            "create file 3: file 3 is there already.",
            "close place 0 (reading file 0) of step 0 and retire file 0; then use a free number, for example 64.",
        ],
    );
    let admits: String = (0..32).map(|s| format!("admit {s} 9 all\n")).collect();
    let text = explained(&format!("{admits}fork 5 32\n"));
    sees(&text, &["all 32 numbers are in use: let a step exit and use its number, for example step 0, step 1 or step 2."]);
}

/// RULES R17: what could go to make room, each of it tried.
#[test]
fn room_is_made_where_64_are_live() {
    let files =
        |count: u64| -> String { (0..count).map(|o| format!("register {} 15 all\n", o << 40)).collect() };
    let text = explained(&format!("{}admit 0 15 all\ncreate 0 5\n", files(64)));
    sees(
        &text,
        &[
            "Step 0 may not create file 5: 64 files and pipes are live, and 64 may be. Refused (17): ",
            "No file is created. What to do: retire a file that nobody has open, for example file 0, file \
           1,099,511,627,776 or file 2,199,023,255,552; create it after that.",
        ],
    );
    // One file that nobody has open, and pipes.
    let opens: String =
        (0..61).map(|o: u64| format!("open-read {} {} {}\n", 1 + o / 15, o << 40, o % 15)).collect();
    let steps: String = (0..6).map(|s| format!("admit {s} 15 all\n")).collect();
    let start = format!("{}{steps}{opens}pipe 0 7 0 1\npipe 0 8 2 3\n", files(62));
    let text = explained(&format!("{start}register 9 4 all\n"));
    sees(
        &text,
        &["What to do: retire file 67,070,209,294,336, which nobody has open; register it after that. Or: close \
           place 0 (reading pipe 7) and place 1 (writing pipe 7) of step 0, with which pipe 7 ends; register it after that."],
    );
    // Two are new in a connect: one has to go where 63 are live, and two where 64 are.
    let text = explained(&format!("{start}close 0 0\nclose 0 1\nconnect 0 1 20 21 0 15\n"));
    sees(&text, &["63 files and pipes are live, and 64 may be. Refused (17)"]);
    let text = explained(&format!("{}{steps}connect 0 1 20 21 0 1\n", files(64)));
    sees(
        &text,
        &["What to do: retire two files that nobody has open, for example file 0, file 1,099,511,627,776 and file \
           2,199,023,255,552; connect them after that."],
    );
    // With room it is refused all the same.
    let text = explained(&format!("{}register 5 16 all\n", files(64)));
    sees(&text, &["With room for it, it would be refused with 6: "]);
    // A file that is missing, and no room to register it.
    let text = explained(&format!("{}admit 0 15 all\nopen-read 0 5 0\n", files(64)));
    sees(
        &text,
        &["retire file 0, which nobody has open; then register file 5 first, at any level; then the call is allowed."],
    );
}

#[test]
fn only_refusals_are_told_where_that_is_asked() {
    let journal =
        gk(&["assemble"], format!("{BOOKS}open-write 0 0 0\nopen-read 0 1 1\nexit 0\n").as_bytes()).stdout;
    let text = out(&gk(&["explain", "--refused"], &journal));
    assert!(
        text.starts_with("6. Step 0 may not open file 1") && text.contains("End of the run: 6 allowed"),
        "{text}"
    );
    assert!(!text.contains("7. ") && !text.contains("1. File"), "{text}");
}

/// The paragraphs of a text, each on one line.
fn paragraphs(text: &str) -> Vec<String> {
    let mut found: Vec<String> = Vec::new();
    for line in text.lines() {
        match found.last_mut().filter(|_| line.starts_with(' ')) {
            Some(last) => *last = format!("{last} {}", line.trim_start()),
            None => found.push(line.to_string()),
        }
    }
    found
}

#[test]
fn refusals_that_are_alike_are_told_once() {
    let names = "name step 0 merge\nname file 1 \"sheet one\"\nname file 2 \"sheet two\"\n";
    let opens = "open-read 0 1 1\nopen-read 0 2 2\nopen-read 0 1 1\nmap 0 2 1\nopen-read 0 3 1\nread 7 0\nread 7 0\n";
    let text = format!("{names}{BOOKS}register 2 2 all\nregister 3 3 all\nopen-write 0 0 0\n{opens}");
    let folder = Folder::new("alike");
    let journal = folder.path("run.journal");
    assert!(gk(&["assemble", "-o", &journal], text.as_bytes()).status.success());
    let told = paragraphs(&out(&gk(&["explain", "--refused", &journal], b"")));
    assert_eq!(told.len(), 7, "{told:#?}");
    let first = "Records 8, 9 and 10: merge (step 0) may not open the file for reading: it writes file 0. The file is \
                 at record 8 sheet one (file 1), at record 9 sheet two (file 2), at record 10 sheet one (file 1). Refused \
                 (9): data could reach a file of a higher level or with a shop mark that it lacks. Nothing is opened. The file has level 2, and file 0 takes \
                 nothing from below level 9.";
    assert!(told[0].starts_with(first), "{}", told[0]);
    let how = "This is how the file could get into file 0, were it let through: merge reads the file and writes file 0.";
    assert!(told[0].contains(how), "{}", told[0]);
    assert!(
        told[1].starts_with("11. merge (step 0) may not map sheet two (file 2) at place 1"),
        "{}",
        told[1]
    );
    assert!(
        told[2].starts_with("12. merge (step 0) may not open file 3 for reading at place 1"),
        "{}",
        told[2]
    );
    assert!(told[3].starts_with("Records 13 and 14: Step 7 may not read at place 0"), "{}", told[3]);
}

/// Told together or alone, each refusal stands at its number, and no other record does.
#[test]
fn every_refusal_is_found_by_its_number() {
    for (name, journal) in journals() {
        let told = out(&gk(&["explain", "--refused"], &journal));
        let mut found: Vec<u64> = Vec::new();
        for text in paragraphs(&told).iter().take_while(|text| !text.starts_with("End of the run")) {
            let numbers = match text.strip_prefix("Records ") {
                Some(rest) => rest.split_once(": ").unwrap().0.replace(" and ", ", "),
                None if text.starts_with("The journal is refused (14)") => "1".to_string(),
                None => text.split_once(". ").unwrap().0.to_string(),
            };
            found.extend(numbers.split(", ").map(|number| number.parse::<u64>().unwrap()));
        }
        found.sort_unstable();
        let json = out(&gk(&["explain", "--refused", "--json"], &journal));
        let expected: Vec<u64> = json
            .lines()
            .filter_map(|line| line.strip_prefix("{\"record\":")?.split(',').next()?.parse().ok())
            .collect();
        assert_eq!(found, expected, "{name}");
    }
}

#[test]
fn a_summary_has_each_steps_levels_handles_and_refusals() {
    let calls = "open-write 0 0 0\nopen-read 0 1 1\nclose 0 0\nmap 0 1 1\nexit 0\nadmit 0 3 all\n";
    let text = format!("{BOOKS}{calls}read 7 0\nfreeze 17\nbytes 00\n");
    let journal = gk(&["assemble"], text.as_bytes());
    let output = gk(&["explain", "--summary"], &journal.stdout);
    assert_eq!((output.status.code(), err(&output)), (Some(0), String::new()));
    assert_eq!(
        out(&output),
        "\
Step 0, from record 3 to record 9.
  Level: 9 from record 3 on, 2 from record 8 on.
  Held place 0, writing file 0, from record 5 to record 7.
  Held place 1, mapping file 1, from record 8 to record 9.
  Refused at record 6: Step 0 may not open file 1 for reading at place 1 (9, data could reach a file
    of a higher level or with a shop mark that it lacks).
Step 0, from record 10 to the end.
  Level: 3 from record 10 on.
  Held nothing.
  Never refused.
Step 1, from record 4 to the end.
  Level: 8 from record 4 on.
  Held nothing.
  Never refused.
Asked by no step that was there.
  Refused at record 11: Step 7 may not read at place 0 (2, the step that asks, or is to be
    connected, is not there).
  Refused at record 12: The freeze is not set to 17 (6, the level is above 15, the set above 255, or
    a freeze above 16).
  Refused at record 13: no call (12, the record is not well formed).
3 steps. 9 records allowed or lowered, 4 refused. Handles: 2 made, 2 gone, 0 still open.
"
    );
}

#[test]
fn a_record_in_json_has_what_docs_json_says() {
    let text = format!("name step 0 \"merge 2\"\n{BOOKS}open-write 0 0 0\nopen-read 0 1 1\nbytes 00\n");
    let folder = common::Folder::new("json");
    let journal = folder.path("run.journal");
    assert_eq!(gk(&["assemble", "-o", &journal], text.as_bytes()).status.code(), Some(0));
    let lines = out(&gk(&["explain", "--json", &journal], b""));
    let lines: Vec<&str> = lines.lines().collect();
    let expected = concat!(
        r#"{"record":5,"code":6,"outcome":"allowed","level":9,"call":"open-write","words":"open-write 0 0 0","#,
        r#""numbers":{"s":0,"o":0,"p":0},"names":{"s":"merge 2"},"said":["merge 2 (step 0) opens file 0 for "#,
        r#"writing at place 0.","Allowed. File 0 has level 9, merge 2 level 9."]}"#
    );
    assert_eq!(lines[4], expected);
    let refused =
        r#"{"record":6,"code":5,"outcome":"refused","refusal":9,"meaning":"data could reach a file "#;
    let chain = r#""chain":{"proved":true,"links":[{"kind":"file","number":1,"level":2,"set":255,"called":"file 1"},"#;
    let acts = concat!(
        r#""text":"This is how file 1 could get into file 0, were it let through","acts":[{"text":"merge 2 reads file 1 "#,
        r#"and writes file 0","does":["read 0 1","write 0 0"]}]}"#
    );
    let advice = concat!(
        r#""advice":[{"text":"close place 0 (writing file 0) of merge 2; open it after that.","#,
        r#""calls":["close 0 0","open-read 0 1 1"]},"#
    );
    sees(lines[5], &[refused, chain, acts, advice, r#""notes":[]}"#]);
    let expected = concat!(
        r#"{"record":7,"code":0,"outcome":"refused","refusal":12,"meaning":"the record is not well formed","#,
        r#""said":["A record that is no call.","Refused (12): the record is not well formed. The body is empty, "#,
        r#"there is no code."],"advice":[{"text":"look at the program that wrote the journal; the next record is "#,
        r#"read.","calls":[]}],"notes":[]}"#
    );
    assert_eq!(lines[6], expected);
    assert_eq!(lines[7], r#"{"end":{"allowed":5,"lowered":0,"refused":2,"made":1,"gone":0,"open":1}}"#);
    // The page says of each key what it is.
    let page = std::fs::read_to_string(format!("{}/docs/JSON.md", common::ROOT)).unwrap();
    for line in lines {
        for key in line.split('"').collect::<Vec<&str>>().windows(2).filter(|pair| pair[1].starts_with(':'))
        {
            let is_name_of_number =
                ["s", "o", "p", "level", "t", "a", "b", "q", "r", "w", "c"].contains(&key[0]);
            assert!(is_name_of_number || page.contains(&format!("`{}`", key[0])), "{}", key[0]);
        }
    }
}

/// The calls that JSON advises are assembly: behind the journal up to the record, they are all allowed.
#[test]
fn the_calls_that_json_advises_can_be_typed() {
    let text = format!("{BOOKS}open-write 0 0 0\nopen-read 0 1 1\n");
    let journal = gk(&["assemble"], text.as_bytes()).stdout;
    let lines = out(&gk(&["explain", "--json", "--refused"], &journal));
    let line = lines.lines().next().unwrap();
    let mut tried = 0;
    for part in line.split("\"calls\":[").skip(1) {
        let calls = part.split(']').next().unwrap().replace("\",\"", "\n").replace('"', "");
        let before = format!("{BOOKS}open-write 0 0 0\n{calls}\n");
        let replies = out(&gk(&["run"], &gk(&["assemble"], before.as_bytes()).stdout));
        assert!(!replies.contains(" R "), "{calls}: {replies}");
        tried += 1;
    }
    assert_eq!(tried, 4);
}

#[test]
fn an_advice_without_calls_is_not_said_to_be_tried() {
    // A code that no call has.
    let output = gk(&["explain"], &[1, 32]);
    sees(
        &out(&output).split_whitespace().collect::<Vec<&str>>().join(" "),
        &[
            "1. A record that is no call. Refused (1): no call has the code 32; calls have 1 to 18. What to do: look \
             at the program that wrote the journal; the next record is read.",
        ],
    );
    assert!(!out(&output).contains("was tried") && err(&output).is_empty(), "{}", out(&output));
    for (journal, refusal) in [(vec![1, 32], 1), (vec![0x80, 0], 11), (vec![0], 12), (vec![0; 65_537], 14)]
    {
        let text = out(&gk(&["explain", "--json"], &journal));
        let first = text.lines().next().unwrap_or_default();
        assert!(first.contains(&format!("\"refusal\":{refusal},")), "{first}");
        assert!(first.contains("\"advice\":[{\"text\":") && first.contains("\"calls\":[]}]"), "{first}");
        assert!(!first.contains("What to do"), "{first}");
    }
}

#[test]
fn nothing_is_above_level_15() {
    let text = explained(
        "register 0 15 all\nregister 1 2 all\nadmit 0 15 all\nopen-write 0 0 0\nopen-read 0 1 1\n",
    );
    sees(&text, &["step 0 has to stay at level 15.", "register it at level 15, and"]);
    assert!(!text.contains("15 or above"), "{text}");
}

/// A text with names, explained, with one space between two words.
fn explained_with_names(text: &str) -> String {
    let folder = common::Folder::new(&format!("shops-{}", text.len()));
    let journal = folder.path("run.journal");
    let output = gk(&["assemble", "-o", &journal], text.as_bytes());
    assert_eq!((output.status.code(), common::err(&output)), (Some(0), String::new()));
    out(&gk(&["explain", &journal], b"")).split_whitespace().collect::<Vec<&str>>().join(" ")
}

/// Three shop groups, of which two have names; a book that asks for the mark of the north.
const SHOPS: &str =
    "name shop 0 north\nname shop 1 east\nregister 0 9 north\nregister 1 12 \"east,shop 2\"\n\
                     register 2 2 none\nadmit 0 12 \"north,east,shop 2\"\n";

#[test]
fn marks_that_are_lost_are_named_and_because_of_what() {
    let calls = "open-read 0 1 0\nread 0 0\npipe 0 5 1 2\nfork 0 3\nopen-read 3 2 4\nread 3 4\nwrite 3 2\nread 0 1\n\
                 create 0 6\nexit 0\n";
    let text = explained_with_names(&format!("{SHOPS}{calls}"));
    sees(
        &text,
        &[
            "1. File 0 is registered from outside at level 9 with the shop mark of north. Allowed. File 0 has level 9 \
             with the shop mark of north for good.",
            "3. File 2 is registered from outside at level 2 with no shop marks. Allowed. File 2 has level 2 with no \
             shop marks for good.",
            "4. Step 0 is admitted from outside at level 12 with the shop marks of north, east and shop 2. Allowed. Step 0 \
             runs at level 12 with the shop marks of north, east and shop 2, with no handles.",
            "6. Step 0 reads at place 0, its reading handle on file 1 (level 12, shop marks of east and shop 2). Lowered. \
             Step 0 stays at level 12 and loses the shop mark of north, which file 1 does not have; it keeps the shop \
             marks of east and shop 2.",
            "7. Step 0 makes pipe 5, reading at place 1 and writing at place 2. Allowed. Pipe 5 is empty and starts at the \
             label of step 0, level 12 with the shop marks of east and shop 2.",
            "8. Step 0 forks step 3. Allowed. Step 3 starts at level 12 with the shop marks of east and shop 2, and with \
             copies of the 3 handles of step 0.",
            "10. Step 3 reads at place 4, its reading handle on file 2 (level 2, no shop marks). Lowered. Step 3 falls from \
             level 12 to level 2 and loses the shop marks of east and shop 2, which file 2 does not have; it keeps no \
             shop marks.",
            "11. Step 3 writes at place 2, its writing handle on pipe 5 (level 12, shop marks of east and shop 2). \
             Lowered. Pipe 5 falls from level 12 to level 2 and loses the shop marks of east and shop 2, which step 3 \
             does not have; it keeps no shop marks.",
            "13. Step 0 creates file 6. Allowed. File 6 is empty and has the label of step 0, level 2 with no shop \
             marks, for good.",
            "14. Step 0 exits. Allowed. Its last level was 2 with no shop marks; ",
        ],
    );
}

/// A 9 says what is insufficient: the level, or which shop marks, or both.
#[test]
fn a_9_says_what_is_insufficient() {
    let text =
        explained_with_names(&format!("{SHOPS}open-write 0 0 0\nopen-read 0 1 1\nopen-read 0 2 1\n"));
    sees(
        &text,
        &[
            "Nothing is opened. File 1 lacks the shop mark of north, and file 0 takes nothing without it. With the handles \
             that there are, step 0 has to stay at level 9 or above and to keep the shop mark of north. This is \
             how file 1 could get into file 0, were it let through: step 0 reads file 1 and writes file 0. Proved (RULES A1 \
             to A12): none of these reads and writes would be refused; no chain is shorter. What to do: close place 0",
            "Or: when a clerk has looked file 1 over, retire it, register it at level 9 or above with the shop mark of \
             north, and open it then.",
            "File 2 has level 2 and lacks the shop mark of north, and file 0 takes nothing from below level 9 and nothing \
             without it.",
        ],
    );
    // A step that lacks a mark itself.
    let calls = "admit 1 15 \"east,shop 2\"\nadmit 2 3 none\nopen-write 1 0 0\nopen-write 2 0 0\n";
    let text = explained_with_names(&format!("{SHOPS}{calls}"));
    sees(
        &text,
        &[
            "7. Step 1 may not open file 0 for writing at place 0: it lacks the shop mark of north, and file 0 takes nothing \
             without it.",
            "No closing of handles helps: step 1 itself lacks the shop mark of north, which file 0 has.",
            "Or: admit a step at level 9 or above with the shop mark of north, number 3 is free, and let it open it.",
            "8. Step 2 may not open file 0 for writing at place 0: its level is 3 and it lacks the shop mark of north, and \
             file 0 takes nothing from below 9 and nothing without it.",
        ],
    );
    let text = explained("admit 0 9 256\nregister 1 16 999\n");
    sees(
        &text,
        &[
            "1. Step 0 is not admitted from outside at level 9 with the set 256: a set of shop marks is 0 to 255.",
            "What to do: give a set of shop marks from 0 to 255.",
            "2. File 1 is not registered from outside at level 16 with the set 999: levels are 0 to 15.",
            "What to do: give a level from 0 to 15 and a set of shop marks from 0 to 255.",
        ],
    );
    // A file that is missing, which a step without the mark is to write: it may ask for no other marks than the step has.
    let text = explained("admit 0 9 5\nopen-write 0 7 0\nopen-read 0 8 0\n");
    sees(
        &text,
        &[
            "What to do: register file 7 first, at level 0 to 9 with no other shop marks than the marks of shop 0 and \
             shop 2; then the call is allowed.",
            "What to do: register file 8 first, at any level; then the call is allowed.",
        ],
    );
}
