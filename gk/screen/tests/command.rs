//! The command from outside: what it writes, what it says, how it ends.

use std::fs;
use std::io::{BufRead, BufReader, Read, Write};
use std::net::TcpStream;
use std::path::PathBuf;
use std::process::{Child, Command, Output, Stdio};
use std::sync::{Arc, Mutex};
use std::thread::sleep;
use std::time::{Duration, Instant};

mod window;

const PROGRAM: &str = env!("CARGO_BIN_EXE_gk-screen");
const MARCH: &str = concat!(env!("CARGO_MANIFEST_DIR"), "/../../crates/payrun/stdin");
const REPLY: &str = concat!(env!("CARGO_MANIFEST_DIR"), "/../../crates/payrun/stdout");
const NAMES: &str = concat!(env!("CARGO_MANIFEST_DIR"), "/examples/march.names");

/// A folder of its own for a test.
struct Scratch(PathBuf);

impl Scratch {
    fn new(name: &str) -> Scratch {
        let folder = std::env::temp_dir().join(format!("gk-screen-{}-{name}", std::process::id()));
        fs::create_dir_all(&folder).expect("a folder to write to");
        Scratch(folder)
    }

    fn write(&self, name: &str, bytes: &[u8]) -> String {
        let path = self.0.join(name);
        fs::write(&path, bytes).expect("a file to write");
        path.to_string_lossy().into_owned()
    }
}

impl Drop for Scratch {
    fn drop(&mut self) {
        let _ = fs::remove_dir_all(&self.0);
    }
}

fn run(args: &[&str], input: &[u8]) -> Output {
    let mut child = spawn(args);
    let mut stdin = child.stdin.take().expect("its input");
    let input = input.to_vec();
    // It may stop reading before all is written.
    let writer = std::thread::spawn(move || drop(stdin.write_all(&input)));
    let output = child.wait_with_output().expect("its end");
    writer.join().expect("a writer");
    output
}

fn spawn(args: &[&str]) -> Child {
    let mut command = Command::new(PROGRAM);
    command
        .args(args)
        .env_remove("NO_COLOR")
        .stdin(Stdio::piped())
        .stdout(Stdio::piped())
        .stderr(Stdio::piped());
    command.spawn().expect("the program starts")
}

/// The text that it writes where all is well.
fn shown(args: &[&str], input: &[u8]) -> String {
    let output = run(args, input);
    assert_eq!(output.status.code(), Some(0), "{args:?}: {}", String::from_utf8_lossy(&output.stderr));
    assert_eq!(output.stderr, b"", "{args:?}");
    String::from_utf8(output.stdout).expect("UTF-8")
}

#[track_caller]
fn fails(args: &[&str], status: i32, words: &str) {
    let output = run(args, b"");
    let said = String::from_utf8_lossy(&output.stderr);
    assert_eq!(output.status.code(), Some(status), "{said}");
    assert!(said.contains(words) && said.starts_with("screen: "), "{said}");
    assert_eq!(output.stdout, b"");
    assert!(!said.trim_end().contains(|letter: char| letter.is_control() && letter != '\n'), "{said:?}");
}

#[test]
fn march_is_shown_after_a_record() {
    let text = shown(&["--at", "196", MARCH], b"");
    assert!(text.starts_with("stdin: record 196 of 306 "), "{text}");
    for words in [
        "Step 17 may not open file 1 for reading at place 5: it writes file 0.\n  Refused (9): data could reach",
        "17    12 all  12 all       1: writes pipe 37; 2: reads pipe 36; 4: writes file 0",
        "  196  Way out: Close place 1 (writing pipe 37) and place 4 (writing file 0) of\n         step 17; open it after that.",
        "retire it, register it at level\n         12 or above, and open it then.",
        "       This is how file 1 could get into file 0, were it let through: step 17\n         reads file 1 and writes file \
         0. Proved (RULES A1 to A12): none of these\n         reads and writes would be refused; no chain is shorter.\n",
        "pipe 37          12 all  17                    18",
    ] {
        assert!(text.contains(words), "{words} is not in:\n{text}");
    }
    let text = shown(&["--at", "205", "--names", NAMES, MARCH], b"");
    let text = text.split_whitespace().collect::<Vec<_>>().join(" ");
    assert!(
        text.contains("sheet reader (step 1) falls from level 12 to level 2. Nothing else falls."),
        "{text}"
    );
    assert!(text.contains("at record 198: from there a way led up."), "{text}");
}

/// Shop marks stand small beside the level, by the letters of the groups' names, and what they are below.
#[test]
fn shop_marks_are_shown_beside_the_level() {
    let scratch = Scratch::new("shops");
    // A step with the marks of groups 0, 1 and 7, a file with that of group 0 and one with none.
    let bytes = [5, 1, 0, 12, 131, 1, 4, 2, 0, 9, 1, 4, 2, 1, 2, 0, 4, 6, 0, 0, 3, 4, 5, 0, 1, 4];
    let journal = scratch.write("run.journal", &bytes);
    let text = shown(&[&journal], b"");
    for words in [
        " 0    12 01·····7   9 0·······  3: writes file 0\n",
        "  9 0·······  0 ",
        "  2 none      - ",
        "Shop marks: a digit is the number of a shop group, · is one that is not there\n",
        "This is how file 1 could get into file 0, were it let through: step 0\n",
        "File 1 has level 2 and lacks the shop mark of shop 0, and file 0 takes\n",
    ] {
        assert!(text.contains(words), "{words} is not in:\n{text}");
    }
    scratch.write("run.names", b"names 1\nshop 0 1 north\nshop 1 1 east\nshop 7 1 the harbour\n");
    let text = shown(&[&journal], b"");
    for words in [
        " 0    12 NE·····T   9 N·······  3: writes file 0\n",
        "Shop marks: N north, E east, T the harbour; a digit",
    ] {
        assert!(text.contains(words), "{words} is not in:\n{text}");
    }
    // Where all marks are there, nothing is to be said of them.
    assert!(!shown(&[MARCH], b"").contains("Shop marks"));
}

#[test]
fn standard_input_is_a_journal_too() {
    let journal = fs::read(MARCH).expect("the journal of March");
    assert_eq!(shown(&["--title", "stdin", "-"], &journal), shown(&[MARCH], b""));
    assert!(shown(&["-"], b"").contains("before the first record"));
}

#[test]
fn broken_journals_are_shown_up_to_where_they_hold() {
    let journal = fs::read(MARCH).expect("the journal of March");
    let cut = shown(&["-"], &journal[..journal.len() - 2]);
    assert!(cut.contains("record 306 of 306") && cut.contains("Refused (11)"), "{cut}");
    assert!(cut.contains("Way out: Look at how the journal was written"), "{cut}");
    let long = shown(&["-"], &vec![0; 70_000]);
    assert!(long.contains("Refused (14)") && long.contains("Way out: Split the journal"), "{long}");
    let page = shown(&["--page", "-"], &vec![0; 70_000]);
    assert!(page.contains("[\"R\",14,0,"), "{page}");
    let text = run(&["-"], b"register 0 9\n");
    assert!(String::from_utf8_lossy(&text.stderr).contains("looks like a text"));
    assert_eq!(text.status.code(), Some(0));
}

#[test]
fn the_page_of_march_is_one_small_file() {
    let page = shown(&["--page", "--names", NAMES, MARCH], b"");
    assert!(page.len() < 200_000, "{} bytes", page.len());
    for outside in [
        "http://",
        "https://",
        "src=",
        "@import",
        "url(h",
        "fetch(",
        "innerHTML",
        "document.write",
        "eval(",
    ] {
        let found = page.replace("http://www.w3.org/2000/svg", "");
        assert!(!found.contains(outside), "the page has {outside}");
    }
}

#[test]
fn names_and_titles_cannot_become_a_part_of_the_page() {
    let scratch = Scratch::new("names");
    let hostile = "</script><script>alert(1)</script>";
    let file = scratch.write("run.names", format!("names 1\nstep 0 1 {hostile}\n").as_bytes());
    fails(&["--names", &file, MARCH], 1, "line 2: expected a name");
    let page =
        shown(&["--page", "--title", &format!("<img src=x onerror=alert(1)>\"'&{hostile}"), MARCH], b"");
    assert!(!page.contains(hostile) && !page.contains("<img"));
    assert!(page.contains("&lt;img src=x onerror=alert(1)&gt;&quot;&#39;&amp;&lt;/script&gt;"));
    // What is allowed in a name and means something elsewhere.
    let file = scratch.write("run.names", "names 1\nstep 0 1 R&D's 100% é 日本\n".as_bytes());
    let page = shown(&["--page", "--names", &file, MARCH], b"");
    assert!(
        page.contains("[\"step\",\"0\",1,\"R\\u0026D\\u0027s 100% \\u00e9 \\u65e5\\u672c\"]"),
        "{page}"
    );
}

#[test]
fn names_beside_the_journal_are_found() {
    let scratch = Scratch::new("beside");
    let journal = scratch.write("run.journal", &[5, 1, 0, 9, 255, 1]);
    assert!(shown(&[&journal], b"").contains("Step 0 is admitted"));
    scratch.write("run.names", b"names 1\nstep 0 1 shell\n");
    assert!(shown(&[&journal], b"").contains("shell (step 0) is admitted"));
    scratch.write("run.names", b"names 1\nstep zero 1 shell\n");
    let output = run(&[&journal], b"");
    assert_eq!(output.status.code(), Some(0));
    assert!(String::from_utf8_lossy(&output.stderr).contains("shown without names"));
    assert!(String::from_utf8_lossy(&output.stdout).contains("Step 0 is admitted"));
}

#[test]
fn bad_usage_is_said() {
    fails(&[], 2, "name a journal");
    fails(&["--folow", MARCH], 2, "Did you mean --follow");
    fails(&["--colour\u{1b}[2J", MARCH], 2, "there is no option '--colour\\u{1b}[2J'");
    fails(&["--at", "x", MARCH], 2, "--at needs the number of a record, not 'x'");
    fails(&["--at", "307", MARCH], 2, "there is no record 307: the journal has 306");
    fails(&["--at"], 2, "--at needs a value");
    fails(&["--page=yes", MARCH], 2, "--page takes no value");
    fails(&["--color", "blue", MARCH], 2, "always, never or auto");
    fails(&["--follow", "--at", "3", MARCH], 2, "--follow does not go with --at");
    fails(&["--follow", "--page", "-"], 2, "needs a journal that is a file");
    fails(&["--page", "--port", "8000", MARCH], 2, "--port goes with --follow --page alone");
    fails(&["--follow", "--page", "--port", "65536", MARCH], 2, "--port needs a number, 0 to 65535");
    fails(&["a", "b"], 2, "one journal at a time");
    fails(&["no such journal\u{7}"], 1, "cannot read 'no such journal\\u{7}'");
    fails(&["/"], 1, "it is a folder");
    fails(&["--names", "none", MARCH], 1, "cannot read 'none'");
    fails(&["--names", "/", MARCH], 1, "cannot read '/': it is a folder");
    let help = shown(&["--help"], b"");
    assert!(help.contains("Exit status: 0 shown") && help.lines().all(|line| line.len() <= 80), "{help}");
}

#[test]
fn colour_is_for_terminals_and_for_those_who_ask() {
    assert!(!shown(&[MARCH], b"").contains('\u{1b}'));
    assert!(shown(&["--color=always", MARCH], b"").contains("\u{1b}[1m"));
}

#[test]
fn a_reader_that_stops_early_is_no_fault() {
    let mut child = spawn(&["--page", MARCH]);
    drop(child.stdout.take());
    let mut said = String::new();
    child.stderr.take().expect("its words").read_to_string(&mut said).expect("UTF-8");
    assert_eq!((child.wait().expect("its end").code(), said.as_str()), (Some(141), ""));
}

#[test]
fn input_without_end_is_read_no_further_than_it_needs() {
    let mut child = spawn(&["-"]);
    let mut stdin = child.stdin.take().expect("its input");
    let mut written = 0;
    while stdin.write_all(&[0; 1 << 12]).is_ok() && written < 1 << 22 {
        written += 1 << 12;
    }
    assert!(written < 1 << 19, "{written} bytes were taken");
    assert_eq!(child.wait().expect("its end").code(), Some(0));
}

#[test]
fn a_journal_is_followed_while_it_is_written() {
    let scratch = Scratch::new("follow");
    let journal = fs::read(MARCH).expect("the journal of March");
    let path = scratch.write("run.journal", &journal[..10]);
    let mut child = spawn(&["--follow", &path]);
    let mut stdout = child.stdout.take().expect("its output");
    let seen = Arc::new(Mutex::new(Vec::new()));
    let shared = Arc::clone(&seen);
    let reader = std::thread::spawn(move || {
        let mut part = [0; 4096];
        while let Ok(count @ 1..) = stdout.read(&mut part) {
            shared.lock().expect("the text").extend(&part[..count]);
        }
    });
    // A busy machine may take its time.
    let text = || String::from_utf8_lossy(&seen.lock().expect("the text")).into_owned();
    let await_words = |words: &str| {
        let began = Instant::now();
        while !text().contains(words) && began.elapsed() < Duration::from_secs(120) {
            sleep(Duration::from_millis(20));
        }
    };
    await_words("! The next record is not whole yet.");
    for end in [12, 500, 900, journal.len()] {
        let mut file = fs::OpenOptions::new().append(true).open(&path).expect("the file");
        let begin = fs::metadata(&path).expect("its length").len() as usize;
        file.write_all(&journal[begin..end]).expect("a write");
        sleep(Duration::from_millis(300));
        if end == 500 {
            // A longer one takes its place, as `gk line --append` leaves it.
            let part = scratch.write("part", &journal[..700]);
            fs::rename(part, &path).expect("a move");
            sleep(Duration::from_millis(300));
        }
    }
    await_words("\n306 12 A 12");
    child.kill().expect("it is ended");
    child.wait().expect("its end");
    reader.join().expect("a reader");
    let text = text();
    let reply = fs::read_to_string(REPLY).expect("the replies");
    let lines: Vec<&str> = text.lines().filter(|line| !line.starts_with('!')).collect();
    assert_eq!(lines.len(), 306);
    for (line, expected) in lines.iter().zip(reply.lines()) {
        assert!(line.starts_with(&format!("{expected}  ")), "{line}");
    }
    assert!(text.contains("! The next record is not whole yet."), "{text}");
}

#[test]
fn following_says_when_a_journal_grows_too_long() {
    let journal = vec![0; 70_000];
    let text = shown(&["--follow", "-"], &journal);
    assert!(text.contains("! The journal has grown too long"), "{}", &text[text.len() - 300..]);
    assert!(text.contains("\n70000 0 R 12"));
    let text = shown(&["--follow", "-"], &[3, 1, 0]);
    assert!(
        text.contains("1 0 R 11  Byte 0 of the journal should start a record, and does not."),
        "{text}"
    );
    let text = shown(&["--follow", "-"], &[3, 1, 0, 9, 0x80, 0, 3, 1, 1, 9]);
    assert!(
        text.contains("\n2 0 R 11  ")
            && text.ends_with("! The journal is broken here: nothing behind it is read.\n"),
        "{text}"
    );
}

#[test]
fn a_journal_that_is_cut_in_a_record_is_not_mixed_with_another() {
    let scratch = Scratch::new("cut");
    let journal = fs::read(MARCH).expect("the journal of March");
    // Two records and a half, and then another journal of the same first bytes, which is shorter.
    let path = scratch.write("run.journal", &journal[..10]);
    let mut child = spawn(&["--follow", &path]);
    let mut stdout = child.stdout.take().expect("its output");
    let mut text = String::new();
    let mut part = [0; 4096];
    while !text.contains("! The next record is not whole yet.") {
        let count = stdout.read(&mut part).expect("a read");
        assert!(count > 0, "{text}");
        text.push_str(&String::from_utf8_lossy(&part[..count]));
    }
    let records = text.lines().count();
    fs::write(&path, &journal[..4]).expect("a write");
    let began = Instant::now();
    while child.try_wait().expect("its end").is_none() && began.elapsed() < Duration::from_secs(120) {
        sleep(Duration::from_millis(20));
    }
    // It has ended by itself; what comes in the place is not read.
    fs::write(&path, &journal).expect("a write");
    let _ = child.kill();
    assert_eq!(child.wait().expect("its end").code(), Some(0));
    stdout.read_to_string(&mut text).expect("the rest");
    assert!(
        text.ends_with("! The journal has become shorter: it is another one now. Start again to see it.\n"),
        "{text}"
    );
    assert_eq!(text.lines().count(), records + 1, "{text}");
}

#[test]
fn a_closed_input_is_said() {
    for arguments in ["-", "--follow -", "--page -"] {
        let line = format!("'{PROGRAM}' {arguments} <&-");
        let output = Command::new("bash").args(["-c", &line]).output().expect("the program starts");
        assert_eq!(output.status.code(), Some(1), "{arguments}");
        assert_eq!(String::from_utf8_lossy(&output.stderr), "screen: standard input is closed\n");
        assert!(output.stdout.is_empty(), "{arguments}");
    }
}

/// A screen that serves a page, and the port.
struct Served(Child, u16);

impl Served {
    fn start(args: &[&str]) -> Served {
        let mut child = spawn(args);
        let mut line = String::new();
        let output = child.stdout.as_mut().expect("its output");
        BufReader::new(output).read_line(&mut line).expect("a line");
        let port =
            line.strip_prefix("http://127.0.0.1:").and_then(|rest| rest.trim_end().strip_suffix('/'));
        let port = port.and_then(|port| port.parse().ok());
        Served(child, port.unwrap_or_else(|| panic!("no address: {line}")))
    }

    /// The first line and the body of the answer to a request.
    fn ask(&self, request: &str) -> (String, Vec<u8>) {
        let mut stream = TcpStream::connect(("127.0.0.1", self.1)).expect("it listens");
        stream.write_all(request.as_bytes()).expect("it reads");
        let mut answer = Vec::new();
        stream.read_to_end(&mut answer).expect("it answers");
        let end = answer.windows(4).position(|end| end == b"\r\n\r\n").expect("a head");
        let head = String::from_utf8(answer[..end].to_vec()).expect("UTF-8");
        for word in ["Cache-Control: no-store", "X-Frame-Options: DENY", "Connection: close"] {
            assert!(head.contains(word), "{head}");
        }
        (head.lines().next().unwrap_or("").to_string(), answer[end + 4..].to_vec())
    }

    fn get(&self, path: &str) -> (String, Vec<u8>) {
        self.ask(&format!("GET {path} HTTP/1.1\r\nHost: 127.0.0.1:{}\r\n\r\n", self.1))
    }
}

impl Drop for Served {
    fn drop(&mut self) {
        let _ = self.0.kill();
        let _ = self.0.wait();
    }
}

/// `--follow --page`: the page of what there is, on 127.0.0.1 alone, for requests to this server, and no other file.
#[test]
fn a_page_that_follows_is_served_to_this_machine_alone() {
    let scratch = Scratch::new("served");
    let march = fs::read(MARCH).expect("the journal of March");
    let whole: usize = 6 * 4; // the first four records have six bytes each
    let path = scratch.write("run.journal", &march[..whole + 2]);
    let secret = scratch.write("secret.txt", b"secret");
    let served = Served::start(&["--follow", "--page", &path]);
    let text = |(line, body): (String, Vec<u8>)| (line, String::from_utf8(body).expect("UTF-8"));

    let (line, page) = text(served.get("/"));
    assert_eq!(line, "HTTP/1.1 200 OK");
    assert!(page.contains("connect-src 'self'") && page.contains("<title>run.journal: the duty screen"));
    let not_whole = "4\nThe next record is not whole yet.\n".to_string();
    assert_eq!(text(served.get("/records")).1, not_whole);
    assert_eq!(served.get("/journal").1, march[..whole]);
    // It grows; what is read is what is there when it is asked for.
    fs::write(&path, &march).expect("it is written to");
    assert_eq!(text(served.get("/records")).1, "306\n\n");
    assert_eq!(served.get("/journal").1, march);
    assert!(served.get("/").1.len() > page.len() + march.len());

    // Another name for this machine, none, two, another port, or a name that only starts so.
    let port = served.1;
    for host in [
        format!("Host: evil.example:{port}\r\n"),
        String::new(),
        format!("Host: 127.0.0.1:{port}\r\nHost: evil.example\r\n"),
        "Host: 127.0.0.1:1\r\n".to_string(),
        format!("Host: 127.0.0.1:{port}.evil.example\r\n"),
        "Host: 127.0.0.1\r\n".to_string(),
    ] {
        let (line, body) = served.ask(&format!("GET / HTTP/1.1\r\n{host}\r\n"));
        assert_eq!((line.as_str(), body.len()), ("HTTP/1.1 403 Forbidden", 0), "{host:?}");
    }
    assert_eq!(
        served.ask(&format!("GET /records HTTP/1.1\r\nhost:LocalHost:{port}\r\n\r\n")).0,
        "HTTP/1.1 200 OK"
    );
    // No other file, by whatever path; no other method; nothing that is no request.
    for path in [
        "/secret.txt",
        "/../secret.txt",
        "/%2e%2e/secret.txt",
        "//etc/passwd",
        &secret,
        "/?x",
        "/journal/",
        "",
    ] {
        let (line, body) = served.get(path);
        assert_eq!((line.as_str(), body.len()), ("HTTP/1.1 404 Not Found", 0), "{path}");
    }
    let host = format!("Host: 127.0.0.1:{port}\r\n\r\n");
    assert_eq!(served.ask(&format!("POST / HTTP/1.1\r\n{host}")).0, "HTTP/1.1 405 Method Not Allowed");
    assert_eq!(
        served.ask(&format!("HEAD / HTTP/1.1\r\n{host}")),
        ("HTTP/1.1 200 OK".to_string(), Vec::new())
    );
    assert_eq!(served.ask(&format!("GET /\r\n{host}")).0, "HTTP/1.1 400 Bad Request");
    let long = format!("GET / HTTP/1.1\r\nX: {}\r\n{host}", "x".repeat(8192));
    assert_eq!(served.ask(&long[..8193]).0, "HTTP/1.1 431 Request Header Fields Too Large");
    // Who goes away in the middle stops nothing; another address of this machine does not lead there.
    drop(TcpStream::connect(("127.0.0.1", port)).expect("it listens"));
    assert_eq!(served.get("/favicon.ico").0, "HTTP/1.1 204 No Content");
    assert!(TcpStream::connect(("127.0.0.2", port)).is_err());

    // A journal that has become shorter is said; so is one that has grown too long, and the page has what fits.
    fs::write(&path, &march[..whole]).expect("it is written to");
    assert!(text(served.get("/records")).1.starts_with("306\nThe journal has become shorter"));
    let long: Vec<u8> = march[..6].iter().copied().cycle().take(70_002).collect();
    let path = scratch.write("long.journal", &long);
    let served = Served::start(&["--follow", "--page", "--port", "0", &path]);
    let (_, records) = text(served.get("/records"));
    assert!(records.starts_with("10922\nThe journal has grown too long"), "{records}");
    assert_eq!(served.get("/journal").1.len(), 65_532);
}
