//! The page in a real browser: every record by keyboard, and what it shows beside the program's reply, the screen in
//! the terminal, and the independent program's tables. Run by tools/screen-browser, which names the browser.

mod devtools;

use std::fs;
use std::path::PathBuf;
use std::process::{Command, Stdio};
use std::time::{Duration, Instant};

use devtools::json::Json;
use devtools::Browser;
use gatekeeper_independent::generate::{journal, Style, Wish};
use gatekeeper_independent::labels::Label;
use gatekeeper_independent::monitor::Answer;
use gatekeeper_independent::needs::{Needs, Thing};
use gatekeeper_independent::records::Body;
use gatekeeper_independent::replies::{Content, Run};
use gatekeeper_independent::tables::{Direction, Kind, Tables};
use gatekeeper_independent::variants::Rules;
use gk_advice::trail::{Part, Trail};
use gk_names::number::shown as in_words;

const PROGRAM: &str = env!("CARGO_BIN_EXE_gk-screen");
const MARCH: &str = concat!(env!("CARGO_MANIFEST_DIR"), "/../../crates/payrun/stdin");
const NAMES: &str = concat!(env!("CARGO_MANIFEST_DIR"), "/examples/march.names");

/// All that the page says of a record, as texts.
const SAID: &str = "(() => {
  const text = (id) => document.getElementById(id).textContent;
  const list = (id) => [...document.querySelectorAll(`#${id} li`)].map((item) => item.textContent);
  const cells = (row) => [...row.cells].map((cell) => cell.textContent);
  const table = (id) => [...document.querySelectorAll(`#${id} tbody tr`)].map(cells);
  const isShown = (id) => !document.getElementById(id).hidden;
  return {
    line: text('line'), asked: text('asked'), answer: text('answer'), books: text('books'), live: text('live'),
    why: list('why'), changed: list('changed'), hasWays: isShown('ways-part'),
    ways: [...document.querySelectorAll('#ways li:not(.note)')].map((item) => item.textContent),
    notes: [...document.querySelectorAll('#ways li.note')].map((item) => item.textContent),
    chain: isShown('chain-part') ? list('chain') : [], way: text('chain-title'), acts: text('acts'),
    steps: table('steps'), objects: table('objects'), slider: document.getElementById('slider').value,
    things: document.querySelectorAll('#graph .thing:not(.ghost)').length,
    objectCount: document.getElementById('live-objects').textContent,
    chained: document.querySelectorAll('#graph .edge.chain, #graph .edge.sought').length,
    shared: document.querySelectorAll('#graph .edge.shares').length,
  };
})()";

fn browser() -> Browser {
    let program = std::env::var("SCREEN_BROWSER").expect("tools/screen-browser names the browser");
    Browser::start(&program)
}

fn output(args: &[&str]) -> Vec<u8> {
    let output =
        Command::new(PROGRAM).args(args).stdin(Stdio::null()).output().expect("the program starts");
    assert!(output.status.success(), "{args:?}");
    output.stdout
}

/// A journal with its page, in a folder of their own.
struct Paged {
    folder: PathBuf,
    journal: Vec<u8>,
    page: PathBuf,
    /// The lines of the terminal, one for each record.
    lines: Vec<String>,
    /// All sentences about each record, as the terminal would write them.
    sentences: Vec<[Vec<String>; 6]>,
}

impl Paged {
    fn new(name: &str, journal: Vec<u8>, more: &[&str]) -> Paged {
        let folder = std::env::temp_dir().join(format!("gk-screen-page-{}-{name}", std::process::id()));
        fs::create_dir_all(&folder).expect("a folder");
        let path = folder.join("run.journal");
        fs::write(&path, &journal).expect("a journal");
        let path = path.to_string_lossy().into_owned();
        let page = folder.join("run.html");
        fs::write(&page, output(&[&["--page", &path], more].concat())).expect("a page");
        // Followed to its end from a pipe, a journal is a line for each record.
        let follow = Command::new(PROGRAM)
            .args([&["--follow", "-"], more].concat())
            .stdin(fs::File::open(&path).expect("the journal"))
            .output()
            .expect("the program starts");
        let lines = String::from_utf8(follow.stdout).expect("UTF-8");
        let lines = lines.lines().filter(|line| !line.starts_with('!')).map(str::to_string).collect();
        let names = more.iter().position(|&word| word == "--names").map(|at| fs::read(more[at + 1]));
        let names = names.map_or(Vec::new(), |names| names.expect("a names file"));
        let sentences = gk_screen::sentences(&journal, &names);
        Paged { folder, journal, page, lines, sentences }
    }
}

impl Drop for Paged {
    fn drop(&mut self) {
        let _ = fs::remove_dir_all(&self.folder);
    }
}

/// What the page says of a record, in one line, as the terminal says it.
fn as_line(said: &Json) -> String {
    let answer = said.get("answer").text();
    let answer = answer.split_once(' ').map_or(answer, |(_, words)| words);
    let way = match (said.get("ways").texts().first(), said.get("notes").texts().first()) {
        (Some(way), _) => format!(" Way out: {way}"),
        (None, Some(note)) => format!(" {note}"),
        (None, None) => String::new(),
    };
    format!("{}  {}. {answer}.{way}", said.get("line").text(), said.get("asked").text())
}

/// A row's first cell without a name: `Shell (step 0)` is `Step 0`.
fn plain(head: &str) -> String {
    let inner = head.rsplit_once('(').and_then(|(_, rest)| rest.strip_suffix(')')).unwrap_or(head);
    inner.to_lowercase()
}
/// A step's first cell without names, and the threads of the same step that are named behind it.
fn with_mates(head: &str) -> (String, Vec<String>) {
    match head.split_once(" · thread of one step with ") {
        Some((step, mates)) => (plain(step), mates.split(", ").map(plain).collect()),
        None => (plain(head), Vec::new()),
    }
}

/// A label as the page's tables have it where no shop group has a name: "12 all", "9 none", "2 01······".
fn short(label: Label) -> String {
    let signs =
        || (0..8).map(|group| if label.shops >> group & 1 == 1 { char::from(b'0' + group) } else { '·' });
    match label.shops {
        255 => format!("{} all", label.level),
        0 => format!("{} none", label.level),
        _ => format!("{} {}", label.level, signs().collect::<String>()),
    }
}

/// What a label is now: it stands behind an arrow where it fell.
fn now(cell: &str) -> String {
    cell.rsplit("→ ").next().unwrap_or(cell).to_string()
}

/// The page's tables beside those of the independent program. Threads of one step stand together, and a line joins each to
/// the next one.
fn tables_agree(said: &Json, tables: &Tables) {
    let needs = Needs::of_tables(tables);
    let shown: Vec<((String, Vec<String>), String, String, usize)> = rows(said, "steps")
        .iter()
        .map(|row| {
            let held = if row[3] == "nothing" { 0 } else { row[3].split("; ").count() };
            (with_mates(row[0]), now(row[1]), now(row[2]), held)
        })
        .collect();
    let mut steps: Vec<u64> = tables.live_subjects().collect();
    steps.sort_by_key(|&s| (tables.members(s).next(), s));
    let there: Vec<((String, Vec<String>), String, String, usize)> = steps
        .iter()
        .map(|&s| {
            let label = tables.subject(s).map_or(String::new(), |subject| short(subject.label()));
            let mates = tables.mates(s).map(|mate| format!("step {mate}")).collect();
            let name = (format!("step {s}"), mates);
            (name, label, short(needs.of(Thing::Subject(s))), tables.handles_of(s).count())
        })
        .collect();
    assert_eq!(shown, there);
    let joined = steps.iter().filter(|&&s| tables.members(s).next() != Some(s)).count();
    assert_eq!(said.get("shared").number(), Some(joined as f64), "lines between threads");

    let shown: Vec<(String, String, usize, usize)> = rows(said, "objects")
        .iter()
        .map(|row| (plain(row[0]), now(row[1]), count(row[2]), count(row[3])))
        .collect();
    let there: Vec<(String, String, usize, usize)> = tables
        .live_objects()
        .map(|o| {
            let object = tables.object(o).expect("it is live");
            let kind = if object.kind == Kind::File { "file" } else { "pipe" };
            let who = |direction, mapped| {
                let mut steps: Vec<u64> = tables
                    .handles()
                    .filter(|(_, _, held)| {
                        held.object == o && held.direction == direction && held.mapped == mapped
                    })
                    .map(|(s, _, _)| s)
                    .collect();
                steps.dedup();
                steps.len()
            };
            let readers = who(Direction::Reading, false) + who(Direction::Reading, true);
            (
                format!("{kind} {}", in_words(o)),
                short(object.label()),
                who(Direction::Writing, false),
                readers,
            )
        })
        .collect();
    assert_eq!(shown, there);
    let live = format!("{} of 64 live", there.len());
    assert_eq!(said.get("objectCount").text(), live);
    let things = tables.live_subjects().count() + tables.live_objects().count();
    assert_eq!(said.get("things").number(), Some(things as f64), "things in the graph");
    let is_closed = said.get("books").text().starts_with("Books closed");
    assert_eq!(is_closed, tables.frozen_from().is_some());
}

fn texts(list: &[String]) -> Vec<&str> {
    list.iter().map(String::as_str).collect()
}

fn rows<'a>(said: &'a Json, table: &str) -> Vec<Vec<&'a str>> {
    let rows: Vec<Vec<&str>> = said.get(table).list().iter().map(Json::texts).collect();
    rows.into_iter().filter(|row| !row[0].starts_with("No ")).collect()
}

fn count(cell: &str) -> usize {
    if cell == "–" {
        0
    } else {
        cell.split(", ").count()
    }
}

/// Whether the independent program refuses a record's call with 9 once there is no freeze.
fn is_nine_once_open(run: &Run, content: Content) -> bool {
    let Content::Body(_, Body::Call { code, numbers }) = content else {
        return false;
    };
    let mut open = run.monitor().clone();
    let _ = open.call(16, [gatekeeper::NO_FREEZE, 0, 0, 0, 0, 0]);
    open.call(code, numbers) == Answer::Refused(9)
}

/// Goes through all records with the right arrow, and back a few with the left one. Says how many were a 15 behind
/// which a 9 stands.
fn walk(browser: &mut Browser, paged: &Paged) -> usize {
    let mut hidden = 0;
    browser.open(&paged.page, "#0");
    let mut run = Run::new(&paged.journal, Rules::default());
    let mut replies = gatekeeper::replay(&paged.journal);
    replies.truncate(replies.rfind("end ").unwrap_or(0));
    let replies: Vec<&str> = replies.lines().collect();
    assert_eq!(replies.len(), paged.lines.len());
    assert_eq!(browser.value(SAID).get("line").text(), "");
    for ((reply, line), sentences) in replies.iter().zip(&paged.lines).zip(&paged.sentences) {
        browser.press("ArrowRight", 39, false);
        let step = run.next_step().expect("a record");
        let said = browser.value(SAID);
        assert_eq!(said.get("line").text(), *reply);
        assert_eq!(&as_line(&said), line);
        let [asked, why, ways, notes, changed, how] = sentences;
        assert_eq!([said.get("asked").text()], asked[..]);
        assert_eq!((said.get("why").texts(), said.get("ways").texts()), (texts(why), texts(ways)));
        assert_eq!(said.get("notes").texts(), texts(notes));
        let is_refused = reply.contains(" R ");
        assert_eq!(said.get("hasWays"), &Json::Bool(is_refused), "{reply}");
        // Where nothing has changed, the page says so.
        if !changed.is_empty() {
            assert_eq!(said.get("changed").texts(), texts(changed));
        }
        assert_eq!(said.get("slider").text(), reply.split(' ').next().unwrap_or(""));
        assert!(said.get("live").text().contains(said.get("asked").text()), "{said:?}");
        tables_agree(&said, run.monitor().tables());
        let is_hidden = reply.ends_with(" R 15") && is_nine_once_open(&run, step.content);
        let has_chain = reply.ends_with(" R 9") || is_hidden;
        assert_eq!(!said.get("chain").list().is_empty(), has_chain, "{reply}");
        assert_eq!(said.get("chained").number() > Some(0.0), has_chain, "{reply}");
        // The words of the chain are those of the terminal.
        assert_eq!(!how.is_empty(), has_chain, "{reply}");
        if let [title, acts @ ..] = &how[..] {
            let way = said.get("way").text();
            assert_eq!((way, way.contains("were the books open")), (title.as_str(), is_hidden), "{reply}");
            let acts = format!("{}.", acts.join("; "));
            assert!(said.get("acts").text().eq_ignore_ascii_case(&acts), "{reply}: {acts}");
        }
        hidden += usize::from(is_hidden);
    }
    browser.press("ArrowRight", 39, false);
    assert_eq!(
        browser.value(SAID).get("line").text(),
        replies.last().copied().unwrap_or(""),
        "the end is the end"
    );
    for reply in replies.iter().rev().skip(1).take(20) {
        browser.press("ArrowLeft", 37, false);
        assert_eq!(browser.value(SAID).get("line").text(), *reply);
    }
    hidden
}

#[test]
#[ignore = "needs a browser: tools/screen-browser"]
fn march_is_walked_by_keyboard() {
    let march = fs::read(MARCH).expect("the journal of March");
    let paged = Paged::new("march", march, &["--names", NAMES]);
    let mut browser = browser();
    walk(&mut browser, &paged);

    // It opens at the first refusal; N and P go from one to the next.
    browser.open(&paged.page, "");
    let mut found = Vec::new();
    for _ in 0..6 {
        found.push(browser.value(SAID).get("line").text().to_string());
        browser.press("n", 78, false);
    }
    assert_eq!(found, ["196 5 R 9", "198 5 R 9", "200 9 R 3", "201 9 R 3", "209 6 R 9", "209 6 R 9"]);
    browser.press("p", 80, false);
    browser.press("ArrowLeft", 37, true);
    assert_eq!(browser.value(SAID).get("line").text().split(' ').next(), Some("191"));

    // Why it is refused at 196, and why the other way works at 205.
    browser.open(&paged.page, "#196");
    let said = browser.value(SAID);
    let chain = [
        "the hours sheet of shop 3 (file 1)level 2",
        "merge (step 17)✗ refusedlevel 12",
        "the pay book (file 0)level 9",
    ];
    assert_eq!(said.get("chain").texts(), chain);
    let way = "This is how the hours sheet of shop 3 could get into the pay book, were it let through";
    let acts = "merge reads the hours sheet of shop 3 and writes the pay book.";
    assert_eq!((said.get("way").text(), said.get("acts").text()), (way, acts));
    let note = browser.value("document.querySelector('#chain-part .note').textContent");
    assert_eq!(note.text(), gk_advice::how::PROVED);
    browser.open(&paged.page, "#198");
    let chain = browser.value(SAID).get("chain").texts().join(" | ");
    assert!(
        chain.contains("step 17)✗ refused") && chain.contains("| 25 more, step by pipe by step |"),
        "{chain}"
    );
    browser.open(&paged.page, "#205");
    let why = browser.value("document.getElementById('why').textContent");
    assert!(
        why.text().contains("no way leads from sheet reader (step 1) to a file above level 0"),
        "{why:?}"
    );
    let fell = browser.value("document.querySelectorAll('#graph .edge.fall').length");
    assert_eq!(fell, Json::Number(1.0));
}

/// What is shown of the thing that is selected.
const ITS: &str = "(() => {
  const place = (element) => [element.dataset.from, element.dataset.to].map(Number);
  const isDrawn = (edge) => getComputedStyle(edge).display !== 'none';
  const title = (group) => group.querySelector('title').textContent.split(', level')[0];
  const records = (id) => [...document.querySelectorAll(`#${id} a`)].map((link) => Number(link.hash.slice(1)));
  return {
    selected: [...document.querySelectorAll('#graph .thing.selected')].map(title),
    lit: [...document.querySelectorAll('#graph .thing.lit')].map(title).sort(),
    others: [...document.querySelectorAll('#graph .edge:not(.chain):not(.sought):not(.fall)')].filter(isDrawn)
      .filter((edge) => !place(edge).includes(selected)).length,
    title: document.getElementById('its-title').textContent, its: records('its'), because: records('because'),
    since: document.getElementById('because-title').textContent,
    isHidden: document.getElementById('its-part').hidden, record: Number(document.getElementById('number').value),
    missing: document.getElementById('not-found').textContent, field: document.getElementById('find').value,
    hash: location.hash, isIsolated: document.getElementById('graph').classList.contains('isolated'),
  };
})()";

/// Types a text into the field and presses Enter.
fn finds(browser: &mut Browser, text: &str) -> Json {
    browser.press("/", 191, false);
    let typed = format!(
        "(() => {{ const field = document.getElementById('find');
           if (document.activeElement !== field) return false;
           field.value = '{text}'; field.dispatchEvent(new Event('change')); field.blur(); return true; }})()"
    );
    assert_eq!(browser.value(&typed), Json::Bool(true), "the key / leads to the field");
    browser.value(ITS)
}

fn numbers(list: &Json) -> Vec<u64> {
    list.list().iter().filter_map(Json::number).map(|number| number as u64).collect()
}

#[test]
#[ignore = "needs a browser: tools/screen-browser"]
fn a_thing_is_found_and_shown_by_itself() {
    let march = fs::read(MARCH).expect("the journal of March");
    let paged = Paged::new("found", march, &["--names", NAMES]);
    let mut browser = browser();
    browser.open(&paged.page, "#196");
    assert_eq!(browser.value(ITS).get("isHidden"), &Json::Bool(true));
    // By its name, by the start of it, by what it is; a step with its pipes, and nothing else.
    for text in ["merge", "MER", "step 17", "merge (step 17)"] {
        let its = finds(&mut browser, text);
        assert_eq!(its.get("selected").texts(), ["merge (step 17)"], "{text}");
        let lit = ["merge (step 17)", "pipe 36", "pipe 37", "the pay book (file 0)"];
        assert_eq!(its.get("lit").texts(), lit, "{text}");
        assert_eq!((its.get("others").number(), its.get("missing").text()), (Some(0.0), ""), "{text}");
        assert_eq!(its.get("title").text(), "merge (step 17)");
    }
    // What is not there is said, and what was selected stays.
    let its = finds(&mut browser, "no such thing");
    assert_eq!(
        (its.get("missing").text(), its.get("title").text()),
        ("nothing is called so", "merge (step 17)")
    );
    // Its records: J and K go from one to the next, and each names it or changes it.
    let records = numbers(its.get("its"));
    assert!(records.contains(&196) && records.len() > 5 && records.len() < 40, "{records:?}");
    let at = records.iter().position(|&record| record == 196).expect("it is there");
    browser.press("j", 74, false);
    assert_eq!(browser.value(ITS).get("record").number(), Some(records[at + 1] as f64));
    browser.press("k", 75, false);
    browser.press("k", 75, false);
    assert_eq!(browser.value(ITS).get("record").number(), Some(records[at - 1] as f64));
    // Escape shows everything again; a click on a thing and one on its row in the tables select it.
    browser.press("Escape", 27, false);
    let all = browser.value(ITS);
    assert_eq!((all.get("isHidden"), all.get("isIsolated")), (&Json::Bool(true), &Json::Bool(false)));
    for click in [
        "[...document.querySelectorAll('#graph .thing')].find((each) => each.textContent.startsWith('the pay book'))",
        "[...document.querySelectorAll('#objects button')].find((each) => each.textContent.includes('pay book'))",
    ] {
        browser.value(&format!("{click}.dispatchEvent(new MouseEvent('click')); 0"));
        assert_eq!(browser.value(ITS).get("selected").texts(), ["the pay book (file 0)"], "{click}");
        browser.press("Escape", 27, false);
    }
    // An address has both.
    browser.open(&paged.page, "#206:step-1");
    let its = browser.value(ITS);
    assert_eq!(its.get("selected").texts(), ["sheet reader (step 1)"]);
    assert_eq!(
        its.get("since").text(),
        "It has level 2 since record 205, because of the hours sheet of shop 3 (file 1)"
    );
    assert_eq!(numbers(its.get("because")), [2, 205]);
}

/// Why each thing has its level, at many records, is what `gk why` finds.
#[test]
#[ignore = "needs a browser: tools/screen-browser"]
fn the_page_says_why_as_gk_why_does() {
    let mut browser = browser();
    let mut links = 0;
    for (name, journal) in [
        ("march", fs::read(MARCH).expect("the journal of March")),
        ("rings", journal(7, 3, Wish { style: Style::Rings, calls: Some(300), bytes: None })),
        ("calls", journal(7, 2, Wish { style: Style::Calls, calls: Some(400), bytes: None })),
    ] {
        let paged = Paged::new(name, journal, &[]);
        browser.open(&paged.page, "#0");
        let mut trail = Trail::default();
        gk_advice::run::Run::new(&paged.journal).for_each(|step| trail.follow(&step));
        for record in (1..=trail.records).step_by(7) {
            // All things that are there, by what the page calls them.
            let shown = browser.value(&format!(
                "(() => {{ const state = stateAfter({record});
                   return [...state.kind.keys()].filter((thing) => state.kind[thing] !== 0)
                     .map((thing) => [plainName(thing, state), causesOf(thing, {record}).map(([, at]) => at)]); }})()"
            ));
            let mut shown: Vec<(String, Vec<u64>)> = shown
                .list()
                .iter()
                .map(|row| (row.list()[0].text().to_string(), numbers(&row.list()[1])))
                .collect();
            let there = trail.stays.iter().enumerate().filter(|(_, stay)| stay.is_at(record));
            let mut found: Vec<(String, Vec<u64>)> = there
                .map(|(at, stay)| {
                    let chain = trail.chain(at, record, Part::Level);
                    let name = format!("{} {}", stay.kind.word(), in_words(stay.number));
                    (name, chain.iter().map(|link| link.record).collect())
                })
                .collect();
            shown.sort();
            found.sort();
            assert_eq!(shown, found, "{name}, record {record}");
            links += found.iter().filter(|(_, chain)| chain.len() > 1).count();
        }
    }
    assert!(links > 100, "{links} chains");
}

/// Texts of the graph that stand over one another, each with the other. Nothing moves while they are looked at.
const OVER: &str = "(() => {
  const texts = [...document.querySelectorAll('#graph text')].filter((each) => each.textContent.trim() !== '');
  const boxes = texts.map((each) => [each.textContent, each.getBoundingClientRect()]);
  const over = [];
  boxes.forEach(([one, box], at) => boxes.slice(at + 1).forEach(([other, another]) => {
    const wide = Math.min(box.right, another.right) - Math.max(box.left, another.left);
    const high = Math.min(box.bottom, another.bottom) - Math.max(box.top, another.top);
    if (wide > 1 && high > 3) over.push(`${one} | ${other}`);
  }));
  return over;
})()";

#[test]
#[ignore = "needs a browser: tools/screen-browser"]
fn no_text_of_the_graph_stands_over_another() {
    let mut browser = browser();
    browser.ask("Emulation.setEmulatedMedia", STILL);
    let full = journal(7, 1, Wish { style: Style::Full, calls: Some(1500), bytes: None });
    let rings = journal(7, 3, Wish { style: Style::Rings, calls: Some(300), bytes: None });
    let march = fs::read(MARCH).expect("the journal of March");
    for (name, journal, more, every) in [
        ("march", march, &["--names", NAMES][..], 1),
        ("full", full, &[][..], 11),
        ("rings", rings, &[][..], 5),
    ] {
        let paged = Paged::new(&format!("over-{name}"), journal, more);
        for (width, thing) in [(1180, -1), (1600, -1), (800, -1), (1180, 17), (1180, 3)] {
            let size =
                format!("{{\"width\":{width},\"height\":900,\"deviceScaleFactor\":1,\"mobile\":false}}");
            browser.ask("Emulation.setDeviceMetricsOverride", &size);
            browser.open(&paged.page, "#0");
            browser.value(&format!("select({thing}); 0"));
            let every = if (width, thing) == (1180, -1) { every } else { 9 * every };
            for record in (1..=paged.lines.len()).step_by(every) {
                let over = browser.value(&format!("show({record}); {OVER}"));
                assert!(
                    over.list().is_empty(),
                    "{name}, record {record}, {width} pixels, thing {thing}: {over:?}"
                );
            }
        }
    }
    // A text over another is found.
    let two =
        "['one', 'two'].forEach((word) => layers.flags.append(drawn('text', { x: 200, y: 40 }, word)))";
    let over = browser.value(&format!("{two}; {OVER}"));
    assert!(over.texts().contains(&"one | two"), "{over:?}");
}

/// For the tests of what stands where, and in which colour.
const STILL: &str = "{\"features\":[{\"name\":\"prefers-reduced-motion\",\"value\":\"reduce\"}]}";

/// The least contrast of a text of the graph with what is behind it, as WCAG 2 reckons it, and that text. Texts are on the
/// page, on a band, or, the numbers of things, on their shapes; nothing of them is transparent.
const CONTRAST: &str = "(() => {
  const channel = (value) => (value <= 0.03928 ? value / 12.92 : ((value + 0.055) / 1.055) ** 2.4);
  const parts = (colour) => colour.match(/[\\d.]+/g).map(Number);
  const light = (colour) => parts(colour).slice(0, 3).map((part) => channel(part / 255))
    .reduce((sum, part, at) => sum + part * [0.2126, 0.7152, 0.0722][at], 0);
  const ratio = (one, other) => {
    const [low, high] = [light(one), light(other)].sort((a, b) => a - b);
    return (high + 0.05) / (low + 0.05);
  };
  const paper = getComputedStyle(document.getElementById('picture')).backgroundColor;
  const bands = [...document.querySelectorAll('#graph .band:not(.odd)')].map((band) => getComputedStyle(band).fill);
  const solid = (element) => {
    for (let each = element; each !== document.body; each = each.parentNode) {
      if (getComputedStyle(each).opacity !== '1') return false;
    }
    return true;
  };
  let least = [99, ''];
  for (const text of document.querySelectorAll('#graph text')) {
    if (text.textContent.trim() === '') continue;
    const fill = getComputedStyle(text).fill;
    if (!solid(text) || parts(fill).length > 3) return [0, `${text.textContent} is transparent`];
    const shape = text.parentNode.querySelector('.shape');
    const inside = shape && text.getAttribute('class') === null ? getComputedStyle(shape).fill : 'none';
    for (const behind of [paper, ...bands, ...(inside === 'none' ? [] : [inside])]) {
      const found = ratio(fill, behind);
      if (found < least[0]) least = [found, text.textContent];
    }
  }
  return least;
})()";

#[test]
#[ignore = "needs a browser: tools/screen-browser"]
fn every_text_of_the_graph_has_the_contrast_of_wcag_aa() {
    let march = fs::read(MARCH).expect("the journal of March");
    let paged = Paged::new("contrast", march, &["--names", NAMES]);
    let mut browser = browser();
    for scheme in ["light", "dark"] {
        let media = format!(
            "{{\"features\":[{{\"name\":\"prefers-color-scheme\",\"value\":\"{scheme}\"}},\
             {{\"name\":\"prefers-reduced-motion\",\"value\":\"reduce\"}}]}}"
        );
        browser.ask("Emulation.setEmulatedMedia", &media);
        browser.open(&paged.page, "#0");
        // As it is, dimmed by a refusal and by a fall, with something that is gone, and dimmed by what is selected.
        for (record, thing) in [(190, -1), (196, -1), (205, -1), (202, -1), (190, 17), (196, 1), (210, 33)]
        {
            let least = browser.value(&format!("select({thing}); show({record}); {CONTRAST}"));
            let [ratio, text] = least.list() else { panic!("{least:?}") };
            assert!(
                ratio.number() >= Some(4.5),
                "{scheme}, record {record}, thing {thing}: {ratio:?} of {text:?}"
            );
        }
    }
    // A text that is too pale, or transparent, is found.
    for pale in ["fill = '#606468'", "opacity = '.9'"] {
        let least =
            browser.value(&format!("document.querySelector('#graph text').style.{pale}; {CONTRAST}"));
        assert!(least.list()[0].number() < Some(4.5), "{least:?}");
    }
}

/// Waits until the page is loaded and shows so many records, at this one.
#[track_caller]
fn waits_for(browser: &mut Browser, records: u64, record: u64) -> Json {
    let began = Instant::now();
    loop {
        // While the page is loaded anew, it has no record.
        let seen = browser.value(
            "(() => document.readyState !== 'complete' || typeof LAST === 'undefined' ? [] : [LAST, current,
               document.getElementById('load').hidden ? '' : document.getElementById('load').textContent,
               document.querySelector('.live-bar').textContent, selected])()",
        );
        let is = |at: usize, number: u64| seen.list().get(at).and_then(Json::number) == Some(number as f64);
        if is(0, records) && is(1, record) {
            return seen;
        }
        assert!(began.elapsed() < Duration::from_secs(60), "{records} records, at {record}: {seen:?}");
        std::thread::sleep(Duration::from_millis(20));
    }
}

/// `--follow --page`: who is at the last record sees what comes; who has gone back stays, and loads it where he likes.
#[test]
#[ignore = "needs a browser: tools/screen-browser"]
fn a_page_that_follows_shows_what_comes() {
    let march = fs::read(MARCH).expect("the journal of March");
    let folder = std::env::temp_dir().join(format!("gk-screen-live-{}", std::process::id()));
    fs::create_dir_all(&folder).expect("a folder");
    let path = folder.join("run.journal");
    let bytes = |records: usize| {
        let mut end = 0;
        for record in gk_advice::records::Records::new(&march).flatten().take(records) {
            end = record.start + record.bytes.len();
        }
        march[..end].to_vec()
    };
    fs::write(&path, bytes(200)).expect("a journal");
    let mut child = Command::new(PROGRAM)
        .args(["--follow", "--page", "--names", NAMES, &path.to_string_lossy()])
        .stdin(Stdio::null())
        .stdout(Stdio::piped())
        .spawn()
        .expect("the program starts");
    let mut address = String::new();
    let output = child.stdout.as_mut().expect("its output");
    std::io::BufRead::read_line(&mut std::io::BufReader::new(output), &mut address).expect("an address");
    let mut browser = browser();
    browser.open_address(address.trim());
    waits_for(&mut browser, 200, 200);
    browser.value("select(found('merge')); 0");
    fs::write(&path, bytes(204)).expect("more");
    let seen = waits_for(&mut browser, 204, 204);
    assert_eq!(seen.list()[4].number(), Some(17.0), "what is selected stays so");
    // Back a record: it stays there.
    browser.press("ArrowLeft", 37, false);
    fs::write(&path, bytes(210)).expect("more");
    let began = Instant::now();
    loop {
        let seen = waits_for(&mut browser, 204, 203);
        if seen.list()[2].text() == "6 records more" {
            break;
        }
        assert!(began.elapsed() < Duration::from_secs(60), "{seen:?}");
    }
    browser.value("document.getElementById('load').click(); 0");
    waits_for(&mut browser, 210, 210);
    let _ = child.kill();
    let _ = child.wait();
    let _ = fs::remove_dir_all(&folder);
}

#[test]
#[ignore = "needs a browser: tools/screen-browser"]
fn generated_journals_are_walked_by_keyboard() {
    let mut browser = browser();
    let mut hidden = 0;
    for (name, style, index, calls) in [
        ("calls", Style::Calls, 2, 500),
        ("rings", Style::Rings, 3, 300),
        ("garbled", Style::Garbled, 3, 150),
    ] {
        let journal = journal(7, index, Wish { style, calls: Some(calls), bytes: None });
        hidden += walk(&mut browser, &Paged::new(name, journal, &[]));
    }
    assert!(hidden > 0, "no 9 behind a 15 was walked over");
}

#[test]
#[ignore = "needs a browser: tools/screen-browser"]
fn a_full_journal_stays_usable() {
    let journal = journal(
        7,
        1,
        Wish { style: Style::Full, calls: Some(20_000), bytes: Some(gatekeeper::JOURNAL_BYTES) },
    );
    let paged = Paged::new("full", journal, &[]);
    let mut browser = browser();
    let began = Instant::now();
    browser.open(&paged.page, "#0");
    // Bounds for a machine that is busy with other things: a page that hangs is meant, not a slow one.
    assert!(began.elapsed() < Duration::from_secs(120), "it took {:?} to open", began.elapsed());
    // Full tables are met on the way: thirty steps of ten records, from several places.
    let records = paged.lines.len();
    assert!(records > 5_000, "{records}");
    let began = Instant::now();
    let mut presses = 0;
    for start in [0, records / 3, records - 320] {
        browser.value(&format!("show({start}); 0"));
        for _ in 0..30 {
            browser.press("ArrowRight", 39, true);
            presses += 1;
        }
        let said = browser.value(SAID);
        let line = &paged.lines[start + 300 - 1];
        assert_eq!(&as_line(&said), line);
    }
    let each = began.elapsed() / presses;
    assert!(each < Duration::from_secs(3), "{each:?} for a press");
    println!("browser: {records} records, {} ms for a press of a key", each.as_millis());
}

#[test]
#[ignore = "needs a browser: tools/screen-browser"]
fn bad_journals_have_a_page_that_says_so() {
    let mut browser = browser();
    for (name, journal, words) in [
        ("empty", vec![], "The journal is empty"),
        ("broken", vec![0x80, 0x00], "Byte 0 of the journal should start a record"),
        ("long", vec![0; gatekeeper::JOURNAL_BYTES + 1], "The journal is refused (14)"),
    ] {
        let paged = Paged::new(name, journal, &["--title", "</title><script>alert(1)</script>"]);
        browser.open(&paged.page, "");
        assert!(browser.value(SAID).get("asked").text().contains(words), "{name}");
        let title = browser.value("document.title");
        assert!(title.text().starts_with("</title><script>alert(1)</script>"), "{title:?}");
        assert_eq!(browser.value("document.scripts.length"), Json::Number(2.0));
    }
    let folder = std::env::temp_dir().join(format!("gk-screen-names-{}", std::process::id()));
    fs::write(&folder, "names 1\nstep 0 1 r&d's 100% é 日本 b-script/b\n").expect("a names file");
    let paged = Paged::new("named", vec![5, 1, 0, 9, 255, 1], &["--names", &folder.to_string_lossy()]);
    fs::remove_file(&folder).expect("it is there");
    browser.open(&paged.page, "");
    let asked = "r&d's 100% é 日本 b-script/b (step 0) is admitted from outside at level 9";
    assert_eq!(browser.value(SAID).get("asked").text(), asked);
}

#[test]
#[ignore = "needs a browser: tools/screen-browser"]
fn it_fits_a_telephone_and_prints_on_paper() {
    let march = fs::read(MARCH).expect("the journal of March");
    let paged = Paged::new("sizes", march, &["--names", NAMES]);
    let mut browser = browser();
    for (width, height) in [(360, 740), (800, 600), (1280, 800), (2560, 1440)] {
        let size =
            format!("{{\"width\":{width},\"height\":{height},\"deviceScaleFactor\":1,\"mobile\":false}}");
        browser.ask("Emulation.setDeviceMetricsOverride", &size);
        browser.open(&paged.page, "#198");
        let wide =
            browser.value("document.documentElement.scrollWidth - document.documentElement.clientWidth");
        let which = browser.value(
            "[...document.querySelectorAll('body *')]
               .filter((each) => each.getBoundingClientRect().right > document.documentElement.clientWidth + 1)
               .map((each) => `${each.tagName}#${each.id}`).join(' ')",
        );
        assert_eq!(wide, Json::Number(0.0), "at {width} pixels these are wider than the window: {which:?}");
    }
    let paper = browser.ask("Page.printToPDF", "{\"printBackground\":false}");
    assert!(paper.get("data").text().len() > 10_000);
}
