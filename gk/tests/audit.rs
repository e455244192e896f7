//! Many journals at once: what is told is what each journal comes to by itself, and what was not read is never cleared.

mod common;

use std::fs;
use std::os::unix::fs::symlink;
use std::path::Path;

use common::{err, gk, journals, out, sees, Folder, ROOT};
use gk::audit::find::find;
use gk::audit::{audit, Verdict};

/// Nothing is refused in it.
const CLEAN: &[u8] = &[5, 1, 0, 9, 0xff, 1, 2, 12, 0];

fn march(folder: &Folder) -> String {
    let journal = folder.path("march.journal");
    let output = gk(&["assemble", "gk/examples/march.txt", "-o", &journal], b"");
    assert_eq!((output.status.code(), err(&output)), (Some(0), String::new()));
    journal
}

#[test]
fn each_journal_has_its_own_replies() {
    let audit = audit(find(&[Path::new(ROOT).join("gk/tests/journals")]), 3, |_, _| {});
    assert!(audit.unread.is_empty() && audit.runs.len() == journals().len() - 1);
    for (path, run) in &audit.runs {
        let replies = gatekeeper::replay(&fs::read(path).unwrap());
        let refused: Vec<&str> = replies.lines().filter(|line| line.contains(" R ")).collect();
        assert_eq!(run.refused, refused.len() as u64, "{}", path.display());
        assert_eq!(run.records(), replies.lines().count() as u64 - 1, "{}", path.display());
        let mut told: Vec<(u64, u32)> = Vec::new();
        for group in &run.groups {
            told.extend(group.records.iter().map(|&record| (record, group.refusal.number())));
        }
        told.sort_unstable();
        let line = |line: &&str| {
            let fields: Vec<&str> = line.split(' ').collect();
            (fields[0].parse().unwrap(), fields[3].parse().unwrap())
        };
        assert_eq!(told, refused.iter().map(line).collect::<Vec<(u64, u32)>>(), "{}", path.display());
        assert_eq!(run.is_cut_off(), refused.iter().any(|line| line.ends_with(" R 11")));
    }
    assert_eq!(audit.verdict(), Verdict::Refused);
    let times: u64 = audit.by_refusal().values().map(|count| count.times).sum();
    assert_eq!(times, audit.sum(|run| run.refused));
}

#[test]
fn march_is_told_by_run_refusal_and_file() {
    let folder = Folder::new("audit-march");
    march(&folder);
    fs::create_dir(folder.0.join("deep")).unwrap();
    fs::write(folder.0.join("deep/clean.journal"), CLEAN).unwrap();
    fs::write(folder.0.join("deep/notes.txt"), "no journal").unwrap();
    let output = gk(&["audit", &folder.path("")], b"");
    assert_eq!((output.status.code(), err(&output)), (Some(3), String::new()));
    let text = out(&output).replace(&folder.path(""), "");
    sees(&text, &["2 journals read: 1 with refusals, 1 without. 0 not read.\n"]);
    sees(&text, &["308 records: 302 allowed, 1 lowered, 5 refused.\n", "1 other file not looked at"]);
    sees(&text, &["march.journal        9  the hours sheet of shop 3  the pay book       1  196\n"]);
    sees(&text, &["march.journal        3  -                          -                  2  200 201\n"]);
    sees(
        &text,
        &["        9      3     1  data could reach a file", "the pay book                   2     1\n"],
    );
    assert!(!text.contains("clean.journal"), "{text}");

    let json = gk(&["audit", "--json", &folder.path("")], b"");
    let text = out(&json);
    assert_eq!((json.status.code(), text.lines().count()), (Some(3), 3));
    sees(
        &text,
        &["clean.journal\",\"records\":2,\"allowed\":2,\"lowered\":0,\"refused\":0,\"refusals\":[]}\n"],
    );
    sees(&text, &["\"file\":{\"number\":1,\"called\":\"the hours sheet of shop 3\"},\"into\":{\"number\":0,\"called\":\"the pay book\"},\"times\":1,\"records\":[196]}"]);
    sees(&text, &["{\"end\":{\"read\":2,\"with_refusals\":1,", "\"status\":3}}\n"]);

    let calm = gk(&["audit", "--report-only", &folder.path(""), "-o", &folder.path("report")], b"");
    assert_eq!((calm.status.code(), out(&calm)), (Some(0), String::new()));
    assert!(fs::read_to_string(folder.path("report")).unwrap().contains("By run\n"));
}

#[test]
fn what_is_not_read_is_never_cleared() {
    let folder = Folder::new("audit-unread");
    fs::write(folder.0.join("clean.journal"), CLEAN).unwrap();
    fs::write(folder.0.join("empty.journal"), []).unwrap();
    let status = |paths: &[&str]| {
        let output = gk(&[&["audit"], paths].concat(), b"");
        (output.status.code(), out(&output))
    };
    let all = folder.path("");
    let (code, text) = status(&[&all]);
    assert_eq!(code, Some(0), "{text}");
    sees(&text, &["1 journal: empty.\n", "Nothing is refused, and every journal was read.\n"]);

    // A folder that is not there, one without a journal, a link to nothing, and what is no file.
    symlink("/no/such/file", folder.0.join("gone.journal")).unwrap();
    fs::create_dir(folder.0.join("none")).unwrap();
    for (paths, words) in [
        (vec![all.as_str(), "no/such/folder"], "no/such/folder: No such file"),
        (vec![&folder.path("clean.journal"), &folder.path("none")], "none: there is no journal below it"),
        (vec![all.as_str()], "gone.journal: No such file"),
        (vec!["/dev/zero"], "/dev/zero: it is no file"),
    ] {
        let (code, text) = status(&paths);
        assert_eq!(code, Some(4), "{text}");
        sees(&text, &["Not read, and not cleared\n", words, "but not everything was read.\n"]);
    }
    sees(
        &out(&gk(&["audit", "--json", &all], b"")),
        &["gone.journal\",\"why\":\"No such", "\"status\":4}}"],
    );

    // Refusals come first; a journal that breaks off, or is too long, is refused.
    fs::write(folder.0.join("broken.journal"), [CLEAN, &[0x80]].concat()).unwrap();
    let (code, text) = status(&[&all]);
    assert_eq!(code, Some(3), "{text}");
    sees(&text, &["1 journal: cut off (11, 14)", "There are refusals, and something was not read."]);
    fs::write(folder.0.join("broken.journal"), vec![0; 65_537]).unwrap();
    sees(&status(&[&folder.path("broken.journal")]).1, &["1 journal: cut off", "       14  -"]);
}

#[test]
fn what_is_met_again_is_read_once() {
    let folder = Folder::new("audit-links");
    fs::create_dir(folder.0.join("year")).unwrap();
    fs::write(folder.0.join("year/a.journal"), CLEAN).unwrap();
    symlink("..", folder.0.join("year/up")).unwrap();
    symlink("year", folder.0.join("latest")).unwrap();
    fs::hard_link(folder.0.join("year/a.journal"), folder.0.join("b.journal")).unwrap();
    let output = gk(&["audit", &folder.path("latest"), &folder.path(""), &folder.path("year")], b"");
    assert_eq!((output.status.code(), err(&output)), (Some(0), String::new()), "{}", out(&output));
    sees(&out(&output), &["1 journal read: 0 with refusals", "met again under another name, read once.\n"]);
}

#[test]
fn a_name_cannot_command_the_terminal_and_no_journal_is_replaced() {
    let folder = Folder::new("audit-names");
    let path = march(&folder);
    fs::write(folder.0.join("march.names"), "no names").unwrap();
    fs::rename(&path, folder.0.join("\u{1b}[31m.journal")).unwrap();
    fs::rename(folder.0.join("march.names"), folder.0.join("\u{1b}[31m.names")).unwrap();
    let output = gk(&["audit", &folder.path("")], b"");
    assert_eq!(output.status.code(), Some(3));
    assert!(err(&output).contains("are not taken: ") && !err(&output).contains('\u{1b}'));
    sees(&out(&output), &["\\u{1b}[31m.journal        9  file 1        file 0"]);
    assert!(!out(&output).contains('\u{1b}'));
    let bytes = fs::read(folder.0.join("\u{1b}[31m.journal")).unwrap();
    for name in ["\u{1b}[31m.journal", "\u{1b}[31m.names"] {
        let replaced = gk(&["audit", &folder.path(""), "-o", &folder.path(name)], b"");
        assert_eq!(replaced.status.code(), Some(2), "{}", err(&replaced));
        sees(&err(&replaced), &["would replace the input"]);
    }
    assert_eq!(fs::read(folder.0.join("\u{1b}[31m.journal")).unwrap(), bytes);
}
