//! What the tests share: the program run from outside, and the stored journals.

#![allow(dead_code)]

use std::io::Write;
use std::path::{Path, PathBuf};
use std::process::{Command, Output, Stdio};

/// The repository's folder.
pub const ROOT: &str = concat!(env!("CARGO_MANIFEST_DIR"), "/..");

/// Runs the program with these arguments and this input, in the repository's folder.
pub fn gk(arguments: &[&str], input: &[u8]) -> Output {
    let mut child = Command::new(env!("CARGO_BIN_EXE_gk"))
        .args(arguments)
        .current_dir(ROOT)
        .stdin(Stdio::piped())
        .stdout(Stdio::piped())
        .stderr(Stdio::piped())
        .spawn()
        .unwrap();
    let mut stdin = child.stdin.take().unwrap();
    let input = input.to_vec();
    let writer = std::thread::spawn(move || {
        let _ = stdin.write_all(&input);
    });
    let output = child.wait_with_output().unwrap();
    writer.join().unwrap();
    output
}

pub fn out(output: &Output) -> String {
    String::from_utf8_lossy(&output.stdout).into_owned()
}

pub fn err(output: &Output) -> String {
    String::from_utf8_lossy(&output.stderr).into_owned()
}

/// A text of assembly, explained, with one space between two words.
pub fn explained(text: &str) -> String {
    let journal = gk(&["assemble"], text.as_bytes());
    assert_eq!(journal.status.code(), Some(0), "{}", err(&journal));
    out(&gk(&["explain"], &journal.stdout)).split_whitespace().collect::<Vec<&str>>().join(" ")
}

pub fn sees(text: &str, parts: &[&str]) {
    for part in parts {
        assert!(text.contains(part), "no \"{part}\" in:\n{text}");
    }
}

/// Types each command of a text, and holds what it writes to what stands below it; at `…` lines are left out. Says how
/// many there were.
pub fn types(name: &str, text: &str) -> usize {
    let commands = text.split("$ tools/gk ").skip(1);
    let tried = commands.map(|part| {
        let (typed, shown) = part.split_once('\n').unwrap();
        let line = format!("'{}' {typed} 2>&1", env!("CARGO_BIN_EXE_gk"));
        let mut bash = Command::new("bash");
        let output = bash.args(["-c", &line]).current_dir(ROOT).stdin(Stdio::null()).output().unwrap();
        let text = out(&output);
        let mut lines = text.lines();
        let mut is_left_out = false;
        for shown in shown.lines() {
            let is_there = match (shown, is_left_out) {
                ("…", _) => true,
                (_, true) => lines.any(|line| line == shown),
                (_, false) => lines.next() == Some(shown),
            };
            assert!(is_there, "{name} shows \"{shown}\" for {typed}, and this comes:\n{text}");
            is_left_out = shown == "…";
        }
        assert!(is_left_out || lines.next().is_none(), "{name} does not show all of {typed}:\n{text}");
        assert_eq!(output.status.code(), Some(i32::from(text.starts_with("gk: "))), "{typed}");
    });
    tried.count()
}

/// The stored journals, by name: those that the independent program has drawn, and the pay run of March.
pub fn journals() -> Vec<(String, Vec<u8>)> {
    let folder = Path::new(env!("CARGO_MANIFEST_DIR")).join("tests/journals");
    let mut paths: Vec<PathBuf> =
        std::fs::read_dir(folder).unwrap().map(|entry| entry.unwrap().path()).collect();
    paths.push(Path::new(ROOT).join("crates/payrun/stdin"));
    paths.sort();
    paths.into_iter().map(|path| (path.display().to_string(), std::fs::read(&path).unwrap())).collect()
}

/// A folder of its own for a test, gone with it.
pub struct Folder(pub PathBuf);

impl Folder {
    pub fn new(name: &str) -> Folder {
        let path = std::env::temp_dir().join(format!("gk.{name}.{}", std::process::id()));
        let _ = std::fs::remove_dir_all(&path);
        std::fs::create_dir_all(&path).unwrap();
        Folder(path)
    }

    pub fn path(&self, file: &str) -> String {
        self.0.join(file).display().to_string()
    }

    pub fn files(&self) -> Vec<String> {
        let entries = std::fs::read_dir(&self.0).unwrap();
        let mut names: Vec<String> =
            entries.map(|entry| entry.unwrap().file_name().to_string_lossy().into_owned()).collect();
        names.sort();
        names
    }
}

impl Drop for Folder {
    fn drop(&mut self) {
        let _ = std::fs::remove_dir_all(&self.0);
    }
}
