//! Instructions, counted by valgrind's tool callgrind. They are the same on every run but for a few of C's `memcpy`, which
//! goes by where things lie in memory.
//!
//! The benchmark starts itself anew under valgrind. There it runs the pieces of work one after the other, in an order
//! that both processes know. What is done within `counted` is counted, and each `part_ends` makes callgrind write
//! the counts of one part to a file of its own, which the first process reads.

use std::env;
use std::fs;
use std::hint::black_box;
use std::io;
use std::path::{Path, PathBuf};
use std::process::{self, Command, Stdio};

/// The names by which callgrind finds the two functions.
const COUNTED: &str = "gatekeeper_bench_counted";
const PART_ENDS: &str = "gatekeeper_bench_part_ends";

/// Runs something whose instructions are counted.
pub fn counted(work: &mut dyn FnMut()) {
    gatekeeper_bench_counted(work);
}

/// Ends one part of the counting.
pub fn part_ends() {
    gatekeeper_bench_part_ends();
}

#[no_mangle]
#[inline(never)]
fn gatekeeper_bench_counted(work: &mut dyn FnMut()) {
    work();
    // So that the call above is not the last thing done, and stays a call.
    black_box(());
}

#[no_mangle]
#[inline(never)]
fn gatekeeper_bench_part_ends() {
    black_box(());
}

/// What was counted in one part.
#[derive(Clone, Debug, Default, PartialEq, Eq)]
pub struct Part {
    pub instructions: u64,
    /// Instructions by function, what it calls left out, the most first.
    pub functions: Vec<(String, u64)>,
}

impl Part {
    /// The instructions without those of the loop that calls what is measured.
    pub fn without_loop(&self) -> u64 {
        let of_loop = |name: &str| name.starts_with("gatekeeper_bench::inputs") || name == COUNTED;
        let functions = self.functions.iter().filter(|function| !of_loop(&function.0));
        functions.map(|function| function.1).sum()
    }

    /// The functions that take a twentieth or more, each with its share.
    pub fn shares(&self) -> String {
        let share = |instructions: u64| 100.0 * instructions as f64 / self.instructions as f64;
        let large = self.functions.iter().filter(|function| share(function.1) >= 5.0);
        let words =
            large.map(|(name, instructions)| format!("`{}` {:.0} %", short(name), share(*instructions)));
        words.collect::<Vec<String>>().join(", ")
    }
}

/// A function's name without what it stands in, but for a type or the last module.
fn short(name: &str) -> String {
    let mut words: Vec<&str> = name.rsplit("::").take(2).collect();
    words.reverse();
    words.join("::")
}

/// Valgrind's name and version.
pub fn version() -> Result<String, String> {
    let output = Command::new("valgrind").arg("--version").output().map_err(not_started)?;
    Ok(String::from_utf8_lossy(&output.stdout).trim().to_string())
}

fn not_started(error: io::Error) -> String {
    format!("instructions are counted by 'valgrind', which does not start: {error}")
}

/// Runs this program with these arguments under callgrind: its parts, in their order.
pub fn parts(arguments: &[String], expected: usize) -> Result<Vec<Part>, String> {
    let folder = Folder::new()?;
    let out = folder.0.join("part");
    let program = env::current_exe().map_err(|error| format!("this program is not found: {error}"))?;
    let status = Command::new("valgrind")
        .args(["--quiet", "--tool=callgrind", "--compress-strings=no", "--compress-pos=no"])
        .arg(format!("--toggle-collect={COUNTED}"))
        .arg(format!("--dump-before={PART_ENDS}"))
        .arg(format!("--callgrind-out-file={}", out.display()))
        .arg(program)
        .args(arguments)
        .stdin(Stdio::null())
        .stdout(Stdio::null())
        .status()
        .map_err(not_started)?;
    if !status.success() {
        return Err(format!("valgrind ended with {status}"));
    }
    (1..=expected).map(|number| part(&out.with_extension(number.to_string()))).collect()
}

/// A folder of its own that is gone in the end.
struct Folder(PathBuf);

impl Folder {
    fn new() -> Result<Folder, String> {
        let folder = env::temp_dir().join(format!("gatekeeper-bench.{}", process::id()));
        fs::create_dir(&folder).map_err(|error| format!("no folder {}: {error}", folder.display()))?;
        Ok(Folder(folder))
    }
}

impl Drop for Folder {
    fn drop(&mut self) {
        // What cannot be removed is left to the system, as all of its temporary files.
        let _ = fs::remove_dir_all(&self.0);
    }
}

fn part(file: &Path) -> Result<Part, String> {
    let text = fs::read_to_string(file)
        .map_err(|error| format!("callgrind left no {}: {error}", file.display()))?;
    parse(&text).ok_or(format!("{} is not what callgrind writes", file.display()))
}

/// Reads a file of callgrind's: `fn=` names a function, and each line below it has a source line and its instructions;
/// a line after `calls=` has what the called function took, which is counted there.
fn parse(text: &str) -> Option<Part> {
    let mut part = Part::default();
    let mut function = None;
    let mut of_a_call = false;
    for line in text.lines() {
        if let Some(name) = line.strip_prefix("fn=") {
            // A function that calls itself has a name of its own for that, with a mark behind it.
            let name = name.split('\'').next().unwrap_or(name);
            let index = part.functions.iter().position(|(known, _)| known == name);
            function = Some(index.unwrap_or(part.functions.len()));
            if index.is_none() {
                part.functions.push((name.to_string(), 0));
            }
        } else if line.starts_with("calls=") {
            of_a_call = true;
        } else if line.starts_with(|first: char| first.is_ascii_digit()) {
            let instructions: u64 = line.split(' ').nth(1)?.parse().ok()?;
            if !of_a_call {
                part.functions[function?].1 += instructions;
            }
            of_a_call = false;
        }
    }
    part.instructions = part.functions.iter().map(|(_, instructions)| instructions).sum();
    part.functions.sort_by_key(|(_, instructions)| u64::MAX - instructions);
    Some(part)
}

#[cfg(test)]
mod tests {
    use super::*;

    #[test]
    fn a_part_is_read() {
        let text = "\
version: 1
positions: line
events: Ir

fn=outer
16 3
cfn=inner
calls=2 40
17 70
fi=other.rs
18 4

fn=inner
40 50
41 10
fn=inner'2
41 10

totals: 77
";
        let functions = vec![("inner".to_string(), 70), ("outer".to_string(), 7)];
        assert_eq!(parse(text), Some(Part { instructions: 77, functions }));
        assert_eq!(parse("12 13"), None);
    }

    #[test]
    fn shares_are_told() {
        let functions = [("gatekeeper::Monitor::needs", 90), ("memcpy", 6), ("gatekeeper_call", 4)];
        let functions = functions.map(|(name, count)| (name.to_string(), count)).to_vec();
        let part = Part { instructions: 100, functions };
        assert_eq!(part.shares(), "`Monitor::needs` 90 %, `memcpy` 6 %");
    }
}
