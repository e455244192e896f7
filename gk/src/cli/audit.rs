//! The command `audit`.

use std::ffi::OsString;
use std::path::{Path, PathBuf};
use std::thread::available_parallelism;

use super::arguments::Arguments;
use super::files::write_to;
use super::{remark, Done, Failure};
use crate::audit::find::{find, Found};
use crate::audit::{self, bar, json, table, Audit};
use crate::names::beside;
use crate::names::files::{replaces, REPLACES};
use crate::text::shown;

/// The most journals that are answered at a time.
const MOST_JOBS: u64 = 1024;

pub fn audit(arguments: Vec<OsString>) -> Done {
    let switches = ["--json", "--report-only"];
    let arguments = Arguments::sort("audit", arguments, &["--jobs", "-o"], &switches)?;
    let jobs = jobs(&arguments)?;
    let found = find(&folders(&arguments)?);
    keep_journals(&arguments, &found)?;
    let audit = audit::audit(found, jobs, bar::watch);
    tell_names(&audit);
    let text = if arguments.has("--json") { json::text(&audit) } else { table::text(&audit) };
    write_to(arguments.out(), text.as_bytes())?;
    match audit.verdict().status() {
        0 => Ok(()),
        _ if arguments.has("--report-only") => Ok(()),
        status => Err(Failure::Status(status)),
    }
}

fn folders(arguments: &Arguments) -> Result<Vec<PathBuf>, Failure> {
    let given = arguments.files();
    if given.is_empty() {
        return Err(arguments.wrong("expected a folder, or several"));
    }
    if given.iter().any(|path| path == "-" || path.is_empty()) {
        return Err(arguments.wrong("expected folders, and standard input is none: give their names"));
    }
    Ok(given.iter().map(PathBuf::from).collect())
}

fn jobs(arguments: &Arguments) -> Result<usize, Failure> {
    match arguments.number("--jobs")? {
        None => Ok(available_parallelism().map_or(1, usize::from)),
        Some(jobs @ 1..=MOST_JOBS) => Ok(jobs as usize),
        Some(jobs) => {
            Err(arguments.wrong(&format!("--jobs needs a number from 1 to {MOST_JOBS}, not {jobs}")))
        }
    }
}

/// That the report replaces no journal and no names.
fn keep_journals(arguments: &Arguments, found: &Found) -> Done {
    let Some(out) = arguments.out() else {
        return Ok(());
    };
    let names: Vec<PathBuf> = found.journals.iter().map(|journal| beside(journal)).collect();
    let inputs: Vec<&Path> = found.journals.iter().chain(&names).map(PathBuf::as_path).collect();
    match replaces(&[Path::new(out)], &inputs) {
        true => Err(arguments.wrong(REPLACES)),
        false => Ok(()),
    }
}

/// Says whose names are not taken: what is said without them is true as well.
fn tell_names(audit: &Audit) {
    for (path, run) in &audit.runs {
        if let Some(fault) = &run.unnamed {
            let names = beside(path);
            remark(&format!("the names in {} are not taken: {fault}", shown(&names.to_string_lossy())));
        }
    }
}
