//! The options and files of a command.

use std::ffi::{OsStr, OsString};
use std::path::Path;

use super::{Done, Failure};
use crate::names::files::{replaces, INPUT, REPLACES};
use crate::text::{meant, shown};
use gk_names::number::of_text;

/// What an option with a value takes.
fn needs(option: &str) -> &'static str {
    match option {
        "--shell" | "--child" | "--pipe" | "--at" | "--from" | "--to" | "--refusal" | "--jobs" => {
            "a number"
        }
        "--step" | "--file" => "a name or a number",
        "--code" => "a number or the word of a call",
        _ => "a file",
    }
}

/// Arguments, sorted.
pub struct Arguments {
    command: &'static str,
    options: Vec<(&'static str, OsString)>,
    switches: Vec<&'static str>,
    files: Vec<OsString>,
}

impl Arguments {
    /// Sorts the arguments; `valued` are the options that take a value, `switches` those that do not.
    pub fn sort(
        command: &'static str,
        arguments: Vec<OsString>,
        valued: &[&'static str],
        switches: &[&'static str],
    ) -> Result<Arguments, Failure> {
        let mut sorted =
            Arguments { command, options: Vec::new(), switches: Vec::new(), files: Vec::new() };
        let mut arguments = arguments.into_iter();
        while let Some(argument) = arguments.next() {
            let text = argument.to_string_lossy().into_owned();
            if text == "--" {
                sorted.files.extend(arguments.by_ref());
            } else if !text.starts_with('-') || text == "-" {
                sorted.files.push(argument);
            } else if let Some(switch) = switches.iter().find(|switch| **switch == text) {
                sorted.switches.push(switch);
            } else if let Some(option) = valued.iter().find(|option| **option == text) {
                match arguments.next() {
                    Some(_) if sorted.value(option).is_some() => {
                        return Err(sorted.wrong(&format!("{option} is given twice")));
                    }
                    Some(value) => sorted.options.push((option, value)),
                    None => {
                        return Err(sorted.wrong(&format!("{option} needs {} behind it", needs(option))));
                    }
                }
            } else {
                let known: Vec<&str> = valued.iter().chain(switches).copied().collect();
                return Err(sorted.unknown(&text, &known));
            }
        }
        Ok(sorted)
    }

    fn unknown(&self, option: &str, known: &[&str]) -> Failure {
        let advice = match (meant(option, known).as_slice(), known) {
            ([], []) => "It has no options".to_string(),
            ([], known) => format!("Its options are: {}", known.join(", ")),
            (meant, _) => format!("Did you mean: {}", meant.join(" or ")),
        };
        Failure::Usage(format!("{}: there is no option \"{}\". {advice}", self.command, shown(option)))
    }

    /// A complaint about the command line.
    pub fn wrong(&self, message: &str) -> Failure {
        let command = self.command;
        Failure::Usage(format!("{command}: {message}. Type: gk help {command}"))
    }

    /// A complaint about a record behind `--at` that the journal does not have.
    pub fn beyond(&self, records: u64) -> Failure {
        self.beyond_by("--at", records)
    }

    /// The same of another option.
    pub fn beyond_by(&self, option: &str, records: u64) -> Failure {
        let records = match records {
            1 => "1 record".to_string(),
            records => format!("{records} records"),
        };
        self.wrong(&format!("{option} needs a record of the journal, which has {records}"))
    }

    pub fn command(&self) -> &'static str {
        self.command
    }

    pub fn has(&self, switch: &str) -> bool {
        self.switches.contains(&switch)
    }

    /// The value of an option.
    pub fn value(&self, option: &str) -> Option<&OsStr> {
        let given = self.options.iter().find(|(name, _)| *name == option);
        given.map(|(_, value)| value.as_os_str())
    }

    /// The file behind `-o`; none for standard output.
    pub fn out(&self) -> Option<&OsStr> {
        self.value("-o").filter(|path| *path != "-")
    }

    /// That no output is the file of an input: the one file or standard input, or one of `more`.
    pub fn keep_input(&self, outputs: &[Option<&Path>], more: &[Option<&Path>]) -> Done {
        let file = self.file()?.map_or(Path::new(INPUT), Path::new);
        let outputs: Vec<&Path> = outputs.iter().copied().flatten().collect();
        let inputs: Vec<&Path> = more.iter().copied().flatten().chain([file]).collect();
        match replaces(&outputs, &inputs) {
            true => Err(self.wrong(REPLACES)),
            false => Ok(()),
        }
    }

    /// The number behind an option.
    pub fn number(&self, option: &str) -> Result<Option<u64>, Failure> {
        let Some(value) = self.value(option) else {
            return Ok(None);
        };
        let text = value.to_string_lossy();
        let wrong =
            || self.wrong(&format!("{option} needs a number behind it, found \"{}\"", shown(&text)));
        of_text(&text).map(Some).ok_or_else(wrong)
    }

    /// What stands behind the first argument that is no option, which is then the one file.
    pub fn behind_file(&mut self) -> Vec<OsString> {
        self.files.split_off(self.files.len().min(1))
    }

    /// All arguments that are no options.
    pub fn files(&self) -> &[OsString] {
        &self.files
    }

    /// The one file; none for standard input.
    pub fn file(&self) -> Result<Option<&OsStr>, Failure> {
        self.one("file", "")
    }

    /// The one argument that is no option; none for standard input. What else to say where there are more.
    pub fn one(&self, what: &str, advice: &str) -> Result<Option<&OsStr>, Failure> {
        match self.files.as_slice() {
            [] => Ok(None),
            [one] if one == "-" => Ok(None),
            [one] => Ok(Some(one)),
            [_, second, ..] => {
                let second = shown(&second.to_string_lossy());
                Err(self.wrong(&format!("expected one {what}, found \"{second}\" as well{advice}")))
            }
        }
    }
}
