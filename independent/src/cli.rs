//! The command line. Errors go to standard error; see `help::WHOLE` for the exit statuses.

use std::ffi::{OsStr, OsString};
use std::fs::File;
use std::io::{self, Read, Write};
use std::path::Path;
use std::process::ExitCode;
use std::time::{Duration, SystemTime, UNIX_EPOCH};

use crate::bite;
use crate::cases::lines::{LineCase, LINE_CASES};
use crate::cases::{self, Case};
use crate::chains;
use crate::compare::{self, Program};
use crate::generate::{self, Style, Wish, STYLES};
use crate::help;
use crate::lines::{run_by, Start};
use crate::replies::{monitor_after, replies_by, LONGEST_JOURNAL};
use crate::text::{indented, meant, shown};
use crate::variants::chains::{ChainRules, CHAINS};
use crate::variants::lines::{LineRules, LINES};
use crate::variants::{Rules, ALL};
use crate::words::words_of;

/// Lines of a case that are printed in full.
const CASE_LINES: usize = 20;

/// Why the program ends with a status other than 0.
enum Failure {
    /// Who reads the output has stopped: status 141, as of a program that the broken pipe ends, and no word.
    Unread,
    /// The command line is wrong: status 2.
    Usage(String),
    /// Something else failed, or a difference was found: status 1.
    Failed(String),
}

type Done = Result<(), Failure>;

/// Runs the program with these arguments.
pub fn main(arguments: Vec<OsString>) -> ExitCode {
    match dispatch(arguments) {
        Ok(()) => ExitCode::SUCCESS,
        Err(failure) => {
            let (message, status) = match failure {
                Failure::Unread => return ExitCode::from(141),
                Failure::Usage(message) => (format!("second: {message}"), 2),
                Failure::Failed(message) => (format!("second: {message}"), 1),
            };
            // Where standard error cannot be written to, the status still tells.
            let _ = writeln!(io::stderr(), "{message}");
            ExitCode::from(status)
        }
    }
}

fn dispatch(arguments: Vec<OsString>) -> Done {
    let mut arguments = arguments.into_iter();
    let Some(command) = arguments.next() else {
        let message = "expected a command. Type: second --help".to_string();
        return Err(Failure::Usage(message));
    };
    let rest: Vec<OsString> = arguments.collect();
    let command = command.to_string_lossy().into_owned();
    if command == "--help" || command == "-h" || command == "help" {
        let text = match rest.first() {
            Some(topic) => help_of(&topic.to_string_lossy())?,
            None => help::WHOLE,
        };
        return write_output(text.as_bytes());
    }
    let text = help_of(&command)?;
    let before_dashes = rest.iter().take_while(|argument| *argument != "--");
    if before_dashes.clone().any(|argument| argument == "--help" || argument == "-h") {
        return write_output(text.as_bytes());
    }
    match command.as_str() {
        "run" => run(rest),
        "why" => why_command(rest),
        "line" => line_command(rest),
        "cases" => cases_command(rest),
        "generate" => generate_command(rest),
        "compare" => compare_command(rest),
        "variants" => variants_command(rest),
        _ => bite_command(rest),
    }
}

fn help_of(command: &str) -> Result<&'static str, Failure> {
    match help::COMMANDS.iter().find(|(name, _)| *name == command) {
        Some((_, text)) => Ok(text),
        None => {
            let names: Vec<&str> = help::COMMANDS.iter().map(|(name, _)| *name).collect();
            let advice = match meant(command, &names).as_slice() {
                [] => format!("The commands are: {}", names.join(", ")),
                meant => format!("Did you mean: {}", meant.join(" or ")),
            };
            Err(Failure::Usage(format!("there is no command \"{}\". {advice}", shown(command))))
        }
    }
}

// Arguments.

/// The options and files of a command.
struct Arguments {
    command: &'static str,
    options: Vec<(String, OsString)>,
    switches: Vec<String>,
    files: Vec<OsString>,
    behind_dashes: Vec<OsString>,
}

impl Arguments {
    /// Sorts the arguments; `valued` are the options that take a value, `switches` those that do not.
    fn sort(
        command: &'static str,
        arguments: Vec<OsString>,
        valued: &[&str],
        switches: &[&str],
    ) -> Result<Arguments, Failure> {
        let mut sorted = Arguments {
            command,
            options: Vec::new(),
            switches: Vec::new(),
            files: Vec::new(),
            behind_dashes: Vec::new(),
        };
        let mut arguments = arguments.into_iter();
        while let Some(argument) = arguments.next() {
            let text = argument.to_string_lossy().into_owned();
            if text == "--" {
                sorted.behind_dashes = arguments.by_ref().collect();
            } else if !text.starts_with('-') || text == "-" {
                sorted.files.push(argument);
            } else if switches.contains(&text.as_str()) {
                sorted.switches.push(text);
            } else if valued.contains(&text.as_str()) {
                match arguments.next() {
                    Some(value) => sorted.options.push((text, value)),
                    None => return Err(sorted.wrong(&format!("{text} needs a value"))),
                }
            } else {
                return Err(sorted.wrong(&format!("there is no option \"{}\"", shown(&text))));
            }
        }
        // Behind -- stand the arguments of the other program, and elsewhere files.
        if command != "compare" {
            sorted.files.append(&mut sorted.behind_dashes);
        }
        Ok(sorted)
    }

    fn wrong(&self, message: &str) -> Failure {
        let command = self.command;
        Failure::Usage(format!("{command}: {message}. Type: second {command} --help"))
    }

    /// The value given last for an option.
    fn value(&self, option: &str) -> Option<&OsString> {
        let given = self.options.iter().rev().find(|(name, _)| name == option);
        given.map(|(_, value)| value)
    }

    fn number(&self, option: &str) -> Result<Option<u64>, Failure> {
        let Some(value) = self.value(option) else {
            return Ok(None);
        };
        let text = value.to_string_lossy();
        match text.parse() {
            Ok(number) => Ok(Some(number)),
            Err(_) => Err(self.wrong(&format!("{option} needs a number, not \"{}\"", shown(&text)))),
        }
    }

    /// The one file, if it is given.
    fn file(&self) -> Result<Option<&OsStr>, Failure> {
        match self.files.as_slice() {
            [] => Ok(None),
            [file] => Ok(Some(file)),
            [_, second, ..] => {
                let second = shown(&second.to_string_lossy());
                Err(self.wrong(&format!("expected one file, found \"{second}\" as well")))
            }
        }
    }

    fn no_files(&self) -> Done {
        match self.files.first() {
            None => Ok(()),
            Some(file) => {
                let file = shown(&file.to_string_lossy());
                Err(self.wrong(&format!("\"{file}\" is not expected")))
            }
        }
    }
}

// Reading and writing.

/// The bytes of a file, or of standard input; no more than `most` of them.
fn read_input(file: Option<&OsStr>, most: u64) -> Result<Vec<u8>, Failure> {
    let mut bytes = Vec::new();
    let (name, outcome) = match file {
        Some(path) if path != "-" => {
            let name = shown(&path.to_string_lossy());
            if Path::new(path).is_dir() {
                return Err(Failure::Failed(format!("cannot read {name}: it is a folder")));
            }
            let opened = File::open(path);
            (name, opened.and_then(|file| file.take(most).read_to_end(&mut bytes)))
        }
        _ => {
            let outcome = io::stdin().lock().take(most).read_to_end(&mut bytes);
            ("standard input".to_string(), outcome)
        }
    };
    match outcome {
        Ok(_) => Ok(bytes),
        Err(error) => Err(Failure::Failed(format!("cannot read {name}: {error}"))),
    }
}

fn write_output(bytes: &[u8]) -> Done {
    let mut output = io::stdout().lock();
    output.write_all(bytes).and_then(|()| output.flush()).map_err(|error| match error.kind() {
        io::ErrorKind::BrokenPipe => Failure::Unread,
        _ => Failure::Failed(format!("cannot write standard output: {error}")),
    })
}

/// A journal; one byte past the limit is enough to know that it is above it.
fn read_journal(file: Option<&OsStr>) -> Result<Vec<u8>, Failure> {
    read_input(file, LONGEST_JOURNAL as u64 + 1)
}

// Commands.

fn run(arguments: Vec<OsString>) -> Done {
    let arguments = Arguments::sort("run", arguments, &["--variant"], &[])?;
    let rules = rules_of(&arguments)?;
    let journal = read_journal(arguments.file()?)?;
    write_output(replies_by(&journal, rules).as_bytes())
}

/// The rules to answer by: a variant where one is asked for.
fn rules_of(arguments: &Arguments) -> Result<Rules, Failure> {
    let Some(name) = arguments.value("--variant") else {
        return Ok(Rules::default());
    };
    let name = name.to_string_lossy();
    let unknown =
        || Failure::Usage(format!("there is no variant \"{}\". Type: second variants", shown(&name)));
    Rules::named(&name).ok_or_else(unknown)
}

/// The chain behind each 9 of a journal: how many steps it has, or all of it.
fn why_command(arguments: Vec<OsString>) -> Done {
    let arguments = Arguments::sort("why", arguments, &["--variant"], &["--chain"])?;
    let variant = match arguments.value("--variant").map(|name| name.to_string_lossy()) {
        None => None,
        Some(name) => Some(ChainRules::named(&name).ok_or_else(|| {
            let name = shown(&name);
            let message =
                format!("there is no variant \"{name}\" of chains. Type: second variants --chains");
            Failure::Usage(message)
        })?),
    };
    let with_chain = !arguments.switches.is_empty();
    let journal = read_journal(arguments.file()?)?;
    let lines = match variant {
        None => chains::lines(&journal, with_chain),
        Some(rules) => Ok(chains::lines_by(&journal, with_chain, rules)),
    };
    write_output(lines.map_err(|message| Failure::Failed(format!("why: {message}")))?.as_bytes())
}

/// Runs a typed line and says each call with its answer.
fn line_command(arguments: Vec<OsString>) -> Done {
    let valued = ["--journal", "--shell", "--child", "--pipe", "--variant"];
    let arguments = Arguments::sort("line", arguments, &valued, &[])?;
    let line = match arguments.files.as_slice() {
        [line] => line.as_encoded_bytes(),
        [] => return Err(arguments.wrong("expected a LINE")),
        _ => return Err(arguments.wrong("expected one LINE, in quotes where it has spaces or signs")),
    };
    let number = |option: &str, default: u64| Ok(arguments.number(option)?.unwrap_or(default));
    let start =
        Start { shell: number("--shell", 0)?, child: number("--child", 1)?, pipe: number("--pipe", 64)? };
    let rules = match arguments.value("--variant").map(|name| name.to_string_lossy()) {
        None => LineRules::default(),
        Some(name) => LineRules::named(&name).ok_or_else(|| {
            let name = shown(&name);
            let message = format!("there is no variant \"{name}\" of lines. Type: second variants --lines");
            Failure::Usage(message)
        })?,
    };
    let journal = match arguments.value("--journal") {
        Some(path) => read_journal(Some(path))?,
        None => Vec::new(),
    };
    let mut monitor = monitor_after(&journal);
    write_output(run_by(&mut monitor, line, start, rules).text().as_bytes())
}

fn cases_command(arguments: Vec<OsString>) -> Done {
    let switches = ["--hex", "--replies", "--journal", "--numbers", "--lines"];
    let arguments = Arguments::sort("cases", arguments, &[], &switches)?;
    let name = arguments.file()?.map(|name| name.to_string_lossy().into_owned());
    if arguments.switches == ["--lines"] {
        return line_cases(&arguments, name.as_deref());
    }
    let chosen: Vec<Case> = match &name {
        None => cases::all(),
        Some(name) => match cases::named(name) {
            Some(case) => vec![case],
            None => {
                let message =
                    format!("there is no case \"{}\"; second cases --hex lists them", shown(name));
                return Err(arguments.wrong(&message));
            }
        },
    };
    let mode = match arguments.switches.as_slice() {
        [] => "",
        [mode] => mode,
        _ => {
            let modes = "expected one of --hex, --replies, --journal, --numbers and --lines";
            return Err(arguments.wrong(modes));
        }
    };
    if mode == "--numbers" {
        if name.is_some() {
            return Err(arguments.wrong("--numbers takes no name: it has every number of the cases"));
        }
        return write_output(cases::numbers().as_bytes());
    }
    let mut output = Vec::new();
    for case in &chosen {
        match mode {
            "--hex" => {
                let hex: String = case.journal.iter().map(|byte| format!("{byte:02x}")).collect();
                output.extend(format!("{} {hex}\n", case.name).bytes());
            }
            "--replies" if name.is_some() => output.extend(case.replies.bytes()),
            "--replies" => output.extend(format!("{}\n{}\n", case.name, case.replies).bytes()),
            "--journal" if name.is_some() => output.extend(&case.journal),
            "--journal" => return Err(arguments.wrong("--journal needs the name of a case")),
            _ => output.extend(case_text(case).bytes()),
        }
    }
    write_output(&output)
}

fn line_cases(arguments: &Arguments, name: Option<&str>) -> Done {
    let chosen: Vec<&LineCase> =
        LINE_CASES.iter().filter(|case| name.is_none_or(|name| name == case.name)).collect();
    if chosen.is_empty() {
        let name = shown(name.unwrap_or(""));
        return Err(arguments.wrong(&format!("there is no case \"{name}\" of lines")));
    }
    let text: String = chosen.iter().map(|case| case.text()).collect();
    write_output(text.as_bytes())
}

fn case_text(case: &Case) -> String {
    format!(
        "{}: {}\n{}  replies\n{}\n",
        case.name,
        case.what,
        indented(&words_of(&case.journal), CASE_LINES),
        indented(&case.replies, CASE_LINES)
    )
}

fn generate_command(arguments: Vec<OsString>) -> Done {
    let valued = ["--seed", "--index", "--calls", "--bytes", "--style"];
    let arguments = Arguments::sort("generate", arguments, &valued, &[])?;
    arguments.no_files()?;
    let seed = arguments.number("--seed")?.ok_or_else(|| arguments.wrong("expected --seed N"))?;
    let index = arguments.number("--index")?.unwrap_or(0);
    let most = |option: &str, limit: u64| match arguments.number(option)? {
        Some(number) if number > limit => Err(arguments.wrong(&format!("{option} may be at most {limit}"))),
        number => Ok(number),
    };
    let wish = Wish {
        style: style_of(&arguments)?,
        calls: most("--calls", 1_000_000)?.map(|calls| calls as u32),
        bytes: most("--bytes", 1_000_000)?.map(|bytes| bytes as usize),
    };
    write_output(&generate::journal(seed, index, wish))
}

fn style_of(arguments: &Arguments) -> Result<Style, Failure> {
    let Some(name) = arguments.value("--style") else {
        return Ok(Style::Mixed);
    };
    match STYLES.iter().find(|(_, word, _)| name == word) {
        Some((style, _, _)) => Ok(*style),
        None => {
            let names: Vec<&str> = STYLES.iter().map(|(_, word, _)| *word).collect();
            let name = shown(&name.to_string_lossy());
            let message = format!("there is no style \"{name}\". The styles are: {}", names.join(", "));
            Err(arguments.wrong(&message))
        }
    }
}

fn variants_command(arguments: Vec<OsString>) -> Done {
    let arguments = Arguments::sort("variants", arguments, &[], &["--lines", "--chains"])?;
    arguments.no_files()?;
    let listed: Vec<(&str, &str)> = match arguments.switches.as_slice() {
        [] => ALL.iter().map(|&(_, name, what)| (name, what)).collect(),
        [of] if of == "--lines" => LINES.iter().map(|&(_, name, what)| (name, what)).collect(),
        [_] => CHAINS.iter().map(|&(_, name, what)| (name, what)).collect(),
        _ => return Err(arguments.wrong("expected one of --lines and --chains")),
    };
    let width = listed.iter().map(|(name, _)| name.len()).max().unwrap_or(0);
    let lines: String = listed.iter().map(|(name, what)| format!("{name:<width$}  {what}\n")).collect();
    write_output(lines.as_bytes())
}

fn bite_command(arguments: Vec<OsString>) -> Done {
    let arguments = Arguments::sort("bite", arguments, &["--seed", "--journals", "--lines"], &[])?;
    arguments.no_files()?;
    let seed = arguments.number("--seed")?.unwrap_or(1);
    let journals = arguments.number("--journals")?.unwrap_or(2000);
    let lines = arguments.number("--lines")?.unwrap_or(2000);
    let of_journals = bite::bite(seed, journals);
    write_output(format!("{}\n", bite::table(&of_journals)).as_bytes())?;
    let of_lines = bite::lines::bite(seed, lines);
    write_output(format!("{}\n", bite::lines::table(&of_lines)).as_bytes())?;
    let of_chains = bite::chains::bite(seed, journals);
    let text = format!(
        "{}{}; {}; {}.\n",
        bite::chains::table(&of_chains),
        bite::summary(&of_journals, journals),
        bite::lines::summary(&of_lines, lines),
        bite::chains::summary(&of_chains, journals)
    );
    write_output(text.as_bytes())?;
    let missed = of_journals.iter().filter(|bite| !bite.is_told()).count()
        + of_lines.iter().filter(|bite| bite.told().is_none()).count()
        + of_chains.iter().filter(|bite| bite.told().is_none()).count();
    match missed {
        0 => Ok(()),
        missed => Err(Failure::Failed(format!("bite: {missed} variants were not told apart"))),
    }
}

fn compare_command(arguments: Vec<OsString>) -> Done {
    let valued = ["--program", "--seed", "--journals", "--jobs", "--seconds", "--save", "--variant"];
    let arguments = Arguments::sort("compare", arguments, &valued, &[])?;
    arguments.no_files()?;
    let path = arguments.value("--program").ok_or_else(|| arguments.wrong("expected --program PATH"))?;
    let program = Program {
        path: path.clone(),
        arguments: arguments.behind_dashes.clone(),
        patience: Duration::from_secs(arguments.number("--seconds")?.unwrap_or(10)),
        rules: rules_of(&arguments)?,
    };
    let seed = arguments.number("--seed")?.unwrap_or_else(clock_seed);
    let journals = arguments.number("--journals")?.unwrap_or(2000);
    let jobs = match arguments.number("--jobs")? {
        Some(jobs) => jobs.clamp(1, 64) as usize,
        None => std::thread::available_parallelism().map_or(1, |count| count.get().min(2)),
    };
    write_output(format!("Seed {seed}; repeat with --seed {seed} --journals {journals}.\n").as_bytes())?;
    let failed = |message: String| Failure::Failed(format!("compare: {message}"));
    let outcome = compare::compare(&program, seed, journals, jobs).map_err(failed)?;
    let count = outcome.count;
    let Some(difference) = outcome.difference else {
        let text = format!("The same replies, byte for byte: {count}.\n");
        return write_output(text.as_bytes());
    };
    let origin = &difference.origin;
    write_output(format!("The replies differ: {origin}. Making the journal shorter.\n").as_bytes())?;
    let short = compare::shortest(&program, &difference.journal).map_err(failed)?;
    write_output(compare::report(&program, &short).map_err(failed)?.as_bytes())?;
    if let Some(path) = arguments.value("--save") {
        let saved = std::fs::write(path, &short);
        let name = path.to_string_lossy();
        saved.map_err(|error| failed(format!("cannot write {name}: {error}")))?;
    }
    Err(failed(format!("a difference after {count} ({origin})")))
}

/// A seed from the clock, short enough to type.
fn clock_seed() -> u64 {
    let now = SystemTime::now().duration_since(UNIX_EPOCH);
    now.map_or(1, |time| u64::from(time.subsec_nanos()) % 1_000_000)
}
