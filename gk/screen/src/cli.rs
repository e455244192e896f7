//! The command line.

use std::fs::File;
use std::io::{self, IsTerminal, Read, Write};
use std::path::{Path, PathBuf};

use gatekeeper::{replay, JOURNAL_BYTES};
use gk_advice::run::Run;
use gk_names::files::{is_input_open, INPUT_CLOSED};
use gk_names::Fault;

use crate::follow::{follow, Source};
use crate::page::page;
use crate::reel::Reel;
use crate::serve::serve;
use crate::state::State;
use crate::terminal::Screen;
use crate::text::{meant, shown, COLUMNS};
use crate::tty::{size, Tty};
use crate::watch::{watch, Stand};

const HELP: &str = "\
usage: gk screen [--at N] JOURNAL          the state after the last record, or N
       gk screen --follow JOURNAL          a journal that is still being written
       gk screen --page [--at N] JOURNAL   a page, on standard output
       gk screen --follow --page JOURNAL   a page that shows each new record

In a terminal it fills the window, and keys go through the journal: left and
right a record, N and P to the refusals, ? tells them all, Q ends. Into a pipe
or a file it is written once.

The duty screen: which steps run, at which level and with which shop marks, the
lowest level that each may fall to and the marks that it has to keep while no
handle goes, and what it holds; the files and pipes; the freeze; the last
refusals, the way out first, and at a 9 how data could get to the file. All of
it but the ways out is asked of the proved gatekeeper.

  JOURNAL        a journal; '-' reads standard input
  --at N         the state after record N; 0 is before the first. On a page:
                 where it opens, in place of the first refusal
  --follow       shows each new record; into a pipe, a line for each, until it
                 is interrupted, the journal breaks or gets shorter, or standard
                 input ends
  --print        in a terminal, too, writes it once and ends; with --follow, a
                 line for each record
  --page         one file, without a network: gk screen --page RUN > run.html.
                 With --follow it is served to browsers on this machine alone;
                 the first line says where. To end it: Ctrl-C
  --port N       the port that it is served on, in place of a free one
  --names FILE   names for steps, files, pipes and shop groups; else those of
                 run.names beside run.journal, if it is there
  --title TEXT   what stands over it, in place of the journal's name
  --color WHEN   always, never, or auto: on a terminal, unless NO_COLOR is set
  --help         this text

A journal that is too long is refused (14) and read no further; --follow goes
on, and says so.

Exit status: 0 shown, a broken journal up to where it holds; 1 a read or write
failed; 2 bad usage. A reader of the output that stops early ends it without a
word, with 141.
";

/// Why it ends with a status other than 0.
#[derive(Debug)]
pub enum Failure {
    /// Who reads the output has stopped: status 141, as of a program that the broken pipe ends.
    Unread,
    /// The command line is wrong: status 2.
    Usage(String),
    /// A read or write failed: status 1.
    Failed(String),
}

/// What the command line asks.
#[derive(Default)]
struct Wish {
    journal: Option<String>,
    at: Option<u64>,
    names: Option<String>,
    title: Option<String>,
    color: Option<String>,
    port: Option<u16>,
    is_page: bool,
    is_print: bool,
    is_following: bool,
    is_help: bool,
}

/// Runs the command with these arguments, and says its exit status.
pub fn run(args: &[String]) -> i32 {
    let (message, status) = match wish(args).and_then(|wish| perform(&wish)) {
        Ok(()) => return 0,
        Err(Failure::Unread) => return 141,
        Err(Failure::Usage(message)) => (message, 2),
        Err(Failure::Failed(message)) => (message, 1),
    };
    remark(&message);
    status
}

/// A word on standard error. Where that cannot be written to, the status still tells.
pub fn remark(message: &str) {
    let _ = writeln!(io::stderr(), "screen: {message}");
}

const OPTIONS: [&str; 9] =
    ["--at", "--color", "--follow", "--help", "--names", "--page", "--port", "--print", "--title"];

fn wish(args: &[String]) -> Result<Wish, Failure> {
    let usage = |message: String| Err(Failure::Usage(format!("{message}. Type: gk screen --help")));
    let mut wish = Wish::default();
    let mut args = args.iter();
    let mut only_files = false;
    while let Some(arg) = args.next() {
        if only_files || arg == "-" || !arg.starts_with('-') {
            if let Some(first) = &wish.journal {
                return usage(format!("one journal at a time: '{}' and '{}'", shown(first), shown(arg)));
            }
            wish.journal = Some(arg.clone());
            continue;
        }
        let (name, mut given) = match arg.split_once('=') {
            Some((name, value)) => (name, Some(value.to_string())),
            None => (arg.as_str(), None),
        };
        let mut value = || given.take().or_else(|| args.next().cloned());
        match name {
            "--" => only_files = true,
            "-h" | "--help" => wish.is_help = true,
            "--page" => wish.is_page = true,
            "--print" => wish.is_print = true,
            "--follow" => wish.is_following = true,
            "--names" | "--title" | "--color" | "--at" | "--port" => {
                let Some(value) = value() else {
                    return usage(format!("{name} needs a value"));
                };
                match name {
                    "--names" => wish.names = Some(value),
                    "--title" => wish.title = Some(value),
                    "--color" if ["always", "never", "auto"].contains(&value.as_str()) => {
                        wish.color = Some(value)
                    }
                    "--color" => {
                        return usage(format!("--color is always, never or auto, not '{}'", shown(&value)))
                    }
                    "--port" => match value.parse() {
                        Ok(port) => wish.port = Some(port),
                        Err(_) => {
                            return usage(format!(
                                "--port needs a number, 0 to 65535, not '{}'",
                                shown(&value)
                            ))
                        }
                    },
                    _ => match value.parse() {
                        Ok(at) => wish.at = Some(at),
                        Err(_) => {
                            return usage(format!(
                                "--at needs the number of a record, not '{}'",
                                shown(&value)
                            ))
                        }
                    },
                }
                continue;
            }
            _ => {
                let advice = match meant(name, &OPTIONS) {
                    Some(option) => format!(". Did you mean {option}"),
                    None => String::new(),
                };
                return usage(format!("there is no option '{}'{advice}", shown(arg)));
            }
        }
        if given.is_some() {
            return usage(format!("{name} takes no value"));
        }
    }
    if wish.is_help {
        return Ok(wish);
    }
    if wish.journal.is_none() {
        return usage("name a journal, or '-' for standard input".to_string());
    }
    if wish.is_following && wish.at.is_some() {
        return usage("--follow does not go with --at".to_string());
    }
    let is_served = wish.is_following && wish.is_page;
    if is_served && wish.journal.as_deref() == Some("-") {
        return usage("a page that follows needs a journal that is a file, not standard input".to_string());
    }
    if wish.port.is_some() && !is_served {
        return usage("--port goes with --follow --page alone".to_string());
    }
    Ok(wish)
}

fn perform(wish: &Wish) -> Result<(), Failure> {
    if wish.is_help {
        return write(HELP.as_bytes());
    }
    let path = wish.journal.as_deref().unwrap_or("-");
    let title = match (&wish.title, path) {
        (Some(title), _) => title.clone(),
        (None, "-") => "standard input".to_string(),
        (None, path) => {
            Path::new(path).file_name().map_or(path.into(), |name| name.to_string_lossy().into_owned())
        }
    };
    if path == "-" && !is_input_open() {
        return Err(Failure::Failed(INPUT_CLOSED.to_string()));
    }
    let names = names(wish, path)?;
    let is_coloured = match wish.color.as_deref() {
        Some("always") => true,
        Some("never") => false,
        _ => {
            io::stdout().is_terminal() && std::env::var_os("NO_COLOR").is_none_or(|value| value.is_empty())
        }
    };
    // What comes from a terminal is no journal that someone writes while he presses keys.
    let has_window = !wish.is_print && !wish.is_page && (path != "-" || !io::stdin().is_terminal());
    let window = || has_window.then(|| Tty::open(is_coloured)).flatten();
    if wish.is_following && wish.is_page {
        return serve(Source::of(path, names_of(wish, path))?, &title, names, wish.port.unwrap_or(0));
    }
    if wish.is_following {
        let (source, screen) =
            (Source::of(path, names_of(wish, path))?, Screen::new(shown(&title), names, State::empty()));
        return match window() {
            Some(mut window) => watch(&mut window, Some(source), Reel::new(screen), Stand::at(None)),
            None => follow(source, screen),
        };
    }
    let journal = read(path, JOURNAL_BYTES as u64 + 1)?;
    let records = checked(&journal)?;
    if let Some(at) = wish.at.filter(|&at| at > records) {
        return Err(Failure::Usage(format!("there is no record {at}: the journal has {records}")));
    }
    if looks_like_text(&journal) {
        remark("this looks like a text and not like a journal. From words to a journal: gk assemble TEXT -o JOURNAL");
    }
    if wish.is_page {
        return write(page(&journal, &title, &names, wish.at).as_bytes());
    }
    let screen = Screen::new(shown(&title), names, State::empty());
    let mut reel = Reel::whole(screen, journal);
    let last = wish.at.unwrap_or(records);
    if let Some(mut window) = window() {
        return watch(&mut window, None, reel, Stand::at(Some(last)));
    }
    let columns = if io::stdout().is_terminal() { size().columns.max(COLUMNS) } else { COLUMNS };
    write(reel.show(last).text(Some(records), is_coloured, columns).as_bytes())
}

/// How many records a journal has; and that the archive's replay of it is, byte for byte, what its calls answer here.
fn checked(journal: &[u8]) -> Result<u64, Failure> {
    let mut run = Run::new(journal);
    let mut text = String::new();
    let mut records = 0;
    for turn in &mut run {
        text.push_str(&turn.line());
        text.push('\n');
        records = turn.position;
    }
    text.push_str(&run.end_line());
    text.push('\n');
    let reply = replay(journal);
    if text == reply {
        return Ok(records);
    }
    let same = text.lines().zip(reply.lines()).take_while(|(one, other)| one == other).count();
    Err(Failure::Failed(format!(
        "the archive's replay and its calls differ at record {}: nothing is shown",
        same + 1
    )))
}

/// Whether letters stand where a journal's first lengths and codes would.
fn looks_like_text(journal: &[u8]) -> bool {
    let is_letter = |byte: &u8| byte.is_ascii_graphic() || byte.is_ascii_whitespace();
    !journal.is_empty() && journal.iter().take(16).all(is_letter)
}

/// The file of names that is asked for, or the one beside the journal, whether it is there or not.
fn names_of(wish: &Wish, path: &str) -> Option<PathBuf> {
    let beside = gk_names::beside(Path::new(path));
    wish.names
        .as_ref()
        .map(PathBuf::from)
        .or_else(|| (path != "-" && beside != Path::new(path)).then_some(beside))
}

/// The names of that file.
fn names(wish: &Wish, path: &str) -> Result<gk_names::Names, Failure> {
    let is_asked = wish.names.is_some();
    let Some(file) = names_of(wish, path).filter(|file| is_asked || file.is_file()) else {
        return Ok(gk_names::Names::new());
    };
    let file = file.to_string_lossy().into_owned();
    let wrong = |fault: Fault| match fault {
        Fault::Unread(error) => Failure::Failed(format!("cannot read '{}': {error}", shown(&file))),
        fault => Failure::Failed(format!("{}: {fault}", shown(&file))),
    };
    if is_asked && Path::new(&file).is_dir() {
        return Err(Failure::Failed(format!("cannot read '{}': it is a folder", shown(&file))));
    }
    let read = gk_names::Names::load(Path::new(&file)).map_err(wrong);
    match read {
        Err(Failure::Failed(message)) if !is_asked => {
            remark(&format!("shown without names: {message}"));
            Ok(gk_names::Names::new())
        }
        read => read,
    }
}

/// The bytes of a file, or of standard input; no more than `most` of them.
fn read(path: &str, most: u64) -> Result<Vec<u8>, Failure> {
    let mut bytes = Vec::new();
    let outcome = match path {
        "-" => io::stdin().lock().take(most).read_to_end(&mut bytes),
        path => open(path)?.take(most).read_to_end(&mut bytes),
    };
    outcome.map_err(|error| unread(path, &error))?;
    Ok(bytes)
}

pub fn open(path: &str) -> Result<File, Failure> {
    if Path::new(path).is_dir() {
        return Err(Failure::Failed(format!("cannot read '{}': it is a folder", shown(path))));
    }
    File::open(path).map_err(|error| unread(path, &error))
}

pub fn unread(path: &str, error: &io::Error) -> Failure {
    let name = if path == "-" { "standard input".to_string() } else { format!("'{}'", shown(path)) };
    Failure::Failed(format!("cannot read {name}: {error}"))
}

pub fn write(bytes: &[u8]) -> Result<(), Failure> {
    let mut output = io::stdout().lock();
    output.write_all(bytes).and_then(|()| output.flush()).map_err(|error| match error.kind() {
        io::ErrorKind::BrokenPipe => Failure::Unread,
        _ => Failure::Failed(format!("cannot write standard output: {error}")),
    })
}
