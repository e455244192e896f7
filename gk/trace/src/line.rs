//! A line of a trace, as `strace -f -o TRACE` writes it: which process, and what of it.

/// Where a line, or the part of one, is not understood.
#[derive(Clone, Copy, Debug, PartialEq, Eq)]
pub struct Fault {
    /// The column in the text that was given, from 1.
    pub column: usize,
    pub expected: &'static str,
}

#[derive(Debug, PartialEq, Eq)]
pub struct Line<'a> {
    pub process: u32,
    pub event: Event<'a>,
}

#[derive(Debug, PartialEq, Eq)]
pub enum Event<'a> {
    /// A whole call; `text` is what stands behind its opening bracket.
    Call { name: &'a str, text: &'a str },
    /// The front of a call that another process's line has cut off. A thread that runs a program goes on under the
    /// number of its process.
    Begun { name: &'a str, text: &'a str, goes_on_as: Option<u32> },
    /// The rest of such a call.
    Resumed { name: &'a str, text: &'a str },
    /// The process, or thread, has exited or was killed.
    Ended,
    /// Its number is taken over by another thread of its process, which runs a program.
    Superseded { by: Option<u32> },
    /// A signal, a stop, or a word of strace itself.
    Nothing,
}

/// Reads a line.
pub fn read(line: &str) -> Result<Line<'_>, Fault> {
    let fault = |rest: &str, expected| Fault { column: line.len() - rest.len() + 1, expected };
    let digits = line.len() - line.trim_start_matches(|sign: char| sign.is_ascii_digit()).len();
    let process = line[..digits].parse().ok().filter(|&process: &u32| process > 0);
    let process = process.ok_or(fault(line, "the number of a process, as strace -f -o FILE writes it"))?;
    let mut rest = &line[digits..];
    if let Some(named) = rest.strip_prefix('<') {
        // The program's name, as strace -Y writes it.
        let end = named.find('>').ok_or(fault(named, "> behind the program's name"))?;
        rest = &named[end + 1..];
    }
    if !rest.starts_with(' ') {
        return Err(fault(rest, "a space behind the number of the process"));
    }
    rest = past_time(rest.trim_start_matches(' '));
    let event =
        event(rest).map_err(|inner| Fault { column: line.len() - rest.len() + inner.column, ..inner })?;
    Ok(Line { process, event })
}

/// Passes over the time, which some options of strace write behind the process.
fn past_time(rest: &str) -> &str {
    let (word, behind) = rest.split_once(' ').unwrap_or((rest, ""));
    let is_time = word.starts_with(|sign: char| sign.is_ascii_digit())
        && word.chars().all(|sign| sign.is_ascii_digit() || sign == ':' || sign == '.');
    if is_time {
        behind.trim_start_matches(' ')
    } else {
        rest
    }
}

fn event(text: &str) -> Result<Event<'_>, Fault> {
    let fault = |rest: &str, expected| Fault { column: text.len() - rest.len() + 1, expected };
    if text.starts_with("--- ") || text.starts_with("strace: ") {
        return Ok(Event::Nothing);
    }
    if let Some(rest) = text.strip_prefix("+++ ") {
        return match rest.split(' ').next() {
            Some("exited" | "killed") if rest.ends_with("+++") => Ok(Event::Ended),
            Some("superseded") if rest.ends_with("+++") => {
                let by =
                    rest.strip_prefix("superseded by execve in pid ").and_then(|by| by.split(' ').next());
                Ok(Event::Superseded { by: by.and_then(|digits| digits.parse().ok()) })
            }
            _ => Err(fault(rest, "exited, killed or superseded, and +++ at the end")),
        };
    }
    if let Some(rest) = text.strip_prefix("<... ") {
        let (name, behind) =
            rest.split_once(" resumed>").ok_or(fault(rest, "a call's name and resumed>"))?;
        check_name(name).ok_or(fault(rest, "a call's name and resumed>"))?;
        return Ok(Event::Resumed { name, text: behind });
    }
    let (name, rest) = text.split_once('(').ok_or(fault(text, "a call, a signal or an end"))?;
    check_name(name).ok_or(fault(text, "a call, a signal or an end"))?;
    if let Some(front) = rest.strip_suffix("<unfinished ...>") {
        return Ok(Event::Begun { name, text: front, goes_on_as: None });
    }
    if let Some((front, behind)) = rest.rsplit_once("<pid changed to ") {
        let number = behind.strip_suffix(" ...>").and_then(|digits| digits.parse().ok());
        let number = number.filter(|&number: &u32| number > 0);
        let goes_on_as = Some(number.ok_or(fault(behind, "the number of a process and ...>"))?);
        return Ok(Event::Begun { name, text: front, goes_on_as });
    }
    Ok(Event::Call { name, text: rest })
}

/// The name of a call has small letters, digits and low lines.
fn check_name(name: &str) -> Option<()> {
    let is_sign = |sign: char| sign.is_ascii_lowercase() || sign.is_ascii_digit() || sign == '_';
    // strace writes a call that it does not know as syscall_0x1d0.
    (!name.is_empty() && name.len() <= 64 && name.chars().all(is_sign)).then_some(())
}

#[cfg(test)]
mod tests {
    use super::*;

    fn event_of(line: &str) -> Event<'_> {
        read(line).unwrap().event
    }

    #[test]
    fn lines_as_strace_writes_them() {
        let call = Event::Call { name: "close", text: "3) = 0" };
        assert_eq!(read("17 close(3) = 0"), Ok(Line { process: 17, event: call }));
        for line in [
            "17 12:00:01.5 close(3) = 0",
            "17    close(3) = 0",
            "17<sh> close(3) = 0",
            "17 0.000012 close(3) = 0",
        ] {
            assert_eq!(event_of(line), Event::Call { name: "close", text: "3) = 0" }, "{line}");
        }
        let begun = Event::Begun { name: "read", text: "0, ", goes_on_as: None };
        assert_eq!(event_of("17 read(0, <unfinished ...>"), begun);
        assert_eq!(event_of("17 <... read resumed>) = 3"), Event::Resumed { name: "read", text: ") = 3" });
        let moved = Event::Begun { name: "execve", text: "\"/bin/a\" ", goes_on_as: Some(16) };
        assert_eq!(event_of("17 execve(\"/bin/a\" <pid changed to 16 ...>"), moved);
        assert_eq!(event_of("17 +++ exited with 0 +++"), Event::Ended);
        assert_eq!(event_of("17 +++ killed by SIGSEGV (core dumped) +++"), Event::Ended);
        let taken = Event::Superseded { by: Some(18) };
        assert_eq!(event_of("17 +++ superseded by execve in pid 18 +++"), taken);
        assert_eq!(event_of("17 --- SIGCHLD {si_signo=SIGCHLD, ...} ---"), Event::Nothing);
    }

    #[test]
    fn what_is_no_line_is_said_where() {
        for (line, column) in [
            ("", 1),
            ("read(0) = 1", 1),
            ("0 read(0) = 1", 1),
            ("99999999999 read(0) = 1", 1),
            ("17", 3),
            ("17read(0) = 1", 3),
            ("17 ", 4),
            ("17 read", 4),
            ("17 Read(0) = 1", 4),
            ("17 <... read", 9),
            ("17 <... Read resumed>) = 1", 9),
            ("17 +++ gone +++", 8),
            ("17 +++ exited", 8),
            ("17<sh close(3) = 0", 4),
        ] {
            assert_eq!(read(line).unwrap_err().column, column, "{line:?}");
        }
    }
}
