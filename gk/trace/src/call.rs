//! A call in a trace: its arguments as they are written, and how it came out.

use crate::line::Fault;
use crate::text::unescaped;

/// A call that has come to its end.
#[derive(Debug)]
pub struct Sys<'a> {
    pub name: &'a str,
    pub args: Vec<&'a str>,
    pub outcome: Outcome<'a>,
}

#[derive(Clone, Copy, Debug, PartialEq, Eq)]
pub enum Outcome<'a> {
    /// The number that it gave back, and how that is written.
    Done(i64, &'a str),
    /// It failed, with this error.
    Failed(&'a str),
    /// The trace does not say: the process ended meanwhile.
    Unsaid,
}

/// A descriptor as it is written: its number, and what strace -y writes behind it.
#[derive(Clone, Copy, Debug, PartialEq, Eq)]
pub struct Fd<'a> {
    pub number: i32,
    pub note: Option<&'a str>,
}

/// Reads a call from what stands behind its opening bracket.
pub fn read<'a>(name: &'a str, text: &'a str) -> Result<Sys<'a>, Fault> {
    let fault = |rest: &str, expected| Fault { column: text.len() - rest.len() + 1, expected };
    let (args, behind) = arguments(text);
    let behind = behind.ok_or(fault("", ") at the end of the call"))?;
    let rest = text[behind..].trim_start_matches(' ');
    let rest = rest.strip_prefix('=').ok_or(fault(rest, "= and the result"))?.trim_start_matches(' ');
    let outcome = outcome(rest).ok_or(fault(rest, "the result: a number or ?"))?;
    Ok(Sys { name, args, outcome })
}

fn outcome(rest: &str) -> Option<Outcome<'_>> {
    let (token, behind) = rest.split_once(' ').unwrap_or((rest, ""));
    let error = behind.split([' ', '(']).next().unwrap_or("");
    let error = if error.starts_with('E') { error } else { "" };
    if token == "?" {
        return Some(if error.is_empty() { Outcome::Unsaid } else { Outcome::Failed(error) });
    }
    let value = number(token)?;
    if value == -1 {
        return Some(Outcome::Failed(error));
    }
    // A path behind a descriptor may have spaces in it.
    let length = note_end(rest).unwrap_or(token.len());
    Some(Outcome::Done(value, &rest[..length]))
}

/// The number at the front of a word: decimal, or hexadecimal with 0x.
fn number(word: &str) -> Option<i64> {
    if let Some(digits) = word.strip_prefix("0x") {
        let end = digits.find(|sign: char| !sign.is_ascii_hexdigit()).unwrap_or(digits.len());
        return u64::from_str_radix(&digits[..end], 16).ok().map(|value| value as i64);
    }
    let front = word.strip_prefix('-').unwrap_or(word);
    let end = front.find(|sign: char| !sign.is_ascii_digit()).unwrap_or(front.len());
    let end = end + word.len() - front.len();
    let is_note = word[end..].is_empty() || word[end..].starts_with(['<', '@']);
    word[..end].parse().ok().filter(|_| is_note)
}

/// Where the note of strace -y at the front ends: `3</a b>`.
fn note_end(text: &str) -> Option<usize> {
    let at = text.find(|sign: char| !sign.is_ascii_digit())?;
    (at > 0 && text[at..].starts_with('<')).then(|| closing(text, at)).flatten()
}

/// The offset behind the > that ends the note which starts at this offset. Notes of sockets have -> in them.
fn closing(text: &str, start: usize) -> Option<usize> {
    let bytes = text.as_bytes();
    (start + 1..bytes.len()).find(|&at| bytes[at] == b'>' && bytes[at - 1] != b'-').map(|at| at + 1)
}

/// The arguments, and the offset behind the closing bracket, if it is there.
pub fn arguments(text: &str) -> (Vec<&str>, Option<usize>) {
    let bytes = text.as_bytes();
    let mut args = Vec::new();
    let (mut start, mut at, mut depth) = (0, 0, 0u32);
    let mut end = None;
    while at < bytes.len() {
        match bytes[at] {
            b'"' => at = string_end(bytes, at),
            b'<' if is_note(bytes, at) => at = closing(text, at).unwrap_or(bytes.len()) - 1,
            b'/' if bytes.get(at + 1) == Some(&b'*') => {
                at = text[at..].find("*/").map_or(bytes.len(), |length| at + length + 1);
            }
            b'[' | b'{' | b'(' => depth += 1,
            b')' if depth == 0 => {
                end = Some(at);
                break;
            }
            b']' | b'}' | b')' => depth = depth.saturating_sub(1),
            b',' if depth == 0 => {
                args.push(text[start..at].trim());
                start = at + 1;
            }
            _ => {}
        }
        at += 1;
    }
    let last = text[start..end.unwrap_or(bytes.len())].trim();
    if !last.is_empty() {
        args.push(last);
    }
    (args, end.map(|end| end + 1))
}

/// The offset of the quote that ends the string which starts at this offset, or the last one.
fn string_end(bytes: &[u8], start: usize) -> usize {
    let mut at = start + 1;
    while at < bytes.len() && bytes[at] != b'"' {
        at += 1 + usize::from(bytes[at] == b'\\');
    }
    at.min(bytes.len())
}

/// Whether < starts a note: behind a descriptor or a folder, or the words of a call that goes on.
fn is_note(bytes: &[u8], at: usize) -> bool {
    let before = at.checked_sub(1).map(|before| bytes[before]);
    let is_behind = before.is_some_and(|byte| byte.is_ascii_digit() || byte == b'D');
    let is_shift = bytes.get(at + 1) == Some(&b'<');
    is_behind && !is_shift || bytes[at..].starts_with(b"<... ")
}

impl<'a> Sys<'a> {
    pub fn arg(&self, index: usize) -> &'a str {
        self.args.get(index).copied().unwrap_or("")
    }
}

/// A descriptor; none where the argument is none.
pub fn fd(arg: &str) -> Option<Fd<'_>> {
    let end = arg.find(|sign: char| !sign.is_ascii_digit()).unwrap_or(arg.len());
    // No system hands out a descriptor above 2 to the 30th.
    let number = arg[..end].parse().ok().filter(|&number: &i32| number < 1 << 30)?;
    let rest = &arg[end..];
    let note = rest.strip_prefix('<').map(|rest| rest.rsplit_once('>').map_or(rest, |(note, _)| note));
    (rest.is_empty() || note.is_some())
        .then_some(Fd { number, note: note.filter(|_| !rest.ends_with("(deleted)")) })
}

/// The path in the note of a descriptor or folder, if it has one.
pub fn noted_path(note: Option<&str>) -> Option<Vec<u8>> {
    let note = note?;
    (note.starts_with('/') && !note.ends_with(" (deleted)")).then(|| unescaped(note))
}

/// The bytes of a string; none where the argument is none, or the string is cut.
pub fn string(arg: &str) -> Option<Vec<u8>> {
    let inner = arg.strip_prefix('"')?.strip_suffix('"')?;
    Some(unescaped(inner))
}

/// Two descriptors in square brackets.
pub fn pair(arg: &str) -> Option<(i32, i32)> {
    let inner = arg.strip_prefix('[')?.strip_suffix(']')?;
    let (args, _) = arguments(inner);
    match args.as_slice() {
        [first, second] => Some((fd(first)?.number, fd(second)?.number)),
        _ => None,
    }
}

/// Whether a word of flags, as O_RDWR|O_CLOEXEC, has this one.
pub fn has_flag(flags: &str, flag: &str) -> bool {
    flags.split('|').any(|word| word.trim() == flag)
}

/// What stands behind `name=` in a struct or in named arguments.
pub fn field<'a>(text: &'a str, name: &str) -> Option<&'a str> {
    let inner = text.strip_prefix('{').map_or(text, |inner| inner.strip_suffix('}').unwrap_or(inner));
    let (args, _) = arguments(inner);
    args.into_iter().find_map(|arg| arg.strip_prefix(name)?.strip_prefix('='))
}

/// A number, decimal or hexadecimal, and nothing else.
pub fn whole_number(arg: &str) -> Option<u64> {
    match arg.strip_prefix("0x") {
        Some(digits) => u64::from_str_radix(digits, 16).ok(),
        None => arg.parse().ok(),
    }
}

#[cfg(test)]
mod tests {
    use super::*;

    #[test]
    fn arguments_are_told_apart() {
        for (text, args) in [
            ("3</a, b>, \"x, \\\")\", [1, 2], {a=1, b=f(2)}, 0x1 /* a, b */) = 0", 5),
            (") = 0", 0),
            ("<... resuming interrupted read ...>) = 0", 1),
            ("AT_FDCWD</a, b>, 1<<2, 21<<MAP_HUGE_SHIFT) = 0", 3),
            ("3<TCP:[127.0.0.1:1->127.0.0.1:2]>, 4) = 0", 2),
        ] {
            let (found, end) = arguments(text);
            assert_eq!(found.len(), args, "{text}: {found:?}");
            assert!(end.is_some_and(|end| text[end..].starts_with(" =")), "{text}");
        }
    }

    #[test]
    fn results_are_read() {
        let outcome = |text| read("x", text).map(|call| call.outcome);
        assert_eq!(outcome("3) = 0"), Ok(Outcome::Done(0, "0")));
        assert_eq!(outcome("3)     = 4</a b> <0.00001>"), Ok(Outcome::Done(4, "4</a b>")));
        assert_eq!(outcome("3) = 0x7f00"), Ok(Outcome::Done(0x7f00, "0x7f00")));
        assert_eq!(outcome("3) = -1 ENOENT (No such file)"), Ok(Outcome::Failed("ENOENT")));
        assert_eq!(outcome("3) = ? ERESTARTSYS (To be restarted)"), Ok(Outcome::Failed("ERESTARTSYS")));
        assert_eq!(outcome("3) = ?"), Ok(Outcome::Unsaid));
        assert_eq!(outcome("3) = 1 ([{fd=3}])"), Ok(Outcome::Done(1, "1")));
        for (text, column) in [("3", 2), ("3)", 3), ("3) 0", 4), ("3) = x", 6), ("\"a", 3), ("3) = ", 6)] {
            assert_eq!(read("x", text).map(|_| ()).unwrap_err().column, column, "{text}");
        }
    }

    #[test]
    fn parts_of_arguments_are_read() {
        assert_eq!(fd("3</a>"), Some(Fd { number: 3, note: Some("/a") }));
        assert_eq!(fd("3</a>(deleted)"), Some(Fd { number: 3, note: None }));
        assert_eq!(fd("-1"), None);
        assert_eq!(fd("AT_FDCWD"), None);
        assert_eq!(fd("99999999999"), None);
        assert_eq!(pair("[3</a>, 4<pipe:[1]>]"), Some((3, 4)));
        assert_eq!(pair("[...]"), None);
        assert_eq!(string("\"a\\tb\""), Some(b"a\tb".to_vec()));
        assert_eq!(string("\"a\"..."), None);
        assert_eq!(field("{flags=A|B, mode=0}", "mode"), Some("0"));
        assert_eq!(field("child_stack=NULL, flags=SIGCHLD", "flags"), Some("SIGCHLD"));
        assert!(has_flag("O_RDONLY|O_CLOEXEC", "O_CLOEXEC") && !has_flag("O_CLOEXECX", "O_CLOEXEC"));
        assert_eq!(
            (whole_number("0x10"), whole_number("16"), whole_number("x")),
            (Some(16), Some(16), None)
        );
    }
}
