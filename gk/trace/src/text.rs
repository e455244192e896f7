//! Foreign bytes: as they may stand in a message, and as strace writes them.

/// Characters of a foreign text that are shown in a message.
const MOST_SHOWN: usize = 100;

/// Foreign bytes as they may stand in a message: without control characters, and cut where they are long.
pub fn shown(bytes: &[u8]) -> String {
    let text = String::from_utf8_lossy(bytes);
    let mut pieces: String = text.chars().take(MOST_SHOWN).map(visible).collect();
    if text.chars().nth(MOST_SHOWN).is_some() {
        pieces.push('…');
    }
    pieces
}

/// A character, or for one that a terminal could obey or hide its number.
fn visible(character: char) -> String {
    let is_hidden = matches!(
        character,
        '\u{200b}'..='\u{200f}' | '\u{2028}'..='\u{202e}' | '\u{2066}'..='\u{2069}' | '\u{feff}'
    );
    if character.is_control() || is_hidden {
        character.escape_default().to_string()
    } else {
        character.to_string()
    }
}

/// The bytes that a text of strace stands for: it writes what cannot be printed as `\n`, `\303` or `\xc3`.
pub fn unescaped(text: &str) -> Vec<u8> {
    let bytes = text.as_bytes();
    let mut plain = Vec::with_capacity(bytes.len());
    let mut at = 0;
    while at < bytes.len() {
        let byte = bytes[at];
        at += 1;
        if byte != b'\\' || at == bytes.len() {
            plain.push(byte);
            continue;
        }
        let sign = bytes[at];
        at += 1;
        match sign {
            b'n' => plain.push(b'\n'),
            b't' => plain.push(b'\t'),
            b'r' => plain.push(b'\r'),
            b'v' => plain.push(0x0b),
            b'f' => plain.push(0x0c),
            b'x' => at += digits(&bytes[at..], 16, 2, &mut plain),
            b'0'..=b'7' => at += digits(&bytes[at - 1..], 8, 3, &mut plain) - 1,
            other => plain.push(other),
        }
    }
    plain
}

/// Adds the byte that the digits in front have in this base; how many there were.
fn digits(bytes: &[u8], base: u32, most: usize, plain: &mut Vec<u8>) -> usize {
    let mut value = 0;
    let mut count = 0;
    for &byte in bytes.iter().take(most) {
        let Some(digit) = char::from(byte).to_digit(base) else { break };
        value = value * base + digit;
        count += 1;
    }
    plain.push((value & 0xff) as u8);
    count
}

#[cfg(test)]
mod tests {
    use super::*;

    #[test]
    fn what_strace_escapes_is_read_back() {
        assert_eq!(unescaped(r#"a\tb\"c\\d\n"#), b"a\tb\"c\\d\n");
        assert_eq!(unescaped(r"L\303\266hne"), "Löhne".as_bytes());
        assert_eq!(unescaped(r"\x2fetc\0z\1"), b"/etc\0z\x01");
        assert_eq!(unescaped(r"\7\1012\"), b"\x07A2\\");
        assert_eq!(unescaped(r"\x"), b"\0");
    }

    #[test]
    fn no_control_byte_is_shown() {
        assert_eq!(shown(b"a\x1b[2Jb"), "a\\u{1b}[2Jb");
        assert_eq!(shown("a\u{202e}b".as_bytes()), "a\\u{202e}b");
        assert_eq!(shown(&[b'a'; 200]).chars().count(), MOST_SHOWN + 1);
    }
}
