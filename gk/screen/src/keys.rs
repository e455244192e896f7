//! What a terminal sends for a key.

/// A key that means something here.
#[derive(Clone, Copy, Debug, PartialEq, Eq)]
pub enum Key {
    Up,
    Down,
    Left,
    Right,
    /// With Shift: ten records.
    FarLeft,
    FarRight,
    PageUp,
    PageDown,
    Home,
    End,
    Tab,
    BackTab,
    /// A letter, small.
    Letter(char),
}

const ESCAPE: u8 = 0x1b;

/// Bytes of a sequence that is still being sent; a longer one is none.
const MOST: usize = 16;

/// The keys of these bytes, which are taken away; what may become a key with more of them is left.
pub fn keys(bytes: &mut Vec<u8>) -> Vec<Key> {
    let mut found = Vec::new();
    let mut at = 0;
    while at < bytes.len() {
        let Some((key, length)) = first(&bytes[at..]) else {
            break;
        };
        found.extend(key);
        at += length;
    }
    bytes.drain(..at);
    found
}

/// The first key, if it is one that is known, and its bytes; nothing where more bytes have to come.
fn first(bytes: &[u8]) -> Option<(Option<Key>, usize)> {
    match bytes {
        [ESCAPE] => None,
        [ESCAPE, b'[', rest @ ..] => {
            let end = rest.iter().position(|byte| (0x40..=0x7e).contains(byte));
            match end {
                Some(end) => Some((sequence(&rest[..end], rest[end]), end + 3)),
                None if rest.len() < MOST => None,
                None => Some((None, bytes.len())),
            }
        }
        [ESCAPE, b'O'] => None,
        [ESCAPE, b'O', last, ..] => Some((sequence(b"", *last), 3)),
        [ESCAPE, ..] => Some((None, 1)),
        [b'\t', ..] => Some((Some(Key::Tab), 1)),
        [b' ', ..] => Some((Some(Key::PageDown), 1)),
        [byte, ..] if byte.is_ascii_graphic() => {
            Some((Some(Key::Letter(char::from(byte.to_ascii_lowercase()))), 1))
        }
        _ => Some((None, 1)),
    }
}

/// The key of a sequence: what stands in it, and its last byte.
fn sequence(inner: &[u8], last: u8) -> Option<Key> {
    let is_shifted = inner == b"1;2";
    Some(match (last, inner) {
        (b'A', _) => Key::Up,
        (b'B', _) => Key::Down,
        (b'C', _) if is_shifted => Key::FarRight,
        (b'D', _) if is_shifted => Key::FarLeft,
        (b'C', _) => Key::Right,
        (b'D', _) => Key::Left,
        (b'H', _) | (b'~', b"1" | b"7") => Key::Home,
        (b'F', _) | (b'~', b"4" | b"8") => Key::End,
        (b'~', b"5") => Key::PageUp,
        (b'~', b"6") => Key::PageDown,
        (b'Z', _) => Key::BackTab,
        _ => return None,
    })
}

#[cfg(test)]
mod tests {
    use super::*;

    #[track_caller]
    fn holds(bytes: &[u8], expected: &[Key], left: &[u8]) {
        let mut rest = bytes.to_vec();
        assert_eq!(keys(&mut rest), expected, "{bytes:?}");
        assert_eq!(rest, left, "{bytes:?}");
    }

    #[test]
    fn keys_are_told_apart() {
        holds(b"", &[], b"");
        holds(b"nP", &[Key::Letter('n'), Key::Letter('p')], b"");
        holds(b"\x1b[A\x1b[B\x1bOC\x1bOD", &[Key::Up, Key::Down, Key::Right, Key::Left], b"");
        holds(b"\x1b[1;2C\x1b[1;2D", &[Key::FarRight, Key::FarLeft], b"");
        holds(b"\x1b[5~\x1b[6~\x1b[H\x1b[4~", &[Key::PageUp, Key::PageDown, Key::Home, Key::End], b"");
        holds(b"\t\x1b[Z ", &[Key::Tab, Key::BackTab, Key::PageDown], b"");
    }

    #[test]
    fn a_key_that_comes_in_pieces_is_one_key() {
        let whole = b"\x1b[1;2C";
        for cut in 1..whole.len() {
            holds(&whole[..cut], &[], &whole[..cut]);
        }
        holds(b"\x1b", &[], b"\x1b");
        holds(b"\x1bO", &[], b"\x1bO");
    }

    #[test]
    fn what_is_no_key_is_passed_over() {
        holds("é\u{0}n".as_bytes(), &[Key::Letter('n')], b"");
        holds(b"\x1b[200~q", &[Key::Letter('q')], b"");
        holds(b"\x1b\x1b[A", &[Key::Up], b"");
        let long = [&b"\x1b["[..], &[b'1'; 40]].concat();
        holds(&long, &[], b"");
        // Whatever comes, it is taken, but for the start of a key.
        for first in 0..=255u8 {
            for second in 0..=255u8 {
                let mut bytes = vec![first, second];
                keys(&mut bytes);
                assert!(bytes.is_empty() || bytes.starts_with(&[ESCAPE]), "{first} {second}");
            }
        }
    }
}
