//! Shell-style patterns over paths.
//!
//! `*` is any run of characters but `/`, `?` one character but `/`, `**` any run at all, `**/` any folders or none,
//! `[a-z]` one character of a set and `[!a-z]` one that is not in it (never `/`), and `\` before a character is that
//! character.

#[derive(Clone, Debug, PartialEq, Eq)]
pub struct Glob(Vec<Piece>);

#[derive(Clone, Debug, PartialEq, Eq)]
enum Piece {
    Byte(u8),
    One,
    Run,
    Anything,
    Folders,
    Set { is_negated: bool, ranges: Vec<(u8, u8)> },
}

impl Glob {
    /// A pattern; where it is wrong, the offset and what was expected there.
    pub fn new(text: &[u8]) -> Result<Glob, (usize, &'static str)> {
        let mut pieces = Vec::new();
        let mut at = 0;
        while at < text.len() {
            let rest = &text[at..];
            let (piece, length) = match rest {
                [b'*', b'*', b'/', ..] => (Piece::Folders, 3),
                [b'*', b'*', ..] => (Piece::Anything, 2),
                [b'*', ..] => (Piece::Run, 1),
                [b'?', ..] => (Piece::One, 1),
                [b'[', ..] => set(rest).map_err(|(offset, expected)| (at + offset, expected))?,
                [b'\\', byte, ..] => (Piece::Byte(*byte), 2),
                [b'\\'] => return Err((at + 1, "a character behind \\")),
                [byte, ..] => (Piece::Byte(*byte), 1),
                [] => break,
            };
            pieces.push(piece);
            at += length;
        }
        Ok(Glob(pieces))
    }

    pub fn is_absolute(&self) -> bool {
        self.0.first() == Some(&Piece::Byte(b'/'))
    }

    /// Whether the whole path is of this pattern.
    pub fn matches(&self, path: &[u8]) -> bool {
        let mut open = vec![false; self.0.len() + 1];
        open[0] = true;
        self.matches_from(open, path)
    }

    /// Whether a path in some folder, which is not known, may be of this pattern.
    pub fn may_match_below(&self, path: &[u8]) -> bool {
        let ends_folder =
            |piece: &Piece| matches!(piece, Piece::Byte(b'/') | Piece::Anything | Piece::Folders);
        let mut open = vec![false; self.0.len() + 1];
        for (index, _) in self.0.iter().enumerate().filter(|(_, piece)| ends_folder(piece)) {
            open[index + 1] = true;
            open[index] |= !matches!(self.0[index], Piece::Byte(_));
        }
        self.matches_from(open, path)
    }

    /// Whether a path is of what is left of the pattern: which pieces may come next, after each byte.
    fn matches_from(&self, mut open: Vec<bool>, path: &[u8]) -> bool {
        self.skip(&mut open, true);
        let mut next = open.clone();
        for &byte in path {
            next.fill(false);
            for (index, piece) in self.0.iter().enumerate().filter(|&(index, _)| open[index]) {
                let stays = match piece {
                    Piece::Run => byte != b'/',
                    Piece::Anything | Piece::Folders => true,
                    _ => false,
                };
                next[index] |= stays;
                next[index + 1] |= piece.takes(byte);
            }
            self.skip(&mut next, byte == b'/');
            std::mem::swap(&mut open, &mut next);
        }
        open[self.0.len()]
    }

    /// Passes over the pieces that may stand for nothing; folders may at the start of a name alone.
    fn skip(&self, open: &mut [bool], is_start: bool) {
        for (index, piece) in self.0.iter().enumerate() {
            let is_empty = match piece {
                Piece::Run | Piece::Anything => true,
                Piece::Folders => is_start,
                _ => false,
            };
            if open[index] && is_empty {
                open[index + 1] = true;
            }
        }
    }
}

impl Piece {
    /// Whether it is this one byte.
    fn takes(&self, byte: u8) -> bool {
        match self {
            Piece::Byte(own) => *own == byte,
            Piece::One => byte != b'/',
            Piece::Set { is_negated, ranges } => {
                byte != b'/'
                    && ranges.iter().any(|&(low, high)| (low..=high).contains(&byte)) != *is_negated
            }
            Piece::Run | Piece::Anything | Piece::Folders => false,
        }
    }
}

/// The set in front, and its length.
fn set(text: &[u8]) -> Result<(Piece, usize), (usize, &'static str)> {
    let mut at = 1;
    let is_negated = matches!(text.get(at), Some(b'!' | b'^'));
    at += usize::from(is_negated);
    let mut ranges = Vec::new();
    // The first character is one of the set, also where it is ].
    while ranges.is_empty() || text.get(at) != Some(&b']') {
        let mut one = || -> Result<u8, (usize, &'static str)> {
            at += usize::from(text.get(at) == Some(&b'\\'));
            let byte = *text.get(at).ok_or((text.len(), "] at the end of the set"))?;
            at += 1;
            Ok(byte)
        };
        let low = one()?;
        let is_range = text.get(at) == Some(&b'-') && !matches!(text.get(at + 1), Some(b']') | None);
        if !is_range {
            ranges.push((low, low));
            continue;
        }
        at += 1;
        let before = at;
        let mut one = || -> Result<u8, (usize, &'static str)> {
            at += usize::from(text.get(at) == Some(&b'\\'));
            let byte = *text.get(at).ok_or((text.len(), "] at the end of the set"))?;
            at += 1;
            Ok(byte)
        };
        let high = one()?;
        if high < low {
            return Err((before, "a range that rises"));
        }
        ranges.push((low, high));
    }
    Ok((Piece::Set { is_negated, ranges }, at + 1))
}

#[cfg(test)]
mod tests {
    use super::*;

    fn matches(pattern: &str, path: &str) -> bool {
        Glob::new(pattern.as_bytes()).unwrap().matches(path.as_bytes())
    }

    #[test]
    fn patterns_as_in_a_shell() {
        for (pattern, path, is_match) in [
            ("bank.csv", "bank.csv", true),
            ("bank.csv", "bankXcsv", false),
            ("sheets/*.csv", "sheets/3.csv", true),
            ("sheets/*.csv", "sheets/old/3.csv", false),
            ("sheets/**", "sheets/old/3.csv", true),
            ("sheets/**", "sheets", false),
            ("**/3.csv", "3.csv", true),
            ("**/3.csv", "/a/b/3.csv", true),
            ("**/3.csv", "/a/b/13.csv", false),
            ("a/**/b", "a/b", true),
            ("a/**/b", "a/x/y/b", true),
            ("a/**/b", "a/xb", false),
            ("**", "/any/thing", true),
            ("*", "a/b", false),
            ("*", "", true),
            ("?.csv", "3.csv", true),
            ("?.csv", "/.csv", false),
            ("[0-9].csv", "3.csv", true),
            ("[!0-9].csv", "3.csv", false),
            ("[!0-9].csv", "/.csv", false),
            ("[]x].csv", "].csv", true),
            ("[a-].csv", "-.csv", true),
            ("\\*.csv", "*.csv", true),
            ("\\*.csv", "3.csv", false),
            ("a*b*c*d", "aXbXcXd", true),
            ("a*b*c*d", "aXbXcX", false),
        ] {
            assert_eq!(matches(pattern, path), is_match, "{pattern} {path}");
        }
    }

    #[test]
    fn a_path_below_some_folder_may_fit() {
        for (pattern, path, may) in [
            ("/run/low", "low", true),
            ("/run/low", "run/low", true),
            ("/run/low", "high", false),
            ("/run/x/low", "x/low", true),
            ("/usr/**", "any/thing", true),
            ("/**/low", "low", true),
            ("/run/*", "a/b", false),
        ] {
            assert_eq!(
                Glob::new(pattern.as_bytes()).unwrap().may_match_below(path.as_bytes()),
                may,
                "{pattern} {path}"
            );
        }
    }

    #[test]
    fn many_stars_take_no_long_time() {
        let pattern = "*a".repeat(60);
        assert!(!matches(&pattern, &"a".repeat(4000).replace("aa", "ab")[..4000]) || pattern.len() == 120);
        assert!(!matches(&"**a".repeat(60), &"b".repeat(4000)));
    }

    #[test]
    fn a_wrong_pattern_is_said_where() {
        assert_eq!(Glob::new(b"ab[c"), Err((4, "] at the end of the set")));
        assert_eq!(Glob::new(b"ab[z-a]"), Err((5, "a range that rises")));
        assert_eq!(Glob::new(b"ab\\"), Err((3, "a character behind \\")));
    }
}
