//! The words of a line of assembly, and what is wrong with one.

/// Where a text is wrong, what was expected there, and what to type.
#[derive(Clone, Debug, PartialEq, Eq)]
pub struct Fault {
    /// Both counted from 1; the column in characters.
    pub line: usize,
    pub column: usize,
    pub expected: String,
    pub advice: String,
}

/// A fault in a line that is filled in later.
pub fn fault(column: usize, expected: &str, advice: &str) -> Fault {
    Fault { line: 0, column, expected: expected.to_string(), advice: advice.to_string() }
}

/// A word of a line and its column.
#[derive(Clone, Copy)]
pub struct Word<'a> {
    pub column: usize,
    pub text: &'a str,
    /// It stood in double quotes, which are no part of it.
    pub is_quoted: bool,
}

/// The words of a line before its comment, and the column behind the last one.
pub fn words_of(line: &str) -> Result<(Vec<Word<'_>>, usize), Fault> {
    let mut words: Vec<Word> = Vec::new();
    let mut behind = 1;
    let mut rest = line.char_indices().enumerate().peekable();
    while let Some((count, (offset, character))) = rest.next() {
        let column = count + 1;
        if character == '#' {
            break;
        } else if character == '"' {
            let Some((end_count, (end, _))) = rest.find(|&(_, (_, character))| character == '"') else {
                return Err(fault(
                    column,
                    "expected a second quote, found the end of the line",
                    "A name with spaces stands between two quotes: \"the pay book\"",
                ));
            };
            words.push(Word { column, text: &line[offset + 1..end], is_quoted: true });
            behind = end_count + 2;
        } else if !character.is_whitespace() {
            let is_end =
                |character: char| character.is_whitespace() || character == '#' || character == '"';
            let (mut end, mut last) = (offset + character.len_utf8(), column);
            while let Some(&(count, (offset, character))) = rest.peek() {
                if is_end(character) {
                    break;
                }
                (end, last) = (offset + character.len_utf8(), count + 1);
                rest.next();
            }
            words.push(Word { column, text: &line[offset..end], is_quoted: false });
            behind = last + 1;
        }
    }
    Ok((words, behind))
}

#[cfg(test)]
mod tests {
    use super::*;

    #[test]
    fn words_have_their_columns() {
        let (words, behind) = words_of("  open-read\té 1#x").unwrap();
        let found: Vec<(usize, &str)> = words.iter().map(|word| (word.column, word.text)).collect();
        assert_eq!((found, behind), (vec![(3, "open-read"), (13, "é"), (15, "1")], 16));
        assert_eq!(words_of("  # nothing").unwrap().1, 1);
    }

    #[test]
    fn a_quoted_word_is_one_word() {
        let (words, behind) = words_of("name file 1 \"the sheet # 3\" # \"").unwrap();
        assert_eq!(words.len(), 4);
        assert_eq!((words[3].text, words[3].column, words[3].is_quoted), ("the sheet # 3", 13, true));
        assert_eq!(behind, 28);
        assert_eq!(words_of("a\"b\"c").unwrap().0.len(), 3);
        assert_eq!(words_of("ab \"c").map(|_| ()).unwrap_err().column, 4);
    }
}
