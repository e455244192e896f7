//! Makes a journal shorter while two programs still differ on it.

use crate::records::Reader;
use crate::variants::Rules;

/// The shortest journal found that still differs, with at most `tries` questions.
pub fn shrink(journal: &[u8], tries: usize, differs: &mut dyn FnMut(&[u8]) -> bool) -> Vec<u8> {
    let mut search = Search { left: tries, differs };
    // Whole records first, then single bytes, until neither helps.
    let mut best = journal.to_vec();
    loop {
        let before = best.len();
        best = search.drop_parts(records_of(&best));
        best = search.drop_parts(best.chunks(1).collect());
        best = search.lessen_bytes(best);
        if best.len() == before {
            return best;
        }
    }
}

/// The records as byte strings; what no longer is a record is one string.
fn records_of(journal: &[u8]) -> Vec<&[u8]> {
    let mut reader = Reader::new(journal, Rules::default());
    let mut parts = Vec::new();
    loop {
        let start = reader.offset();
        match reader.next_record() {
            None => return parts,
            Some(_) => parts.push(&journal[start..reader.offset()]),
        }
    }
}

/// The questions that may still be asked.
struct Search<'a> {
    left: usize,
    differs: &'a mut dyn FnMut(&[u8]) -> bool,
}

impl Search<'_> {
    fn ask(&mut self, candidate: &[u8]) -> bool {
        self.left = self.left.saturating_sub(1);
        (self.differs)(candidate)
    }

    /// Leaves out as many parts as possible: first halves, then ever smaller runs, at last one at a time.
    fn drop_parts(&mut self, mut parts: Vec<&[u8]>) -> Vec<u8> {
        let mut run = parts.len().div_ceil(2);
        while run > 0 {
            let mut start = 0;
            while start < parts.len() && self.left > 0 {
                let end = (start + run).min(parts.len());
                let candidate = [&parts[..start], &parts[end..]].concat();
                if self.ask(&candidate.concat()) {
                    parts = candidate;
                } else {
                    start = end;
                }
            }
            run /= 2;
        }
        parts.concat()
    }

    /// Makes bytes smaller: 0 where that is possible.
    fn lessen_bytes(&mut self, mut journal: Vec<u8>) -> Vec<u8> {
        for index in 0..journal.len() {
            let old = journal[index];
            for smaller in [0, old / 2, old.saturating_sub(1)] {
                if smaller >= old || self.left == 0 {
                    break;
                }
                journal[index] = smaller;
                if self.ask(&journal) {
                    break;
                }
                journal[index] = old;
            }
        }
        journal
    }
}

#[cfg(test)]
mod tests {
    use super::*;
    use crate::generate::{journal, Wish};

    #[test]
    fn what_does_not_matter_is_left_out() {
        let long = journal(1, 3, Wish::default());
        let mut long = [long, vec![0, 0, 3, 1, 30, 16]].concat();
        long.extend([0; 20]);
        let mut differs = |candidate: &[u8]| candidate.windows(2).any(|pair| pair == [30, 16]);
        assert_eq!(shrink(&long, 5000, &mut differs), [30, 16]);
    }

    #[test]
    fn the_number_of_questions_is_kept() {
        let mut asked = 0;
        let mut differs = |_: &[u8]| {
            asked += 1;
            false
        };
        shrink(&[1; 5000], 100, &mut differs);
        assert!(asked <= 100);
    }
}
