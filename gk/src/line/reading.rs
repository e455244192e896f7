//! A line as it is read (RULES L1 to L5): its pipelines and their stages, or the place where it goes wrong.
//!
//! It is not proved. Whether a line is one is the archive's to say, and `line` holds what is read here to that; this
//! reader adds the place, and what was expected there.

use std::fmt;
use std::ops::Range;

use gatekeeper::Refusal;

use crate::text::shown;

/// RULES R19: the most stages of a pipeline.
pub const MOST_STAGES: usize = 8;

/// A program, and what it reads and writes; all three are numbers of objects.
#[derive(Clone, Copy, Debug, PartialEq, Eq)]
pub struct Stage {
    pub program: u64,
    pub input: Option<u64>,
    pub output: Option<u64>,
}

/// Stages that are joined.
#[derive(Clone, Debug, PartialEq, Eq)]
pub struct Pipeline {
    pub stages: Vec<Stage>,
    /// Where it stands in the line, in bytes.
    pub at: Range<usize>,
}

/// Why a line is refused, where it goes wrong, and what to type.
#[derive(Clone, Debug, PartialEq, Eq)]
pub struct Fault {
    pub refusal: Refusal,
    /// In bytes; none at the end of the line. All bytes before it are signs, digits and spaces.
    pub at: Range<usize>,
    /// What was expected there, and what was found.
    pub expected: String,
    pub advice: String,
}

impl fmt::Display for Stage {
    fn fmt(&self, f: &mut fmt::Formatter<'_>) -> fmt::Result {
        write!(f, "{}", self.program)?;
        self.input.map_or(Ok(()), |object| write!(f, " < {object}"))?;
        self.output.map_or(Ok(()), |object| write!(f, " > {object}"))
    }
}

impl fmt::Display for Pipeline {
    fn fmt(&self, f: &mut fmt::Formatter<'_>) -> fmt::Result {
        let stages: Vec<String> = self.stages.iter().map(Stage::to_string).collect();
        f.write_str(&stages.join(" | "))
    }
}

impl Stage {
    /// The objects that it names.
    pub fn objects(&self) -> impl Iterator<Item = u64> {
        [Some(self.program), self.input, self.output].into_iter().flatten()
    }
}

/// The pipelines of a line. All of it is read before stages are counted (RULES R125).
pub fn read(line: &[u8]) -> Result<Vec<Pipeline>, Fault> {
    let mut reader = Reader { line, at: 0 };
    let mut pipelines = vec![reader.pipeline(None)?];
    while reader.takes(b';') {
        pipelines.push(reader.pipeline(Some(';'))?);
    }
    match pipelines.iter().find(|pipeline| pipeline.stages.len() > MOST_STAGES) {
        None => Ok(pipelines),
        Some(long) => Err(Fault {
            refusal: Refusal::TooManyStages,
            at: long.at.clone(),
            expected: format!("expected at most {MOST_STAGES} stages, found {}", long.stages.len()),
            advice: "Make two pipelines of it, with ; between them: the first writes a file that the second reads"
                .to_string(),
        }),
    }
}

/// A line, and how far it has been read.
struct Reader<'a> {
    line: &'a [u8],
    at: usize,
}

impl Reader<'_> {
    /// A pipeline, behind a `;` or at the front of the line.
    fn pipeline(&mut self, behind: Option<char>) -> Result<Pipeline, Fault> {
        let (first, mut at) = self.stage(behind)?;
        let mut stages = vec![first];
        while self.takes(b'|') {
            let (stage, place) = self.stage(Some('|'))?;
            stages.push(stage);
            at.end = place.end;
        }
        Ok(Pipeline { stages, at })
    }

    /// A stage with its place, up to what may stand behind it.
    fn stage(&mut self, behind: Option<char>) -> Result<(Stage, Range<usize>), Fault> {
        let (program, mut at) = self.number(behind)?;
        let mut stage = Stage { program, input: None, output: None };
        for (sign, part) in [('<', &mut stage.input), ('>', &mut stage.output)] {
            if self.takes(sign as u8) {
                let (object, place) = self.number(Some(sign))?;
                *part = Some(object);
                at.end = place.end;
            }
        }
        match self.next() {
            None | Some(b'|' | b';') => Ok((stage, at)),
            Some(byte) => Err(self.left_over(stage, byte)),
        }
    }

    /// RULES L4: a number with its place, behind a sign or at the front of the line.
    fn number(&mut self, behind: Option<char>) -> Result<(u64, Range<usize>), Fault> {
        let what = match behind {
            None => "a program's number".to_string(),
            Some(sign @ ('|' | ';')) => format!("a program's number behind {sign}"),
            Some(sign) => format!("a number behind {sign}"),
        };
        self.spaces();
        let start = self.at;
        let count = self.line[start..].iter().take_while(|byte| byte.is_ascii_digit()).count();
        if count == 0 {
            return Err(self.fault(&what, self.missing(behind)));
        }
        self.at += count;
        let at = start..self.at;
        let digits = String::from_utf8_lossy(&self.line[at.clone()]);
        let wrong = |expected: &str, advice: String| {
            let expected = format!("expected {what}{expected}, found \"{}\"", shown(&digits));
            Err(Fault { refusal: Refusal::LineBroken, at: at.clone(), expected, advice })
        };
        if count > 1 && digits.starts_with('0') {
            let kept = digits[..count - 1].trim_start_matches('0').len() + 1;
            return wrong(" without a zero in front", format!("Type: {}", shown(&digits[count - kept..])));
        }
        match digits.parse() {
            Ok(number) => Ok((number, at)),
            Err(_) => wrong(
                ", at most 18,446,744,073,709,551,615",
                "No file and no pipe has a higher number".to_string(),
            ),
        }
    }

    /// What to do where a number is missing.
    fn missing(&self, behind: Option<char>) -> String {
        match (self.line.get(self.at), behind) {
            (Some(&byte), _) if !is_sign(byte) => advice_on(byte).to_string(),
            (_, None) => "Type a line, for example: 3 < 1 | 3 > 0".to_string(),
            (_, Some(sign @ ('|' | ';'))) => {
                format!("Type a stage behind {sign}, or take the {sign} away")
            }
            (_, Some(sign)) => format!("Type the number of a file or pipe behind {sign}"),
        }
    }

    /// What stands behind a stage and cannot.
    fn left_over(&self, stage: Stage, byte: u8) -> Fault {
        let may = match (stage.input, stage.output) {
            (_, Some(_)) => "|, ; or the end of the line",
            (Some(_), None) => ">, |, ; or the end of the line",
            (None, None) => "<, >, |, ; or the end of the line",
        };
        let advice = match byte {
            b'<' if stage.input.is_none() => "In a stage < comes before >",
            b'<' => "A stage has one < at most",
            b'>' => "A stage has one > at most",
            b'0'..=b'9' => "A number has no space in it, and between two numbers stands a sign",
            _ => advice_on(byte),
        };
        self.fault(may, advice.to_string())
    }

    /// RULES R18, at what comes next: a sign, or all up to the next sign or space.
    fn fault(&self, expected: &str, advice: String) -> Fault {
        let rest = &self.line[self.at..];
        let is_end = |byte: &u8| *byte == b' ' || is_sign(*byte) || byte.is_ascii_control();
        let count = rest.iter().position(is_end).unwrap_or(rest.len()).max(1).min(rest.len());
        let found = match (rest.first(), std::str::from_utf8(&rest[..count])) {
            (None, _) => "the end of the line".to_string(),
            (Some(b'\t'), _) => "a tab".to_string(),
            (_, Ok(text)) => format!("\"{}\"", shown(text)),
            (Some(byte), Err(_)) => format!("the byte {byte}"),
        };
        Fault {
            refusal: Refusal::LineBroken,
            at: self.at..self.at + count,
            expected: format!("expected {expected}, found {found}"),
            advice,
        }
    }

    /// RULES L5.
    fn spaces(&mut self) {
        self.at += self.line[self.at..].iter().take_while(|&&byte| byte == b' ').count();
    }

    /// The next byte that is no space.
    fn next(&mut self) -> Option<u8> {
        self.spaces();
        self.line.get(self.at).copied()
    }

    /// Takes a sign, if it comes next.
    fn takes(&mut self, sign: u8) -> bool {
        let is_next = self.next() == Some(sign);
        self.at += usize::from(is_next);
        is_next
    }
}

/// What to do about a byte that no line has.
fn advice_on(byte: u8) -> &'static str {
    match byte {
        b',' => "Type numbers without commas",
        b'\t' => "Type spaces, not tabs",
        b'\n' | b'\r' => "Type it as one line, with ; between two pipelines",
        byte if byte.is_ascii_alphabetic() => "Type numbers: a line has no names in it",
        _ => "A line has numbers, spaces and the signs < > | ; in it, and nothing else",
    }
}

fn is_sign(byte: u8) -> bool {
    matches!(byte, b'<' | b'>' | b'|' | b';')
}

#[cfg(test)]
mod tests {
    use super::*;

    #[test]
    fn a_line_is_read() {
        let pipelines = read(b" 3<1|18446744073709551615 > 0 ;0 <2> 4").unwrap();
        let stage = |program, input, output| Stage { program, input, output };
        assert_eq!(
            pipelines,
            [
                Pipeline {
                    stages: vec![stage(3, Some(1), None), stage(u64::MAX, None, Some(0))],
                    at: 1..29
                },
                Pipeline { stages: vec![stage(0, Some(2), Some(4))], at: 31..38 }
            ]
        );
        assert_eq!(pipelines[0].to_string(), "3 < 1 | 18446744073709551615 > 0");
        assert_eq!(pipelines[1].stages[0].objects().collect::<Vec<u64>>(), [0, 2, 4]);
    }

    #[test]
    fn a_fault_has_its_place() {
        for (line, at) in [
            ("", 0..0),
            ("  ", 2..2),
            ("3 |", 3..3),
            ("3;;3", 2..3),
            ("03", 0..2),
            ("3 < 18446744073709551616 |", 4..24),
            ("3 > 0 < 1", 6..7),
            ("3 4", 2..3),
            ("3\t", 1..2),
        ] {
            let fault = read(line.as_bytes()).unwrap_err();
            assert_eq!((fault.refusal, fault.at), (Refusal::LineBroken, at), "{line:?}");
        }
        let fault = read(b"1; 1|1|1|1|1|1|1|1|1 ;1").unwrap_err();
        assert_eq!((fault.refusal, fault.at), (Refusal::TooManyStages, 3..20));
        assert!(read(b"1|1|1|1|1|1|1|1").is_ok());
    }
}
