//! Reading and writing lines: RULES L1 to L6.

use super::Stage;

/// The pipelines of a line; none where the bytes are not a line (RULES R18).
pub fn read(line: &[u8]) -> Option<Vec<Vec<Stage>>> {
    let mut reader = Reader { rest: line };
    let pipelines = reader.line()?;
    reader.rest.is_empty().then_some(pipelines)
}

/// The bytes that are not read yet. Each function reads from their front what its name says, with the spaces before
/// and behind it.
struct Reader<'a> {
    rest: &'a [u8],
}

impl Reader<'_> {
    /// RULES L1.
    fn line(&mut self) -> Option<Vec<Vec<Stage>>> {
        let mut pipelines = vec![self.pipeline()?];
        while self.sign(b';') {
            pipelines.push(self.pipeline()?);
        }
        Some(pipelines)
    }

    /// RULES L2.
    fn pipeline(&mut self) -> Option<Vec<Stage>> {
        let mut stages = vec![self.stage()?];
        while self.sign(b'|') {
            stages.push(self.stage()?);
        }
        Some(stages)
    }

    /// RULES L3: each once at most, and in this order.
    fn stage(&mut self) -> Option<Stage> {
        let program = self.number()?;
        let input = if self.sign(b'<') { Some(self.number()?) } else { None };
        let output = if self.sign(b'>') { Some(self.number()?) } else { None };
        Some(Stage { program, input, output })
    }

    /// RULES L4.
    fn number(&mut self) -> Option<u64> {
        self.spaces();
        let digits = self.rest.iter().take_while(|byte| byte.is_ascii_digit()).count();
        let (number, rest) = self.rest.split_at(digits);
        // RULES P11: no zero in front, and 0 is one digit.
        if number.is_empty() || (number[0] == b'0' && digits > 1) {
            return None;
        }
        let mut value: u64 = 0;
        for digit in number {
            value = value.checked_mul(10)?.checked_add(u64::from(digit - b'0'))?;
        }
        self.rest = rest;
        self.spaces();
        Some(value)
    }

    /// Whether this sign comes next; if so, it is read.
    fn sign(&mut self, sign: u8) -> bool {
        self.spaces();
        match self.rest.split_first() {
            Some((&first, rest)) if first == sign => {
                self.rest = rest;
                self.spaces();
                true
            }
            _ => false,
        }
    }

    /// RULES L5: bytes of value 32, and no others.
    fn spaces(&mut self) {
        let spaces = self.rest.iter().take_while(|&&byte| byte == 32).count();
        self.rest = &self.rest[spaces..];
    }
}

/// RULES L6: a line without spaces that has this reading.
pub fn written(line: &[Vec<Stage>]) -> Vec<u8> {
    let pipelines: Vec<String> = line.iter().map(|stages| pipeline_written(stages)).collect();
    pipelines.join(";").into_bytes()
}

fn pipeline_written(stages: &[Stage]) -> String {
    let stages: Vec<String> = stages.iter().map(stage_written).collect();
    stages.join("|")
}

fn stage_written(stage: &Stage) -> String {
    let mut text = stage.program.to_string();
    if let Some(input) = stage.input {
        text.push_str(&format!("<{input}"));
    }
    if let Some(output) = stage.output {
        text.push_str(&format!(">{output}"));
    }
    text
}

#[cfg(test)]
mod tests {
    use super::*;

    fn stage(program: u64, input: Option<u64>, output: Option<u64>) -> Stage {
        Stage { program, input, output }
    }

    #[test]
    fn bars_bind_tighter_than_semicolons() {
        let expected = vec![
            vec![stage(1, Some(2), None), stage(3, None, Some(4))],
            vec![stage(5, Some(6), Some(7))],
            vec![stage(8, None, None)],
        ];
        assert_eq!(read(b"1<2|3>4;5<6>7;8"), Some(expected.clone()));
        assert_eq!(read(b"  1 <2|  3>   4 ;5 < 6 > 7 ; 8 "), Some(expected.clone()));
        assert_eq!(written(&expected), b"1<2|3>4;5<6>7;8");
    }

    #[test]
    fn numbers_have_64_bits_and_no_zero_in_front() {
        let largest = b"18446744073709551615";
        assert_eq!(read(largest), Some(vec![vec![stage(u64::MAX, None, None)]]));
        assert_eq!(read(b"0"), Some(vec![vec![stage(0, None, None)]]));
        for wrong in ["18446744073709551616", "184467440737095516150", "00", "01", "1<00", "1>07", "0 0"] {
            assert_eq!(read(wrong.as_bytes()), None, "{wrong}");
        }
        assert_eq!(read(&[b'9'; 1000]), None);
    }

    #[test]
    fn what_is_not_of_the_form_is_no_line() {
        let wrong = [
            "", " ", "   ", ";", "|", "<", ">", "1;", ";1", "1;;2", "1|", "|1", "1||2", "1|;2", "1;|2",
            "1 2", "1 ; 2 3", "1<", "1>", "<1", "1<2<3", "1>2>3", "1>2<3", "1<2>3<4", "1<2>3>4", "1<>2",
            "1<|2", "1<2 3", "1\t", "\t1", "1\n", "1\r", "1\0", "1\u{a0}", "1 \t|2", "+1", "-1", "1.0",
            "1,000", "0x1", "1&2", "1&", "(1)", "a", "1a", "１",
        ];
        for line in wrong {
            assert_eq!(read(line.as_bytes()), None, "{line:?}");
        }
        assert_eq!(read(&[b'1', 0xff]), None);
    }

    #[test]
    fn a_long_line_is_read() {
        let line = vec![b"1|2<3 ".to_vec(); 20_000].join(&b';');
        assert_eq!(read(&line).map(|pipelines| pipelines.len()), Some(20_000));
        let stages = vec![b"7".to_vec(); 20_000].join(&b'|');
        assert_eq!(read(&stages).map(|pipelines| pipelines[0].len()), Some(20_000));
    }
}
