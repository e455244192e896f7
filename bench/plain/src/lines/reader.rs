//! Reading a line from its front to its end, stage by stage. Nothing is kept of it.

/// The object that is the program, and those behind `<` and `>`.
#[derive(Clone, Copy, Debug, Default, PartialEq, Eq)]
pub struct Stage {
    pub program: u64,
    pub input: Option<u64>,
    pub output: Option<u64>,
}

/// What comes behind a stage.
#[derive(Clone, Copy, Debug, PartialEq, Eq)]
pub enum End {
    /// `|`: another stage.
    Stage,
    /// `;`: another pipeline.
    Pipeline,
    /// Nothing.
    Line,
}

/// The bytes that are not read yet.
#[derive(Clone, Debug)]
pub struct Reader<'a> {
    rest: &'a [u8],
}

impl<'a> Reader<'a> {
    pub fn of(line: &'a [u8]) -> Reader<'a> {
        Reader { rest: line }
    }

    /// The next stage and what comes behind it; none where the bytes are not of a line's form (RULES L1 to L5).
    #[inline]
    pub fn stage(&mut self) -> Option<(Stage, End)> {
        let program = self.number()?;
        let mut sign = self.sign();
        let (mut input, mut output) = (None, None);
        if sign == Some(b'<') {
            input = Some(self.number()?);
            sign = self.sign();
        }
        if sign == Some(b'>') {
            output = Some(self.number()?);
            sign = self.sign();
        }
        let end = match sign {
            Some(b'|') => End::Stage,
            Some(b';') => End::Pipeline,
            None => End::Line,
            _ => return None,
        };
        Some((Stage { program, input, output }, end))
    }

    /// The number that comes next (RULES L4). Behind a 0 it ends, and a digit there is no sign.
    #[inline]
    fn number(&mut self) -> Option<u64> {
        self.skip_spaces();
        let (&first, mut rest) = self.rest.split_first()?;
        let mut value = digit(first)?;
        while let (1.., Some((&byte, behind))) = (value, rest.split_first()) {
            let Some(digit) = digit(byte) else { break };
            value = value.checked_mul(10)?.checked_add(digit)?;
            rest = behind;
        }
        self.rest = rest;
        Some(value)
    }

    /// The byte that comes next, of whatever kind; none at the end.
    #[inline]
    fn sign(&mut self) -> Option<u8> {
        self.skip_spaces();
        let (&sign, rest) = self.rest.split_first()?;
        self.rest = rest;
        Some(sign)
    }

    /// Spaces are bytes of value 32 (RULES L5).
    #[inline]
    fn skip_spaces(&mut self) {
        while let [b' ', rest @ ..] = self.rest {
            self.rest = rest;
        }
    }
}

/// The value of a digit.
#[inline]
fn digit(byte: u8) -> Option<u64> {
    let value = byte.wrapping_sub(b'0');
    (value < 10).then_some(value.into())
}

#[cfg(test)]
mod tests {
    use super::*;

    /// The stages of a line, with what comes behind each; none where it is no line.
    fn read(line: &str) -> Option<Vec<(Stage, End)>> {
        let mut reader = Reader::of(line.as_bytes());
        let mut stages = vec![reader.stage()?];
        while stages.last().is_some_and(|stage| stage.1 != End::Line) {
            stages.push(reader.stage()?);
        }
        Some(stages)
    }

    #[test]
    fn stages_are_read() {
        let stage = |program, input, output| Stage { program, input, output };
        let stages = vec![
            (stage(1, Some(2), None), End::Stage),
            (stage(30, None, Some(4)), End::Pipeline),
            (stage(5, Some(0), Some(7)), End::Pipeline),
            (stage(u64::MAX, None, None), End::Line),
        ];
        assert_eq!(read("1<2|30>4;5<0>7;18446744073709551615"), Some(stages.clone()));
        assert_eq!(read("  1 <2|  30>   4 ;5 < 0 > 7 ; 18446744073709551615 "), Some(stages));
    }

    #[test]
    fn what_is_not_of_the_form_is_no_line() {
        let lines = [
            "",
            " ",
            ";",
            "|",
            "<",
            ">",
            "1;",
            ";1",
            "1;;2",
            "1|",
            "|1",
            "1||2",
            "1|;2",
            "1 2",
            "1<",
            "1>",
            "<1",
            "1<2<3",
            "1>2>3",
            "1>2<3",
            "1<2>3<4",
            "1<>2",
            "1<2 3",
            "1\t",
            "\t1",
            "1\n",
            "1\0",
            "+1",
            "-1",
            "00",
            "01",
            "1<00",
            "0 0",
            "1a",
            "1&2",
            "18446744073709551616",
            "184467440737095516150",
        ];
        for line in lines {
            assert_eq!(read(line), None, "{line:?}");
        }
    }
}
