//! The bytes that a clerk types: good lines, nearly good ones, and others.

use super::super::stores::wide_number;
use super::Draft;
use crate::labels::Label;
use crate::lines::{Stage, Start, MOST_STAGES};
use crate::random::Random;
use crate::tables::{Kind, Object};

/// The bytes of lines.
const ALPHABET: &[u8] = b" 0123456789<>|;";

/// Bytes that one may take for spaces or signs.
const OTHERS: &[u8] = b"\t\n\r\x0b\x00\x1f\x21\xa0&,.+-/:=ax\"'()\\";

/// Someone who types, and the numbers that come to mind.
pub(super) struct Clerk<'a> {
    random: &'a mut Random,
    /// Files at the shell's level or above, which a child can run without a fall.
    programs: Vec<u64>,
    files: Vec<u64>,
    pipes: Vec<u64>,
    /// The numbers of the line's own pipes.
    own: Vec<u64>,
    /// Whether what is typed is to be allowed, for the most part.
    is_tidy: bool,
    /// One number in so many is any; 0 for none.
    odd: u64,
    /// One stage in so many has a `<`, and one in so many a `>`; 0 for none.
    redirects: u64,
}

impl Clerk<'_> {
    pub(super) fn new(draft: &mut Draft, start: Start, is_tidy: bool) -> Clerk<'_> {
        let tables = draft.picture.tables();
        let label = tables.subject(start.shell).map_or(Label::LEAST, |shell| shell.label());
        let all = |is_fit: &dyn Fn(Object) -> bool| -> Vec<u64> {
            let fit = |o: &u64| tables.object(*o).is_some_and(is_fit);
            tables.live_objects().filter(fit).collect()
        };
        let programs = all(&|object| object.kind == Kind::File && object.label().is_at_least(label));
        let files = all(&|object| object.kind == Kind::File);
        let pipes = all(&|object| object.kind == Kind::Pipe);
        let own = (0..7).map(|i| start.pipe.wrapping_add(i)).collect();
        let odd = if is_tidy { 0 } else { draft.random.pick(&[0, 30, 30, 6]).unwrap_or(0) };
        let redirects = draft.random.pick(&[0, 1, 2, 2, 3]).unwrap_or(0);
        Clerk { random: &mut draft.random, programs, files, pipes, own, is_tidy, odd, redirects }
    }

    /// A line, or bytes that are nearly one, or any bytes.
    pub(super) fn line(mut self) -> Vec<u8> {
        match self.random.below(20) {
            0 => self.any_bytes(),
            1..=7 => self.nearly_good(),
            8 => {
                let pipelines = self.long_pipelines();
                self.typed(&pieces(&pipelines))
            }
            _ => {
                let pipelines = self.pipelines();
                self.typed(&pieces(&pipelines))
            }
        }
    }

    // Good lines.

    fn pipelines(&mut self) -> Vec<Vec<Stage>> {
        // Now and then a long line, of short pipelines or of any.
        let (count, most) = match self.random.below(60) {
            0 => (self.random.between(10, 40), 2),
            1 => (4, 8),
            2..=30 => (1, 8),
            _ => (self.random.between(2, 4), 8),
        };
        (0..count).map(|_| self.stages(most)).collect()
    }

    /// A pipeline of at most so many stages.
    fn stages(&mut self, most: u64) -> Vec<Stage> {
        let count = match self.random.below(8) {
            0 => MOST_STAGES as u64,
            2 | 3 if self.is_tidy => MOST_STAGES as u64,
            1 => self.random.between(1, MOST_STAGES as u64),
            _ => self.random.between(1, 3),
        };
        self.pipeline(count.min(most))
    }

    /// Good but for a pipeline of nine stages or more.
    fn long_pipelines(&mut self) -> Vec<Vec<Stage>> {
        let mut pipelines = self.pipelines();
        let count = if self.random.once_in(2) { 9 } else { self.random.between(9, 20) };
        let at = self.random.below(pipelines.len() as u64) as usize;
        pipelines[at] = self.pipeline(count);
        pipelines
    }

    fn pipeline(&mut self, count: u64) -> Vec<Stage> {
        (0..count).map(|_| self.stage()).collect()
    }

    fn stage(&mut self) -> Stage {
        let program = match self.random.below(16) {
            1.. if self.is_tidy => self.random.pick(&self.programs),
            0 => self.object(),
            1..=4 => self.random.pick(&self.files),
            _ => self.random.pick(&self.programs).or(self.random.pick(&self.files)),
        };
        let program = self.or_odd(program);
        let input = self.redirect();
        let output = self.redirect();
        // A high file that is read may flow into any.
        let input = if self.is_tidy { input.and(self.random.pick(&self.programs)) } else { input };
        Stage { program, input, output }
    }

    fn redirect(&mut self) -> Option<u64> {
        if !self.random.once_in(self.redirects) {
            return None;
        }
        let object = self.object();
        Some(self.or_odd(object))
    }

    /// A file most often, or a pipe; the line's own are among them.
    fn object(&mut self) -> Option<u64> {
        let from = match self.random.below(12) {
            _ if self.is_tidy => &self.files,
            0 => &self.pipes,
            1 | 2 => &self.own,
            _ => &self.files,
        };
        self.random.pick(from)
    }

    /// This number, or another one, which may be live or not.
    fn or_odd(&mut self, number: Option<u64>) -> u64 {
        let number = number.unwrap_or(0);
        if !self.random.once_in(self.odd) {
            return number;
        }
        match self.random.below(6) {
            0 => u64::MAX - self.random.below(3),
            1 => wide_number(self.random),
            2 => number.wrapping_add(1 << 32),
            3 => self.random.between((1 << 63) - 1, (1 << 63) + 1),
            _ => self.random.below(80),
        }
    }

    /// The pieces one after the other: without spaces, with one between each two, or with any number of them.
    fn typed(&mut self, pieces: &[Vec<u8>]) -> Vec<u8> {
        let way = self.random.below(4);
        let mut line = Vec::new();
        for (index, piece) in pieces.iter().enumerate() {
            let spaces = match way {
                0 => 0,
                1 => u64::from(index > 0),
                _ => self.some_spaces(),
            };
            line.resize(line.len() + spaces as usize, b' ');
            line.extend(piece);
        }
        if way > 1 {
            let spaces = self.some_spaces();
            line.resize(line.len() + spaces as usize, b' ');
        }
        line
    }

    fn some_spaces(&mut self) -> u64 {
        if self.random.once_in(2) {
            0
        } else {
            self.random.between(1, 3)
        }
    }

    // Lines that are nearly good.

    fn nearly_good(&mut self) -> Vec<u8> {
        let pipelines = if self.random.once_in(6) { self.long_pipelines() } else { self.pipelines() };
        let mut pieces = pieces(&pipelines);
        match self.random.below(3) {
            0 => {
                let mut line = self.typed(&pieces);
                self.wrong_byte(&mut line);
                line
            }
            1 => {
                self.wrong_number(&mut pieces);
                self.typed(&pieces)
            }
            _ => {
                self.wrong_pieces(&mut pieces);
                self.typed(&pieces)
            }
        }
    }

    /// One byte is changed, dropped, doubled, put in, or swapped with the next.
    fn wrong_byte(&mut self, line: &mut Vec<u8>) {
        let at = self.random.below(line.len() as u64) as usize;
        let byte = self.any_byte();
        match self.random.below(6) {
            0 => line[at] = byte,
            1 => drop(line.remove(at)),
            2 => line.insert(at, line[at]),
            3 if at + 1 < line.len() => line.swap(at, at + 1),
            // At one of the ends, or beside a space.
            4 => line.insert(self.random.pick(&[0, line.len()]).unwrap_or(0), byte),
            _ => line.insert(at, byte),
        }
    }

    fn any_byte(&mut self) -> u8 {
        let byte = match self.random.below(8) {
            0 | 1 => self.random.pick(ALPHABET),
            2 | 3 => self.random.pick(b"\t\n"),
            4 => Some(self.random.below(256) as u8),
            _ => self.random.pick(OTHERS),
        };
        byte.unwrap_or(b' ')
    }

    /// A number has zeros in front, is too large, has a space inside, or is missing.
    fn wrong_number(&mut self, pieces: &mut Vec<Vec<u8>>) {
        let is_number = |piece: &Vec<u8>| piece[0].is_ascii_digit();
        let numbers: Vec<usize> = (0..pieces.len()).filter(|&index| is_number(&pieces[index])).collect();
        let at = self.random.pick(&numbers).unwrap_or(0);
        let value: u128 = String::from_utf8_lossy(&pieces[at]).parse().unwrap_or(0);
        match self.random.below(8) {
            0 | 1 => {
                let zeros = self.random.between(1, 3) as usize;
                pieces[at].splice(0..0, vec![b'0'; zeros]);
            }
            // The same number modulo 2 to the 64th, or any.
            2 | 3 => {
                let turns = if self.random.once_in(3) { self.random.between(1, 1 << 40) } else { 1 };
                pieces[at] = (value + (u128::from(turns) << 64)).to_string().into_bytes();
            }
            4 => pieces[at] = b"18446744073709551616".to_vec(),
            5 => pieces[at] = [&pieces[at], b"00000000000000000000".as_slice()].concat(),
            6 => {
                let inside = self.random.between(0, pieces[at].len() as u64) as usize;
                pieces[at].insert(inside, b' ');
            }
            _ => drop(pieces.remove(at)),
        }
    }

    /// Signs are doubled, missing, at the ends, or in the wrong order.
    fn wrong_pieces(&mut self, pieces: &mut Vec<Vec<u8>>) {
        let piece = |text: &str| text.as_bytes().to_vec();
        let [own, other] = [(); 2].map(|()| self.object().unwrap_or(0).to_string());
        let sign = self.random.pick(&[";", ";", ";", "|", "<", ">"]).unwrap_or(";");
        let at = self.random.below(pieces.len() as u64) as usize;
        match self.random.below(12) {
            0 | 1 => pieces.push(piece(sign)),
            2 => pieces.insert(0, piece(sign)),
            3 => {
                // A sign, if there is one, stands twice.
                let is_sign = |index: &usize| !pieces[*index][0].is_ascii_digit();
                let signs: Vec<usize> = (0..pieces.len()).filter(is_sign).collect();
                let at = self.random.pick(&signs).unwrap_or(at);
                pieces.insert(at, pieces[at].clone());
            }
            4 => {
                let sign = self.random.pick(&[";", "|"]).unwrap_or(";");
                pieces.extend([sign, sign, &own].map(piece));
            }
            // One stage more, with two redirects.
            5 | 6 => pieces.extend([";", &own, ">", &other, "<", &own].map(piece)),
            7 => {
                let sign = self.random.pick(&["<", ">"]).unwrap_or("<");
                pieces.extend([";", &own, sign, &other, sign, &own].map(piece));
            }
            8 => drop(pieces.remove(at)),
            9 => pieces.insert(at, vec![self.any_byte()]),
            10 => pieces.push(vec![self.any_byte()]),
            _ => pieces.insert(at, pieces[at].clone()),
        }
    }

    // Bytes without order.

    fn any_bytes(&mut self) -> Vec<u8> {
        let count = self.random.below(12);
        match self.random.below(6) {
            0 => Vec::new(),
            1 => vec![b' '; self.random.between(1, 4) as usize],
            2 => (0..count).map(|_| self.any_byte()).collect(),
            _ => (0..count).map(|_| self.random.pick(ALPHABET).unwrap_or(b' ')).collect(),
        }
    }
}

/// The numbers and signs of a line, each by itself.
fn pieces(pipelines: &[Vec<Stage>]) -> Vec<Vec<u8>> {
    let mut pieces: Vec<Vec<u8>> = Vec::new();
    let mut add = |piece: &str| pieces.push(piece.as_bytes().to_vec());
    for (index, stages) in pipelines.iter().enumerate() {
        if index > 0 {
            add(";");
        }
        for (index, stage) in stages.iter().enumerate() {
            if index > 0 {
                add("|");
            }
            add(&stage.program.to_string());
            for (sign, number) in [("<", stage.input), (">", stage.output)] {
                if let Some(number) = number {
                    add(sign);
                    add(&number.to_string());
                }
            }
        }
    }
    pieces
}
