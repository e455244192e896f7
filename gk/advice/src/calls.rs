//! The eighteen calls: their words in assembly, what each of their numbers is, and how a record becomes a call.

use gatekeeper::Call;

/// What a number of a call stands for.
#[derive(Clone, Copy, Debug, PartialEq, Eq)]
pub enum Role {
    Step,
    /// A file or a pipe that is there, or was.
    Object,
    File,
    Pipe,
    Place,
    Level,
    /// A set of shop marks.
    Set,
}

/// A call's code, its word, and the names of its numbers in their order.
#[derive(Debug)]
pub struct Shape {
    pub code: u64,
    pub word: &'static str,
    pub numbers: &'static [&'static str],
}

impl Shape {
    /// The names of the numbers, each with what it stands for.
    pub fn parts(&self) -> impl Iterator<Item = (&'static str, Role)> + '_ {
        self.numbers.iter().map(|&name| (name, self.role(name)))
    }

    fn role(&self, name: &str) -> Role {
        match (name, self.word) {
            ("s" | "t" | "c", _) => Role::Step,
            ("a" | "b", _) | ("o", "pipe") => Role::Pipe,
            ("o", "register" | "create") => Role::File,
            ("o", _) => Role::Object,
            ("level", _) => Role::Level,
            ("set", _) => Role::Set,
            _ => Role::Place,
        }
    }
}

const fn shape(code: u64, word: &'static str, numbers: &'static [&'static str]) -> Shape {
    Shape { code, word, numbers }
}

/// RULES C1 to C18, in the order of their codes.
pub const SHAPES: [Shape; 18] = [
    shape(1, "admit", &["s", "level", "set"]),
    shape(2, "register", &["o", "level", "set"]),
    shape(3, "create", &["s", "o"]),
    shape(4, "pipe", &["s", "o", "r", "w"]),
    shape(5, "open-read", &["s", "o", "p"]),
    shape(6, "open-write", &["s", "o", "p"]),
    shape(7, "read", &["s", "p"]),
    shape(8, "write", &["s", "p"]),
    shape(9, "fork", &["s", "c"]),
    shape(10, "exec", &["s", "o"]),
    shape(11, "close", &["s", "p"]),
    shape(12, "exit", &["s"]),
    shape(13, "retire", &["o"]),
    shape(14, "map", &["s", "o", "p"]),
    shape(15, "mark", &["s", "p"]),
    shape(16, "freeze", &["level"]),
    shape(17, "connect", &["s", "t", "a", "b", "p", "q"]),
    shape(18, "thread", &["s", "c"]),
];

/// The shape of the call with this code; none for a code that no call has (RULES R1).
pub fn shape_of_code(code: u64) -> Option<&'static Shape> {
    SHAPES.iter().find(|shape| shape.code == code)
}

/// The shape of the call with this word.
pub fn shape_of_word(word: &str) -> Option<&'static Shape> {
    SHAPES.iter().find(|shape| shape.word == word)
}

/// The call with this code and these numbers; none for a code that no call has.
pub fn call_of(code: u64, numbers: [u64; 6]) -> Option<Call> {
    let [a, b, c, d, e, f] = numbers;
    Some(match code {
        1 => Call::Admit { subject: a, level: b, shops: c },
        2 => Call::Register { object: a, level: b, shops: c },
        3 => Call::Create { subject: a, object: b },
        4 => Call::Pipe { subject: a, object: b, reads: c, writes: d },
        5 => Call::OpenRead { subject: a, object: b, place: c },
        6 => Call::OpenWrite { subject: a, object: b, place: c },
        7 => Call::Read { subject: a, place: b },
        8 => Call::Write { subject: a, place: b },
        9 => Call::Fork { subject: a, child: b },
        10 => Call::Exec { subject: a, object: b },
        11 => Call::Close { subject: a, place: b },
        12 => Call::Exit { subject: a },
        13 => Call::Retire { object: a },
        14 => Call::Map { subject: a, object: b, place: c },
        15 => Call::Mark { subject: a, place: b },
        16 => Call::Freeze { level: a },
        17 => Call::Connect { subject: a, peer: b, to: c, from: d, reading: e, writing: f },
        18 => Call::Thread { subject: a, member: b },
        _ => return None,
    })
}

/// A call as a line of assembly, with numbers alone.
pub fn assembly_of(call: Call) -> String {
    let Some(shape) = shape_of_code(call.code()) else {
        return format!("call {}", call.code());
    };
    let numbers = call.numbers().into_iter().take(shape.numbers.len());
    numbers.fold(shape.word.to_string(), |line, number| format!("{line} {number}"))
}

/// The same call with another number in the place of the one that is called so.
pub fn with_number(call: Call, name: &str, number: u64) -> Call {
    let place = shape_of_code(call.code())
        .and_then(|shape| shape.numbers.iter().position(|&called| called == name));
    let mut numbers = call.numbers();
    if let Some(place) = place {
        numbers[place] = number;
    }
    call_of(call.code(), numbers).unwrap_or(call)
}

/// The number of a call that is called so.
pub fn number_of(call: Call, name: &str) -> Option<u64> {
    let shape = shape_of_code(call.code())?;
    let place = shape.numbers.iter().position(|&called| called == name)?;
    Some(call.numbers()[place])
}

#[cfg(test)]
mod tests {
    use super::*;

    #[test]
    fn codes_words_and_numbers_go_both_ways() {
        for (code, shape) in (1..).zip(&SHAPES) {
            assert_eq!(shape.code, code);
            let numbers: Vec<u64> = (1..=shape.numbers.len() as u64).collect();
            let mut all = [0; 6];
            all[..numbers.len()].copy_from_slice(&numbers);
            let call = call_of(code, all).unwrap();
            assert_eq!((call.code(), call.numbers()), (code, all));
            let line: Vec<String> = numbers.iter().map(u64::to_string).collect();
            assert_eq!(assembly_of(call), format!("{} {}", shape.word, line.join(" ")));
        }
        assert_eq!(call_of(0, [0; 6]), None);
        assert_eq!(call_of(19, [0; 6]), None);
    }

    #[test]
    fn a_number_is_replaced_by_its_name() {
        let call = Call::OpenRead { subject: 1, object: 2, place: 3 };
        assert_eq!(with_number(call, "p", 9), Call::OpenRead { subject: 1, object: 2, place: 9 });
        assert_eq!(number_of(call, "o"), Some(2));
        assert_eq!(number_of(call, "w"), None);
    }
}
