//! The command line.

use crate::inputs::{Side, SIDES};

pub const HELP: &str = include_str!("../help.txt");

/// What is to be done.
#[derive(Clone, Debug, PartialEq, Eq)]
pub enum Task {
    Help,
    Times,
    Instructions,
    Markdown,
    Plot(String),
    /// The work of `Instructions`, under valgrind; and that of `Plot`.
    Counted,
    CountedGrowth,
}

#[derive(Clone, Debug, PartialEq, Eq)]
pub struct Options {
    pub task: Task,
    pub rounds: u32,
    pub only: String,
    pub alone: Option<Side>,
}

impl Options {
    pub fn read(mut words: impl Iterator<Item = String>) -> Result<Options, String> {
        let mut options = Options { task: Task::Times, rounds: 15, only: String::new(), alone: None };
        while let Some(option) = words.next() {
            let mut value = || words.next().ok_or(format!("'{option}' needs a value"));
            match option.as_str() {
                "-h" | "--help" => options.task = Task::Help,
                "--instructions" => options.task = Task::Instructions,
                "--markdown" => options.task = Task::Markdown,
                "--plot" => options.task = Task::Plot(value()?),
                "--counted" => options.task = Task::Counted,
                "--counted-growth" => options.task = Task::CountedGrowth,
                "--rounds" => {
                    let value = value()?;
                    let rounds = value.parse().ok().filter(|&rounds| rounds > 0);
                    options.rounds = rounds.ok_or(format!("'{value}' is not a number of rounds"))?;
                }
                "--only" => options.only = value()?,
                "--alone" => {
                    let value = value()?;
                    let side = SIDES.into_iter().find(|side| side.name() == value);
                    options.alone = Some(
                        side.ok_or(format!("'{value}' is not 'proved', 'bytes', 'plain' or 'sparing'"))?,
                    );
                }
                _ => return Err(format!("unknown option '{option}'")),
            }
        }
        Ok(options)
    }
}

#[cfg(test)]
mod tests {
    use super::*;

    fn read(words: &str) -> Result<Options, String> {
        Options::read(words.split_whitespace().map(str::to_string))
    }

    #[test]
    fn options_are_read() {
        assert_eq!(read("").map(|options| (options.task, options.rounds)), Ok((Task::Times, 15)));
        assert_eq!(read("--alone bytes").map(|options| options.alone), Ok(Some(Side::Bytes)));
        let options = read("--instructions --only rings --alone sparing").unwrap();
        assert_eq!((options.task, options.alone), (Task::Instructions, Some(Side::Sparing)));
        assert_eq!(options.only, "rings");
        assert_eq!(read("--plot a.svg").map(|options| options.task), Ok(Task::Plot("a.svg".to_string())));
    }

    #[test]
    fn faults_are_told() {
        for words in ["--plots", "--rounds 0", "--rounds", "--alone both", "--plot"] {
            assert!(read(words).is_err(), "{words}");
        }
    }
}
