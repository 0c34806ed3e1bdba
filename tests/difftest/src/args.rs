//! The command line.

use std::path::PathBuf;
use std::time::Duration;

pub const USAGE: &str =
    "usage: difftest [--seed S] [--seconds N] [--program PATH] [--resolver PATH] [--walker PATH]";

pub struct Args {
    pub seed: u64,
    /// Cases of further seeds are compared until this time has passed.
    pub time: Duration,
    /// The listing program.
    pub program: Option<PathBuf>,
    /// The resolving program.
    pub resolver: Option<PathBuf>,
    /// The walking program.
    pub walker: Option<PathBuf>,
}

/// What is wrong with them, or the arguments.
pub fn parse(words: impl IntoIterator<Item = String>) -> Result<Args, String> {
    let mut args = Args {
        seed: 1,
        time: Duration::ZERO,
        program: None,
        resolver: None,
        walker: None,
    };
    let mut words = words.into_iter();
    while let Some(word) = words.next() {
        let mut next = || words.next().ok_or(format!("{word} wants a value"));
        let number = |value: String| {
            let number = value
                .parse()
                .map_err(|_| format!("{word} wants a number, not {value}"));
            number as Result<u64, String>
        };
        match word.as_str() {
            "--seed" => args.seed = number(next()?)?,
            "--seconds" => args.time = Duration::from_secs(number(next()?)?),
            "--program" => args.program = Some(PathBuf::from(next()?)),
            "--resolver" => args.resolver = Some(PathBuf::from(next()?)),
            "--walker" => args.walker = Some(PathBuf::from(next()?)),
            _ => return Err(format!("unknown argument {word}")),
        }
    }
    Ok(args)
}
