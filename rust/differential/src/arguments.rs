//! The words after the program's name.

use std::path::PathBuf;

/// What the program is asked to do.
#[derive(Clone, Debug)]
pub enum Job {
    /// Compares ledgers with the oracle.
    Ledgers(Arguments),
    /// Compares ledgers with what they are when written afresh; `count` of them are written.
    Written(Arguments),
    /// Compares the two engines, and the model, on expressions.
    Expressions {
        /// How many are made.
        count: u64,
        /// What they are made from.
        seed: u64,
    },
}

/// What a run on ledgers is given.
#[derive(Clone, Debug)]
pub struct Arguments {
    /// The oracle's folder.
    pub oracle: PathBuf,
    /// How many ledgers are made, or written.
    pub count: u64,
    /// What the ledgers are made from: the same seed and count make the same ledgers.
    pub seed: u64,
    /// Real ledgers, compared whole and in pieces.
    pub real: Vec<PathBuf>,
    /// How many ledgers of each reason are made smaller and shown.
    pub smallest: usize,
    /// Where a sample of the compared ledgers goes, as a case file.
    pub sample: Option<PathBuf>,
}

const USAGE: &str =
    "usage: differential --oracle DIR [--count N] [--seed S] [--real FILE].. [--smallest N] [--sample FILE]
       differential --oracle DIR --written N [--seed S] [--real FILE]..
       differential --expressions N [--seed S]";

/// The seed where none is given.
const SEED: u64 = 1;

/// Reads the program's own arguments.
pub fn given() -> Result<Job, String> {
    let oracle = std::env::var_os("ORACLE").map(PathBuf::from);
    parsed(std::env::args().skip(1), oracle)
}

fn parsed(mut words: impl Iterator<Item = String>, oracle: Option<PathBuf>) -> Result<Job, String> {
    let mut pairs = Vec::new();
    while let Some(name) = words.next() {
        pairs.push((name, words.next().ok_or(USAGE)?));
    }
    let has = |wanted| pairs.iter().any(|(name, _)| name == wanted);
    let oracle = oracle.unwrap_or_default();
    match (has("--expressions"), has("--written")) {
        (true, _) => expressions(pairs),
        (false, true) => written(pairs, oracle).map(Job::Written),
        (false, false) => ledgers(pairs, oracle).map(Job::Ledgers),
    }
}

/// The words of a run that writes ledgers: it takes no other number, and shows no sample.
fn written(pairs: Vec<(String, String)>, oracle: PathBuf) -> Result<Arguments, String> {
    let of_ledgers = |(name, value): (String, String)| match name.as_str() {
        "--written" => Ok(("--count".to_owned(), value)),
        "--oracle" | "--seed" | "--real" => Ok((name, value)),
        _ => Err(format!("{name} is not known here\n{USAGE}")),
    };
    let pairs = pairs
        .into_iter()
        .map(of_ledgers)
        .collect::<Result<_, _>>()?;
    ledgers(pairs, oracle)
}

fn expressions(pairs: Vec<(String, String)>) -> Result<Job, String> {
    let (mut count, mut seed) = (0, SEED);
    for (name, value) in pairs {
        match name.as_str() {
            "--expressions" => count = number(&value)?,
            "--seed" => seed = number(&value)?,
            _ => return Err(format!("{name} is not known here\n{USAGE}")),
        }
    }
    Ok(Job::Expressions { count, seed })
}

fn ledgers(pairs: Vec<(String, String)>, oracle: PathBuf) -> Result<Arguments, String> {
    let mut arguments = Arguments {
        oracle,
        count: 1_000_000,
        seed: SEED,
        real: Vec::new(),
        smallest: 0,
        sample: None,
    };
    for (name, value) in pairs {
        match name.as_str() {
            "--oracle" => arguments.oracle = PathBuf::from(value),
            "--count" => arguments.count = number(&value)?,
            "--seed" => arguments.seed = number(&value)?,
            "--real" => arguments.real.push(PathBuf::from(value)),
            "--smallest" => arguments.smallest = number(&value)?,
            "--sample" => arguments.sample = Some(PathBuf::from(value)),
            _ => return Err(format!("{name} is not known\n{USAGE}")),
        }
    }
    match arguments.oracle.as_os_str().is_empty() {
        true => Err(USAGE.to_owned()),
        false => Ok(arguments),
    }
}

fn number<T: std::str::FromStr>(text: &str) -> Result<T, String> {
    text.parse()
        .map_err(|_| format!("{text} is not a number that fits\n{USAGE}"))
}

#[cfg(test)]
mod tests {
    use super::{parsed, Job};

    fn of(text: &str) -> Result<Job, String> {
        parsed(text.split_whitespace().map(str::to_owned), None)
    }

    #[test]
    fn words_are_read() {
        let got = of("--oracle /o --count 5 --seed 7 --real a --real b");
        assert!(got.is_ok_and(|job| matches!(
            job,
            Job::Ledgers(a) if a.count == 5 && a.seed == 7 && a.real.len() == 2
        )));
    }

    #[test]
    fn so_many_ledgers_are_written() {
        let got = of("--oracle /o --real a --written 5 --seed 7");
        assert!(got.is_ok_and(|job| matches!(
            job,
            Job::Written(a) if a.count == 5 && a.seed == 7 && a.real.len() == 1
        )));
    }

    #[test]
    fn expressions_need_no_oracle() {
        for text in ["--expressions 5 --seed 7", "--seed 7 --expressions 5"] {
            let got = of(text);
            assert!(matches!(got, Ok(Job::Expressions { count: 5, seed: 7 })));
        }
    }

    #[test]
    fn wrong_words_are_refused() {
        for text in [
            "",
            "--count 5",
            "--oracle",
            "--oracle /o --count x",
            "--oracle /o --what 1",
            "--expressions",
            "--expressions x",
            "--expressions 5 --count 5",
            "--written 5",
            "--oracle /o --written x",
            "--oracle /o --written 5 --count 5",
            "--oracle /o --written 5 --sample a",
            "--oracle /o --written 5 --expressions 5",
        ] {
            assert!(of(text).is_err(), "{text}");
        }
    }
}
