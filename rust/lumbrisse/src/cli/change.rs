//! What the command `edit` is asked for.

use std::ffi::OsString;

use super::args::{file, Input};
use super::destination::Destination;
use super::lines::Lines;
use super::words::{wrong, Usage};

/// Lines of a ledger, what takes their place, and where the ledger then goes.
#[derive(Debug, PartialEq, Eq)]
pub struct Change {
    pub lines: Lines,
    pub with: Input,
    pub to: Destination,
}

/// The options that make up a change, as far as they were given.
#[derive(Default)]
pub struct Parts {
    lines: Option<Lines>,
    with: Option<Input>,
    output: Option<OsString>,
    pub in_place: bool,
}

/// Whether a word belongs to an option and stands behind it.
pub fn takes_word(option: &str) -> bool {
    matches!(option, "--lines" | "--with" | "--output")
}

impl Parts {
    /// Adds an option that takes a word.
    pub fn add(&mut self, option: &str, word: OsString) -> Result<(), Usage> {
        let again = match option {
            "--lines" => self.lines.replace(named(&word)?).is_some(),
            "--with" => self.with.replace(file(word)).is_some(),
            _ => self.output.replace(word).is_some(),
        };
        match again {
            true => wrong(format!("{option} is given twice")),
            false => Ok(()),
        }
    }

    /// The change of a ledger that the options ask for.
    pub fn change(self, ledger: &Input) -> Result<Change, Usage> {
        let Some(lines) = self.lines else {
            return wrong("which lines? --lines 56-58 names those of one block");
        };
        let Some(with) = self.with else {
            return wrong("what takes their place? --with NEW names a file, `-` is standard input");
        };
        if with == Input::Standard && *ledger == Input::Standard {
            return wrong("standard input is the ledger or what takes the lines' place, not both");
        }
        let to = destination(self.output, self.in_place, ledger)?;
        Ok(Change { lines, with, to })
    }
}

fn named(word: &OsString) -> Result<Lines, Usage> {
    match word.to_str().map(Lines::named) {
        Some(Ok(lines)) => Ok(lines),
        Some(Err(what)) => wrong(format!("--lines {word:?}: {what}")),
        None => wrong(format!("--lines {word:?} names no lines")),
    }
}

fn destination(
    output: Option<OsString>,
    in_place: bool,
    ledger: &Input,
) -> Result<Destination, Usage> {
    match (output, in_place, ledger) {
        (Some(_), true, _) => wrong("--output and --in-place are two places: give one of them"),
        (Some(path), ..) if path == "-" => {
            wrong("--output is a file: standard output has what is said of the new ledger")
        }
        (Some(path), ..) => Ok(Destination::New(path)),
        (None, true, Input::File(path)) => Ok(Destination::Own(path.clone())),
        (None, true, _) => wrong("--in-place needs a file: standard input has no place"),
        (None, false, _) => Ok(Destination::Nowhere),
    }
}
