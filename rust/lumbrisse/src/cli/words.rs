//! Words of the command line: what is wrong with some, and what several commands take in the same way.

use std::ffi::OsString;

use super::args::{file, Input};

/// What is said where no file is named.
pub const NO_FILE: &str = "which file? `-` is standard input";

/// What is wrong with the words.
#[derive(Debug, PartialEq, Eq)]
pub struct Usage(pub String);

pub fn wrong<T>(message: impl Into<String>) -> Result<T, Usage> {
    Err(Usage(message.into()))
}

/// An option that a command does not have.
pub fn no_option<T>(option: &str) -> Result<T, Usage> {
    wrong(format!("no option of this command is named {option}"))
}

/// The option that a word is, where files are the other words: behind `--` none is one.
pub fn option(word: &OsString, behind_dashes: bool) -> Option<&str> {
    word.to_str()
        .filter(|text| !behind_dashes && text.starts_with('-') && *text != "-")
}

/// Adds what can be asked for in one way only, or tells that two of them were given.
pub fn add_only<T: PartialEq>(place: &mut Option<T>, given: T, two: &str) -> Result<(), Usage> {
    let is_other = place.as_ref().is_some_and(|before| *before != given);
    *place = Some(given);
    match is_other {
        true => wrong(format!("{two}: give one of them")),
        false => Ok(()),
    }
}

/// Adds a file, or tells why it must not be given twice.
pub fn add_file(files: &mut Vec<Input>, word: OsString, why: &str) -> Result<(), Usage> {
    let file = file(word);
    if files.contains(&file) {
        return wrong(format!("a file is given twice: {why}"));
    }
    files.push(file);
    Ok(())
}
