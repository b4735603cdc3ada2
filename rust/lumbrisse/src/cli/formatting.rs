//! What the command `format` is asked for.

use std::ffi::OsString;

use super::args::{Input, Request, Verb};
use super::words::{add_file, add_only, no_option, option, wrong, Usage, NO_FILE};

/// Ledgers, and what is done with each of them written afresh.
#[derive(Debug, PartialEq, Eq)]
pub struct Formatting {
    pub files: Vec<Input>,
    pub manner: Manner,
}

/// What is done with a ledger written afresh.
#[derive(Clone, Copy, Debug, PartialEq, Eq)]
pub enum Manner {
    /// It goes to standard output.
    Print,
    /// It goes nowhere: a file that is not as it would be is named.
    Check,
    /// It takes the place of its file.
    InPlace,
}

/// The words after `format`: options anywhere before `--`, and files.
pub fn parse(words: impl Iterator<Item = OsString>) -> Result<Request, Usage> {
    const TWO: &str = "--check writes nothing, --in-place does";
    let (mut files, mut manner, mut behind_dashes) = (Vec::new(), None, false);
    for word in words {
        match option(&word, behind_dashes) {
            None => add_file(&mut files, word, "once is enough")?,
            Some("--") => behind_dashes = true,
            Some("-h" | "--help") => return Ok(Request::Help(Some(Verb::Format))),
            Some("--check") => add_only(&mut manner, Manner::Check, TWO)?,
            Some("--in-place") => add_only(&mut manner, Manner::InPlace, TWO)?,
            Some(option) => return no_option(option),
        }
    }
    let manner = manner.unwrap_or(Manner::Print);
    match manner {
        _ if files.is_empty() => wrong(NO_FILE),
        Manner::Print if files.len() > 1 => {
            wrong("one file at a time goes to standard output: --check and --in-place take several")
        }
        Manner::InPlace if files.contains(&Input::Standard) => {
            wrong("--in-place needs files: standard input has no place")
        }
        _ => Ok(Request::Format(Formatting { files, manner })),
    }
}

#[cfg(test)]
mod tests {
    use super::super::args;
    use super::*;

    fn parsed(words: &[&str]) -> Result<Request, Usage> {
        let words = [&["format"], words].concat();
        args::parse(words.iter().map(OsString::from))
    }

    #[test]
    fn one_file_is_printed_and_several_are_checked_or_replaced() {
        let asked = |names: &[&str], manner| {
            let files = names.iter().map(|name| args::file(name.into())).collect();
            Ok(Request::Format(Formatting { files, manner }))
        };
        assert_eq!(parsed(&["a"]), asked(&["a"], Manner::Print));
        assert_eq!(parsed(&["-"]), asked(&["-"], Manner::Print));
        for words in [["--check", "a", "b"], ["a", "--check", "b"]] {
            assert_eq!(parsed(&words), asked(&["a", "b"], Manner::Check));
        }
        assert_eq!(
            parsed(&["-", "--check", "--check"]),
            asked(&["-"], Manner::Check)
        );
        assert_eq!(
            parsed(&["a", "b", "--in-place"]),
            asked(&["a", "b"], Manner::InPlace)
        );
        assert_eq!(
            parsed(&["--in-place", "--", "--check"]),
            asked(&["--check"], Manner::InPlace)
        );
        assert_eq!(
            parsed(&["a", "--help"]),
            Ok(Request::Help(Some(Verb::Format)))
        );
    }

    #[test]
    fn wrong_words_are_told() {
        let wrong: [&[&str]; 12] = [
            &[],
            &["--check"],
            &["--in-place"],
            &["a", "b"],
            &["a", "a", "--check"],
            &["-", "-", "--check"],
            &["-", "--in-place"],
            &["a", "-", "--in-place"],
            &["a", "--check", "--in-place"],
            &["a", "--json"],
            &["a", "--output", "b"],
            &["a", "-w"],
        ];
        for words in wrong {
            assert!(parsed(words).is_err(), "{words:?}");
        }
    }
}
