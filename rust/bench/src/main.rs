//! Measures the reader beside the crate beancount-parser 2.6.0, in one run on the same bytes.
//!
//! ```text
//! bench --oracle DIR [--plugin FILE] LEDGER[=LIMIT]..     instructions and time on ledgers, beside the crate
//! bench --growth [--plugin FILE]                          instructions on hostile inputs of 1, 2, 4 and 8 MB
//! bench --once READER LEDGER N                            reads N times: the least time in seconds, and the answer
//! bench --edit LEDGER [--plugin FILE]                     instructions of an edit, beside recovering afresh
//! bench --once edit LEDGER PLACE N                        edits the block at a byte N times, as `--once read` reads
//! bench --once EVALUATOR TEXT N                           evaluates N times: the time of one, and the answer
//! bench --stack                                           the stack that each evaluator takes
//! ```
//!
//! READER is read, recover, read-strict or recover-strict, EVALUATOR expression, exact, stacked or stacked-exact: an
//! engine in a form.
//!
//! DIR is the oracle's folder (or the variable ORACLE), with the program `both` of the differential run. Instructions
//! are counted by `perf stat` where the machine permits it, else by valgrind's callgrind; with `--plugin`, by a
//! counting plugin of qemu. LIMIT is the most instructions for a byte that plain reading may take. The tables are in
//! Markdown. Ends with 1 where a limit is not kept: that one, half of the crate's for recovering reading, or 2.1 times
//! the instructions for twice the bytes of a hostile input.

#![deny(unsafe_code, missing_docs)]
#![deny(
    clippy::unwrap_used,
    clippy::expect_used,
    clippy::panic,
    clippy::indexing_slicing
)]

mod counter;
mod edits;
mod evaluator;
mod hostile;
mod once;
#[cfg(target_arch = "x86_64")]
mod own_stack;
mod report;
mod scratch;
#[cfg(target_arch = "x86_64")]
mod stack;

use std::io;
use std::path::{Path, PathBuf};
use std::process::ExitCode;

use edits::Edits;
use report::{Bench, Ledger};

const USAGE: &str = "usage: bench --oracle DIR [--plugin FILE] LEDGER[=LIMIT]..
       bench --growth [--plugin FILE]
       bench --edit LEDGER [--plugin FILE]
       bench --once read|recover|read-strict|recover-strict LEDGER N
       bench --once edit LEDGER PLACE N
       bench --once expression|exact|stacked|stacked-exact TEXT N
       bench --stack";

fn usage() -> io::Error {
    io::Error::other(USAGE)
}

/// A ledger's path, and behind `=` the most instructions for a byte.
fn ledger(word: &str) -> Ledger {
    match word
        .rsplit_once('=')
        .map(|(path, limit)| (path, limit.parse().ok()))
    {
        Some((path, Some(limit))) => Ledger {
            path: PathBuf::from(path),
            limit: Some(limit),
        },
        _ => Ledger {
            path: PathBuf::from(word),
            limit: None,
        },
    }
}

fn measure(words: &[String]) -> io::Result<bool> {
    let mut oracle = std::env::var_os("ORACLE").map(PathBuf::from);
    let (mut plugin, mut growth, mut ledgers) = (None, false, Vec::new());
    let mut words = words.iter();
    while let Some(word) = words.next() {
        match word.as_str() {
            "--oracle" => oracle = Some(words.next().ok_or_else(usage)?.into()),
            "--plugin" => plugin = Some(words.next().ok_or_else(usage)?.into()),
            "--growth" => growth = true,
            _ => ledgers.push(ledger(word)),
        }
    }
    let bench = Bench::new(plugin)?;
    match (growth, oracle, ledgers.as_slice()) {
        (true, _, []) => bench.growth(),
        (false, Some(oracle), [_, ..]) => bench.ledgers(&oracle, &ledgers),
        _ => Err(usage()),
    }
}

/// Measures edits of a ledger. There is no limit to keep.
fn edited(file: &str, plugin: Option<PathBuf>) -> io::Result<bool> {
    let edits = Edits::new(plugin, Path::new(file))?;
    edits.table().map(|()| true)
}

fn run() -> io::Result<bool> {
    let words: Vec<String> = std::env::args().skip(1).collect();
    match words.as_slice() {
        [once, call, given, count] if once == "--once" => {
            once::once(call, given, count).map(|()| true)
        }
        [once, call, file, place, count] if once == "--once" && call == "edit" => {
            once::edit(file, place, count).map(|()| true)
        }
        [edit, file] if edit == "--edit" => edited(file, None),
        [edit, file, plugin, given] if edit == "--edit" && plugin == "--plugin" => {
            edited(file, Some(given.into()))
        }
        #[cfg(target_arch = "x86_64")]
        [stack] if stack == "--stack" => stack::table().map(|()| true),
        _ => measure(&words),
    }
}

fn main() -> ExitCode {
    match run() {
        Ok(true) => ExitCode::SUCCESS,
        Ok(false) => ExitCode::FAILURE,
        Err(error) => {
            eprintln!("bench: {error}");
            ExitCode::from(2)
        }
    }
}

#[cfg(test)]
mod tests {
    use super::ledger;

    #[test]
    fn a_limit_stands_behind_the_path() {
        let found = ledger("a/b.beancount=58.5");
        assert_eq!(
            (found.path.to_str(), found.limit),
            (Some("a/b.beancount"), Some(58.5))
        );
        let found = ledger("a=b");
        assert_eq!((found.path.to_str(), found.limit), (Some("a=b"), None));
    }
}
