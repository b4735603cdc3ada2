//! Compares the reader with the crate that it replaces, beancount-parser 2.6.0, inside the domain of documents 01 and
//! 02; what both read in ledgers and in the same ledgers written afresh; and the reader's two engines for expressions
//! with each other and with a model.
//!
//! ```text
//! differential --oracle DIR [--count N] [--seed S] [--real FILE].. [--smallest N] [--sample FILE]
//! differential --oracle DIR --written N [--seed S] [--real FILE]..
//! differential --expressions N [--seed S]
//! ```
//!
//! DIR is the oracle's folder (or the variable ORACLE), to which `oracle/build` has added the program `both`. Ends with
//! 1 where an answer differs, and then shows the smallest ledger or expression found that does; and where a run of
//! 100,000 or more never compared a production of the grammar, never wrote a kind of row, or never met a number that an
//! expression can get.

#![deny(unsafe_code, missing_docs)]
#![deny(clippy::unwrap_used, clippy::expect_used, clippy::panic)]
#![cfg_attr(not(test), deny(clippy::indexing_slicing))]

mod arguments;
mod damage;
#[path = "../../lumbrisse/tests/edges/mod.rs"]
mod edges;
mod expressions;
mod grammar;
#[path = "../../lumbrisse/tests/model/mod.rs"]
mod model;
mod oracle;
mod production;
mod random;
#[path = "../../lumbrisse/tests/model/said.rs"]
mod said;
mod sample;
mod shown;
mod shrink;
mod source;
mod tally;
mod verdict;
mod written;

use std::collections::{BTreeMap, BTreeSet};
use std::io::{self, Write};
use std::path::{Path, PathBuf};
use std::process::ExitCode;
use std::time::Instant;

use arguments::{Arguments, Job};
use oracle::Single;
use random::Random;
use source::{Made, Source};
use tally::Tally;
use verdict::{verdict, Verdict, Where};

/// A run of so many ledgers must have compared every production.
const ENOUGH: u64 = 100_000;

/// A sample's bytes at the most.
const SAMPLE_BYTES: usize = 300_000;

/// The bytes that a case of the sample is expected to take.
const CASE_BYTES: usize = 1_000;

/// So many ledgers that differ are kept to be made smaller.
const KEPT: usize = 5;

/// What a run leaves behind.
struct Found {
    tally: Tally,
    differing: Vec<Vec<u8>>,
    known: BTreeMap<String, Vec<Vec<u8>>>,
    sample: Vec<u8>,
    cases: usize,
    /// Whether the next ledger that both read goes into the sample.
    due: bool,
}

/// Has every ledger answered by the oracle and by the reader, and compares.
fn compare(arguments: &Arguments, real: &[Vec<u8>]) -> io::Result<Found> {
    let mut found = Found {
        tally: Tally::new(),
        differing: Vec::new(),
        known: BTreeMap::new(),
        sample: Vec::new(),
        cases: 0,
        due: false,
    };
    let count = arguments.count;
    let every = count / (SAMPLE_BYTES / CASE_BYTES) as u64 + 1;
    let ledgers = source::all(arguments.seed, real.to_vec()).take(real.len() + count as usize);
    let numbered = (0u64..).zip(ledgers);
    oracle::answered(
        &arguments.oracle,
        numbered,
        |(_, one)| vec![&one.ledger],
        |(number, one), answers| {
            for answer in answers {
                let verdict = verdict(&one.ledger, answer);
                found.tally.add(one, &verdict);
                found.due |= arguments.sample.is_some() && number % every == 0;
                keep(&mut found, arguments, one, &verdict);
            }
        },
    )?;
    Ok(found)
}

/// Keeps ledgers that differ, some of each known reason, and the sample. A sampled ledger is one that both read.
fn keep(found: &mut Found, arguments: &Arguments, one: &Made, verdict: &Verdict) {
    match verdict {
        Verdict::Differs(_) if found.differing.len() < KEPT => {
            found.differing.push(one.ledger.clone());
        }
        Verdict::Same if found.due && one.source != Source::Real => {
            let mut random = Random::of(arguments.seed, found.cases as u64);
            let case = sample::case(&one.ledger, &mut random).unwrap_or_default();
            if found.sample.len() + case.len() <= SAMPLE_BYTES {
                found.sample.extend(case);
                found.cases += 1;
                found.due = false;
            }
        }
        _ => {
            let list = found.known.entry(known_name(verdict)).or_default();
            if list.len() < arguments.smallest {
                list.push(one.ledger.clone());
            }
        }
    }
}

fn known_name(verdict: &Verdict) -> String {
    match verdict {
        Verdict::Same => "the same".to_owned(),
        Verdict::BothRefuse => "both refuse".to_owned(),
        Verdict::Date(Where::Line) => "a date that is none, at the start of a line".to_owned(),
        Verdict::Date(Where::Cost) => "a date that is none, in a cost".to_owned(),
        Verdict::Outside(reason) => reason.clone(),
        Verdict::Differs(_) => "differs".to_owned(),
    }
}

/// The smallest ledger found whose verdict has the same name.
fn smallest(oracle: &mut Single, ledger: &[u8], name: &str) -> Vec<u8> {
    shrink::shrunk(ledger, |tried| {
        let answer = oracle.answer(tried);
        answer.is_ok_and(|answer| known_name(&verdict(tried, &answer)) == name)
    })
}

fn report_differences(folder: &Path, found: &Found, out: &mut impl Write) -> io::Result<()> {
    let mut oracle = Single::start(folder)?;
    for ledger in &found.differing {
        let small = smallest(&mut oracle, ledger, "differs");
        let answer = oracle.answer(&small)?;
        writeln!(out, "differs: \"{}\"", small.escape_ascii())?;
        writeln!(out, "  {:?}", verdict(&small, &answer))?;
        writeln!(out, "  found as: \"{}\"", ledger.escape_ascii())?;
    }
    oracle.stop()
}

fn report_smallest(folder: &Path, found: &Found, out: &mut impl Write) -> io::Result<()> {
    let mut oracle = Single::start(folder)?;
    for (name, ledgers) in &found.known {
        let small: BTreeSet<_> = ledgers
            .iter()
            .map(|ledger| smallest(&mut oracle, ledger, name))
            .collect();
        for ledger in small {
            writeln!(out, "{name}: \"{}\"", ledger.escape_ascii())?;
        }
    }
    oracle.stop()
}

/// The real ledgers of a run.
fn real(files: &[PathBuf]) -> io::Result<Vec<Vec<u8>>> {
    files.iter().map(std::fs::read).collect()
}

fn run(arguments: &Arguments) -> io::Result<bool> {
    let real = real(&arguments.real)?;
    let start = Instant::now();
    let found = compare(arguments, &real)?;
    let seconds = start.elapsed().as_secs_f64();
    let mut out = io::stdout().lock();
    write!(out, "{}", found.tally)?;
    writeln!(
        out,
        "\n{} ledgers made with seed {}, {} real ones, in {seconds:.0} seconds",
        arguments.count,
        arguments.seed,
        real.len()
    )?;
    if let Some(file) = &arguments.sample {
        std::fs::write(file, &found.sample)?;
        writeln!(
            out,
            "{} cases, {} bytes: {}",
            found.cases,
            found.sample.len(),
            file.display()
        )?;
    }
    if arguments.smallest > 0 {
        report_smallest(&arguments.oracle, &found, &mut out)?;
    }
    report_differences(&arguments.oracle, &found, &mut out)?;
    let missing = found.tally.not_reached();
    let reached = missing.is_empty() || arguments.count < ENOUGH;
    if !reached {
        writeln!(out, "never compared: {}", missing.join("; "))?;
    }
    writeln!(out, "{} differ", found.tally.differs())?;
    Ok(reached && found.tally.differs() == 0)
}

fn main() -> ExitCode {
    let passed = match arguments::given() {
        Ok(Job::Ledgers(arguments)) => run(&arguments),
        Ok(Job::Written(arguments)) => {
            real(&arguments.real).and_then(|real| written::run(&arguments, &real))
        }
        Ok(Job::Expressions { count, seed }) => expressions::run(count, seed),
        Err(message) => Err(io::Error::other(message)),
    };
    match passed {
        Ok(true) => ExitCode::SUCCESS,
        Ok(false) => ExitCode::FAILURE,
        Err(error) => {
            eprintln!("differential: {error}");
            ExitCode::from(2)
        }
    }
}
