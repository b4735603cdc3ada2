//! Ledgers beside the same ledgers written afresh: what the reader and the crate read in both must be the same, and
//! written again they must not change.

mod afresh;
mod judged;
mod tally;

use std::io::{self, Write};
use std::path::Path;
use std::time::Instant;

use crate::arguments::Arguments;
use crate::oracle::{self, Single};
use crate::shrink;
use crate::source::{self, Made};
use afresh::Afresh;
use judged::{judged, Judged};
use tally::Tally;

/// A run of so many ledgers must have written every kind of row.
const ENOUGH: u64 = 100_000;

/// So many ledgers that differ are made smaller and shown.
const KEPT: usize = 5;

/// A ledger that is made, and what the writer makes of it.
pub struct Candidate {
    made: Made,
    afresh: Afresh,
}

impl Candidate {
    fn of(made: Made) -> Candidate {
        let afresh = Afresh::of(&made.ledger);
        Candidate { made, afresh }
    }

    /// What the oracle is asked: the ledger and its text, where it has one.
    fn ledgers(&self) -> Vec<&[u8]> {
        let text = self.afresh.text();
        text.map_or(Vec::new(), |text| vec![&self.made.ledger, text])
    }

    /// The kinds of its rows, where it is written.
    fn kinds(&self) -> impl Iterator<Item = u32> + '_ {
        let said = match &self.afresh {
            Afresh::Text(_, said) => said.as_slice(),
            _ => &[],
        };
        said.iter().map(|one| one.kind.number())
    }
}

/// The ledgers of a run, up to so many of which something is promised.
fn candidates(
    arguments: &Arguments,
    real: &[Vec<u8>],
) -> impl Iterator<Item = Candidate> + Send + 'static {
    let mut left = arguments.count;
    source::all(arguments.seed, real.to_vec()).map_while(move |made| {
        left.checked_sub(1)?;
        let one = Candidate::of(made);
        left -= u64::from(!matches!(one.afresh, Afresh::LeftOut(_)));
        Some(one)
    })
}

/// Writes so many ledgers and compares, and prints what was found. True where nothing differs and every kind of row was
/// written.
pub fn run(arguments: &Arguments, real: &[Vec<u8>]) -> io::Result<bool> {
    let start = Instant::now();
    let (mut tally, mut differing) = (Tally::default(), Vec::new());
    oracle::answered(
        &arguments.oracle,
        candidates(arguments, real),
        Candidate::ledgers,
        |one, answers| {
            let judged = judged(&one.made.ledger, &one.afresh, answers);
            tally.add(one, &judged);
            if matches!(judged, Judged::Differs(_)) && differing.len() < KEPT {
                differing.push(one.made.ledger.clone());
            }
        },
    )?;
    let seconds = start.elapsed().as_secs_f64();
    let mut out = io::stdout().lock();
    write!(out, "{tally}")?;
    let seed = arguments.seed;
    writeln!(
        out,
        "\nseed {seed}, {} real ledgers, in {seconds:.0} seconds",
        real.len()
    )?;
    report(&arguments.oracle, &differing, &mut out)?;
    let missing = tally.never_written();
    let complete = missing.is_empty() || arguments.count < ENOUGH;
    if !complete {
        writeln!(out, "never written: {}", missing.join("; "))?;
    }
    writeln!(
        out,
        "{} written, {} differ",
        tally.written(),
        tally.differ()
    )?;
    Ok(complete && tally.differ() == 0)
}

/// Shows what is left of each ledger where it is as small as it can be.
fn report(folder: &Path, differing: &[Vec<u8>], out: &mut impl Write) -> io::Result<()> {
    let mut oracle = Single::start(folder)?;
    for ledger in differing {
        let small = shrink::shrunk(ledger, |tried| {
            matches!(again(&mut oracle, tried), Ok(Judged::Differs(_)))
        });
        writeln!(out, "differs: \"{}\"", small.escape_ascii())?;
        writeln!(out, "  {:?}", again(&mut oracle, &small)?)?;
        writeln!(out, "  found as: \"{}\"", ledger.escape_ascii())?;
    }
    oracle.stop()
}

/// What is found of one ledger by itself.
fn again(oracle: &mut Single, ledger: &[u8]) -> io::Result<Judged> {
    let afresh = Afresh::of(ledger);
    let mut answers = Vec::new();
    if let Some(text) = afresh.text() {
        answers.push(oracle.answer(ledger)?);
        answers.push(oracle.answer(text)?);
    }
    Ok(judged(ledger, &afresh, &answers))
}
