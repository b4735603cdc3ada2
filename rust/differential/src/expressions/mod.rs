//! Made-up expressions, answered by both engines and by the model in both forms, and compared.

mod answers;
mod maker;
mod source;
mod tally;

use std::collections::BTreeSet;
use std::io::{self, Write};
use std::time::Instant;

use crate::shrink;
use answers::InBothForms;
use tally::Tally;

/// A run of so many texts must have met every number.
const ENOUGH: u64 = 100_000;

/// So many texts that differ are made smaller and shown.
const KEPT: usize = 5;

/// Makes and compares so many texts, and prints what was found. True where nothing differs and every number was met.
pub fn run(count: u64, seed: u64) -> io::Result<bool> {
    let start = Instant::now();
    let mut tally = Tally::default();
    let mut differing = Vec::new();
    for index in 0..count {
        let text = source::made(seed, index);
        let answers = InBothForms::to(&text);
        tally.add(&text, &answers);
        if answers.differ() && differing.len() < KEPT {
            differing.push(text);
        }
    }
    let seconds = start.elapsed().as_secs_f64();
    let mut out = io::stdout().lock();
    write!(out, "{tally}")?;
    writeln!(
        out,
        "\n{count} expressions made with seed {seed}, in {seconds:.0} seconds"
    )?;
    report(&differing, &mut out)?;
    let missing = tally.never_met();
    let met = missing.is_empty() || count < ENOUGH;
    if !met {
        writeln!(out, "never met: {}", missing.join("; "))?;
    }
    writeln!(out, "{} differ", tally.differ())?;
    Ok(met && tally.differ() == 0)
}

/// Shows what is left of each text where it is as small as it can be, the smallest first.
fn report(differing: &[Vec<u8>], out: &mut impl Write) -> io::Result<()> {
    let still = |tried: &[u8]| InBothForms::to(tried).differ();
    let small: BTreeSet<(usize, Vec<u8>)> = differing
        .iter()
        .map(|text| shrink::shrunk(text, still))
        .map(|text| (text.len(), text))
        .collect();
    for (_, text) in &small {
        writeln!(out, "differs: \"{}\"", text.escape_ascii())?;
        write!(out, "{}", InBothForms::to(text))?;
    }
    Ok(())
}
