//! What a run found, counted by name.

use std::collections::BTreeMap;
use std::fmt;

use crate::production::{self, Production, Taken};
use crate::source::{Made, Source};
use crate::verdict::Verdict;

/// The verdicts on the ledgers of one source.
#[derive(Clone, Copy, Debug, Default)]
struct Counts {
    ledgers: u64,
    same: u64,
    both_refuse: u64,
    date: u64,
    outside: u64,
    differs: u64,
}

/// Everything that is counted.
#[derive(Debug, Default)]
pub struct Tally {
    sources: BTreeMap<Source, Counts>,
    outside: BTreeMap<String, u64>,
    bytes: u64,
    compared_bytes: u64,
    generated: Vec<u64>,
    compared: Vec<u64>,
}

impl Tally {
    /// A tally of nothing.
    pub fn new() -> Tally {
        let none = vec![0; production::ALL.len()];
        Tally {
            generated: none.clone(),
            compared: none,
            ..Tally::default()
        }
    }

    /// Counts a ledger with its verdict.
    pub fn add(&mut self, made: &Made, verdict: &Verdict) {
        let counts = self.sources.entry(made.source).or_default();
        counts.ledgers += 1;
        self.bytes += made.ledger.len() as u64;
        let column = match verdict {
            Verdict::Same => &mut counts.same,
            Verdict::BothRefuse => &mut counts.both_refuse,
            Verdict::Date(_) => &mut counts.date,
            Verdict::Differs(_) => &mut counts.differs,
            Verdict::Outside(reason) => {
                *self.outside.entry(reason.clone()).or_default() += 1;
                &mut counts.outside
            }
        };
        *column += 1;
        let agreed = matches!(
            verdict,
            Verdict::Same | Verdict::BothRefuse | Verdict::Date(_)
        );
        if agreed {
            self.compared_bytes += made.ledger.len() as u64;
        }
        self.add_productions(made.taken, agreed);
    }

    fn add_productions(&mut self, taken: Taken, agreed: bool) {
        let columns = self.generated.iter_mut().zip(&mut self.compared);
        for ((production, _), (generated, compared)) in production::ALL.iter().zip(columns) {
            if taken.has(*production) {
                *generated += 1;
                *compared += u64::from(agreed);
            }
        }
    }

    /// How many ledgers differ.
    pub fn differs(&self) -> u64 {
        self.sources.values().map(|counts| counts.differs).sum()
    }

    /// The productions that no compared ledger took, but for the one that lies outside the domain.
    pub fn not_reached(&self) -> Vec<&'static str> {
        let counted = production::ALL.iter().zip(&self.compared);
        counted
            .filter(|((production, _), count)| **count == 0 && *production != Production::Long)
            .map(|((_, words), _)| *words)
            .collect()
    }

    fn sum(&self, of: impl Fn(&Counts) -> u64) -> u64 {
        self.sources.values().map(of).sum()
    }
}

impl fmt::Display for Tally {
    fn fmt(&self, f: &mut fmt::Formatter<'_>) -> fmt::Result {
        let heads = [
            "ledgers",
            "same",
            "both refuse",
            "date",
            "outside",
            "differ",
        ];
        write!(f, "{:<26}", "")?;
        heads.iter().try_for_each(|head| write!(f, "{head:>12}"))?;
        writeln!(f)?;
        let row = |f: &mut fmt::Formatter<'_>, name: &str, c: &Counts| {
            write!(f, "{name:<26}")?;
            let columns = [
                c.ledgers,
                c.same,
                c.both_refuse,
                c.date,
                c.outside,
                c.differs,
            ];
            columns
                .iter()
                .try_for_each(|count| write!(f, "{count:>12}"))?;
            writeln!(f)
        };
        for (source, counts) in &self.sources {
            row(f, source.name(), counts)?;
        }
        let all = Counts {
            ledgers: self.sum(|c| c.ledgers),
            same: self.sum(|c| c.same),
            both_refuse: self.sum(|c| c.both_refuse),
            date: self.sum(|c| c.date),
            outside: self.sum(|c| c.outside),
            differs: self.sum(|c| c.differs),
        };
        row(f, "all", &all)?;
        writeln!(
            f,
            "\n{} bytes, {} of them in ledgers that were compared",
            self.bytes, self.compared_bytes
        )?;
        writeln!(f, "\noutside the domain:")?;
        for (reason, count) in &self.outside {
            writeln!(f, "{count:>10}  {reason}")?;
        }
        writeln!(
            f,
            "\nledgers by the grammar that took a production: made, compared and the same"
        )?;
        let columns = self.generated.iter().zip(&self.compared);
        for ((_, words), (generated, compared)) in production::ALL.iter().zip(columns) {
            writeln!(f, "{generated:>10} {compared:>10}  {words}")?;
        }
        Ok(())
    }
}
