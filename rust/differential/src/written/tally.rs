//! What a run of written ledgers found, counted by name.

use std::collections::{BTreeMap, BTreeSet};
use std::fmt;

use lumbrisse::Kind;

use crate::source::Source;

use super::judged::Judged;
use super::Candidate;

/// What became of the ledgers of one source.
#[derive(Clone, Copy, Debug, Default)]
struct Counts {
    ledgers: u64,
    left_out: u64,
    changed: u64,
    same: u64,
    date: u64,
    outside: u64,
    differ: u64,
}

impl Counts {
    fn columns(&self) -> [u64; 8] {
        let written = self.ledgers - self.left_out;
        [
            self.ledgers,
            self.left_out,
            written,
            self.changed,
            self.same,
            self.date,
            self.outside,
            self.differ,
        ]
    }
}

/// What stands above the columns.
const HEADS: [&str; 8] = [
    "ledgers", "left out", "written", "changed", "same", "date", "outside", "differ",
];

/// Everything that is counted.
#[derive(Debug, Default)]
pub struct Tally {
    sources: BTreeMap<Source, Counts>,
    all: Counts,
    left_out: BTreeMap<String, u64>,
    outside: BTreeMap<String, u64>,
    kinds: BTreeSet<u32>,
}

impl Tally {
    /// Counts a ledger with what was found of it.
    pub fn add(&mut self, one: &Candidate, judged: &Judged) {
        let of_source = self.sources.entry(one.made.source).or_default();
        let changed = one
            .afresh
            .text()
            .is_some_and(|text| text != one.made.ledger);
        for counts in [of_source, &mut self.all] {
            counts.ledgers += 1;
            counts.changed += u64::from(changed);
            let column = match judged {
                Judged::Same => &mut counts.same,
                Judged::Date => &mut counts.date,
                Judged::Outside(..) => &mut counts.outside,
                Judged::LeftOut(_) => &mut counts.left_out,
                Judged::Differs(_) => &mut counts.differ,
            };
            *column += 1;
        }
        match judged {
            Judged::LeftOut(reason) => *self.left_out.entry(reason.clone()).or_default() += 1,
            Judged::Outside(ledger, text) => {
                let text = match text {
                    Some(reason) => format!("its text: {reason}"),
                    None => "its text is read alike by the crate and the reader".to_owned(),
                };
                let reason = format!("{ledger}; {text}");
                *self.outside.entry(reason).or_default() += 1;
            }
            Judged::Same | Judged::Date => self.kinds.extend(one.kinds()),
            Judged::Differs(_) => {}
        }
    }

    /// How many ledgers were written, and whatever else happened to one that was not left out.
    pub fn written(&self) -> u64 {
        self.all.ledgers - self.all.left_out
    }

    /// How many ledgers differ.
    pub fn differ(&self) -> u64 {
        self.all.differ
    }

    /// The kinds of rows that no ledger had that was written and compared with the crate.
    pub fn never_written(&self) -> Vec<&'static str> {
        let kinds = Kind::ALL.iter().filter(|kind| **kind != Kind::Refused);
        kinds
            .filter(|kind| !self.kinds.contains(&kind.number()))
            .map(|kind| kind.name())
            .collect()
    }
}

impl fmt::Display for Tally {
    fn fmt(&self, f: &mut fmt::Formatter<'_>) -> fmt::Result {
        write!(f, "{:<26}", "")?;
        HEADS.iter().try_for_each(|head| write!(f, "{head:>10}"))?;
        writeln!(f)?;
        let named = self
            .sources
            .iter()
            .map(|(source, counts)| (source.name(), counts));
        for (name, counts) in named.chain([("all", &self.all)]) {
            write!(f, "{name:<26}")?;
            let mut columns = counts.columns().into_iter();
            columns.try_for_each(|count| write!(f, "{count:>10}"))?;
            writeln!(f)?;
        }
        for (heading, counted) in [
            ("left out, not written:", &self.left_out),
            (
                "written, and outside the domain of the crate (compared by the reader):",
                &self.outside,
            ),
        ] {
            writeln!(f, "\n{heading}")?;
            for (reason, count) in counted {
                writeln!(f, "{count:>10}  {reason}")?;
            }
        }
        Ok(())
    }
}
