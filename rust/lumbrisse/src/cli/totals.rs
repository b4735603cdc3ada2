//! Monthly totals of one ledger or of several.

use std::io::{self, BufWriter, Write};

use lumbrisse::{Kind, Refusal, Rows, Total, Totals};

use super::args::Form;
use super::asked::{Asked, Month, Shape};
use super::figures::{Figures, Held};
use super::paint::Paint;
use super::source::{self, Source};
use super::{complain, csv, ended, human, json, refused, remark, shown, statement, tell, Status};

/// A file's month.
pub struct Listed<'a> {
    pub source: &'a Source,
    pub month: Month,
    pub totals: &'a [Total<'a>],
    pub figures: &'a Figures,
    /// The account that is held against the others, if one is.
    pub meter: Option<Meter<'a>>,
}

impl Listed<'_> {
    /// What is said where an account was asked for that has nothing to hold against the others.
    pub fn no_meter(&self) -> Option<String> {
        let meter = self.meter.as_ref().filter(|meter| meter.held.is_empty())?;
        let account = shown::text(meter.account);
        let month = self.month;
        Some(format!(
            "{account} has no posting with an amount in {month}"
        ))
    }
}

/// An account, and what it comes to beside the others, for each currency that it has.
pub struct Meter<'a> {
    pub account: &'a [u8],
    pub held: Vec<Held>,
    /// How many postings to it state no amount, and so are not in its sums.
    pub unstated: u64,
}

/// How many files were added up, and how many were not.
#[derive(Clone, Copy, Default)]
pub struct Files {
    pub listed: usize,
    pub left_out: usize,
}

/// Writes the totals of each file, and of all of them where there are several.
pub fn totals(asked: &Asked) -> Status {
    let mut out = BufWriter::new(io::stdout().lock());
    let mut status = Status::Accepted;
    let written = all(&mut out, asked, &mut status).and_then(|()| out.flush());
    ended(written, status)
}

fn all(out: &mut impl Write, asked: &Asked, status: &mut Status) -> io::Result<()> {
    let (mut all, mut files) = (Figures::default(), Files::default());
    match asked.shape {
        Shape::Person => {}
        Shape::Csv => csv::heading(out, asked.meter.is_some())?,
        Shape::Json => json::totals_start(out, asked.month)?,
    }
    for (number, input) in asked.files.iter().enumerate() {
        if asked.shape == Shape::Json {
            json::next_line(out, number)?;
        }
        let found = match source::text(input) {
            Ok(source) => file(out, asked, &source, files.listed)?,
            Err(message) => {
                if asked.shape == Shape::Json {
                    json::missing_file(out, input, &message)?;
                }
                complain(&message);
                Err(Status::Trouble)
            }
        };
        match found {
            Ok(figures) => {
                all.join(&figures);
                files.listed = files.listed.saturating_add(1);
            }
            Err(how) => {
                *status = how.max(*status);
                files.left_out = files.left_out.saturating_add(1);
            }
        }
    }
    match asked.shape {
        Shape::Person if asked.files.len() > 1 => {
            statement::together(out, Paint::stdout(), asked.month, &all, files)
        }
        Shape::Person | Shape::Csv => Ok(()),
        Shape::Json => json::totals_end(out, &all, files),
    }
}

/// Writes the totals of one file, and gives its figures, or how the run ends where it has none.
fn file(
    out: &mut impl Write,
    asked: &Asked,
    source: &Source,
    before: usize,
) -> io::Result<Result<Figures, Status>> {
    let Month { year, month } = asked.month;
    let ledger = &source.bytes;
    let items = match lumbrisse::totals_to_vec(ledger, year, month) {
        Ok(items) => items,
        Err(refusal) => {
            out.flush()?;
            return not_listed(out, asked, source, refusal).map(Err);
        }
    };
    let totals: Vec<Total> = Totals::new(ledger, &items).collect();
    let figures = Figures::of(&totals);
    let meter = asked.meter.as_ref().map(|account| {
        let account = account.as_encoded_bytes();
        let unstated = totals
            .iter()
            .filter(|total| total.account == account && total.currency.is_none())
            .map(|total| u64::from(total.postings));
        Meter {
            account,
            held: Held::of(account, &totals, &figures),
            unstated: unstated.sum(),
        }
    });
    let listed = Listed {
        source,
        month: asked.month,
        totals: &totals,
        figures: &figures,
        meter,
    };
    // What was read without refusal has rows: where there is no memory for them, nothing is said beside the totals.
    let table = lumbrisse::read_to_vec(ledger).unwrap_or_default();
    match asked.shape {
        Shape::Person => {
            if before > 0 {
                writeln!(out)?;
            }
            statement::file(out, Paint::stdout(), &listed, &table)?;
        }
        Shape::Csv => csv::file(out, &listed)?,
        Shape::Json => json::totals(out, &listed)?,
    }
    out.flush()?;
    if asked.shape == Shape::Csv {
        tell_no_meter(&listed);
    }
    remark::lenient(source, &table, "read");
    remark::folded(source, &table);
    Ok(Ok(figures))
}

/// Says that there is nothing to hold against the others: a list of fields has no place for that.
fn tell_no_meter(listed: &Listed) {
    if let Some(text) = listed.no_meter() {
        tell(&listed.source.name, &text);
    }
}

/// A file without totals, named with its refusal: for a program on standard output, for a person on standard error.
fn not_listed(
    out: &mut impl Write,
    asked: &Asked,
    source: &Source,
    refusal: Refusal,
) -> io::Result<Status> {
    if asked.shape == Shape::Json {
        json::refused_file(out, source, refusal)?;
        return Ok(Status::Refused);
    }
    let (written, status) = refused(out, Form::Person, source, refusal);
    if let Some(note) = sum_note(source, asked.month, refusal) {
        let _ = human::note(&mut io::stderr(), &note);
    }
    written.map(|()| status)
}

/// What else is said of refusal 6 where it is a sum that is too large, and not a value of the ledger.
fn sum_note(source: &Source, month: Month, refusal: Refusal) -> Option<String> {
    let ledger = &source.bytes;
    let table = match refusal.number {
        6 => lumbrisse::read_to_vec(ledger).ok()?,
        _ => return None,
    };
    let is_it =
        |row: &lumbrisse::Row| row.kind == Kind::Posting && row.start as usize == refusal.place;
    let account = Rows::new(&table).find(is_it)?.text(ledger);
    let account = shown::text(account);
    Some(format!(
        "no value here is so large, but the sum of {account} in {month} is"
    ))
}
