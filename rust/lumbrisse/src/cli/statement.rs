//! Monthly totals as a table, for a person.

use std::collections::BTreeMap;
use std::io::{self, Write};

use lumbrisse::Total;

use super::asked::Month;
use super::figures::{Figures, Flow, Held, Part, Signs};
use super::paint::Paint;
use super::shown;
use super::sum::Sum;
use super::summary::Summary;
use super::totals::{Files, Listed, Meter};

/// The headings of the tables.
const ACCOUNT: &str = "account";
const FIRST_PART: &str = "by first part";
const ALL_ACCOUNTS: &str = "all accounts";
const FLOWS: [&str; 3] = ["above zero", "below zero", "sum"];

/// What is written where there is no posting in a month, and where the ledger's months are.
fn nothing(table: &[u8], month: Month) -> String {
    match Summary::of(table).dates {
        None => format!("no postings in {month}: no entry of it has a date"),
        Some((first, last)) => {
            format!("no postings in {month}; its entries are dated {first} to {last}")
        }
    }
}

/// A file's month: its accounts, what they come to, and the postings that are in no sum.
pub fn file(out: &mut impl Write, paint: Paint, listed: &Listed, table: &[u8]) -> io::Result<()> {
    let Listed { month, figures, .. } = listed;
    let name = paint.bold(&listed.source.name);
    if listed.totals.is_empty() {
        writeln!(out, "{name}: {}", nothing(table, *month))?;
        return meter(out, paint, listed);
    }
    writeln!(out, "{name}: {month}, {}", postings(figures.postings()))?;
    let accounts: Vec<Line> = listed.totals.iter().filter_map(Line::of_account).collect();
    if !accounts.is_empty() {
        let layout = Layout::of(accounts, figures);
        layout.lines(out, paint, ACCOUNT, &layout.accounts)?;
        // Where no two accounts share a first part this would be the same table again.
        if layout.parts.len() < layout.accounts.len() {
            layout.lines(out, paint, FIRST_PART, &layout.parts)?;
        }
        layout.flows(out, paint, figures)?;
    }
    unstated(out, listed.totals, figures)?;
    meter(out, paint, listed)
}

/// All files together.
pub fn together(
    out: &mut impl Write,
    paint: Paint,
    month: Month,
    figures: &Figures,
    files: Files,
) -> io::Result<()> {
    let Files { listed, left_out } = files;
    let count = listed.saturating_add(left_out);
    if listed > 0 {
        writeln!(out)?;
    }
    let name = match left_out {
        0 => paint.bold(&format!("all {count} files")),
        _ => paint.bold(&format!("{listed} of {count} files")),
    };
    match figures.postings() {
        0 => writeln!(out, "{name}: no postings in {month}")?,
        found => writeln!(out, "{name}: {month}, {}", postings(found))?,
    }
    if !figures.currencies.is_empty() {
        let layout = Layout::of(Vec::new(), figures);
        layout.lines(out, paint, FIRST_PART, &layout.parts)?;
        layout.flows(out, paint, figures)?;
    }
    match figures.unstated {
        0 => {}
        _ => writeln!(out, "\n  {}", unstated_count(figures.unstated))?,
    }
    match left_out {
        0 => Ok(()),
        1 => writeln!(
            out,
            "\n  {}",
            paint.red("1 file is left out: it is in no sum")
        ),
        _ => {
            let text = format!("{left_out} files are left out: they are in no sum");
            writeln!(out, "\n  {}", paint.red(&text))
        }
    }
}

fn postings(count: u64) -> String {
    match count {
        1 => "1 posting".to_string(),
        _ => format!("{count} postings"),
    }
}

/// How many digits the sums of each currency have behind the point: as many as the one that has most.
#[derive(Default)]
struct Digits(BTreeMap<Vec<u8>, usize>);

impl Digits {
    fn see(&mut self, currency: &[u8], sum: Sum) {
        let most = self.0.entry(currency.to_vec()).or_default();
        *most = sum.decimals().max(*most);
    }

    /// A sum with the digits of its currency, and blanks in place of those that another currency has more, so that all
    /// points stand below each other.
    fn shown(&self, currency: &[u8], sum: Sum) -> String {
        let most = self.0.values().copied().max().unwrap_or(0);
        let own = self.0.get(currency).copied().unwrap_or(0);
        let text = sum.shown(own);
        let missing = match (own, most) {
            (0, 0) => 0,
            // The point too.
            (0, _) => most.saturating_add(1),
            _ => most.saturating_sub(own),
        };
        format!("{text}{:missing$}", "")
    }
}

/// A line of a table: an account or part of one, what it comes to, and of how many postings.
struct Line {
    name: String,
    currency: Vec<u8>,
    sum: Sum,
    postings: u64,
}

impl Line {
    fn of_account(total: &Total) -> Option<Line> {
        Some(Line {
            name: shown::text(total.account),
            currency: total.currency?.to_vec(),
            sum: total.sum.into(),
            postings: total.postings.into(),
        })
    }

    fn of_part(((part, currency), found): (&(Vec<u8>, Vec<u8>), &Part)) -> Line {
        Line {
            name: shown::text(part),
            currency: currency.clone(),
            sum: found.sum,
            postings: found.postings,
        }
    }
}

fn width<'a>(texts: impl Iterator<Item = &'a str>) -> usize {
    texts.map(|text| text.chars().count()).max().unwrap_or(0)
}

/// The tables of a file, or of all of them, and the widths that they share.
struct Layout {
    accounts: Vec<Line>,
    parts: Vec<Line>,
    digits: Digits,
    /// The width of the names, of the sums and of the currencies.
    names: usize,
    sums: usize,
    currencies: usize,
}

impl Layout {
    fn of(accounts: Vec<Line>, figures: &Figures) -> Layout {
        let parts: Vec<Line> = figures.parts.iter().map(Line::of_part).collect();
        let mut digits = Digits::default();
        for line in accounts.iter().chain(&parts) {
            digits.see(&line.currency, line.sum);
        }
        for (currency, flow) in &figures.currencies {
            for sum in [flow.above, flow.below, flow.sum] {
                digits.see(currency, sum);
            }
        }
        let lines = || accounts.iter().chain(&parts);
        let shown: Vec<String> = lines()
            .map(|line| digits.shown(&line.currency, line.sum))
            .collect();
        let currencies: Vec<String> = figures
            .currencies
            .keys()
            .map(|key| shown::text(key))
            .collect();
        let names = lines().map(|line| line.name.as_str());
        Layout {
            names: width(names.chain([ACCOUNT, FIRST_PART, ALL_ACCOUNTS])),
            sums: width(shown.iter().map(String::as_str).chain(FLOWS)),
            currencies: width(currencies.iter().map(String::as_str)),
            accounts,
            parts,
            digits,
        }
    }

    /// Lines with their sums, below a heading.
    fn lines(
        &self,
        out: &mut impl Write,
        paint: Paint,
        heading: &str,
        lines: &[Line],
    ) -> io::Result<()> {
        let (names, sums, currencies) = (self.names, self.sums, self.currencies);
        let title = format!(
            "{heading:<names$}  {:>sums$} {:<currencies$}  postings",
            "sum", ""
        );
        writeln!(out, "\n  {}", paint.bold(&title))?;
        for line in lines {
            let sum = self.digits.shown(&line.currency, line.sum);
            let currency = shown::text(&line.currency);
            let (name, postings) = (&line.name, line.postings);
            writeln!(
                out,
                "  {name:<names$}  {sum:>sums$} {currency:<currencies$}  {postings:>8}"
            )?;
        }
        Ok(())
    }

    /// What all accounts come to: those above zero, those below, and together.
    fn flows(&self, out: &mut impl Write, paint: Paint, figures: &Figures) -> io::Result<()> {
        let row = |(currency, flow): (&Vec<u8>, &Flow)| Row {
            name: shown::text(currency),
            sums: [flow.above, flow.below, flow.sum].map(|sum| self.digits.shown(currency, sum)),
            words: String::new(),
        };
        let rows: Vec<Row> = figures.currencies.iter().map(row).collect();
        let [above, below, sum] = FLOWS;
        columns(
            out,
            paint,
            [ALL_ACCOUNTS, above, below, sum],
            self.names,
            &rows,
        )
    }
}

/// Three sums of a currency, and words behind them.
struct Row {
    name: String,
    sums: [String; 3],
    words: String,
}

/// Rows of sums with a heading over each column; names have a width at the least.
fn columns(
    out: &mut impl Write,
    paint: Paint,
    headings: [&str; 4],
    least: usize,
    rows: &[Row],
) -> io::Result<()> {
    let [heading, sums @ ..] = headings;
    let names = width(rows.iter().map(|row| row.name.as_str()).chain([heading])).max(least);
    let room = rows
        .iter()
        .flat_map(|row| row.sums.iter().map(String::as_str));
    let room = width(room.chain(sums));
    let mut title = format!("{heading:<names$}");
    for heading in sums {
        title.push_str(&format!("  {heading:>room$}"));
    }
    writeln!(out, "\n  {}", paint.bold(&title))?;
    for Row { name, sums, words } in rows {
        let mut line = format!("{name:<names$}");
        for sum in sums {
            line.push_str(&format!("  {sum:>room$}"));
        }
        line.push_str(&format!("  {words}"));
        writeln!(out, "  {}", line.trim_end())?;
    }
    Ok(())
}

fn unstated_count(count: u64) -> String {
    match count {
        1 => "1 posting states no amount, and is in no sum".to_string(),
        _ => format!("{count} postings state no amount, and are in no sum"),
    }
}

/// The accounts with postings that state no amount.
fn unstated(out: &mut impl Write, totals: &[Total], figures: &Figures) -> io::Result<()> {
    let named: Vec<String> = totals
        .iter()
        .filter(|total| total.currency.is_none())
        .map(|total| match total.postings {
            1 => shown::text(total.account),
            count => format!("{} ({count})", shown::text(total.account)),
        })
        .collect();
    match named.is_empty() {
        true => Ok(()),
        false => writeln!(
            out,
            "\n  {}: {}",
            unstated_count(figures.unstated),
            named.join(", ")
        ),
    }
}

/// The account that was asked for, beside all others.
fn meter(out: &mut impl Write, paint: Paint, listed: &Listed) -> io::Result<()> {
    let Some(Meter {
        account,
        held,
        unstated,
    }) = &listed.meter
    else {
        return Ok(());
    };
    if let Some(text) = listed.no_meter() {
        return writeln!(out, "\n  {}", paint.red(&text));
    }
    let account = shown::text(account);
    let mut digits = Digits::default();
    for held in held {
        for sum in held_sums(held) {
            digits.see(&held.currency, sum);
        }
    }
    let row = |held: &Held| Row {
        name: shown::text(&held.currency),
        sums: held_sums(held).map(|sum| digits.shown(&held.currency, sum)),
        words: words(held),
    };
    let rows: Vec<Row> = held.iter().map(row).collect();
    let headings = [&account[..], "this account", "all others", "difference"];
    columns(out, paint, headings, 0, &rows)?;
    match (unstated, listed.figures.unstated) {
        (0, 0) => Ok(()),
        (0, _) => writeln!(out, "  (postings that state no amount are on neither side)"),
        (1, _) => writeln!(
            out,
            "  (1 posting to this account states no amount: a difference may be its)"
        ),
        _ => writeln!(
            out,
            "  ({unstated} postings to this account state no amount: a difference may be theirs)"
        ),
    }
}

fn held_sums(held: &Held) -> [Sum; 3] {
    [held.meter, held.others, held.difference()]
}

/// What a person sees first in the sums of an account and of all others.
fn words(held: &Held) -> String {
    let difference = held.difference();
    let found = match difference.0 {
        0 => "equal".to_string(),
        1.. => format!("this account is larger by {difference}"),
        _ => format!("the others are larger by {}", difference.size()),
    };
    match held.signs() {
        None => found,
        Some(Signs::Opposite) => format!("{found}; signs opposite"),
        Some(Signs::Same) => format!("{found}; signs the same"),
    }
}
