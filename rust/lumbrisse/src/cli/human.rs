//! Answers for a person.

use std::io::{self, Write};

use lumbrisse::{Evaluated, Kind, Millionths, Refusal, Row, Short};

use super::fraction::Fraction;
use super::lost::Lost;
use super::paint::Paint;
use super::place::{self, Known, Place};
use super::source::Source;
use super::summary::{refused_blocks, Summary};
use super::{decimal, exact, hint};

/// A ledger that plain reading accepted.
pub fn accepted(
    out: &mut impl Write,
    paint: Paint,
    source: &Source,
    table: &[u8],
) -> io::Result<()> {
    let summary = Summary::of(table);
    let name = paint.bold(&source.name);
    let verdict = paint.green("accepted");
    writeln!(out, "{name}: {verdict}, {}", entries(&summary))?;
    counts(out, &summary)
}

/// A ledger that recovering reading went through: each refused block, then what was kept.
pub fn recovered(
    out: &mut impl Write,
    paint: Paint,
    source: &Source,
    table: &[u8],
) -> io::Result<()> {
    let mut blocks: usize = 0;
    for (row, refusal) in refused_blocks(table) {
        blocks = blocks.saturating_add(1);
        refused(out, paint, source, Known::of(&row), refusal)?;
        let first = row.line as usize;
        let last = place::last_line_of(row.text(&source.bytes), first);
        writeln!(out, "  refused block: {}\n", lines(first, last))?;
    }
    let summary = Summary::of(table);
    let name = paint.bold(&source.name);
    let verdict = match blocks {
        0 => paint.green("nothing refused"),
        _ => paint.red(&refused_count(blocks)),
    };
    writeln!(out, "{name}: {verdict}, kept {}", entries(&summary))?;
    counts(out, &summary)
}

/// A refusal: where, why, and the line with a mark under the place.
pub fn refused(
    out: &mut impl Write,
    paint: Paint,
    source: &Source,
    known: Known,
    refusal: Refusal,
) -> io::Result<()> {
    let at = place::of(&source.bytes, known, refusal.place);
    let detail = detail(source, refusal);
    heading(out, paint, source, &at, refusal, &detail)?;
    if refusal.has_place() {
        marked(out, paint, source, &at, refusal.place)?;
    }
    for hint in hint::of(&source.bytes, known, refusal) {
        note(out, &hint)?;
    }
    Ok(())
}

/// A row whose text is too long for a packet: the refusal has no place, the row has.
pub fn too_long(
    out: &mut impl Write,
    paint: Paint,
    source: &Source,
    row: &Row,
    refusal: Refusal,
) -> io::Result<()> {
    let start = row.start as usize;
    let at = place::of(&source.bytes, Known::of(row), start);
    heading(out, paint, source, &at, refusal, "")?;
    marked(out, paint, source, &at, start)?;
    let length = row.text(&source.bytes).len();
    note(out, &format!("this {} has {length} bytes", row.kind))
}

/// An edit that was refused, and why.
pub fn unedited(
    out: &mut impl Write,
    paint: Paint,
    source: &Source,
    refusal: Refusal,
    why: &str,
) -> io::Result<()> {
    let name = paint.bold(&source.name);
    let number = paint.red(&format!("refusal {}", refusal.number));
    writeln!(out, "{name}: {number}: {why}")?;
    note(out, "nothing was written")
}

/// A ledger that is left as it is, as a blank entry holds a quote: where that stands, and why.
pub fn unformatted(
    out: &mut impl Write,
    paint: Paint,
    source: &Source,
    row: &Row,
    quote: usize,
) -> io::Result<()> {
    let at = place::of(&source.bytes, Known::of(row), quote);
    let place = paint.bold(&format!("{}:{}:{}", source.name, at.line, at.column));
    let verdict = paint.red("not formatted");
    writeln!(
        out,
        "{place}: {verdict}: this line holds a quote, and no entry reads it"
    )?;
    marked(out, paint, source, &at, quote)?;
    note(
        out,
        "with such a line nothing is promised of the new text: the quote may open or close a string in it",
    )?;
    if Lost::of(row.text(&source.bytes)).is_some() {
        note(
            out,
            "it starts like an entry or a posting: see read --strict",
        )?;
    }
    Ok(())
}

/// Where a refusal is, its number and its meaning.
fn heading(
    out: &mut impl Write,
    paint: Paint,
    source: &Source,
    at: &Place,
    refusal: Refusal,
    detail: &str,
) -> io::Result<()> {
    let place = paint.bold(&format!("{}:{}:{}", source.name, at.line, at.column));
    let number = paint.red(&format!("refusal {}", refusal.number));
    writeln!(out, "{place}: {number}: {}{detail}", refusal.meaning())
}

/// The line around a place, with a mark under it.
fn marked(
    out: &mut impl Write,
    paint: Paint,
    source: &Source,
    at: &Place,
    place: usize,
) -> io::Result<()> {
    let excerpt = place::excerpt(&source.bytes, place);
    let mark = paint.red("^");
    writeln!(out, "{:>5} | {}", at.line, excerpt.text)?;
    writeln!(out, "{:>5} | {:2$}{mark}", "", "", excerpt.before)
}

/// What else there is to say of a refusal.
pub fn note(out: &mut impl Write, text: &str) -> io::Result<()> {
    writeln!(out, "{:>5} = {text}", "")
}

/// The value of an expression, and what it was rounded from.
pub fn evaluated(
    out: &mut impl Write,
    source: &Source,
    found: Evaluated,
    rounded: bool,
) -> io::Result<()> {
    let value = Millionths(found.value);
    match rounded {
        true => writeln!(out, "{value} ({})", rounding(source, found)),
        false => writeln!(out, "{value}"),
    }
}

/// What is said of a value in which a step was rounded; such a value can be the exact one all the same.
fn rounding(source: &Source, found: Evaluated) -> String {
    let text = source.bytes.get(..found.stop).unwrap_or_default();
    let exact = exact::value(text);
    if exact == Fraction::new(found.value.into(), 1_000_000) {
        return "rounded on the way".to_string();
    }
    match exact.and_then(decimal::of) {
        Some(decimal) => format!("rounded from {decimal}"),
        None => "rounded".to_string(),
    }
}

/// What an expression left of its text, where that is more than blanks.
pub fn unread(err: &mut impl Write, source: &Source, stop: usize) {
    let rest = source.bytes.get(stop..).unwrap_or_default();
    let rest = rest.trim_ascii();
    if !rest.is_empty() {
        let excerpt = place::excerpt(rest, 0);
        let _ = writeln!(err, "stops at byte {stop}; not read: {}", excerpt.text);
    }
}

/// What a refusal says beside its number's meaning.
fn detail(source: &Source, refusal: Refusal) -> String {
    match (refusal.number, source.bytes.get(refusal.place)) {
        (2, Some(byte)) => format!(" (this is byte 0x{byte:02X})"),
        _ => match refusal.short() {
            None => String::new(),
            Some(Short::Answer { need }) => format!(" (no memory for {need} rows)"),
            Some(Short::Work { need }) => format!(" (no memory for {need} bytes)"),
        },
    }
}

/// How many blocks were refused.
pub fn refused_count(blocks: usize) -> String {
    match blocks {
        1 => "1 block refused".to_string(),
        _ => format!("{blocks} blocks refused"),
    }
}

fn entries(summary: &Summary) -> String {
    let count = match summary.entries() {
        1 => "1 entry".to_string(),
        count => format!("{count} entries"),
    };
    match summary.dates {
        None => count,
        Some((first, last)) if first == last => format!("{count}, dated {first}"),
        Some((first, last)) => format!("{count}, dated {first} to {last}"),
    }
}

fn counts(out: &mut impl Write, summary: &Summary) -> io::Result<()> {
    for (kind, count) in summary.counts() {
        let note = match kind {
            Kind::Blank => " (lines that no other form reads: empty, comments, and whatever else)",
            _ => "",
        };
        writeln!(out, "{count:>8} {kind}{note}")?;
    }
    Ok(())
}

fn lines(first: usize, last: usize) -> String {
    if first == last {
        format!("line {first}")
    } else {
        format!("lines {first} to {last}")
    }
}
