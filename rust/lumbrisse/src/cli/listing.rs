//! A packet, row by row, for a person.

use std::io::{self, Write};

use lumbrisse::{Kind, Millionths, PacketRow, Refusal, Row};

use super::packet::{self, Tally};
use super::paint::Paint;
use super::source::Source;
use super::{human, shown};

/// So many characters of a text are shown.
const SHOWN: usize = 60;

const NOT_WRITTEN: &str =
    "there is no row before it: is this a packet that `lumbrisse packet` has written?";

/// A line for each row before the packet's end or its refusal, and what it was in all where that is its end.
pub fn list(out: &mut impl Write, paint: Paint, source: &Source, tally: &Tally) -> io::Result<()> {
    for (number, (place, handed)) in packet::placed(&source.bytes).enumerate() {
        if number == 0 {
            writeln!(
                out,
                "{:>8}  {:<20} {:>8} {:>8} {:>7}",
                "byte", "row", "start", "end", "line"
            )?;
        }
        line(out, place, &handed)?;
    }
    if tally.refusal.is_none() {
        let name = paint.bold(&source.name);
        let verdict = paint.green("whole");
        let bytes = source.bytes.len();
        writeln!(out, "{name}: {verdict}, {} in {bytes} bytes", held(tally))?;
    }
    Ok(())
}

/// Why the reader of a packet stopped, and how far it came.
pub fn refused(
    out: &mut impl Write,
    paint: Paint,
    source: &Source,
    tally: &Tally,
    refusal: Refusal,
) -> io::Result<()> {
    let name = paint.bold(&format!("{}: byte {}", source.name, refusal.place));
    let number = paint.red(&format!("refusal {}", refusal.number));
    writeln!(out, "{name}: {number}: {}", refusal.meaning())?;
    match tally.rows {
        0 => human::note(out, NOT_WRITTEN),
        _ => human::note(out, &format!("before it: {}", held(tally))),
    }
}

/// A row: its place in the packet, its kind, span and line, its text, and what else it says by its kind.
fn line(out: &mut impl Write, place: usize, handed: &PacketRow) -> io::Result<()> {
    let PacketRow { row, text } = handed;
    let indent = if row.kind.is_detail() { "  " } else { "" };
    let kind = format!("{indent}{}", row.kind);
    write!(
        out,
        "{place:>8}  {kind:<20} {:>8} {:>8} {:>7}",
        row.start, row.end, row.line
    )?;
    if let Some(text) = text {
        write!(out, "  {}", shown::quoted(text, SHOWN))?;
    }
    match meant(row) {
        Some(meant) => writeln!(out, "  {meant}"),
        None => writeln!(out),
    }
}

/// What a row says beside its text: a date, a value, a flag, or why a block was refused.
fn meant(row: &Row) -> Option<String> {
    if let Some(date) = row.date() {
        return Some(date.to_string());
    }
    if let Some(flag) = row.flag() {
        return Some(format!("flag {}", shown::text(&[flag])));
    }
    if let Some(refusal) = row.refusal() {
        return Some(refusal_at(refusal));
    }
    has_value(row.kind).then(|| format!("= {}", Millionths(row.value)))
}

fn refusal_at(refusal: Refusal) -> String {
    format!("refusal {} at byte {}", refusal.number, refusal.place)
}

fn has_value(kind: Kind) -> bool {
    matches!(
        kind,
        Kind::Amount | Kind::Tolerance | Kind::UnitPrice | Kind::TotalPrice | Kind::MetadataNumber
    )
}

fn held(tally: &Tally) -> String {
    let plural = |count, noun| match count {
        1 => format!("1 {noun}"),
        _ => format!("{count} {noun}s"),
    };
    format!(
        "{} and {}",
        plural(tally.rows, "row"),
        plural(tally.texts, "text")
    )
}
