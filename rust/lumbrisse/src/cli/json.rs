//! Answers as JSON: one object, on one line but for its rows, files and totals.

use std::fmt::Write as _;
use std::io::{self, Write};

use lumbrisse::{Evaluated, Millionths, PacketRow, Refusal, Row, Rows, Total};

use super::args::Input;
use super::asked::Month;
use super::csv;
use super::figures::{Figures, Flow, Held};
use super::packet::{self, Tally};
use super::place::{self, Known};
use super::source::{self, Source};
use super::summary::{refused_blocks, Summary};
use super::totals::{Files, Listed};

/// A ledger that plain reading accepted.
pub fn accepted(out: &mut impl Write, source: &Source, table: &[u8]) -> io::Result<()> {
    let file = quoted(source.name.as_bytes());
    write!(out, "{{\"file\":{file},\"accepted\":true,")?;
    rows(out, source, table)?;
    writeln!(out, "}}")
}

/// A ledger that recovering reading went through.
pub fn recovered(out: &mut impl Write, source: &Source, table: &[u8]) -> io::Result<()> {
    let file = quoted(source.name.as_bytes());
    let kept = Summary::of(table).entries();
    write!(out, "{{\"file\":{file},\"kept\":{kept},\"refused\":[")?;
    for (number, (row, refusal)) in refused_blocks(table).enumerate() {
        let last = place::last_line_of(row.text(&source.bytes), row.line as usize);
        separate(out, number)?;
        write!(
            out,
            "{{\"first_line\":{},\"last_line\":{last},\"refusal\":{}}}",
            row.line,
            refusal_object(source, Known::of(&row), refusal)
        )?;
    }
    write!(out, "],")?;
    rows(out, source, table)?;
    writeln!(out, "}}")
}

/// A call that was refused as a whole.
pub fn refused(out: &mut impl Write, source: &Source, refusal: Refusal) -> io::Result<()> {
    refused_file(out, source, refusal)?;
    writeln!(out)
}

/// The same as one of several objects.
pub fn refused_file(out: &mut impl Write, source: &Source, refusal: Refusal) -> io::Result<()> {
    let file = quoted(source.name.as_bytes());
    let refusal = refusal_object(source, Known::START, refusal);
    write!(
        out,
        "{{\"file\":{file},\"accepted\":false,\"refusal\":{refusal}}}"
    )
}

/// A file that cannot be had, as one of several objects.
pub fn missing_file(out: &mut impl Write, input: &Input, why: &str) -> io::Result<()> {
    let file = quoted(source::name(input).as_bytes());
    let why = quoted(why.as_bytes());
    write!(
        out,
        "{{\"file\":{file},\"accepted\":false,\"trouble\":{why}}}"
    )
}

/// What stands in front of the totals of the files.
pub fn totals_start(out: &mut impl Write, month: Month) -> io::Result<()> {
    write!(out, "{{\"month\":\"{month}\",\"files\":[")
}

/// A file's month.
pub fn totals(out: &mut impl Write, listed: &Listed) -> io::Result<()> {
    let file = quoted(listed.source.name.as_bytes());
    let postings = listed.figures.postings();
    write!(
        out,
        "{{\"file\":{file},\"accepted\":true,\"postings\":{postings},\"totals\":["
    )?;
    for (number, (total, currency)) in stated(listed.totals).enumerate() {
        next_line(out, number)?;
        let (account, currency) = (quoted(total.account), quoted(currency));
        let (sum, postings) = (total.sum, total.postings);
        write!(
            out,
            "{{\"account\":{account},\"currency\":{currency},\"sum\":\"{sum}\",\"postings\":{postings}}}"
        )?;
    }
    write!(out, "],\"unstated\":[")?;
    let unstated = listed
        .totals
        .iter()
        .filter(|total| total.currency.is_none());
    for (number, total) in unstated.enumerate() {
        next_line(out, number)?;
        let (account, postings) = (quoted(total.account), total.postings);
        write!(out, "{{\"account\":{account},\"postings\":{postings}}}")?;
    }
    write!(out, "],{}", figures(listed.figures))?;
    if let Some(meter) = &listed.meter {
        let account = quoted(meter.account);
        let held: Vec<String> = meter.held.iter().map(held_object).collect();
        let (held, unstated) = (held.join(","), meter.unstated);
        write!(
            out,
            ",\"meter\":{{\"account\":{account},\"unstated_postings\":{unstated},\"currencies\":[{held}]}}"
        )?;
    }
    write!(out, "}}")
}

/// The totals of postings that state an amount, each with its currency.
fn stated<'a>(totals: &'a [Total<'a>]) -> impl Iterator<Item = (&'a Total<'a>, &'a [u8])> {
    totals
        .iter()
        .filter_map(|total| Some((total, total.currency?)))
}

/// What stands behind the totals of the files: all of them together.
pub fn totals_end(out: &mut impl Write, all: &Figures, files: Files) -> io::Result<()> {
    let Files { listed, left_out } = files;
    writeln!(
        out,
        "],\n\"all_files\":{{\"listed\":{listed},\"left_out\":{left_out},\"postings\":{},\"unstated_postings\":{},{}}}}}",
        all.postings(),
        all.unstated,
        figures(all)
    )
}

/// What some totals come to, by the first part of the account and by currency.
fn figures(figures: &Figures) -> String {
    let parts: Vec<String> = figures
        .parts
        .iter()
        .map(|((part, currency), found)| {
            let (part, currency) = (quoted(part), quoted(currency));
            let (sum, postings) = (found.sum, found.postings);
            format!("{{\"part\":{part},\"currency\":{currency},\"sum\":\"{sum}\",\"postings\":{postings}}}")
        })
        .collect();
    let flows: Vec<String> = figures
        .currencies
        .iter()
        .map(|(currency, flow)| {
            let currency = quoted(currency);
            let Flow { above, below, sum, postings } = flow;
            format!("{{\"currency\":{currency},\"above_zero\":\"{above}\",\"below_zero\":\"{below}\",\"sum\":\"{sum}\",\"postings\":{postings}}}")
        })
        .collect();
    format!(
        "\"by_first_part\":[{}],\"all_accounts\":[{}]",
        parts.join(","),
        flows.join(",")
    )
}

fn held_object(held: &Held) -> String {
    format!(
        "{{\"currency\":{},\"sum\":\"{}\",\"others\":\"{}\",\"difference\":\"{}\",\"signs\":\"{}\"}}",
        quoted(&held.currency),
        held.meter,
        held.others,
        held.difference(),
        csv::signs(held)
    )
}

/// A new line for one of several objects, behind a comma where it is not the first.
pub fn next_line(out: &mut impl Write, number: usize) -> io::Result<()> {
    separate(out, number)?;
    writeln!(out)
}

/// An edit that was refused, and why in words.
pub fn unedited(
    out: &mut impl Write,
    source: &Source,
    refusal: Refusal,
    why: &str,
) -> io::Result<()> {
    let file = quoted(source.name.as_bytes());
    let refusal = bare_refusal(refusal);
    let why = quoted(why.as_bytes());
    writeln!(
        out,
        "{{\"file\":{file},\"accepted\":false,\"refusal\":{refusal},\"why\":{why}}}"
    )
}

/// The value of an expression, and whether anything in it was rounded.
pub fn evaluated(
    out: &mut impl Write,
    source: &Source,
    found: Evaluated,
    rounded: bool,
) -> io::Result<()> {
    let file = quoted(source.name.as_bytes());
    let text = quoted(&source.bytes);
    let value = Millionths(found.value);
    writeln!(
        out,
        "{{\"file\":{file},\"accepted\":true,\"expression\":{text},\"value\":\"{value}\",\"millionths\":{},\"rounded\":{rounded},\"stop\":{}}}",
        found.value, found.stop
    )
}

/// What a packet holds before its end or its refusal.
pub fn packet(out: &mut impl Write, source: &Source, tally: &Tally) -> io::Result<()> {
    let file = quoted(source.name.as_bytes());
    let accepted = tally.refusal.is_none();
    write!(out, "{{\"file\":{file},\"accepted\":{accepted},")?;
    if let Some(refusal) = tally.refusal {
        write!(out, "\"refusal\":{},", bare_refusal(refusal))?;
    }
    write!(out, "\"bytes\":{},\"rows\":[", source.bytes.len())?;
    for (number, (place, PacketRow { row, text })) in packet::placed(&source.bytes).enumerate() {
        separate(out, number)?;
        let fields = row_fields(&row, &[("text", text)]);
        write!(out, "\n{{\"place\":{place},{fields}}}")?;
    }
    writeln!(out, "]}}")
}

fn refusal_object(source: &Source, known: Known, refusal: Refusal) -> String {
    let at = place::of(&source.bytes, known, refusal.place);
    format!(
        "{{\"number\":{},\"meaning\":{},\"place\":{},\"line\":{},\"column\":{},\"count\":{}}}",
        refusal.number,
        quoted(refusal.meaning().as_bytes()),
        refusal.place,
        at.line,
        at.column,
        refusal.count
    )
}

/// A refusal whose place is in no line of a ledger.
fn bare_refusal(refusal: Refusal) -> String {
    format!(
        "{{\"number\":{},\"meaning\":{},\"place\":{},\"count\":{}}}",
        refusal.number,
        quoted(refusal.meaning().as_bytes()),
        refusal.place,
        refusal.count
    )
}

fn rows(out: &mut impl Write, source: &Source, table: &[u8]) -> io::Result<()> {
    write!(out, "\"rows\":[")?;
    let ledger = &source.bytes;
    for (number, row) in Rows::new(table).enumerate() {
        separate(out, number)?;
        let texts = [
            ("text", row.kind.is_detail().then(|| row.text(ledger))),
            ("currency", row.currency(ledger)),
            ("metadata", row.metadata(ledger)),
        ];
        write!(out, "\n{{{}}}", row_fields(&row, &texts))?;
    }
    write!(out, "]")
}

/// A row's fields, and the texts beside them that it has.
fn row_fields(row: &Row, texts: &[(&str, Option<&[u8]>)]) -> String {
    let mut fields = format!(
        "\"kind\":{},\"name\":{},\"start\":{},\"end\":{},\"line\":{},\"p\":{},\"q\":{},\"value\":{}",
        row.kind.number(),
        quoted(row.kind.name().as_bytes()),
        row.start,
        row.end,
        row.line,
        row.p,
        row.q,
        row.value
    );
    for (name, text) in texts {
        if let Some(text) = text {
            let _ = write!(fields, ",\"{name}\":{}", quoted(text));
        }
    }
    fields
}

fn separate(out: &mut impl Write, number: usize) -> io::Result<()> {
    match number {
        0 => Ok(()),
        _ => write!(out, ","),
    }
}

/// A JSON string. Bytes that are no text become the mark for that.
fn quoted(bytes: &[u8]) -> String {
    let mut string = String::from('"');
    for c in String::from_utf8_lossy(bytes).chars() {
        match c {
            '"' | '\\' => {
                string.push('\\');
                string.push(c);
            }
            _ if c.is_control() => {
                let _ = write!(string, "\\u{:04x}", u32::from(c));
            }
            _ => string.push(c),
        }
    }
    string.push('"');
    string
}

#[cfg(test)]
mod tests {
    use super::quoted;

    #[test]
    fn strings_are_escaped() {
        assert_eq!(quoted(b"a\"b\\c\n"), r#""a\"b\\c\u000a""#);
        assert_eq!(quoted(b"\x7f\xff"), "\"\\u007f\u{fffd}\"");
    }
}
