//! Packets: a ledger's rows written as one, and one listed.

use std::io::{self, Write};

use lumbrisse::{PacketRow, Packets, Refusal, Rows, TEXT_LIMIT};

use super::args::Form;
use super::paint::Paint;
use super::source::Source;
use super::summary::refused_blocks;
use super::{human, json, listing, recovered, refused, rows, Outcome, Status};

/// Writes the packet of a ledger's rows: of all of them, or nothing.
pub fn write(out: &mut impl Write, recovering: bool, source: &Source) -> Outcome {
    let ledger = &source.bytes;
    let answer = match recovering {
        true => lumbrisse::recover_to_vec(ledger),
        false => lumbrisse::read_to_vec(ledger),
    };
    let table = match answer {
        Ok(table) => table,
        Err(refusal) => return refused(out, Form::Person, source, refusal),
    };
    match lumbrisse::packet_to_vec(ledger, &table, Rows::new(&table).len()) {
        Ok(packet) => {
            let written = out.write_all(&packet).and_then(|()| out.flush());
            tell_refused_blocks(source, &table);
            (written, recovered(&table))
        }
        Err(refusal) => {
            let _ = tell_refusal(&mut io::stderr(), source, &table, refusal);
            (Ok(()), Status::Refused)
        }
    }
}

/// Says how many blocks of a ledger were refused, where any were.
fn tell_refused_blocks(source: &Source, table: &[u8]) {
    let blocks = refused_blocks(table).count();
    if blocks > 0 {
        let paint = Paint::stderr();
        let name = paint.bold(&source.name);
        let count = paint.red(&human::refused_count(blocks));
        let _ = writeln!(io::stderr(), "{name}: {count} (kind 90 in the packet)");
    }
}

/// Says why the rows of a ledger fit into no packet: for refusal 18 by the first text that is too long.
fn tell_refusal(
    err: &mut impl Write,
    source: &Source,
    table: &[u8],
    refusal: Refusal,
) -> io::Result<()> {
    let paint = Paint::stderr();
    let long = Rows::new(table)
        .find(|row| !row.kind.is_entry() && row.text(&source.bytes).len() > TEXT_LIMIT);
    match long {
        Some(row) => human::too_long(err, paint, source, &row, refusal),
        None => writeln!(err, "{}: {refusal}", paint.bold(&source.name)),
    }
}

/// Lists what a packet holds, and says where its reader stops.
pub fn read(out: &mut impl Write, form: Form, source: &Source) -> Outcome {
    let tally = Tally::of(&source.bytes);
    let written = match form {
        Form::Person => listing::list(out, Paint::stdout(), source, &tally),
        Form::Rows => rows::list(out, placed(&source.bytes).map(|(_, handed)| handed.row)),
        Form::Json => json::packet(out, source, &tally),
    };
    match tally.refusal {
        None => (written, Status::Accepted),
        Some(refusal) => {
            let written = written.and_then(|()| out.flush());
            if form != Form::Json {
                let err = &mut io::stderr();
                let _ = listing::refused(err, Paint::stderr(), source, &tally, refusal);
            }
            (written, Status::Refused)
        }
    }
}

/// The rows of a packet before its end or its refusal, each with its place.
pub fn placed(packet: &[u8]) -> impl Iterator<Item = (usize, PacketRow<'_>)> {
    let mut rows = Packets::new(packet);
    std::iter::from_fn(move || {
        let place = rows.place();
        let handed = rows.next()?.ok()?;
        Some((place, handed))
    })
}

/// What a packet holds, in a few numbers, and what stops its reader before its end.
pub struct Tally {
    pub rows: usize,
    pub texts: usize,
    pub refusal: Option<Refusal>,
}

impl Tally {
    fn of(packet: &[u8]) -> Tally {
        let mut tally = Tally {
            rows: 0,
            texts: 0,
            refusal: None,
        };
        for handed in Packets::new(packet) {
            match handed {
                Ok(handed) => tally.add(&handed),
                Err(refusal) => tally.refusal = Some(refusal),
            }
        }
        tally
    }

    fn add(&mut self, handed: &PacketRow) {
        self.rows = self.rows.saturating_add(1);
        self.texts = self.texts.saturating_add(handed.text.iter().count());
    }
}
