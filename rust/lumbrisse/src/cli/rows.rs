//! Rows as document 01 lists them.

use std::io::{self, Write};

use lumbrisse::Row;

/// A line for each row: kind, start, end, line, p, q, value.
pub fn list(out: &mut impl Write, rows: impl Iterator<Item = Row>) -> io::Result<()> {
    for row in rows {
        writeln!(
            out,
            "{} {} {} {} {} {} {}",
            row.kind.number(),
            row.start,
            row.end,
            row.line,
            row.p,
            row.q,
            row.value
        )?;
    }
    Ok(())
}
