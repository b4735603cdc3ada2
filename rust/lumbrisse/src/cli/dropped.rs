//! Comments inside entries, which a ledger written afresh does not have.

use std::ops::Range;

use lumbrisse::{Kind, Row, Rows};

use super::folded::string_span;

/// The lines of all comments inside the entries of a ledger, from the rows of plain reading. What stands between
/// entries is no part of one, and stays.
pub fn lines(ledger: &[u8], table: &[u8]) -> Vec<usize> {
    let mut rows = Rows::new(table);
    let mut found = Vec::new();
    while let Some(entry) = rows.next() {
        let details = rows.by_ref().take(entry.q as usize);
        let kept: Vec<Range<usize>> = details.filter_map(|row| kept(&row)).collect();
        if entry.kind != Kind::Blank {
            within(ledger, &entry, &kept, &mut found);
        }
    }
    found
}

/// Where a semicolon starts no comment: in strings, and as a flag.
fn kept(row: &Row) -> Option<Range<usize>> {
    match row.kind {
        Kind::Flag => Some(row.start as usize..row.end as usize),
        _ => string_span(row),
    }
}

/// Adds the lines of the comments inside one entry, whose kept places stand in order.
fn within(ledger: &[u8], entry: &Row, kept: &[Range<usize>], found: &mut Vec<usize>) {
    let (mut kept, mut line, mut is_comment) = (kept.iter().peekable(), entry.line as usize, false);
    for (place, byte) in (entry.start as usize..).zip(entry.text(ledger)) {
        while kept.next_if(|span| span.end <= place).is_some() {}
        let is_kept = kept.peek().is_some_and(|span| span.contains(&place));
        match byte {
            b'\n' => {
                line = line.saturating_add(1);
                is_comment = false;
            }
            b';' if !is_kept && !is_comment => {
                found.push(line);
                is_comment = true;
            }
            _ => {}
        }
    }
}

#[cfg(test)]
mod tests {
    use super::*;

    fn found(ledger: &[u8]) -> Vec<usize> {
        let table = lumbrisse::read_to_vec(ledger).unwrap_or_default();
        lines(ledger, &table)
    }

    #[test]
    fn comments_inside_entries_are_found() {
        for (ledger, expected) in [
            (&b"2024-01-31 close A:B\n"[..], &[][..]),
            (b"2024-01-31 close A:B ; a ; b\n", &[1]),
            (
                b"\n2024-01-31 *;a\n  ; b\n\n  A:B 1 EUR;;c\r\n; d\n  k: 5 ; e\n",
                &[2, 3, 5, 6, 7],
            ),
            (b"option \"a\" \"b\" ; c\ninclude \"a\" ;\n", &[1, 2]),
        ] {
            assert_eq!(found(ledger), expected);
        }
    }

    #[test]
    fn semicolons_that_stay_are_no_comments_inside_entries() {
        for ledger in [
            &b"; a\n  ; b\nx ; y\n"[..],
            b"pushtag #a ; b\npoptag #a;c\n",
            b"2024-01-31 * \"a ; b\" \"c\n; d\n\"\n  k: \";\"\n",
            b"2024-01-31 ; \"a\"\n",
            b"2024-01-31 open A:B \"a;b\"\n2024-01-31 event \";\" \"\\n;\"\n",
        ] {
            assert_eq!(found(ledger), [], "{}", ledger.escape_ascii());
        }
        // Behind a string of several lines, the lines are counted on.
        assert_eq!(found(b"2024-01-31 * \"a;\n\" ; b\n"), [2]);
    }
}
