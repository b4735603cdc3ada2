//! Lines within a string that start like an entry or a posting: where a quote was left open and a later one closed it,
//! such lines are part of a narration. Plain and strict reading accept that, and recovering reading may for postings.

use std::ops::Range;

use lumbrisse::{Kind, Row, Rows};

use super::lost::behind_blanks;

/// What a line within a string starts like.
#[derive(Clone, Copy, Debug, PartialEq, Eq)]
pub enum Like {
    /// With a digit, as a dated entry does.
    Entry,
    /// With blanks and an account, as a posting does; a flag may stand before the account.
    Posting,
}

impl Like {
    fn of(line: &[u8]) -> Option<Like> {
        match line.first()? {
            b'0'..=b'9' => Some(Like::Entry),
            b' ' | b'\t' => {
                let text = behind_blanks(line);
                let is_posting = starts_account(text) || starts_account(behind_flag(text));
                is_posting.then_some(Like::Posting)
            }
            _ => None,
        }
    }
}

/// A line within a string, what it starts like, and the line that the string starts in.
#[derive(Clone, Copy, Debug, PartialEq, Eq)]
pub struct Folded {
    pub line: usize,
    pub like: Like,
    pub opened: usize,
}

/// All such lines of a ledger or of its kept blocks, from the rows of their strings.
pub fn lines<'a>(ledger: &'a [u8], table: &'a [u8]) -> impl Iterator<Item = Folded> + 'a {
    Rows::new(table).flat_map(move |row| {
        let opened = row.line as usize;
        let string = string(ledger, &row).unwrap_or_default();
        // What stands before the first line feed starts no line.
        let lines = string.split(|byte| *byte == b'\n').enumerate().skip(1);
        lines.filter_map(move |(number, line)| {
            let like = Like::of(line)?;
            let line = opened.saturating_add(number);
            Some(Folded { line, like, opened })
        })
    })
}

/// What stands behind the flag and the gap at a text's start; nothing where there is no flag.
fn behind_flag(text: &[u8]) -> &[u8] {
    match text {
        // What starts a comment is no flag there: comment lines are read before postings are.
        [b'a'..=b'z' | b';', ..] => &[],
        [_, gap @ ..] if matches!(gap, [b' ' | b'\t', ..]) => behind_blanks(gap),
        _ => &[],
    }
}

/// Whether the first word of a text is an account; a comment may stand directly behind it.
fn starts_account(text: &[u8]) -> bool {
    let mut words = text.split(|byte| matches!(byte, b' ' | b'\t' | b'\r' | b';'));
    let word = words.next().unwrap_or_default();
    word.contains(&b':') && word.split(|byte| *byte == b':').all(is_part)
}

/// Whether a text may be one part of an account.
fn is_part(text: &[u8]) -> bool {
    let in_part = |byte: &u8| byte.is_ascii_alphanumeric() || *byte == b'-';
    matches!(text, [b'A'..=b'Z' | b'0'..=b'9', rest @ ..] if rest.iter().all(in_part))
}

/// The string of a row, where it has one.
fn string<'a>(ledger: &'a [u8], row: &Row) -> Option<&'a [u8]> {
    ledger.get(string_span(row)?)
}

/// Where a row's string stands, without its quotes.
pub fn string_span(row: &Row) -> Option<Range<usize>> {
    match row.kind {
        Kind::Payee | Kind::Narration | Kind::Booking | Kind::String => {
            Some(row.start as usize..row.end as usize)
        }
        Kind::MetadataString => Some(row.p as usize..row.q as usize),
        _ => None,
    }
}

#[cfg(test)]
mod tests {
    use super::*;

    fn found(ledger: &[u8]) -> Vec<(usize, Like, usize)> {
        let table = lumbrisse::read_to_vec(ledger).unwrap_or_default();
        lines(ledger, &table)
            .map(|Folded { line, like, opened }| (line, like, opened))
            .collect()
    }

    #[test]
    fn a_line_within_any_string_is_found() {
        for (line, like) in [("2024", Like::Entry), ("\tA:B", Like::Posting)] {
            for (before, behind) in [
                ("\n2024-01-31 * \"a\n", "\" \"b\"\n"),
                ("\n2024-01-31 * \"a\r\n", "\r\n\"\r\n"),
                ("\n2024-01-31 open A:B \"a\n", "\"\n"),
                ("\n2024-01-31 event \"a\" \"a\n", "\"\n"),
                ("\noption \"a\n", "\" \"b\"\n"),
                ("\ninclude \"a\n", "\"\n"),
                ("2024-01-31 *\n  key: \"a\n", "\"\n"),
            ] {
                let ledger = [before, line, behind].concat();
                assert_eq!(found(ledger.as_bytes()), [(3, like, 2)], "{ledger}");
            }
        }
    }

    #[test]
    fn a_line_starts_like_an_entry_or_a_posting() {
        for (line, like) in [
            (&b"2"[..], Some(Like::Entry)),
            (b"2:30", Some(Like::Entry)),
            (b"  Tenants:Flat-02   12 KWH", Some(Like::Posting)),
            (b" \tA:b", None),
            (b" \tA:B\r", Some(Like::Posting)),
            (b" 1:2a:Z-;x", Some(Like::Posting)),
            (b" ! A:B", Some(Like::Posting)),
            (b" P \t A:B 1 KWH", Some(Like::Posting)),
            // Behind a small letter, a comment's start, two flags or no gap.
            (b" p A:B", None),
            (b" ; A:B", None),
            (b" ! ! A:B", None),
            (b" !A:B", None),
            // One part, an empty one, and what no part has.
            (b" A", None),
            (b" ! A", None),
            (b" A: B", None),
            (b" :A", None),
            (b" A::B", None),
            (b" A:B: C", None),
            (b" A:B,", None),
            (b" A:B_C", None),
            (b" key: A:B", None),
            // Prose, and lines that are not indented or empty.
            (b"  by the office", None),
            (b"  By the office: see A:B", None),
            (b"A:B 1 KWH", None),
            (b"! A:B", None),
            (b" 2024-01-31 *", None),
            (b"  ", None),
            (b"\r", None),
            (b"", None),
        ] {
            assert_eq!(Like::of(line), like, "{}", String::from_utf8_lossy(line));
        }
    }

    #[test]
    fn every_such_line_counts_and_no_other() {
        let ledger =
            b"2024-01-31 * \"2\n2\n 2\nx\n A:B\n5\"\n  A:B\n2024-02-29 * \"a\n\"\n2024-03-31 *\n";
        let all = [
            (2, Like::Entry, 1),
            (5, Like::Posting, 1),
            (6, Like::Entry, 1),
        ];
        assert_eq!(found(ledger), all);
        assert_eq!(found(b"2024-01-31 * \"a\n\"\n  2024:Flat\n"), []);
    }

    #[test]
    fn lines_of_kept_blocks_are_counted_in_the_whole_ledger() {
        let ledger = b"; a\n2024-01-31 * \"a\n A:B\n2024-02-29 *\n  key: \"b\n A:B\"\n2024-03-31 * \"c\n A:B\"\n";
        let table = lumbrisse::recover_to_vec(ledger).unwrap_or_default();
        let like = Like::Posting;
        let found: Vec<Folded> = lines(ledger, &table).collect();
        let at = |line, opened| Folded { line, like, opened };
        assert_eq!(found, [at(6, 5), at(8, 7)]);
    }
}
