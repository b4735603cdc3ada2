//! Places in a ledger, as a person counts them.

use lumbrisse::Row;

use super::shown;

/// A line and a column, both from 1; a column is a byte.
#[derive(Debug, PartialEq, Eq)]
pub struct Place {
    pub line: usize,
    pub column: usize,
}

/// A place whose line is known: lines are counted from there, so that a table's refused blocks are not each counted
/// from the start.
#[derive(Clone, Copy, Debug)]
pub struct Known {
    place: usize,
    line: usize,
}

impl Known {
    /// The start of a ledger.
    pub const START: Known = Known { place: 0, line: 1 };

    /// The start of a row's span.
    pub fn of(row: &Row) -> Known {
        Known {
            place: row.start as usize,
            line: row.line as usize,
        }
    }
}

/// The line around a place, cut where it is long, and how many characters stand before the place.
#[derive(Debug, PartialEq, Eq)]
pub struct Excerpt {
    pub text: String,
    pub before: usize,
}

/// How much of a line is shown before and after a place.
const BEFORE: usize = 60;
const AFTER: usize = 100;
const CUT: &str = "..";

/// The line and column of a place that does not stand before a known one.
pub fn of(ledger: &[u8], known: Known, place: usize) -> Place {
    let (before, _) = split(ledger, place);
    let between = before.get(known.place..).unwrap_or_default();
    Place {
        line: line_feeds(between).saturating_add(known.line),
        column: last_line(before).len().saturating_add(1),
    }
}

/// The last line of a span that starts in a line.
pub fn last_line_of(span: &[u8], first: usize) -> usize {
    let inside = span.strip_suffix(b"\n").unwrap_or(span);
    line_feeds(inside).saturating_add(first)
}

/// The line around a place, to be shown above a mark.
pub fn excerpt(ledger: &[u8], place: usize) -> Excerpt {
    let (before, after) = line(ledger, place);
    let mut text = String::new();
    let cut = before.len().saturating_sub(BEFORE);
    if cut > 0 {
        text.push_str(CUT);
    }
    text.push_str(&shown::text(before.get(cut..).unwrap_or_default()));
    let marked = text.chars().count();
    match after.get(..AFTER) {
        Some(front) if after.len() > AFTER => {
            text.push_str(&shown::text(front));
            text.push_str(CUT);
        }
        _ => text.push_str(&shown::text(after)),
    }
    Excerpt {
        text,
        before: marked,
    }
}

/// Whether the line around a place has an odd number of quotes, those behind a backslash left out.
pub fn has_odd_quotes(ledger: &[u8], place: usize) -> bool {
    let (before, after) = line(ledger, place);
    let bytes = || before.iter().chain(after);
    let pairs = std::iter::once(&b'\n').chain(bytes()).zip(bytes());
    let quotes = pairs.filter(|(left, byte)| **byte == b'"' && **left != b'\\');
    quotes.count() % 2 == 1
}

/// The line around a place without its end: what stands before the place, and from it on.
fn line(ledger: &[u8], place: usize) -> (&[u8], &[u8]) {
    let (before, after) = split(ledger, place);
    let after = after
        .split(|byte| *byte == b'\n')
        .next()
        .unwrap_or_default();
    (
        last_line(before),
        after.strip_suffix(b"\r").unwrap_or(after),
    )
}

/// What stands before a place, and from it on.
fn split(ledger: &[u8], place: usize) -> (&[u8], &[u8]) {
    ledger.split_at(place.min(ledger.len()))
}

fn line_feeds(bytes: &[u8]) -> usize {
    bytes.iter().filter(|byte| **byte == b'\n').count()
}

fn last_line(bytes: &[u8]) -> &[u8] {
    bytes
        .rsplit(|byte| *byte == b'\n')
        .next()
        .unwrap_or_default()
}

#[cfg(test)]
mod tests {
    use super::*;

    #[test]
    fn a_place_has_a_line_and_a_column() {
        let at = |place| {
            let Place { line, column } = of(b"ab\ncd\n", Known::START, place);
            (line, column)
        };
        assert_eq!(at(0), (1, 1));
        assert_eq!(at(2), (1, 3));
        assert_eq!(at(3), (2, 1));
        assert_eq!(at(6), (3, 1));
        assert_eq!(at(99), (3, 1));
    }

    #[test]
    fn lines_are_counted_from_a_known_place() {
        let known = Known { place: 3, line: 12 };
        let Place { line, column } = of(b"ab\ncd\nef", known, 7);
        assert_eq!((line, column), (13, 2));
    }

    #[test]
    fn quotes_behind_a_backslash_are_not_counted() {
        assert!(has_odd_quotes(b"\"\na \"b\" \"c\n\"", 2));
        assert!(!has_odd_quotes(b"\"\na \"b\" \"c\"\n\"", 9));
        assert!(!has_odd_quotes(br#"* "say \"x""#, 3));
        assert!(!has_odd_quotes(b"", 0));
    }

    #[test]
    fn a_span_ends_in_its_last_line() {
        assert_eq!(last_line_of(b"a\nb\n", 5), 6);
        assert_eq!(last_line_of(b"a\nb", 5), 6);
        assert_eq!(last_line_of(b"\n\n", 5), 6);
        assert_eq!(last_line_of(b"", 5), 5);
    }

    #[test]
    fn an_excerpt_is_one_line() {
        let shown = |ledger: &[u8], place| {
            let Excerpt { text, before } = excerpt(ledger, place);
            (text, before)
        };
        assert_eq!(shown(b"ab\r\ncd\r\n", 1), ("ab".to_string(), 1));
        assert_eq!(shown(b"ab\n\tcd", 4), (" cd".to_string(), 1));
        assert_eq!(shown(b"", 0), (String::new(), 0));
    }

    #[test]
    fn an_excerpt_of_a_long_line_is_cut() {
        let long = [b'x'; 1000];
        let cut = excerpt(&long, 500);
        assert_eq!(cut.before, CUT.len() + BEFORE);
        assert_eq!(cut.text.len(), BEFORE + AFTER + 2 * CUT.len());
    }
}
