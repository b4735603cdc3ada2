//! Lines of a ledger by number.

use std::fmt;
use std::ops::Range;

use super::place;

/// The first and the last of some lines, counted from 1.
#[derive(Clone, Copy, Debug, PartialEq, Eq)]
pub struct Lines {
    pub first: usize,
    pub last: usize,
}

impl Lines {
    /// The lines that a word such as `56-58` names, or `56` for one; else what is wrong with it.
    pub fn named(word: &str) -> Result<Lines, String> {
        let (first, last) = word.split_once('-').unwrap_or((word, word));
        match (number(first), number(last)) {
            (Some(0), Some(_)) => Err("lines are counted from 1".to_string()),
            (Some(first), Some(last)) if first > last => {
                Err(format!("the lines are in the wrong order: {last}-{first}?"))
            }
            (Some(first), Some(last)) => Ok(Lines { first, last }),
            _ => Err("lines are two numbers with a - between them, or one".to_string()),
        }
    }

    /// The lines of a block.
    pub fn of(ledger: &[u8], block: Range<usize>) -> Lines {
        let before = ledger.get(..block.start).unwrap_or_default();
        let first = whole_lines(before).saturating_add(1);
        let text = ledger.get(block).unwrap_or_default();
        Lines {
            first,
            last: place::last_line_of(text, first),
        }
    }

    /// From the first byte of the first line to behind the last one's. A line that the ledger has not is taken for one
    /// byte behind its end, so that no such lines are a block of it.
    pub fn span(self, ledger: &[u8]) -> Range<usize> {
        let missing = self.last.saturating_sub(count(ledger));
        let before = self.first.saturating_sub(1);
        behind(ledger, before)..behind(ledger, self.last).saturating_add(missing)
    }

    /// What is said of them: they are, or it is.
    pub fn are(self) -> String {
        let verb = if self.first == self.last { "is" } else { "are" };
        format!("{self} {verb}")
    }
}

impl fmt::Display for Lines {
    fn fmt(&self, f: &mut fmt::Formatter<'_>) -> fmt::Result {
        match self.first == self.last {
            true => write!(f, "line {}", self.first),
            false => write!(f, "lines {}-{}", self.first, self.last),
        }
    }
}

/// How many lines a ledger has. A last one without line feed counts, and so does that of a ledger without bytes.
pub fn count(ledger: &[u8]) -> usize {
    each(ledger).count().max(1)
}

/// Digits and nothing else: a sign is none of a line's number.
fn number(digits: &str) -> Option<usize> {
    let all = digits.bytes().all(|byte| byte.is_ascii_digit());
    digits.parse().ok().filter(|_| all)
}

/// The lines, each with its end.
fn each(ledger: &[u8]) -> impl Iterator<Item = &[u8]> {
    ledger.split_inclusive(|byte| *byte == b'\n')
}

fn whole_lines(text: &[u8]) -> usize {
    each(text).filter(|line| line.ends_with(b"\n")).count()
}

/// The place behind so many lines, or the ledger's end.
fn behind(ledger: &[u8], lines: usize) -> usize {
    each(ledger).take(lines).map(<[u8]>::len).sum()
}

#[cfg(test)]
mod tests {
    use super::*;

    fn lines(first: usize, last: usize) -> Lines {
        Lines { first, last }
    }

    #[test]
    fn a_word_names_lines() {
        assert_eq!(Lines::named("56-58"), Ok(lines(56, 58)));
        assert_eq!(Lines::named("56"), Ok(lines(56, 56)));
        assert_eq!(Lines::named("7-7"), Ok(lines(7, 7)));
        for wrong in [
            "", "-", "5-", "-5", "a", "5-b", "5-6-7", "+5", "5 - 6", "0", "0-3", "6-5",
        ] {
            assert!(Lines::named(wrong).is_err(), "{wrong}");
        }
        let huge = "9".repeat(40);
        assert!(Lines::named(&huge).is_err());
    }

    #[test]
    fn lines_have_a_span() {
        let ledger = b"a\r\nbb\n\nc";
        assert_eq!(lines(1, 1).span(ledger), 0..3);
        assert_eq!(lines(2, 3).span(ledger), 3..7);
        assert_eq!(lines(4, 4).span(ledger), 7..8);
        assert_eq!(lines(1, 4).span(ledger), 0..8);
        // There is no fifth one.
        assert_eq!(lines(4, 5).span(ledger), 7..9);
        assert_eq!(lines(6, 7).span(ledger), 8..11);
        assert_eq!(lines(1, usize::MAX).span(ledger).end, usize::MAX);
    }

    #[test]
    fn a_last_line_feed_starts_no_line() {
        assert_eq!(count(b"a\nb"), 2);
        assert_eq!(count(b"a\nb\n"), 2);
        assert_eq!(count(b"\n"), 1);
        assert_eq!(count(b""), 1);
        assert_eq!(lines(1, 1).span(b""), 0..0);
        assert_eq!(lines(2, 2).span(b"a\n"), 2..3);
    }

    #[test]
    fn a_block_has_lines() {
        let ledger = b"; a\n\n2024\n  b\n2025";
        assert_eq!(Lines::of(ledger, 0..5), lines(1, 2));
        assert_eq!(Lines::of(ledger, 5..14), lines(3, 4));
        assert_eq!(Lines::of(ledger, 14..18), lines(5, 5));
        assert_eq!(Lines::of(b"", 0..0), lines(1, 1));
    }

    #[test]
    fn lines_are_said_as_they_are_named() {
        assert_eq!(lines(56, 58).are(), "lines 56-58 are");
        assert_eq!(lines(56, 56).are(), "line 56 is");
    }
}
