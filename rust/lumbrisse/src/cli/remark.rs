//! What a person should look at in a ledger that was accepted, in what of it was kept, or in it written afresh: at most
//! two lines on standard error.

use lumbrisse::Refusal;

use super::dropped;
use super::folded::{self, Folded, Like};
use super::lost;
use super::source::Source;

/// How many of something there are, and the line of the first.
#[derive(Clone, Copy, Debug, Default, PartialEq, Eq)]
struct Found {
    count: usize,
    first: usize,
}

impl Found {
    fn add(&mut self, line: usize) {
        if self.count == 0 {
            self.first = line;
        }
        self.count = self.count.saturating_add(1);
    }

    /// What is said of them by their number, if there are any, and the line of the first.
    fn said(self, one: &str, more: &str) -> Option<String> {
        let Found { count, first } = self;
        match count {
            0 => None,
            1 => Some(format!("1 {one} (line {first})")),
            _ => Some(format!("{count} {more} (line {first} is the first)")),
        }
    }
}

/// Says what in the rows of a ledger strict reading would refuse: by the command whose `--strict` does.
pub fn lenient(source: &Source, table: &[u8], command: &str) {
    if let Some((line, said)) = silent(&source.bytes, table) {
        tell(source, line, &format!("{said}: see {command} --strict"));
    }
}

/// Says which line within a string starts like an entry or a posting.
pub fn folded(source: &Source, table: &[u8]) {
    if let Some((line, said)) = swallowed(&source.bytes, table) {
        tell(source, line, &said);
    }
}

/// Says how many comments a ledger written afresh does not have.
pub fn dropped(source: &Source, table: &[u8]) {
    if let Some((line, said)) = uncommented(&source.bytes, table) {
        tell(source, line, &said);
    }
}

fn tell(source: &Source, line: usize, said: &str) {
    super::tell(&format!("{}:{line}", source.name), said);
}

/// The first line with what strict reading would refuse, and how much of it there is.
fn silent(ledger: &[u8], table: &[u8]) -> Option<(usize, String)> {
    let mut first = None;
    let (mut lines, mut flags) = (Found::default(), Found::default());
    for (row, number) in lost::refused(ledger, table) {
        let line = row.line as usize;
        first = first.or(Some(line));
        match number {
            Refusal::FLAG => flags.add(line),
            _ => lines.add(line),
        }
    }
    let lines = lines.said(
        "line is taken for a comment though it looks like an entry or a posting",
        "lines are taken for comments though they look like entries or postings",
    );
    let flags = flags.said(
        "transaction has a flag other than * and !",
        "transactions have flags other than * and !",
    );
    let said: Vec<String> = lines.into_iter().chain(flags).collect();
    Some((first?, said.join(", and ")))
}

/// The first line within a string that starts like an entry or a posting, and how many there are.
fn swallowed(ledger: &[u8], table: &[u8]) -> Option<(usize, String)> {
    let mut lines = folded::lines(ledger, table);
    let Folded { line, like, opened } = lines.next()?;
    let like = match like {
        Like::Entry => "an entry",
        Like::Posting => "a posting",
    };
    let all = match lines.count() {
        0 => String::new(),
        more => format!(
            " (the first of {} lines within strings that start like entries or postings)",
            more.saturating_add(1)
        ),
    };
    let said = format!(
        "this line starts like {like}, but is part of the string that starts in line {opened}: \
         a quote may have been left open there{all}"
    );
    Some((line, said))
}

/// The first line with a comment inside an entry, and how many there are.
fn uncommented(ledger: &[u8], table: &[u8]) -> Option<(usize, String)> {
    let mut comments = Found::default();
    for line in dropped::lines(ledger, table) {
        comments.add(line);
    }
    let said = comments.said(
        "comment inside an entry is dropped",
        "comments inside entries are dropped",
    )?;
    Some((comments.first, said))
}

#[cfg(test)]
mod tests {
    use super::*;

    type Said = Option<(usize, String)>;

    fn said(remark: fn(&[u8], &[u8]) -> Said, ledger: &[u8]) -> Option<String> {
        let table = lumbrisse::read_to_vec(ledger).unwrap_or_default();
        remark(ledger, &table).map(|(line, said)| format!("{line}: {said}"))
    }

    #[test]
    fn lost_lines_and_flags_are_counted() {
        for (ledger, expected) in [
            (&b"2024-01-31 *\n  A:B\n; x\n"[..], None),
            (
                b"\n2024-1-31 *\n",
                Some("2: 1 line is taken for a comment though it looks like an entry or a posting (line 2)"),
            ),
            (
                b"\n2024-1-31 *\n  A:B\n",
                Some(
                    "2: 2 lines are taken for comments though they look like entries or postings \
                     (line 2 is the first)",
                ),
            ),
            (
                b"2024-01-31 P\n",
                Some("1: 1 transaction has a flag other than * and ! (line 1)"),
            ),
            (
                b"2024-01-31 P\n2024-01-31 Q\n",
                Some("1: 2 transactions have flags other than * and ! (line 1 is the first)"),
            ),
            (
                b"2024-01-31 P\n1\n",
                Some(
                    "1: 1 line is taken for a comment though it looks like an entry or a posting (line 2), \
                     and 1 transaction has a flag other than * and ! (line 1)",
                ),
            ),
        ] {
            assert_eq!(said(silent, ledger).as_deref(), expected);
        }
    }

    #[test]
    fn dropped_comments_are_counted() {
        for (ledger, expected) in [
            (&b"; a\n2024-01-31 *\n  A:B\n"[..], None),
            (
                b"\n2024-01-31 * ; a\n",
                Some("2: 1 comment inside an entry is dropped (line 2)"),
            ),
            (
                b"2024-01-31 *\n  ; a\n  A:B\n; b\n",
                Some("2: 2 comments inside entries are dropped (line 2 is the first)"),
            ),
        ] {
            assert_eq!(said(uncommented, ledger).as_deref(), expected);
        }
    }

    #[test]
    fn lines_within_a_string_are_counted() {
        let start = |like| {
            format!(
                "2: this line starts like {like}, but is part of the string that starts in line 1: \
                 a quote may have been left open there"
            )
        };
        let all = "(the first of 3 lines within strings that start like entries or postings)";
        for (ledger, expected) in [
            (&b"2024-01-31 * \"a\n b\"\n"[..], None),
            (b"2024-01-31 * \"a\n2\"\n", Some(start("an entry"))),
            (b"2024-01-31 * \"a\n A:B\"\n", Some(start("a posting"))),
            (
                b"2024-01-31 * \"a\n2\n3\" \"b\n A:B\"\n",
                Some(format!("{} {all}", start("an entry"))),
            ),
            (
                b"2024-01-31 * \"a\n A:B\n3\n4\"\n",
                Some(format!("{} {all}", start("a posting"))),
            ),
        ] {
            assert_eq!(said(swallowed, ledger), expected);
        }
    }
}
