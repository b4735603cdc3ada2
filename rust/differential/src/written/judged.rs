//! What the crate reads in a ledger and in its text afresh.

use crate::oracle::Answer;
use crate::verdict::{verdict, Verdict};

use super::afresh::Afresh;

/// How a ledger and its text compare.
#[derive(Clone, Debug, PartialEq, Eq)]
pub enum Judged {
    /// To the reader and to the crate both say the same, and both read the text alike.
    Same,
    /// The same, to the crate's copy in which rule 3 decides on dates.
    Date,
    /// To the reader both say the same. The ledger lies outside the oracle's domain, for the first reason; the text
    /// too, for the second, or the crate reads it as the reader does.
    Outside(String, Option<String>),
    /// The ledger is not written, for this reason.
    LeftOut(String),
    /// Anything else.
    Differs(String),
}

/// Compares a ledger with its text: by the reader, and by the oracle's answers to the two.
pub fn judged(ledger: &[u8], afresh: &Afresh, answers: &[Answer]) -> Judged {
    if let Some(wrong) = afresh.wrong() {
        return Judged::Differs(wrong);
    }
    match (afresh, answers) {
        (Afresh::LeftOut(reason), _) => Judged::LeftOut(reason.clone()),
        (Afresh::Text(text, _), [before, after]) => {
            let verdicts = (verdict(ledger, before), verdict(text, after));
            by_crate(verdicts, before, after)
        }
        _ => Judged::Differs("the oracle was not asked".to_owned()),
    }
}

fn by_crate(verdicts: (Verdict, Verdict), before: &Answer, after: &Answer) -> Judged {
    match verdicts {
        (Verdict::Differs(why), _) => Judged::Differs(format!("the ledger: {why}")),
        (_, Verdict::Differs(why)) => Judged::Differs(format!("the text: {why}")),
        (Verdict::Outside(ledger), Verdict::Outside(text)) => Judged::Outside(ledger, Some(text)),
        (Verdict::Outside(ledger), Verdict::Same | Verdict::Date(_)) => {
            Judged::Outside(ledger, None)
        }
        (Verdict::Same, Verdict::Same) => entries(before, after, Judged::Same),
        // What has a date's shape in a cost may be a difference, of which the text has the value.
        (Verdict::Date(_), Verdict::Same | Verdict::Date(_)) => {
            entries(before, after, Judged::Date)
        }
        (ledger, text) => Judged::Differs(format!("the ledger: {ledger:?}, the text: {text:?}")),
    }
}

/// The crate's entries of a ledger and of its text, whose lines may differ.
fn entries(before: &Answer, after: &Answer, same: Judged) -> Judged {
    let (before, after) = (&before.entries, &after.entries);
    let mut lines = before.lines().zip(after.lines());
    if let Some((before, after)) = lines.find(|(one, two)| lineless(one) != lineless(two)) {
        return Judged::Differs(format!("the crate reads {before}, then {after}"));
    }
    match before.lines().count() == after.lines().count() {
        true => same,
        false => Judged::Differs("the crate reads more of one than of the other".to_owned()),
    }
}

/// A line of the oracle's answer without the number of the ledger's line that an entry starts in.
fn lineless(shown: &str) -> &str {
    match shown.strip_prefix("line ") {
        Some(rest) => rest.trim_start_matches(|c: char| c.is_ascii_digit()),
        None => shown,
    }
}

#[cfg(test)]
mod tests {
    use super::{judged, Afresh, Judged};
    use crate::oracle::{Answer, End};

    fn read(entries: &str) -> Answer {
        Answer {
            unchanged: End::Read,
            rule_3: None,
            entries: entries.to_owned(),
        }
    }

    fn with(ledger: &[u8], before: &str, after: &str) -> Judged {
        judged(ledger, &Afresh::of(ledger), &[read(before), read(after)])
    }

    #[test]
    fn the_crate_must_read_the_same_in_both_but_for_lines() {
        let ledger = b"\n2024-01-31 * \"a\" ; c\n; c\n2024-02-29 close  A:B\n";
        let before = "line 2 date 20240131 transaction 42\nnarration \"a\"\nline 4 date 20240229 close A:B\n";
        let after = before.replace("line 4", "line 3");
        assert_eq!(with(ledger, before, &after), Judged::Same);
        for (from, to) in [
            ("20240131", "20240130"),
            ("42", "33"),
            ("\"a\"", "\"b\""),
            ("close A:B", "close A:C"),
            ("line 3 date 20240229 close A:B\n", ""),
            ("narration", "payee"),
        ] {
            let wrong = after.replacen(from, to, 1);
            assert!(
                matches!(with(ledger, before, &wrong), Judged::Differs(_)),
                "{from}"
            );
        }
        // Where both are read wrongly, the reader says so.
        let wrong = before.replace("A:B", "A:C");
        assert!(matches!(with(ledger, &wrong, &wrong), Judged::Differs(_)));
    }

    #[test]
    fn what_the_crate_rounds_is_compared_in_the_text_alone() {
        let ledger = b"2024-01-31 price A 1/3 B\n";
        let before = "line 1 date 20240131 price A\namount d0.3333333333333333333333333333 B\n";
        let after = "line 1 date 20240131 price A\namount 333333 B\n";
        let outside = Judged::Outside("a value that is rounded".to_owned(), None);
        assert_eq!(with(ledger, before, after), outside);
        assert!(matches!(with(ledger, before, before), Judged::Differs(_)));
    }

    /// An answer in which the crate gives an error, and its copy ends in some way.
    fn error(rule_3: End, entries: &str) -> Answer {
        Answer {
            unchanged: End::Error,
            rule_3: Some(rule_3),
            entries: entries.to_owned(),
        }
    }

    #[test]
    fn a_difference_that_looks_like_a_date_is_its_value_in_the_text() {
        let ledger = b"2024-01-31 *\n  A:B 1 X {2024-13-01 Y}\n";
        let entries =
            "line 1 date 20240131 transaction 42\nposting - A:B\namount 1000000 X\ncost -\n\
                       cost amount 2010000000 Y\n";
        let afresh = Afresh::of(ledger);
        let copied = || error(End::Read, entries);
        let found = judged(ledger, &afresh, &[copied(), read(entries)]);
        assert_eq!(found, Judged::Date);
        let wrong = entries.replace("2010", "2011");
        let found = judged(ledger, &afresh, &[copied(), read(&wrong)]);
        assert!(matches!(found, Judged::Differs(_)));
        // The text has no such date that the ledger has not.
        let found = judged(ledger, &afresh, &[read(entries), copied()]);
        assert!(matches!(found, Judged::Differs(_)));
    }

    #[test]
    fn an_error_of_the_crate_for_the_text_is_a_difference() {
        let ledger = b"2024-01-31  close A:B\n";
        let error = error(End::Error, "");
        let before = read("line 1 date 20240131 close A:B\n");
        let found = judged(ledger, &Afresh::of(ledger), &[before, error]);
        assert!(matches!(found, Judged::Differs(_)));
    }
}
