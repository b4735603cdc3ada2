//! The reader's answer beside the oracle's.

use lumbrisse::{Kind, Refusal, Row, Rows};

use crate::oracle::{Answer, End};
use crate::shown::shown;

/// A literal of more digits lies outside the domain.
const DIGITS: usize = 28;

/// The crate's decimals round elsewhere, so that a ledger lies outside the domain where the reader rounds.
const ROUNDS: &str = "a value that is rounded";

/// How the two answers to a ledger compare.
#[derive(Clone, Debug, PartialEq, Eq)]
pub enum Verdict {
    /// Both read it, and what the rows say is what the crate gives.
    Same,
    /// The reader refuses it with 4, and the crate gives an error.
    BothRefuse,
    /// The crate refuses a text of a date's shape that is no date. Its copy with rule 3 reads the ledger, as the reader
    /// does.
    Date(Where),
    /// The ledger lies outside the domain, for this reason.
    Outside(String),
    /// Anything else.
    Differs(String),
}

/// Where a text stands that has a date's shape and is none.
#[derive(Clone, Copy, Debug, PartialEq, Eq)]
pub enum Where {
    /// At the start of a line.
    Line,
    /// At the start of no line, so in a cost.
    Cost,
}

/// Compares the reader's answer with the oracle's.
pub fn verdict(ledger: &[u8], answer: &Answer) -> Verdict {
    let read = lumbrisse::read_to_vec(ledger);
    if let Some(reason) = outside(ledger, &read, answer) {
        return Verdict::Outside(reason);
    }
    let decisive = answer.rule_3.as_ref().unwrap_or(&answer.unchanged);
    match (&read, decisive) {
        (Err(_), End::Error) => Verdict::BothRefuse,
        (Ok(table), End::Read) => match shown(ledger, table) {
            Err(malformed) => Verdict::Differs(malformed),
            Ok(entries) if entries != answer.entries => {
                Verdict::Differs(first_difference(&entries, &answer.entries))
            }
            Ok(_) if answer.unchanged == End::Error => Verdict::Date(place(ledger)),
            Ok(_) => Verdict::Same,
        },
        (Err(refusal), _) => Verdict::Differs(format!("the reader: {refusal}; the crate reads it")),
        (Ok(_), _) => Verdict::Differs("the reader reads it; the crate gives an error".to_owned()),
    }
}

/// Why a ledger lies outside the domain, in the words of document 01 and, for rounding, of document 02.
fn outside(ledger: &[u8], read: &Result<Vec<u8>, Refusal>, answer: &Answer) -> Option<String> {
    match read {
        Err(refusal) if refusal.number != 4 => return Some(format!("refusal {}", refusal.number)),
        Ok(table) if rounds(ledger, table) => return Some(ROUNDS.to_owned()),
        _ => {}
    }
    if has_long_literal(ledger) {
        return Some(format!("a literal of more than {DIGITS} digits"));
    }
    match (&answer.unchanged, &answer.rule_3) {
        (End::Panic(message), _) => Some(format!("the crate panics: {message}")),
        (_, Some(End::Panic(message))) => Some(format!(
            "behind a date that is none, the crate's copy panics: {message}"
        )),
        _ => None,
    }
}

/// Whether a row has a value that the exact form refuses as too fine or, at the limit, as too large.
fn rounds(ledger: &[u8], table: &[u8]) -> bool {
    Rows::new(table)
        .filter_map(|row| expression_of(&row, ledger))
        .any(|text| {
            let exact = lumbrisse::expression_exact(text);
            exact.is_err_and(|refusal| matches!(refusal.number, 6 | 7))
        })
}

/// The expression of a row that has a value.
fn expression_of<'a>(row: &Row, ledger: &'a [u8]) -> Option<&'a [u8]> {
    match row.kind {
        Kind::Amount | Kind::Tolerance | Kind::UnitPrice | Kind::TotalPrice => {
            Some(row.text(ledger))
        }
        Kind::MetadataNumber => row.metadata(ledger),
        _ => None,
    }
}

/// Any run of digits, points and commas counts, wherever it stands.
fn has_long_literal(ledger: &[u8]) -> bool {
    ledger
        .split(|b| !matches!(b, b'0'..=b'9' | b'.' | b','))
        .any(|run| run.iter().filter(|b| b.is_ascii_digit()).count() > DIGITS)
}

fn place(ledger: &[u8]) -> Where {
    match ledger.split(|b| *b == b'\n').any(has_only_the_shape) {
        true => Where::Line,
        false => Where::Cost,
    }
}

/// Whether a line starts with digits, `-`, digits, `-` and a digit, and not with a date of rule 3.
fn has_only_the_shape(line: &[u8]) -> bool {
    let mut parts = line.splitn(3, |b| *b == b'-');
    let mut part = || parts.next().unwrap_or_default();
    let (year, month, rest) = (part(), part(), part());
    let digits = rest.iter().take_while(|b| b.is_ascii_digit()).count();
    let all_digits = |text: &[u8]| !text.is_empty() && text.iter().all(u8::is_ascii_digit);
    let shape = all_digits(year) && all_digits(month) && digits > 0;
    let number = |text: &[u8]| {
        text.iter().fold(0, |sum: u32, b| {
            sum.wrapping_mul(10).wrapping_add(u32::from(b & 15))
        })
    };
    let day = rest.get(..2).filter(|_| digits >= 2).map_or(0, number);
    let date = year.len() == 4
        && month.len() == 2
        && (1..=12).contains(&number(month))
        && (1..=31).contains(&day);
    shape && !date
}

fn first_difference(reader: &str, oracle: &str) -> String {
    let lines = reader.lines().zip(oracle.lines());
    match lines.into_iter().find(|(one, two)| one != two) {
        Some((one, two)) => format!("the reader: {one}; the crate: {two}"),
        None => format!(
            "the reader has {} lines, the crate {}",
            reader.lines().count(),
            oracle.lines().count()
        ),
    }
}

#[cfg(test)]
mod tests {
    use super::{has_long_literal, has_only_the_shape, rounds};
    use crate::grammar;
    use crate::random::Random;

    /// Whether an accepted ledger rounds.
    fn rounding(ledger: &[u8]) -> Option<bool> {
        let table = lumbrisse::read_to_vec(ledger).ok()?;
        Some(rounds(ledger, &table))
    }

    #[test]
    fn a_value_of_any_row_may_round() {
        for form in [
            "2024-01-31 price A $ B",
            "2024-01-31 balance A:B 1 ~ $ B",
            "2024-01-31 *\n A:B $ B",
            "2024-01-31 *\n A:B 1 B {$ C}",
            "2024-01-31 *\n A:B 1 B @ $ C",
            "2024-01-31 *\n A:B 1 B @@ $ C",
            "2024-01-31 *\n k: $",
        ] {
            let with = |value| rounding(form.replace('$', value).as_bytes());
            assert_eq!(with("1/3"), Some(true), "{form}");
            assert_eq!(with("(1/3)*3"), Some(true), "{form}");
            assert_eq!(with("999999000.000999*1.000001"), Some(true), "{form}");
            assert_eq!(with("1/4"), Some(false), "{form}");
        }
    }

    #[test]
    fn ledgers_of_the_grammar_round_now_and_then() {
        let ledgers = (0..2000).map(|index| grammar::ledger(&mut Random::of(1, index)).0);
        let count = ledgers
            .filter(|ledger| rounding(ledger) == Some(true))
            .count();
        assert!(count >= 10, "{count}");
    }

    #[test]
    fn a_date_has_more_than_the_shape() {
        for line in [
            "1-1-1",
            "2024-13-01 x",
            "2024-01-32",
            "2024-01-1",
            "20240-01-01",
        ] {
            assert!(has_only_the_shape(line.as_bytes()), "{line}");
        }
        for line in [
            "2024-01-31 *",
            "2024-01-011",
            "2024-01-",
            "2024",
            "x1-1-1",
            "",
        ] {
            assert!(!has_only_the_shape(line.as_bytes()), "{line}");
        }
    }

    #[test]
    fn twenty_eight_digits_are_not_long() {
        assert!(!has_long_literal("1".repeat(28).as_bytes()));
        assert!(!has_long_literal(b"1234567890123456789 0123456789"));
        assert!(has_long_literal(
            b"x 1,234,567,890,123,456,789.0123456789 y"
        ));
    }
}
