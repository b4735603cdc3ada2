//! What else a person is told of a refusal.

use lumbrisse::Refusal;

use super::lost::{behind_blanks, Lost};
use super::place::{self, Known};
use super::shown;

const OPEN_QUOTE: &str = "this line has an odd number of quotes: one may have been left open";

const COMMENT: &str = "without --strict it is taken for a comment";

/// The words that stand behind a date, `txn` aside.
const KEYWORDS: [&[u8]; 7] = [
    b"price",
    b"balance",
    b"open",
    b"close",
    b"pad",
    b"commodity",
    b"event",
];

/// What may be wrong and what comes of it, in plain words.
pub fn of(ledger: &[u8], known: Known, refusal: Refusal) -> Vec<String> {
    let text = ledger.get(refusal.place..).unwrap_or_default();
    let why = match refusal.number {
        4 => indented_date(text).map(|inside| {
            let at = place::of(ledger, known, refusal.place.saturating_add(inside));
            format!("line {} is indented and starts with a date", at.line)
        }),
        Refusal::LOST_LINE => lost_line(ledger, refusal.place, text),
        Refusal::FLAG => Some(flag(text)),
        _ => None,
    };
    // Refusal 4 stands at its entry's start, wherever the missing part is.
    let is_start = matches!(refusal.number, 4 | Refusal::LOST_LINE);
    let odd = is_start && place::has_odd_quotes(ledger, refusal.place);
    let lost = refusal.number == Refusal::LOST_LINE;
    why.into_iter()
        .chain(odd.then(|| OPEN_QUOTE.to_string()))
        .chain(lost.then(|| COMMENT.to_string()))
        .collect()
}

/// Where in a transaction's text, from its start on, a line of its own is indented and starts with a date.
fn indented_date(text: &[u8]) -> Option<usize> {
    let mut lines = text.split_inclusive(|byte| *byte == b'\n');
    let first = lines.next().filter(|line| is_transaction(line))?;
    let mut place = first.len();
    // Any other line ends the transaction.
    let own = |line: &&[u8]| matches!(line.first(), Some(b' ' | b'\t' | b'\r' | b'\n' | b';'));
    for line in lines.take_while(own) {
        if starts_indented_date(line) {
            return Some(place);
        }
        place = place.saturating_add(line.len());
    }
    None
}

/// Whether a line starts with a date and what a transaction has behind it.
fn is_transaction(line: &[u8]) -> bool {
    behind_date(line).is_some_and(|gap| {
        let flag = behind_blanks(gap);
        let is_flag = flag.first().is_some_and(|byte| !byte.is_ascii_lowercase());
        flag.len() < gap.len() && (is_flag || flag.starts_with(b"txn"))
    })
}

fn starts_indented_date(line: &[u8]) -> bool {
    let text = behind_blanks(line);
    text.len() < line.len() && behind_date(text).is_some_and(ends_word)
}

/// Whether a word has ended before a text.
fn ends_word(text: &[u8]) -> bool {
    text.first().map_or(true, u8::is_ascii_whitespace)
}

/// What stands behind the date at a text's start.
fn behind_date(text: &[u8]) -> Option<&[u8]> {
    let (date, rest) = text.split_first_chunk::<10>()?;
    let [year @ .., b'-', m1, m2, b'-', d1, d2] = date else {
        return None;
    };
    let (month, day) = ([*m1, *m2], [*d1, *d2]);
    let digits = year.iter().chain(&month).chain(&day);
    let in_range = (*b"01"..=*b"12").contains(&month) && (*b"01"..=*b"31").contains(&day);
    (in_range && digits.copied().all(|byte| byte.is_ascii_digit())).then_some(rest)
}

/// Why no entry reads a line that strict reading does not let pass for a comment.
fn lost_line(ledger: &[u8], place: usize, text: &[u8]) -> Option<String> {
    let why = match Lost::of(text)? {
        Lost::Digit => return Some(undated_or_unread(text)),
        Lost::Indented if !starts_line(ledger, place) => {
            "this stands behind a tag, and no entry reads it"
        }
        Lost::Indented if starts_indented_date(text) => {
            "it is indented and starts with a date: an entry starts at the start of its line"
        }
        Lost::Indented => "it is indented like a posting, but no entry above reads it",
        Lost::Option => {
            "it starts like an option: that is the word, two strings, and a comment at the most"
        }
    };
    Some(why.to_string())
}

/// Why no entry reads a line that starts with a digit.
fn undated_or_unread(text: &[u8]) -> String {
    let Some(rest) = behind_date(text) else {
        return "it starts with a digit, but not with a date: one is written 2024-03-31, month 01 to 12, day 01 to 31"
            .to_string();
    };
    let rest = behind_blanks(rest);
    let word = rest.split(|byte| !byte.is_ascii_lowercase()).next();
    let word = word.unwrap_or_default();
    match KEYWORDS.contains(&word) {
        true => "it is dated, but has something behind what such an entry takes".to_string(),
        false => format!(
            "it is dated, but no entry is named {}",
            shown::quoted(word, 20)
        ),
    }
}

fn starts_line(ledger: &[u8], place: usize) -> bool {
    let before = ledger.get(..place).unwrap_or_default();
    before.is_empty() || before.ends_with(b"\n")
}

/// What is said of a transaction's flag, which a text starts with.
fn flag(text: &[u8]) -> String {
    match text.first() {
        Some(b'\n' | b'\r') => "the line ends where the flag should stand".to_string(),
        flag => format!(
            "the flag here is {}: without --strict any byte but a small letter is one",
            shown::quoted(flag.map_or(&[], std::slice::from_ref), 1)
        ),
    }
}

#[cfg(test)]
mod tests {
    use super::*;

    fn hints(ledger: &[u8], number: usize, place: usize) -> String {
        let count = 0;
        let refusal = Refusal {
            number,
            place,
            count,
        };
        of(ledger, Known::START, refusal).join("; ")
    }

    #[test]
    fn an_indented_date_within_a_transaction_is_named() {
        let named = |line| format!("line {line} is indented and starts with a date");
        for (ledger, line) in [
            (&b"2024-03-31 *\n  2024-04-30 *\n"[..], Some(2)),
            (b"2024-03-31 txn\n\n\t; x\n; y\n\t2024-04-30", Some(5)),
            (b"2024-03-31 * \"a\" \"b\"\r\n\r\n 2024-04-30\r\n", Some(3)),
            // An account, no date, another entry's line, no transaction.
            (b"2024-03-31 *\n  2024-04-30:Flat\n", None),
            (b"2024-03-31 *\n  2024-13-31 *\n", None),
            (b"2024-03-31 *\n2024-04-30 *\n", None),
            (b"2024-03-31 *\nX\n  2024-04-30 *\n", None),
            (b"2024-03-31 open\n  2024-04-30 *\n", None),
            (b"2024-03-31\n  2024-04-30 *\n", None),
            (b"include\n  2024-04-30 *\n", None),
        ] {
            assert_eq!(
                hints(ledger, 4, 0),
                line.map(named).unwrap_or_default(),
                "{}",
                String::from_utf8_lossy(ledger)
            );
        }
    }

    /// Ledgers with a lost line, its place, and how it is told why.
    const LOST: [(&[u8], usize, &str); 10] = [
        (
            b"2024-3-31 *\n",
            0,
            "it starts with a digit, but not with a date: ",
        ),
        (
            b"2024-13-31 *\n",
            0,
            "it starts with a digit, but not with a date: ",
        ),
        (
            b"2024-12-32 *\n",
            0,
            "it starts with a digit, but not with a date: ",
        ),
        (
            b"2024-12-1",
            0,
            "it starts with a digit, but not with a date: ",
        ),
        (
            b"2024-03-31 baland A:B\n",
            0,
            "it is dated, but no entry is named \"baland\";",
        ),
        (
            b"2024-03-31 close A:B x\n",
            0,
            "it is dated, but has something behind ",
        ),
        (b"\n  A:B 1 kWh\n", 1, "it is indented like a posting, "),
        (
            b"\n\t2024-03-31 *\n",
            1,
            "it is indented and starts with a date: ",
        ),
        (b"pushtag #a x\n", 10, "this stands behind a tag, "),
        (b"options\n", 0, "it starts like an option: "),
    ];

    #[test]
    fn a_lost_line_is_told_why() {
        for (ledger, place, why) in LOST {
            let said = hints(ledger, 16, place);
            assert!(said.starts_with(why), "{said}");
            assert!(said.ends_with(&format!("; {COMMENT}")), "{said}");
            assert!(!said.contains(OPEN_QUOTE), "{said}");
        }
        let open = hints(b"option \"a\n", 16, 0);
        assert!(
            open.ends_with(&format!("; {OPEN_QUOTE}; {COMMENT}")),
            "{open}"
        );
    }

    #[test]
    fn a_flag_is_shown() {
        let shown = hints(b"2024-03-31 P\n", 17, 11);
        assert!(shown.starts_with("the flag here is \"P\": "), "{shown}");
        let ends = "the line ends where the flag should stand";
        assert_eq!(hints(b"2024-03-31 \n", 17, 11), ends);
        assert_eq!(hints(b"2024-03-31 \r\n", 17, 11), ends);
    }
}
