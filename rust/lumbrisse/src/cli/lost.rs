//! What strict reading refuses, found in the rows of plain reading: all of it, where the call names the first.

use lumbrisse::{Kind, Refusal, Row, Rows};

/// How a blank entry starts that strict reading does not let pass for a comment.
#[derive(Clone, Copy, Debug, PartialEq, Eq)]
pub enum Lost {
    /// With a digit, as a dated entry does.
    Digit,
    /// With blanks that neither a comment nor the line's end follows, as a posting does.
    Indented,
    /// With `option`.
    Option,
}

impl Lost {
    /// How a blank entry starts that is lost, from its text or from what the ledger holds from its start on; none where
    /// it is an empty line, a comment or another that may pass for one.
    pub fn of(entry: &[u8]) -> Option<Lost> {
        match entry.first()? {
            b'0'..=b'9' => Some(Lost::Digit),
            b' ' | b'\t' => is_indented(entry).then_some(Lost::Indented),
            _ => entry.starts_with(b"option").then_some(Lost::Option),
        }
    }
}

/// Whether something other than a comment or the line's end stands behind the blanks at a text's start.
fn is_indented(text: &[u8]) -> bool {
    let rest = behind_blanks(text);
    !(rest.starts_with(b";") || rest.starts_with(b"\n") || rest.starts_with(b"\r\n"))
}

/// A text without the blanks at its start.
pub fn behind_blanks(text: &[u8]) -> &[u8] {
    let blanks = text
        .iter()
        .take_while(|byte| matches!(byte, b' ' | b'\t'))
        .count();
    text.get(blanks..).unwrap_or_default()
}

/// The rows of plain or recovering reading that strict reading refuses, by place, each with the refusal's number.
pub fn refused<'a>(ledger: &'a [u8], table: &'a [u8]) -> impl Iterator<Item = (Row, usize)> + 'a {
    Rows::new(table).filter_map(move |row| {
        let text = row.text(ledger);
        match row.kind {
            Kind::Blank => Lost::of(text).map(|_| (row, Refusal::LOST_LINE)),
            Kind::Flag if !matches!(text, b"*" | b"!") => Some((row, Refusal::FLAG)),
            _ => None,
        }
    })
}

#[cfg(test)]
mod tests {
    use super::*;

    #[test]
    fn a_lost_line_starts_with_a_digit_blanks_or_option() {
        for (text, lost) in [
            (&b"2024-3-31 *\n"[..], Some(Lost::Digit)),
            (b"7\r\n", Some(Lost::Digit)),
            (b"  A:B 1 kWh\n", Some(Lost::Indented)),
            (b"\t2024-01-31 *\n", Some(Lost::Indented)),
            (b" \t x\n", Some(Lost::Indented)),
            (b"options\n", Some(Lost::Option)),
            (b"option", Some(Lost::Option)),
            (b"", None),
            (b"\n", None),
            (b"\r\n", None),
            (b" \t\n", None),
            (b"  \r\n", None),
            (b" ; 2024-01-31 *\n", None),
            (b"; 2024-01-31 *\n", None),
            (b"Option \"a\" \"b\"\n", None),
            (b"optio\n", None),
            (b"x2024-01-31 *\n", None),
        ] {
            assert_eq!(Lost::of(text), lost, "{}", String::from_utf8_lossy(text));
        }
    }

    /// The first row found is what the call refuses, and where none is found the call accepts.
    fn agrees(ledger: &[u8]) -> usize {
        let table = lumbrisse::read_to_vec(ledger).unwrap_or_default();
        let found: Vec<(usize, usize)> = refused(ledger, &table)
            .map(|(row, number)| (number, row.start as usize))
            .collect();
        let strict = lumbrisse::read_strict_to_vec(ledger);
        match found.first() {
            None => assert_eq!(strict, Ok(table)),
            Some(&(number, place)) => {
                let count = 0;
                let refusal = Refusal {
                    number,
                    place,
                    count,
                };
                assert_eq!(strict, Err(refusal));
            }
        }
        found.len()
    }

    #[test]
    fn what_is_found_is_what_the_call_refuses() {
        let lines: [(&[u8], usize); 10] = [
            (b"2024-01-31 * \"a\"\n  A:B\n", 0),
            (b"2024-01-31 P \"a\"\n  ! A:B\n", 1),
            (b"2024-01-31 txn\n", 0),
            (b"2024-1-31 *\n", 1),
            (b"pushtag #a x\n", 1),
            (b"pushtag #a ; x\r\n", 0),
            (b"option \"a\n", 1),
            (b"option \"a\" \"b\"\n", 0),
            (b"; note\n", 0),
            (b"X 1\n", 0),
        ];
        // Each behind each: the first that is found decides.
        for (first, one) in lines {
            for (second, two) in lines {
                assert_eq!(agrees(&[first, second].concat()), one + two);
            }
        }
    }
}
