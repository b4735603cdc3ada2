//! A ledger written afresh, and why one is not.

use lumbrisse::SIZE_LIMIT;

use crate::said::{has_blank_quote, said, Said};

/// What the writer makes of a ledger.
#[derive(Clone, Debug, PartialEq, Eq)]
pub enum Afresh {
    /// Its text, and what the ledger says.
    Text(Vec<u8>, Vec<Said>),
    /// Nothing is promised of the text, or there is none, for this reason.
    LeftOut(String),
    /// The writer does not do as the reader does.
    Differs(String),
}

impl Afresh {
    /// Writes a ledger afresh, where plain reading accepts it and no blank entry of it holds a quote.
    pub fn of(ledger: &[u8]) -> Afresh {
        let text = lumbrisse::written(ledger);
        let table = match lumbrisse::read_to_vec(ledger) {
            Err(refusal) if text == Err(refusal) => {
                return Afresh::LeftOut(format!("refusal {}", refusal.number))
            }
            Err(refusal) => return Afresh::Differs(format!("written, but {refusal}")),
            Ok(table) => table,
        };
        let said = said(ledger, &table);
        match text {
            Err(refusal) => Afresh::Differs(format!("read, but not written: {refusal}")),
            Ok(_) if has_blank_quote(&said) => {
                Afresh::LeftOut("a quote in a blank entry".to_owned())
            }
            Ok(text) if text.len() > SIZE_LIMIT => {
                Afresh::LeftOut("a text longer than a ledger may be".to_owned())
            }
            Ok(text) => Afresh::Text(text, said),
        }
    }

    /// The text, where there is one of which something is promised.
    pub fn text(&self) -> Option<&[u8]> {
        match self {
            Afresh::Text(text, _) => Some(text),
            _ => None,
        }
    }

    /// What the reader finds wrong with the text: it must say the same, and not change once more.
    pub fn wrong(&self) -> Option<String> {
        match self {
            Afresh::LeftOut(_) => None,
            Afresh::Differs(why) => Some(why.clone()),
            Afresh::Text(text, before) => wrong(text, before),
        }
    }
}

fn wrong(text: &[u8], before: &[Said]) -> Option<String> {
    let table = match lumbrisse::read_to_vec(text) {
        Ok(table) => table,
        Err(refusal) => return Some(format!("the text is refused: {refusal}")),
    };
    let after = said(text, &table);
    let pairs = before.iter().zip(&after);
    if let Some((before, after)) = pairs.into_iter().find(|(before, after)| before != after) {
        return Some(format!("the ledger says {before:?}, the text {after:?}"));
    }
    if before.len() != after.len() {
        let (before, after) = (before.len(), after.len());
        return Some(format!("the ledger has {before} rows, the text {after}"));
    }
    match lumbrisse::written(text) {
        Ok(again) if again == text => None,
        Ok(again) => Some(format!("written again it is \"{}\"", again.escape_ascii())),
        Err(refusal) => Some(format!("it is not written again: {refusal}")),
    }
}

#[cfg(test)]
mod tests {
    use super::Afresh;

    /// What is found wrong with a text that some writer might make of a ledger.
    fn wrong(ledger: &[u8], text: &[u8]) -> Option<String> {
        let said = crate::said::said(ledger, &lumbrisse::read_to_vec(ledger).unwrap_or_default());
        Afresh::Text(text.to_vec(), said).wrong()
    }

    #[test]
    fn a_text_that_says_something_else_is_found() {
        let ledger = b"2024-01-31  * \"a\"\n  ! A:B  1/4 EUR {2 USD} @ 3 X\n  k: KWH\n; c\n";
        let right = "2024-01-31 * \"a\"\n  ! A:B 0.25 EUR {2 USD} @ 3 X\n  k: KWH\n";
        assert_eq!(wrong(ledger, right.as_bytes()), None);
        for (from, to) in [
            ("31", "30"),
            ("*", "!"),
            ("\"a\"", "\"b\""),
            ("\"a\"", "\"a\" #t"),
            ("! A", "A"),
            ("A:B", "A:C"),
            ("0.25", "0.250001"),
            ("EUR", "USD"),
            ("{2", "{3"),
            ("@ ", "@@ "),
            ("k:", "l:"),
            ("KWH", "\"KWH\""),
            ("\n  k: KWH", ""),
            // The same, but not as it is written again.
            ("0.25", "0.250"),
            ("* ", "*  "),
            ("{2 USD}", "{ 2 USD}"),
            // Refused.
            ("\"a\"", "\"a"),
        ] {
            let text = right.replacen(from, to, 1);
            assert!(wrong(ledger, text.as_bytes()).is_some(), "{from} {to}");
        }
    }

    #[test]
    fn ledgers_of_which_nothing_is_promised_are_left_out() {
        for (ledger, reason) in [
            (&b"2024-01-31\n"[..], "refusal 4"),
            (b"; \"\n", "a quote in a blank entry"),
            (b"pushtag #a \"\n", "a quote in a blank entry"),
        ] {
            assert_eq!(Afresh::of(ledger), Afresh::LeftOut(reason.to_owned()));
        }
        let afresh = Afresh::of(b"2024-01-31 *  \"a\"\n");
        assert_eq!(afresh.text(), Some(&b"2024-01-31 * \"a\"\n"[..]));
        assert_eq!(afresh.wrong(), None);
    }
}
