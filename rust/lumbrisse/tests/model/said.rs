//! What a ledger says that a writer must keep, from document 02 (M-103): "the same kinds, dates, values and texts (save
//! of entries, expressions and braces) in the same order".

use lumbrisse::{Kind, Row, Rows};

/// What a row says, places aside: its kind, its text, what its second span or its expression says, and its date or
/// flag. Entries, expressions and braces have no text here, but for a blank entry.
#[derive(Clone, Debug, PartialEq, Eq)]
pub struct Said {
    pub kind: Kind,
    text: Vec<u8>,
    second: Vec<u8>,
    number: u32,
    value: i64,
}

/// What all rows of a ledger say, in order.
pub fn said(ledger: &[u8], table: &[u8]) -> Vec<Said> {
    let of = |row: Row| {
        let is_text = match row.kind {
            Kind::Amount | Kind::Tolerance | Kind::UnitPrice | Kind::TotalPrice | Kind::Cost => {
                false
            }
            kind => kind == Kind::Blank || !kind.is_entry(),
        };
        let has_second = row.kind != Kind::MetadataNumber;
        let second = row.currency(ledger).or(row.metadata(ledger));
        Said {
            kind: row.kind,
            text: match is_text {
                true => row.text(ledger).to_vec(),
                false => Vec::new(),
            },
            second: second.filter(|_| has_second).unwrap_or_default().to_vec(),
            number: if second.is_none() { row.p } else { 0 },
            value: row.value,
        }
    };
    Rows::new(table).map(of).collect()
}

/// Whether a blank entry holds a quote: then nothing is promised of reading the output.
pub fn has_blank_quote(said: &[Said]) -> bool {
    said.iter()
        .any(|one| one.kind == Kind::Blank && one.text.contains(&b'"'))
}
