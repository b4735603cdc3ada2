//! A second reckoning of a ledger written afresh, from document 02 (M-103) and what was decided on its layout, over the
//! rows of plain reading: entry by entry, as lines of words.

use std::iter::Peekable;

use lumbrisse::{read_to_vec, Kind, Refusal, Row, Rows};

const ROW_BYTES: usize = 32;

/// The buffers that the call is lent.
#[derive(Clone, Debug, PartialEq, Eq)]
pub struct Lent {
    pub output: Vec<u8>,
    pub work: Vec<u8>,
}

/// The text of a ledger and the number of its rows; or why there is none, whatever room is lent.
pub type Reckoned = Result<(Vec<u8>, usize), Refusal>;

/// Reads a ledger and writes it afresh.
pub fn reckoned(ledger: &[u8]) -> Reckoned {
    let table = read_to_vec(ledger)?;
    let mut rows = Rows::new(&table).peekable();
    let mut text = Vec::new();
    while let Some(entry) = rows.next() {
        let details: Vec<Row> = rows.by_ref().take(entry.q as usize).collect();
        text.extend(match entry.kind {
            Kind::Blank => entry.text(ledger).to_vec(),
            _ => shown(ledger, &entry, details),
        });
    }
    Ok((text, table.len() / ROW_BYTES))
}

/// An entry that is not blank: words a space apart, lines with two spaces before all but the first. Behind a pushtag
/// or poptag the rest of its line is the next entry.
fn shown(ledger: &[u8], entry: &Row, details: Vec<Row>) -> Vec<u8> {
    let mut lines = vec![start(entry, &details)];
    let mut details = details.into_iter().peekable();
    while let Some(detail) = details.next() {
        if matches!(detail.kind.number(), 33 | 35..=37) {
            lines.push(Vec::new());
        }
        let words = words(ledger, &detail, &mut details);
        lines.last_mut().unwrap().extend(words);
    }
    let lines: Vec<Vec<u8>> = lines.iter().map(|line| line.join(&b' ')).collect();
    let end = match entry.kind {
        Kind::Pushtag | Kind::Poptag => &b""[..],
        _ => b"\n",
    };
    [&lines.join(&b"\n  "[..]), end].concat()
}

/// The words that an entry starts with.
fn start(entry: &Row, details: &[Row]) -> Vec<Vec<u8>> {
    let keyword = match entry.kind {
        // Its flag is a row of its own.
        Kind::Transaction if details.first().is_some_and(|row| row.kind == Kind::Flag) => None,
        Kind::Transaction => Some("txn"),
        kind => Some(kind.name()),
    };
    let dated = entry.kind.number() >= Kind::Transaction.number();
    let date = dated.then(|| date(entry.p));
    date.into_iter()
        .chain(keyword.map(|word| word.as_bytes().to_vec()))
        .collect()
}

/// The words of a detail, and of those behind it that belong to it.
fn words(
    ledger: &[u8],
    detail: &Row,
    behind: &mut Peekable<impl Iterator<Item = Row>>,
) -> Vec<Vec<u8>> {
    let text = detail.text(ledger).to_vec();
    let second = detail.metadata(ledger).unwrap_or_default();
    match detail.kind {
        Kind::Payee | Kind::Narration | Kind::Booking | Kind::String => {
            vec![between(b"\"", &text, b"\"")]
        }
        Kind::Tag => vec![between(b"#", &text, b"")],
        Kind::Link => vec![between(b"^", &text, b"")],
        Kind::Amount => {
            let mut words = amount(ledger, detail);
            if let Some(tolerance) = behind.next_if(|row| row.kind == Kind::Tolerance) {
                // The currency stands behind both numbers.
                words.splice(1..1, [b"~".to_vec(), value(tolerance.value)]);
            }
            words
        }
        Kind::UnitPrice => [vec![b"@".to_vec()], amount(ledger, detail)].concat(),
        Kind::TotalPrice => [vec![b"@@".to_vec()], amount(ledger, detail)].concat(),
        Kind::Cost => vec![cost(ledger, detail, behind)],
        Kind::Currency => {
            let mut list = vec![text];
            while let Some(more) = behind.next_if(|row| row.kind == Kind::Currency) {
                list.push(more.text(ledger).to_vec());
            }
            vec![list.join(&b", "[..])]
        }
        Kind::Posting => detail
            .flag()
            .map(|flag| vec![flag])
            .into_iter()
            .chain([text])
            .collect(),
        Kind::MetadataString => vec![key(&text), between(b"\"", second, b"\"")],
        Kind::MetadataNumber => vec![key(&text), value(detail.value)],
        Kind::MetadataCurrency => vec![key(&text), second.to_vec()],
        _ => vec![text],
    }
}

/// A cost in braces: its own amount, which stands within them, and then its date.
fn cost(ledger: &[u8], cost: &Row, behind: &mut Peekable<impl Iterator<Item = Row>>) -> Vec<u8> {
    let own = behind.next_if(|row| row.kind == Kind::Amount && row.end < cost.end);
    let own = own.map(|row| amount(ledger, &row).join(&b' '));
    let held: Vec<Vec<u8>> = own
        .into_iter()
        .chain(cost.date().map(|_| date(cost.p)))
        .collect();
    between(b"{", &held.join(&b", "[..]), b"}")
}

fn key(text: &[u8]) -> Vec<u8> {
    between(b"", text, b":")
}

fn between(before: &[u8], text: &[u8], behind: &[u8]) -> Vec<u8> {
    [before, text, behind].concat()
}

/// A value and its currency.
fn amount(ledger: &[u8], row: &Row) -> Vec<Vec<u8>> {
    vec![value(row.value), row.currency(ledger).unwrap().to_vec()]
}

/// A number of millionths in digits, without trailing zeros and without a point that none follows.
fn value(millionths: i64) -> Vec<u8> {
    let sign = if millionths < 0 { "-" } else { "" };
    let digits = format!("{:07}", millionths.unsigned_abs());
    let (whole, parts) = digits.split_at(digits.len() - 6);
    let number = format!("{sign}{whole}.{parts}");
    number.trim_end_matches('0').trim_end_matches('.').into()
}

fn date(number: u32) -> Vec<u8> {
    let digits = format!("{number:08}");
    [&digits[..4], &digits[4..6], &digits[6..]]
        .join("-")
        .into_bytes()
}

/// What the call answers with these buffers, and what it leaves in them.
pub fn answered(reckoned: &Reckoned, lent: &mut Lent) -> Result<usize, Refusal> {
    let (text, rows) = reckoned.as_ref().map_err(|refusal| *refusal)?;
    let short = |place, count| {
        Err(Refusal {
            number: 9,
            place,
            count,
        })
    };
    let need = rows * ROW_BYTES;
    if lent.work.len() < need {
        return short(1, need);
    }
    lent.work[..need].fill(0);
    if lent.output.len() < text.len() {
        return short(0, text.len());
    }
    lent.output[..text.len()].copy_from_slice(text);
    Ok(text.len())
}
