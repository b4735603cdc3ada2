//! What the rows of a ledger say, in the oracle's form, worked out from the rows alone; and whether they are formed as
//! document 01 says.

use std::collections::{BTreeMap, BTreeSet};
use std::fmt::Write as _;

use lumbrisse::{Kind, Row, Rows};

/// A row that is not formed as document 01 says, or that stands where no rule puts it.
pub type Malformed = String;

/// Tables of at most so many rows have each tag in force also asked for by the reader's own call, which goes over all
/// rows.
const ASKED: usize = 1000;

/// A ledger with its table, and what is shown of it so far.
struct Shown<'a> {
    ledger: &'a [u8],
    table: &'a [u8],
    /// The tags that a pushtag or poptag named so far, and whether they are in force.
    stack: BTreeMap<&'a [u8], bool>,
    out: String,
}

/// The entries that the oracle would show: directives, options and includes.
pub fn shown(ledger: &[u8], table: &[u8]) -> Result<String, Malformed> {
    let rows: Vec<Row> = Rows::new(table).collect();
    well_formed(ledger, &rows)?;
    let mut shown = Shown {
        ledger,
        table,
        stack: BTreeMap::new(),
        out: String::new(),
    };
    let mut at = 0;
    while let Some(entry) = rows.get(at) {
        let end = at + 1 + entry.q as usize;
        let details = rows
            .get(at + 1..end)
            .ok_or("an entry counts rows that are not there")?;
        if !details.iter().all(|row| row.kind.is_detail()) {
            return Err(format!("row {at} counts entries among its details"));
        }
        shown.entry(at, entry, details)?;
        at = end;
    }
    Ok(shown.out)
}

/// Entries cut the ledger without gap; lines are counted; details stand in order of start within their entry; fields
/// not named are 0.
fn well_formed(ledger: &[u8], rows: &[Row]) -> Result<(), Malformed> {
    let (mut place, mut line, mut counted) = (0, 1, 0);
    let (mut entry_end, mut last_start) = (0, 0);
    for row in rows {
        let (start, end) = (row.start as usize, row.end as usize);
        if row.kind.is_entry() {
            if start != entry_end || end <= start || end > ledger.len() {
                return Err(format!("{row:?} leaves a gap"));
            }
            (place, entry_end) = (start, end);
        } else if start < last_start || start < place || end > entry_end || end < start {
            return Err(format!("{row:?} is out of order"));
        }
        last_start = start;
        let before = ledger.get(counted..start).unwrap_or_default();
        line += before.iter().filter(|b| **b == b'\n').count();
        counted = start;
        if row.line as usize != line {
            return Err(format!("{row:?} is at line {line}"));
        }
        if !unnamed_are_zero(row) {
            return Err(format!("{row:?} has a field that no rule names"));
        }
    }
    match entry_end == ledger.len() {
        true => Ok(()),
        false => Err("the entries end before the ledger".to_owned()),
    }
}

fn unnamed_are_zero(row: &Row) -> bool {
    let (p, q, value) = (row.p == 0, row.q == 0, row.value == 0);
    match row.kind {
        Kind::Blank => p && q && value,
        Kind::Option | Kind::Include | Kind::Pushtag | Kind::Poptag => p && value,
        kind if kind.is_entry() => !p && value,
        Kind::Amount | Kind::UnitPrice | Kind::TotalPrice | Kind::MetadataNumber => !p && !q,
        Kind::MetadataString | Kind::MetadataCurrency => !p && !q && value,
        Kind::Tolerance => p && q,
        Kind::Cost | Kind::Posting => q && value,
        _ => p && q && value,
    }
}

impl<'a> Shown<'a> {
    fn entry(&mut self, at: usize, entry: &Row, details: &[Row]) -> Result<(), Malformed> {
        if entry.kind.is_entry() && entry.p != 0 {
            let _ = write!(self.out, "line {} date {}", entry.line, entry.p);
        }
        match (entry.kind, details) {
            (Kind::Blank, []) => Ok(()),
            (Kind::Option, [name, value]) => self.strings("option", name, value),
            (Kind::Event, [name, value, rest @ ..]) => {
                self.strings(" event", name, value)?;
                self.metadata("meta", rest)
            }
            (Kind::Include, [path]) if path.kind == Kind::String => {
                self.string("include", path.text(self.ledger))
            }
            (Kind::Pushtag | Kind::Poptag, [tag]) if tag.kind == Kind::Tag => {
                self.stack
                    .insert(tag.text(self.ledger), entry.kind == Kind::Pushtag);
                Ok(())
            }
            (Kind::Transaction, _) => self.transaction(at, details),
            (Kind::Price, [currency, amount, rest @ ..]) if currency.kind == Kind::Currency => {
                self.line(" price ", currency.text(self.ledger));
                self.amount(Kind::Amount, "amount", amount)?;
                self.metadata("meta", rest)
            }
            (Kind::Balance, [account, amount, rest @ ..]) if account.kind == Kind::Account => {
                self.line(" balance ", account.text(self.ledger));
                self.amount(Kind::Amount, "amount", amount)?;
                self.balance_rest(rest)
            }
            (Kind::Open, [account, rest @ ..]) if account.kind == Kind::Account => {
                self.line(" open ", account.text(self.ledger));
                self.open_rest(rest)
            }
            (Kind::Close, [account, rest @ ..]) if account.kind == Kind::Account => {
                self.line(" close ", account.text(self.ledger));
                self.metadata("meta", rest)
            }
            (Kind::Pad, [account, source, rest @ ..])
                if account.kind == Kind::Account && source.kind == Kind::Account =>
            {
                self.out.push_str(" pad ");
                self.text(account.text(self.ledger));
                self.line(" ", source.text(self.ledger));
                self.metadata("meta", rest)
            }
            (Kind::Commodity, [currency, rest @ ..]) if currency.kind == Kind::Currency => {
                self.line(" commodity ", currency.text(self.ledger));
                self.metadata("meta", rest)
            }
            _ => Err(format!("{entry:?} has the details {details:?}")),
        }
    }

    fn strings(&mut self, name: &str, one: &Row, two: &Row) -> Result<(), Malformed> {
        if one.kind != Kind::String || two.kind != Kind::String {
            return Err(format!("{one:?} and {two:?} are not two strings"));
        }
        self.out.push_str(name);
        self.out.push(' ');
        self.quoted(one.text(self.ledger))?;
        self.string("", two.text(self.ledger))
    }

    fn balance_rest(&mut self, rest: &[Row]) -> Result<(), Malformed> {
        match rest {
            [tolerance, rest @ ..] if tolerance.kind == Kind::Tolerance => {
                self.value_again(tolerance.start, tolerance.end, tolerance)?;
                let _ = writeln!(self.out, "tolerance {}", tolerance.value);
                self.metadata("meta", rest)
            }
            _ => self.metadata("meta", rest),
        }
    }

    fn open_rest(&mut self, rest: &[Row]) -> Result<(), Malformed> {
        let (currencies, rest) = front(rest, |kind| kind == Kind::Currency);
        self.set(
            "currency",
            currencies.iter().map(|row| row.text(self.ledger)).collect(),
        );
        match rest {
            [booking, rest @ ..] if booking.kind == Kind::Booking => {
                self.string("booking", booking.text(self.ledger))?;
                self.metadata("meta", rest)
            }
            _ => self.metadata("meta", rest),
        }
    }

    fn transaction(&mut self, at: usize, details: &[Row]) -> Result<(), Malformed> {
        self.out.push_str(" transaction ");
        let (flags, rest) = front(details, |kind| kind == Kind::Flag);
        match flags {
            [] => self.out.push_str("-\n"),
            [flag] => match flag.text(self.ledger) {
                [byte] => {
                    let _ = writeln!(self.out, "{byte}");
                }
                _ => return Err(format!("{flag:?} is not one byte")),
            },
            _ => return Err("a transaction has two flags".to_owned()),
        }
        let (strings, rest) = front(rest, |kind| matches!(kind, Kind::Payee | Kind::Narration));
        match strings {
            [] => {}
            [narration] if narration.kind == Kind::Narration => {
                self.string("narration", narration.text(self.ledger))?;
            }
            [payee, narration]
                if payee.kind == Kind::Payee && narration.kind == Kind::Narration =>
            {
                self.string("payee", payee.text(self.ledger))?;
                self.string("narration", narration.text(self.ledger))?;
            }
            _ => return Err(format!("a transaction has the strings {strings:?}")),
        }
        let (marks, rest) = front(rest, |kind| matches!(kind, Kind::Tag | Kind::Link));
        let of = |wanted| {
            let found = marks.iter().filter(move |row| row.kind == wanted);
            found
                .map(|row| row.text(self.ledger))
                .collect::<BTreeSet<_>>()
        };
        let (mut tags, links) = (of(Kind::Tag), of(Kind::Link));
        tags.extend(self.in_force(at)?);
        self.set("tag", tags);
        self.set("link", links);
        let (metadata, rest) = front(rest, |kind| kind != Kind::Posting);
        self.metadata("meta", metadata)?;
        self.postings(rest)
    }

    /// The tags in force after the rows before row `at`.
    fn in_force(&self, at: usize) -> Result<Vec<&'a [u8]>, Malformed> {
        if Rows::new(self.table).len() <= ASKED {
            for (tag, in_force) in &self.stack {
                let answer = lumbrisse::tag_in_force(self.ledger, self.table, at, tag);
                if answer != Ok(*in_force) {
                    return Err(format!(
                        "after {at} rows the tag {} gives {answer:?}",
                        tag.escape_ascii()
                    ));
                }
            }
        }
        let in_force = self.stack.iter().filter(|(_, in_force)| **in_force);
        Ok(in_force.map(|(tag, _)| *tag).collect())
    }

    fn postings(&mut self, mut rows: &[Row]) -> Result<(), Malformed> {
        while let [posting, rest @ ..] = rows {
            let (details, next) = front(rest, |kind| kind != Kind::Posting);
            self.posting(posting, details)?;
            rows = next;
        }
        Ok(())
    }

    fn posting(&mut self, posting: &Row, details: &[Row]) -> Result<(), Malformed> {
        self.out.push_str("posting ");
        let _ = match posting.p {
            0 => write!(self.out, "-"),
            flag => write!(self.out, "{flag}"),
        };
        self.line(" ", posting.text(self.ledger));
        let mut rest = details;
        if let [amount, after @ ..] = rest {
            if amount.kind == Kind::Amount {
                self.amount(Kind::Amount, "amount", amount)?;
                rest = self.cost_and_price(after)?;
            }
        }
        self.metadata("posting meta", rest)
    }

    fn cost_and_price<'r>(&mut self, mut rows: &'r [Row]) -> Result<&'r [Row], Malformed> {
        if let [cost, after @ ..] = rows {
            if cost.kind == Kind::Cost {
                rows = self.cost(cost, after)?;
            }
        }
        if let [price, after @ ..] = rows {
            let name = match price.kind {
                Kind::UnitPrice => "unit price",
                Kind::TotalPrice => "total price",
                _ => return Ok(rows),
            };
            self.amount(price.kind, name, price)?;
            return Ok(after);
        }
        Ok(rows)
    }

    fn cost<'r>(&mut self, cost: &Row, after: &'r [Row]) -> Result<&'r [Row], Malformed> {
        if !matches!(cost.text(self.ledger), [b'{', .., b'}']) {
            return Err(format!("{cost:?} does not span its braces"));
        }
        let _ = match cost.p {
            0 => writeln!(self.out, "cost -"),
            date => writeln!(self.out, "cost {date}"),
        };
        match after {
            [amount, rest @ ..] if amount.kind == Kind::Amount && amount.end < cost.end => {
                self.amount(Kind::Amount, "cost amount", amount)?;
                Ok(rest)
            }
            _ => Ok(after),
        }
    }

    fn amount(&mut self, kind: Kind, name: &str, row: &Row) -> Result<(), Malformed> {
        if row.kind != kind {
            return Err(format!("{row:?} is not of the kind {kind}"));
        }
        self.value_again(row.start, row.end, row)?;
        let _ = write!(self.out, "{name} {} ", row.value);
        self.line(
            "",
            lumbrisse::span_text(self.ledger, row.p as usize, row.q as usize),
        );
        Ok(())
    }

    /// A row's expression stands behind a blank or a mark and, read as a single one, has the row's value and is read
    /// whole.
    fn value_again(&self, start: u32, end: u32, row: &Row) -> Result<(), Malformed> {
        let (start, end) = (start as usize, end as usize);
        let before = start
            .checked_sub(1)
            .and_then(|place| self.ledger.get(place));
        let text = lumbrisse::span_text(self.ledger, start, end);
        match (before, lumbrisse::expression(text)) {
            (Some(b' ' | b'\t' | b'~' | b'{' | b','), Ok(again))
                if again.value == row.value && again.stop == text.len() =>
            {
                Ok(())
            }
            other => Err(format!("{row:?} is as a single expression {other:?}")),
        }
    }

    /// The last row of a key decides.
    fn metadata(&mut self, name: &str, rows: &[Row]) -> Result<(), Malformed> {
        let last: BTreeMap<&[u8], &Row> = rows
            .iter()
            .map(|row| (row.text(self.ledger), row))
            .collect();
        for (key, row) in last {
            self.out.push_str(name);
            self.out.push(' ');
            self.text(key);
            self.out.push(' ');
            let value = lumbrisse::span_text(self.ledger, row.p as usize, row.q as usize);
            match row.kind {
                Kind::MetadataString => self.quoted(value)?,
                Kind::MetadataCurrency => self.text(value),
                Kind::MetadataNumber => {
                    self.value_again(row.p, row.q, row)?;
                    let _ = write!(self.out, "{}", row.value);
                }
                _ => return Err(format!("{row:?} stands among metadata")),
            }
            self.out.push('\n');
        }
        Ok(())
    }

    fn set(&mut self, name: &str, members: BTreeSet<&[u8]>) {
        for member in members {
            self.out.push_str(name);
            self.line(" ", member);
        }
    }

    fn string(&mut self, name: &str, content: &[u8]) -> Result<(), Malformed> {
        self.out.push_str(name);
        self.out.push(' ');
        self.quoted(content)?;
        self.out.push('\n');
        Ok(())
    }

    fn line(&mut self, before: &str, text: &[u8]) {
        self.out.push_str(before);
        self.text(text);
        self.out.push('\n');
    }

    fn text(&mut self, text: &[u8]) {
        self.out.push_str(&String::from_utf8_lossy(text));
    }

    /// A string's content without its escapes, by the reader's own call, and quoted in the oracle's way.
    fn quoted(&mut self, content: &[u8]) -> Result<(), Malformed> {
        let mut buffer = vec![0; content.len()];
        let length =
            lumbrisse::content(content, &mut buffer).map_err(|refusal| refusal.to_string())?;
        self.out.push('"');
        for byte in buffer.iter().take(length) {
            match byte {
                b'"' | b'\\' => {
                    self.out.push('\\');
                    self.out.push(char::from(*byte));
                }
                32..=126 => self.out.push(char::from(*byte)),
                _ => {
                    let _ = write!(self.out, "\\x{byte:02x}");
                }
            }
        }
        self.out.push('"');
        Ok(())
    }
}

/// The rows in front whose kind is such, and the rest.
fn front(rows: &[Row], such: impl Fn(Kind) -> bool) -> (&[Row], &[Row]) {
    let count = rows.iter().take_while(|row| such(row.kind)).count();
    rows.split_at(count.min(rows.len()))
}

#[cfg(test)]
mod tests {
    use super::shown;
    use lumbrisse::{Kind, Rows};

    #[test]
    fn a_transaction_is_shown_in_the_oracles_form() -> Result<(), String> {
        let ledger =
            b"pushtag #p\n2024-01-31 * \"Jan\" #m\n  E:Cell  12.5 KWH {2 EUR}\n  G:Import\n";
        let table = lumbrisse::read_to_vec(ledger).map_err(|refusal| refusal.to_string())?;
        let wanted = "line 2 date 20240131 transaction 42\nnarration \"Jan\"\ntag m\ntag p\nposting - E:Cell\n\
                      amount 12500000 KWH\ncost -\ncost amount 2000000 EUR\nposting - G:Import\n";
        assert_eq!(shown(ledger, &table)?, wanted);
        Ok(())
    }

    /// A ledger whose rows have every kind.
    const EVERY_KIND: &[u8] = b"; c
option \"o\" \"p\"
include \"f\"
pushtag #p
pushtag #r
2024-01-30 txn
poptag #r
2024-01-31 ! \"Me\" \"Jan\" #m ^l
  a: \"s\"
  b: 1+2
  c: KWH
  * E:Cell  12.5 KWH {2 EUR, 2024-01-02} @ 3 EUR
    d: 7
  F:Cell  1 KWH {2024-01-03} @@ 4 EUR
  G:Import
2024-02-01 price KWH 2 EUR
2024-02-02 balance A:B 1 ~ 0.5 KWH
2024-02-03 open A:B KWH, EUR \"STRICT\"
2024-02-04 close A:B
2024-02-05 pad A:B C:D
2024-02-06 commodity KWH
2024-02-07 event \"e\" \"v\"
";

    #[test]
    fn a_row_that_is_changed_is_found() -> Result<(), String> {
        let table = lumbrisse::read_to_vec(EVERY_KIND).map_err(|refusal| refusal.to_string())?;
        let right = shown(EVERY_KIND, &table)?;
        for place in 0..table.len() {
            let mut wrong = table.clone();
            wrong[place] = wrong[place].wrapping_add(1);
            assert_ne!(
                shown(EVERY_KIND, &wrong).as_ref(),
                Ok(&right),
                "byte {place}"
            );
        }
        Ok(())
    }

    #[test]
    fn the_ledger_of_that_test_has_every_kind() -> Result<(), String> {
        let table = lumbrisse::read_to_vec(EVERY_KIND).map_err(|refusal| refusal.to_string())?;
        let seen: Vec<Kind> = Rows::new(&table).map(|row| row.kind).collect();
        let missing: Vec<_> = Kind::ALL
            .iter()
            .filter(|kind| !seen.contains(kind))
            .collect();
        assert_eq!(missing, [&Kind::Refused]);
        Ok(())
    }
}
