//! Monthly totals as lines of fields with commas between them, for a spreadsheet.

use std::io::{self, Write};

use super::figures::{Held, Signs};
use super::sum::Sum;
use super::totals::Listed;

const TOTALS: [&str; 6] = ["file", "month", "account", "currency", "sum", "postings"];
const METER: [&str; 9] = [
    "file",
    "month",
    "account",
    "currency",
    "sum",
    "others",
    "difference",
    "signs",
    "unstated",
];

/// The names of the fields: those of totals, or of an account beside the others.
pub fn heading(out: &mut impl Write, meter: bool) -> io::Result<()> {
    let names = if meter { &METER[..] } else { &TOTALS };
    line(out, names.iter().map(|name| name.to_string()))
}

/// A file's month: a line for each account and currency, and for each account with postings that state no amount, whose
/// currency and sum are empty; or a line for each currency of the account that is held against the others.
pub fn file(out: &mut impl Write, listed: &Listed) -> io::Result<()> {
    let front = |account: &[u8]| {
        let name = listed.source.name.clone();
        [name, listed.month.to_string(), text(account)]
    };
    if let Some(meter) = &listed.meter {
        for held in &meter.held {
            let unstated = meter.unstated.to_string();
            let rest = beside(held).into_iter().chain([unstated]);
            line(out, front(meter.account).into_iter().chain(rest))?;
        }
        return Ok(());
    }
    for total in listed.totals {
        let (currency, sum) = match total.currency {
            None => (String::new(), String::new()),
            Some(currency) => (text(currency), Sum::from(total.sum).to_string()),
        };
        let rest = [currency, sum, total.postings.to_string()];
        line(out, front(total.account).into_iter().chain(rest))?;
    }
    Ok(())
}

fn beside(held: &Held) -> [String; 5] {
    [
        text(&held.currency),
        held.meter.to_string(),
        held.others.to_string(),
        held.difference().to_string(),
        signs(held).to_string(),
    ]
}

/// In a word, whether both sums have the same sign.
pub fn signs(held: &Held) -> &'static str {
    match held.signs() {
        None => "",
        Some(Signs::Opposite) => "opposite",
        Some(Signs::Same) => "same",
    }
}

fn text(bytes: &[u8]) -> String {
    String::from_utf8_lossy(bytes).into_owned()
}

fn line(out: &mut impl Write, fields: impl Iterator<Item = String>) -> io::Result<()> {
    let fields: Vec<String> = fields.map(|field| quoted(&field)).collect();
    writeln!(out, "{}", fields.join(","))
}

/// A field, between quotes where it could be taken for several or for the end of a line.
fn quoted(field: &str) -> String {
    match field.contains([',', '"', '\n', '\r']) {
        true => format!("\"{}\"", field.replace('"', "\"\"")),
        false => field.to_string(),
    }
}

#[cfg(test)]
mod tests {
    use super::quoted;

    #[test]
    fn fields_are_quoted_where_they_must_be() {
        assert_eq!(quoted("Meters:Flat-1"), "Meters:Flat-1");
        assert_eq!(quoted("-12.5"), "-12.5");
        assert_eq!(quoted("a,b"), "\"a,b\"");
        assert_eq!(quoted("a \"b\""), "\"a \"\"b\"\"\"");
        assert_eq!(quoted("a\nb"), "\"a\nb\"");
    }
}
