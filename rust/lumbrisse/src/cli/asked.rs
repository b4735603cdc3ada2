//! What the command `totals` is asked for.

use std::ffi::OsString;
use std::fmt;

use super::args::{Input, Request, Verb};
use super::words::{add_file, add_only, no_option, option, wrong, Usage, NO_FILE};

/// The month of some ledgers, whether an account is held against the others, and how the answer is written.
#[derive(Debug, PartialEq, Eq)]
pub struct Asked {
    pub files: Vec<Input>,
    pub month: Month,
    pub meter: Option<OsString>,
    pub shape: Shape,
}

/// A month of a year.
#[derive(Clone, Copy, Debug, PartialEq, Eq)]
pub struct Month {
    pub year: usize,
    pub month: usize,
}

/// How totals are written.
#[derive(Clone, Copy, Debug, PartialEq, Eq)]
pub enum Shape {
    Person,
    Csv,
    Json,
}

const NO_SUCH: &str = "there is no such month: they are 01 to 12";

impl Month {
    /// The month that a word such as `2024-03` names, or what is wrong with it.
    pub fn named(word: &str) -> Result<Month, &'static str> {
        const FORM: &str = "a month is a year of four digits, a - and two digits, as in 2024-03";
        let (year, month) = word.split_once('-').ok_or(FORM)?;
        let (year, month) = (number(year, 4).ok_or(FORM)?, number(month, 2).ok_or(FORM)?);
        match month {
            1..=12 => Ok(Month { year, month }),
            _ => Err(NO_SUCH),
        }
    }
}

/// So many digits and nothing else.
fn number(digits: &str, count: usize) -> Option<usize> {
    let all = digits.len() == count && digits.bytes().all(|byte| byte.is_ascii_digit());
    digits.parse().ok().filter(|_| all)
}

impl fmt::Display for Month {
    fn fmt(&self, f: &mut fmt::Formatter<'_>) -> fmt::Result {
        write!(f, "{:04}-{:02}", self.year, self.month)
    }
}

/// The words after `totals`: options anywhere before `--`, files, and the month as the last of the other words, where
/// `--month` does not name it. A file that is named like a month then needs `--month`, or `./` before its name.
pub fn parse(mut words: impl Iterator<Item = OsString>) -> Result<Request, Usage> {
    let (mut files, mut month, mut meter, mut shape) = (Vec::new(), None, None, None);
    let (mut behind_dashes, mut last) = (false, None);
    while let Some(word) = words.next() {
        match option(&word, behind_dashes) {
            None => {
                last = Some(word.clone()).filter(|_| !behind_dashes);
                add_file(&mut files, word, "it would be added up twice")?;
            }
            Some("--") => behind_dashes = true,
            Some("-h" | "--help") => return Ok(Request::Help(Some(Verb::Totals))),
            Some("--month") => once("--month", &mut month, named(words.next())?)?,
            Some("--meter") => once("--meter", &mut meter, account(words.next())?)?,
            Some("--csv") => add_shape(&mut shape, Shape::Csv)?,
            Some("--json") => add_shape(&mut shape, Shape::Json)?,
            Some(option) => return no_option(option),
        }
    }
    if month.is_none() {
        if let Some(given) = last_named(last)? {
            month = Some(given);
            files.pop();
        }
    }
    if files.is_empty() {
        return wrong(NO_FILE);
    }
    let Some(month) = month else {
        return wrong("which month? Name it behind the files, as in 2024-03, or by --month");
    };
    Ok(Request::Totals(Asked {
        files,
        month,
        meter,
        shape: shape.unwrap_or(Shape::Person),
    }))
}

/// The month that the last word names, if it has a month's form.
fn last_named(word: Option<OsString>) -> Result<Option<Month>, Usage> {
    let Some(text) = word.as_ref().and_then(|word| word.to_str()) else {
        return Ok(None);
    };
    match Month::named(text) {
        Ok(month) => Ok(Some(month)),
        Err(NO_SUCH) => wrong(format!("{text}: {NO_SUCH}")),
        Err(_) => Ok(None),
    }
}

fn once<T>(option: &str, place: &mut Option<T>, given: T) -> Result<(), Usage> {
    match place.replace(given) {
        None => Ok(()),
        Some(_) => wrong(format!("{option} is given twice")),
    }
}

fn add_shape(place: &mut Option<Shape>, shape: Shape) -> Result<(), Usage> {
    add_only(place, shape, "--csv and --json are two forms of one answer")
}

fn named(word: Option<OsString>) -> Result<Month, Usage> {
    let Some(word) = word else {
        return wrong("--month needs a word behind it");
    };
    match word.to_str().map(Month::named) {
        Some(Ok(month)) => Ok(month),
        Some(Err(what)) => wrong(format!("--month {word:?}: {what}")),
        None => wrong(format!("--month {word:?} names no month")),
    }
}

fn account(word: Option<OsString>) -> Result<OsString, Usage> {
    match word {
        None => wrong("--meter needs a word behind it"),
        Some(word) if word.as_encoded_bytes().contains(&b':') => Ok(word),
        Some(word) => wrong(format!(
            "--meter {word:?}: an account has two parts or more, with : between them"
        )),
    }
}

#[cfg(test)]
mod tests {
    use super::super::args;
    use super::*;

    fn parsed(words: &[&str]) -> Result<Request, Usage> {
        let words = [&["totals"], words].concat();
        args::parse(words.iter().map(OsString::from))
    }

    const MARCH: Month = Month {
        year: 2024,
        month: 3,
    };

    #[test]
    fn a_word_names_a_month() {
        assert_eq!(Month::named("2024-03"), Ok(MARCH));
        assert_eq!(
            Month::named("2024-03").map(|month| month.to_string()),
            Ok("2024-03".to_string())
        );
        assert!(Month::named("0000-12").is_ok());
        for wrong in [
            "",
            "-",
            "2024",
            "2024-3",
            "24-03",
            "2024-00",
            "2024-13",
            "2024-03-31",
            "02024-03",
            "+024-03",
            "2024-+3",
            "2024 03",
            "03-2024",
        ] {
            assert!(Month::named(wrong).is_err(), "{wrong}");
        }
    }

    #[test]
    fn the_month_is_the_last_word_or_an_option_and_the_others_are_files() {
        let files = |names: &[&str]| names.iter().map(|name| Input::File(name.into())).collect();
        let asked = |files, meter: Option<&str>, shape| {
            let meter = meter.map(OsString::from);
            Ok(Request::Totals(Asked {
                files,
                month: MARCH,
                meter,
                shape,
            }))
        };
        assert_eq!(
            parsed(&["a", "--month", "2024-03"]),
            asked(files(&["a"]), None, Shape::Person)
        );
        assert_eq!(
            parsed(&["a", "2024-03"]),
            asked(files(&["a"]), None, Shape::Person)
        );
        assert_eq!(
            parsed(&["a", "b", "2024-03", "--csv"]),
            asked(files(&["a", "b"]), None, Shape::Csv)
        );
        assert_eq!(
            parsed(&["./2024-03", "2024-03"]),
            asked(files(&["./2024-03"]), None, Shape::Person)
        );
        // With the option a file may be named like a month.
        assert_eq!(
            parsed(&["--json", "--month", "2024-03", "a", "2024-03", "--meter", "A:B"]),
            asked(files(&["a", "2024-03"]), Some("A:B"), Shape::Json)
        );
        assert_eq!(
            parsed(&["--csv", "--month", "2024-03", "--", "--json"]),
            asked(files(&["--json"]), None, Shape::Csv)
        );
        assert_eq!(
            parsed(&["-", "--month", "2024-03"]),
            asked(vec![Input::Standard], None, Shape::Person)
        );
        assert_eq!(
            parsed(&["a", "--help"]),
            Ok(Request::Help(Some(Verb::Totals)))
        );
    }

    #[test]
    fn wrong_words_are_told() {
        let wrong: [&[&str]; 19] = [
            &[],
            &["a"],
            &["2024-03"],
            &["a", "2024-13"],
            &["2024-03", "a"],
            &["a", "--", "2024-03"],
            &["a", "2024-03", "2024-03"],
            &["--month", "2024-03"],
            &["a", "--month"],
            &["a", "--month", "2024-13"],
            &["a", "--month", "2024-03", "--month", "2024-03"],
            &["a", "a", "--month", "2024-03"],
            &["-", "-", "--month", "2024-03"],
            &["a", "--month", "2024-03", "--meter"],
            &["a", "--month", "2024-03", "--meter", "Meters"],
            &["a", "--month", "2024-03", "--csv", "--json"],
            &["a", "--month", "2024-03", "--rows"],
            &["a", "--month", "2024-03", "--strict"],
            &["a", "--month=2024-03"],
        ];
        for words in wrong {
            assert!(parsed(words).is_err(), "{words:?}");
        }
    }
}
