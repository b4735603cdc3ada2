//! What a run of expressions found, counted.

use std::collections::BTreeMap;
use std::fmt;

use super::answers::InBothForms;

/// The numbers that a long run must meet in either form: 0 and every refusal that a short text can get.
const NUMBERS: [usize; 7] = [0, 2, 3, 6, 7, 8, 11];

/// Everything that is counted.
#[derive(Debug, Default)]
pub struct Tally {
    /// Texts by their numbers in the rounding and in the exact form.
    numbers: BTreeMap<(usize, usize), u64>,
    modelled: u64,
    not_modelled: u64,
    /// The most groups that stand one in another in a text, and in what was read of one.
    deepest: usize,
    deepest_read: usize,
    differ: u64,
}

impl Tally {
    /// Counts a text with its answers.
    pub fn add(&mut self, text: &[u8], answers: &InBothForms) {
        let numbers = (answers.rounding.number(), answers.exact.number());
        *self.numbers.entry(numbers).or_default() += 1;
        match answers.modelled() {
            true => self.modelled += 1,
            false => self.not_modelled += 1,
        }
        self.deepest = self.deepest.max(depth(text));
        if let Ok(found) = answers.rounding.first {
            let read = text.get(..found.stop).unwrap_or_default();
            self.deepest_read = self.deepest_read.max(depth(read));
        }
        self.differ += u64::from(answers.differ());
    }

    /// How many texts differ.
    pub fn differ(&self) -> u64 {
        self.differ
    }

    /// The numbers that one of the forms never gave.
    pub fn never_met(&self) -> Vec<String> {
        let met = |number: usize, of: fn(&(usize, usize)) -> usize| {
            self.numbers.keys().any(|numbers| of(numbers) == number)
        };
        let missing = NUMBERS.iter().flat_map(|number| {
            let rounding = (!met(*number, |numbers| numbers.0)).then_some("rounding");
            let exact = (!met(*number, |numbers| numbers.1)).then_some("exact");
            let forms = rounding.into_iter().chain(exact);
            forms.map(move |form| format!("{number} in the {form} form"))
        });
        missing.collect()
    }
}

/// The most groups that are open at once.
fn depth(text: &[u8]) -> usize {
    let (mut open, mut most) = (0usize, 0);
    for byte in text {
        match byte {
            b'(' => open += 1,
            b')' => open = open.saturating_sub(1),
            _ => {}
        }
        most = most.max(open);
    }
    most
}

impl fmt::Display for Tally {
    fn fmt(&self, f: &mut fmt::Formatter<'_>) -> fmt::Result {
        writeln!(f, "{:>8} {:>8} {:>12}", "rounding", "exact", "texts")?;
        for ((rounding, exact), count) in &self.numbers {
            writeln!(f, "{rounding:>8} {exact:>8} {count:>12}")?;
        }
        writeln!(
            f,
            "\n{:>12}  compared with the model\n{:>12}  not: a number has more digits than its fractions hold",
            self.modelled, self.not_modelled
        )?;
        writeln!(
            f,
            "\ngroups one in another: {} at the most, {} where they are read",
            self.deepest, self.deepest_read
        )
    }
}

#[cfg(test)]
mod tests {
    use super::super::source::made;
    use super::{InBothForms, Tally};

    #[test]
    fn what_was_never_met_is_named() {
        let mut tally = Tally::default();
        for text in [
            &b"1"[..],
            b"\0",
            b"0.0000001",
            b"9999999999",
            b"1/0",
            b"x",
            b"1/3",
        ] {
            tally.add(text, &InBothForms::to(text));
        }
        assert_eq!(
            tally.never_met(),
            ["3 in the rounding form", "3 in the exact form"]
        );
        let deep = b"(".repeat(33);
        tally.add(&deep, &InBothForms::to(&deep));
        assert!(tally.never_met().is_empty());
        assert_eq!((tally.deepest, tally.deepest_read), (33, 0));
    }

    #[test]
    fn a_few_thousand_texts_meet_every_number() {
        let mut tally = Tally::default();
        for index in 0..3000 {
            let text = made(1, index);
            tally.add(&text, &InBothForms::to(&text));
        }
        assert!(tally.never_met().is_empty(), "{:?}", tally.never_met());
        assert!(tally.deepest > 33 && tally.not_modelled > 0);
        assert_eq!(tally.deepest_read, 32);
        assert_eq!(tally.differ(), 0);
    }
}
