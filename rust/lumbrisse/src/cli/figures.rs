//! What the totals of a month come to: by the first part of the account, by currency, and an account against the
//! others.

use std::collections::BTreeMap;

use lumbrisse::Total;

use super::sum::Sum;

/// The figures of one file, or of several together.
#[derive(Clone, Debug, Default, PartialEq, Eq)]
pub struct Figures {
    /// By the first part of the account, and by currency.
    pub parts: BTreeMap<(Vec<u8>, Vec<u8>), Part>,
    /// By currency, over all accounts.
    pub currencies: BTreeMap<Vec<u8>, Flow>,
    /// How many postings state no amount.
    pub unstated: u64,
}

/// What some accounts come to in one currency.
#[derive(Clone, Copy, Debug, Default, PartialEq, Eq)]
pub struct Part {
    pub sum: Sum,
    pub postings: u64,
}

/// What all accounts come to in one currency. As a transaction mostly balances this is mostly zero, so the accounts
/// whose sums are above and below zero are also added up by themselves.
#[derive(Clone, Copy, Debug, Default, PartialEq, Eq)]
pub struct Flow {
    pub sum: Sum,
    pub above: Sum,
    pub below: Sum,
    pub postings: u64,
}

impl Flow {
    fn add(&mut self, other: &Flow) {
        self.sum.add(other.sum);
        self.above.add(other.above);
        self.below.add(other.below);
        self.postings = self.postings.saturating_add(other.postings);
    }
}

impl Figures {
    /// The figures of a file's totals.
    pub fn of(totals: &[Total]) -> Figures {
        let mut figures = Figures::default();
        for total in totals {
            figures.count(total);
        }
        figures
    }

    fn count(&mut self, total: &Total) {
        let postings = u64::from(total.postings);
        let Some(currency) = total.currency else {
            self.unstated = self.unstated.saturating_add(postings);
            return;
        };
        let sum = Sum::from(total.sum);
        let key = (first_part(total.account).to_vec(), currency.to_vec());
        let part = self.parts.entry(key).or_default();
        part.sum.add(sum);
        part.postings = part.postings.saturating_add(postings);
        self.currencies
            .entry(currency.to_vec())
            .or_default()
            .add(&Flow {
                sum,
                above: sum.max(Sum(0)),
                below: sum.min(Sum(0)),
                postings,
            });
    }

    /// Adds the figures of one more file.
    pub fn join(&mut self, other: &Figures) {
        for (key, more) in &other.parts {
            let part = self.parts.entry(key.clone()).or_default();
            part.sum.add(more.sum);
            part.postings = part.postings.saturating_add(more.postings);
        }
        for (currency, more) in &other.currencies {
            self.currencies
                .entry(currency.clone())
                .or_default()
                .add(more);
        }
        self.unstated = self.unstated.saturating_add(other.unstated);
    }

    /// How many postings there are, with an amount or without.
    pub fn postings(&self) -> u64 {
        let stated = self.currencies.values().map(|flow| flow.postings);
        stated.fold(self.unstated, u64::saturating_add)
    }
}

/// An account's text before its first `:`.
fn first_part(account: &[u8]) -> &[u8] {
    account
        .split(|byte| *byte == b':')
        .next()
        .unwrap_or(account)
}

/// An account beside all others, in one currency.
#[derive(Clone, Debug, PartialEq, Eq)]
pub struct Held {
    pub currency: Vec<u8>,
    pub meter: Sum,
    pub others: Sum,
}

/// Whether two sums have the same sign; none where one of them is zero.
#[derive(Clone, Copy, Debug, PartialEq, Eq)]
pub enum Signs {
    Opposite,
    Same,
}

impl Held {
    /// The account beside all others, for each currency that it has postings in.
    pub fn of(account: &[u8], totals: &[Total], figures: &Figures) -> Vec<Held> {
        let own = totals.iter().filter(|total| total.account == account);
        let held = |total: &Total| {
            let currency = total.currency?;
            let all = figures.currencies.get(currency)?.sum;
            let meter = Sum::from(total.sum);
            Some(Held {
                currency: currency.to_vec(),
                meter,
                others: all.less(meter),
            })
        };
        own.filter_map(held).collect()
    }

    /// By how much the account is larger than the others, whatever their signs: a meter may be booked against the
    /// others, with the opposite sign, or beside them.
    pub fn difference(&self) -> Sum {
        self.meter.size().less(self.others.size())
    }

    pub fn signs(&self) -> Option<Signs> {
        match self.meter.0.signum().saturating_mul(self.others.0.signum()) {
            0 => None,
            1 => Some(Signs::Same),
            _ => Some(Signs::Opposite),
        }
    }
}

#[cfg(test)]
mod tests {
    use super::*;
    use lumbrisse::Totals;

    const LEDGER: &[u8] = b"2024-03-31 *\n  A:B  5 KWH\n  A:C  -7.5 KWH\n  B:C  1 KWH\n  B:C  2 EUR\n  A:B:C  1 EUR\n  C:D\n";

    fn with_march<T>(ledger: &[u8], use_of: impl Fn(&[Total], Figures) -> T) -> T {
        let items = lumbrisse::totals_to_vec(ledger, 2024, 3).unwrap_or_default();
        let totals: Vec<Total> = Totals::new(ledger, &items).collect();
        use_of(&totals, Figures::of(&totals))
    }

    #[test]
    fn figures_are_by_first_part_and_by_currency() {
        with_march(LEDGER, |_, figures| {
            let parts: Vec<(&[u8], &[u8], i128, u64)> = figures
                .parts
                .iter()
                .map(|((part, currency), found)| {
                    (&part[..], &currency[..], found.sum.0, found.postings)
                })
                .collect();
            assert_eq!(
                parts,
                [
                    (&b"A"[..], &b"EUR"[..], 1_000_000, 1),
                    (b"A", b"KWH", -2_500_000, 2),
                    (b"B", b"EUR", 2_000_000, 1),
                    (b"B", b"KWH", 1_000_000, 1),
                ]
            );
            let kwh = figures
                .currencies
                .get(&b"KWH"[..])
                .copied()
                .unwrap_or_default();
            assert_eq!(
                (kwh.sum.0, kwh.above.0, kwh.below.0, kwh.postings),
                (-1_500_000, 6_000_000, -7_500_000, 3)
            );
            assert_eq!((figures.unstated, figures.postings()), (1, 6));
        });
    }

    #[test]
    fn files_are_joined_past_64_bits() {
        let large = b"2024-03-31 *\n  A:B  999999999.999999 KWH\n";
        let one = with_march(large, |_, figures| figures);
        let mut all = Figures::default();
        for _ in 0..20_000 {
            all.join(&one);
        }
        let sum = all.currencies.get(&b"KWH"[..]).copied().unwrap_or_default();
        assert_eq!(sum.sum.to_string(), "19999999999999.98");
        assert_eq!(all.postings(), 20_000);
    }

    #[test]
    fn an_account_is_held_against_the_others() {
        with_march(LEDGER, |totals, figures| {
            let held = Held::of(b"A:C", totals, &figures);
            let found: Vec<_> = held
                .iter()
                .map(|held| {
                    (
                        held.meter.0,
                        held.others.0,
                        held.difference().0,
                        held.signs(),
                    )
                })
                .collect();
            assert_eq!(
                found,
                [(-7_500_000, 6_000_000, 1_500_000, Some(Signs::Opposite))]
            );
            let held = Held::of(b"B:C", totals, &figures);
            let found: Vec<_> = held
                .iter()
                .map(|held| (&held.currency[..], held.difference().0, held.signs()))
                .collect();
            assert_eq!(
                found,
                [
                    (&b"EUR"[..], 1_000_000, Some(Signs::Same)),
                    (b"KWH", -1_500_000, Some(Signs::Opposite)),
                ]
            );
            // An account below another is another one, and one without an amount has nothing to hold.
            assert_eq!(Held::of(b"A", totals, &figures), []);
            assert_eq!(Held::of(b"C:D", totals, &figures), []);
        });
        let alone = b"2024-03-31 *\n  A:B  5 KWH\n";
        let held = with_march(alone, |totals, figures| Held::of(b"A:B", totals, &figures));
        assert_eq!(held.first().map(Held::signs), Some(None));
    }
}
