//! Sums over accounts and files: exact, however many there are.

use std::fmt;

use lumbrisse::Millionths;

/// So many digits stand behind the point at the most.
const MOST: usize = 6;

/// A sum in millionths. Accounts' sums have 50 bits, so that no number of them fills 127.
#[derive(Clone, Copy, Debug, Default, PartialEq, Eq, PartialOrd, Ord)]
pub struct Sum(pub i128);

impl From<Millionths> for Sum {
    fn from(value: Millionths) -> Sum {
        Sum(value.0.into())
    }
}

impl Sum {
    pub fn add(&mut self, more: Sum) {
        self.0 = self.0.saturating_add(more.0);
    }

    pub fn less(self, other: Sum) -> Sum {
        Sum(self.0.saturating_sub(other.0))
    }

    /// The sum without its sign.
    pub fn size(self) -> Sum {
        Sum(self.0.saturating_abs())
    }

    /// How many digits behind the point it takes to show all of it.
    pub fn decimals(self) -> usize {
        let (_, digits) = self.digits();
        digits.trim_end_matches('0').len()
    }

    /// All of it, with so many digits behind the point, or more where it takes more.
    pub fn shown(self, decimals: usize) -> String {
        let (whole, digits) = self.digits();
        let sign = if self.0 < 0 { "-" } else { "" };
        let decimals = decimals.max(self.decimals()).min(MOST);
        match digits.get(..decimals) {
            None | Some("") => format!("{sign}{whole}"),
            Some(digits) => format!("{sign}{whole}.{digits}"),
        }
    }

    /// What stands before the point, without sign, and the six digits behind it.
    fn digits(self) -> (u128, String) {
        let size = self.0.unsigned_abs();
        (size / 1_000_000, format!("{:06}", size % 1_000_000))
    }
}

impl fmt::Display for Sum {
    fn fmt(&self, f: &mut fmt::Formatter<'_>) -> fmt::Result {
        f.write_str(&self.shown(0))
    }
}

#[cfg(test)]
mod tests {
    use super::*;

    #[test]
    fn a_sum_is_shown_as_a_value_is() {
        for value in [
            0,
            1,
            -1,
            12_500_000,
            -100_010,
            1_000_000,
            i64::MAX,
            i64::MIN,
        ] {
            let sum = Sum::from(Millionths(value));
            assert_eq!(sum.to_string(), Millionths(value).to_string());
        }
        assert_eq!(
            Sum(-123_456_789_012_345_678_901_234_567).to_string(),
            "-123456789012345678901.234567"
        );
    }

    #[test]
    fn digits_are_added_and_never_lost() {
        assert_eq!(Sum(12_500_000).shown(2), "12.50");
        assert_eq!(Sum(-12_345_600).shown(2), "-12.3456");
        assert_eq!(Sum(0).shown(3), "0.000");
        assert_eq!(Sum(7_000_000).shown(0), "7");
        assert_eq!(Sum(1).shown(99), "0.000001");
        assert_eq!(Sum(-400_000).decimals(), 1);
        assert_eq!(Sum(5_000_000).decimals(), 0);
    }

    #[test]
    fn sums_are_added_past_64_bits() {
        let mut sum = Sum::default();
        for _ in 0..3 {
            sum.add(Sum(i128::from(i64::MAX)));
        }
        assert_eq!(sum.0, 3 * i128::from(i64::MAX));
        assert_eq!(Sum(-5).size().less(Sum(7)), Sum(-2));
    }
}
