//! Values: whole numbers of millionths.

use core::fmt;

/// A value in millionths, shown as a decimal without trailing zeros.
///
/// ```
/// use lumbrisse::Millionths;
///
/// assert_eq!(Millionths(12_500_000).to_string(), "12.5");
/// assert_eq!(Millionths(100_010).to_string(), "0.10001");
/// assert_eq!(Millionths(-1).to_string(), "-0.000001");
/// assert_eq!(Millionths(0).to_string(), "0");
/// ```
#[derive(Clone, Copy, Debug, PartialEq, Eq, PartialOrd, Ord, Hash)]
pub struct Millionths(pub i64);

impl fmt::Display for Millionths {
    fn fmt(&self, f: &mut fmt::Formatter<'_>) -> fmt::Result {
        let size = self.0.unsigned_abs();
        if self.0 < 0 {
            f.write_str("-")?;
        }
        write!(f, "{}", size / 1_000_000)?;
        let (mut decimals, mut places) = (size % 1_000_000, 6_usize);
        while decimals != 0 && decimals % 10 == 0 {
            decimals /= 10;
            places = places.saturating_sub(1);
        }
        match decimals {
            0 => Ok(()),
            _ => write!(f, ".{decimals:0places$}"),
        }
    }
}
