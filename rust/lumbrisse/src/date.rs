//! Dates, as a row holds them.

use core::fmt;

/// A date: a year times 10,000 plus a month times 100 plus a day, in one number.
///
/// ```
/// use lumbrisse::Date;
///
/// let date = Date(20240131);
/// assert_eq!((date.year(), date.month(), date.day()), (2024, 1, 31));
/// assert_eq!(date.to_string(), "2024-01-31");
/// assert!(date < Date(20240201));
/// ```
#[derive(Clone, Copy, Debug, PartialEq, Eq, PartialOrd, Ord, Hash)]
pub struct Date(pub u32);

impl Date {
    /// The year.
    ///
    /// ```
    /// assert_eq!(lumbrisse::Date(20240131).year(), 2024);
    /// ```
    pub fn year(self) -> u32 {
        self.0 / 10_000
    }

    /// The month, 1 to 12 in any row.
    ///
    /// ```
    /// assert_eq!(lumbrisse::Date(20240131).month(), 1);
    /// ```
    pub fn month(self) -> u32 {
        self.0 / 100 % 100
    }

    /// The day, 1 to 31 in any row.
    ///
    /// ```
    /// assert_eq!(lumbrisse::Date(20240131).day(), 31);
    /// ```
    pub fn day(self) -> u32 {
        self.0 % 100
    }
}

impl fmt::Display for Date {
    fn fmt(&self, f: &mut fmt::Formatter<'_>) -> fmt::Result {
        write!(
            f,
            "{:04}-{:02}-{:02}",
            self.year(),
            self.month(),
            self.day()
        )
    }
}
