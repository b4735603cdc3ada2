//! A refusal: its number, its place, its count, and what the number means.

use core::fmt;

/// Why a call was refused, and where.
///
/// ```
/// let refusal = lumbrisse::expression(b"12/0").unwrap_err();
/// assert_eq!((refusal.number, refusal.place, refusal.count), (8, 0, 0));
/// assert_eq!(refusal.meaning(), "a value is divided by zero");
/// assert_eq!(refusal.to_string(), "refusal 8 at byte 0: a value is divided by zero");
/// ```
#[derive(Clone, Copy, Debug, PartialEq, Eq, Hash)]
pub struct Refusal {
    /// The number: 1 to 11, or 15 to 20.
    pub number: usize,
    /// The place, in bytes from the start of the lent text or packet; under [`Refusal::TOO_SHORT`] which buffer it is.
    pub place: usize,
    /// The need under [`Refusal::TOO_SHORT`], in rows for a row table and else in bytes; 0 under any other number.
    pub count: usize,
}

impl Refusal {
    /// The number of a table or buffer that is too short.
    ///
    /// ```
    /// use lumbrisse::Refusal;
    ///
    /// let refusal = lumbrisse::content(b"flat", &mut [0; 3]).unwrap_err();
    /// assert_eq!(refusal, Refusal { number: Refusal::TOO_SHORT, place: 0, count: 4 });
    /// ```
    pub const TOO_SHORT: usize = 9;

    /// The number of a month that there is none of.
    ///
    /// ```
    /// use lumbrisse::Refusal;
    ///
    /// let refusal = lumbrisse::totals_to_vec(b"", 2024, 13).unwrap_err();
    /// assert_eq!(refusal, Refusal { number: Refusal::BAD_MONTH, place: 0, count: 0 });
    /// ```
    pub const BAD_MONTH: usize = 15;

    /// The number of a line that strict reading does not let pass for a comment.
    ///
    /// ```
    /// use lumbrisse::Refusal;
    ///
    /// let refusal = lumbrisse::read_strict(b"2024-13-31 close A:B\n", &mut [0; 32]).unwrap_err();
    /// assert_eq!(refusal, Refusal { number: Refusal::LOST_LINE, place: 0, count: 0 });
    /// ```
    pub const LOST_LINE: usize = 16;

    /// The number of a transaction's flag that strict reading does not let pass.
    ///
    /// ```
    /// use lumbrisse::Refusal;
    ///
    /// let refusal = lumbrisse::read_strict(b"2024-12-31 P\n", &mut [0; 64]).unwrap_err();
    /// assert_eq!(refusal, Refusal { number: Refusal::FLAG, place: 11, count: 0 });
    /// ```
    pub const FLAG: usize = 17;

    /// What the number means, in plain words.
    ///
    /// ```
    /// let refusal = lumbrisse::content(b"a\\", &mut []).unwrap_err();
    /// assert_eq!(refusal.meaning(), "a row count, a row's span, a block, its new bytes or the string content is not valid");
    /// ```
    pub fn meaning(&self) -> &'static str {
        match self.number {
            _ if self.is_short_of_work() => "the working space is too short",
            1 => "the text is longer than 16,777,216 bytes",
            2 => "this byte is not permitted: only tab, line feed, space to ~, and carriage return before line feed are",
            3 => "a group is opened inside 32 open ones",
            4 => "a required part of this entry is missing",
            5 => "the last line has no line feed, and no entry reads it",
            6 => "a value is larger than 999,999,999.999999",
            7 => "a value is not a whole number of millionths",
            8 => "a value is divided by zero",
            9 => "the table or buffer is too short",
            10 => "a row count, a row's span, a block, its new bytes or the string content is not valid",
            11 => "no expression stands at the start",
            15 => "there is no such month: they are 1 to 12",
            16 => "this line is lost: it starts like an entry or a posting, and no entry reads it",
            17 => "the flag of this transaction is neither * nor !",
            18 => "a text is longer than 65,535 bytes, the most that a field of a packet holds",
            19 => "this field is cut short, or the packet ends where a text is due",
            20 => "this field is not the one that is due: its tag, its length or its order is wrong",
            _ => "a number that this program does not know",
        }
    }

    /// Whether the place says more than that the call as a whole was refused.
    ///
    /// ```
    /// let mut table = [0; 32];
    /// assert!(lumbrisse::read(b"2024-01-31\n", &mut table).unwrap_err().has_place());
    /// assert!(!lumbrisse::read(b"\n", &mut []).unwrap_err().has_place());
    /// assert!(lumbrisse::packet_next(b"\x01", 0, &mut table, &mut []).unwrap_err().has_place());
    /// ```
    pub fn has_place(&self) -> bool {
        !matches!(self.number, 1 | 9 | 10 | 15 | 18)
    }

    /// Which lent buffer is too short, and what it needs; none where the call was refused for something else.
    ///
    /// ```
    /// use lumbrisse::Short;
    ///
    /// let ledger = b"2024-01-31 *\n  Meters:Flat-1  12.5 KWH\n";
    /// let refusal = lumbrisse::totals(ledger, 2024, 1, &mut [], &mut [], &mut [0; 32]).unwrap_err();
    /// assert_eq!(refusal.short(), Some(Short::Work { need: 32 }));
    /// let refusal = lumbrisse::totals(ledger, 2024, 1, &mut [], &mut [0; 32], &mut [0; 32]).unwrap_err();
    /// assert_eq!(refusal.short(), Some(Short::Answer { need: 32 }));
    /// let refusal = lumbrisse::totals(ledger, 2024, 0, &mut [], &mut [], &mut []).unwrap_err();
    /// assert_eq!(refusal.short(), None);
    /// ```
    pub fn short(&self) -> Option<Short> {
        let need = self.count;
        match self.number {
            _ if self.is_short_of_work() => Some(Short::Work { need }),
            Self::TOO_SHORT => Some(Short::Answer { need }),
            _ => None,
        }
    }

    /// Working space is told from the answer's buffer by the place.
    fn is_short_of_work(&self) -> bool {
        self.number == Self::TOO_SHORT && self.place == WORK_PLACE
    }
}

/// The place of a refusal for working space; that for the answer's own buffer is 0.
const WORK_PLACE: usize = 1;

/// A lent buffer that is too short, by what it is for.
///
/// ```
/// use lumbrisse::Short;
///
/// let refusal = lumbrisse::read(b"; one\n; two\n", &mut [0; 32]).unwrap_err();
/// assert_eq!(refusal.short(), Some(Short::Answer { need: 2 }));
/// ```
#[derive(Clone, Copy, Debug, PartialEq, Eq, Hash)]
pub enum Short {
    /// The buffer that the answer is written to.
    Answer {
        /// What it needs: rows where it is a row table, else bytes.
        need: usize,
    },
    /// Working space, which holds no answer.
    Work {
        /// The bytes that each buffer of it needs.
        need: usize,
    },
}

impl fmt::Display for Refusal {
    fn fmt(&self, f: &mut fmt::Formatter<'_>) -> fmt::Result {
        write!(f, "refusal {}", self.number)?;
        if self.has_place() {
            write!(f, " at byte {}", self.place)?;
        }
        write!(f, ": {}", self.meaning())?;
        match self.short() {
            None => Ok(()),
            Some(Short::Work { need }) => write!(f, "; the need is {need} bytes"),
            Some(Short::Answer { need }) => {
                write!(f, "; the need is {need} (rows for a row table, else bytes)")
            }
        }
    }
}

#[cfg(feature = "std")]
impl std::error::Error for Refusal {}
