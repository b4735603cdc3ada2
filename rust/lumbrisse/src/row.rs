//! One row of a table.

use crate::{span_text, Date, Kind, Refusal, ROW_BYTES};

/// A row: an entry of the ledger, a detail of the entry before it, or a refused block.
///
/// ```
/// use lumbrisse::{Date, Kind, Rows};
///
/// let ledger = b"2024-01-31 price KWH 0.31 EUR\n";
/// let table = lumbrisse::read_to_vec(ledger)?;
/// let rows: Vec<_> = Rows::new(&table).collect();
/// assert_eq!(rows[0].kind, Kind::Price);
/// assert_eq!(rows[0].date(), Some(Date(20240131)));
/// assert_eq!(rows[1].text(ledger), b"KWH");
/// assert_eq!((rows[2].value, rows[2].currency(ledger)), (310_000, Some(&b"EUR"[..])));
/// # Ok::<(), lumbrisse::Refusal>(())
/// ```
#[derive(Clone, Copy, Debug, PartialEq, Eq, Hash)]
pub struct Row {
    /// What the row stands for.
    pub kind: Kind,
    /// Where its span starts, in bytes from the ledger's start.
    pub start: u32,
    /// Where its span ends.
    pub end: u32,
    /// One plus the line feeds before its start.
    pub line: u32,
    /// By kind: a date, a flag's byte, the start of a second span, a refusal's number, or 0.
    pub p: u32,
    /// By kind: the number of details after an entry, the end of a second span, a refusal's place, or 0.
    pub q: u32,
    /// The value in millionths, or 0.
    pub value: i64,
}

impl Row {
    /// The row that 32 bytes of a table hold.
    ///
    /// ```
    /// use lumbrisse::{Row, ROW_BYTES};
    ///
    /// let mut bytes = [0; ROW_BYTES];
    /// assert_eq!(lumbrisse::read(b"; note\n", &mut bytes), Ok(1));
    /// let row = Row::from_bytes(&bytes);
    /// assert_eq!((row.kind.number(), row.start, row.end, row.line), (1, 0, 7, 1));
    /// assert_eq!(row.to_bytes(), bytes);
    /// ```
    pub fn from_bytes(bytes: &[u8; ROW_BYTES]) -> Row {
        let number = |at| u32::from_le_bytes(field(bytes, at));
        Row {
            kind: Kind::from(number(0)),
            start: number(4),
            end: number(8),
            line: number(12),
            p: number(16),
            q: number(20),
            value: i64::from_le_bytes(field(bytes, 24)),
        }
    }

    /// The 32 bytes of the row in a table.
    ///
    /// ```
    /// use lumbrisse::Row;
    ///
    /// let row = Row::from_bytes(&[1; 32]);
    /// assert_eq!(row.to_bytes(), [1; 32]);
    /// ```
    pub fn to_bytes(&self) -> [u8; ROW_BYTES] {
        let mut bytes = [0; ROW_BYTES];
        let fields = [
            self.kind.number(),
            self.start,
            self.end,
            self.line,
            self.p,
            self.q,
        ];
        let (front, value) = bytes.split_at_mut(24);
        for (place, field) in front.chunks_exact_mut(4).zip(fields) {
            place.copy_from_slice(&field.to_le_bytes());
        }
        value.copy_from_slice(&self.value.to_le_bytes());
        bytes
    }

    /// The text of the row's span: a part of the ledger, without copying.
    ///
    /// ```
    /// use lumbrisse::{Kind, Rows};
    ///
    /// let ledger = b"2024-01-31 close Meters:Flat-1\n";
    /// let table = lumbrisse::read_to_vec(ledger)?;
    /// let row = Rows::new(&table).find(|row| row.kind == Kind::Account).unwrap();
    /// assert_eq!(row.text(ledger), b"Meters:Flat-1");
    /// # Ok::<(), lumbrisse::Refusal>(())
    /// ```
    pub fn text<'a>(&self, ledger: &'a [u8]) -> &'a [u8] {
        span_text(ledger, self.start as usize, self.end as usize)
    }

    /// The date of an entry or of a cost, where it has one.
    ///
    /// ```
    /// use lumbrisse::{Date, Rows};
    ///
    /// let table = lumbrisse::read_to_vec(b"2024-01-31 commodity KWH\n; note\n")?;
    /// let dates: Vec<_> = Rows::new(&table).filter_map(|row| row.date()).collect();
    /// assert_eq!(dates, [Date(20240131)]);
    /// # Ok::<(), lumbrisse::Refusal>(())
    /// ```
    pub fn date(&self) -> Option<Date> {
        let dated = self.kind.is_entry() || self.kind == Kind::Cost;
        (dated && self.p != 0).then_some(Date(self.p))
    }

    /// The currency of an amount or price.
    ///
    /// ```
    /// use lumbrisse::Rows;
    ///
    /// let ledger = b"2024-01-31 balance Meters:Flat-1 118.2 ~ 0.1 KWH\n";
    /// let table = lumbrisse::read_to_vec(ledger)?;
    /// let currencies: Vec<_> = Rows::new(&table).filter_map(|row| row.currency(ledger)).collect();
    /// assert_eq!(currencies, [b"KWH"]);
    /// # Ok::<(), lumbrisse::Refusal>(())
    /// ```
    pub fn currency<'a>(&self, ledger: &'a [u8]) -> Option<&'a [u8]> {
        matches!(self.kind, Kind::Amount | Kind::UnitPrice | Kind::TotalPrice)
            .then(|| self.second_text(ledger))
    }

    /// The text of a metadata line's value; its key is the row's own text.
    ///
    /// ```
    /// use lumbrisse::{Kind, Rows};
    ///
    /// let ledger = b"2024-01-01 open Meters:Flat-1 KWH\n  serial: \"A-17\"\n";
    /// let table = lumbrisse::read_to_vec(ledger)?;
    /// let row = Rows::new(&table).find(|row| row.kind == Kind::MetadataString).unwrap();
    /// assert_eq!(row.text(ledger), b"serial");
    /// assert_eq!(row.metadata(ledger), Some(&b"A-17"[..]));
    /// # Ok::<(), lumbrisse::Refusal>(())
    /// ```
    pub fn metadata<'a>(&self, ledger: &'a [u8]) -> Option<&'a [u8]> {
        matches!(
            self.kind,
            Kind::MetadataString | Kind::MetadataNumber | Kind::MetadataCurrency
        )
        .then(|| self.second_text(ledger))
    }

    /// The flag of a posting, where it has one.
    ///
    /// ```
    /// use lumbrisse::Rows;
    ///
    /// let table = lumbrisse::read_to_vec(b"2024-01-31 *\n  ! Meters:Flat-1\n  Cellar:Main\n")?;
    /// let flags: Vec<_> = Rows::new(&table).map(|row| row.flag()).collect();
    /// assert_eq!(flags, [None, None, Some(b'!'), None]);
    /// # Ok::<(), lumbrisse::Refusal>(())
    /// ```
    pub fn flag(&self) -> Option<u8> {
        match u8::try_from(self.p) {
            Ok(flag) if flag != 0 && self.kind == Kind::Posting => Some(flag),
            _ => None,
        }
    }

    /// Why a block was refused, for a row of kind [`Kind::Refused`].
    ///
    /// ```
    /// use lumbrisse::Rows;
    ///
    /// let table = lumbrisse::recover_to_vec(b"2024-01-31\n2024-02-29 * \"Feb\"\n")?;
    /// let refused: Vec<_> = Rows::new(&table).filter_map(|row| row.refusal()).collect();
    /// assert_eq!(refused.len(), 1);
    /// assert_eq!((refused[0].number, refused[0].place), (4, 0));
    /// # Ok::<(), lumbrisse::Refusal>(())
    /// ```
    pub fn refusal(&self) -> Option<Refusal> {
        (self.kind == Kind::Refused).then_some(Refusal {
            number: self.p as usize,
            place: self.q as usize,
            count: 0,
        })
    }

    fn second_text<'a>(&self, ledger: &'a [u8]) -> &'a [u8] {
        span_text(ledger, self.p as usize, self.q as usize)
    }
}

/// The bytes of a field that starts at a place within a row.
fn field<const N: usize>(bytes: &[u8; ROW_BYTES], at: usize) -> [u8; N] {
    let rest = bytes.get(at..).unwrap_or_default();
    rest.first_chunk().copied().unwrap_or([0; N])
}
