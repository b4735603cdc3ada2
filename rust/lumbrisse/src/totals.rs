//! Monthly totals: what the postings of a month come to, for each account and currency.

use core::iter::FusedIterator;
use core::slice::ChunksExact;

use crate::call::counted;
use crate::{ffi, span_text, Millionths, Refusal, Row, ROW_BYTES};

/// An item's bytes; and the bytes of each working space for each posting of the month.
///
/// ```
/// use lumbrisse::TOTAL_BYTES;
///
/// let ledger = b"2024-01-31 *\n  Meters:Flat-1  12.5 KWH\n  Cellar:Main\n";
/// let [mut items, mut work, mut spare] = [[0; 2 * TOTAL_BYTES]; 3];
/// assert_eq!(lumbrisse::totals(ledger, 2024, 1, &mut items, &mut work, &mut spare)?.len(), 2);
/// # Ok::<(), lumbrisse::Refusal>(())
/// ```
pub const TOTAL_BYTES: usize = ROW_BYTES;

/// The kind of an item whose postings state an amount. Any other is of postings that state none.
const STATED: u32 = 50;

/// Adds up the postings of a month by account and currency, writes the items to the front of a buffer, and gives them.
///
/// First come the accounts with postings that state an amount, one item for each account and currency, ordered by the
/// account's bytes and then the currency's; then, by the account's bytes, those with postings that state none. Only
/// transactions of that year and month count: no balance, and neither cost nor price. Sums are exact, and no order of
/// transactions changes one; a sum on the way may be larger than a value may.
///
/// `work` and `spare` are working space: [`TOTAL_BYTES`] in each for each posting of the month, whether it states an
/// amount or not.
///
/// Refused as [`read`](crate::read) is, but for 9; then with 15 for a month other than 1 to 12; with 9 at place 1 where
/// `work` or `spare` is too short; with 6, at its account, for the first sum in this order that is larger than a value
/// may be; with 9 at place 0 where `items` is too short. [`Refusal::short`] tells the two from each other, and the need
/// in bytes. Bytes of `items` past the last item keep their content, and all of them do after a refusal. Working space
/// keeps its bytes where the call is refused before it is used, which is before 6 is judged; else the front of each,
/// as long as the need, holds zeros.
///
/// ```
/// let ledger = b"2024-03-31 * \"Flat 2\"\n  Meters:Flat-2     63.8 KWH @ 0.291 EUR\n  Meters:Reference\n\
///     2024-03-31 ! \"Flat 2, corrected\"\n  Meters:Flat-2     -1.3 KWH\n  Meters:Reference   1.3 KWH\n";
/// let [mut items, mut work, mut spare] = [[7; 128]; 3];
/// let mut totals = lumbrisse::totals(ledger, 2024, 3, &mut items, &mut work, &mut spare)?;
/// assert_eq!(totals.len(), 3);
///
/// let flat = totals.next().unwrap();
/// assert_eq!((flat.account, flat.currency), (&b"Meters:Flat-2"[..], Some(&b"KWH"[..])));
/// assert_eq!((flat.sum.to_string(), flat.postings), ("62.5".to_string(), 2));
/// let reference = totals.next().unwrap();
/// assert_eq!((reference.sum.to_string(), reference.postings), ("1.3".to_string(), 1));
/// let unstated = totals.next().unwrap();
/// assert_eq!((unstated.account, unstated.currency), (&b"Meters:Reference"[..], None));
/// assert_eq!(totals.next(), None);
/// assert_eq!((items[96], work), (7, [0; 128]));
///
/// let refusal = lumbrisse::totals(ledger, 2024, 3, &mut items, &mut work, &mut spare[..127]).unwrap_err();
/// assert_eq!((refusal.number, refusal.place, refusal.count), (9, 1, 128));
/// # Ok::<(), lumbrisse::Refusal>(())
/// ```
pub fn totals<'a>(
    ledger: &'a [u8],
    year: usize,
    month: usize,
    items: &'a mut [u8],
    work: &mut [u8],
    spare: &mut [u8],
) -> Result<Totals<'a>, Refusal> {
    let count = counted(ffi::totals(ledger, year, month, items, work, spare))?;
    let written = items.get(..count.saturating_mul(TOTAL_BYTES));
    Ok(Totals::new(ledger, written.unwrap_or_default()))
}

/// What the postings of a month to one account come to, in one currency; or how many of them state no amount.
///
/// ```
/// use lumbrisse::{Millionths, Total, Totals};
///
/// let ledger = b"2024-01-31 *\n  Meters:Flat-1  12.5 KWH\n";
/// let items = lumbrisse::totals_to_vec(ledger, 2024, 1)?;
/// let expected = Total {
///     account: b"Meters:Flat-1",
///     currency: Some(b"KWH"),
///     sum: Millionths(12_500_000),
///     postings: 1,
///     start: 15,
///     end: 28,
/// };
/// assert_eq!(Totals::new(ledger, &items).next(), Some(expected));
/// # Ok::<(), lumbrisse::Refusal>(())
/// ```
#[derive(Clone, Copy, Debug, PartialEq, Eq, Hash)]
pub struct Total<'a> {
    /// The account: a part of the ledger itself.
    pub account: &'a [u8],
    /// The currency, a part of the ledger too; none where the postings state no amount.
    pub currency: Option<&'a [u8]>,
    /// The exact sum of their amounts; 0 where they state none.
    pub sum: Millionths,
    /// How many postings these are.
    pub postings: u32,
    /// Where the account starts in the first of them in the ledger, in bytes from the ledger's start.
    pub start: u32,
    /// Where it ends there.
    pub end: u32,
}

/// The totals in some items, from the first.
///
/// ```
/// use lumbrisse::Totals;
///
/// let ledger = b"2024-01-31 *\n  A:B  1 KWH\n  A:B  2 EUR\n  A:C  -1 KWH\n  A:B\n";
/// let items = lumbrisse::totals_to_vec(ledger, 2024, 1)?;
/// let found: Vec<_> = Totals::new(ledger, &items).map(|total| (total.account, total.currency)).collect();
/// let (eur, kwh): (&[u8], &[u8]) = (b"EUR", b"KWH");
/// assert_eq!(found, [(&b"A:B"[..], Some(eur)), (b"A:B", Some(kwh)), (b"A:C", Some(kwh)), (b"A:B", None)]);
/// # Ok::<(), lumbrisse::Refusal>(())
/// ```
#[derive(Clone, Debug)]
pub struct Totals<'a> {
    ledger: &'a [u8],
    left: ChunksExact<'a, u8>,
}

impl<'a> Totals<'a> {
    /// The totals in the items that [`totals`] has written for a ledger. Bytes past the last whole item are passed
    /// over.
    ///
    /// ```
    /// assert_eq!(lumbrisse::Totals::new(b"", &[0; 95]).len(), 2);
    /// ```
    pub fn new(ledger: &'a [u8], items: &'a [u8]) -> Totals<'a> {
        Totals {
            ledger,
            left: items.chunks_exact(TOTAL_BYTES),
        }
    }
}

/// The total in the bytes of an item, whose fields are those of a row.
fn total<'a>(ledger: &'a [u8], item: &[u8]) -> Option<Total<'a>> {
    let row = Row::from_bytes(item.try_into().ok()?);
    let stated = row.kind.number() == STATED;
    Some(Total {
        account: row.text(ledger),
        currency: stated.then(|| span_text(ledger, row.p as usize, row.q as usize)),
        sum: Millionths(row.value),
        postings: row.line,
        start: row.start,
        end: row.end,
    })
}

impl<'a> Iterator for Totals<'a> {
    type Item = Total<'a>;

    fn next(&mut self) -> Option<Total<'a>> {
        total(self.ledger, self.left.next()?)
    }

    fn size_hint(&self) -> (usize, Option<usize>) {
        self.left.size_hint()
    }

    fn nth(&mut self, n: usize) -> Option<Total<'a>> {
        total(self.ledger, self.left.nth(n)?)
    }
}

impl DoubleEndedIterator for Totals<'_> {
    fn next_back(&mut self) -> Option<Self::Item> {
        total(self.ledger, self.left.next_back()?)
    }
}

impl ExactSizeIterator for Totals<'_> {}

impl FusedIterator for Totals<'_> {}
