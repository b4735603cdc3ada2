//! A ledger written afresh: one layout for what it says.

use crate::call::counted;
use crate::{ffi, Refusal};

/// Writes a ledger afresh to the front of a buffer, and gives the number of bytes.
///
/// Parts stand one space apart, postings and metadata behind two spaces, and lines end in a line feed. An expression is
/// replaced by its value, without trailing zeros. Comments and empty lines inside an entry are dropped: behind its
/// parts, between its lines, and below it up to the next entry, which for a directive includes those that are not
/// indented. A blank entry, which is a line that no other form reads, stays byte by byte.
///
/// Where no blank entry holds a quote and the output is not longer than [`SIZE_LIMIT`](crate::SIZE_LIMIT), reading it
/// gives the same kinds, dates, values and texts in the same order, but for the texts of entries, expressions and
/// braces; and writing it again gives the same bytes.
///
/// `work` is working space: [`ROW_BYTES`](crate::ROW_BYTES) for each row that [`read`](crate::read) gives.
///
/// Refused as [`read`](crate::read) is, but for 9; then with 9 at place 1 where `work` is too short; with 9 at place 0
/// where `output` is. [`Refusal::short`] tells the two from each other, and the need in bytes. Bytes of `output` past
/// those written keep their content, and all of them do after a refusal. Working space keeps its bytes where the ledger
/// or `work` itself is refused; else its front, as long as the need, holds zeros.
///
/// ```
/// let ledger = b"2024-01-31  *  \"Flat 2\" ; by hand\r\n\tMeters:Flat-2   (1,204.50 - 1200)/2 KWH\n";
/// let (mut output, mut work) = ([7; 64], [7; 5 * lumbrisse::ROW_BYTES + 1]);
/// let count = lumbrisse::write(ledger, &mut output, &mut work)?;
/// assert_eq!(&output[..count], b"2024-01-31 * \"Flat 2\"\n  Meters:Flat-2 2.25 KWH\n");
/// assert_eq!((output[count], work[159], work[160]), (7, 0, 7));
///
/// let refusal = lumbrisse::write(ledger, &mut output[..count - 1], &mut work).unwrap_err();
/// assert_eq!((refusal.number, refusal.place, refusal.count), (9, 0, count));
/// let refusal = lumbrisse::write(ledger, &mut output, &mut work[..159]).unwrap_err();
/// assert_eq!((refusal.number, refusal.place, refusal.count), (9, 1, 160));
/// # Ok::<(), lumbrisse::Refusal>(())
/// ```
pub fn write(ledger: &[u8], output: &mut [u8], work: &mut [u8]) -> Result<usize, Refusal> {
    counted(ffi::write(ledger, output, work))
}
