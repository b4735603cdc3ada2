//! Edits: one block of a recovered ledger is replaced, and only that block is read anew.

use core::ops::Range;

use crate::call::counted;
use crate::{ffi, Refusal};

/// What an edit does to a ledger: the bytes from `start` to `end`, which are one block, give way to new ones.
///
/// ```
/// use lumbrisse::Edit;
///
/// let removed = Edit { start: 0, end: 7, new: b"" };
/// let table = lumbrisse::recover_to_vec(b"; note\n2024-01-31 *\n")?;
/// let rows = lumbrisse::edit_to_vec(b"; note\n2024-01-31 *\n", &table, 3, removed)?;
/// assert_eq!(rows, lumbrisse::recover_to_vec(b"2024-01-31 *\n")?);
/// # Ok::<(), lumbrisse::Refusal>(())
/// ```
#[derive(Clone, Copy, Debug, PartialEq, Eq, Hash)]
pub struct Edit<'a> {
    /// Where the block starts: at 0, or at a digit or small letter behind a line feed.
    pub start: usize,
    /// Where it ends: at the next such place, or at the ledger's end.
    pub end: usize,
    /// What takes its place: nothing; or bytes that start with a digit or small letter, unless the block is the first,
    /// and end in a line feed, unless it is the last.
    pub new: &'a [u8],
}

/// Writes the rows of a ledger after an edit to the front of a table and gives their number.
///
/// The first `k` rows of another table are meant to be those of [`recover`](crate::recover) on the ledger as it was;
/// the new ones are then those of recovering reading on the ledger as it is. Whatever rows are given, those that start
/// before the block are kept, then come the rows of the new bytes, then, unless the block is the last, the given rows
/// that start at its end or later, moved.
///
/// Bytes of the table past the last row keep their content, and all of them do after a refusal: 1 where the ledger is
/// or becomes longer than [`SIZE_LIMIT`](crate::SIZE_LIMIT); 10 where the block is none, the rows' table has no room
/// for `k`, or the new bytes are not as [`Edit`] says; then 9 with the need in rows.
///
/// ```
/// use lumbrisse::{Edit, Kind, Rows};
///
/// let ledger = b"2024-01-31 * \"open quote\n2024-02-29 *\n";
/// let mut rows = [0; 96];
/// let k = lumbrisse::recover(ledger, &mut rows)?;
///
/// let mut table = [7; 161];
/// let change = Edit { start: 0, end: 25, new: b"2024-01-31 * \"closed\"\n" };
/// assert_eq!(lumbrisse::edit(ledger, &rows, k, change, &mut table), Ok(5));
/// let moved = Rows::new(&table).nth(3).unwrap();
/// assert_eq!((moved.kind, moved.start, moved.line), (Kind::Transaction, 22, 2));
/// assert_eq!(table[160], 7);
///
/// let refusal = lumbrisse::edit(ledger, &rows, k, change, &mut table[..159]).unwrap_err();
/// assert_eq!((refusal.number, refusal.count), (9, 5));
/// let part = Edit { end: 24, ..change };
/// assert_eq!(lumbrisse::edit(ledger, &rows, k, part, &mut table).unwrap_err().number, 10);
/// # Ok::<(), lumbrisse::Refusal>(())
/// ```
pub fn edit(
    ledger: &[u8],
    rows: &[u8],
    k: usize,
    change: Edit<'_>,
    table: &mut [u8],
) -> Result<usize, Refusal> {
    let Edit { start, end, new } = change;
    counted(ffi::edit(ledger, rows, k, start, end, new, table))
}

/// The block that a place of a ledger lies in; none at the ledger's end or behind it.
///
/// Recovering reading cuts a ledger before each line that starts with a digit or small letter. A ledger without bytes
/// is one block without bytes, at 0.
///
/// ```
/// let ledger = b"; note\n2024-01-31 *\n  Cellar:Main\npoptag #a\n";
/// assert_eq!(lumbrisse::block_at(ledger, 6), Some(0..7));
/// assert_eq!(lumbrisse::block_at(ledger, 7), Some(7..34));
/// assert_eq!(lumbrisse::block_at(ledger, 43), Some(34..44));
/// assert_eq!(lumbrisse::block_at(ledger, 44), None);
/// assert_eq!(lumbrisse::block_at(b"", 0), Some(0..0));
/// ```
pub fn block_at(ledger: &[u8], place: usize) -> Option<Range<usize>> {
    let length = ledger.len();
    if place >= length.max(1) {
        return None;
    }
    let is_boundary = |at: &usize| is_boundary(ledger, *at);
    let start = (0..=place).rev().find(is_boundary).unwrap_or(0);
    let behind = start.saturating_add(1);
    let end = (behind..length).find(is_boundary).unwrap_or(length);
    Some(start..end)
}

/// Whether a line that starts with a digit or small letter starts at a place behind the ledger's first byte.
fn is_boundary(ledger: &[u8], place: usize) -> bool {
    let before = place.checked_sub(1).and_then(|before| ledger.get(before));
    let here = ledger.get(place);
    before == Some(&b'\n')
        && here.is_some_and(|byte| byte.is_ascii_digit() || byte.is_ascii_lowercase())
}
