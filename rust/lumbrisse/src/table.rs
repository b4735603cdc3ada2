//! A table of rows, gone over row by row.

use core::iter::FusedIterator;
use core::slice::ChunksExact;

use crate::Row;

/// A row's bytes in a table.
///
/// ```
/// let mut room_for_ten = [0; 10 * lumbrisse::ROW_BYTES];
/// assert_eq!(lumbrisse::read(b"\n", &mut room_for_ten), Ok(1));
/// ```
pub const ROW_BYTES: usize = 32;

/// The rows of a table, from its first.
///
/// A table's room is its length divided by [`ROW_BYTES`]; bytes past the last whole row are passed over.
///
/// ```
/// use lumbrisse::Rows;
///
/// let mut table = [0; 100];
/// let count = lumbrisse::read(b"; one\n; two\n", &mut table)?;
/// let lines: Vec<u32> = Rows::new(&table).take(count).map(|row| row.line).collect();
/// assert_eq!(lines, [1, 2]);
/// # Ok::<(), lumbrisse::Refusal>(())
/// ```
#[derive(Clone, Debug)]
pub struct Rows<'a> {
    left: ChunksExact<'a, u8>,
}

impl<'a> Rows<'a> {
    /// The rows of a table, as many as it has room for.
    ///
    /// ```
    /// assert_eq!(lumbrisse::Rows::new(&[0; 95]).len(), 2);
    /// ```
    pub fn new(table: &'a [u8]) -> Rows<'a> {
        Rows {
            left: table.chunks_exact(ROW_BYTES),
        }
    }
}

fn row(bytes: &[u8]) -> Option<Row> {
    bytes.try_into().ok().map(Row::from_bytes)
}

impl Iterator for Rows<'_> {
    type Item = Row;

    fn next(&mut self) -> Option<Row> {
        self.left.next().and_then(row)
    }

    fn size_hint(&self) -> (usize, Option<usize>) {
        self.left.size_hint()
    }

    fn nth(&mut self, n: usize) -> Option<Row> {
        self.left.nth(n).and_then(row)
    }
}

impl DoubleEndedIterator for Rows<'_> {
    fn next_back(&mut self) -> Option<Row> {
        self.left.next_back().and_then(row)
    }
}

impl ExactSizeIterator for Rows<'_> {}

impl FusedIterator for Rows<'_> {}
