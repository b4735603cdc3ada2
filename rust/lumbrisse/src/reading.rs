//! A ledger together with its rows.

use core::ops::Range;
use std::vec::Vec;

use crate::{block_at, edit_to_vec, recover_to_vec, Edit, Refusal, Rows};

/// A ledger and its rows by recovering reading, which stay together while blocks are replaced: what a correction
/// screen holds.
///
/// ```
/// use lumbrisse::{Kind, Reading};
///
/// let mut reading = Reading::recover(b"2024-01-31 * \"open quote\n2024-02-29 *\n".to_vec())?;
/// let refused = reading.rows().find(|row| row.kind == Kind::Refused).unwrap();
///
/// // One block is put right; the rest is not read again.
/// let block = reading.block_at(refused.start as usize).unwrap();
/// reading.replace(block, b"2024-01-31 * \"closed\"\n")?;
/// assert_eq!(reading.ledger(), b"2024-01-31 * \"closed\"\n2024-02-29 *\n");
/// assert!(reading.rows().all(|row| row.kind != Kind::Refused));
/// assert_eq!(reading.table(), lumbrisse::recover_to_vec(reading.ledger())?);
/// # Ok::<(), lumbrisse::Refusal>(())
/// ```
#[derive(Clone, Debug, PartialEq, Eq)]
pub struct Reading {
    ledger: Vec<u8>,
    table: Vec<u8>,
}

impl Reading {
    /// Reads a ledger, on behind damage.
    ///
    /// Refused with 1, or with 9 where there is no memory for the rows.
    ///
    /// ```
    /// let reading = lumbrisse::Reading::recover(b"; one\n; two\n".to_vec())?;
    /// assert_eq!(reading.rows().len(), 2);
    ///
    /// let long = vec![b'\n'; lumbrisse::SIZE_LIMIT + 1];
    /// assert_eq!(lumbrisse::Reading::recover(long).unwrap_err().number, 1);
    /// # Ok::<(), lumbrisse::Refusal>(())
    /// ```
    pub fn recover(ledger: Vec<u8>) -> Result<Reading, Refusal> {
        let table = recover_to_vec(&ledger)?;
        Ok(Reading { ledger, table })
    }

    /// The ledger as it is now.
    ///
    /// ```
    /// let reading = lumbrisse::Reading::recover(b"; note\n".to_vec())?;
    /// assert_eq!(reading.ledger(), b"; note\n");
    /// # Ok::<(), lumbrisse::Refusal>(())
    /// ```
    pub fn ledger(&self) -> &[u8] {
        &self.ledger
    }

    /// The table of its rows, and nothing else in it.
    ///
    /// ```
    /// let reading = lumbrisse::Reading::recover(b"; note\n".to_vec())?;
    /// assert_eq!(reading.table().len(), lumbrisse::ROW_BYTES);
    /// # Ok::<(), lumbrisse::Refusal>(())
    /// ```
    pub fn table(&self) -> &[u8] {
        &self.table
    }

    /// Its rows.
    ///
    /// ```
    /// let reading = lumbrisse::Reading::recover(b"; one\n; two\n".to_vec())?;
    /// let lines: Vec<u32> = reading.rows().map(|row| row.line).collect();
    /// assert_eq!(lines, [1, 2]);
    /// # Ok::<(), lumbrisse::Refusal>(())
    /// ```
    pub fn rows(&self) -> Rows<'_> {
        Rows::new(&self.table)
    }

    /// The block that a place of the ledger lies in, as [`block_at`] has it.
    ///
    /// ```
    /// let reading = lumbrisse::Reading::recover(b"; note\n2024-01-31 *\n".to_vec())?;
    /// assert_eq!(reading.block_at(9), Some(7..20));
    /// # Ok::<(), lumbrisse::Refusal>(())
    /// ```
    pub fn block_at(&self, place: usize) -> Option<Range<usize>> {
        block_at(&self.ledger, place)
    }

    /// Replaces one block by new bytes, and reads nothing else anew.
    ///
    /// Refused as [`edit`](crate::edit) is, with 9 only where there is no memory for the new ledger or its rows; the
    /// ledger and its rows are then as they were.
    ///
    /// ```
    /// let mut reading = lumbrisse::Reading::recover(b"; note\n2024-01-31 *\npoptag #a\n".to_vec())?;
    /// reading.replace(7..20, b"")?;
    /// assert_eq!(reading.ledger(), b"; note\npoptag #a\n");
    ///
    /// // No line feed at its end, and then no block.
    /// assert_eq!(reading.replace(0..7, b"; other").unwrap_err().number, 10);
    /// assert_eq!(reading.replace(0..6, b"; other\n").unwrap_err().number, 10);
    /// assert_eq!(reading.ledger(), b"; note\npoptag #a\n");
    /// # Ok::<(), lumbrisse::Refusal>(())
    /// ```
    pub fn replace(&mut self, block: Range<usize>, new: &[u8]) -> Result<(), Refusal> {
        let Range { start, end } = block;
        let change = Edit { start, end, new };
        let table = edit_to_vec(&self.ledger, &self.table, self.rows().len(), change)?;
        let more = new.len().saturating_sub(block.len());
        self.ledger.try_reserve(more).map_err(|_| Refusal {
            number: Refusal::TOO_SHORT,
            place: 0,
            count: Rows::new(&table).len(),
        })?;
        // The edit was accepted, so the block lies within the ledger.
        self.ledger.splice(block, new.iter().copied());
        self.table = table;
        Ok(())
    }

    /// The ledger and the table of its rows, each by itself.
    ///
    /// ```
    /// let reading = lumbrisse::Reading::recover(b"; note\n".to_vec())?;
    /// let (ledger, table) = reading.into_parts();
    /// assert_eq!(lumbrisse::recover_to_vec(&ledger), Ok(table));
    /// # Ok::<(), lumbrisse::Refusal>(())
    /// ```
    pub fn into_parts(self) -> (Vec<u8>, Vec<u8>) {
        (self.ledger, self.table)
    }
}
