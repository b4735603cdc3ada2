//! The calls that make their own table, packet, items or text.

use std::vec::Vec;

use crate::{
    edit, packet, read, read_strict, recover, recover_strict, totals, write, Edit, Refusal, Short,
    ROW_BYTES, SIZE_LIMIT, TOTAL_BYTES,
};

/// How many bytes of a ledger a first table has a row for; ledgers of readings need fewer rows.
const BYTES_TO_A_ROW: usize = 8;

/// Plain reading into a table of its own, which holds the ledger's rows and nothing else.
///
/// Refused as [`read`] is; with 9 only where the memory for the need cannot be had.
///
/// ```
/// let table = lumbrisse::read_to_vec(b"; one\n; two\n")?;
/// assert_eq!(table.len(), 2 * lumbrisse::ROW_BYTES);
/// # Ok::<(), lumbrisse::Refusal>(())
/// ```
pub fn read_to_vec(ledger: &[u8]) -> Result<Vec<u8>, Refusal> {
    table(ledger, read)
}

/// Strict reading into a table of its own, as [`read_to_vec`].
///
/// ```
/// assert_eq!(lumbrisse::read_strict_to_vec(b"; one\n"), lumbrisse::read_to_vec(b"; one\n"));
/// assert_eq!(lumbrisse::read_strict_to_vec(b"; one\n1\n").unwrap_err().number, 16);
/// ```
pub fn read_strict_to_vec(ledger: &[u8]) -> Result<Vec<u8>, Refusal> {
    table(ledger, read_strict)
}

/// Recovering reading into a table of its own, as [`read_to_vec`].
///
/// ```
/// let table = lumbrisse::recover_to_vec(b"2024-01-31\n; kept with what stands above it\n")?;
/// assert_eq!(table.len(), lumbrisse::ROW_BYTES);
/// # Ok::<(), lumbrisse::Refusal>(())
/// ```
pub fn recover_to_vec(ledger: &[u8]) -> Result<Vec<u8>, Refusal> {
    table(ledger, recover)
}

/// Strict recovering reading into a table of its own, as [`read_to_vec`].
///
/// ```
/// let table = lumbrisse::recover_strict_to_vec(b"1\n; kept with what stands above it\n")?;
/// assert_eq!(table.len(), lumbrisse::ROW_BYTES);
/// # Ok::<(), lumbrisse::Refusal>(())
/// ```
pub fn recover_strict_to_vec(ledger: &[u8]) -> Result<Vec<u8>, Refusal> {
    table(ledger, recover_strict)
}

/// The packet of the first `k` rows of a table, in bytes of its own.
///
/// Refused as [`packet`] is; with 9 only where the memory for the need cannot be had.
///
/// ```
/// use lumbrisse::{Packets, Rows};
///
/// let ledger = b"2024-01-31 close Meters:Flat-1\n";
/// let table = lumbrisse::read_to_vec(ledger)?;
/// let packet = lumbrisse::packet_to_vec(ledger, &table, Rows::new(&table).len())?;
/// assert_eq!(packet.len(), 35 + 35 + 3 + 13);
/// assert_eq!(Packets::new(&packet).count(), 2);
/// # Ok::<(), lumbrisse::Refusal>(())
/// ```
pub fn packet_to_vec(ledger: &[u8], table: &[u8], k: usize) -> Result<Vec<u8>, Refusal> {
    // With no room the first call says the need, in bytes.
    grown(0, 1, |bytes| packet(ledger, table, k, bytes))
}

/// The rows of a ledger in which one block is replaced, in a table of its own.
///
/// Refused as [`edit`] is; with 9 only where the memory for the need cannot be had.
///
/// ```
/// use lumbrisse::Edit;
///
/// let ledger = b"2024-01-31 * \"open quote\n2024-02-29 *\n";
/// let table = lumbrisse::recover_to_vec(ledger)?;
/// let change = Edit { start: 0, end: 25, new: b"2024-01-31 * \"closed\"\n" };
/// let rows = lumbrisse::edit_to_vec(ledger, &table, table.len() / lumbrisse::ROW_BYTES, change)?;
/// assert_eq!(rows, lumbrisse::recover_to_vec(b"2024-01-31 * \"closed\"\n2024-02-29 *\n")?);
/// # Ok::<(), lumbrisse::Refusal>(())
/// ```
pub fn edit_to_vec(
    ledger: &[u8],
    rows: &[u8],
    k: usize,
    change: Edit<'_>,
) -> Result<Vec<u8>, Refusal> {
    let given = k.min(rows.len() / ROW_BYTES);
    let guess = given.saturating_add(first_rows(change.new));
    grown(guess, ROW_BYTES, |table| {
        edit(ledger, rows, k, change, table)
    })
}

/// The totals of a month, in items of their own and with working space of their own; [`Totals`](crate::Totals) goes
/// over them.
///
/// Refused as [`totals`] is; with 9 only where the memory for the need cannot be had.
///
/// ```
/// use lumbrisse::Totals;
///
/// let ledger = b"2024-01-31 *\n  Meters:Flat-1  12.5 KWH\n  Meters:Flat-1  1 KWH\n  Cellar:Main\n";
/// let items = lumbrisse::totals_to_vec(ledger, 2024, 1)?;
/// let found: Vec<_> = Totals::new(ledger, &items).map(|total| (total.account, total.sum.to_string())).collect();
/// assert_eq!(found, [(&b"Meters:Flat-1"[..], "13.5".to_string()), (b"Cellar:Main", "0".to_string())]);
/// # Ok::<(), lumbrisse::Refusal>(())
/// ```
pub fn totals_to_vec(ledger: &[u8], year: usize, month: usize) -> Result<Vec<u8>, Refusal> {
    let (mut items, mut work, mut spare) = (Vec::new(), Vec::new(), Vec::new());
    // With no room the first call says the need, or that there is nothing to add up.
    let mut answer =
        totals(ledger, year, month, &mut [], &mut [], &mut []).map(|found| found.len());
    if let Err(refusal) = answer {
        if let Some(Short::Work { need }) = refusal.short() {
            // There are no more items than postings, so that what is enough for these is enough for the items.
            for buffer in [&mut items, &mut work, &mut spare] {
                lengthen(buffer, need).ok_or(refusal)?;
            }
            answer = totals(ledger, year, month, &mut items, &mut work, &mut spare)
                .map(|found| found.len());
        }
    }
    items.truncate(answer?.saturating_mul(TOTAL_BYTES));
    Ok(items)
}

/// A ledger written afresh, in bytes of its own and with working space of its own.
///
/// Refused as [`write`] is; with 9 only where the memory for the need cannot be had. The text may be longer than
/// [`SIZE_LIMIT`]: then it is no ledger that can be read again.
///
/// ```
/// let ledger = b"; readings\n2024-01-31  price\tKWH  0.310 EUR ; of the year\n\n";
/// let text = lumbrisse::written(ledger)?;
/// assert_eq!(text, b"; readings\n2024-01-31 price KWH 0.31 EUR\n");
/// assert_eq!(lumbrisse::written(&text)?, text);
/// assert_eq!(lumbrisse::written(b"2024-01-31\n").unwrap_err().number, 4);
/// # Ok::<(), lumbrisse::Refusal>(())
/// ```
pub fn written(ledger: &[u8]) -> Result<Vec<u8>, Refusal> {
    let (mut output, mut work) = (Vec::new(), Vec::new());
    // What is written is mostly shorter than the ledger. A guess that no memory can be had for leaves its buffer empty.
    let _ = lengthen(&mut output, ledger.len().min(SIZE_LIMIT));
    let _ = lengthen(&mut work, first_rows(ledger).saturating_mul(ROW_BYTES));
    loop {
        let refusal = match write(ledger, &mut output, &mut work) {
            Ok(count) => {
                output.truncate(count);
                return Ok(output);
            }
            Err(refusal) => refusal,
        };
        let (buffer, need) = match refusal.short() {
            None => return Err(refusal),
            Some(Short::Work { need }) => (&mut work, need),
            Some(Short::Answer { need }) => (&mut output, need),
        };
        // Each buffer is lengthened once: it is not short of its need again.
        if need <= buffer.len() {
            return Err(refusal);
        }
        lengthen(buffer, need).ok_or(refusal)?;
    }
}

/// The rows of a ledger, in a first table that fits most of them.
fn table(
    ledger: &[u8],
    call: fn(&[u8], &mut [u8]) -> Result<usize, Refusal>,
) -> Result<Vec<u8>, Refusal> {
    grown(first_rows(ledger), ROW_BYTES, |table| call(ledger, table))
}

/// How many rows of a text a first table has room for.
fn first_rows(text: &[u8]) -> usize {
    text.len().min(SIZE_LIMIT) / BYTES_TO_A_ROW
}

/// Calls with room for a guess, and where that is too short once more with room for the need. A call counts pieces of
/// one size, and so does its need.
fn grown(
    guess: usize,
    size: usize,
    call: impl Fn(&mut [u8]) -> Result<usize, Refusal>,
) -> Result<Vec<u8>, Refusal> {
    let mut buffer = Vec::new();
    // A guess that no memory can be had for leaves the buffer empty, and the first call then says the need.
    let _ = lengthen(&mut buffer, guess.saturating_mul(size));
    let mut answer = call(&mut buffer);
    if let Err(refusal) = answer {
        if refusal.number == Refusal::TOO_SHORT {
            let need = refusal.count.checked_mul(size).ok_or(refusal)?;
            lengthen(&mut buffer, need).ok_or(refusal)?;
            answer = call(&mut buffer);
        }
    }
    buffer.truncate(answer?.saturating_mul(size));
    Ok(buffer)
}

/// Makes a buffer so many bytes long, or leaves it where the memory cannot be had.
fn lengthen(buffer: &mut Vec<u8>, length: usize) -> Option<()> {
    buffer
        .try_reserve_exact(length.saturating_sub(buffer.len()))
        .ok()?;
    buffer.resize(length, 0);
    Some(())
}
