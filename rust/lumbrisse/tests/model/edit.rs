//! A model of edits, from document 02 (M-109) alone, over recovering reading of the new bytes: it has nothing of the
//! library's edits and blocks.

use lumbrisse::{recover_to_vec, Edit, Refusal, SIZE_LIMIT};

use super::rows::{blocks, field, line_feeds, moved, starts_block, written, ROW_BYTES};

fn refused(number: usize) -> Refusal {
    Refusal {
        number,
        place: 0,
        count: 0,
    }
}

/// The ledger after an edit.
pub fn edited(ledger: &[u8], change: Edit) -> Vec<u8> {
    [&ledger[..change.start], change.new, &ledger[change.end..]].concat()
}

/// 1 and 10, in this order.
fn judged(ledger: &[u8], rows: &[u8], k: usize, change: Edit) -> Result<(), Refusal> {
    let Edit { start, end, new } = change;
    let inside = start <= end && end <= ledger.len();
    let long = |length: usize| length > SIZE_LIMIT;
    if long(ledger.len()) || inside && long(ledger.len() - (end - start) + new.len()) {
        return Err(refused(1));
    }
    let is_block = blocks(ledger).contains(&(start..end));
    let good_start = start == 0 || new.first().map_or(true, |byte| starts_block(*byte));
    let good_end = end == ledger.len() || new.is_empty() || new.ends_with(b"\n");
    match is_block && k <= rows.len() / ROW_BYTES && good_start && good_end {
        true => Ok(()),
        false => Err(refused(10)),
    }
}

/// The table after an edit, whatever room there is for it.
pub fn table(ledger: &[u8], rows: &[u8], k: usize, change: Edit) -> Result<Vec<u8>, Refusal> {
    judged(ledger, rows, k, change)?;
    let Edit { start, end, new } = change;
    let given = || rows.chunks_exact(ROW_BYTES).take(k);
    let before = given().filter(|row| (field(row, 1) as usize) < start);
    let mut table: Vec<u8> = before.flatten().copied().collect();

    let lines = line_feeds(&ledger[..start]);
    for row in recover_to_vec(new).unwrap().chunks_exact(ROW_BYTES) {
        table.extend(moved(row, start as u32, lines));
    }
    if end < ledger.len() {
        let bytes = (new.len() as u32).wrapping_sub((end - start) as u32);
        let lines = line_feeds(new).wrapping_sub(line_feeds(&ledger[start..end]));
        for row in given().filter(|row| field(row, 1) as usize >= end) {
            table.extend(moved(row, bytes, lines));
        }
    }
    Ok(table)
}

/// Writes the table after an edit, or leaves the buffer.
pub fn write(
    ledger: &[u8],
    rows: &[u8],
    k: usize,
    change: Edit,
    buffer: &mut [u8],
) -> Result<usize, Refusal> {
    written(table(ledger, rows, k, change)?, buffer)
}
