//! Rows and blocks as documents 01 and 02 say them, with nothing of the library's own.

use std::ops::Range;

use lumbrisse::Refusal;

pub const ROW_BYTES: usize = 32;

/// The kinds whose p and q are a span, and that of a refused block.
const SPANNED: [u32; 6] = [26, 29, 30, 35, 36, 37];
pub const REFUSED: u32 = 90;

pub fn starts_block(byte: u8) -> bool {
    matches!(byte, b'0'..=b'9' | b'a'..=b'z')
}

/// The blocks of a ledger, cut at its boundaries.
pub fn blocks(ledger: &[u8]) -> Vec<Range<usize>> {
    let pairs = ledger.windows(2).enumerate();
    let boundary = |(place, pair): (usize, &[u8])| {
        (pair[0] == b'\n' && starts_block(pair[1])).then_some(place + 1)
    };
    let mut cuts = vec![0];
    cuts.extend(pairs.filter_map(boundary));
    cuts.push(ledger.len());
    cuts.windows(2).map(|cut| cut[0]..cut[1]).collect()
}

pub fn field(row: &[u8], number: usize) -> u32 {
    u32::from_le_bytes(row[4 * number..][..4].try_into().unwrap())
}

/// Adds to a field modulo 2^32.
fn add(row: &mut [u8], number: usize, more: u32) {
    let sum = field(row, number).wrapping_add(more);
    row[4 * number..][..4].copy_from_slice(&sum.to_le_bytes());
}

/// A row by so many bytes and lines further behind.
pub fn moved(row: &[u8], bytes: u32, lines: u32) -> Vec<u8> {
    let mut row = row.to_vec();
    let kind = field(&row, 0);
    add(&mut row, 1, bytes);
    add(&mut row, 2, bytes);
    add(&mut row, 3, lines);
    if SPANNED.contains(&kind) {
        add(&mut row, 4, bytes);
    }
    if SPANNED.contains(&kind) || kind == REFUSED {
        add(&mut row, 5, bytes);
    }
    row
}

pub fn line_feeds(bytes: &[u8]) -> u32 {
    bytes.iter().filter(|byte| **byte == b'\n').count() as u32
}

/// Writes a table to the front of a buffer, or leaves that where it is too short.
pub fn written(table: Vec<u8>, buffer: &mut [u8]) -> Result<usize, Refusal> {
    let count = table.len() / ROW_BYTES;
    if buffer.len() / ROW_BYTES < count {
        return Err(Refusal {
            number: 9,
            place: 0,
            count,
        });
    }
    buffer[..table.len()].copy_from_slice(&table);
    Ok(count)
}
