//! A model of strict reading, from document 02 (M-110) alone, over the rows and the text of plain reading.

use lumbrisse::{read_to_vec, Refusal};

use super::rows::{blocks, field, line_feeds, moved, REFUSED, ROW_BYTES};

const BLANK: u32 = 1;
const FLAG: u32 = 20;

/// Whether a blank entry is a lost line: it starts with a digit, with blanks before something other than a comment or
/// line end, or with `option`.
fn is_lost(entry: &str) -> bool {
    let behind = entry.trim_start_matches([' ', '\t']);
    let harmless = [";", "\n", "\r\n"]
        .iter()
        .any(|end| behind.starts_with(end));
    entry.starts_with(|c: char| c.is_ascii_digit())
        || entry.starts_with("option")
        || behind.len() < entry.len() && !harmless
}

/// What strict reading has against a row: the number and the place.
fn objection(ledger: &[u8], row: &[u8]) -> Option<(usize, usize)> {
    let [kind, start, end] = [0, 1, 2].map(|number| field(row, number) as usize);
    // Plain reading accepts no other bytes than those of text.
    let text = std::str::from_utf8(&ledger[start..end]).unwrap();
    match kind as u32 {
        BLANK if is_lost(text) => Some((16, start)),
        FLAG if text != "*" && text != "!" => Some((17, start)),
        _ => None,
    }
}

/// All that strict reading has against a ledger that plain reading accepts: numbers and places.
pub fn objections(ledger: &[u8]) -> Result<Vec<(usize, usize)>, Refusal> {
    let table = read_to_vec(ledger)?;
    let rows = table.chunks_exact(ROW_BYTES);
    Ok(rows.filter_map(|row| objection(ledger, row)).collect())
}

/// The table of strict reading, whatever room there is for it.
pub fn read(ledger: &[u8]) -> Result<Vec<u8>, Refusal> {
    let objections = objections(ledger)?;
    match objections.iter().min_by_key(|(_, place)| *place) {
        None => read_to_vec(ledger),
        Some(&(number, place)) => Err(Refusal {
            number,
            place,
            count: 0,
        }),
    }
}

/// The table of strict recovering reading, of a ledger that is not too long.
pub fn recover(ledger: &[u8]) -> Result<Vec<u8>, Refusal> {
    let mut table = Vec::new();
    for block in blocks(ledger) {
        let (bytes, lines) = (block.start as u32, line_feeds(&ledger[..block.start]));
        match read(&ledger[block.clone()]) {
            Ok(rows) => {
                let rows = rows.chunks_exact(ROW_BYTES);
                table.extend(rows.flat_map(|row| moved(row, bytes, lines)));
            }
            Err(refusal) => {
                let (number, place) = (refusal.number as u32, refusal.place as u32);
                let end = block.end as u32;
                for field in [REFUSED, bytes, end, lines + 1, number, bytes + place, 0, 0] {
                    table.extend(field.to_le_bytes());
                }
            }
        }
    }
    Ok(table)
}
