//! A model of packets, from document 02 (M-112) alone: it has nothing of the archive, nor of the library's packets.

use lumbrisse::{Handed, Refusal};

const ROW_BYTES: usize = 32;

const ENTRY: u8 = 1;
const DETAIL: u8 = 2;
const TEXT: u8 = 3;

fn refusal(number: usize, place: usize, count: usize) -> Refusal {
    Refusal {
        number,
        place,
        count,
    }
}

/// A number of a row: kind 0, start 1, end 2.
fn number(row: &[u8], field: usize) -> usize {
    let bytes = row[4 * field..][..4].try_into().unwrap();
    u32::from_le_bytes(bytes) as usize
}

fn tag(row: &[u8]) -> u8 {
    match number(row, 0) {
        0..=19 => ENTRY,
        _ => DETAIL,
    }
}

fn put(packet: &mut Vec<u8>, tag: u8, content: &[u8]) -> Result<(), Refusal> {
    let length = u16::try_from(content.len()).map_err(|_| refusal(18, 0, 0))?;
    packet.push(tag);
    packet.extend(length.to_be_bytes());
    packet.extend(content);
    Ok(())
}

/// The packet of a table's first rows, whatever room there is for it.
pub fn packet(ledger: &[u8], table: &[u8], k: usize) -> Result<Vec<u8>, Refusal> {
    let bad = refusal(10, 0, 0);
    let mut packet = Vec::new();
    if k > table.len() / ROW_BYTES {
        return Err(bad);
    }
    for row in table.chunks(ROW_BYTES).take(k) {
        put(&mut packet, tag(row), row)?;
        if tag(row) == DETAIL {
            let text = ledger.get(number(row, 1)..number(row, 2)).ok_or(bad)?;
            put(&mut packet, TEXT, text)?;
        }
    }
    Ok(packet)
}

/// Puts some bytes to the front of a buffer that has room for them.
fn fill(buffer: &mut [u8], bytes: &[u8]) {
    buffer[..bytes.len()].copy_from_slice(bytes);
}

/// Writes a packet, or leaves the buffer.
pub fn write(ledger: &[u8], table: &[u8], k: usize, buffer: &mut [u8]) -> Result<usize, Refusal> {
    let packet = packet(ledger, table, k)?;
    if packet.len() > buffer.len() {
        return Err(refusal(9, 0, packet.len()));
    }
    fill(buffer, &packet);
    Ok(packet.len())
}

/// A whole field.
struct Field<'a> {
    tag: u8,
    content: &'a [u8],
    /// The place behind it.
    end: usize,
}

/// The field at a place; 19 where it is cut short.
fn field(packet: &[u8], at: usize) -> Result<Field<'_>, Refusal> {
    let short = refusal(19, at, 0);
    let head = packet.get(at..at + 3).ok_or(short)?;
    let end = at + 3 + 256 * usize::from(head[1]) + usize::from(head[2]);
    let content = packet.get(at + 3..end).ok_or(short)?;
    Ok(Field {
        tag: head[0],
        content,
        end,
    })
}

/// One step of the display's reader: 19 and 20 field by field, then 9.
pub fn next(
    packet: &[u8],
    at: usize,
    row_buffer: &mut [u8],
    text_buffer: &mut [u8],
) -> Result<Handed, Refusal> {
    if at >= packet.len() {
        return Ok(Handed::End);
    }
    let row = field(packet, at)?;
    if row.content.len() != ROW_BYTES || row.tag != tag(row.content) {
        return Err(refusal(20, at, 0));
    }
    let text = match row.tag {
        DETAIL => Some(field(packet, row.end)?),
        _ => None,
    };
    if text.as_ref().is_some_and(|text| text.tag != TEXT) {
        return Err(refusal(20, row.end, 0));
    }
    if row_buffer.len() < ROW_BYTES {
        return Err(refusal(9, 0, ROW_BYTES));
    }
    let Some(text) = text else {
        fill(row_buffer, row.content);
        return Ok(Handed::Entry { next: row.end });
    };
    let length = text.content.len();
    if text_buffer.len() < length {
        return Err(refusal(9, 0, length));
    }
    fill(row_buffer, row.content);
    fill(text_buffer, text.content);
    Ok(Handed::Detail {
        next: text.end,
        length,
    })
}

/// The fields of a packet that is whole, each with its head.
pub fn fields(packet: &[u8]) -> Vec<Vec<u8>> {
    let mut fields = Vec::new();
    let mut at = 0;
    while at < packet.len() {
        let end = field(packet, at).unwrap().end;
        fields.push(packet[at..end].to_vec());
        at = end;
    }
    fields
}
