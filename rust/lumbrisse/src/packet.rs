//! Packets: rows with their texts, as they travel over the building bus.

use core::iter::FusedIterator;

use crate::call::counted;
use crate::{ffi, Refusal, Row, ROW_BYTES};

/// A text's bytes at the most: a field's length has two bytes. A detail row with a longer text is refused with 18.
///
/// ```
/// use lumbrisse::{Kind, Row, TEXT_LIMIT};
///
/// let ledger = vec![b'a'; TEXT_LIMIT + 1];
/// let row = |length| Row { kind: Kind::Narration, start: 0, end: length, line: 1, p: 0, q: 0, value: 0 };
/// assert!(lumbrisse::packet_to_vec(&ledger, &row(65_535).to_bytes(), 1).is_ok());
/// let refusal = lumbrisse::packet_to_vec(&ledger, &row(65_536).to_bytes(), 1).unwrap_err();
/// assert_eq!(refusal.number, 18);
/// ```
pub const TEXT_LIMIT: usize = 65_535;

/// What stands in front of a field's content: its tag, and the content's length in two bytes, the highest first.
const HEAD_BYTES: usize = 3;

/// The tags of rows, which also say what a step of the reader hands out.
const ENTRY_TAG: usize = 1;
const DETAIL_TAG: usize = 2;

/// Writes the packet of the first `k` rows of a table to the front of a buffer and gives its length.
///
/// A packet is a list of fields: a tag, a length in two bytes with the highest first, the content. Tag 1 is an entry
/// row (a kind under 20), 2 a detail row (any other, a refused block too), 3 the text of the detail row before it.
///
/// Bytes of the buffer past the packet keep their content, and all of them do after a refusal: 10 where the table has
/// no room for `k` rows; then row by row 10 for a detail row whose span is bad, and 18 for one whose text is longer
/// than [`TEXT_LIMIT`]; then 9 with the need in bytes.
///
/// ```
/// let ledger = b"pushtag #a";
/// let mut table = [0; 64];
/// let count = lumbrisse::read(ledger, &mut table)?;
/// let mut packet = [7; 80];
/// assert_eq!(lumbrisse::packet(ledger, &table, count, &mut packet), Ok(74));
/// // An entry row, a detail row and its text; then what was there before.
/// assert_eq!((&packet[..3], &packet[35..38]), (&[1, 0, 32][..], &[2, 0, 32][..]));
/// assert_eq!(packet[70..], [3, 0, 1, b'a', 7, 7, 7, 7, 7, 7]);
///
/// let refusal = lumbrisse::packet(ledger, &table, count, &mut packet[..73]).unwrap_err();
/// assert_eq!((refusal.number, refusal.count), (9, 74));
/// # Ok::<(), lumbrisse::Refusal>(())
/// ```
pub fn packet(ledger: &[u8], table: &[u8], k: usize, packet: &mut [u8]) -> Result<usize, Refusal> {
    counted(ffi::packet_write(ledger, table, k, packet))
}

/// What a step of the reader has handed out, and where the next one starts.
///
/// ```
/// use lumbrisse::Handed;
///
/// assert_eq!(lumbrisse::packet_next(b"", 0, &mut [], &mut []), Ok(Handed::End));
/// ```
#[derive(Clone, Copy, Debug, PartialEq, Eq, Hash)]
pub enum Handed {
    /// Nothing: here is the packet's end.
    End,
    /// An entry row.
    Entry {
        /// The place behind it.
        next: usize,
    },
    /// A detail row and its text.
    Detail {
        /// The place behind both.
        next: usize,
        /// The text's bytes.
        length: usize,
    },
}

/// One step of the reader that stands at a place of a packet: writes the row there to the front of one buffer, and
/// the text of a detail row to the front of the other.
///
/// At the packet's end or past it there is nothing to hand out. All other bytes of both buffers keep their content,
/// and all do after a refusal: 19 and 20 at the start of the field that is wrong; then 9 with the need in bytes, of
/// the row's buffer before the text's. [`Packets`] needs no buffers and gives parts of the packet itself.
///
/// ```
/// use lumbrisse::{Handed, Kind, Row};
///
/// let ledger = b"pushtag #a";
/// let table = lumbrisse::read_to_vec(ledger)?;
/// let packet = lumbrisse::packet_to_vec(ledger, &table, 2)?;
///
/// let (mut row, mut text) = ([0; 32], [b'.'; 4]);
/// let first = lumbrisse::packet_next(&packet, 0, &mut row, &mut text)?;
/// assert_eq!((first, Row::from_bytes(&row).kind), (Handed::Entry { next: 35 }, Kind::Pushtag));
/// let second = lumbrisse::packet_next(&packet, 35, &mut row, &mut text)?;
/// assert_eq!((second, &text), (Handed::Detail { next: 74, length: 1 }, b"a..."));
/// assert_eq!(lumbrisse::packet_next(&packet, 74, &mut row, &mut text), Ok(Handed::End));
///
/// let refusal = lumbrisse::packet_next(&packet[..73], 35, &mut row, &mut text).unwrap_err();
/// assert_eq!((refusal.number, refusal.place), (19, 70));
/// # Ok::<(), lumbrisse::Refusal>(())
/// ```
pub fn packet_next(
    packet: &[u8],
    at: usize,
    row: &mut [u8],
    text: &mut [u8],
) -> Result<Handed, Refusal> {
    let ffi::Handed {
        number,
        place,
        tag,
        count,
    } = ffi::packet_next(packet, at, row, text);
    match (number, tag) {
        (0, ENTRY_TAG) => Ok(Handed::Entry { next: place }),
        (0, DETAIL_TAG) => Ok(Handed::Detail {
            next: place,
            length: count,
        }),
        (0, _) => Ok(Handed::End),
        _ => Err(Refusal {
            number,
            place,
            count,
        }),
    }
}

/// A row of a packet and, where it is a detail row, its text: a part of the packet itself.
///
/// ```
/// use lumbrisse::{Kind, PacketRow, Packets};
///
/// let ledger = b"pushtag #a";
/// let table = lumbrisse::read_to_vec(ledger)?;
/// let packet = lumbrisse::packet_to_vec(ledger, &table, 2)?;
/// let rows = Packets::new(&packet).collect::<Result<Vec<PacketRow>, _>>()?;
/// assert_eq!((rows[0].row.kind, rows[0].text), (Kind::Pushtag, None));
/// assert_eq!((rows[1].row.kind, rows[1].text), (Kind::Tag, Some(&b"a"[..])));
/// # Ok::<(), lumbrisse::Refusal>(())
/// ```
#[derive(Clone, Copy, Debug, PartialEq, Eq, Hash)]
pub struct PacketRow<'a> {
    /// The row. Its places are those of the ledger on the box.
    pub row: Row,
    /// The text of a detail row's span; none for an entry row.
    pub text: Option<&'a [u8]>,
}

/// The rows of a packet with their texts, from its first: the reader of a display.
///
/// It holds the packet and where it stands, and neither allocates nor copies a text, however long. Where the packet is
/// wrong it gives the refusal, 19 or 20, and then nothing more.
///
/// ```
/// use lumbrisse::{Kind, Packets};
///
/// let ledger = b"2024-01-31 * \"January\"\n  Meters:Flat-1  12.5 KWH\n  Cellar:Main\n";
/// let table = lumbrisse::read_to_vec(ledger)?;
/// let packet = lumbrisse::packet_to_vec(ledger, &table, table.len() / lumbrisse::ROW_BYTES)?;
///
/// let mut accounts = Vec::new();
/// for handed in Packets::new(&packet) {
///     let handed = handed?;
///     if handed.row.kind == Kind::Posting {
///         accounts.extend(handed.text);
///     }
/// }
/// assert_eq!(accounts, [&b"Meters:Flat-1"[..], b"Cellar:Main"]);
/// # Ok::<(), lumbrisse::Refusal>(())
/// ```
#[derive(Clone, Debug)]
pub struct Packets<'a> {
    packet: &'a [u8],
    at: usize,
    over: bool,
}

impl<'a> Packets<'a> {
    /// The reader at the start of a packet.
    ///
    /// ```
    /// assert_eq!(lumbrisse::Packets::new(b"").next(), None);
    /// ```
    pub fn new(packet: &'a [u8]) -> Packets<'a> {
        Packets {
            packet,
            at: 0,
            over: false,
        }
    }

    /// Where the reader stands, in bytes from the packet's start: behind what it gave last. A refusal does not move it.
    ///
    /// ```
    /// let ledger = b"; note\n";
    /// let table = lumbrisse::read_to_vec(ledger)?;
    /// let mut packet = lumbrisse::packet_to_vec(ledger, &table, 1)?;
    /// packet.push(1);
    ///
    /// let mut rows = lumbrisse::Packets::new(&packet);
    /// assert!(rows.next().unwrap().is_ok());
    /// assert_eq!(rows.place(), 35);
    /// assert_eq!(rows.next().unwrap().unwrap_err().number, 19);
    /// assert_eq!((rows.place(), rows.next()), (35, None));
    /// # Ok::<(), lumbrisse::Refusal>(())
    /// ```
    pub fn place(&self) -> usize {
        self.at
    }

    /// Takes the row that stands here out of the packet, with its text where that has a length. The reader has found
    /// them whole, so there is always something to take.
    fn take_row(&mut self, text_length: Option<usize>) -> Option<PacketRow<'a>> {
        let here = self.packet.get(self.at..)?;
        let (row, behind) = content(here, ROW_BYTES)?;
        let (text, behind) = match text_length {
            None => (None, behind),
            Some(length) => content(behind, length).map(|(text, rest)| (Some(text), rest))?,
        };
        self.at = self.packet.len().saturating_sub(behind.len());
        let row = Row::from_bytes(row.try_into().ok()?);
        Some(PacketRow { row, text })
    }
}

/// The content of the field in front, which has a length, and what stands behind it.
fn content(fields: &[u8], length: usize) -> Option<(&[u8], &[u8])> {
    fields.get(HEAD_BYTES..)?.split_at_checked(length)
}

impl<'a> Iterator for Packets<'a> {
    type Item = Result<PacketRow<'a>, Refusal>;

    /// Asks the reader with room for a row and none for a text. What it then answers says all of the text that a
    /// display needs, its length: the text itself stands in the packet.
    fn next(&mut self) -> Option<Self::Item> {
        if self.over {
            return None;
        }
        let text_length = match packet_next(self.packet, self.at, &mut [0; ROW_BYTES], &mut []) {
            Ok(Handed::Entry { .. }) => None,
            Ok(Handed::Detail { length, .. }) => Some(length),
            // The row has room, so this is the need of its text.
            Err(refusal) if refusal.number == Refusal::TOO_SHORT => Some(refusal.count),
            Ok(Handed::End) => {
                self.over = true;
                return None;
            }
            Err(refusal) => {
                self.over = true;
                return Some(Err(refusal));
            }
        };
        self.take_row(text_length).map(Ok)
    }
}

impl FusedIterator for Packets<'_> {}
