//! A case file of ledgers that were compared and are the same: calls of plain reading, with the table before and after.

use lumbrisse::{Rows, ROW_BYTES};

use crate::random::Random;

/// Plain reading's number among the calls of a case file.
const PLAIN_READING: u32 = 1;

/// The case of a ledger that the reader reads: the lent table has some bytes more than the rows fill, and any bytes in
/// it.
pub fn case(ledger: &[u8], random: &mut Random) -> Option<Vec<u8>> {
    let rows = lumbrisse::read_to_vec(ledger).ok()?;
    let count = Rows::new(&rows).len();
    let spare = random.below(2 * ROW_BYTES);
    let before: Vec<u8> = (0..rows.len() + spare)
        .map(|_| (random.next() >> 32) as u8)
        .collect();
    let mut after = before.clone();
    after.splice(..rows.len(), rows);
    let fields = [
        PLAIN_READING,
        0,
        0,
        0,
        0,
        u32::try_from(ledger.len()).ok()?,
        0,
        u32::try_from(before.len()).ok()?,
        0,
        0,
        u32::try_from(count).ok()?,
        0,
        0,
        0,
    ];
    let mut bytes: Vec<u8> = fields
        .iter()
        .flat_map(|field| field.to_le_bytes())
        .collect();
    for part in [ledger, &before, &after] {
        bytes.extend_from_slice(part);
    }
    Some(bytes)
}

#[cfg(test)]
mod tests {
    use super::case;
    use crate::random::Random;

    #[test]
    fn a_case_has_its_parts_one_after_another() {
        let ledger = b"; note\n";
        let bytes = case(ledger, &mut Random::of(5, 5)).unwrap_or_default();
        assert_eq!(bytes.get(..4), Some(&[1, 0, 0, 0][..]));
        assert_eq!(bytes.get(56..63), Some(&ledger[..]));
        let lent = (bytes.len() - 63) / 2;
        assert!((32..96).contains(&lent));
        assert_eq!(bytes.get(63 + lent..67 + lent), Some(&[1, 0, 0, 0][..]));
    }
}
