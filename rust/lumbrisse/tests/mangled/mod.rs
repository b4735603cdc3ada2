//! Packets as a bad line or sender makes them of whole ones.

use super::dice::Dice;

/// A packet's fields, each with its head.
pub type Fields = Vec<Vec<u8>>;

/// What packets are made of: heads, whole texts, rows, and a byte that starts no field.
const PIECES: [&[u8]; 8] = [
    &[1, 0, 32],
    &[2, 0, 32],
    &[3, 0, 0],
    &[3, 0, 2, b'a', b'b'],
    &[13; 32],
    &[20; 32],
    &[0; 32],
    &[255],
];

/// Some neighbouring fields of a packet, half of the time with one of them changed, and half with bytes changed.
pub fn packet(dice: &mut Dice, whole: &Fields) -> Vec<u8> {
    let mut fields = neighbours(dice, whole);
    if !fields.is_empty() {
        change_field(dice, &mut fields);
    }
    let mut packet = fields.concat();
    change_bytes(dice, &mut packet);
    packet
}

/// They mostly start with a row.
fn neighbours(dice: &mut Dice, whole: &Fields) -> Fields {
    let count = dice.below(14).min(whole.len());
    let mut first = dice.below(whole.len() - count + 1);
    let is_text = whole.get(first).is_some_and(|field| field[0] == 3);
    if is_text && dice.below(8) != 0 {
        first -= 1;
    }
    whole[first..first + count].to_vec()
}

/// Swapped, lost, said twice; with another tag, length or kind.
fn change_field(dice: &mut Dice, fields: &mut Fields) {
    let (one, two) = (dice.below(fields.len()), dice.below(fields.len()));
    let field = &mut fields[one];
    match dice.below(14) {
        0 => fields.swap(one, two),
        1 => drop(fields.remove(one)),
        2 => fields.insert(one, fields[two].clone()),
        3 | 4 => field[0] = dice.below(5) as u8,
        5 | 6 => {
            let length = u16::from_be_bytes([field[1], field[2]]);
            let (more, less) = (length.wrapping_add(1), length.wrapping_sub(1));
            let changed = [more, less, 0, 31, 32, 33, 288, 65_535][dice.below(8)];
            field[1..3].copy_from_slice(&changed.to_be_bytes());
        }
        7 if field.len() >= 7 => {
            let kind = [0_u32, 1, 19, 20, 37, 90, 256, u32::MAX][dice.below(8)];
            field[3..7].copy_from_slice(&kind.to_le_bytes());
        }
        _ => {}
    }
}

/// Cut, with other bytes, with more behind them, or nothing but pieces.
fn change_bytes(dice: &mut Dice, packet: &mut Vec<u8>) {
    match dice.below(12) {
        0 | 1 => packet.truncate(dice.below(packet.len() + 1)),
        2 | 3 if !packet.is_empty() => {
            for _ in 0..=dice.below(3) {
                let place = dice.below(packet.len());
                packet[place] = dice.below(256) as u8;
            }
        }
        4 => packet.extend_from_slice(dice.pick(&PIECES)),
        5 => {
            packet.clear();
            for _ in 0..dice.below(12) {
                packet.extend_from_slice(dice.pick(&PIECES));
            }
        }
        _ => {}
    }
}
