//! Made-up ledgers with much that strict reading refuses, and much that is near to it.

use super::dice::Dice;
use super::made;

/// Lines that are lost.
const LOST: [&[u8]; 16] = [
    b"2024-3-31 * \"a\"\n",
    b"2024-13-31 close A:B\n",
    b"2024-01-31 baland A:B 1 EUR\n",
    b"2024-01-31 close A:B x\r\n",
    b"2024-01-31 event \"a\" \"b\" x\n",
    b"7\r\n",
    b"  A:B  1 kWh\n",
    b"\tx\n",
    b" \t \"\r\n",
    b"  2024-01-31 *\n",
    b"option \"a\n",
    b"option\r\n",
    b"options\n",
    b"optional \"a\" \"b\"\n",
    b"pushtag #a x\n",
    b"poptag #\ty\r\n",
];

/// Lines that pass for comments.
const PASSING: [&[u8]; 14] = [
    b" ; c\n",
    b"\t\n",
    b" \t\r\n",
    b"  ;\r\n",
    b";2024-3-31 *\n",
    b"Option \"a\" \"b\"\n",
    b"opt\n",
    b"x2024-01-31 *\n",
    b"A:B  1 EUR\n",
    b"#x\n",
    b"pushtag #a ; c\n",
    b"poptag #a \t\n",
    b"pushtag #a.x\n",
    b"pushtag #a\r\n",
];

/// Transactions with flags of all sorts, of postings too.
const FLAGGED: [&[u8]; 10] = [
    b"2024-01-31 P \"a\"\n  A:B\n",
    b"2024-01-31 ! \"a\"\n  P A:B\n",
    b"2024-01-31 *\n  ! A:B  1 EUR\n",
    b"2024-01-31 txn \"a\"\n",
    b"2024-01-31 \n",
    b"2024-01-31 \r\n",
    b"2024-01-31 7 #t\n",
    b"2024-01-31\t# \"a\"\r\n",
    b"2024-01-31 ; \"a\"\n",
    b"2024-01-31 ** \"a\"\n",
];

/// Bytes at which an answer turns.
const TURNING: &[u8] = b" \t;\n\r0729o*!P\"#x";

/// A ledger of few lines, so that all of plain reading's answers stay frequent; now and then with a byte changed.
pub fn ledger(dice: &mut Dice) -> Vec<u8> {
    let mut ledger = Vec::new();
    for _ in 0..dice.below(6) {
        let line = match dice.below(10) {
            0 => dice.pick(&LOST),
            1 | 2 => dice.pick(&FLAGGED),
            3..=5 => dice.pick(&PASSING),
            _ => dice.pick(&made::ENTRIES),
        };
        ledger.extend(line);
    }
    if dice.below(4) == 0 {
        ledger.extend(made::ledger(dice));
    }
    if dice.below(4) == 0 && !ledger.is_empty() {
        let place = dice.below(ledger.len());
        ledger[place] = TURNING[dice.below(TURNING.len())];
    }
    ledger
}
