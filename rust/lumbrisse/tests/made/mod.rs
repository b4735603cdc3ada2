//! Made-up ledgers, good and bad.

use super::dice::Dice;

/// Entries of all sorts, some with carriage returns.
pub const ENTRIES: [&[u8]; 14] = [
    b"2024-01-31 * \"Office\" \"Flat 2\" #a ^l\n  Meters:Flat-2  12.5 KWH {2 EUR} @ 1/3 EUR\n  Cellar:Main\n",
    b"2024-01-31 * \"x\"\r\n  ! A:B  1 EUR\r\n",
    b"2024-02-29 txn \"say \\\"x\n2024 y\"\n  A:B  1 EUR @@ 2 EUR\n",
    b"2024-02-29 price KWH 0.31 EUR\n",
    b"2024-02-29 balance A:B 1 ~ 0.1 KWH\n",
    b"2024-01-01 open A:B KWH \"STRICT\"\n  serial: \"A-17\"\n  count: 5\n  unit: KWH\n",
    b"2024-01-31 event \"a\" \"b\"\n",
    b"option \"a\" \"b\"\n",
    b"include \"c\"\r\n",
    b"pushtag #\n",
    b"pushtag #a\n",
    b"poptag #a\n",
    b"2024-01-31 *\n  A:B\n\n; note\n",
    b"2024-01-31 close A:B\r\n\r\n",
];

/// What a block is refused for.
pub const DAMAGE: [&[u8]; 8] = [
    b"2024-01-31 * \"open quote\n",
    b"2024-01-31\n",
    b"includes\n",
    b"2024-01-31 price KWH 1/0 EUR\n",
    b"2024-01-31 price KWH 9999999999 EUR\n",
    b"2024-01-31 *\n  Cash 1 EUR\n",
    b"2024-01-31 * \"\xff\"\n",
    b"2024-01-31 price KWH ((((((((((((((((((((((((((((((((((1 EUR\n",
];

/// Lines that start no block.
const BETWEEN: [&[u8]; 8] = [
    b"; comment\n",
    b"\n",
    b"\r\n",
    b"  ; indented \"\n",
    b"X 1\n",
    b"\"\n",
    b"  A:B  2 EUR\n",
    b"; \r x\n",
];

/// Ends without line feed.
pub const ENDS: [&[u8]; 6] = [
    b"pushtag #",
    b"2024-01-31 close A:B",
    b"x",
    b"; c",
    b"2024-01-31 * \"open",
    b"\r",
];

/// A text of lines, mostly entries.
pub fn lines(dice: &mut Dice) -> Vec<u8> {
    let count = dice.below(5);
    let line = |_| match dice.below(8) {
        0 => dice.pick(&DAMAGE),
        1 | 2 => dice.pick(&BETWEEN),
        _ => dice.pick(&ENTRIES),
    };
    (0..count).flat_map(line).copied().collect()
}

/// A ledger, now and then without a byte or without a last line feed.
pub fn ledger(dice: &mut Dice) -> Vec<u8> {
    let mut ledger = lines(dice);
    if dice.below(4) == 0 {
        ledger.extend(dice.pick(&ENDS));
    }
    ledger
}
