//! Made-up ledgers of several months, for totals.

use super::dice::Dice;
use super::made;

/// Dates, mostly of one month.
const DATES: [&[u8]; 16] = [
    b"2024-03-01",
    b"2024-03-15",
    b"2024-03-31",
    b"2024-03-31",
    b"2024-03-31",
    b"2024-03-31",
    b"2024-03-31",
    b"2024-03-31",
    b"2024-03-31",
    b"2024-02-29",
    b"2024-04-01",
    b"2023-03-31",
    b"2025-03-01",
    b"2024-12-31",
    b"0000-01-01",
    b"9999-12-31",
];

/// Accounts, many of which start alike.
const ACCOUNTS: [&[u8]; 12] = [
    b"A:B",
    b"A:B",
    b"A:B:C",
    b"A:B-",
    b"A:B-C",
    b"A:B1",
    b"A:BC",
    b"A:Bc",
    b"A1:B",
    b"A:A:Long",
    b"AB:C",
    b"Z:A",
];

/// Currencies, some of which start alike.
const CURRENCIES: [&[u8]; 7] = [b"EUR", b"EUR", b"KWH", b"E", b"E.R", b"EU", b"E2"];

/// Amounts of all sizes, and such as round.
const AMOUNTS: [&[u8]; 16] = [
    b"0",
    b"1",
    b"-1",
    b"12.5",
    b"-12.5",
    b"0.000001",
    b"-0.000001",
    b"100/3",
    b"(4,421.4 - 4,331.9)",
    b"-(2)",
    b"2.50*1.1",
    b"500000000",
    b"-500000000",
    b"999,999,999.999999",
    b"-999,999,999.999999",
    b"999999999.999998",
];

/// What may stand behind an amount: costs and prices, whose amounts and currencies are not the posting's.
const BEHIND: [&[u8]; 8] = [
    b"",
    b"",
    b"",
    b" {7 EUR}",
    b" {2024-05-01, 3 USD} @ 5 EUR",
    b" @ 0.291 EUR",
    b" @@ 999999999 KWH",
    b" {}",
];

/// What may stand below a posting.
const BELOW: [&[u8]; 6] = [
    b"",
    b"",
    b"",
    b"    note: \"card\"\n",
    b"    count: 77\n    unit: KWH\n",
    b"\n  ; note\n",
];

/// Entries that are no transaction, but name accounts and amounts.
const OTHERS: [&[u8]; 7] = [
    b"2024-03-31 balance A:B 11 EUR\n",
    b"2024-03-01 balance A:B:C 11 ~ 0.1 KWH\n",
    b"2024-03-31 price KWH 0.291 EUR\n",
    b"2024-03-01 open A:B EUR, KWH\n",
    b"2024-03-01 pad A:B Z:A\n",
    b"2024-3-31 *\n  A:B  5 EUR\n",
    b"; 2024-03-31 *\n",
];

fn posting(dice: &mut Dice, large: bool, text: &mut Vec<u8>) {
    text.extend(dice.pick(&[b"  ", b"\t", b"  ! "]));
    text.extend(dice.pick(&ACCOUNTS[..if large { 3 } else { 12 }]));
    if dice.below(6) != 0 {
        text.extend(b"  ");
        text.extend(dice.pick(&AMOUNTS[if large { 9..16 } else { 0..13 }]));
        text.extend(b" ");
        text.extend(dice.pick(&CURRENCIES[..if large { 2 } else { 7 }]));
        text.extend(dice.pick(&BEHIND));
    }
    text.extend(dice.pick(&[b"\n", b"\n", b"\r\n"]));
    text.extend(dice.pick(&BELOW));
}

/// A transaction, by itself a whole block; where `large`, of few accounts and amounts whose sums may be too large.
fn transaction(dice: &mut Dice, large: bool) -> Vec<u8> {
    let mut text = dice.pick(&DATES).to_vec();
    text.extend(dice.pick(&[
        b" *\n",
        b" ! \"a\"\n",
        b" txn \"a\" \"b\" #c\n",
        b" P ^l\r\n",
    ]));
    for _ in 0..dice.below(7) {
        posting(dice, large, &mut text);
    }
    text
}

/// The blocks of a ledger that plain reading accepts: they may stand in any order.
pub fn blocks(dice: &mut Dice) -> Vec<Vec<u8>> {
    let large = dice.below(3) == 0;
    let count = 1 + dice.below(8);
    let block = |_| match dice.below(6) {
        0 => dice.pick(&OTHERS).to_vec(),
        _ => transaction(dice, large),
    };
    (0..count).map(block).collect()
}

/// A ledger, now and then with damage.
pub fn ledger(dice: &mut Dice) -> Vec<u8> {
    let mut blocks = blocks(dice);
    if dice.below(8) == 0 {
        let place = dice.below(blocks.len() + 1);
        blocks.insert(place, dice.pick(&made::DAMAGE).to_vec());
    }
    if dice.below(12) == 0 {
        blocks.push(made::ledger(dice));
    }
    blocks.concat()
}

/// A year and month, mostly the one that most dates are of.
pub fn month(dice: &mut Dice) -> (usize, usize) {
    const YEARS: [usize; 9] = [
        2023,
        2025,
        0,
        9999,
        10_000,
        12_024,
        2024 + (1 << 32),
        2024 - 1,
        usize::MAX,
    ];
    const MONTHS: [usize; 10] = [0, 13, 1, 2, 4, 12, 100, 3 + (1 << 32), 303, usize::MAX];
    let year = match dice.below(6) {
        0 => YEARS[dice.below(YEARS.len())],
        _ => 2024,
    };
    let month = match dice.below(5) {
        0 => MONTHS[dice.below(MONTHS.len())],
        _ => 3,
    };
    (year, month)
}
