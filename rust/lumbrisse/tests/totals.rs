//! Monthly totals on the real archive, beside a second reckoning over plain reading's rows.
//!
//! The months of a whole ledger are those of `examples/clean.beancount`; `LUMBRISSE_LEDGER` names another.

mod answers;
mod dice;
mod made;
#[path = "made/totals.rs"]
mod made_totals;
mod met;
#[path = "model/totals.rs"]
mod model;

use std::collections::BTreeSet;
use std::env;
use std::fs;

use answers::{need, refusal, MARK};
use dice::Dice;
use lumbrisse::{
    read_to_vec, totals, totals_to_vec, Refusal, Rows, Short, Total, Totals, SIZE_LIMIT,
    TOTAL_BYTES,
};
use met::Met;
use model::{Lent, Reckoned};

/// So many ledgers are made.
const LEDGERS: usize = 20_000;

/// Where another ledger is named.
const NAMED: &str = "LUMBRISSE_LEDGER";
const OWN: &str = concat!(
    env!("CARGO_MANIFEST_DIR"),
    "/../../examples/clean.beancount"
);

/// The call on lent buffers, with the number of items.
fn called(ledger: &[u8], year: usize, month: usize, lent: &mut Lent) -> Result<usize, Refusal> {
    let Lent { items, work, spare } = lent;
    totals(ledger, year, month, items, work, spare).map(|found| found.len())
}

/// Buffers of so many bytes, each with bytes of its own.
fn lent(dice: &mut Dice, rooms: [usize; 3]) -> Lent {
    // None of them is 0, as zeros are what working space is left with.
    let [items, work, spare] = rooms.map(|room| {
        let first = dice.below(255);
        (0..room)
            .map(|at| ((first + 7 * at) % 255) as u8 + 1)
            .collect()
    });
    Lent { items, work, spare }
}

/// Makes the call and compares it with what was reckoned: both answer alike, and leave every lent byte alike.
fn compare(
    ledger: &[u8],
    (year, month): (usize, usize),
    reckoned: &Reckoned,
    before: &Lent,
) -> Result<usize, Refusal> {
    let (mut found, mut expected) = (before.clone(), before.clone());
    let answer = called(ledger, year, month, &mut found);
    let second = model::answered(reckoned, &mut expected);
    let text = String::from_utf8_lossy(ledger);
    assert_eq!(answer, second, "{year}-{month} of {text:?}");
    assert_eq!(
        found.items, expected.items,
        "items of {year}-{month} of {text:?}"
    );
    assert_eq!(
        found.work, expected.work,
        "work for {year}-{month} of {text:?}"
    );
    assert_eq!(
        found.spare, expected.spare,
        "spare for {year}-{month} of {text:?}"
    );
    answer
}

/// A length near a need: exact, or short by a byte, an item or all of it, or longer.
fn near(dice: &mut Dice, need: usize) -> usize {
    match dice.below(12) {
        0 => need.saturating_sub(1),
        1 => need.saturating_sub(TOTAL_BYTES),
        2 => dice.below(need + 1),
        3..=7 => need,
        _ => need + dice.below(70),
    }
}

#[test]
fn any_ledger_has_the_totals_of_a_second_reckoning() {
    let mut dice = Dice(0x9E37_79B9_7F4A_7C15);
    let mut met = Met::default();
    for number in 0..LEDGERS {
        let ledger = made_totals::ledger(&mut dice);
        let (year, month) = made_totals::month(&mut dice);
        let reckoned = model::reckoned(&ledger, year, month);
        // Only plain reading refuses before room is judged, but for the month.
        let refused = reckoned.as_ref().err();
        let plain = refused.is_some_and(|refusal| refusal.number != 15);
        let (items, postings) = reckoned.clone().unwrap_or((Vec::new(), 3));
        let (whole, space) = (items.len() * TOTAL_BYTES, postings * TOTAL_BYTES);
        for exact in [true, false] {
            let rooms = match exact {
                true => [whole, space, space],
                false => [
                    near(&mut dice, whole),
                    near(&mut dice, space),
                    near(&mut dice, space),
                ],
            };
            let before = lent(&mut dice, rooms);
            let answer = compare(&ledger, (year, month), &reckoned, &before);

            let [_, work, spare] = rooms;
            let is = |number, place| {
                answer.is_err_and(|found| (found.number, found.place) == (number, place))
            };
            let six = !plain && answer.is_err_and(|found| found.number == 6);
            met.count("accepted", answer.is_ok());
            met.count("accepted, with items", answer.is_ok_and(|count| count > 0));
            met.count(
                "accepted, with four items or more",
                answer.is_ok_and(|count| count > 3),
            );
            met.count(
                "accepted, with room left",
                answer.is_ok() && rooms > [whole, space, space],
            );
            met.count("refused by plain reading", plain);
            met.count(
                "refused by plain reading, in a bad month",
                plain && !(1..=12).contains(&month),
            );
            met.count("15", is(15, 0));
            met.count("6 for a sum", six);
            met.count(
                "6 for a sum, with no room for items",
                six && before.items.len() < whole,
            );
            met.count("9 for work alone", is(9, 1) && spare >= space);
            met.count("9 for spare alone", is(9, 1) && work >= space);
            met.count("9 for both", is(9, 1) && work < space && spare < space);
            met.count("9 for the items", is(9, 0));
        }
        let fits = reckoned.is_ok() && !items.iter().any(model::Item::is_too_large);
        let too_large = || items.iter().filter(|item| item.is_too_large());
        met.count(
            "a sum too large on the way",
            fits && items.iter().any(model::Item::was_too_large),
        );
        met.count("two sums too large", too_large().count() > 1);
        met.count(
            "a sum too large below zero",
            too_large().any(|item| item.sum < 0),
        );
        met.count(
            "a sum of several postings",
            fits && items
                .iter()
                .any(|item| item.postings > 2 && item.is_stated()),
        );
        met.count(
            "postings without amount",
            fits && items.iter().any(|item| !item.is_stated()),
        );
        met.count(
            "a month without postings",
            reckoned.is_ok() && postings == 0,
        );
        met.count("a year over 9999", year > 9999 && reckoned.is_ok());

        if number % 4 == 0 {
            let mut own = lent(&mut dice, [whole, space, space]);
            let expected = model::answered(&reckoned, &mut own).map(|_| own.items);
            assert_eq!(totals_to_vec(&ledger, year, month), expected);
        }
    }
    met.all_often(LEDGERS, 200);
    for what in [
        "accepted, with items",
        "refused by plain reading",
        "15",
        "6 for a sum",
        "9 for the items",
    ] {
        met.often(what, LEDGERS, 20);
    }
}

/// An account, its currency, its sum and the number of its postings: a total without its place.
type Said = (Vec<u8>, Option<Vec<u8>>, i64, u32);

/// What is said of March, or the number of its refusal.
fn said(ledger: &[u8]) -> Result<Vec<Said>, usize> {
    let items = totals_to_vec(ledger, 2024, 3).map_err(|refusal| refusal.number)?;
    let said = |total: Total| {
        let currency = total.currency.map(<[u8]>::to_vec);
        let account = total.account.to_vec();
        (account, currency, total.sum.0, total.postings)
    };
    Ok(Totals::new(ledger, &items).map(said).collect())
}

#[test]
fn no_order_of_transactions_changes_a_total() {
    let mut dice = Dice(0x2545_F491_4F6C_DD1D);
    let mut met = Met::default();
    for _ in 0..LEDGERS / 10 {
        let mut blocks = made_totals::blocks(&mut dice);
        let first = said(&blocks.concat());
        for _ in 0..3 {
            for from in (1..blocks.len()).rev() {
                blocks.swap(from, dice.below(from + 1));
            }
            assert_eq!(said(&blocks.concat()), first);
        }
        met.count(
            "with items",
            first.as_ref().is_ok_and(|items| items.len() > 2),
        );
        met.count("refused", first.is_err());
    }
    met.all_often(LEDGERS / 10, 20);
}

#[test]
fn each_month_of_a_whole_ledger_is_reckoned_alike() {
    let file = env::var(NAMED).unwrap_or(OWN.into());
    let ledger = fs::read(&file).unwrap_or_else(|error| panic!("{file}: {error}"));
    let table = read_to_vec(&ledger).unwrap();
    let dates = Rows::new(&table).filter_map(|row| row.date());
    let months: BTreeSet<(u32, u32)> = dates.map(|date| (date.year(), date.month())).collect();
    let (mut postings, mut listed) = (0, 0);
    for (year, month) in months {
        let (year, month) = (year as usize, month as usize);
        let reckoned = model::reckoned(&ledger, year, month);
        let (items, count) = reckoned.clone().unwrap();
        let (whole, space) = (items.len() * TOTAL_BYTES, count * TOTAL_BYTES);
        for rooms in [[whole, space, space], [whole + 5, space + 33, space + 64]] {
            let before = lent(&mut Dice(1), rooms);
            assert_eq!(
                compare(&ledger, (year, month), &reckoned, &before),
                Ok(items.len())
            );
        }
        postings += count;
        listed += items.len();
    }
    // Every posting is of one month.
    let all = Rows::new(&table)
        .filter(|row| row.kind.number() == 33)
        .count();
    println!("{file}: {postings} postings in {listed} items");
    assert_eq!(postings, all);
    assert!(listed > 10);
}

/// The sums of a month as text: account, currency, sum, number of postings.
fn listed(ledger: &[u8], year: usize, month: usize) -> Vec<String> {
    let items = totals_to_vec(ledger, year, month).unwrap();
    let text = |bytes: &[u8]| String::from_utf8(bytes.to_vec()).unwrap();
    Totals::new(ledger, &items)
        .map(|total| match total.currency {
            None => format!("{} - {}", text(total.account), total.postings),
            Some(currency) => {
                format!(
                    "{} {} {} {}",
                    text(total.account),
                    total.sum,
                    text(currency),
                    total.postings
                )
            }
        })
        .collect()
}

#[test]
fn amounts_count_and_neither_costs_prices_nor_balances_do() {
    let ledger = b"2024-03-31 * \"a\"\n  A:B  2 KWH {7 EUR} @ 5 EUR\n    count: 9\n  A:B  3 KWH @@ 8 USD\n  A:C\n\
        2024-03-31 balance A:B 50 KWH\n2024-03-01 ! \"b\"\n  P A:B  1 EUR\n2024-03-02 price KWH 4 EUR\n";
    assert_eq!(
        listed(ledger, 2024, 3),
        ["A:B 1 EUR 1", "A:B 5 KWH 2", "A:C - 1"]
    );
}

#[test]
fn only_transactions_of_the_month_count() {
    let ledger =
        b"2024-02-29 *\n  A:B  1 EUR\n2024-03-01 *\n  A:B  2 EUR\n2024-03-31 *\n  A:B  4 EUR\n\
        2024-04-01 *\n  A:B  8 EUR\n2023-03-15 *\n  A:B  16 EUR\n2024-3-15 *\n  A:B  32 EUR\n";
    assert_eq!(listed(ledger, 2024, 2), ["A:B 1 EUR 1"]);
    assert_eq!(listed(ledger, 2024, 3), ["A:B 6 EUR 2"]);
    assert_eq!(listed(ledger, 2024, 4), ["A:B 8 EUR 1"]);
    assert_eq!(listed(ledger, 2023, 3), ["A:B 16 EUR 1"]);
    for year in [
        2025,
        20_240,
        12_024,
        2024 + (1 << 16),
        2024 + (1 << 32),
        usize::MAX,
    ] {
        assert_eq!(listed(ledger, year, 3), [""; 0]);
    }
    let edges = b"0000-01-31 *\n  A:B  1 EUR\n9999-12-31 *\n  A:B  2 EUR\n";
    assert_eq!(listed(edges, 0, 1), ["A:B 1 EUR 1"]);
    assert_eq!(listed(edges, 9999, 12), ["A:B 2 EUR 1"]);
}

#[test]
fn accounts_and_then_currencies_are_ordered_by_their_bytes() {
    let ledger = b"2024-03-31 *\n  B:A  1 A\n  A:Bc  1 A\n  A:BC  1 A\n  A:B1  1 A\n  A:B:C  1 A\n  A:B-C  1 A\n  A:B  1 B\n  \
        A:B  1 A9\n  A:B  1 A\n  A1:B  1 A\n  A:B\n  A-A:B  1 A\n  A:A\n";
    assert_eq!(
        listed(ledger, 2024, 3),
        [
            "A-A:B 1 A 1",
            "A1:B 1 A 1",
            "A:B 1 A 1",
            "A:B 1 A9 1",
            "A:B 1 B 1",
            "A:B-C 1 A 1",
            "A:B1 1 A 1",
            "A:B:C 1 A 1",
            "A:BC 1 A 1",
            "A:Bc 1 A 1",
            "B:A 1 A 1",
            "A:A - 1",
            "A:B - 1",
        ]
    );
}

#[test]
fn an_item_has_the_spans_of_its_first_posting() {
    // The first in the file, whatever their dates.
    let ledger = b"2024-03-31 *\n  A:B  1 EUR\n  A:C\n2024-03-01 *\n  A:C\n  A:B  2 EUR\n";
    let items = totals_to_vec(ledger, 2024, 3).unwrap();
    let fields: Vec<Vec<u32>> = items
        .chunks(32)
        .map(|item| (0..6).map(|number| model::field(item, number)).collect())
        .collect();
    assert_eq!(fields, [[50, 15, 18, 2, 22, 25], [51, 28, 31, 2, 0, 0]]);
    assert_eq!(
        (&items[24..32], &items[56..]),
        (&3_000_000_i64.to_le_bytes()[..], &[0; 8][..])
    );
    let found: Vec<(u32, u32)> = Totals::new(ledger, &items)
        .map(|total| (total.start, total.end))
        .collect();
    assert_eq!(found, [(15, 18), (28, 31)]);
    let backwards: Vec<u32> = Totals::new(ledger, &items)
        .rev()
        .map(|total| total.start)
        .collect();
    assert_eq!(backwards, [28, 15]);
    assert_eq!(
        Totals::new(ledger, &items)
            .nth(1)
            .map(|total| total.postings),
        Some(2)
    );
}

/// So many postings of an amount, in one transaction.
fn many(count: usize, amount: &str) -> Vec<u8> {
    format!("  A:B  {amount} EUR\n").repeat(count).into_bytes()
}

#[test]
fn a_sum_may_be_too_large_on_the_way() {
    let (most, least) = ("999999999.999999", "-999999999.999999");
    let month = |parts: &[Vec<u8>]| [&b"2024-03-31 *\n"[..], &parts.concat()].concat();
    let ledger = |parts: &[Vec<u8>]| {
        totals_to_vec(&month(parts), 2024, 3).map_err(|refusal| (refusal.number, refusal.place))
    };
    let sum = |parts: &[Vec<u8>]| listed(&month(parts), 2024, 3);
    assert_eq!(sum(&[many(1, most)]), ["A:B 999999999.999999 EUR 1"]);
    assert_eq!(
        sum(&[many(2, most), many(1, least)]),
        ["A:B 999999999.999999 EUR 3"]
    );
    assert_eq!(
        sum(&[many(2, least), many(1, most)]),
        ["A:B -999999999.999999 EUR 3"]
    );
    assert_eq!(ledger(&[many(1, most), many(1, "0.000001")]), Err((6, 15)));
    assert_eq!(
        ledger(&[many(1, least), many(1, "-0.000001")]),
        Err((6, 15))
    );
    // Past what 64 bits hold, there and back, and past all that they tell apart: 2^64 millionths are not 0.
    assert_eq!(
        sum(&[many(9_300, most), many(9_300, least)]),
        ["A:B 0 EUR 18600"]
    );
    assert_eq!(
        sum(&[many(9_300, least), many(9_301, most)]),
        ["A:B 999999999.999999 EUR 18601"]
    );
    assert_eq!(
        ledger(&[many(18_446, most), many(1, "744073709.570062")]),
        Err((6, 15))
    );
    assert_eq!(
        ledger(&[many(18_446, least), many(1, "-744073709.570062")]),
        Err((6, 15))
    );
}

/// Sees to it that a call is refused and leaves the items; `work` and `spare` too, but for so many zeros at the front.
fn refused(ledger: &[u8], month: usize, rooms: [usize; 3], expected: Refusal, zeros: usize) {
    let [mut items, mut work, mut spare] = rooms.map(|room| vec![MARK; room]);
    let answer =
        totals(ledger, 2024, month, &mut items, &mut work, &mut spare).map(|found| found.len());
    assert_eq!(answer, Err(expected), "{rooms:?}");
    assert_eq!(items, vec![MARK; rooms[0]]);
    for (space, room) in [(work, rooms[1]), (spare, rooms[2])] {
        let expected = [vec![0; zeros], vec![MARK; room - zeros]].concat();
        assert_eq!(space, expected, "{rooms:?}");
    }
}

#[test]
fn refusals_come_in_their_order() {
    let work = |count| Refusal {
        place: 1,
        ..need(count)
    };
    // Two sums are too large: the first listed decides, which is not the first in the file.
    let large = b"2024-03-31 *\n  A:C  999999999 EUR\n  A:C  1 EUR\n  A:B  -999999999 KWH\n  A:B  -1 KWH\n  A:A\n";
    for (behind, number, place) in [
        (&b"; \xff\n"[..], 2, 2),
        (b"2024-01-01\n", 4, 0),
        (b"x", 5, 0),
        (b"2024-01-01 price A 9999999999 B\n", 6, 19),
        (b"2024-01-01 price A 0.0000001 B\n", 7, 19),
        (b"2024-01-01 price A 1/0 B\n", 8, 19),
    ] {
        let ledger = [&large[..], behind].concat();
        for (month, rooms) in [(0, [0; 3]), (3, [0; 3]), (13, [999; 3]), (3, [999; 3])] {
            refused(
                &ledger,
                month,
                rooms,
                refusal(number, large.len() + place),
                0,
            );
        }
    }
    for month in [0, 13, 100, usize::MAX] {
        refused(large, month, [0; 3], refusal(15, 0), 0);
        refused(large, month, [999; 3], refusal(15, 0), 0);
        refused(b"", month, [0; 3], refusal(15, 0), 0);
    }
    for spaces in [
        [0, 0],
        [159, 160],
        [160, 159],
        [999, 159],
        [159, 999],
        [0, 999],
    ] {
        for room in [0, 999] {
            refused(large, 3, [room, spaces[0], spaces[1]], work(160), 0);
        }
    }
    for room in [0, 95, 96, 999] {
        for space in [160, 161, 999] {
            refused(large, 3, [room, space, space], refusal(6, 49), 160);
        }
    }
    let small = b"2024-03-31 *\n  A:C  1 EUR\n  A:C  1 EUR\n  A:A\n";
    for room in [0, 32, 63] {
        for spaces in [[96, 96], [97, 200]] {
            refused(small, 3, [room, spaces[0], spaces[1]], need(64), 96);
        }
    }
    let long = vec![b'\n'; SIZE_LIMIT + 1];
    refused(&long, 13, [0; 3], refusal(1, 0), 0);
}

#[test]
fn a_month_without_postings_needs_no_room() {
    for ledger in [
        &b""[..],
        b"2024-02-29 *\n  A:B  1 EUR\n",
        b"2024-03-31 *\n",
        b"2024-03-31 balance A:B 1 EUR\n",
    ] {
        assert_eq!(
            totals(ledger, 2024, 3, &mut [], &mut [], &mut []).map(|found| found.len()),
            Ok(0)
        );
        let [mut items, mut work, mut spare] = [[MARK; 40]; 3];
        assert_eq!(
            totals(ledger, 2024, 3, &mut items, &mut work, &mut spare).map(|found| found.len()),
            Ok(0)
        );
        assert_eq!([items, work, spare], [[MARK; 40]; 3]);
    }
}

#[test]
fn a_short_buffer_is_told_by_what_it_is_for() {
    let ledger = b"2024-03-31 *\n  A:B  1 EUR\n  A:B  2 EUR\n";
    let short = |rooms: [usize; 3]| {
        let [mut items, mut work, mut spare] = rooms.map(|room| vec![0; room]);
        let answer = totals(ledger, 2024, 3, &mut items, &mut work, &mut spare);
        let refusal = answer.map(|found| found.len()).unwrap_err();
        (refusal.short(), refusal.to_string())
    };
    let work = "refusal 9: the working space is too short; the need is 64 bytes";
    assert_eq!(
        short([0, 64, 63]),
        (Some(Short::Work { need: 64 }), work.to_string())
    );
    let items = "refusal 9: the table or buffer is too short; the need is 32 (rows for a row table, else bytes)";
    assert_eq!(
        short([31, 64, 64]),
        (Some(Short::Answer { need: 32 }), items.to_string())
    );
    let month = totals_to_vec(ledger, 2024, 13).unwrap_err();
    assert_eq!(
        month.to_string(),
        "refusal 15: there is no such month: they are 1 to 12"
    );
    assert_eq!(month.short(), None);
}

#[test]
fn a_ledger_of_many_accounts_is_added_up_without_delay() {
    let mut ledger = b"2024-03-31 *\n".to_vec();
    for number in 0..100_000_u32 {
        // In an order that is none of theirs.
        let account = number.wrapping_mul(40_503) % 50_021;
        ledger.extend(format!("  Meters:Flat-{account}  {number} KWH\n").bytes());
    }
    let items = totals_to_vec(&ledger, 2024, 3).unwrap();
    let sum: i64 = Totals::new(&ledger, &items).map(|total| total.sum.0).sum();
    assert_eq!(sum, 99_999 * 100_000 / 2 * 1_000_000);
    let accounts: Vec<&[u8]> = Totals::new(&ledger, &items)
        .map(|total| total.account)
        .collect();
    assert!(accounts.windows(2).all(|pair| pair[0] < pair[1]));
    let postings: u32 = Totals::new(&ledger, &items)
        .map(|total| total.postings)
        .sum();
    assert_eq!(postings, 100_000);
}
