//! Strict reading and its recovering form on the real archive, beside a model of document 02 over plain reading's rows.

mod answers;
mod dice;
mod made;
#[path = "made/strict.rs"]
mod made_strict;
mod met;
#[path = "model/strict.rs"]
mod model;
#[path = "model/rows.rs"]
mod rows;

use answers::{need, refusal, MARK};
use dice::Dice;
use lumbrisse::{
    read, read_strict, read_strict_to_vec, read_to_vec, recover_strict, recover_strict_to_vec,
    recover_to_vec, Refusal, Rows, ROW_BYTES, SIZE_LIMIT,
};
use met::Met;

/// So many ledgers are made.
const LEDGERS: usize = 20_000;

/// A call on lent buffers.
type Call = fn(&[u8], &mut [u8]) -> Result<usize, Refusal>;

/// Makes a call on tables that are exactly full, one row and one byte short, longer by less than a row, and without a
/// byte: each answers as the model does, and leaves every byte as it does. Gives whether one was refused with 9.
fn compare(call: Call, model: &Result<Vec<u8>, Refusal>, ledger: &[u8], dice: &mut Dice) -> bool {
    let whole = model.as_ref().map_or(3 * ROW_BYTES, Vec::len);
    let short = whole.saturating_sub(ROW_BYTES);
    let mut too_short = false;
    for room in [whole, short, whole.saturating_sub(1), whole + 31, 0] {
        let before: Vec<u8> = (0..room).map(|_| dice.below(256) as u8).collect();
        let (mut found, mut expected) = (before.clone(), before.clone());
        let answer = call(ledger, &mut found);
        let by_model = model
            .clone()
            .and_then(|table| rows::written(table, &mut expected));
        let text = String::from_utf8_lossy(ledger);
        assert_eq!(answer, by_model, "{room} bytes for {text:?}");
        assert_eq!(found, expected, "{room} bytes for {text:?}");
        if answer.is_err() {
            assert_eq!(found, before, "{room} bytes for {text:?}");
        }
        too_short |= answer.is_err_and(|refusal| refusal.number == 9);
    }
    too_short
}

#[test]
fn any_ledger_is_judged_as_the_model_judges_it() {
    let mut dice = Dice(0x9E37_79B9_7F4A_7C15);
    let mut met = Met::default();
    for _ in 0..LEDGERS {
        let ledger = made_strict::ledger(&mut dice);
        let strict = model::read(&ledger);
        let too_short = compare(read_strict, &strict, &ledger, &mut dice);
        met.count("read: 9", too_short);
        assert_eq!(read_strict_to_vec(&ledger), strict);

        let number = strict.map_or_else(|refusal| refusal.number, |_| 0);
        let objections = model::objections(&ledger).unwrap_or_default();
        let has = |number| objections.iter().any(|objection| objection.0 == number);
        met.count("read: 16 and 17", has(16) && has(17));
        met.count("read: 0", number == 0);
        met.count("read: 16", number == 16);
        met.count("read: 17", number == 17);
        met.count("read: 2", number == 2);
        met.count("read: 4", number == 4);
        met.count("read: 5", number == 5);
        met.count("read: 6 to 8", (6..=8).contains(&number));
    }
    met.all_often(LEDGERS, 200);
    for number in ["read: 0", "read: 9", "read: 16", "read: 17"] {
        met.often(number, LEDGERS, 10);
    }
}

#[test]
fn any_block_is_judged_as_the_model_judges_it() {
    let mut dice = Dice(0x2545_F491_4F6C_DD1D);
    let mut met = Met::default();
    for _ in 0..LEDGERS {
        let ledger = made_strict::ledger(&mut dice);
        let strict = model::recover(&ledger);
        let too_short = compare(recover_strict, &strict, &ledger, &mut dice);
        met.count("recover: 9", too_short);
        assert_eq!(recover_strict_to_vec(&ledger), strict);

        let table = strict.unwrap();
        let blocks: Vec<usize> = Rows::new(&table)
            .filter_map(|row| row.refusal())
            .map(|refusal| refusal.number)
            .collect();
        met.count("recover: nothing refused", blocks.is_empty());
        met.count("recover: a block with 16", blocks.contains(&16));
        met.count("recover: a block with 17", blocks.contains(&17));
        let plain = blocks.iter().any(|number| *number < 9);
        met.count("recover: a block with another", plain);
        met.count("recover: several blocks", blocks.len() > 1);
        met.count("recover: some kept", blocks.len() < table.len() / ROW_BYTES);
    }
    met.all_often(LEDGERS, 10);
}

/// A ledger and what strict reading answers to it: the number of rows, or a refusal's number and place.
type Edge = (&'static [u8], Result<usize, (usize, usize)>);

/// What is judged, and what is not (decision 18).
const JUDGED: [Edge; 36] = [
    // A digit.
    (b"1\n", Err((16, 0))),
    (b"; a\n2024-3-31 *\n", Err((16, 4))),
    (b"2024-13-01 *\n", Err((16, 0))),
    (b"2024-01-01 baland A:B 1 EUR\n", Err((16, 0))),
    (b"2024-01-01 close A:B x\n", Err((16, 0))),
    (b"2024-01-01 event \"a\" \"b\" x\n", Err((16, 0))),
    (b"x2024-01-01 *\n", Ok(1)),
    (b";1\n", Ok(1)),
    (b"-1\n", Ok(1)),
    // Blanks, one or more.
    (b" x\n", Err((16, 0))),
    (b"\tx\n", Err((16, 0))),
    (b" \t \tx\r\n", Err((16, 0))),
    (b"  A:B  1 EUR\n", Err((16, 0))),
    (b"2024-01-01 *\n  A:B  1 kWh\n", Err((16, 13))),
    (b"2024-01-01 *\n  A:B  1 EUR\n", Ok(4)),
    (b" ; c\n", Ok(1)),
    (b"\t\t;\r\n", Ok(1)),
    (b"\t\n", Ok(1)),
    (b" \t \r\n", Ok(1)),
    (b"\n\r\n", Ok(2)),
    (b"x y\n", Ok(1)),
    // What is left behind a tag.
    (b"pushtag #a x\n", Err((16, 10))),
    (b"poptag #a\tx\n", Err((16, 9))),
    (b"pushtag #a ; x\n", Ok(3)),
    (b"pushtag #a \n", Ok(3)),
    (b"pushtag #a.x\n", Ok(3)),
    // The word, byte for byte, wherever it ends.
    (b"option\n", Err((16, 0))),
    (b"optional \"a\" \"b\"\n", Err((16, 0))),
    (b"option \"a\" \"b\" x\n", Err((16, 0))),
    (b"option \"a\" \"b\"\n", Ok(3)),
    (b"Option \"a\" \"b\"\n", Ok(1)),
    (b"optio\n", Ok(1)),
    // Flags of transactions.
    (b"2024-01-01 P\n", Err((17, 11))),
    (b"2024-01-01  \n", Err((17, 12))),
    (b"2024-01-01 !\n", Ok(2)),
    (b"2024-01-01 txn\n  P A:B\n", Ok(2)),
];

#[test]
fn what_is_judged_is_exactly_what_was_decided() {
    for (ledger, expected) in JUDGED {
        let strict = read_strict_to_vec(ledger);
        let found = strict.map_or_else(
            |refusal| Err((refusal.number, refusal.place)),
            |table| Ok(table.len() / ROW_BYTES),
        );
        let text = String::from_utf8_lossy(ledger);
        assert_eq!(found, expected, "{text:?}");
        // Plain reading accepts each of them.
        assert!(read_to_vec(ledger).is_ok(), "{text:?}");
    }
}

/// Sees to it that a call is refused with any room for rows, and leaves it.
fn refused(ledger: &[u8], expected: Refusal) {
    for room in [0, 31, 32, 999] {
        let mut table = vec![MARK; room];
        assert_eq!(read_strict(ledger, &mut table), Err(expected));
        assert!(table.iter().all(|byte| *byte == MARK));
    }
}

#[test]
fn refusals_come_in_their_order() {
    // All of plain reading's go first, wherever they stand (decision 19).
    for (behind, number, place) in [
        (&b"; \xff\n"[..], 2, 2),
        (b"2024-01-01\n", 4, 0),
        (b"x", 5, 0),
        (b"2024-01-01 price A 9999999999 B\n", 6, 19),
        (b"2024-01-01 price A 0.0000001 B\n", 7, 19),
        (b"2024-01-01 price A 1/0 B\n", 8, 19),
    ] {
        for front in [&b"1\n"[..], b"2024-01-01 P\n"] {
            let ledger = [front, behind].concat();
            refused(&ledger, refusal(number, front.len() + place));
            assert_eq!(read(&ledger, &mut [0; 999]), read_strict(&ledger, &mut []));
        }
    }
    // Of 16 and 17 the first by place, then 9.
    refused(b"1\n2024-01-01 P\n", refusal(16, 0));
    refused(b"2024-01-01 P\n1\n", refusal(17, 11));
    refused(b"2024-01-01 *\n2024-01-02 P\n option\n", refusal(17, 24));
    assert_eq!(read_strict(b"; a\n; b\n", &mut [0; 63]), Err(need(2)));
    refused(&vec![b'1'; SIZE_LIMIT + 1], refusal(1, 0));
}

#[test]
fn a_block_is_refused_like_with_any_other_number() {
    let ledger = b"2024-01-31 *\n  A:B  1 kWh\n2024-02-29 P\n; x\n2024-03-31\n2024-04-30 *\n";
    let table = recover_strict_to_vec(ledger).unwrap();
    let kinds: Vec<u32> = Rows::new(&table).map(|row| row.kind.number()).collect();
    assert_eq!(kinds, [90, 90, 90, 6, 20]);
    let refused: Vec<[u32; 5]> = Rows::new(&table)
        .map(|row| [row.start, row.end, row.line, row.p, row.q])
        .take(3)
        .collect();
    assert_eq!(
        refused,
        [[0, 26, 1, 16, 13], [26, 43, 3, 17, 37], [43, 54, 5, 4, 43]]
    );

    let short = &mut [MARK; 5 * ROW_BYTES - 1];
    assert_eq!(recover_strict(ledger, short), Err(need(5)));
    assert_eq!(*short, [MARK; 5 * ROW_BYTES - 1]);
    let long = vec![b'\n'; SIZE_LIMIT + 1];
    assert_eq!(recover_strict(&long, &mut []), Err(refusal(1, 0)));
}

#[test]
fn a_string_that_a_later_quote_closes_is_accepted() {
    // The second transaction is part of the first one's narration: this is what the command names as a line to look at.
    let ledger = b"2024-03-31 * \"a\n  A:B  1 KWH\n2024-04-30 * b\"\n  A:B  2 KWH\n";
    assert_eq!(read_strict_to_vec(ledger), read_to_vec(ledger));
    assert_eq!(Rows::new(&read_strict_to_vec(ledger).unwrap()).len(), 5);
    // Block by block its quotes stay apart.
    for recovered in [recover_to_vec, recover_strict_to_vec] {
        let table = recovered(ledger).unwrap();
        let numbers: Vec<u32> = Rows::new(&table).map(|row| row.p).collect();
        assert_eq!(numbers, [4, 4]);
    }
}
