//! Edits on the real archive: after any sequence of them the rows are those of recovering reading done afresh, and any
//! rows at all get what the model says.

mod answers;
mod dice;
mod made;
#[path = "made/edit.rs"]
mod made_edit;
mod met;
#[path = "model/edit.rs"]
mod model;
#[path = "model/rows.rs"]
mod rows;

use std::ops::Range;

use answers::{need, refusal, MARK};
use dice::Dice;
use lumbrisse::{
    block_at, edit, edit_to_vec, recover_to_vec, Edit, Kind, Reading, Refusal, Row, Rows,
    ROW_BYTES, SIZE_LIMIT,
};
use met::Met;

const DAMAGED: &[u8] = include_bytes!("../../../examples/building.beancount");

/// So many sequences are made, each of at most so many edits.
const SEQUENCES: usize = 20_000;
const EDITS: usize = 10;

fn change(block: Range<usize>, new: &[u8]) -> Edit<'_> {
    Edit {
        start: block.start,
        end: block.end,
        new,
    }
}

/// An edit as text, to have it again.
fn shown(ledger: &[u8], given: Edit) -> String {
    let [ledger, new] = [ledger, given.new].map(String::from_utf8_lossy);
    format!("{}..{} of {ledger:?} to {new:?}", given.start, given.end)
}

/// Makes an edit of a reading: it is as the model judges it, and a refused one changes nothing.
fn replace(reading: &mut Reading, block: Range<usize>, new: &[u8], met: &mut Met) {
    let before = reading.clone();
    let (ledger, rows) = (before.ledger(), before.table());
    let given = change(block.clone(), new);
    let expected = model::table(ledger, rows, before.rows().len(), given);
    let answer = reading.replace(block.clone(), new);
    assert_eq!(
        answer,
        expected.clone().map(drop),
        "{}",
        shown(ledger, given)
    );
    met.count("accepted", answer.is_ok());
    met.count("refused with 10", answer == Err(refusal(10, 0)));
    if answer.is_err() {
        assert_eq!(*reading, before);
        return;
    }
    let edited = model::edited(ledger, given);
    assert_eq!(reading.ledger(), edited);
    let afresh = recover_to_vec(&edited).unwrap();
    assert_eq!(reading.table(), afresh, "{}", shown(ledger, given));
    assert_eq!(reading.table(), expected.unwrap());

    let last = block.end == ledger.len();
    met.count("the first block", block.start == 0);
    met.count("the last block", last);
    met.count("a block between", block.start != 0 && !last);
    met.count("a block removed", new.is_empty() && !block.is_empty());
    met.count("several for one", rows::blocks(new).len() > 1);
    met.count("a ledger without bytes", ledger.is_empty());
    met.count("no last line feed", last && !new.ends_with(b"\n"));
    met.count("with CR LF", new.windows(2).any(|pair| pair == b"\r\n"));
    met.count("refused blocks moved", moves_refused(rows, block));
}

/// Whether a row of a refused block stands behind a block.
fn moves_refused(rows: &[u8], block: Range<usize>) -> bool {
    Rows::new(rows).any(|row| row.kind == Kind::Refused && row.start as usize >= block.end)
}

#[test]
fn any_sequence_of_edits_ends_with_the_rows_of_reading_afresh() {
    let mut dice = Dice(0x9E37_79B9_7F4A_7C15);
    let mut met = Met::default();
    let mut edits = 0;
    for _ in 0..SEQUENCES {
        let mut reading = Reading::recover(made::ledger(&mut dice)).unwrap();
        for _ in 0..=dice.below(EDITS) {
            let (block, new) = made_edit::edit(&mut dice, reading.ledger());
            replace(&mut reading, block, &new, &mut met);
            edits += 1;
        }
    }
    met.all_often(edits, 100);
    met.often("accepted", edits, 2);
    met.often("refused with 10", edits, 10);
}

/// A number near one of some places, near the largest, or any.
fn some_number(dice: &mut Dice, places: &[usize]) -> u32 {
    let near = places[dice.below(places.len())] as u32;
    let any = dice.0 as u32;
    let near = near.wrapping_add(dice.below(3) as u32).wrapping_sub(1);
    [near, near, near, u32::MAX - dice.below(3) as u32, any][dice.below(5)]
}

/// A row of any bytes, or with a kind that is treated by itself and a start near the block's ends.
fn some_row(dice: &mut Dice, block: &Range<usize>) -> [u8; ROW_BYTES] {
    let mut row = [0; ROW_BYTES].map(|_: u8| dice.below(256) as u8);
    if dice.below(4) != 0 {
        let kinds = [
            0, 1, 25, 26, 27, 28, 29, 30, 31, 34, 35, 36, 37, 38, 90, 282,
        ];
        let kind: u32 = kinds[dice.below(kinds.len())];
        row[..4].copy_from_slice(&kind.to_le_bytes());
        let start = some_number(dice, &[0, block.start, block.end]);
        row[4..8].copy_from_slice(&start.to_le_bytes());
    }
    row
}

/// Rows that are not the ledger's own, or not all of them, and bytes that are no whole row.
fn some_rows(dice: &mut Dice, ledger: &[u8], block: &Range<usize>) -> Vec<u8> {
    let mut rows = match dice.below(3) {
        0 => recover_to_vec(ledger).unwrap(),
        _ => Vec::new(),
    };
    for _ in 0..dice.below(6) {
        let place = dice.below(rows.len() / ROW_BYTES + 1) * ROW_BYTES;
        rows.splice(place..place, some_row(dice, block));
    }
    rows.resize(rows.len() + dice.below(ROW_BYTES), MARK);
    rows
}

/// All rows of a table, or some of them; now and then more than it has.
fn some_count(dice: &mut Dice, all: usize) -> usize {
    match dice.below(8) {
        0 => all + 1,
        1 => usize::MAX - dice.below(2),
        2 | 3 => dice.below(all + 1),
        _ => all,
    }
}

#[test]
fn any_rows_are_kept_and_moved_as_the_model_does() {
    let mut dice = Dice(0x2545_F491_4F6C_DD1D);
    let mut met = Met::default();
    let rounds = 20_000;
    for _ in 0..rounds {
        let ledger = made::ledger(&mut dice);
        let (block, new) = made_edit::edit(&mut dice, &ledger);
        let rows = some_rows(&mut dice, &ledger, &block);
        let count = Rows::new(&rows).len();
        let k = some_count(&mut dice, count);
        let given = change(block, &new);
        let whole = model::table(&ledger, &rows, k, given)
            .unwrap_or_default()
            .len();
        // Much too short, one short, exact, and longer.
        let room = [0, whole.saturating_sub(1), whole, whole + 77][dice.below(4)];
        let before: Vec<u8> = (0..room).map(|place| (place * 7 + 1) as u8).collect();
        let (mut found, mut expected) = (before.clone(), before.clone());
        let answer = edit(&ledger, &rows, k, given, &mut found);
        let by_model = model::write(&ledger, &rows, k, given, &mut expected);
        assert_eq!(answer, by_model, "{}", shown(&ledger, given));
        assert_eq!(found, expected, "{}", shown(&ledger, given));
        if answer.is_err() {
            assert_eq!(found, before);
        }
        let number = answer.map_or_else(|refusal| refusal.number, |_| 0);
        met.count("accepted", number == 0);
        met.count("refused with 9", number == 9);
        met.count("refused with 10", number == 10);
    }
    met.all_often(rounds, 10);
}

/// Sees to it that an edit is refused, and the table left.
fn refused(ledger: &[u8], rows: &[u8], k: usize, given: Edit, room: usize, expected: Refusal) {
    let mut table = vec![MARK; room];
    let answer = edit(ledger, rows, k, given, &mut table);
    assert_eq!(answer, Err(expected), "{}..{}", given.start, given.end);
    assert!(table.iter().all(|byte| *byte == MARK));
    if expected.number != Refusal::TOO_SHORT {
        assert_eq!(edit_to_vec(ledger, rows, k, given), Err(expected));
    }
}

const LEDGER: &[u8] = b"; a\n2024-01-31 *\n  A:B\n\npushtag #x";

#[test]
fn a_block_is_one_from_boundary_to_boundary() {
    let blocks = [0..4, 4..24, 24..34];
    assert_eq!(rows::blocks(LEDGER), blocks);
    let rows = recover_to_vec(LEDGER).unwrap();
    let count = Rows::new(&rows).len();
    for start in 0..LEDGER.len() + 3 {
        let found = blocks.iter().find(|block| block.contains(&start));
        assert_eq!(block_at(LEDGER, start).as_ref(), found);
        for end in (0..LEDGER.len() + 3).chain([usize::MAX]) {
            let given = change(start..end, b"2024-02-29 *\n");
            if blocks.contains(&(start..end)) {
                let table = edit_to_vec(LEDGER, &rows, count, given).unwrap();
                assert_eq!(
                    table,
                    recover_to_vec(&model::edited(LEDGER, given)).unwrap()
                );
            } else {
                refused(LEDGER, &rows, count, given, 999, refusal(10, 0));
            }
        }
    }
    // Neither a capital nor a blank starts a block, and a line feed alone ends a line.
    for whole in [&b"a\nB\n"[..], b"a\n b\n", b"a\r2\n", b"a\n\n", b"2"] {
        assert_eq!(block_at(whole, 0), Some(0..whole.len()));
        assert_eq!(rows::blocks(whole).len(), 1);
    }
    assert_eq!(block_at(b"", 1), None);
    assert_eq!(block_at(LEDGER, usize::MAX), None);
}

#[test]
fn new_bytes_start_and_end_as_they_must() {
    // Which of these may take the place of the first block, of the one between, and of the last.
    let texts: [(&[u8], [bool; 3]); 10] = [
        (b"", [true, true, true]),
        (b"2\n", [true, true, true]),
        (b"a\r\n", [true, true, true]),
        (b"2", [false, false, true]),
        (b"2\r", [false, false, true]),
        (b"; c\n", [true, false, false]),
        (b"\n", [true, false, false]),
        (b"A\n", [true, false, false]),
        (b" 2\n", [true, false, false]),
        (b"; c", [false, false, false]),
    ];
    let rows = recover_to_vec(LEDGER).unwrap();
    let count = Rows::new(&rows).len();
    for (new, accepted) in texts {
        for (block, accepted) in [0..4, 4..24, 24..34].into_iter().zip(accepted) {
            let given = change(block, new);
            if accepted {
                let table = edit_to_vec(LEDGER, &rows, count, given).unwrap();
                assert_eq!(
                    table,
                    recover_to_vec(&model::edited(LEDGER, given)).unwrap()
                );
            } else {
                refused(LEDGER, &rows, count, given, 999, refusal(10, 0));
            }
        }
        // A ledger of one block, which is the first and the last.
        for ledger in [&b""[..], b"; a\n", b"x"] {
            let given = change(0..ledger.len(), new);
            let table = edit_to_vec(ledger, &[], 0, given).unwrap();
            assert_eq!(table, recover_to_vec(new).unwrap());
        }
    }
}

#[test]
fn a_row_count_is_within_the_table() {
    let table = [MARK; 2 * ROW_BYTES + 31];
    let given = change(4..24, b"");
    assert_eq!(edit(LEDGER, &table, 0, given, &mut []), Ok(0));
    assert_eq!(edit(LEDGER, &table, 2, given, &mut [0; 64]), Ok(2));
    // The bytes of so many rows are 0 or few modulo 2^64.
    let around = usize::MAX / ROW_BYTES + 1;
    for k in [3, around - 1, around, around + 2, usize::MAX] {
        refused(LEDGER, &table, k, given, 999, refusal(10, 0));
    }
}

#[test]
fn the_size_of_both_ledgers_is_judged_first() {
    let longest = vec![b'\n'; SIZE_LIMIT];
    let long = vec![b'\n'; SIZE_LIMIT + 1];
    let (size, bad) = (refusal(1, 0), refusal(10, 0));
    let removed = change(0..SIZE_LIMIT, b"");
    assert_eq!(edit(&longest, &[], 0, removed, &mut []), Ok(0));
    refused(b"", &[], 0, change(0..0, &longest), 99, need(SIZE_LIMIT));
    // The old one is judged whatever else is wrong.
    for (start, end) in [(0, SIZE_LIMIT + 1), (5, 3), (0, usize::MAX)] {
        let given = Edit {
            start,
            end,
            new: b"",
        };
        refused(&long, &[], 9, given, 99, size);
    }
    // The new one is where the block lies within the old one.
    for (start, end, new, expected) in [
        (0, 2, &longest[1..], size),
        (2, 3, &longest[..], size),
        (2, 4, &longest[1..], size),
        (2, 4, &longest[2..], bad),
        (4, 2, &long[..], bad),
        (2, 5, &long[..], bad),
        (5, 5, &long[..], bad),
        (usize::MAX, usize::MAX, &long[..], bad),
    ] {
        for k in [0, 9] {
            refused(b"a\nb\n", &[], k, Edit { start, end, new }, 99, expected);
        }
    }
}

#[test]
fn a_short_table_is_told_the_need() {
    let rows = recover_to_vec(DAMAGED).unwrap();
    let count = Rows::new(&rows).len();
    let block = Rows::new(&rows)
        .find(|row| row.kind == Kind::Refused)
        .unwrap();
    let block = block_at(DAMAGED, block.start as usize).unwrap();
    let given = change(block, b"2024-03-31 * \"Flat 2\"\n");
    let whole = recover_to_vec(&model::edited(DAMAGED, given)).unwrap();
    let expected = need(whole.len() / ROW_BYTES);
    for room in [0, 1, whole.len() - 1] {
        refused(DAMAGED, &rows, count, given, room, expected);
    }
    for more in [0, 1, 100] {
        let mut table = vec![MARK; whole.len() + more];
        assert_eq!(
            edit(DAMAGED, &rows, count, given, &mut table),
            Ok(expected.count)
        );
        assert_eq!(table[..whole.len()], whole);
        assert_eq!(table[whole.len()..], vec![MARK; more]);
    }
}

/// A row of a kind that starts at a place, with numbers in all its fields.
fn row(kind: u32, start: u32) -> Row {
    Row {
        kind: Kind::from(kind),
        start,
        end: u32::MAX,
        line: u32::MAX,
        p: 1,
        q: 0,
        value: -4,
    }
}

/// A row as it is two bytes further in front and a line further behind.
fn moved(row: Row) -> Row {
    let less = |number: u32| number.wrapping_sub(2);
    let kind = row.kind.number();
    let has_span = [26, 29, 30, 35, 36, 37].contains(&kind);
    Row {
        start: less(row.start),
        end: less(row.end),
        line: row.line.wrapping_add(1),
        p: if has_span { less(row.p) } else { row.p },
        q: if has_span || kind == 90 {
            less(row.q)
        } else {
            row.q
        },
        ..row
    }
}

#[test]
fn rows_move_by_their_kind_and_around_the_largest_number() {
    let ledger = b"; a\n2024\n\n2025\n";
    // Two empty lines, which are two rows.
    let given = change(0..4, b"\n\n");
    let edited = |row: Row| edit_to_vec(ledger, &row.to_bytes(), 1, given).unwrap();
    for kind in (0..100).chain([282, u32::MAX]) {
        for start in [4, 5, 15, u32::MAX] {
            let row = row(kind, start);
            assert_eq!(edited(row)[2 * ROW_BYTES..], moved(row).to_bytes());
        }
        for dropped in [0, 1, 3] {
            assert_eq!(edited(row(kind, dropped)).len(), 2 * ROW_BYTES);
        }
    }
}

#[test]
fn behind_the_last_block_no_row_is_kept() {
    let ledger = b"; a\n2024\n\n2025\n";
    let removed = change(10..15, b"");
    let edited = |row: Row| edit_to_vec(ledger, &row.to_bytes(), 1, removed).unwrap();
    for start in [0, 9] {
        assert_eq!(edited(row(26, start)), row(26, start).to_bytes());
    }
    for start in [10, 15, u32::MAX] {
        assert_eq!(edited(row(26, start)), []);
    }
}

#[test]
fn the_sample_is_put_right() {
    let mut reading = Reading::recover(DAMAGED.to_vec()).unwrap();
    let is_refused = |row: &Row| row.kind == Kind::Refused;
    let refused = reading.rows().find(is_refused).unwrap();
    let block = reading.block_at(refused.start as usize).unwrap();
    assert_eq!(
        (block.start, block.end),
        (refused.start as usize, refused.end as usize)
    );
    let wrong = &DAMAGED[block.clone()];
    let first = wrong.split(|byte| *byte == b'\n').next().unwrap();
    let right = [first, b"\"", &wrong[first.len()..]].concat();
    reading.replace(block, &right).unwrap();
    assert!(!reading.rows().any(|row| is_refused(&row)));
    let (ledger, table) = reading.into_parts();
    assert_eq!(ledger.len(), DAMAGED.len() + 1);
    assert_eq!(lumbrisse::read_to_vec(&ledger), Ok(table));
}
