//! Recovering reading on the real archive: behind any damage the tail has plain reading's rows, moved.

use lumbrisse::{
    read_strict_to_vec, read_to_vec, recover_strict_to_vec, recover_to_vec, Kind, Row, Rows,
};

const CLEAN: &[u8] = include_bytes!("../../../examples/clean.beancount");
const DAMAGED: &[u8] = include_bytes!("../../../examples/building.beancount");

/// The row as it is behind so many bytes and line feeds.
fn moved(row: Row, bytes: u32, lines: u32) -> Row {
    let spanned = row.kind.number();
    let second = if [26, 29, 30, 35, 36, 37].contains(&spanned) {
        bytes
    } else {
        0
    };
    Row {
        start: row.start + bytes,
        end: row.end + bytes,
        line: row.line + lines,
        p: row.p + second,
        q: row.q + second,
        ..row
    }
}

/// The clean sample from its first line that starts with a digit or small letter.
fn tail() -> &'static [u8] {
    let start = CLEAN.iter().position(|byte| *byte == b'\n').unwrap() + 1;
    &CLEAN[start..]
}

#[test]
fn a_tail_keeps_its_rows_behind_any_bytes() {
    let damage: [&[u8]; 8] = [
        b"",
        b"\n",
        b"2024-01-31 * \"open quote\n",
        b"2024-01-31 * \"open \\\n",
        b"2024-01-31 *\n  A:B ((((\n",
        b"pushtag #x\n\xff\x00\r\n",
        b"  ; indented\n\"\n{\n",
        b"include\n2024-99-99 * \"x\n1/0\n\"\n",
    ];
    let plain = read_to_vec(tail()).unwrap();
    for front in damage {
        let ledger = [front, tail()].concat();
        let bytes = u32::try_from(front.len()).unwrap();
        let lines = u32::try_from(front.iter().filter(|byte| **byte == b'\n').count()).unwrap();
        let expected: Vec<Row> = Rows::new(&plain)
            .map(|row| moved(row, bytes, lines))
            .collect();
        // Strict reading accepts the tail too, so its strict form keeps it as well.
        for recovered in [recover_to_vec, recover_strict_to_vec] {
            let table = recovered(&ledger).unwrap();
            let found: Vec<Row> = Rows::new(&table).filter(|row| row.start >= bytes).collect();
            assert_eq!(found, expected, "behind {front:?}");
        }
    }
}

#[test]
fn a_refused_block_is_one_row() {
    let ledger = b"2024-01-31\n2024-02-29 price KWH 1/0 EUR\n  more\n; more\n2024-03-31 *\n";
    let table = recover_to_vec(ledger).unwrap();
    let rows: Vec<Row> = Rows::new(&table).collect();
    let refused = |start, end, line, p, q| Row {
        kind: Kind::Refused,
        start,
        end,
        line,
        p,
        q,
        value: 0,
    };
    assert_eq!(rows[0], refused(0, 11, 1, 4, 0));
    assert_eq!(rows[1], refused(11, 54, 2, 8, 32));
    assert_eq!(rows[2].kind, Kind::Transaction);
    assert_eq!((rows[2].start, rows[2].line), (54, 5));
}

#[test]
fn the_sample_loses_one_block_and_nothing_else() {
    assert_eq!(read_to_vec(DAMAGED).unwrap_err().number, 4);
    let kept = recover_to_vec(DAMAGED).unwrap();
    let whole = recover_to_vec(CLEAN).unwrap();
    let entries = |table| Rows::new(table).filter(|row| row.kind.is_entry()).count();
    assert_eq!(entries(&kept) + 1, entries(&whole));
    let refused: Vec<Row> = Rows::new(&kept)
        .filter(|row| row.kind == Kind::Refused)
        .collect();
    assert_eq!(refused.len(), 1);
    assert!(refused[0]
        .text(DAMAGED)
        .starts_with(b"2024-03-31 * \"Office\" \"Flat 2"));
}

#[test]
fn a_ledger_that_is_whole_recovers_as_it_reads() {
    let plain = read_to_vec(CLEAN);
    assert!(plain.is_ok());
    for call in [recover_to_vec, read_strict_to_vec, recover_strict_to_vec] {
        assert_eq!(call(CLEAN), plain);
    }
}
