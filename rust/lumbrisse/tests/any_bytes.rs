//! Any bytes at all get rows or a numbered refusal: texts made up at random, on the real archive.

mod dice;

use dice::Dice;
use lumbrisse::{
    content, expression, expression_exact, expression_stacked, expression_stacked_exact, read,
    read_strict, recover, recover_strict, span_text, tag_in_force, Evaluated, Refusal, Rows,
    ROW_BYTES,
};

/// What ledgers are made of, and bytes that they are not.
const PIECES: [&[u8]; 32] = [
    b"2024-01-31 ",
    b"*",
    b"!",
    b"txn",
    b"\n",
    b"\r\n",
    b"\r",
    b" ",
    b"  ",
    b"\t",
    b"\"",
    b"\\\"",
    b"A:B",
    b"Cash",
    b"1,204.5",
    b"-",
    b"(",
    b")",
    b"/",
    b"0",
    b"KWH",
    b"{",
    b"}",
    b"@",
    b"#tag",
    b"^link",
    b"key: ",
    b"pushtag ",
    b"balance ",
    b"option ",
    b"; note\n",
    b"\xff",
];

/// A call on a single expression.
type Evaluate = fn(&[u8]) -> Result<Evaluated, Refusal>;

/// Both forms, each on the first engine and on the second.
const FORMS: [[Evaluate; 2]; 2] = [
    [expression, expression_stacked],
    [expression_exact, expression_stacked_exact],
];

fn text(dice: &mut Dice) -> Vec<u8> {
    let count = dice.below(30);
    (0..count)
        .flat_map(|_| dice.pick(&PIECES))
        .copied()
        .collect()
}

fn sound(refusal: Refusal, text: &[u8]) {
    assert!(matches!(refusal.number, 1..=11 | 16 | 17));
    assert!(refusal.place <= text.len());
    assert!(refusal.count == 0 || refusal.number == Refusal::TOO_SHORT);
}

#[test]
fn any_bytes_get_rows_or_a_refusal() {
    let mut dice = Dice(0x9E37_79B9_7F4A_7C15);
    for _ in 0..20_000 {
        let text = text(&mut dice);
        let lent: Vec<u8> = (0..dice.below(40 * ROW_BYTES)).map(|n| n as u8).collect();
        for call in [read, recover, read_strict, recover_strict] {
            let mut table = lent.clone();
            match call(&text, &mut table) {
                Err(refusal) => {
                    sound(refusal, &text);
                    assert_eq!(table, lent);
                }
                Ok(count) => {
                    let end = count * ROW_BYTES;
                    assert_eq!(table[end..], lent[end..]);
                    cut_without_gap(&text, &table[..end]);
                }
            }
        }
        for [first, stacked] in FORMS {
            let answer = first(&text);
            match answer {
                Err(refusal) => sound(refusal, &text),
                Ok(found) => assert!(found.stop <= text.len()),
            }
            assert_eq!(stacked(&text), answer);
        }
        let mut buffer = lent.clone();
        match content(&text, &mut buffer) {
            Err(refusal) => {
                sound(refusal, &text);
                assert_eq!(buffer, lent);
            }
            Ok(count) => assert_eq!(buffer[count..], lent[count..]),
        }
        let (start, end) = (dice.below(99), dice.below(99));
        assert_eq!(
            span_text(&text, start, end),
            text.get(start..end).unwrap_or_default()
        );
        let _ = tag_in_force(&text, &lent, dice.below(50), b"tag");
    }
}

/// The rows of entries and refused blocks stand end to end, and all others within the ledger.
fn cut_without_gap(text: &[u8], table: &[u8]) {
    let mut at = 0;
    for row in Rows::new(table) {
        if row.kind.is_detail() {
            assert!(row.start <= row.end && row.end as usize <= text.len());
        } else {
            assert_eq!(row.start, at);
            at = row.end;
        }
    }
    assert_eq!(at as usize, text.len());
}
