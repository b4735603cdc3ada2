//! The calls on the real archive, packets and edits aside (`packets.rs`, `edits.rs`): 01's own listing and edges, every
//! refusal, and every lent byte afterwards.

mod answers;

use answers::{need, refusal, MARK};
use lumbrisse::{
    content, expression, expression_exact, expression_stacked, expression_stacked_exact, read,
    read_to_vec, recover, recover_to_vec, span_text, tag_in_force, Evaluated, Kind, Refusal, Row,
    Rows, ROW_BYTES, SIZE_LIMIT,
};

const LISTED: &[u8] =
    b"2024-01-31 * \"Jan\" #m\n  E:Cell  12.5 KWH {2 EUR}\n  G:Import\n; end\noption \"a\" \"b\"\n";

/// A call on a single expression: an engine in a form. The forms differ only in what they make of products and
/// quotients, the engines in nothing.
type Form = fn(&[u8]) -> Result<Evaluated, Refusal>;
const ROUNDING: [Form; 2] = [expression, expression_stacked];
const EXACT: [Form; 2] = [expression_exact, expression_stacked_exact];
const FORMS: [Form; 4] = [ROUNDING[0], ROUNDING[1], EXACT[0], EXACT[1]];

/// Reads into a table with room for much, and sees to it that a refusal left every byte.
fn reading(ledger: &[u8]) -> Result<Vec<Row>, Refusal> {
    let mut table = vec![MARK; 64 * ROW_BYTES];
    let answer = read(ledger, &mut table);
    let written = answer.unwrap_or(0) * ROW_BYTES;
    assert!(table[written..].iter().all(|byte| *byte == MARK));
    answer.map(|rows| Rows::new(&table).take(rows).collect())
}

fn kinds(ledger: &[u8]) -> Result<Vec<u32>, Refusal> {
    reading(ledger).map(|rows| rows.iter().map(|row| row.kind.number()).collect())
}

fn priced(value: &str) -> Vec<u8> {
    format!("2024-01-31 price KWH {value} EUR\n").into_bytes()
}

fn groups(depth: usize) -> Vec<u8> {
    [b"(".repeat(depth), b"1".to_vec(), b")".repeat(depth)].concat()
}

#[test]
fn the_listing_of_the_rules() {
    let expected = [
        "6 0 66 1 20240131 8 0",
        "20 11 12 1 0 0 0",
        "22 14 17 1 0 0 0",
        "23 20 21 1 0 0 0",
        "33 24 30 2 0 0 0",
        "26 32 36 2 37 40 12500000",
        "28 41 48 2 0 0 0",
        "26 42 43 2 44 47 2000000",
        "33 51 59 3 0 0 0",
        "2 66 81 5 0 2 0",
        "34 74 75 5 0 0 0",
        "34 78 79 5 0 0 0",
    ];
    let rows = reading(LISTED).unwrap();
    let listed: Vec<String> = rows
        .iter()
        .map(|row| {
            let kind = row.kind.number();
            format!(
                "{kind} {} {} {} {} {} {}",
                row.start, row.end, row.line, row.p, row.q, row.value
            )
        })
        .collect();
    assert_eq!(listed, expected);
}

#[test]
fn every_kind_is_written() {
    let ledger = br#"; note
option "a" "b"
include "c"
pushtag #t
poptag #t
2024-01-31 * "Payee" "Narration" #tag ^link
  key: "string"
  number: 1
  unit: KWH
  A:B  1 KWH {2024-01-01} @ 1 EUR
  A:C  1 KWH @@ 1 EUR
2024-01-31 price KWH 1 EUR
2024-01-31 balance A:B 1 ~ 2 KWH
2024-01-31 open A:B KWH "STRICT"
2024-01-31 close A:B
2024-01-31 pad A:B A:C
2024-01-31 commodity KWH
2024-01-31 event "a" "b"
2024-01-31
"#;
    let mut table = [0; 80 * ROW_BYTES];
    let rows = recover(ledger, &mut table).unwrap();
    let found: Vec<Kind> = Rows::new(&table).take(rows).map(|row| row.kind).collect();
    for kind in Kind::ALL {
        assert!(found.contains(kind), "no row is a {kind}");
    }
    assert!(!found.iter().any(|kind| matches!(kind, Kind::Other(_))));
}

#[test]
fn refusal_1_is_for_size() {
    let whole = vec![b'\n'; SIZE_LIMIT];
    assert_eq!(read(&whole, &mut []), Err(need(SIZE_LIMIT)));
    let long = vec![b'\n'; SIZE_LIMIT + 1];
    assert_eq!(read(&long, &mut []), Err(refusal(1, 0)));
    assert_eq!(recover(&long, &mut []), Err(refusal(1, 0)));
    for form in FORMS {
        assert_eq!(form(&long), Err(refusal(1, 0)));
    }
}

#[test]
fn refusal_2_is_for_the_first_byte_that_is_not_permitted() {
    assert_eq!(reading(b"; a\n\0\xff\n"), Err(refusal(2, 4)));
    assert_eq!(kinds(b"; a\r\n"), Ok(vec![1]));
    assert_eq!(reading(b"; a\r"), Err(refusal(2, 3)));
    for form in FORMS {
        assert_eq!(form(b"1 \0"), Err(refusal(2, 2)));
    }
}

#[test]
fn refusal_3_is_for_groups_too_deep() {
    for form in FORMS {
        assert_eq!(form(&groups(32)).map(|found| found.stop), Ok(65));
        assert_eq!(form(&groups(33)), Err(refusal(3, 32)));
    }
    let price = [b"2024-01-31 price KWH ", &groups(33)[..], b" EUR\n"].concat();
    assert_eq!(reading(&price), Err(refusal(3, 21 + 32)));
}

#[test]
fn refusal_3_is_for_a_group_wherever_one_may_open() {
    let behind = |open: usize, text: &str| [&b"(".repeat(open), text.as_bytes()].concat();
    for form in FORMS {
        // What may stand before a group. What stands behind its `(` does not matter once it is the 33rd.
        for before in [
            "", " ", "\t ", "1+", "1 - ", "2*", "1/0 /\t", "1+2*", "-", "- ", "-\t",
        ] {
            for after in ["(", "(1)", "(1", "(x", "()"] {
                let found = form(&behind(32, &format!("{before}{after}")));
                let expected = Err(refusal(3, 32 + before.len()));
                assert_eq!(found, expected, "{before}{after}");
            }
            let whole = format!("{before}(1){}", ")".repeat(31));
            let number = form(&behind(31, &whole)).map_or_else(|refusal| refusal.number, |_| 0);
            assert!(matches!(number, 0 | 8), "{whole}");
        }
        // Before a group these miss: an operator is left, and nothing closes.
        for before in ["1*-", "1+ -", "--", "1", "x"] {
            let found = form(&behind(32, &format!("{before}(1)")));
            assert_eq!(found, Err(refusal(11, 0)), "{before}");
        }
    }
}

#[test]
fn refusal_4_is_for_a_missing_part() {
    assert_eq!(reading(b"2024-01-31\n"), Err(refusal(4, 0)));
    assert_eq!(reading(b"; a\nincludes\n"), Err(refusal(4, 4)));
    assert_eq!(kinds(b"optional\n"), Ok(vec![1]));
    assert_eq!(
        reading(b"\n2024-01-31 *\n  Cash 1 EUR\n"),
        Err(refusal(4, 1))
    );
}

#[test]
fn refusal_5_is_for_a_last_line_without_line_feed() {
    assert_eq!(reading(b"; a\n; b"), Err(refusal(5, 4)));
    assert_eq!(reading(b"pushtag #a "), Err(refusal(5, 10)));
    assert_eq!(kinds(b"pushtag #a"), Ok(vec![4, 23]));
}

#[test]
fn refusals_6_to_8_are_for_values() {
    for (value, number) in [
        ("9999999999", 6),
        ("999999999.9999991", 6),
        // 999,999,999.9999995 and 999,999,999.99999999 go to 10^9.
        ("917431192.66055*1.09", 6),
        ("999990000.099999*1.00001", 6),
        ("1.0000001", 7),
        ("2*0.0000005", 7),
        ("1/0", 8),
        ("1/(1-1)", 8),
    ] {
        assert_eq!(reading(&priced(value)), Err(refusal(number, 21)), "{value}");
        for form in FORMS {
            assert_eq!(form(value.as_bytes()), Err(refusal(number, 0)), "{value}");
        }
    }
    let largest = 999_999_999_999_999;
    for (value, millionths) in [
        ("999999999.999999", largest),
        ("-999999999.999999", -largest),
        ("999999999.999999*1.000000", largest),
        ("0.0000010", 1),
    ] {
        let rows = reading(&priced(value)).unwrap();
        assert_eq!(rows[2].value, millionths, "{value}");
        for form in FORMS {
            let found = form(value.as_bytes()).map(|found| found.value);
            assert_eq!(found, Ok(millionths), "{value}");
        }
    }
}

#[test]
fn products_and_quotients_round_unless_they_must_be_exact() {
    for (text, value, number) in [
        ("100/3", 33_333_333, 7),
        ("2/3", 666_667, 7),
        ("-1/3", -333_333, 7),
        // Ties go to the even one.
        ("0.000001/2", 0, 7),
        ("0.000003/2", 2, 7),
        ("0.000001*0.5", 0, 7),
        ("-0.000001/2", 0, 7),
        ("-0.000003/2", -2, 7),
        // Each operation rounds.
        ("1/3*3", 999_999, 7),
        ("1/3+2/3", 1_000_000, 7),
        // This is 999,999,999.999999000999, which is over the limit until it is rounded.
        ("999999000.000999*1.000001", 999_999_999_999_999, 6),
    ] {
        let stop = text.len();
        for form in ROUNDING {
            let found = form(text.as_bytes());
            assert_eq!(found, Ok(Evaluated { value, stop }), "{text}");
        }
        for form in EXACT {
            let found = form(text.as_bytes());
            assert_eq!(found, Err(refusal(number, 0)), "{text}");
        }
        for call in [read_to_vec, recover_to_vec] {
            let table = call(&priced(text)).unwrap();
            let found = Rows::new(&table).nth(2).map(|row| row.value);
            assert_eq!(found, Some(value), "{text}");
        }
    }
    // A divisor that rounding makes zero, and one that is zero behind a quotient that rounds.
    for text in [&b"1/(0.000001/3)"[..], b"1/3/0"] {
        assert_eq!(ROUNDING.map(|form| form(text)), [Err(refusal(8, 0)); 2]);
        assert_eq!(EXACT.map(|form| form(text)), [Err(refusal(7, 0)); 2]);
    }
}

#[test]
fn refusal_9_has_the_need_and_leaves_the_buffer() {
    type Call = fn(&[u8], &mut [u8]) -> Result<usize, Refusal>;
    let calls: [(Call, &[u8], usize, usize); 3] = [
        (read, LISTED, 12, 12 * ROW_BYTES),
        (recover, LISTED, 12, 12 * ROW_BYTES),
        (content, b"a\\\"b", 3, 3),
    ];
    for (call, text, count, size) in calls {
        for short in [0, 1, size - 1] {
            let mut buffer = vec![MARK; short];
            assert_eq!(call(text, &mut buffer), Err(need(count)));
            assert_eq!(buffer, vec![MARK; short]);
        }
        for long in [0, 1, 31, 32, 100] {
            let mut buffer = vec![MARK; size + long];
            assert_eq!(call(text, &mut buffer), Ok(count));
            assert_eq!(buffer[size..], vec![MARK; long]);
        }
    }
    assert_eq!(read(b"", &mut []), Ok(0));
    assert_eq!(recover(b"", &mut []), Ok(0));
    assert_eq!(content(b"", &mut []), Ok(0));
}

#[test]
fn refusal_10_is_for_bad_content_and_bad_row_numbers() {
    for bad in [&b"\\\"a"[..], b"a\\\"\\\"", b"a\\n", b"a\"", b"a\\"] {
        let mut buffer = [MARK; 8];
        assert_eq!(content(bad, &mut buffer), Err(refusal(10, 0)));
        assert_eq!(content(bad, &mut []), Err(refusal(10, 0)));
        assert_eq!(buffer, [MARK; 8]);
    }
    let table = [0; 2 * ROW_BYTES + 31];
    assert_eq!(tag_in_force(b"", &table, 2, b"a"), Ok(false));
    assert_eq!(tag_in_force(b"", &table, 3, b"a"), Err(refusal(10, 0)));
    assert_eq!(
        tag_in_force(b"", &table, usize::MAX, b"a"),
        Err(refusal(10, 0))
    );
}

#[test]
fn refusal_11_is_for_no_expression() {
    for none in [&b""[..], b"KWH", b"\t5", b" (5)", b"1.2.3", b"."] {
        for form in FORMS {
            assert_eq!(form(none), Err(refusal(11, 0)));
        }
    }
}

#[test]
fn every_refusal_has_a_meaning_and_some_a_place() {
    let numbers = [1, 2, 3, 4, 5, 6, 7, 8, 9, 10, 11, 15, 16, 17, 18, 19, 20];
    let unknown = refusal(0, 0).meaning();
    let known: Vec<usize> = (0..100)
        .filter(|number| refusal(*number, 0).meaning() != unknown)
        .collect();
    assert_eq!(known, numbers);
    let mut meanings: Vec<_> = numbers.map(|number| refusal(number, 0).meaning()).into();
    meanings.sort_unstable();
    meanings.dedup();
    assert_eq!(meanings.len(), numbers.len());
    let whole_calls = numbers
        .into_iter()
        .filter(|number| !refusal(*number, 0).has_place());
    assert!(whole_calls.eq([1, 9, 10, 15, 18]));
}

#[test]
fn both_sides_of_each_edge() {
    let whole = |value: i64| value * 1_000_000;
    let edges: [(&str, i64, usize); 7] = [
        ("-(2)*3", whole(-2), 4),
        ("2*-(3)", whole(2), 1),
        ("2--3", whole(5), 4),
        ("- 5", whole(-5), 3),
        ("1,2,.5", 12_500_000, 6),
        ("0.000001", 1, 8),
        (" 5", whole(5), 2),
    ];
    for (text, value, stop) in edges {
        for form in FORMS {
            let found = form(text.as_bytes());
            assert_eq!(found, Ok(Evaluated { value, stop }), "{text}");
        }
    }
    for (text, number) in [("0.0000001", 7), ("999999999.999999*1.000001", 6)] {
        for form in FORMS {
            assert_eq!(form(text.as_bytes()), Err(refusal(number, 0)));
        }
    }
    let posted = |cost: &str| {
        let ledger = format!("2024-01-31 *\n  A:B 1 KWH {cost}\n");
        let rows = reading(ledger.as_bytes()).unwrap();
        (rows[4].p, rows[5].value)
    };
    assert_eq!(posted("{2024-05-01,3 EUR}"), (20240501, whole(3)));
    assert_eq!(posted("{2024-05-01,3/1.5 EUR}"), (20240501, whole(2)));
}

#[test]
fn a_span_is_a_part_of_the_ledger_itself() {
    let text = span_text(LISTED, 24, 30);
    assert_eq!(text, b"E:Cell");
    assert_eq!(text.as_ptr(), LISTED[24..].as_ptr());
    for (start, end) in [
        (30, 24),
        (0, 82),
        (82, 82),
        (usize::MAX, usize::MAX),
        (5, 0),
    ] {
        let empty = span_text(LISTED, start, end);
        assert_eq!((empty.len(), empty.as_ptr()), (0, LISTED.as_ptr()));
    }
    assert_eq!(span_text(LISTED, 0, 81), LISTED);
    assert_eq!(span_text(b"", 0, 0), b"");
}

#[test]
fn a_tag_is_in_force_from_its_push_to_its_pop() {
    let ledger = b"pushtag #a\npushtag #b\npoptag #a\n";
    let table = read_to_vec(ledger).unwrap();
    let in_force = |k, tag: &[u8]| tag_in_force(ledger, &table, k, tag).unwrap();
    // The rows are three times: the entry, its tag, and the rest of its line.
    assert_eq!(Rows::new(&table).len(), 9);
    assert!(!in_force(0, b"a"));
    assert!(!in_force(1, b"a"));
    assert!(in_force(2, b"a"));
    assert!(in_force(7, b"a"));
    assert!(!in_force(8, b"a"));
    assert!(in_force(9, b"b"));
    assert!(!in_force(9, b""));
}

#[test]
fn tables_grow_to_the_need() {
    // A row for every byte: more than any first guess has room for.
    let dense = b"\n".repeat(1000);
    let table = read_to_vec(&dense).unwrap();
    assert_eq!(table.len(), 1000 * ROW_BYTES);
    assert_eq!(
        Rows::new(&table).next_back().map(|row| row.line),
        Some(1000)
    );
    assert_eq!(read_to_vec(b""), Ok(vec![]));
    assert_eq!(read_to_vec(b"x"), Err(refusal(5, 0)));
}

#[test]
fn a_row_is_32_bytes_little_endian() {
    let mut table = [MARK; ROW_BYTES];
    assert_eq!(read(b"; note\n", &mut table), Ok(1));
    let mut expected = [0; ROW_BYTES];
    (expected[0], expected[8], expected[12]) = (1, 7, 1);
    assert_eq!(table, expected);
}
