//! A ledger written afresh by the real archive, beside a second reckoning over plain reading's rows.
//!
//! The whole ledger is `examples/clean.beancount`; `LUMBRISSE_LEDGER` names another.

mod answers;
mod dice;
mod made;
#[path = "made/written.rs"]
mod made_written;
mod met;
#[path = "model/written.rs"]
mod model;
#[path = "model/said.rs"]
mod said;

use std::env;
use std::fs;

use answers::{need, refusal, MARK};
use dice::Dice;
use lumbrisse::{read_to_vec, write, written, Kind, Refusal, Rows, Short, ROW_BYTES, SIZE_LIMIT};
use met::Met;
use model::{Lent, Reckoned};
use said::{has_blank_quote, said, Said};

/// So many ledgers are made.
const LEDGERS: usize = 20_000;

/// Where another ledger is named.
const NAMED: &str = "LUMBRISSE_LEDGER";
const OWN: &str = concat!(
    env!("CARGO_MANIFEST_DIR"),
    "/../../examples/clean.beancount"
);

/// Buffers of so many bytes, each with bytes of its own.
fn lent(dice: &mut Dice, rooms: [usize; 2]) -> Lent {
    // None of them is 0, as zeros are what working space is left with.
    let [output, work] = rooms.map(|room| {
        let first = dice.below(255);
        (0..room)
            .map(|at| ((first + 7 * at) % 255) as u8 + 1)
            .collect()
    });
    Lent { output, work }
}

/// Makes the call and compares it with what was reckoned: both answer alike, and leave every lent byte alike.
fn compare(ledger: &[u8], reckoned: &Reckoned, before: &Lent) -> Result<usize, Refusal> {
    let (mut found, mut expected) = (before.clone(), before.clone());
    let lent_ledger = ledger.to_vec();
    let answer = write(&lent_ledger, &mut found.output, &mut found.work);
    let second = model::answered(reckoned, &mut expected);
    let text = ledger.escape_ascii();
    assert_eq!(answer, second, "{text}");
    assert_eq!(
        found.output.escape_ascii().to_string(),
        expected.output.escape_ascii().to_string(),
        "output for {text}"
    );
    assert_eq!(found.work, expected.work, "work for {text}");
    assert_eq!(lent_ledger, ledger);
    answer
}

/// A length near a need: exact, or short by a byte, a row or all of it, or longer.
fn near(dice: &mut Dice, need: usize) -> usize {
    match dice.below(12) {
        0 => need.saturating_sub(1),
        1 => need.saturating_sub(ROW_BYTES),
        2 => dice.below(need + 1),
        3..=7 => need,
        _ => need + dice.below(70),
    }
}

/// What a ledger says; and sees to it that its text says the same, and does not change when it is written again, where
/// that is promised.
fn said_again(ledger: &[u8], text: &[u8]) -> Vec<Said> {
    let before = said(ledger, &read_to_vec(ledger).unwrap());
    if !has_blank_quote(&before) {
        let shown = ledger.escape_ascii();
        let table = read_to_vec(text).unwrap_or_else(|refusal| panic!("{refusal}: {shown}"));
        assert_eq!(said(text, &table), before, "{shown}");
        assert_eq!(written(text).as_deref(), Ok(text), "{shown}");
    }
    before
}

#[test]
fn any_ledger_is_written_as_a_second_reckoning_does() {
    let mut dice = Dice(0x9E37_79B9_7F4A_7C15);
    let mut met = Met::default();
    for _ in 0..LEDGERS {
        let ledger = made_written::ledger(&mut dice);
        let reckoned = model::reckoned(&ledger);
        let (text, rows) = reckoned.clone().unwrap_or((vec![0; 40], 3));
        let (whole, space) = (text.len(), rows * ROW_BYTES);
        let rooms = [near(&mut dice, whole), near(&mut dice, space)];
        for rooms in [[whole, space], rooms] {
            let before = lent(&mut dice, rooms);
            let answer = compare(&ledger, &reckoned, &before);
            let is = |place| answer.is_err_and(|found| (found.number, found.place) == (9, place));
            let fits = answer.is_ok();
            met.count("accepted", fits);
            met.count("accepted, with room left", fits && rooms > [whole, space]);
            met.count("9 for work", is(1));
            met.count("9 for work, with no room", is(1) && rooms[0] < whole);
            met.count("9 for the output", is(0));
            met.count(
                "9 for the output, with room in work",
                is(0) && rooms[1] > space,
            );
        }
        let own = reckoned.clone().map(|(text, _)| text);
        assert_eq!(written(&ledger), own);
        met.count("refused by plain reading", own.is_err());
        let Ok(text) = own else { continue };
        let said = said_again(&ledger, &text);
        let quoted = has_blank_quote(&said);
        met.count("a quote in a blank entry", quoted);
        met.count("changed", !quoted && text != ledger);
        met.count("unchanged, with rows", text == ledger && rows > 0);
        met.count("longer", text.len() > ledger.len());
        for kind in Kind::ALL.iter().filter(|kind| **kind != Kind::Refused) {
            let has = said.iter().any(|one| one.kind == *kind);
            met.count(kind.name(), has && !quoted);
        }
    }
    met.all_often(LEDGERS, 200);
    for what in [
        "changed",
        "refused by plain reading",
        "9 for work",
        "9 for the output",
    ] {
        met.often(what, LEDGERS, 20);
    }
}

#[test]
fn a_whole_ledger_is_written_as_a_second_reckoning_does() {
    let file = env::var(NAMED).unwrap_or(OWN.into());
    let ledger = fs::read(&file).unwrap_or_else(|error| panic!("{file}: {error}"));
    let reckoned = model::reckoned(&ledger);
    let (text, rows) = reckoned.clone().unwrap();
    let before = lent(&mut Dice(1), [text.len() + 5, rows * ROW_BYTES + 33]);
    assert_eq!(compare(&ledger, &reckoned, &before), Ok(text.len()));
    assert_eq!(written(&ledger).as_deref(), Ok(&text[..]));
    let said = said_again(&ledger, &text);
    println!("{file}: {} bytes, written in {}", ledger.len(), text.len());
    assert!(!has_blank_quote(&said));
    assert!(said.len() > 100 && text != ledger);
}

/// A ledger written afresh, as text.
fn afresh(ledger: &str) -> String {
    String::from_utf8(written(ledger.as_bytes()).unwrap()).unwrap()
}

#[test]
fn parts_stand_a_space_apart_and_lines_are_indented_by_two() {
    for (ledger, expected) in [
        // Document 01's ledger, in which the comment below the postings belongs to the transaction.
        (
            "2024-01-31 * \"Jan\" #m\n  E:Cell  12.5 KWH {2 EUR}\n  G:Import\n; end\noption \"a\" \"b\"\n",
            "2024-01-31 * \"Jan\" #m\n  E:Cell 12.5 KWH {2 EUR}\n  G:Import\noption \"a\" \"b\"\n",
        ),
        (
            "2024-01-31\ttxn  \"Office\"\t\"Flat 2\"#a#b ^c\n\t!\tA:B   1  EUR\n",
            "2024-01-31 txn \"Office\" \"Flat 2\" #a #b ^c\n  ! A:B 1 EUR\n",
        ),
        (
            "2024-01-31 *\n A:B\n\tk:\t\"x\"\n        unit:  KWH;c\n count: 5\n A:C\n",
            "2024-01-31 *\n  A:B\n  k: \"x\"\n  unit: KWH\n  count: 5\n  A:C\n",
        ),
        (
            "2024-01-31  balance  A:B  1~0.1  KWH\n",
            "2024-01-31 balance A:B 1 ~ 0.1 KWH\n",
        ),
        (
            "2024-01-31 open A:B  EUR,KWH , USD\t\"STRICT\"\n",
            "2024-01-31 open A:B EUR, KWH, USD \"STRICT\"\n",
        ),
        ("2024-01-31 open A:B\n", "2024-01-31 open A:B\n"),
        ("2024-01-31 price  KWH  0.310  EUR\n", "2024-01-31 price KWH 0.31 EUR\n"),
        ("2024-01-31 pad  A:B  A:C\n", "2024-01-31 pad A:B A:C\n"),
        ("2024-01-31 close\tA:B\n", "2024-01-31 close A:B\n"),
        ("2024-01-31 commodity\tKWH\n", "2024-01-31 commodity KWH\n"),
        ("2024-01-31 event  \"a\"  \"b\"\n", "2024-01-31 event \"a\" \"b\"\n"),
        ("option  \"a\"\t\"b\"\n", "option \"a\" \"b\"\n"),
        ("include\t\"a\"\n", "include \"a\"\n"),
    ] {
        assert_eq!(afresh(ledger), expected);
    }
}

#[test]
fn costs_and_prices_have_one_form() {
    for (written, expected) in [
        ("{ }", "{}"),
        ("{2.50  EUR}", "{2.5 EUR}"),
        ("{ 2024-05-01 }", "{2024-05-01}"),
        ("{2024-05-01,3/1.5 EUR}", "{2 EUR, 2024-05-01}"),
        ("{3 EUR , 2024-05-01}", "{3 EUR, 2024-05-01}"),
        ("@  .5 EUR", "@ 0.5 EUR"),
        ("@@\t1,000 EUR", "@@ 1000 EUR"),
        ("{}  @@ 1 EUR", "{} @@ 1 EUR"),
    ] {
        let ledger = format!("2024-01-31 *\n  A:B 1 X  {written}\n");
        assert_eq!(
            afresh(&ledger),
            format!("2024-01-31 *\n  A:B 1 X {expected}\n")
        );
    }
}

#[test]
fn an_expression_becomes_its_value_without_trailing_zeros() {
    for (expression, value) in [
        ("0", "0"),
        ("-0", "0"),
        ("0.000000", "0"),
        ("007", "7"),
        ("5.", "5"),
        (".5", "0.5"),
        ("10", "10"),
        ("1,000.50", "1000.5"),
        ("- 5", "-5"),
        ("-(2)", "-2"),
        ("2--3", "5"),
        ("100/3", "33.333333"),
        ("0.000001", "0.000001"),
        ("-0.000001", "-0.000001"),
        ("0.100001", "0.100001"),
        ("0.5-1", "-0.5"),
        ("999,999,999.999999", "999999999.999999"),
        ("-999999999.999999", "-999999999.999999"),
    ] {
        let price = |amount| format!("2024-01-31 price KWH {amount} EUR\n");
        assert_eq!(afresh(&price(expression)), price(value));
    }
}

#[test]
fn comments_and_empty_lines_inside_entries_go_and_blank_entries_stay() {
    for (ledger, expected) in [
        ("2024-01-31 close A:B ; c\n", "2024-01-31 close A:B\n"),
        ("2024-01-31 *;c\n ; c\n\n  A:B;c\n", "2024-01-31 *\n  A:B\n"),
        // Below a directive they belong to it, indented or not; below a line without date they stay.
        (
            "2024-01-31 close A:B\n\n; c\n  ; d\n2024-01-31 close A:C\n",
            "2024-01-31 close A:B\n2024-01-31 close A:C\n",
        ),
        (
            "option \"a\" \"b\";c\n\n; c\n",
            "option \"a\" \"b\"\n\n; c\n",
        ),
        ("include \"a\" ; c\n\n; c\n", "include \"a\"\n\n; c\n"),
        (
            "2024-01-31 close A:B\n* March\n\n; c\n",
            "2024-01-31 close A:B\n* March\n\n; c\n",
        ),
        (" \t \r\n;  a\t\r\n  X \n", " \t \r\n;  a\t\r\n  X \n"),
        // What stands behind the tag is a blank entry.
        (
            "pushtag  #a  ; c\r\npoptag\t#\n",
            "pushtag #a  ; c\r\npoptag #\n",
        ),
    ] {
        assert_eq!(afresh(ledger), expected);
    }
}

#[test]
fn a_quote_in_a_blank_entry_may_swallow_what_follows() {
    // The option misses, as something stands behind the quote that closes its second string: the one in the comment.
    let ledger = "option \"a\" \"b\n2024-01-31 close A:B ; \"z\n2024-02-29 \" \n";
    let before = said(ledger.as_bytes(), &read_to_vec(ledger.as_bytes()).unwrap());
    assert!(has_blank_quote(&before));
    let text = afresh(ledger);
    assert_eq!(
        text,
        "option \"a\" \"b\n2024-01-31 close A:B\n2024-02-29 \"\n"
    );
    let kinds: Vec<Kind> = Rows::new(&read_to_vec(text.as_bytes()).unwrap())
        .map(|row| row.kind)
        .collect();
    assert_eq!(kinds, [Kind::Option, Kind::String, Kind::String]);
}

#[test]
fn line_ends_become_line_feeds_and_a_last_one_is_added() {
    for (ledger, expected) in [
        ("2024-01-31 *\r\n  A:B\r\n", "2024-01-31 *\n  A:B\n"),
        ("2024-01-31 close A:B", "2024-01-31 close A:B\n"),
        ("option \"a\" \"b\"", "option \"a\" \"b\"\n"),
        (
            "2024-01-31 *\n  A:B\n  k: 5",
            "2024-01-31 *\n  A:B\n  k: 5\n",
        ),
        ("pushtag #a", "pushtag #a"),
        ("poptag\t#", "poptag #"),
        // Within strings, and as flags, they are part of what is said.
        ("2024-01-31 * \"a\r\n b\"\r\n", "2024-01-31 * \"a\r\n b\"\n"),
        ("2024-01-31  \n#a\n", "2024-01-31 \n #a\n"),
        ("2024-01-31 \r\n", "2024-01-31 \r\n"),
        ("", ""),
    ] {
        assert_eq!(afresh(ledger), expected);
        let said = said_again(ledger.as_bytes(), expected.as_bytes());
        assert_eq!(said.is_empty(), ledger.is_empty());
    }
}

#[test]
fn strings_keep_every_byte() {
    let ledger = "2024-01-31  *  \"say \\\"x\\\" ; a  b\"   \"c\\\\\"\n  A:B\n\tk:  \" \\\"  \"\n";
    let expected = "2024-01-31 * \"say \\\"x\\\" ; a  b\" \"c\\\\\"\n  A:B\n  k: \" \\\"  \"\n";
    assert_eq!(afresh(ledger), expected);
}

/// Sees to it that a call is refused and leaves the output; `work` too, but for so many zeros at the front.
fn refused(ledger: &[u8], rooms: [usize; 2], expected: Refusal, zeros: usize) {
    let [mut output, mut work] = rooms.map(|room| vec![MARK; room]);
    assert_eq!(
        write(ledger, &mut output, &mut work),
        Err(expected),
        "{rooms:?}"
    );
    assert_eq!(output, vec![MARK; rooms[0]]);
    let left = [vec![0; zeros], vec![MARK; rooms[1] - zeros]].concat();
    assert_eq!(work, left, "{rooms:?}");
}

/// A ledger with four rows, and it afresh.
const SMALL: &[u8] = b"2024-03-31  *\n  A:C  1.0 EUR\n";
const SMALL_AFRESH: &[u8] = b"2024-03-31 *\n  A:C 1 EUR\n";

#[test]
fn refusals_come_in_their_order() {
    let work = |count| Refusal {
        place: 1,
        ..need(count)
    };
    for (behind, number, place) in [
        (&b"; \xff\n"[..], 2, 2),
        (
            b"2024-01-01 *\n  A:B ((((((((((((((((((((((((((((((((((1 EUR\n",
            3,
            51,
        ),
        (b"2024-01-01\n", 4, 0),
        (b"x", 5, 0),
        (b"2024-01-01 price A 9999999999 B\n", 6, 19),
        (b"2024-01-01 price A 0.0000001 B\n", 7, 19),
        (b"2024-01-01 price A 1/0 B\n", 8, 19),
    ] {
        let ledger = [SMALL, behind].concat();
        for rooms in [[0; 2], [999, 0], [0, 999], [999; 2]] {
            refused(&ledger, rooms, refusal(number, SMALL.len() + place), 0);
        }
    }
    for space in [0, 1, 32, 96, 127] {
        for room in [0, SMALL_AFRESH.len(), 999] {
            refused(SMALL, [room, space], work(128), 0);
        }
    }
    for room in [0, 1, SMALL_AFRESH.len() - 1] {
        for space in [128, 129, 999] {
            refused(SMALL, [room, space], need(SMALL_AFRESH.len()), 128);
        }
    }
    let long = vec![b'\n'; SIZE_LIMIT + 1];
    refused(&long, [0; 2], refusal(1, 0), 0);
    assert_eq!(written(&long), Err(refusal(1, 0)));
}

#[test]
fn exact_room_is_enough_and_bytes_behind_it_stay() {
    for (more_output, more_work) in [(0, 0), (1, 1), (40, 33), (0, 64)] {
        let mut output = vec![MARK; SMALL_AFRESH.len() + more_output];
        let mut work = vec![MARK; 128 + more_work];
        assert_eq!(write(SMALL, &mut output, &mut work), Ok(SMALL_AFRESH.len()));
        assert_eq!(output, [SMALL_AFRESH, &vec![MARK; more_output]].concat());
        assert_eq!(work, [vec![0; 128], vec![MARK; more_work]].concat());
    }
    // A ledger without bytes needs no room.
    assert_eq!(write(b"", &mut [], &mut []), Ok(0));
    let [mut output, mut work] = [[MARK; 40]; 2];
    assert_eq!(write(b"", &mut output, &mut work), Ok(0));
    assert_eq!([output, work], [[MARK; 40]; 2]);
}

#[test]
fn a_short_buffer_is_told_by_what_it_is_for() {
    let short = |rooms: [usize; 2]| {
        let [mut output, mut work] = rooms.map(|room| vec![0; room]);
        write(SMALL, &mut output, &mut work).unwrap_err().short()
    };
    assert_eq!(short([999, 127]), Some(Short::Work { need: 128 }));
    let need = SMALL_AFRESH.len();
    assert_eq!(short([need - 1, 128]), Some(Short::Answer { need }));
}

#[test]
fn a_text_longer_than_a_ledger_may_be_is_written_all_the_same() {
    // The value is five bytes longer than its expression.
    let price = b"2024-01-31 price A 1/3 B\n";
    let comment = [&b";".repeat(SIZE_LIMIT - price.len() - 1)[..], b"\n"].concat();
    let text = written(&[&comment[..], price].concat()).unwrap();
    assert_eq!(text.len(), SIZE_LIMIT + 5);
    assert!(text.starts_with(&comment));
    assert!(text.ends_with(b"\n2024-01-31 price A 0.333333 B\n"));
    assert_eq!(written(&text), Err(refusal(1, 0)));
}

#[test]
fn every_kind_of_row_is_written_once_more() {
    let ledger = b"2024-01-31 * \"a\" \"b\" #c ^d\n  ! A:B 1 X {2 Y, 2024-05-01} @ 3 Z\n  k: \"v\"\n  A:C 1 X {} @@ 4 Z\n  n: 5\n  u: KWH\n\
        2024-01-31 price A 1 B\n2024-01-31 balance A:B 1 ~ 2 X\n2024-01-31 open A:B X, Y \"b\"\n2024-01-31 close A:B\n\
        2024-01-31 pad A:B A:C\n2024-01-31 commodity X\n2024-01-31 event \"a\" \"b\"\noption \"a\" \"b\"\ninclude \"a\"\n\
        pushtag #a\npoptag #a\n; c\n";
    let table = read_to_vec(ledger).unwrap();
    for kind in Kind::ALL.iter().filter(|kind| **kind != Kind::Refused) {
        assert!(Rows::new(&table).any(|row| row.kind == *kind), "{kind}");
    }
    assert_eq!(written(ledger).as_deref(), Ok(&ledger[..]));
}
