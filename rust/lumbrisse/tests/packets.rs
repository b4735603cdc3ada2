//! Packets on the real archive: rows and texts go there and back, and any bytes get what the model says.

mod answers;
mod dice;
mod mangled;
#[path = "model/packet.rs"]
mod model;

use std::collections::BTreeMap;

use answers::{need, refusal, MARK};
use dice::Dice;
use lumbrisse::{
    packet, packet_next, packet_to_vec, read_to_vec, recover_to_vec, Handed, Kind, PacketRow,
    Packets, Refusal, Row, Rows, ROW_BYTES, TEXT_LIMIT,
};
use mangled::Fields;

const CLEAN: &[u8] = include_bytes!("../../../examples/clean.beancount");
const DAMAGED: &[u8] = include_bytes!("../../../examples/building.beancount");

/// So many packets are mangled.
const MANGLED: usize = 100_000;

fn detail(next: usize, length: usize) -> Result<Handed, Refusal> {
    Ok(Handed::Detail { next, length })
}

/// A row of a kind with a span.
fn row(kind: u32, start: u32, end: u32) -> Row {
    Row {
        kind: Kind::from(kind),
        start,
        end,
        line: 1,
        p: 2,
        q: 3,
        value: -4,
    }
}

fn table(rows: &[Row]) -> Vec<u8> {
    rows.iter().flat_map(Row::to_bytes).collect()
}

/// The packet of all rows of a table, which is what the model writes too.
fn written(ledger: &[u8], table: &[u8]) -> Vec<u8> {
    let count = Rows::new(table).len();
    let packet = packet_to_vec(ledger, table, count).unwrap();
    assert_eq!(Ok(&packet), model::packet(ledger, table, count).as_ref());
    packet
}

/// Whether a display gets the rows of a table, and the texts of their spans, from a packet.
fn reads_back(ledger: &[u8], table: &[u8], packet: &[u8]) {
    let expected = Rows::new(table).map(|row| {
        let text = (row.kind.number() >= 20).then(|| row.text(ledger));
        Ok(PacketRow { row, text })
    });
    let mut rows = Packets::new(packet);
    assert!(rows.by_ref().eq(expected));
    assert_eq!(rows.place(), packet.len());
}

#[test]
fn what_plain_reading_gives_reads_back() {
    let table = read_to_vec(CLEAN).unwrap();
    let packet = written(CLEAN, &table);
    reads_back(CLEAN, &table, &packet);
    assert_eq!(packet[..3], [1, 0, 32]);
}

#[test]
fn what_recovering_reading_gives_reads_back() {
    let bytes: Vec<u8> = (0..=255).collect();
    for ledger in [DAMAGED, &bytes, b"2024-01-31\n", b"2024-01-31 *\ninclude\n"] {
        let table = recover_to_vec(ledger).unwrap();
        let packet = written(ledger, &table);
        reads_back(ledger, &table, &packet);
        let blocks = Packets::new(&packet).filter_map(|handed| {
            let PacketRow { row, text } = handed.unwrap();
            row.refusal().map(|_| text.unwrap() == row.text(ledger))
        });
        assert!(blocks.clone().count() > 0);
        assert!(blocks.into_iter().all(|whole| whole));
    }
}

/// A kind at an edge or any other.
fn some_kind(dice: &mut Dice) -> u32 {
    [0, 1, 13, 19, 20, 26, 33, 37, 38, 90, 256, u32::MAX][dice.below(12)]
}

/// Rows of any kind whose spans are good.
fn some_rows(dice: &mut Dice, ledger: &[u8]) -> Vec<Row> {
    let place = |dice: &mut Dice| dice.below(ledger.len() + 1) as u32;
    let count = dice.below(8);
    let some_row = |_| {
        let (one, two) = (place(dice), place(dice));
        let value = dice.0 as i64;
        Row {
            value,
            ..row(some_kind(dice), one.min(two), one.max(two))
        }
    };
    (0..count).map(some_row).collect()
}

/// Rows of which now and then one has a bad span, and bytes that are no whole row.
fn some_table(dice: &mut Dice, ledger: &[u8]) -> Vec<u8> {
    let mut rows = some_rows(dice, ledger);
    let bad = dice.below(20);
    if let Some(row) = rows.get_mut(bad) {
        row.end = [0, row.start.wrapping_sub(1), u32::MAX][dice.below(3)];
    }
    let mut table = table(&rows);
    table.resize(table.len() + dice.below(ROW_BYTES), MARK);
    table
}

#[test]
fn any_table_is_written_as_the_model_writes_it() {
    let mut dice = Dice(0x2545_F491_4F6C_DD1D);
    let mut seen = BTreeMap::new();
    for _ in 0..20_000 {
        let ledger = &CLEAN[..dice.below(40)];
        let table = some_table(&mut dice, ledger);
        let k = dice.below(Rows::new(&table).len() + 2);
        let whole = model::packet(ledger, &table, k).unwrap_or_default();
        // Much too short, one short, exact, and longer.
        let room = [0, whole.len().saturating_sub(1), whole.len(), 600][dice.below(4)];
        let (mut found, mut expected) = (vec![MARK; room], vec![MARK; room]);
        let answer = packet(ledger, &table, k, &mut found);
        assert_eq!(answer, model::write(ledger, &table, k, &mut expected));
        assert_eq!(found, expected);
        match answer {
            Ok(length) => reads_back(ledger, &table[..k * ROW_BYTES], &found[..length]),
            Err(_) => assert_eq!(found, vec![MARK; room]),
        }
        let number = answer.map_or_else(|refusal| refusal.number, |_| 0);
        *seen.entry(number).or_insert(0) += 1;
    }
    println!("answers by number: {seen:?}");
    assert!(seen.keys().eq(&[0, 9, 10]));
}

#[test]
fn a_text_has_at_most_65535_bytes() {
    let ledger: Vec<u8> = (0..=TEXT_LIMIT + 100).map(|place| place as u8).collect();
    let longest = table(&[row(21, 7, 65_542), row(1, 0, u32::MAX)]);
    let packet = written(&ledger, &longest);
    assert_eq!(packet.len(), 35 + 3 + TEXT_LIMIT + 35);
    assert_eq!(packet[35..38], [3, 255, 255]);
    reads_back(&ledger, &longest, &packet);

    let (mut row_buffer, mut text) = ([MARK; ROW_BYTES], vec![MARK; TEXT_LIMIT]);
    let short = packet_next(&packet, 0, &mut row_buffer, &mut text[1..]);
    assert_eq!(short, Err(need(TEXT_LIMIT)));
    assert_eq!(text, vec![MARK; TEXT_LIMIT]);
    let whole = packet_next(&packet, 0, &mut row_buffer, &mut text);
    assert_eq!(whole, detail(38 + TEXT_LIMIT, TEXT_LIMIT));
    assert_eq!(text, ledger[7..65_542]);

    for long in [row(21, 7, 65_543), row(90, 0, 65_636)] {
        let table = table(&[row(1, 0, 0), long]);
        refused(&ledger, &table, 2, 0, refusal(18, 0));
        refused(&ledger, &table, 2, 70_000, refusal(18, 0));
    }
}

/// Sees to it that a packet is refused, and the buffer left.
fn refused(ledger: &[u8], table: &[u8], k: usize, room: usize, expected: Refusal) {
    let mut buffer = vec![MARK; room];
    assert_eq!(packet(ledger, table, k, &mut buffer), Err(expected));
    assert!(buffer.iter().all(|byte| *byte == MARK));
    if expected.number != Refusal::TOO_SHORT {
        assert_eq!(packet_to_vec(ledger, table, k), Err(expected));
    }
}

#[test]
fn a_row_count_is_judged_before_any_row() {
    let ledger = vec![b'a'; 70_000];
    let mut two = table(&[row(21, 0, 70_000), row(1, 0, 0)]);
    two.extend([MARK; ROW_BYTES - 1]);
    refused(&ledger, &two, 2, 100, refusal(18, 0));
    for k in [3, 4, usize::MAX / ROW_BYTES, usize::MAX] {
        refused(&ledger, &two, k, 100, refusal(10, 0));
    }
    assert_eq!(packet(&ledger, &two, 0, &mut []), Ok(0));
    assert_eq!(packet_to_vec(&ledger, &two, 0), Ok(vec![]));
    assert_eq!(packet(b"", &[], 0, &mut []), Ok(0));
    refused(b"", &[], 1, 0, refusal(10, 0));
}

#[test]
fn bad_spans_and_long_texts_are_judged_row_by_row() {
    let ledger = vec![b'a'; 70_000];
    let long = row(22, 0, 65_536);
    let bad = [
        row(22, 2, 1),
        row(37, 0, 70_001),
        row(90, 70_001, 70_001),
        row(20, u32::MAX, u32::MAX),
        // Both at once is 10.
        row(20, 0, u32::MAX),
    ];
    for bad in bad {
        refused(&ledger, &table(&[bad, long]), 2, 90_000, refusal(10, 0));
        refused(&ledger, &table(&[long, bad]), 2, 90_000, refusal(18, 0));
        refused(&ledger, &table(&[row(1, 0, 0), bad]), 2, 0, refusal(10, 0));
        // Only the first rows count, and the span of an entry row does not.
        let entry = row(19, bad.start, bad.end);
        let answer = packet(&ledger, &table(&[entry, bad]), 1, &mut [MARK; 35]);
        assert_eq!(answer, Ok(35));
    }
}

#[test]
fn a_short_buffer_is_told_the_need() {
    let table = read_to_vec(CLEAN).unwrap();
    let whole = written(CLEAN, &table);
    let count = Rows::new(&table).len();
    for room in [0, 1, whole.len() - 1] {
        refused(CLEAN, &table, count, room, need(whole.len()));
    }
    for more in [0, 1, 100] {
        let mut buffer = vec![MARK; whole.len() + more];
        let answer = packet(CLEAN, &table, count, &mut buffer);
        assert_eq!(answer, Ok(whole.len()));
        assert_eq!(buffer[..whole.len()], whole);
        assert_eq!(buffer[whole.len()..], vec![MARK; more]);
    }
}

/// A detail row with a text of 5 bytes, 43 bytes in all, and an entry row.
fn detail_and_entry() -> Vec<u8> {
    written(b"Mains", &table(&[row(33, 0, 5), row(1, 0, 5)]))
}

#[test]
fn a_step_needs_room_for_the_row_and_then_for_the_text() {
    let packet = detail_and_entry();
    for (row_room, text_room, at, answer) in [
        (0, 0, 0, Err(need(32))),
        (31, 9, 0, Err(need(32))),
        (32, 0, 0, Err(need(5))),
        (99, 4, 0, Err(need(5))),
        (32, 5, 0, detail(43, 5)),
        (31, 0, 43, Err(need(32))),
        (32, 0, 43, Ok(Handed::Entry { next: 78 })),
        (0, 0, 78, Ok(Handed::End)),
        (0, 0, 79, Ok(Handed::End)),
        (40, 40, usize::MAX, Ok(Handed::End)),
    ] {
        let (mut row, mut text) = (vec![MARK; row_room], vec![MARK; text_room]);
        assert_eq!(packet_next(&packet, at, &mut row, &mut text), answer);
        let (handed_row, handed_text) = match answer {
            Ok(Handed::Detail { .. }) => (&packet[3..35], &b"Mains"[..]),
            Ok(Handed::Entry { .. }) => (&packet[46..], &b""[..]),
            _ => (&b""[..], &b""[..]),
        };
        let row_left = row.strip_prefix(handed_row).unwrap();
        let text_left = text.strip_prefix(handed_text).unwrap();
        assert!(row_left.iter().chain(text_left).all(|byte| *byte == MARK));
    }
}

#[test]
fn what_is_wrong_is_told_at_its_own_field() {
    let whole = detail_and_entry();
    let changed = |place: usize, byte: u8| {
        let mut packet = whole.clone();
        packet[place] = byte;
        packet
    };
    let cut = |end: usize| whole[..end].to_vec();
    for (packet, at, expected) in [
        (cut(1), 0, refusal(19, 0)),
        (cut(34), 0, refusal(19, 0)),
        // A text is due, and nothing or too little stands there.
        (cut(35), 0, refusal(19, 35)),
        (cut(42), 0, refusal(19, 35)),
        // Cut short goes before a wrong tag.
        (changed(0, 9)[..20].to_vec(), 0, refusal(19, 0)),
        (changed(35, 9)[..42].to_vec(), 0, refusal(19, 35)),
        (changed(0, 1), 0, refusal(20, 0)),
        (changed(0, 3), 0, refusal(20, 0)),
        (changed(2, 31), 0, refusal(20, 0)),
        (changed(3, 19), 0, refusal(20, 0)),
        (changed(35, 1), 0, refusal(20, 35)),
        (changed(43, 2), 43, refusal(20, 43)),
        (changed(43, 0), 43, refusal(20, 43)),
        // A reader that stands at a text: no row has its tag.
        (whole.clone(), 35, refusal(20, 35)),
        // It stands behind the packet's start, so that every place does.
        ([&b"...."[..], &changed(35, 2)].concat(), 4, refusal(20, 39)),
    ] {
        // Both go before 9.
        for room in [0, 64] {
            let (mut row, mut text) = (vec![MARK; room], vec![MARK; room]);
            let answer = packet_next(&packet, at, &mut row, &mut text);
            assert_eq!(answer, Err(expected));
            assert!(row.iter().chain(&text).all(|byte| *byte == MARK));
        }
    }
}

#[test]
fn a_text_need_not_be_as_long_as_its_span() {
    let longer = [&detail_and_entry()[..35], &[3, 0, 6], b"Mains:"].concat();
    let mut text = [MARK; 6];
    let answer = packet_next(&longer, 0, &mut [MARK; ROW_BYTES], &mut text);
    assert_eq!(answer, detail(44, 6));
    assert_eq!(&text, b"Mains:");
}

/// Whole packets: two of ledgers, and some of made-up rows.
fn whole_packets(dice: &mut Dice) -> Vec<Fields> {
    let mut packets = vec![
        written(CLEAN, &read_to_vec(CLEAN).unwrap()),
        written(DAMAGED, &recover_to_vec(DAMAGED).unwrap()),
    ];
    for _ in 0..100 {
        let ledger = &CLEAN[..30];
        packets.push(written(ledger, &table(&some_rows(dice, ledger))));
    }
    packets.iter().map(|packet| model::fields(packet)).collect()
}

/// A row's and a text's buffer with so much room, full of a pattern.
fn lent(rooms: [usize; 2]) -> [Vec<u8>; 2] {
    rooms.map(|room| (0..room).map(|place| (place * 7 + 1) as u8).collect())
}

/// One step of the archive and of the model: both answer alike and leave the same bytes, and a refusal changes none.
fn step(packet: &[u8], at: usize, rooms: [usize; 2]) -> Result<Handed, Refusal> {
    let before = lent(rooms);
    let [mut row, mut text] = before.clone();
    let answer = packet_next(packet, at, &mut row, &mut text);
    let [mut model_row, mut model_text] = before.clone();
    let expected = model::next(packet, at, &mut model_row, &mut model_text);
    assert_eq!(answer, expected, "at {at} of {packet:?}");
    let after = [row, text];
    assert_eq!(after, [model_row, model_text], "at {at} of {packet:?}");
    if answer.is_err() {
        assert_eq!(after, before);
    }
    answer
}

/// An answer by its number, and whether it was about the row (false) or about the text (true).
type Met = (usize, bool);

fn met(at: usize, rooms: [usize; 2], answer: Result<Handed, Refusal>) -> Met {
    match answer {
        Ok(handed) => (0, matches!(handed, Handed::Detail { .. })),
        Err(refusal) if refusal.number == Refusal::TOO_SHORT => (9, rooms[0] >= ROW_BYTES),
        Err(refusal) => (refusal.number, refusal.place > at),
    }
}

/// Goes over a packet to its end or refusal, and gives more room wherever there was too little.
fn walk(dice: &mut Dice, packet: &[u8], seen: &mut BTreeMap<Met, usize>) {
    let mut at = 0;
    let mut rooms = [0, 0];
    loop {
        let answer = step(packet, at, rooms);
        *seen.entry(met(at, rooms, answer)).or_insert(0) += 1;
        match answer {
            Err(need) if need.number == Refusal::TOO_SHORT => {
                rooms[usize::from(rooms[0] >= ROW_BYTES)] = need.count;
            }
            Ok(Handed::Entry { next } | Handed::Detail { next, .. }) => {
                at = next;
                rooms = [[0, 31, 32, 32, 33, 50][dice.below(6)], dice.below(24)];
            }
            Ok(Handed::End) | Err(_) => return,
        }
    }
}

/// The iterator gives what single steps with enough room give, in parts of the packet itself.
fn same_without_buffers(packet: &[u8], text: &mut [u8]) {
    let mut row = [0; ROW_BYTES];
    let mut rows = Packets::new(packet);
    let end = loop {
        let (next, length) = match packet_next(packet, rows.place(), &mut row, text) {
            Ok(Handed::Entry { next }) => (next, None),
            Ok(Handed::Detail { next, length }) => (next, Some(length)),
            Ok(Handed::End) => break None,
            Err(refusal) => break Some(Err(refusal)),
        };
        let handed = rows.next().unwrap().unwrap();
        assert_eq!(handed.row.to_bytes(), row);
        assert_eq!(handed.text, length.map(|length| &text[..length]));
        assert_eq!(rows.place(), next);
        if let Some(text) = handed.text {
            assert_eq!(text.as_ptr_range().end, packet[..next].as_ptr_range().end);
        }
    };
    let place = rows.place();
    assert_eq!(rows.next(), end);
    assert_eq!((rows.next(), rows.place()), (None, place));
}

#[test]
fn mangled_packets_are_read_as_the_model_reads_them() {
    let mut dice = Dice(0x9E37_79B9_7F4A_7C15);
    let whole = whole_packets(&mut dice);
    let mut text = vec![0; TEXT_LIMIT];
    let mut seen = BTreeMap::new();
    for _ in 0..MANGLED {
        // Half of them are of the two ledgers.
        let limit = [2, whole.len()][dice.below(2)];
        let whole = &whole[dice.below(limit)];
        let packet = mangled::packet(&mut dice, whole);
        walk(&mut dice, &packet, &mut seen);
        same_without_buffers(&packet, &mut text);
    }
    println!("steps by number, and whether about the text: {seen:?}");
    let all = [0, 9, 19, 20].map(|number| [(number, false), (number, true)]);
    assert!(seen.into_keys().eq(all.into_iter().flatten()));
}
