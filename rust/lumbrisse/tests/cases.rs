//! The case file of the program `replay`, run through the linked archive: every call, its answer, and every lent byte
//! afterwards.
//!
//! The file is `crates/replay/stdin`; `LUMBRISSE_CASES` names another.

use std::collections::BTreeMap;
use std::env;
use std::fs;
use std::path::PathBuf;

use lumbrisse::{
    content, edit, expression, expression_exact, expression_stacked, expression_stacked_exact,
    packet, packet_next, read, read_strict, recover, recover_strict, span_text, tag_in_force,
    totals, write, Edit, Evaluated, Handed, Refusal,
};

/// Where another case file is named.
const NAMED: &str = "LUMBRISSE_CASES";

/// The repository's own file, and how many cases it has: the model's, then those that a differential run has written.
const OWN: &str = concat!(env!("CARGO_MANIFEST_DIR"), "/../../crates/replay/stdin");
const OWN_CASES: usize = 1600 + 287;

/// The numbers of the calls that this test makes.
const CALLS: [usize; 16] = [1, 2, 3, 4, 5, 6, 7, 8, 9, 10, 12, 13, 14, 15, 16, 17];

/// The bytes of a case that are left.
struct Left<'a>(&'a [u8]);

impl<'a> Left<'a> {
    fn bytes(&mut self, count: usize) -> &'a [u8] {
        let (front, rest) = self.0.split_at(count);
        self.0 = rest;
        front
    }

    fn number(&mut self) -> usize {
        let bytes = self.bytes(4).try_into().unwrap();
        u32::from_le_bytes(bytes) as usize
    }

    fn value(&mut self) -> i64 {
        let bytes = self.bytes(8).try_into().unwrap();
        i64::from_le_bytes(bytes)
    }
}

/// What a call answers, in the case file's numbers.
#[derive(Debug, PartialEq, Eq)]
struct Answer {
    number: usize,
    place: usize,
    count: usize,
    value: i64,
}

fn answer(place: usize, count: usize, value: i64) -> Answer {
    Answer {
        number: 0,
        place,
        count,
        value,
    }
}

fn refused(refusal: Refusal) -> Answer {
    Answer {
        number: refusal.number,
        place: refusal.place,
        count: refusal.count,
        value: 0,
    }
}

fn counted(reply: Result<usize, Refusal>) -> Answer {
    reply.map_or_else(refused, |count| answer(0, count, 0))
}

fn evaluated(reply: Result<Evaluated, Refusal>) -> Answer {
    reply.map_or_else(refused, |found| answer(found.stop, 0, found.value))
}

/// A case: the call with what it takes, then what it must answer and leave in the buffer.
struct Case<'a> {
    call: usize,
    numbers: [usize; 4],
    first: &'a [u8],
    second: &'a [u8],
    before: &'a [u8],
    answer: Answer,
    after: &'a [u8],
}

fn next<'a>(left: &mut Left<'a>) -> Case<'a> {
    let call = left.number();
    let numbers = [(); 4].map(|()| left.number());
    let [n, m, t] = [(); 3].map(|()| left.number());
    let [number, place, count, _] = [(); 4].map(|()| left.number());
    let value = left.value();
    Case {
        call,
        numbers,
        answer: Answer {
            number,
            place,
            count,
            value,
        },
        first: left.bytes(n),
        second: left.bytes(m),
        before: left.bytes(t),
        after: left.bytes(t),
    }
}

/// An edit: the second text is the rows' table, of so many bytes, and then the new bytes.
fn edited(case: &Case, buffer: &mut [u8]) -> Answer {
    let [start, end, k, rows_room] = case.numbers;
    let (rows, new) = case.second.split_at(rows_room);
    let change = Edit { start, end, new };
    counted(edit(case.first, rows, k, change, buffer))
}

/// Monthly totals: the second text is `work`, of so many bytes, and then `spare`. So many bytes at the front of each
/// are zeros afterwards, and the others stay.
fn added_up(case: &Case, buffer: &mut [u8]) -> Answer {
    let [year, month, work_room, zeros] = case.numbers;
    let (work, spare) = case.second.split_at(work_room);
    let (mut found_work, mut found_spare) = (work.to_vec(), spare.to_vec());
    let answer = counted(
        totals(
            case.first,
            year,
            month,
            buffer,
            &mut found_work,
            &mut found_spare,
        )
        .map(|found| found.len()),
    );
    left_zeros(work, zeros, &found_work);
    left_zeros(spare, zeros, &found_spare);
    answer
}

/// A ledger written afresh: the second text is `work`.
fn written_afresh(case: &Case, buffer: &mut [u8]) -> Answer {
    let [.., zeros] = case.numbers;
    let mut found = case.second.to_vec();
    let answer = counted(write(case.first, buffer, &mut found));
    left_zeros(case.second, zeros, &found);
    answer
}

/// Sees to it that working space has so many zeros at its front, and else the bytes that it had.
fn left_zeros(before: &[u8], zeros: usize, after: &[u8]) {
    let mut expected = before.to_vec();
    expected[..zeros].fill(0);
    assert_eq!(after, expected, "working space");
}

/// One step over a packet: the buffer is the row's, of so many bytes, and then the text's.
fn stepped(case: &Case, buffer: &mut [u8]) -> Answer {
    let [at, row_room, tag, _] = case.numbers;
    let (row, text) = buffer.split_at_mut(row_room);
    let (found, answer) = match packet_next(case.first, at, row, text) {
        Ok(Handed::End) => (0, answer(at, 0, 0)),
        Ok(Handed::Entry { next }) => (1, answer(next, 0, 0)),
        Ok(Handed::Detail { next, length }) => (2, answer(next, length, 0)),
        Err(refusal) => (0, refused(refusal)),
    };
    assert_eq!(found, tag, "what is handed out at {at}");
    answer
}

/// Makes the case's call on its buffer.
fn called(case: &Case, buffer: &mut [u8]) -> Answer {
    let [a, b, ..] = case.numbers;
    match case.call {
        1 => counted(read(case.first, buffer)),
        2 => counted(recover(case.first, buffer)),
        3 => evaluated(expression(case.first)),
        4 => counted(content(case.first, buffer)),
        5 => {
            let text = span_text(case.first, a, b);
            assert_eq!(text, case.second);
            let start = text.as_ptr() as usize - case.first.as_ptr() as usize;
            answer(start, text.len(), 0)
        }
        6 => counted(tag_in_force(case.first, buffer, a, case.second).map(usize::from)),
        7 => counted(read_strict(case.first, buffer)),
        8 => counted(recover_strict(case.first, buffer)),
        9 => evaluated(expression_exact(case.first)),
        10 => added_up(case, buffer),
        12 => evaluated(expression_stacked(case.first)),
        13 => evaluated(expression_stacked_exact(case.first)),
        14 => edited(case, buffer),
        15 => counted(packet(case.first, case.second, a, buffer)),
        16 => stepped(case, buffer),
        17 => written_afresh(case, buffer),
        call => panic!("the case file has a call {call}"),
    }
}

#[test]
fn every_case_is_answered_as_it_must_be() {
    let named = env::var_os(NAMED);
    let file = PathBuf::from(named.clone().unwrap_or(OWN.into()));
    let bytes = fs::read(&file).unwrap_or_else(|error| panic!("{}: {error}", file.display()));
    let mut left = Left(&bytes);
    let mut calls = BTreeMap::new();
    while !left.0.is_empty() {
        let case = next(&mut left);
        let mut buffer = case.before.to_vec();
        let found = called(&case, &mut buffer);
        *calls.entry(case.call).or_insert(0) += 1;
        let text = String::from_utf8_lossy(case.first);
        assert_eq!(found, case.answer, "call {} on {text:?}", case.call);
        assert_eq!(buffer, case.after, "call {} on {text:?}", case.call);
    }
    println!("cases of each call: {calls:?}");
    assert!(calls.keys().eq(&CALLS));
    if named.is_none() {
        assert_eq!(calls.values().sum::<usize>(), OWN_CASES);
    }
}
