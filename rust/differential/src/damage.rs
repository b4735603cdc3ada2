//! Damaged copies of ledgers, and soups of bytes and of words.

use crate::random::Random;

/// Bytes that mean something to some rule, and three that are not permitted.
const MARKS: &[u8] = b"\"\\\n\n\r\t  ;#^:{}()@,.-+*/~!0129AZaz'_\x00\x7f\xc3";

/// Bytes of soups.
const SOUP: &[u8] = b"\"\"\\\n\n\n\r\t   ;#^:{}()@,.-+*/~!0129ABaz";

/// Words that rules ask for, and what stands between them.
const WORDS: &[&str] = &[
    "\n",
    "\n",
    "\n",
    "\r\n",
    " ",
    " ",
    "  ",
    "\n  ",
    "\t",
    "\"",
    "\"",
    "\\",
    "\\\"",
    "a",
    "2024-01-01",
    "2024-01-01 ",
    "\n2024-01-01 * ",
    "2024-13-01",
    "1-1-1",
    "*",
    "!",
    "txn",
    "price ",
    "balance ",
    "open ",
    "close ",
    "pad ",
    "commodity ",
    "event ",
    "option ",
    "include ",
    "pushtag ",
    "poptag ",
    "#a",
    "#",
    "^l",
    "A:B",
    "A:B 1 X",
    "A",
    "EUR",
    "X",
    "A-",
    "1",
    "-",
    "2.5",
    "1,2",
    ".",
    "(",
    ")",
    "+",
    "*",
    "/",
    "2",
    "{",
    "}",
    ",",
    "@",
    "@@",
    "~",
    "k: ",
    "  k: 1\n",
    ";",
    "; c",
];

/// A copy with one to four changes. `other` gives the bytes of a splice.
pub fn damaged(random: &mut Random, ledger: &[u8], other: &[u8]) -> Vec<u8> {
    let mut bytes = ledger.to_vec();
    for _ in 0..=random.below(4) {
        change(random, &mut bytes, other);
    }
    bytes
}

fn change(random: &mut Random, bytes: &mut Vec<u8>, other: &[u8]) {
    let at = random.below(bytes.len() + 1);
    let length = random.below(8).min(bytes.len() - at);
    match random.below(12) {
        0..=2 => {
            bytes.splice(at..at, [random.pick(MARKS)]);
        }
        3..=4 => {
            bytes.drain(at..at + length.min(1));
        }
        5..=6 => {
            bytes.splice(at..at + length.min(1), [random.pick(MARKS)]);
        }
        7 => {
            bytes.drain(at..at + length);
        }
        8 => {
            let word = random.pick(WORDS);
            bytes.splice(at..at, word.bytes());
        }
        9 => {
            let again: Vec<u8> = bytes.iter().skip(at).take(length * 8).copied().collect();
            bytes.splice(at..at, again);
        }
        10 => {
            let from = random.below(other.len() + 1);
            let part = other.iter().skip(from).take(random.below(60)).copied();
            bytes.splice(at..at + length, part);
        }
        _ => bytes.truncate(at.max(bytes.len() / 2)),
    }
}

/// What soups start with: they then reach the rules behind it.
const STARTS: &[&str] = &[
    "",
    "",
    "2024-01-01 ",
    "2024-01-01 *",
    "2024-01-01 * \"",
    "2024-01-01 txn #a ",
    "2024-01-01 *\n  k: ",
    "2024-01-01 *\n  A:B ",
    "2024-01-01 *\n  A:B 1 X ",
    "2024-01-01 *\n  A:B 1 X {",
    "2024-01-01 balance A:B ",
    "2024-01-01 open A:B ",
    "2024-01-01 price X ",
    "2024-01-01 event \"",
    "option \"",
    "pushtag #",
];

/// Words in any order.
pub fn words(random: &mut Random) -> Vec<u8> {
    let mut soup = random.pick(STARTS).as_bytes().to_vec();
    for _ in 0..=random.below(24) {
        soup.extend_from_slice(random.pick(WORDS).as_bytes());
    }
    ended(random, soup)
}

/// Bytes in any order: any at all once in eight times, else those that mean something.
pub fn bytes(random: &mut Random) -> Vec<u8> {
    let mut soup = random.pick(STARTS).as_bytes().to_vec();
    let any = random.once_in(8);
    for _ in 0..random.below(40) {
        match (any, random.pick(SOUP)) {
            (true, _) => soup.push((random.next() >> 40) as u8),
            (false, b'\r') => soup.extend_from_slice(b"\r\n"),
            (false, byte) => soup.push(byte),
        }
    }
    ended(random, soup)
}

/// Mostly with a line feed at the end, without which the last line is refused with 5.
fn ended(random: &mut Random, mut soup: Vec<u8>) -> Vec<u8> {
    if !random.once_in(8) {
        soup.push(b'\n');
    }
    soup
}

/// Some lines of a ledger, from any line on.
pub fn piece(random: &mut Random, ledger: &[u8]) -> Vec<u8> {
    let place = random.below(ledger.len() + 1);
    let lines = random.below(12) + 1;
    let (before, after) = ledger.split_at(place.min(ledger.len()));
    let start = before
        .iter()
        .rposition(|b| *b == b'\n')
        .map_or(0, |at| at + 1);
    let rest = before.iter().skip(start).chain(after);
    let mut left = lines;
    rest.take_while(|b| {
        let more = left > 0;
        left -= usize::from(more && **b == b'\n');
        more
    })
    .copied()
    .collect()
}

#[cfg(test)]
mod tests {
    use super::{damaged, piece};
    use crate::random::Random;

    #[test]
    fn a_piece_is_made_of_whole_lines() {
        let ledger = b"one\ntwo\nthree\n";
        for index in 0..200 {
            let part = piece(&mut Random::of(3, index), ledger);
            assert!(ledger.windows(part.len().max(1)).any(|w| w == part) || part.is_empty());
            assert!(part.is_empty() || part.ends_with(b"\n"));
        }
    }

    #[test]
    fn damage_of_nothing_is_possible() {
        for index in 0..2000 {
            damaged(&mut Random::of(4, index), b"", b"");
        }
    }
}
