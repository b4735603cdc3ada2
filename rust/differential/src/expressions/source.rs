//! Where the expressions of a run come from.

use super::maker;
use crate::damage;
use crate::grammar;
use crate::random::Random;

/// Bytes of soups.
const SOUP: &[u8] = b"(((())))--+*/  \t\n..,0012579x";

/// Bytes that no text may have, but for the first before a line feed.
const NOT_PERMITTED: &[u8] = b"\r\x00\x7f\xc3";

/// The text number `index` of a run.
pub fn made(seed: u64, index: u64) -> Vec<u8> {
    let random = &mut Random::of(seed, index);
    match random.below(16) {
        0..=8 => maker::expression(random),
        9..=12 => {
            let (text, other) = (maker::expression(random), maker::expression(random));
            damage::damaged(random, &text, &other)
        }
        13..=14 => grammar::expression(random),
        _ => soup(random),
    }
}

/// Bytes in any order, behind open groups now and then.
fn soup(random: &mut Random) -> Vec<u8> {
    let mut soup = b"(".repeat(random.pick(&[0, 0, 0, 1, 2, 31, 32]));
    for _ in 0..random.below(24) {
        soup.push(match random.once_in(60) {
            true => random.pick(NOT_PERMITTED),
            false => random.pick(SOUP),
        });
    }
    soup
}
