//! Edits of made-up ledgers as a correction by hand makes them, good and bad.

use std::ops::Range;

use super::dice::Dice;
use super::made::{self, lines, DAMAGE, ENDS, ENTRIES};
use super::rows;

/// What may take the place of a block in the middle: nothing, or some blocks.
fn blocks(dice: &mut Dice) -> Vec<u8> {
    let first = match dice.below(6) {
        0 => return Vec::new(),
        1 => dice.pick(&DAMAGE),
        _ => dice.pick(&ENTRIES),
    };
    let mut text = first.to_vec();
    if dice.below(2) == 0 {
        text.extend(lines(dice));
    }
    text
}

/// An edit: a block, mostly, and what takes its place, mostly as it may be.
pub fn edit(dice: &mut Dice, ledger: &[u8]) -> (Range<usize>, Vec<u8>) {
    let all = rows::blocks(ledger);
    // Half of the time it is the first or the last one.
    let number = [
        0,
        all.len() - 1,
        dice.below(all.len()),
        dice.below(all.len()),
    ][dice.below(4)];
    let block = all[number].clone();
    let new = match dice.below(8) {
        0 => made::ledger(dice),
        1 if block.end == ledger.len() => [blocks(dice), dice.pick(&ENDS).to_vec()].concat(),
        2 | 3 if block.start == 0 => lines(dice),
        _ => blocks(dice),
    };
    let block = match dice.below(8) {
        0 => no_block(dice, ledger, block),
        _ => block,
    };
    (block, new)
}

/// A block with another start or end, which now and then is one too.
fn no_block(dice: &mut Dice, ledger: &[u8], block: Range<usize>) -> Range<usize> {
    let Range { start, end } = block;
    let places = [
        0,
        start.saturating_sub(1),
        start + 1,
        end.saturating_sub(1),
        end,
        end + 1,
        ledger.len(),
        dice.below(ledger.len() + 1),
        usize::MAX,
    ];
    let place = places[dice.below(places.len())];
    match dice.below(2) {
        0 => place..end,
        _ => start..place,
    }
}
