//! Where the ledgers of a run come from.

use crate::damage;
use crate::grammar;
use crate::production::Taken;
use crate::random::Random;

/// How a ledger was made.
#[derive(Clone, Copy, Debug, PartialEq, Eq, PartialOrd, Ord)]
pub enum Source {
    /// By the grammar.
    Grammar,
    /// By the grammar, and then damaged.
    Damaged,
    /// Words in any order.
    Words,
    /// Bytes in any order.
    Bytes,
    /// Some lines of a real ledger.
    Piece,
    /// Some lines of a real ledger, damaged.
    DamagedPiece,
    /// A real ledger, whole.
    Real,
}

impl Source {
    /// The source in words.
    pub fn name(self) -> &'static str {
        match self {
            Source::Grammar => "by the grammar",
            Source::Damaged => "by the grammar, damaged",
            Source::Words => "soups of words",
            Source::Bytes => "soups of bytes",
            Source::Piece => "pieces of real ledgers",
            Source::DamagedPiece => "pieces, damaged",
            Source::Real => "real ledgers, whole",
        }
    }
}

/// A ledger to be compared.
#[derive(Clone, Debug)]
pub struct Made {
    /// Its bytes.
    pub ledger: Vec<u8>,
    /// Where it comes from.
    pub source: Source,
    /// The productions that it took, where it is whole as the grammar made it.
    pub taken: Taken,
}

/// The ledgers of a run, without end: the real ones whole, then those that are made.
pub fn all(seed: u64, real: Vec<Vec<u8>>) -> impl Iterator<Item = Made> {
    let whole: Vec<Made> = real
        .iter()
        .map(|ledger| plain(ledger.clone(), Source::Real))
        .collect();
    whole
        .into_iter()
        .chain((0..).map(move |index| made(seed, index, &real)))
}

/// The ledger number `index` of a run.
fn made(seed: u64, index: u64, real: &[Vec<u8>]) -> Made {
    let random = &mut Random::of(seed, index);
    let kinds = if real.is_empty() { 16 } else { 20 };
    match random.below(kinds) {
        0..=7 => {
            let (ledger, taken) = grammar::ledger(random);
            Made {
                ledger,
                source: Source::Grammar,
                taken,
            }
        }
        8..=13 => {
            let (ledger, _) = grammar::ledger(random);
            let (other, _) = grammar::ledger(random);
            plain(damage::damaged(random, &ledger, &other), Source::Damaged)
        }
        14 => plain(damage::words(random), Source::Words),
        15 => plain(damage::bytes(random), Source::Bytes),
        kind => {
            let at = random.below(real.len());
            let whole = real.get(at).map(Vec::as_slice).unwrap_or_default();
            let piece = damage::piece(random, whole);
            if kind < 18 {
                return plain(piece, Source::Piece);
            }
            let other = damage::piece(random, whole);
            plain(
                damage::damaged(random, &piece, &other),
                Source::DamagedPiece,
            )
        }
    }
}

/// A ledger that is not as the grammar made it.
fn plain(ledger: Vec<u8>, source: Source) -> Made {
    Made {
        ledger,
        source,
        taken: Taken::default(),
    }
}
