//! The stack that each call on an expression takes, as a table.

use std::io::{self, Write};

use lumbrisse::{Evaluated, Refusal};

use crate::evaluator::{Evaluator, ALL};
use crate::own_stack::{self, Answer};

/// The texts by name. The first engine takes most where each group stands behind operators of both ranks.
fn texts() -> [(&'static str, Vec<u8>); 5] {
    let mixed = b"(1,204.5 - 1200)/2 KWH";
    [
        ("`12.5`", b"12.5".to_vec()),
        ("`(1,204.5 - 1200)/2 KWH`", mixed.to_vec()),
        ("`1` in 32 groups", nested(32, b"(", b"1")),
        ("`1` in 33 groups", nested(33, b"(", b"1")),
        (
            "`1+2*3` in 32 groups `1+2*(..)`",
            nested(32, b"1+2*(", b"1+2*3"),
        ),
    ]
}

fn nested(depth: usize, opened: &[u8], inner: &[u8]) -> Vec<u8> {
    [&opened.repeat(depth), inner, &b")".repeat(depth)].concat()
}

/// Prints the table.
pub fn table() -> io::Result<()> {
    let mut out = io::stdout().lock();
    writeln!(
        out,
        "Bytes of stack that a call takes, from its return address to the lowest that it writes.\n"
    )?;
    write!(out, "| expression |")?;
    ALL.iter()
        .try_for_each(|evaluator| write!(out, " {} |", evaluator.word()))?;
    writeln!(out, "\n|---|--:|--:|--:|--:|")?;
    for (name, text) in texts() {
        write!(out, "| {name} |")?;
        for evaluator in ALL {
            write!(out, " {} |", taken(evaluator, &text)?)?;
        }
        writeln!(out)?;
    }
    Ok(())
}

/// The bytes that a call takes, where it answers on a stack of its own as it does on this program's.
fn taken(evaluator: Evaluator, text: &[u8]) -> io::Result<usize> {
    let (answer, bytes) = own_stack::called(evaluator, text);
    match answer == raw(evaluator.call()(text)) {
        true => Ok(bytes),
        false => Err(io::Error::other(format!(
            "{evaluator:?} answered {answer:?}"
        ))),
    }
}

/// An answer as the archive's functions give it.
fn raw(answer: Result<Evaluated, Refusal>) -> Answer {
    match answer {
        Ok(found) => Answer {
            number: 0,
            place: found.stop,
            bits: u64::from_ne_bytes(found.value.to_ne_bytes()),
        },
        Err(refusal) => Answer {
            number: refusal.number,
            place: refusal.place,
            bits: 0,
        },
    }
}

#[cfg(test)]
mod tests {
    use super::{nested, taken, Evaluator};

    fn at(evaluator: Evaluator, depth: usize) -> usize {
        taken(evaluator, &nested(depth, b"1+2*(", b"1+2*3")).unwrap_or_default()
    }

    #[test]
    fn the_second_engine_takes_little_stack_at_any_depth() {
        for evaluator in [Evaluator::Stacked, Evaluator::StackedExact] {
            for depth in 0..=32 {
                let bytes = at(evaluator, depth);
                assert!((1..4096).contains(&bytes), "{evaluator:?}: {bytes}");
            }
        }
    }

    #[test]
    fn the_first_engine_takes_more_for_each_group() {
        for evaluator in [Evaluator::Rounding, Evaluator::Exact] {
            assert!((1..=32).all(|depth| at(evaluator, depth) > at(evaluator, depth - 1)));
        }
    }
}
