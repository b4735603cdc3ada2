//! Makes a call some times. This program starts itself so, to be counted and timed.

use std::hint::black_box;
use std::io::{self, Write};
use std::time::Instant;

use lumbrisse::{Edit, Evaluated, Reading, Refusal, ROW_BYTES};

use crate::edits;
use crate::evaluator::Evaluator;

/// Makes the call `count` times, on a ledger's file or on an expression.
pub fn once(call: &str, given: &str, count: &str) -> io::Result<()> {
    let count: u32 = count.parse().map_err(io::Error::other)?;
    match (call, Evaluator::named(call)) {
        (_, Some(evaluator)) => evaluate(evaluator, given.as_bytes(), count),
        ("read", _) => read(lumbrisse::read, given, count),
        ("recover", _) => read(lumbrisse::recover, given, count),
        ("read-strict", _) => read(lumbrisse::read_strict, given, count),
        ("recover-strict", _) => read(lumbrisse::recover_strict, given, count),
        _ => Err(io::Error::other(format!("{call} is no call"))),
    }
}

/// Edits the block at a place of a ledger's file `count` times: each time the ledger as it is in the file.
pub fn edit(file: &str, place: &str, count: &str) -> io::Result<()> {
    let place: usize = place.parse().map_err(io::Error::other)?;
    let count: u32 = count.parse().map_err(io::Error::other)?;
    let reading = Reading::recover(std::fs::read(file)?).map_err(io::Error::other)?;
    let (block, new) = edits::corrected(&reading, place)?;
    let (start, end) = (block.start, block.end);
    let change = Edit {
        start,
        end,
        new: &new,
    };
    let (ledger, rows) = (reading.ledger(), reading.table());
    let k = reading.rows().len();
    let room = ledger.len().saturating_add(new.len());
    timed(room, count, |table| {
        lumbrisse::edit(ledger, rows, k, change, table)
    })
}

/// Reads into a table with a row for each byte.
fn read(
    call: fn(&[u8], &mut [u8]) -> Result<usize, Refusal>,
    file: &str,
    count: u32,
) -> io::Result<()> {
    let ledger = std::fs::read(file)?;
    timed(ledger.len(), count, |table| call(&ledger, table))
}

/// Makes a call on a table with room for so many rows, which is made before and not cleared in between.
fn timed(
    room: usize,
    count: u32,
    call: impl Fn(&mut [u8]) -> Result<usize, Refusal>,
) -> io::Result<()> {
    let mut table = vec![0; room.saturating_mul(ROW_BYTES)];
    let (mut least, mut answer) = (None, Ok(0));
    for _ in 0..count {
        let start = Instant::now();
        answer = call(&mut table);
        let time = start.elapsed();
        least = Some(least.map_or(time, |before| time.min(before)));
    }
    let least = least.unwrap_or_default().as_secs_f64();
    match answer {
        Ok(rows) => writeln!(io::stdout(), "{least:.6} {rows} rows"),
        Err(refusal) => writeln!(io::stdout(), "{least:.6} refusal {}", refusal.number),
    }
}

/// Evaluates with nothing in between, as a look at the clock takes longer than a short expression.
fn evaluate(evaluator: Evaluator, text: &[u8], count: u32) -> io::Result<()> {
    let call = evaluator.call();
    let mut answer = Ok(Evaluated { value: 0, stop: 0 });
    let start = Instant::now();
    for _ in 0..count {
        answer = black_box(call(black_box(text)));
    }
    let one = start.elapsed().as_secs_f64() / f64::from(count.max(1));
    match answer {
        Ok(found) => writeln!(
            io::stdout(),
            "{one:.9} {} up to {}",
            found.value,
            found.stop
        ),
        Err(refusal) => writeln!(io::stdout(), "{one:.9} refusal {}", refusal.number),
    }
}
