//! Measures an edit of a ledger beside recovering the new ledger afresh.

use std::ffi::OsStr;
use std::io::{self, Write};
use std::ops::Range;
use std::path::{Path, PathBuf};

use lumbrisse::Reading;

use crate::counter::Counter;
use crate::scratch::Scratch;

/// What an edit puts behind a block, so that every row behind it moves by bytes and by a line.
const CORRECTION: &[u8] = b"; corrected by hand\n";

/// Where edited blocks lie: a name, and the part of the ledger before them in hundredths.
const PLACES: [(&str, usize); 3] = [
    ("near the start", 1),
    ("in the middle", 50),
    ("near the end", 99),
];

/// The block that a place lies in, and what an edit makes of it. It must end in a line feed.
pub fn corrected(reading: &Reading, place: usize) -> io::Result<(Range<usize>, Vec<u8>)> {
    let block = reading.block_at(place);
    let text = block.clone().and_then(|block| reading.ledger().get(block));
    match (block, text) {
        (Some(block), Some(text)) if text.ends_with(b"\n") => {
            Ok((block, [text, CORRECTION].concat()))
        }
        _ => Err(io::Error::other(format!(
            "no block to correct at byte {place}"
        ))),
    }
}

/// What is measured with, and of what.
pub struct Edits<'a> {
    counter: Counter,
    this: PathBuf,
    scratch: Scratch,
    file: &'a Path,
}

impl<'a> Edits<'a> {
    /// Finds the counter.
    pub fn new(plugin: Option<PathBuf>, file: &'a Path) -> io::Result<Edits<'a>> {
        Ok(Edits {
            counter: Counter::found(plugin),
            this: std::env::current_exe()?,
            scratch: Scratch::new()?,
            file,
        })
    }

    /// Prints a line for each place of an edit.
    pub fn table(&self) -> io::Result<()> {
        let ledger = std::fs::read(self.file)?;
        let reading = Reading::recover(ledger).map_err(io::Error::other)?;
        let out = &mut io::stdout();
        writeln!(out, "Instructions, counted by {}.\n", self.counter.name())?;
        writeln!(
            out,
            "| block | bytes | edit | recovering afresh | edit / afresh |"
        )?;
        writeln!(out, "|---|---|--:|--:|--:|")?;
        for (name, hundredths) in PLACES {
            let place = reading.ledger().len() / 100 * hundredths;
            let (block, new) = corrected(&reading, place)?;
            let edit = self.edit(place)?;
            let mut edited = reading.clone();
            edited
                .replace(block.clone(), &new)
                .map_err(io::Error::other)?;
            let afresh = self.afresh(edited.ledger())?;
            let Range { start, end } = block;
            let ratio = edit as f64 / afresh as f64;
            writeln!(
                out,
                "| {name} | {start} to {end} | {edit} | {afresh} | {ratio:.3} |"
            )?;
        }
        Ok(())
    }

    /// The instructions of an edit at a place of the file.
    fn edit(&self, place: usize) -> io::Result<u64> {
        let place = place.to_string();
        let words = ["--once", "edit"].map(OsStr::new);
        let given = [self.file.as_os_str(), OsStr::new(&place)];
        self.counter
            .one(self.this.as_os_str(), &[words, given].concat())
    }

    /// The instructions of recovering a ledger.
    fn afresh(&self, ledger: &[u8]) -> io::Result<u64> {
        let file = self.scratch.file("edited", ledger)?;
        let words = ["--once", "recover"].map(OsStr::new);
        let words = [&words[..], &[file.as_os_str()]].concat();
        self.counter.one(self.this.as_os_str(), &words)
    }
}

#[cfg(test)]
mod tests {
    use super::*;

    #[test]
    fn a_correction_reads_as_it_does_afresh() -> io::Result<()> {
        let ledger = b"; a\n2024-01-31 *\n  A:B\n2024-02-29 *\nx".to_vec();
        let mut reading = Reading::recover(ledger).map_err(io::Error::other)?;
        let (block, new) = corrected(&reading, 10)?;
        assert_eq!(block, 4..23);
        reading.replace(block, &new).map_err(io::Error::other)?;
        let afresh = lumbrisse::recover_to_vec(reading.ledger()).map_err(io::Error::other)?;
        assert_eq!(reading.table(), afresh);
        // Behind the last block nothing could be put, and behind the ledger there is none.
        let length = reading.ledger().len();
        assert!(corrected(&reading, length - 1).is_err());
        assert!(corrected(&reading, length).is_err());
        Ok(())
    }
}
