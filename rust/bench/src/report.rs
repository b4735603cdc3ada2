//! Takes the measures and prints them as tables.

use std::ffi::OsStr;
use std::io::{self, Write};
use std::path::{Path, PathBuf};
use std::process::Command;

use crate::counter::Counter;
use crate::hostile;
use crate::scratch::Scratch;

const MEGABYTE: usize = 1_000_000;

/// A ledger is also measured repeated to so many bytes.
const REPEATED: usize = 10 * MEGABYTE;

/// The sizes of hostile inputs.
const SIZES: [usize; 4] = [MEGABYTE, 2 * MEGABYTE, 4 * MEGABYTE, 8 * MEGABYTE];

/// Twice the bytes may take so many times the instructions.
const GROWTH: f64 = 2.1;

/// Recovering reading may take this part of the crate's instructions.
const RECOVERING: f64 = 0.5;

/// Times are the least of so many rounds, in which crate, plain and recovering take turns, of so many readings each.
const ROUNDS: usize = 5;
const READINGS: &str = "5";

/// A ledger to be measured.
pub struct Ledger {
    /// Where it is.
    pub path: PathBuf,
    /// The most instructions for a byte that plain reading may take.
    pub limit: Option<f64>,
}

/// Who reads.
#[derive(Clone, Copy)]
enum Reader {
    Crate,
    Plain,
    Recovering,
    Strict,
    RecoveringStrict,
}

/// Those whose instructions are counted; the first three are timed as well.
const READERS: [Reader; 5] = [
    Reader::Crate,
    Reader::Plain,
    Reader::Recovering,
    Reader::Strict,
    Reader::RecoveringStrict,
];

/// Those that hostile inputs are given to, by name.
const NAMED: [(Reader, &str); 4] = [
    (Reader::Plain, "plain"),
    (Reader::Recovering, "recovering"),
    (Reader::Strict, "strict"),
    (Reader::RecoveringStrict, "recovering strict"),
];

/// What is measured with.
pub struct Bench {
    counter: Counter,
    both: PathBuf,
    this: PathBuf,
    scratch: Scratch,
    kept: bool,
}

impl Bench {
    /// Finds the counter.
    pub fn new(plugin: Option<PathBuf>) -> io::Result<Bench> {
        Ok(Bench {
            counter: Counter::found(plugin),
            both: PathBuf::new(),
            this: std::env::current_exe()?,
            scratch: Scratch::new()?,
            kept: true,
        })
    }

    /// Measures the ledgers beside the crate. True where every limit is kept.
    pub fn ledgers(mut self, oracle: &Path, ledgers: &[Ledger]) -> io::Result<bool> {
        self.both = oracle.join("target/release/both");
        writeln!(
            io::stdout(),
            "Instructions for a byte, counted by {}.\n",
            self.counter.name()
        )?;
        writeln!(io::stdout(), "| ledger | bytes | crate | plain | recovering | strict | recovering strict | plain / crate | recovering / crate | time plain / crate | time recovering / crate |")?;
        writeln!(
            io::stdout(),
            "|---|--:|--:|--:|--:|--:|--:|--:|--:|--:|--:|"
        )?;
        for ledger in ledgers {
            self.ledger(ledger)?;
        }
        self.said()
    }

    /// Measures the growth on hostile inputs. True where every limit is kept.
    pub fn growth(mut self) -> io::Result<bool> {
        writeln!(
            io::stdout(),
            "Millions of instructions, counted by {}.\n",
            self.counter.name()
        )?;
        writeln!(
            io::stdout(),
            "| hostile input | call | 1 MB | 2 MB | 4 MB | 8 MB | growth |"
        )?;
        writeln!(io::stdout(), "|---|---|--:|--:|--:|--:|---|")?;
        for input in hostile::ALL {
            for (reader, name) in NAMED {
                self.grown(input, reader, name)?;
            }
        }
        self.said()
    }

    fn said(&self) -> io::Result<bool> {
        writeln!(
            io::stdout(),
            "\n{}",
            if self.kept {
                "Every limit is kept."
            } else {
                "A limit is not kept."
            }
        )?;
        Ok(self.kept)
    }

    /// The program that reads so, with its words but for how often.
    fn words<'a>(&'a self, reader: Reader, file: &'a Path) -> (&'a OsStr, Vec<&'a OsStr>) {
        let call = match reader {
            Reader::Crate => {
                let words = vec![OsStr::new("--time"), file.as_os_str()];
                return (self.both.as_os_str(), words);
            }
            Reader::Plain => "read",
            Reader::Recovering => "recover",
            Reader::Strict => "read-strict",
            Reader::RecoveringStrict => "recover-strict",
        };
        let words = vec![OsStr::new("--once"), OsStr::new(call), file.as_os_str()];
        (self.this.as_os_str(), words)
    }

    /// The instructions of one reading.
    fn instructions(&self, reader: Reader, file: &Path) -> io::Result<f64> {
        let (program, words) = self.words(reader, file);
        Ok(self.counter.one(program, &words)? as f64)
    }

    fn seconds(&self, reader: Reader, file: &Path) -> io::Result<f64> {
        let (program, words) = self.words(reader, file);
        let output = Command::new(program).args(words).arg(READINGS).output()?;
        let text = String::from_utf8_lossy(&output.stdout);
        let first = text.split_whitespace().next().unwrap_or_default();
        first.parse().map_err(|_| {
            let said = String::from_utf8_lossy(&output.stderr).into_owned();
            io::Error::other(format!("{}: {said}", program.to_string_lossy()))
        })
    }

    fn ledger(&mut self, ledger: &Ledger) -> io::Result<()> {
        let name = ledger
            .path
            .file_name()
            .unwrap_or_default()
            .to_string_lossy()
            .into_owned();
        self.row(&name, &ledger.path, ledger.limit)?;
        let bytes = std::fs::read(&ledger.path)?;
        if bytes.is_empty() {
            return Ok(());
        }
        let repeated = self
            .scratch
            .file("repeated", &bytes.repeat(REPEATED.div_ceil(bytes.len())))?;
        self.row(&format!("{name}, repeated"), &repeated, None)
    }

    fn row(&mut self, name: &str, file: &Path, limit: Option<f64>) -> io::Result<()> {
        let bytes = std::fs::metadata(file)?.len() as f64;
        let mut per_byte = [0.0; 5];
        for (place, reader) in per_byte.iter_mut().zip(READERS) {
            *place = self.instructions(reader, file)? / bytes;
        }
        let mut times = [f64::MAX; 3];
        for _ in 0..ROUNDS {
            for (least, reader) in times.iter_mut().zip(READERS) {
                *least = least.min(self.seconds(reader, file)?);
            }
        }
        let [old, plain, recovering, strict, recovering_strict] = per_byte;
        let [old_time, plain_time, recovering_time] = times;
        writeln!(io::stdout(), "| {name} | {bytes} | {old:.2} | {plain:.2} | {recovering:.2} | {strict:.2} | {recovering_strict:.2} | {:.2} | {:.2} | {:.2} | {:.2} |",
            plain / old,
            recovering / old,
            plain_time / old_time,
            recovering_time / old_time
        )?;
        self.kept &= limit.map_or(true, |most| plain <= most) && recovering <= old * RECOVERING;
        Ok(())
    }

    fn grown(&mut self, input: &hostile::Hostile, reader: Reader, call: &str) -> io::Result<()> {
        let mut counts = [0.0; 4];
        for (count, size) in counts.iter_mut().zip(SIZES) {
            let file = self.scratch.file("hostile", &input.bytes(size))?;
            *count = self.instructions(reader, &file)?;
        }
        let [one, two, four, eight] = counts.map(|count: f64| count / 1e6);
        // What is refused at once takes the same few instructions at any size.
        let ratio = |less: f64, more: f64| if more < 0.1 { 1.0 } else { more / less };
        let ratios = [ratio(one, two), ratio(two, four), ratio(four, eight)];
        let [first, second, third] = ratios;
        writeln!(io::stdout(), "| {} | {call} | {one:.1} | {two:.1} | {four:.1} | {eight:.1} | {first:.2}, {second:.2}, {third:.2} |",
            input.name
        )?;
        self.kept &= ratios.iter().all(|growth| *growth <= GROWTH);
        Ok(())
    }
}
