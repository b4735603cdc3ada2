//! What beancount-parser 2.6.0 reads with `rust_decimal::Decimal`, and what its copy reads in which rule 3 decides on
//! dates.
//!
//! ```text
//! both                   standard input: (length in decimal, LF, so many bytes)*
//! both --time FILE N     parses FILE N times: the least time in seconds, and how many directives
//! ```
//!
//! The answer to a ledger: a line `read`, `error` or `panic MESSAGE` of the crate as it is; after `error` such a line
//! of the copy; after `read` the entries; last a line `=`. An amount is a whole number of millionths, or `d` and the
//! decimal where it is none.

use std::fmt::Write as _;
use std::io::{self, BufRead, BufReader, BufWriter, Read, Write};
use std::panic::{catch_unwind, AssertUnwindSafe};
use std::process::ExitCode;
use std::time::Instant;

use rust_decimal::Decimal;

mod unchanged {
    use super::*;
    use beancount_parser::metadata::{Map, Value};
    use beancount_parser::{
        self as parser, Amount, Date, DirectiveContent, Entry, Posting, PostingPrice,
    };
    include!("answer.rs");
}

mod rule_3 {
    use super::*;
    use beancount_parser_rule_3::metadata::{Map, Value};
    use beancount_parser_rule_3::{
        self as parser, Amount, Date, DirectiveContent, Entry, Posting, PostingPrice,
    };
    include!("answer.rs");
}

fn number(value: &Decimal, out: &mut String) {
    let value = value.normalize();
    let millionths = 6u32
        .checked_sub(value.scale())
        .and_then(|shift| value.mantissa().checked_mul(10i128.pow(shift)));
    let _ = match millionths {
        Some(whole) => write!(out, "{whole}"),
        None => write!(out, "d{value}"),
    };
}

fn quoted(text: &str, out: &mut String) {
    out.push('"');
    for byte in text.bytes() {
        match byte {
            b'"' | b'\\' => {
                out.push('\\');
                out.push(char::from(byte));
            }
            32..=126 => out.push(char::from(byte)),
            _ => {
                let _ = write!(out, "\\x{byte:02x}");
            }
        }
    }
    out.push('"');
}

fn string(name: &str, text: Option<&str>, out: &mut String) {
    if let Some(text) = text {
        out.push_str(name);
        out.push(' ');
        quoted(text, out);
        out.push('\n');
    }
}

fn flag(flag: Option<char>, out: &mut String) {
    let _ = match flag {
        Some(found) => write!(out, "{}", u32::from(found)),
        None => write!(out, "-"),
    };
}

fn set<'a>(name: &str, members: impl Iterator<Item = &'a str>, out: &mut String) {
    let mut members: Vec<&str> = members.collect();
    members.sort_unstable();
    for member in members {
        let _ = writeln!(out, "{name} {member}");
    }
}

fn said(message: &(dyn std::any::Any + Send)) -> String {
    let text = message
        .downcast_ref::<&str>()
        .map(|text| (*text).to_owned());
    let text = text
        .or_else(|| message.downcast_ref::<String>().cloned())
        .unwrap_or_default();
    text.lines().next().unwrap_or_default().to_owned()
}

fn answer(bytes: &[u8], out: &mut String) {
    let Ok(text) = std::str::from_utf8(bytes) else {
        return out.push_str("not utf-8\n");
    };
    let mut entries = String::new();
    match unchanged::answer(text, &mut entries) {
        unchanged::End::Read => out.push_str("read\n"),
        unchanged::End::Panic(message) => {
            let _ = writeln!(out, "panic {message}");
        }
        unchanged::End::Error => {
            out.push_str("error\n");
            match rule_3::answer(text, &mut entries) {
                rule_3::End::Read => out.push_str("read\n"),
                rule_3::End::Error => out.push_str("error\n"),
                rule_3::End::Panic(message) => {
                    let _ = writeln!(out, "panic {message}");
                }
            }
        }
    }
    out.push_str(&entries);
}

/// Answers until the input ends. What is answered goes out whenever no further input waits.
fn serve() -> io::Result<()> {
    let mut input = BufReader::with_capacity(1 << 16, io::stdin().lock());
    let mut output = BufWriter::with_capacity(1 << 16, io::stdout().lock());
    let (mut head, mut ledger, mut out) = (String::new(), Vec::new(), String::new());
    loop {
        head.clear();
        if input.read_line(&mut head)? == 0 {
            return output.flush();
        }
        let length = head.trim_end().parse().map_err(io::Error::other)?;
        ledger.resize(length, 0);
        input.read_exact(&mut ledger)?;
        out.clear();
        answer(&ledger, &mut out);
        out.push_str("=\n");
        output.write_all(out.as_bytes())?;
        if input.buffer().is_empty() {
            output.flush()?;
        }
    }
}

fn time(file: &str, count: u32) -> io::Result<()> {
    let text = std::fs::read_to_string(file)?;
    let (mut least, mut directives) = (None, 0);
    for _ in 0..count {
        let start = Instant::now();
        let parsed = beancount_parser::parse::<Decimal>(&text).map(|file| file.directives.len());
        let time = start.elapsed();
        least = Some(least.map_or(time, |before| time.min(before)));
        directives = parsed.map_err(|_| io::Error::other("the crate gives an error"))?;
    }
    let least = least.unwrap_or_default().as_secs_f64();
    println!("{least:.6} {directives}");
    Ok(())
}

fn run() -> io::Result<()> {
    let words: Vec<String> = std::env::args().skip(1).collect();
    match words.iter().map(String::as_str).collect::<Vec<_>>()[..] {
        [] => {
            std::panic::set_hook(Box::new(|_| {}));
            serve()
        }
        ["--time", file, count] => time(file, count.parse().map_err(io::Error::other)?),
        _ => Err(io::Error::other("usage: both | both --time FILE N")),
    }
}

/// The crate recurses once for each open group, so it gets a deep stack.
fn main() -> ExitCode {
    let ended = std::thread::Builder::new()
        .stack_size(1 << 30)
        .spawn(run)
        .map(|thread| thread.join());
    match ended {
        Ok(Ok(Ok(()))) => ExitCode::SUCCESS,
        Ok(Ok(Err(error))) | Err(error) => {
            eprintln!("both: {error}");
            ExitCode::FAILURE
        }
        Ok(Err(_)) => ExitCode::FAILURE,
    }
}
