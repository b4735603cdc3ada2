//! Ledgers written afresh: to standard output, in place of their files, or only to see which would change.

use std::io::{self, BufWriter, Write};

use lumbrisse::{Kind, Row, Rows, SIZE_LIMIT};

use super::args::{Form, Input};
use super::destination::{self, Destination};
use super::formatting::{Formatting, Manner};
use super::paint::Paint;
use super::source::{self, Source};
use super::{complain, ended, human, refused, remark, tell, Status};

/// Writes each ledger afresh, or says why it is left alone.
pub fn format(asked: &Formatting) -> Status {
    let mut out = BufWriter::new(io::stdout().lock());
    let mut status = Status::Accepted;
    let written = asked.files.iter().try_for_each(|input| {
        let how = file(&mut out, asked.manner, input)?;
        status = status.max(how);
        Ok(())
    });
    ended(written, status)
}

fn file(out: &mut impl Write, manner: Manner, input: &Input) -> io::Result<Status> {
    let source = match source::text(input) {
        Ok(source) => source,
        Err(message) => return Ok(trouble(&message)),
    };
    let (table, text) = match afresh(out, &source) {
        Ok(afresh) => afresh,
        Err(status) => return Ok(status),
    };
    let changes = text != source.bytes;
    let status = match manner {
        Manner::Print => {
            out.write_all(&text)?;
            Status::Accepted
        }
        Manner::Check if changes => {
            writeln!(out, "{}", source.name)?;
            Status::Refused
        }
        Manner::Check => Status::Accepted,
        Manner::InPlace => in_place(input, &source, &text, changes),
    };
    // What is said of a file on standard error stands behind it; of one that could not be written nothing is dropped.
    out.flush()?;
    if status != Status::Trouble {
        remark::dropped(&source, &table);
    }
    Ok(status)
}

fn trouble(message: &str) -> Status {
    complain(message);
    Status::Trouble
}

/// Puts a text in the place of its file, which is not touched where it has that text already.
fn in_place(input: &Input, source: &Source, text: &[u8], changes: bool) -> Status {
    let to = match input {
        Input::File(path) if changes => Destination::Own(path.clone()),
        _ => {
            tell(&source.name, "nothing to change");
            return Status::Accepted;
        }
    };
    match destination::write(&to, source, text) {
        Ok(_) => Status::Accepted,
        Err(message) => trouble(&message),
    }
}

/// The rows of a ledger and its text afresh, or how the run ends where it has none that keeps what the ledger says.
fn afresh(out: &mut impl Write, source: &Source) -> Result<(Vec<u8>, Vec<u8>), Status> {
    let ledger = &source.bytes;
    let mut left = |refusal| refused(out, Form::Person, source, refusal).1;
    let table = lumbrisse::read_to_vec(ledger).map_err(&mut left)?;
    if let Some((row, quote)) = blank_quote(ledger, &table) {
        let err = &mut io::stderr();
        let _ = human::unformatted(err, Paint::stderr(), source, &row, quote);
        return Err(Status::Refused);
    }
    let text = lumbrisse::written(ledger).map_err(left)?;
    if text.len() > SIZE_LIMIT {
        let bytes = text.len();
        tell(
            &source.name,
            &format!("not formatted: it would have {bytes} bytes, and a file over {SIZE_LIMIT} is not read again"),
        );
        return Err(Status::Refused);
    }
    Ok((table, text))
}

/// The first blank entry that holds a quote, and where that is: nothing is proved of reading such a ledger again.
fn blank_quote(ledger: &[u8], table: &[u8]) -> Option<(Row, usize)> {
    let mut blanks = Rows::new(table).filter(|row| row.kind == Kind::Blank);
    blanks.find_map(|row| {
        let quote = row.text(ledger).iter().position(|byte| *byte == b'"')?;
        Some((row, quote.saturating_add(row.start as usize)))
    })
}
