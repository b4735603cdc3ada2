//! Edits: lines of a ledger give way to new ones, and what recovering reading says of it then.

use std::io::{self, Write};
use std::ops::Range;

use lumbrisse::{block_at, Reading, Refusal};

use super::args::Form;
use super::change::Change;
use super::lines::{self, Lines};
use super::paint::Paint;
use super::source::{self, Source};
use super::{complain, destination, human, json, refused, told, Outcome, Status};

const BAD_START: &str =
    "start with a digit or small letter (only the first block of a file may start otherwise)";
const BAD_END: &str = "end in a line feed (only the last block of a file may end without one)";

/// Replaces a block of a ledger, writes it to where it goes, and says what recovering reading says of it then.
pub fn edit(out: &mut impl Write, form: Form, change: &Change, ledger: &Source) -> Outcome {
    let new = match source::text(&change.with) {
        Ok(new) => new,
        Err(message) => return trouble(&message),
    };
    let mut reading = match Reading::recover(ledger.bytes.clone()) {
        Ok(reading) => reading,
        Err(refusal) => return refused(out, form, ledger, refusal),
    };
    let span = change.lines.span(&ledger.bytes);
    if let Err(refusal) = reading.replace(span.clone(), &new.bytes) {
        let why = why(refusal, &ledger.bytes, change.lines, span, &new.bytes);
        return unedited(out, form, ledger, refusal, &why);
    }
    let (bytes, table) = reading.into_parts();
    match destination::write(&change.to, ledger, &bytes) {
        Ok(name) => told(out, form, &Source { name, bytes }, &table),
        Err(message) => trouble(&message),
    }
}

fn trouble(message: &str) -> Outcome {
    complain(message);
    (Ok(()), Status::Trouble)
}

/// An edit that was refused: nothing was written, and why.
fn unedited(
    out: &mut impl Write,
    form: Form,
    ledger: &Source,
    refusal: Refusal,
    why: &str,
) -> Outcome {
    let written = match form {
        Form::Json => json::unedited(out, ledger, refusal, why),
        Form::Person | Form::Rows => {
            let _ = human::unedited(&mut io::stderr(), Paint::stderr(), ledger, refusal, why);
            Ok(())
        }
    };
    (written, Status::Refused)
}

/// Why an edit was refused, in the words of who asked for it.
fn why(refusal: Refusal, ledger: &[u8], lines: Lines, span: Range<usize>, new: &[u8]) -> String {
    match refusal.number {
        1 => "with these lines the file would be longer than 16,777,216 bytes".to_string(),
        10 => no_block(ledger, lines, &span).unwrap_or_else(|| bad_text(ledger, &span, new)),
        _ => refusal.meaning().to_string(),
    }
}

/// What there is instead of a block at the place of some lines; none where they are one.
fn no_block(ledger: &[u8], lines: Lines, span: &Range<usize>) -> Option<String> {
    let count = lines::count(ledger);
    if lines.last > count {
        let whole = Lines {
            first: 1,
            last: count,
        };
        return Some(format!(
            "{} not in this file, which has {whole}",
            lines.are()
        ));
    }
    let first = block_at(ledger, span.start)?;
    if first == *span {
        return None;
    }
    let last = block_at(ledger, span.end.saturating_sub(1))?;
    let blocks = match first == last {
        true => format!("the block there is {}", Lines::of(ledger, first)),
        false => format!(
            "they reach from the block of {} to that of {}",
            Lines::of(ledger, first),
            Lines::of(ledger, last)
        ),
    };
    Some(format!("{} not a block: {blocks}", lines.are()))
}

/// What is wrong with the text that was to take a block's place.
fn bad_text(ledger: &[u8], block: &Range<usize>, new: &[u8]) -> String {
    let starts = |byte: &u8| byte.is_ascii_digit() || byte.is_ascii_lowercase();
    let bad_start = block.start != 0 && !new.first().is_some_and(starts);
    let bad_end = block.end != ledger.len() && !new.ends_with(b"\n");
    let must = match (bad_start, bad_end) {
        (true, true) => format!("{BAD_START}, and {BAD_END}"),
        (true, false) => BAD_START.to_string(),
        _ => BAD_END.to_string(),
    };
    format!("the new text must {must}")
}

#[cfg(test)]
mod tests {
    use super::*;

    const LEDGER: &[u8] = b"; a\n\n2024-01-31 *\n  A:B\n2024-02-29 *\n  A:C";

    fn said_of(first: usize, last: usize, new: &[u8]) -> String {
        let lines = Lines { first, last };
        let span = lines.span(LEDGER);
        let edited = Reading::recover(LEDGER.to_vec())
            .and_then(|mut reading| reading.replace(span.clone(), new));
        match edited {
            Ok(()) => "accepted".to_string(),
            Err(refusal) => why(refusal, LEDGER, lines, span, new),
        }
    }

    #[test]
    fn lines_that_are_no_block_are_told_which_are() {
        let new = b"2024-03-31 *\n";
        for (first, last, said) in [
            (1, 2, "accepted"),
            (3, 4, "accepted"),
            (5, 6, "accepted"),
            (1, 1, "line 1 is not a block: the block there is lines 1-2"),
            (4, 4, "line 4 is not a block: the block there is lines 3-4"),
            (
                3,
                5,
                "lines 3-5 are not a block: they reach from the block of lines 3-4 to that of lines 5-6",
            ),
            (6, 6, "line 6 is not a block: the block there is lines 5-6"),
            (5, 7, "lines 5-7 are not in this file, which has lines 1-6"),
            (9, 9, "line 9 is not in this file, which has lines 1-6"),
        ] {
            assert_eq!(said_of(first, last, new), said);
        }
    }

    #[test]
    fn a_text_is_told_how_it_must_start_and_end() {
        let start = format!("the new text must {BAD_START}");
        let end = format!("the new text must {BAD_END}");
        let both = format!("{start}, and {BAD_END}");
        assert_eq!(said_of(1, 2, b"; c\n"), "accepted");
        assert_eq!(said_of(1, 2, b"; c"), end);
        assert_eq!(said_of(1, 2, b"; c\r"), end);
        assert_eq!(said_of(3, 4, b"; c\n"), start);
        assert_eq!(said_of(3, 4, b"2024"), end);
        assert_eq!(said_of(3, 4, b"; c"), both);
        assert_eq!(said_of(5, 6, b"; c"), start);
        assert_eq!(said_of(5, 6, b"2024"), "accepted");
        for (first, last) in [(1, 2), (3, 4), (5, 6)] {
            assert_eq!(said_of(first, last, b""), "accepted");
        }
    }

    #[test]
    fn a_file_that_would_be_too_long_is_told() {
        let long = b"2024\n".repeat(lumbrisse::SIZE_LIMIT / 5);
        assert!(said_of(3, 4, &long).starts_with("with these lines the file would be longer"));
    }
}
