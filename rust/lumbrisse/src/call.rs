//! The calls on ledgers, expressions, rows and tags, with lent buffers.

use crate::{ffi, Refusal};

/// A ledger's bytes at the most; a longer one is refused with 1.
///
/// ```
/// let long = vec![b'1'; lumbrisse::SIZE_LIMIT + 1];
/// assert_eq!(lumbrisse::expression(&long).unwrap_err().number, 1);
/// ```
pub const SIZE_LIMIT: usize = 16_777_216;

/// The value of an expression, and where it stops.
///
/// ```
/// use lumbrisse::Evaluated;
///
/// assert_eq!(lumbrisse::expression(b"2--3"), Ok(Evaluated { value: 5_000_000, stop: 4 }));
/// ```
#[derive(Clone, Copy, Debug, PartialEq, Eq, Hash)]
pub struct Evaluated {
    /// The value in millionths.
    pub value: i64,
    /// The place after the expression's last byte.
    pub stop: usize,
}

/// What a call counts, or its refusal.
pub(crate) fn counted(reply: ffi::Reply) -> Result<usize, Refusal> {
    match reply.number {
        0 => Ok(reply.count),
        number => Err(Refusal {
            number,
            place: reply.place,
            count: reply.count,
        }),
    }
}

fn evaluated(reply: ffi::Evaluated) -> Result<Evaluated, Refusal> {
    match reply.number {
        0 => Ok(Evaluated {
            value: i64::from_ne_bytes(reply.bits.to_ne_bytes()),
            stop: reply.place,
        }),
        number => Err(Refusal {
            number,
            place: reply.place,
            count: 0,
        }),
    }
}

/// Plain reading: writes the ledger's rows to the front of the table and gives their number.
///
/// Values are those of [`expression`]: products and quotients round. Bytes of the table past the last row keep their
/// content, and all of them do after a refusal: 1 to 8, or 9 with the need in rows.
///
/// ```
/// let ledger = b"2024-01-31 * \"January\"\n";
/// let mut table = [7; 96];
/// assert_eq!(lumbrisse::read(ledger, &mut table), Ok(3));
///
/// let mut short = [7; 95];
/// let refusal = lumbrisse::read(ledger, &mut short).unwrap_err();
/// assert_eq!((refusal.number, refusal.count), (9, 3));
/// assert_eq!(short, [7; 95]);
/// ```
pub fn read(ledger: &[u8], table: &mut [u8]) -> Result<usize, Refusal> {
    counted(ffi::read(ledger, table))
}

/// Strict reading: plain reading, and no line or flag that it passes over in silence.
///
/// Refused as [`read`] is. What that accepts is then refused with 16, at its start, for a blank entry that starts with
/// a digit, with blanks that neither a comment nor the line's end follows, or with `option`; and with 17, at the flag,
/// for a transaction's flag other than `*` and `!`: whichever stands first. 9 comes last. What is accepted has the rows
/// of [`read`].
///
/// ```
/// let mut table = [7; 96];
/// // Without its second digit the month makes this line a comment to plain reading.
/// let lost = b"; March\n2024-3-31 * \"Flat 2\"\n";
/// assert_eq!(lumbrisse::read(lost, &mut table), Ok(2));
/// let refusal = lumbrisse::read_strict(lost, &mut table).unwrap_err();
/// assert_eq!((refusal.number, refusal.place), (16, 8));
///
/// let flagged = b"2024-03-31 P \"Flat 2\"\n";
/// let refusal = lumbrisse::read_strict(flagged, &mut table).unwrap_err();
/// assert_eq!((refusal.number, refusal.place), (17, 11));
/// assert_eq!(lumbrisse::read_strict(b"2024-03-31 ! \"Flat 2\"\n", &mut table), Ok(3));
/// ```
pub fn read_strict(ledger: &[u8], table: &mut [u8]) -> Result<usize, Refusal> {
    counted(ffi::read_strict(ledger, table))
}

/// Recovering reading: goes on behind damage.
///
/// The ledger is cut before each line that starts with a digit or small letter. A block that plain reading accepts
/// gives its rows, with their places and lines in the whole ledger; any other gives one row of kind
/// [`Kind::Refused`](crate::Kind::Refused). Only 1 and 9 refuse the call.
///
/// ```
/// use lumbrisse::{Kind, Rows};
///
/// let ledger = b"2024-01-31 * \"open quote\n2024-02-29 * \"February\"\n";
/// let mut table = [0; 128];
/// let count = lumbrisse::recover(ledger, &mut table)?;
/// let kinds: Vec<Kind> = Rows::new(&table).take(count).map(|row| row.kind).collect();
/// assert_eq!(kinds, [Kind::Refused, Kind::Transaction, Kind::Flag, Kind::Narration]);
/// # Ok::<(), lumbrisse::Refusal>(())
/// ```
pub fn recover(ledger: &[u8], table: &mut [u8]) -> Result<usize, Refusal> {
    counted(ffi::recover(ledger, table))
}

/// Strict recovering reading: as [`recover`], with each block read by [`read_strict`].
///
/// A block that is refused with 16 or 17 gives one row of kind [`Kind::Refused`](crate::Kind::Refused) like any other.
///
/// ```
/// use lumbrisse::Rows;
///
/// let ledger = b"2024-3-31 * \"March\"\n2024-04-30 * \"April\"\n";
/// let mut table = [0; 128];
/// let count = lumbrisse::recover_strict(ledger, &mut table)?;
/// let refused: Vec<_> = Rows::new(&table).take(count).filter_map(|row| row.refusal()).collect();
/// assert_eq!((count, refused.len()), (4, 1));
/// assert_eq!((refused[0].number, refused[0].place), (16, 0));
/// # Ok::<(), lumbrisse::Refusal>(())
/// ```
pub fn recover_strict(ledger: &[u8], table: &mut [u8]) -> Result<usize, Refusal> {
    counted(ffi::recover_strict(ledger, table))
}

/// The expression at the start of a text: its value, and where it stops.
///
/// Each product and each quotient goes to the nearest millionth, ties to the even one, and its size is judged after
/// that; sums are exact. Refused with 1, 2, 3, 11, or 6 to 8, of which 7 is only for a number that is written too fine.
///
/// ```
/// let found = lumbrisse::expression(b"(1,204.5 - 1200)/2 KWH")?;
/// assert_eq!((found.value, found.stop), (2_250_000, 18));
/// assert_eq!(lumbrisse::expression(b"100/3")?.value, 33_333_333);
/// assert_eq!(lumbrisse::expression(b"0.0000001").unwrap_err().number, 7);
/// # Ok::<(), lumbrisse::Refusal>(())
/// ```
pub fn expression(text: &[u8]) -> Result<Evaluated, Refusal> {
    evaluated(ffi::expression(text))
}

/// The expression at the start of a text, in the exact form: nothing rounds.
///
/// Refused as [`expression`] is, and with 7 also where a product or quotient is not a whole number of millionths; the
/// exact size is judged before that. A value that it gives is the one that [`expression`] gives; what only
/// [`expression`] gives a value for was rounded.
///
/// ```
/// assert_eq!(lumbrisse::expression_exact(b"100/8"), lumbrisse::expression(b"100/8"));
/// assert_eq!(lumbrisse::expression_exact(b"100/3").unwrap_err().number, 7);
/// ```
pub fn expression_exact(text: &[u8]) -> Result<Evaluated, Refusal> {
    evaluated(ffi::expression_exact(text))
}

/// The expression at the start of a text, with what is pending in a table of fixed size.
///
/// Answers as [`expression`] for every text. It takes the same small stack at any depth of groups, where [`expression`]
/// takes more for each group that is open; short expressions take it longer. A display takes this one, a box the other.
///
/// ```
/// let deep = [b"(".repeat(32), b"100/3".to_vec(), b")".repeat(32)].concat();
/// let found = lumbrisse::expression_stacked(&deep)?;
/// assert_eq!((found.value, found.stop), (33_333_333, 69));
/// assert_eq!(lumbrisse::expression(&deep), Ok(found));
/// # Ok::<(), lumbrisse::Refusal>(())
/// ```
pub fn expression_stacked(text: &[u8]) -> Result<Evaluated, Refusal> {
    evaluated(ffi::expression_stacked(text))
}

/// The exact form on the stack of [`expression_stacked`].
///
/// Answers as [`expression_exact`] for every text.
///
/// ```
/// for text in [&b"100/8"[..], b"100/3", b"2*(3"] {
///     let exact = lumbrisse::expression_exact(text);
///     assert_eq!(lumbrisse::expression_stacked_exact(text), exact);
/// }
/// ```
pub fn expression_stacked_exact(text: &[u8]) -> Result<Evaluated, Refusal> {
    evaluated(ffi::expression_stacked_exact(text))
}

/// String content without its escapes: writes it to the front of the buffer and gives its length.
///
/// Content is what stands between the quotes of a string. Refused with 10 where it is not valid, then with 9 and the
/// need in bytes; the buffer then keeps its bytes.
///
/// ```
/// let mut buffer = [b'.'; 8];
/// assert_eq!(lumbrisse::content(br#"say \"x\""#, &mut buffer), Ok(7));
/// assert_eq!(&buffer, br#"say "x"."#);
/// // An escape needs an ordinary byte directly before it.
/// assert_eq!(lumbrisse::content(br#"\"x"#, &mut buffer).unwrap_err().number, 10);
/// ```
pub fn content(content: &[u8], buffer: &mut [u8]) -> Result<usize, Refusal> {
    counted(ffi::content(content, buffer))
}

/// Whether a tag is in force after the first `k` rows of a table: whether `pushtag` was the last of `pushtag` and
/// `poptag` to name it.
///
/// Refused with 10 where the table has no room for `k` rows.
///
/// ```
/// let ledger = b"pushtag #2024-01\n; readings\npoptag #2024-01\n";
/// let table = lumbrisse::read_to_vec(ledger)?;
/// assert_eq!(lumbrisse::tag_in_force(ledger, &table, 4, b"2024-01"), Ok(true));
/// assert_eq!(lumbrisse::tag_in_force(ledger, &table, 6, b"2024-01"), Ok(false));
/// assert_eq!(lumbrisse::tag_in_force(ledger, &table, 9, b"2024-01").unwrap_err().number, 10);
/// # Ok::<(), lumbrisse::Refusal>(())
/// ```
pub fn tag_in_force(ledger: &[u8], table: &[u8], k: usize, tag: &[u8]) -> Result<bool, Refusal> {
    counted(ffi::tag_in_force(ledger, table, k, tag)).map(|count| count == 1)
}

/// The text of a span: a part of the ledger itself. Empty, at the ledger's start, where start is over end or end over
/// the length.
///
/// ```
/// let ledger = b"2024-01-31 open Meters:Flat-1\n";
/// assert_eq!(lumbrisse::span_text(ledger, 16, 29), b"Meters:Flat-1");
/// assert_eq!(lumbrisse::span_text(ledger, 29, 16), b"");
/// assert_eq!(lumbrisse::span_text(ledger, 0, 31), b"");
/// ```
pub fn span_text(ledger: &[u8], start: usize, end: usize) -> &[u8] {
    let part = ffi::span(ledger, start, end);
    let rest = ledger.get(part.start..).unwrap_or_default();
    rest.get(..part.length).unwrap_or_default()
}
