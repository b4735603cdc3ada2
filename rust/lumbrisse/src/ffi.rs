//! The archive's sixteen functions, and the only unsafe code: each is called with pointer and length of a live slice.
#![allow(unsafe_code)]

/// The answer of a call that reads or writes: number 0 is accepted.
#[repr(C)]
#[derive(Clone, Copy)]
pub struct Reply {
    pub number: usize,
    pub place: usize,
    pub count: usize,
}

/// The answer of a single expression: number 0 is accepted, `place` is then where it stopped.
#[repr(C)]
#[derive(Clone, Copy)]
pub struct Evaluated {
    pub number: usize,
    pub place: usize,
    /// The value in millionths, in two's complement.
    pub bits: u64,
}

/// The answer of a step over a packet: number 0 is accepted, `place` is then behind what was handed out.
#[repr(C)]
#[derive(Clone, Copy)]
pub struct Handed {
    pub number: usize,
    pub place: usize,
    /// The tag of the row that was handed out, or 0.
    pub tag: usize,
    /// The bytes of its text; under 9 the need.
    pub count: usize,
}

/// A part of a lent text.
#[repr(C)]
#[derive(Clone, Copy)]
pub struct Part {
    pub start: usize,
    pub length: usize,
}

// A slice is passed as its pointer and its length.
mod archive {
    use super::{Evaluated, Handed, Part, Reply};

    extern "C" {
        pub fn lumbrisse_read(
            ledger: *const u8,
            ledger_length: usize,
            table: *mut u8,
            table_length: usize,
        ) -> Reply;
        pub fn lumbrisse_recover(
            ledger: *const u8,
            ledger_length: usize,
            table: *mut u8,
            table_length: usize,
        ) -> Reply;
        pub fn lumbrisse_read_strict(
            ledger: *const u8,
            ledger_length: usize,
            table: *mut u8,
            table_length: usize,
        ) -> Reply;
        pub fn lumbrisse_recover_strict(
            ledger: *const u8,
            ledger_length: usize,
            table: *mut u8,
            table_length: usize,
        ) -> Reply;
        pub fn lumbrisse_expression(text: *const u8, text_length: usize) -> Evaluated;
        pub fn lumbrisse_expression_exact(text: *const u8, text_length: usize) -> Evaluated;
        pub fn lumbrisse_expression_stacked(text: *const u8, text_length: usize) -> Evaluated;
        pub fn lumbrisse_expression_stacked_exact(text: *const u8, text_length: usize)
            -> Evaluated;
        pub fn lumbrisse_content(
            content: *const u8,
            content_length: usize,
            buffer: *mut u8,
            buffer_length: usize,
        ) -> Reply;
        pub fn lumbrisse_tag_in_force(
            ledger: *const u8,
            ledger_length: usize,
            table: *const u8,
            table_length: usize,
            k: usize,
            tag: *const u8,
            tag_length: usize,
        ) -> Reply;
        pub fn lumbrisse_span(
            ledger: *const u8,
            ledger_length: usize,
            start: usize,
            end: usize,
        ) -> Part;
        pub fn lumbrisse_packet_write(
            ledger: *const u8,
            ledger_length: usize,
            table: *const u8,
            table_length: usize,
            k: usize,
            packet: *mut u8,
            packet_length: usize,
        ) -> Reply;
        pub fn lumbrisse_packet_next(
            packet: *const u8,
            packet_length: usize,
            at: usize,
            row: *mut u8,
            row_length: usize,
            text: *mut u8,
            text_length: usize,
        ) -> Handed;
        pub fn lumbrisse_edit(
            old: *const u8,
            old_length: usize,
            rows: *const u8,
            rows_length: usize,
            k: usize,
            start: usize,
            end: usize,
            new: *const u8,
            new_length: usize,
            table: *mut u8,
            table_length: usize,
        ) -> Reply;
        pub fn lumbrisse_totals(
            ledger: *const u8,
            ledger_length: usize,
            year: usize,
            month: usize,
            items: *mut u8,
            items_length: usize,
            work: *mut u8,
            work_length: usize,
            spare: *mut u8,
            spare_length: usize,
        ) -> Reply;
        pub fn lumbrisse_write(
            ledger: *const u8,
            ledger_length: usize,
            output: *mut u8,
            output_length: usize,
            work: *mut u8,
            work_length: usize,
        ) -> Reply;
    }
}

pub fn read(ledger: &[u8], table: &mut [u8]) -> Reply {
    fill(archive::lumbrisse_read, ledger, table)
}

pub fn read_strict(ledger: &[u8], table: &mut [u8]) -> Reply {
    fill(archive::lumbrisse_read_strict, ledger, table)
}

pub fn recover(ledger: &[u8], table: &mut [u8]) -> Reply {
    fill(archive::lumbrisse_recover, ledger, table)
}

pub fn recover_strict(ledger: &[u8], table: &mut [u8]) -> Reply {
    fill(archive::lumbrisse_recover_strict, ledger, table)
}

pub fn content(content: &[u8], buffer: &mut [u8]) -> Reply {
    fill(archive::lumbrisse_content, content, buffer)
}

/// Calls one of the five functions that take a text and write to a buffer.
fn fill(
    function: unsafe extern "C" fn(*const u8, usize, *mut u8, usize) -> Reply,
    text: &[u8],
    buffer: &mut [u8],
) -> Reply {
    // SAFETY: both slices live through the call and do not overlap, `buffer` being borrowed mutably. Each of the five
    // is proved for any bytes and lengths: it reads within `text`, writes within `buffer`, and keeps neither pointer.
    unsafe { function(text.as_ptr(), text.len(), buffer.as_mut_ptr(), buffer.len()) }
}

pub fn expression(text: &[u8]) -> Evaluated {
    evaluate(archive::lumbrisse_expression, text)
}

pub fn expression_exact(text: &[u8]) -> Evaluated {
    evaluate(archive::lumbrisse_expression_exact, text)
}

pub fn expression_stacked(text: &[u8]) -> Evaluated {
    evaluate(archive::lumbrisse_expression_stacked, text)
}

pub fn expression_stacked_exact(text: &[u8]) -> Evaluated {
    evaluate(archive::lumbrisse_expression_stacked_exact, text)
}

/// Calls one of the four functions on a single expression.
fn evaluate(
    function: unsafe extern "C" fn(*const u8, usize) -> Evaluated,
    text: &[u8],
) -> Evaluated {
    // SAFETY: the slice lives through the call. Each of the four is proved for any bytes: it reads within `text` and
    // keeps no pointer.
    unsafe { function(text.as_ptr(), text.len()) }
}

pub fn tag_in_force(ledger: &[u8], table: &[u8], k: usize, tag: &[u8]) -> Reply {
    // SAFETY: the slices live through the call and are only read, within their lengths, whatever `k` is. No pointer is
    // kept.
    unsafe {
        archive::lumbrisse_tag_in_force(
            ledger.as_ptr(),
            ledger.len(),
            table.as_ptr(),
            table.len(),
            k,
            tag.as_ptr(),
            tag.len(),
        )
    }
}

pub fn span(ledger: &[u8], start: usize, end: usize) -> Part {
    // SAFETY: the slice lives through the call and is only read, whatever `start` and `end` are. No pointer is kept.
    unsafe { archive::lumbrisse_span(ledger.as_ptr(), ledger.len(), start, end) }
}

pub fn packet_write(ledger: &[u8], table: &[u8], k: usize, packet: &mut [u8]) -> Reply {
    // SAFETY: as in `fill`, with `packet` as the buffer; `table` is only read, within its length, whatever its
    // bytes and `k` are.
    unsafe {
        archive::lumbrisse_packet_write(
            ledger.as_ptr(),
            ledger.len(),
            table.as_ptr(),
            table.len(),
            k,
            packet.as_mut_ptr(),
            packet.len(),
        )
    }
}

pub fn packet_next(packet: &[u8], at: usize, row: &mut [u8], text: &mut [u8]) -> Handed {
    // SAFETY: the three slices live through the call and no two overlap, `row` and `text` being borrowed mutably. The
    // function is proved for any bytes, lengths and place: it reads within `packet`, writes within `row` and `text`,
    // and keeps no pointer.
    unsafe {
        archive::lumbrisse_packet_next(
            packet.as_ptr(),
            packet.len(),
            at,
            row.as_mut_ptr(),
            row.len(),
            text.as_mut_ptr(),
            text.len(),
        )
    }
}

pub fn edit(
    old: &[u8],
    rows: &[u8],
    k: usize,
    start: usize,
    end: usize,
    new: &[u8],
    table: &mut [u8],
) -> Reply {
    // SAFETY: as in `fill`, with `table` as the buffer; `old`, `rows` and `new` are only read, within their lengths,
    // whatever their bytes, `k`, `start` and `end` are.
    unsafe {
        archive::lumbrisse_edit(
            old.as_ptr(),
            old.len(),
            rows.as_ptr(),
            rows.len(),
            k,
            start,
            end,
            new.as_ptr(),
            new.len(),
            table.as_mut_ptr(),
            table.len(),
        )
    }
}

pub fn totals(
    ledger: &[u8],
    year: usize,
    month: usize,
    items: &mut [u8],
    work: &mut [u8],
    spare: &mut [u8],
) -> Reply {
    // SAFETY: the four slices live through the call and no two overlap, `items`, `work` and `spare` being borrowed
    // mutably. The function is proved for any bytes, lengths, year and month: it reads within `ledger`, writes within
    // the other three, and keeps no pointer.
    unsafe {
        archive::lumbrisse_totals(
            ledger.as_ptr(),
            ledger.len(),
            year,
            month,
            items.as_mut_ptr(),
            items.len(),
            work.as_mut_ptr(),
            work.len(),
            spare.as_mut_ptr(),
            spare.len(),
        )
    }
}

pub fn write(ledger: &[u8], output: &mut [u8], work: &mut [u8]) -> Reply {
    // SAFETY: as in `totals`, with `output` and `work` as what is written to: for any bytes and lengths, and within
    // them.
    unsafe {
        archive::lumbrisse_write(
            ledger.as_ptr(),
            ledger.len(),
            output.as_mut_ptr(),
            output.len(),
            work.as_mut_ptr(),
            work.len(),
        )
    }
}
