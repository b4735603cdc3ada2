//! Reads Beancount ledgers with a reader whose every answer is proved.
//!
//! The reader is written in Rattle and proved against the rules of document 01; this crate links its archive and gives
//! its calls Rust types. Any bytes at all get rows or a [`Refusal`] with its number and place; nothing panics, and a
//! refused call leaves every byte of the buffers that it was lent, working space aside ([`totals`], [`write`]).
//!
//! | call | gives |
//! |---|---|
//! | [`read`] | the rows of a ledger, or the first refusal in it |
//! | [`read_strict`] | the same, where nothing passes for a comment that starts like an entry or a posting |
//! | [`recover`] | the rows of every block that reads, and a row of kind [`Kind::Refused`] for each block that does not |
//! | [`recover_strict`] | the same with each block read by [`read_strict`] |
//! | [`expression`] | the value of one expression, with products and quotients rounded, and where it stops |
//! | [`expression_exact`] | the same with nothing rounded: a product or quotient that is too fine is refused |
//! | [`expression_stacked`] | what [`expression`] gives, on a small stack at any depth of groups |
//! | [`expression_stacked_exact`] | what [`expression_exact`] gives, on that stack |
//! | [`content`] | string content without its escapes |
//! | [`tag_in_force`] | whether a tag is in force after some rows |
//! | [`span_text`] | the text of a span: a part of the ledger itself |
//! | [`packet`] | rows with their texts as a packet, for the building bus |
//! | [`packet_next`] | one row of a packet, with its text |
//! | [`edit`] | the rows of a ledger in which one block was replaced, with that block alone read anew |
//! | [`totals`] | what the postings of a month come to, for each account and currency |
//! | [`write`] | the ledger written afresh, in one layout |
//!
//! These lend buffers and allocate nothing. [`read_to_vec`], [`read_strict_to_vec`], [`recover_to_vec`],
//! [`recover_strict_to_vec`], [`packet_to_vec`], [`edit_to_vec`], [`totals_to_vec`] and [`written`] make a table, a
//! packet, items or a text that are large enough. [`Rows`] goes over a table row by row, [`Packets`] over a packet,
//! [`Totals`] over items. [`Reading`] keeps a ledger and its rows together while blocks of it are replaced;
//! [`block_at`] says where one is.
//!
//! Without its default feature `std` the crate is `no_std`, for a display: all but the eight calls that allocate,
//! [`Reading`], and `std::error::Error` for a refusal, is there.
//!
//! ```
//! use lumbrisse::{Kind, Millionths, Rows};
//!
//! let ledger = b"2024-01-31 * \"January\"\n  Meters:Flat-1  12.5 KWH\n  Cellar:Main\n";
//! let table = lumbrisse::read_to_vec(ledger)?;
//! for row in Rows::new(&table) {
//!     if row.kind == Kind::Amount {
//!         assert_eq!(Millionths(row.value).to_string(), "12.5");
//!         assert_eq!(row.currency(ledger), Some(&b"KWH"[..]));
//!     }
//! }
//! # Ok::<(), lumbrisse::Refusal>(())
//! ```

#![no_std]
#![deny(unsafe_code, missing_docs)]
#![deny(
    clippy::unwrap_used,
    clippy::expect_used,
    clippy::panic,
    clippy::indexing_slicing,
    clippy::arithmetic_side_effects
)]

#[cfg(feature = "std")]
extern crate std;

mod call;
mod date;
mod edit;
mod ffi;
mod kind;
mod millionths;
#[cfg(feature = "std")]
mod owned;
mod packet;
#[cfg(feature = "std")]
mod reading;
mod refusal;
mod row;
mod table;
mod totals;
mod writer;

pub use call::{
    content, expression, expression_exact, expression_stacked, expression_stacked_exact, read,
    read_strict, recover, recover_strict, span_text, tag_in_force, Evaluated, SIZE_LIMIT,
};
pub use date::Date;
pub use edit::{block_at, edit, Edit};
pub use kind::Kind;
pub use millionths::Millionths;
#[cfg(feature = "std")]
pub use owned::{
    edit_to_vec, packet_to_vec, read_strict_to_vec, read_to_vec, recover_strict_to_vec,
    recover_to_vec, totals_to_vec, written,
};
pub use packet::{packet, packet_next, Handed, PacketRow, Packets, TEXT_LIMIT};
#[cfg(feature = "std")]
pub use reading::Reading;
pub use refusal::{Refusal, Short};
pub use row::Row;
pub use table::{Rows, ROW_BYTES};
pub use totals::{totals, Total, Totals, TOTAL_BYTES};
pub use writer::write;
