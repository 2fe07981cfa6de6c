//! A model of document 01, slow and obvious: every call over lent buffers, every refusal in its order, damaged columns
//! and odd states included. Written from the paper, and from none of the code that it is compared with.
//!
//! Each call first says why it refuses, then what it does. Sums are made in 128 bits, so that none overflows. Open
//! points of the paper are decided here as they are for the code: capacity 0 while nothing is open, the open block's
//! record written on completion and on finish-by-copy only, a block that ends past 16,777,216 outside the data.

mod builder;
mod column;
mod compaction;
mod comparison;
mod growth;
mod listing;
mod nulls;
mod offsets;
mod utf8;
mod view;

pub use builder::{
    Merge, Rooms, State, append_block, append_column, append_null, append_value, append_value_n,
    append_view, finish, finish_copy, get_value, start, start_merging,
};
pub use column::{
    Column, Lent, check, length, null_bit, null_run, prefix, slice, suffix,
    total_buffer_bytes_used, total_bytes_len, value, walk,
};
pub use compaction::compact;
pub use comparison::{Order, compare, same_column};
pub use growth::{Growth, growth_step};
pub use listing::{list, shelflist};
pub use nulls::{count_nulls, is_valid, put_bit};
pub use offsets::from_offsets;
pub use utf8::well_formed_up_to;
pub use view::{View, make_view};

/// The most rows, counted from row 0 of the views.
pub const MAX_ROWS: u64 = 32_767;
/// The most blocks.
pub const MAX_BLOCKS: u64 = 4_096;
/// The most bytes of data, of a block and of a value.
pub const MAX_BYTES: u64 = 16_777_216;
/// The greatest maximum for compaction.
pub const MAX_MAXIMUM: u64 = (1 << 31) - 1;
/// The longest value that lies in its view.
pub const MAX_SHORT: u64 = 12;
/// Bytes of a view.
pub const VIEW: u64 = 16;
/// The number that no refusal has: it stood for a block number above 32 bits, which no builder reaches.
pub const RETIRED: u32 = 12;

/// What a column's values are.
#[derive(Clone, Copy, Debug, PartialEq, Eq)]
pub enum Kind {
    Binary,
    String,
}

/// Which of two columns.
#[derive(Clone, Copy, Debug, PartialEq, Eq)]
pub enum Side {
    Left,
    Right,
}

/// A refusal: its number, and for 11 the row and, of two columns, which.
#[derive(Clone, Copy, Debug, PartialEq, Eq)]
pub struct Refusal {
    pub number: u32,
    pub row: u64,
    pub side: Option<Side>,
}

impl Refusal {
    pub fn new(number: u32) -> Self {
        assert_ne!(number, RETIRED);
        Refusal {
            number,
            row: 0,
            side: None,
        }
    }

    pub fn at_row(number: u32, row: u64) -> Self {
        Refusal {
            row,
            ..Refusal::new(number)
        }
    }

    fn of(self, side: Side) -> Self {
        let named = if self.number == 11 { Some(side) } else { None };
        Refusal {
            side: named,
            ..self
        }
    }
}

/// Which buffer an answered part lies in.
#[derive(Clone, Copy, Debug, PartialEq, Eq)]
pub enum Buffer {
    Views,
    Data,
}

/// A part of a lent buffer.
#[derive(Clone, Copy, Debug, PartialEq, Eq)]
pub struct Part {
    pub buffer: Buffer,
    pub at: u64,
    pub len: u64,
}

impl Part {
    /// The bytes of the part.
    pub fn of<'a>(&self, views: &'a [u8], data: &'a [u8]) -> &'a [u8] {
        let bytes = match self.buffer {
            Buffer::Views => views,
            Buffer::Data => data,
        };
        &bytes[self.at as usize..(self.at + self.len) as usize]
    }
}

/// Answers the refusal if `due`.
fn refuse(due: bool, number: u32) -> Result<(), Refusal> {
    if due {
        Err(Refusal::new(number))
    } else {
        Ok(())
    }
}

/// a + b above the bound.
fn sum_above(a: u64, b: u64, bound: u64) -> bool {
    a as u128 + b as u128 > bound as u128
}
