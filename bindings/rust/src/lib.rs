//! Byte view columns whose every call is proved: Apache Arrow's byte view array and builder (arrow-array 60.0.0) over the library of Tambuyeel.
//!
//! A [`ByteViewColumn`] is borrowed from slices, a [`ByteViewArray`] owns its buffers, a [`ByteViewBuilder`] makes one of values and nulls. The
//! names are arrow-rs's where it has them. Three things differ: the kind, String or Binary, is a value and not a type; a bad call is an [`Error`]
//! with a number and not a panic; and no column has to be checked before it is read, since a bad view is refused and not followed.
//!
//! ```
//! use tambuyeel::{ByteViewBuilder, Kind};
//!
//! // Build a column,
//! let mut codes = ByteViewBuilder::new(Kind::String).with_fixed_block_size(20)?;
//! codes.append_value("A")?;
//! codes.append_null()?;
//! codes.append_value("RO-8040-03MAR")?;
//! codes.append_value("RO-8040-03MAY")?;
//! let column = codes.finish();
//! assert_eq!((column.len(), column.null_count()?, column.num_blocks()), (4, 1, 2));
//!
//! // compact it,
//! let small = column.gc()?;
//! assert_eq!(small.num_blocks(), 1);
//!
//! // read it back.
//! assert_eq!(small.value_str(3)?, "RO-8040-03MAY");
//! let shown: Vec<_> = small.iter().collect::<Result<_, _>>()?;
//! assert_eq!(shown, [Some(&b"A"[..]), None, Some(b"RO-8040-03MAR"), Some(b"RO-8040-03MAY")]);
//! # Ok::<(), tambuyeel::Error>(())
//! ```

#![warn(missing_docs)]
#![deny(unsafe_op_in_unsafe_fn)]

mod array;
mod builder;
mod column;
mod error;
#[rustfmt::skip]
mod ffi;

pub use array::ByteViewArray;
pub use builder::ByteViewBuilder;
pub use column::{Buffers, ByteViewColumn, Iter};
pub use error::{Error, Side};

/// The most rows of a column, counted from row 0 of its views.
pub const MAX_ROWS: usize = 32_767;
/// The most blocks of a column.
pub const MAX_BLOCKS: usize = 4_096;
/// The most bytes of data, and of one value.
pub const MAX_BYTES: usize = 16_777_216;
/// The longest value that lies in its view.
pub const MAX_INLINE_VIEW_LEN: usize = 12;
/// Bytes of a view.
pub const VIEW_SIZE: usize = 16;

/// What the values of a column are.
#[derive(Clone, Copy, Debug, PartialEq, Eq)]
pub enum Kind {
    /// Any bytes.
    Binary = 0,
    /// UTF-8.
    String = 1,
}

/// What a row is under the element code profile: a code has 4 to 24 bytes from A to Z, 0 to 9 and hyphen, with no hyphen first, last or doubled.
#[derive(Clone, Copy, Debug, PartialEq, Eq)]
pub enum Mark {
    /// A null row: neither a code nor not.
    Null = 0,
    /// No code.
    Other = 1,
    /// A code that no spreadsheet takes for a date.
    Code = 2,
    /// A code that a spreadsheet would take for a date: a day 1 to 31 in one or two digits, an optional hyphen, a month JAN to DEC, and optionally a hyphen and
    /// two or four digits; or a month, an optional hyphen and a day; or two or three groups of digits joined by hyphens, each of one to four digits.
    Date = 3,
}

/// How many rows have each [`Mark`].
#[derive(Clone, Copy, Debug, Default, PartialEq, Eq)]
pub struct Marks {
    /// Null rows.
    pub nulls: usize,
    /// Rows that are no codes.
    pub others: usize,
    /// Codes that no spreadsheet takes for dates.
    pub codes: usize,
    /// Codes that a spreadsheet would take for dates.
    pub dates: usize,
}

/// The view of a value that stands in `block` at `offset`; both are ignored where the value is short. Refused with 4.
///
/// ```
/// let view = tambuyeel::make_view(b"RO-8040-03MAR", 0, 13)?;
/// assert_eq!(view, *b"\x0D\0\0\0RO-8\0\0\0\0\x0D\0\0\0");
/// # Ok::<(), tambuyeel::Error>(())
/// ```
pub fn make_view(value: impl AsRef<[u8]>, block: u32, offset: u32) -> Result<[u8; VIEW_SIZE], Error> {
    let mut view = [0; VIEW_SIZE];
    accepted(ffi::make_view(value.as_ref(), block, offset, &mut view))?;
    Ok(view)
}

/// How many of the first bytes are well-formed UTF-8: all, or up to where the first bad sequence begins.
///
/// ```
/// assert_eq!(tambuyeel::valid_up_to(b"caf\xC3\xA9"), 5);
/// assert_eq!(tambuyeel::valid_up_to(b"caf\xE9 8040"), 3);
/// ```
pub fn valid_up_to(bytes: impl AsRef<[u8]>) -> usize {
    ffi::utf8(bytes.as_ref()).place
}

/// Whether the bytes are well-formed UTF-8.
///
/// ```
/// assert!(tambuyeel::is_utf8(b"\xF4\x8F\xBF\xBF"));
/// assert!(!tambuyeel::is_utf8(b"\xED\xA0\x80"));
/// ```
pub fn is_utf8(bytes: impl AsRef<[u8]>) -> bool {
    ffi::utf8(bytes.as_ref()).yes != 0
}

/// An answer that is 0 or a refusal's number, by a call that names no row.
#[inline]
fn accepted(number: u64) -> Result<(), Error> {
    told(number, 0)
}

/// The same with the row that 11 names.
#[inline]
fn told(number: u64, row: usize) -> Result<(), Error> {
    if number == 0 {
        return Ok(());
    }
    Err(Error::new(number, row))
}

/// The bytes of a place that the library answered; `row` was asked for.
fn part<'a>(place: ffi::Place, views: &'a [u8], bytes: &'a [u8], row: usize) -> Result<&'a [u8], Error> {
    told(place.refused, row)?;
    let buffer = if place.buffer == 0 { views } else { bytes };
    Ok(&buffer[place.offset..][..place.len])
}
