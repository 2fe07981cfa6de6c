//! A column that owns its buffers.

use crate::ffi::{self, Lent, Room};
use crate::{accepted, Buffers, ByteViewBuilder, ByteViewColumn, Error, Iter, Kind, Mark, Marks, MAX_BLOCKS, MAX_BYTES, MAX_ROWS, VIEW_SIZE};
use std::cmp::Ordering;
use std::fmt;

/// A column of byte views that owns its buffers: what [`ByteViewBuilder::finish`], [`ByteViewColumn::gc`] and [`ByteViewArray::from_offsets`] answer.
///
/// ```
/// use tambuyeel::{ByteViewArray, Kind};
///
/// let codes = ByteViewArray::try_from_iter(Kind::String, [Some("A"), None, Some("RO-8040-03MAR")])?;
/// assert_eq!(codes.value(2)?, b"RO-8040-03MAR");
/// assert!(codes.is_null(1)?);
/// # Ok::<(), tambuyeel::Error>(())
/// ```
#[derive(Clone, Default)]
pub struct ByteViewArray {
    pub(crate) views: Vec<u8>,
    pub(crate) bytes: Vec<u8>,
    pub(crate) starts: Vec<usize>,
    pub(crate) lens: Vec<usize>,
    pub(crate) nulls: Vec<u8>,
    pub(crate) numbers: [usize; 5],
}

/// Calls that are the borrowed column's.
macro_rules! as_column {
    ($($name:ident$([$life:lifetime])?($($arg:ident: $kind:ty),*) -> $answer:ty;)*) => { $(
        #[doc = concat!("As [`ByteViewColumn::", stringify!($name), "`], which has an example.")]
        pub fn $name$(<$life>)?(&self, $($arg: $kind),*) -> $answer {
            self.column().$name($($arg),*)
        }
    )* };
}

impl ByteViewArray {
    /// The column of these values and nulls. Refused as [`ByteViewBuilder::append_value`] is.
    ///
    /// ```
    /// use tambuyeel::{ByteViewArray, Kind};
    /// let codes = ByteViewArray::try_from_iter(Kind::Binary, [Some("A"), None])?;
    /// assert_eq!(codes.len(), 2);
    /// # Ok::<(), tambuyeel::Error>(())
    /// ```
    pub fn try_from_iter<V: AsRef<[u8]>>(kind: Kind, values: impl IntoIterator<Item = Option<V>>) -> Result<Self, Error> {
        let mut builder = ByteViewBuilder::new(kind);
        for value in values {
            builder.append_option(value)?;
        }
        Ok(builder.finish())
    }

    /// The column of an offset column: row k is `bytes[offsets[k]..offsets[k + 1]]`, all bytes become one block, a null row is empty. `nulls` is
    /// a map, one bit a row, the low bit first, 1 = valid. Refused with 2 (the map is too short), 13, 10, 5, 7.
    ///
    /// ```
    /// use tambuyeel::{ByteViewArray, Error, Kind};
    /// let column = ByteViewArray::from_offsets(Kind::String, &[0, 1, 1, 14], b"ARO-8040-03MAR", Some(&[0b101]))?;
    /// assert_eq!((column.len(), column.value_str(2)?), (3, "RO-8040-03MAR"));
    /// let e = ByteViewArray::from_offsets(Kind::String, &[0, 3, 1], b"ABC", None).unwrap_err();
    /// assert_eq!(e.number(), Error::OFFSETS);
    /// # Ok::<(), Error>(())
    /// ```
    pub fn from_offsets(kind: Kind, offsets: &[i32], bytes: &[u8], nulls: Option<&[u8]>) -> Result<Self, Error> {
        let words: Vec<u8> = offsets.iter().flat_map(|offset| offset.to_le_bytes()).collect();
        let rows = offsets.len().saturating_sub(1).min(MAX_ROWS);
        let mut out = Self::with_room(rows, 1, bytes.len().min(MAX_BYTES));
        accepted(out.written(|room, numbers| ffi::from_offsets(&words, bytes, nulls, kind as usize, room, numbers)))?;
        Ok(out.cut())
    }

    /// Zeroed buffers with this room.
    pub(crate) fn with_room(rows: usize, blocks: usize, bytes: usize) -> Self {
        let mut array = Self::default();
        array.make_room(rows, blocks, bytes);
        array
    }

    /// Lengthens the buffers to at least this room; within the limits of a column.
    pub(crate) fn make_room(&mut self, rows: usize, blocks: usize, bytes: usize) {
        let (rows, blocks, bytes) = (rows.min(MAX_ROWS), blocks.min(MAX_BLOCKS), bytes.min(MAX_BYTES));
        lengthen(&mut self.views, rows * VIEW_SIZE);
        lengthen(&mut self.nulls, rows.div_ceil(8));
        lengthen(&mut self.starts, blocks);
        lengthen(&mut self.lens, blocks);
        lengthen(&mut self.bytes, bytes);
    }

    #[inline]
    pub(crate) fn room(&mut self) -> Room<'_> {
        Room { views: &mut self.views, bytes: &mut self.bytes, starts: &mut self.starts, lens: &mut self.lens, nulls: &mut self.nulls }
    }

    /// A call that writes a column here and says its numbers.
    pub(crate) fn written<T>(&mut self, call: impl FnOnce(Room<'_>, &mut [usize; 5]) -> T) -> T {
        let mut numbers = [0; 5];
        let answer = call(self.room(), &mut numbers);
        self.numbers = numbers;
        answer
    }

    /// The buffers cut to what the column uses: blocks lie end to end from 0.
    pub(crate) fn cut(mut self) -> Self {
        let [_, rows, blocks, _, mapped] = self.numbers;
        self.views.truncate(rows.saturating_mul(VIEW_SIZE));
        self.nulls.truncate(if mapped == 0 { 0 } else { rows.div_ceil(8) });
        self.starts.truncate(blocks);
        self.lens.truncate(blocks);
        self.bytes.truncate(self.starts.iter().zip(&self.lens).map(|(start, len)| start.saturating_add(*len)).max().unwrap_or(0));
        self
    }

    /// The column, borrowed.
    ///
    /// ```
    /// use tambuyeel::{ByteViewArray, Kind};
    /// let codes = ByteViewArray::try_from_iter(Kind::Binary, [Some("A")])?;
    /// assert_eq!(codes.column().value(0)?, b"A");
    /// # Ok::<(), tambuyeel::Error>(())
    /// ```
    pub fn column(&self) -> ByteViewColumn<'_> {
        ByteViewColumn::of(Lent {
            views: &self.views,
            bytes: &self.bytes,
            starts: &self.starts,
            lens: &self.lens,
            nulls: &self.nulls,
            numbers: self.numbers,
        })
    }

    as_column! {
        len() -> usize;
        is_empty() -> bool;
        num_blocks() -> usize;
        kind() -> Kind;
        buffers() -> Buffers<'_>;
        value(row: usize) -> Result<&[u8], Error>;
        value_str(row: usize) -> Result<&str, Error>;
        prefix(row: usize, n: usize) -> Result<&[u8], Error>;
        suffix(row: usize, n: usize) -> Result<&[u8], Error>;
        value_length(row: usize) -> Result<usize, Error>;
        is_null(row: usize) -> Result<bool, Error>;
        is_valid(row: usize) -> Result<bool, Error>;
        null_count() -> Result<usize, Error>;
        slice(offset: usize, length: usize) -> Result<ByteViewColumn<'_>, Error>;
        total_bytes_len() -> Result<usize, Error>;
        total_buffer_bytes_used() -> Result<usize, Error>;
        check() -> Result<(), Error>;
        mark(row: usize) -> Result<Mark, Error>;
        count_marks() -> Result<Marks, Error>;
        compare['b](i: usize, that: impl Into<ByteViewColumn<'b>>, j: usize) -> Result<Ordering, Error>;
        same_column['b](that: impl Into<ByteViewColumn<'b>>) -> Result<bool, Error>;
        iter() -> Iter<'_>;
        gc() -> Result<ByteViewArray, Error>;
        gc_with_max_buffer_size(most: usize) -> Result<ByteViewArray, Error>;
    }
}

/// Zeros up to a length. A fresh buffer is asked for as zeros, which costs nothing until it is used.
fn lengthen<T: Clone + Default>(buffer: &mut Vec<T>, length: usize) {
    if buffer.is_empty() {
        *buffer = vec![T::default(); length];
    } else if buffer.len() < length {
        buffer.resize(length, T::default());
    }
}

impl fmt::Debug for ByteViewArray {
    fn fmt(&self, f: &mut fmt::Formatter<'_>) -> fmt::Result {
        self.column().fmt(f)
    }
}

impl<'a> From<&'a ByteViewArray> for ByteViewColumn<'a> {
    fn from(array: &'a ByteViewArray) -> Self {
        array.column()
    }
}

impl<'a> IntoIterator for &'a ByteViewArray {
    type Item = Result<Option<&'a [u8]>, Error>;
    type IntoIter = Iter<'a>;

    fn into_iter(self) -> Iter<'a> {
        self.iter()
    }
}
