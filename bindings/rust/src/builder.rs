//! A builder that owns its buffers and lengthens them.

use crate::ffi;
use crate::{accepted, part, told, ByteViewArray, ByteViewColumn, Error, Kind, MAX_BLOCKS, MAX_BYTES, MAX_ROWS, VIEW_SIZE};
use std::fmt;

/// The places of a merge table: above twice the rows, so that a search is short.
const PLACES: usize = 2 * MAX_ROWS + 1;

/// A builder of byte view columns. It owns its buffers and makes room as rows come; what doesn't fit the limits of a column is refused.
///
/// Blocks double in size up to 2 MiB, and equal values aren't merged, unless a setting says otherwise. A refused call leaves the builder as it was.
///
/// ```
/// use tambuyeel::{ByteViewBuilder, Kind};
///
/// let mut codes = ByteViewBuilder::new(Kind::String).with_deduplicate_strings();
/// codes.append_value("RO-8040-03MAR")?;
/// codes.append_null()?;
/// codes.append_value("RO-8040-03MAR")?;
/// let column = codes.finish();
/// assert_eq!((column.len(), column.buffers().bytes.len()), (3, 13));
/// # Ok::<(), tambuyeel::Error>(())
/// ```
#[derive(Clone)]
pub struct ByteViewBuilder {
    state: [usize; 11],
    held: ByteViewArray,
    places: Vec<u32>,
    merges: bool,
    most: Option<u32>,
}

/// Where the state's numbers stand: kind, growth and its size, merging and its maximum, and then these; capacity and null flag are the last.
const ROWS: usize = 5;
const BLOCKS: usize = 6;
const BASE: usize = 7;
const FILL: usize = 8;

impl ByteViewBuilder {
    /// A builder with doubling blocks that doesn't merge.
    ///
    /// ```
    /// use tambuyeel::{ByteViewBuilder, Kind};
    /// assert!(ByteViewBuilder::new(Kind::Binary).is_empty());
    /// ```
    pub fn new(kind: Kind) -> Self {
        let mut state = [0; 11];
        let refused = ffi::start(&[kind as usize, 1, 0, 0, 0], &mut state, &mut []);
        assert_eq!(refused, 0, "doubling without merging is never refused");
        ByteViewBuilder { state, held: ByteViewArray::default(), places: vec![], merges: false, most: None }
    }

    /// The same with room for `capacity` rows.
    ///
    /// ```
    /// use tambuyeel::{ByteViewBuilder, Kind};
    /// let mut codes = ByteViewBuilder::with_capacity(Kind::Binary, 1_000);
    /// codes.append_value("A")?;
    /// # Ok::<(), tambuyeel::Error>(())
    /// ```
    pub fn with_capacity(kind: Kind, capacity: usize) -> Self {
        let mut builder = Self::new(kind);
        builder.held.make_room(capacity, 0, 0);
        builder
    }

    fn set_merging(&mut self) {
        let merging = match (self.merges, self.most) {
            (false, _) => [0, 0],
            (true, None) => [1, 0],
            (true, Some(most)) => [2, most as usize],
        };
        self.state[3..5].copy_from_slice(&merging);
    }

    /// New blocks have this size, or a longer value's. Refused with 1 unless it is 1 to 16,777,216.
    ///
    /// ```
    /// use tambuyeel::{ByteViewBuilder, Kind};
    /// let mut codes = ByteViewBuilder::new(Kind::Binary).with_fixed_block_size(20)?;
    /// codes.append_value("RO-8040-03MAR")?;
    /// codes.append_value("RO-8040-03MAY")?;
    /// assert_eq!(codes.finish().num_blocks(), 2);
    /// # Ok::<(), tambuyeel::Error>(())
    /// ```
    pub fn with_fixed_block_size(mut self, block_size: u32) -> Result<Self, Error> {
        let size = block_size as usize;
        accepted(ffi::start(&[0, 0, size, 0, 0], &mut [0; 11], &mut []))?;
        self.state[1..3].copy_from_slice(&[0, size]);
        Ok(self)
    }

    /// Equal long values are stored once: a value takes the view of the earliest row, from now on, that was appended by value with equal bytes.
    ///
    /// ```
    /// use tambuyeel::{ByteViewBuilder, Kind};
    /// let mut codes = ByteViewBuilder::new(Kind::Binary).with_deduplicate_strings();
    /// codes.append_value("RO-8040-03MAR")?;
    /// codes.append_value("RO-8040-03MAR")?;
    /// assert_eq!(codes.finish().total_buffer_bytes_used()?, 26);
    /// # Ok::<(), tambuyeel::Error>(())
    /// ```
    pub fn with_deduplicate_strings(mut self) -> Self {
        if !self.merges {
            self.merges = true;
            self.places = vec![0; PLACES];
            self.set_merging();
        }
        self
    }

    /// With [`Self::with_deduplicate_strings`], only values of at most this length are merged. Refused with 1 where it is 0.
    ///
    /// ```
    /// use tambuyeel::{ByteViewBuilder, Kind};
    /// let mut codes = ByteViewBuilder::new(Kind::Binary).with_deduplicate_strings().with_max_deduplication_len(13)?;
    /// for code in ["RO-8040-03MAR", "RO-8040-03MAR", "RO-8040-03MARCH", "RO-8040-03MARCH"] {
    ///     codes.append_value(code)?;
    /// }
    /// assert_eq!(codes.finish().buffers().bytes.len(), 13 + 2 * 15);
    /// # Ok::<(), tambuyeel::Error>(())
    /// ```
    pub fn with_max_deduplication_len(mut self, max_deduplication_len: u32) -> Result<Self, Error> {
        accepted(ffi::start(&[0, 1, 0, 2, max_deduplication_len as usize], &mut [0; 11], &mut []))?;
        self.most = Some(max_deduplication_len);
        self.set_merging();
        Ok(self)
    }

    /// The rows that were appended since the start or the last finish.
    ///
    /// ```
    /// use tambuyeel::{ByteViewBuilder, Kind};
    /// let mut codes = ByteViewBuilder::new(Kind::Binary);
    /// codes.append_null()?;
    /// assert_eq!(codes.len(), 1);
    /// # Ok::<(), tambuyeel::Error>(())
    /// ```
    pub fn len(&self) -> usize {
        self.state[ROWS]
    }

    /// Whether there are no rows.
    ///
    /// ```
    /// use tambuyeel::{ByteViewBuilder, Kind};
    /// assert!(ByteViewBuilder::new(Kind::String).is_empty());
    /// ```
    pub fn is_empty(&self) -> bool {
        self.len() == 0
    }

    /// Asks; where room is missing, makes it and asks again: a refused call has changed nothing. `more` is the rows, blocks and bytes that the call may add.
    #[inline]
    fn growing<T>(&mut self, more: [usize; 3], call: impl Fn(&mut Self) -> Result<T, Error>) -> Result<T, Error> {
        match call(self) {
            Ok(answer) => Ok(answer),
            Err(refused) => self.grown(refused, more, call),
        }
    }

    /// The rest of it, which few calls come to.
    #[cold]
    #[inline(never)]
    fn grown<T>(&mut self, mut refused: Error, more: [usize; 3], call: impl Fn(&mut Self) -> Result<T, Error>) -> Result<T, Error> {
        loop {
            let longer = match refused.number() {
                Error::ROW_ROOM => self.lengthen_rows(more[0]),
                Error::BLOCK_ROOM => self.lengthen_blocks(more[1]),
                Error::DATA_ROOM => self.lengthen_bytes(more[2]),
                _ => false,
            };
            if !longer {
                return Err(refused);
            }
            refused = match call(self) {
                Ok(answer) => return Ok(answer),
                Err(refused) => refused,
            };
        }
    }

    /// Room for more rows; whether there is more of it than before.
    fn lengthen_rows(&mut self, more: usize) -> bool {
        let before = (self.held.views.len(), self.held.nulls.len());
        if let Some(rows) = enough(self.state[ROWS], more, before.0 / VIEW_SIZE, 64, MAX_ROWS) {
            self.held.make_room(rows, 0, 0);
        }
        before != (self.held.views.len(), self.held.nulls.len())
    }

    fn lengthen_blocks(&mut self, more: usize) -> bool {
        let before = self.held.starts.len();
        if let Some(blocks) = enough(self.state[BLOCKS] + (self.state[FILL] > 0) as usize, more, before, 4, MAX_BLOCKS) {
            self.held.make_room(0, blocks, 0);
        }
        before < self.held.starts.len()
    }

    fn lengthen_bytes(&mut self, more: usize) -> bool {
        let before = self.held.bytes.len();
        if let Some(bytes) = enough(self.state[BASE] + self.state[FILL], more, before, 1_024, MAX_BYTES) {
            self.held.make_room(0, 0, bytes);
        }
        before < self.held.bytes.len()
    }

    /// Appends a value. Refused with 4, 10 (String kind), 5, 6, 7: the last three at a column's limits alone.
    ///
    /// ```
    /// use tambuyeel::{ByteViewBuilder, Error, Kind};
    /// let mut codes = ByteViewBuilder::new(Kind::String);
    /// codes.append_value("RO-8040-03MAR")?;
    /// assert_eq!(codes.append_value(b"RO\xFF").unwrap_err().number(), Error::NOT_UTF8);
    /// assert_eq!(codes.len(), 1);
    /// # Ok::<(), Error>(())
    /// ```
    #[inline]
    pub fn append_value(&mut self, value: impl AsRef<[u8]>) -> Result<(), Error> {
        let x = value.as_ref();
        self.growing([1, 1, x.len()], |b| accepted(ffi::append_value(&mut b.state, b.held.room(), &mut b.places, x)))
    }

    /// The same under arrow-rs's name for a call that answers a `Result`.
    ///
    /// ```
    /// use tambuyeel::{ByteViewBuilder, Kind};
    /// let mut codes = ByteViewBuilder::new(Kind::Binary);
    /// codes.try_append_value("A")?;
    /// # Ok::<(), tambuyeel::Error>(())
    /// ```
    pub fn try_append_value(&mut self, value: impl AsRef<[u8]>) -> Result<(), Error> {
        self.append_value(value)
    }

    /// Appends a value n times, its bytes stored once: all of them or, refused, none. Refused as [`Self::append_value`] is.
    ///
    /// ```
    /// use tambuyeel::{ByteViewBuilder, Kind};
    /// let mut codes = ByteViewBuilder::new(Kind::Binary);
    /// codes.try_append_value_n("RO-8040-03MAR", 40)?;
    /// let column = codes.finish();
    /// assert_eq!((column.len(), column.buffers().bytes.len()), (40, 13));
    /// # Ok::<(), tambuyeel::Error>(())
    /// ```
    #[inline]
    pub fn try_append_value_n(&mut self, value: impl AsRef<[u8]>, n: usize) -> Result<(), Error> {
        let x = value.as_ref();
        self.growing([n, 1, x.len()], |b| accepted(ffi::append_values(&mut b.state, b.held.room(), &mut b.places, x, n)))
    }

    /// Appends a null. Refused with 5 at the limit of rows.
    ///
    /// ```
    /// use tambuyeel::{ByteViewBuilder, Kind};
    /// let mut codes = ByteViewBuilder::new(Kind::Binary);
    /// codes.append_null()?;
    /// assert!(codes.finish().is_null(0)?);
    /// # Ok::<(), tambuyeel::Error>(())
    /// ```
    pub fn append_null(&mut self) -> Result<(), Error> {
        self.growing([1, 0, 0], |b| accepted(ffi::append_null(&mut b.state, b.held.room(), &mut b.places)))
    }

    /// Appends a value, or a null for `None`.
    ///
    /// ```
    /// use tambuyeel::{ByteViewBuilder, Kind};
    /// let mut codes = ByteViewBuilder::new(Kind::Binary);
    /// codes.append_option(Some("A"))?;
    /// codes.append_option(None::<&str>)?;
    /// assert_eq!(codes.finish().null_count()?, 1);
    /// # Ok::<(), tambuyeel::Error>(())
    /// ```
    pub fn append_option(&mut self, value: Option<impl AsRef<[u8]>>) -> Result<(), Error> {
        match value {
            Some(value) => self.append_value(value),
            None => self.append_null(),
        }
    }

    /// Completes the open block and copies `block` in whole; answers its number for [`Self::try_append_view`]. Refused with 4, 6, 7.
    ///
    /// ```
    /// use tambuyeel::{ByteViewBuilder, Kind};
    /// let mut codes = ByteViewBuilder::new(Kind::String);
    /// let block = codes.append_block("helloworldbingobongo")?;
    /// codes.try_append_view(block, 5, 5)?;
    /// codes.try_append_view(block, 0, 15)?;
    /// let column = codes.finish();
    /// assert_eq!((column.value_str(0)?, column.value_str(1)?), ("world", "helloworldbingo"));
    /// # Ok::<(), tambuyeel::Error>(())
    /// ```
    pub fn append_block(&mut self, block: impl AsRef<[u8]>) -> Result<u32, Error> {
        let x = block.as_ref();
        self.growing([0, 1, x.len()], |b| {
            let answer = ffi::append_block(&mut b.state, b.held.room(), &mut b.places, x);
            accepted(answer.refused)?;
            Ok(answer.number as u32)
        })
    }

    /// Appends a row over `len` bytes of a completed block. Refused with 8, 9, 10 (String kind), 5.
    ///
    /// ```
    /// use tambuyeel::{ByteViewBuilder, Error, Kind};
    /// let mut codes = ByteViewBuilder::new(Kind::Binary);
    /// let block = codes.append_block("RO-8040-03MAR")?;
    /// codes.try_append_view(block, 8, 5)?;
    /// assert_eq!(codes.get_value(0)?, b"03MAR");
    /// assert_eq!(codes.try_append_view(block, 8, 6).unwrap_err().number(), Error::RANGE);
    /// assert_eq!(codes.try_append_view(block + 1, 0, 0).unwrap_err().number(), Error::NO_BLOCK);
    /// # Ok::<(), Error>(())
    /// ```
    pub fn try_append_view(&mut self, block: u32, offset: u32, len: u32) -> Result<(), Error> {
        self.growing([1, 0, 0], |b| accepted(ffi::append_view(&mut b.state, b.held.room(), &mut b.places, block, offset, len)))
    }

    /// Appends the rows of a column, its blocks copied whole; it is judged by the builder's kind. Refused with 2, 11, 9, 5, 6, 7.
    ///
    /// ```
    /// use tambuyeel::{ByteViewArray, ByteViewBuilder, Kind};
    /// let column = ByteViewArray::try_from_iter(Kind::String, [Some("A"), None, Some("RO-8040-03MAR")])?;
    /// let mut codes = ByteViewBuilder::new(Kind::String);
    /// codes.append_value("RO-8040-03MAY")?;
    /// codes.append_array(&column)?;
    /// codes.append_array(column.slice(2, 1)?)?;
    /// let all = codes.finish();
    /// assert_eq!((all.len(), all.value_str(4)?), (5, "RO-8040-03MAR"));
    /// # Ok::<(), tambuyeel::Error>(())
    /// ```
    pub fn append_array<'b>(&mut self, array: impl Into<ByteViewColumn<'b>>) -> Result<(), Error> {
        let column = array.into();
        let blocks = column.num_blocks();
        let bytes = column.lent().lens.iter().take(blocks).fold(0, |sum: usize, len| sum.saturating_add(*len));
        self.growing([column.len(), blocks, bytes], |b| {
            let answer = ffi::append_column(&mut b.state, b.held.room(), &mut b.places, column.lent());
            told(answer.number, answer.row)
        })
    }

    /// The value of a row that was appended, the null bit ignored. Refused with 3.
    ///
    /// ```
    /// use tambuyeel::{ByteViewBuilder, Kind};
    /// let mut codes = ByteViewBuilder::new(Kind::Binary);
    /// codes.append_value("RO-8040-03MAR")?;
    /// assert_eq!(codes.get_value(0)?, b"RO-8040-03MAR");
    /// # Ok::<(), tambuyeel::Error>(())
    /// ```
    pub fn get_value(&self, row: usize) -> Result<&[u8], Error> {
        let place = ffi::get_value(&self.state, self.held.column().lent(), &self.places, row);
        part(place, &self.held.views, &self.held.bytes, row)
    }

    /// The column of all rows. The builder is empty afterwards and goes on in buffers of its own; it keeps its settings and the size that its blocks have reached.
    ///
    /// ```
    /// use tambuyeel::{ByteViewBuilder, Kind};
    /// let mut codes = ByteViewBuilder::new(Kind::Binary);
    /// codes.append_value("A")?;
    /// let first = codes.finish();
    /// codes.append_value("B")?;
    /// let second = codes.finish();
    /// assert_eq!((first.value(0)?, second.value(0)?), (&b"A"[..], &b"B"[..]));
    /// # Ok::<(), tambuyeel::Error>(())
    /// ```
    pub fn finish(&mut self) -> ByteViewArray {
        let (state, places) = (&mut self.state, &mut self.places);
        let refused = self.held.written(|room, numbers| ffi::finish(state, room, places, numbers));
        // Only 2 could be given, and the calls leave a state that fits its buffers, which only grow.
        assert_eq!(refused, 0, "the builder's state doesn't fit its buffers");
        std::mem::take(&mut self.held).cut()
    }

    /// A copy of the column of all rows; the builder stays as it is.
    ///
    /// ```
    /// use tambuyeel::{ByteViewBuilder, Kind};
    /// let mut codes = ByteViewBuilder::new(Kind::Binary);
    /// codes.append_value("RO-8040-03MAR")?;
    /// let so_far = codes.finish_cloned();
    /// codes.append_value("RO-8040-03MAY")?;
    /// assert_eq!((so_far.len(), codes.finish().len()), (1, 2));
    /// # Ok::<(), tambuyeel::Error>(())
    /// ```
    pub fn finish_cloned(&self) -> ByteViewArray {
        let (mut state, mut held) = (self.state, self.held.clone());
        // Not looked at but for its length.
        let mut places = vec![0; self.places.len()];
        let refused = held.written(|room, numbers| ffi::finish_by_copy(&mut state, room, &mut places, numbers));
        assert_eq!(refused, 0, "the builder's state doesn't fit its buffers");
        held.cut()
    }
}

/// Room for `used + more`, at least twice the room there is; none where that is above the limit.
fn enough(used: usize, more: usize, room: usize, least: usize, limit: usize) -> Option<usize> {
    let wanted = used.checked_add(more).filter(|wanted| *wanted <= limit)?;
    Some(wanted.max(2 * room).max(least).min(limit))
}

impl fmt::Debug for ByteViewBuilder {
    fn fmt(&self, f: &mut fmt::Formatter<'_>) -> fmt::Result {
        let [_, _, _, _, _, rows, blocks, base, fill, ..] = self.state;
        write!(f, "ByteViewBuilder {{ rows: {rows}, blocks: {blocks}, bytes: {} }}", base + fill)
    }
}
