//! A column borrowed from slices.

use crate::ffi::{self, Counted, Lent, Place};
use crate::{accepted, part, told, ByteViewArray, Error, Kind, Mark, Marks, Side, MAX_BLOCKS, MAX_BYTES, VIEW_SIZE};
use std::cmp::Ordering;
use std::fmt;

/// What a column is borrowed from. Nothing is asked of any of it.
#[derive(Clone, Copy, Debug, Default)]
pub struct Buffers<'a> {
    /// 16 bytes a row.
    pub views: &'a [u8],
    /// The data, all blocks in it.
    pub bytes: &'a [u8],
    /// Each block's start in the data.
    pub starts: &'a [usize],
    /// Each block's length.
    pub lens: &'a [usize],
    /// The null map, one bit a row, the low bit first, 1 = valid; none: no nulls.
    pub nulls: Option<&'a [u8]>,
}

/// A column of byte views over borrowed buffers. It is a few pointers and numbers, and is passed by value.
///
/// ```
/// use tambuyeel::{Buffers, ByteViewColumn, Kind};
///
/// let mut views = tambuyeel::make_view("A", 0, 0)?.to_vec();
/// views.extend(tambuyeel::make_view("RO-8040-03MAR", 0, 4)?);
/// let column = ByteViewColumn::try_new(
///     Kind::String,
///     Buffers { views: &views, bytes: b"....RO-8040-03MAR", starts: &[0], lens: &[17], nulls: None },
/// )?;
/// assert_eq!(column.len(), 2);
/// assert_eq!(column.value(1)?, b"RO-8040-03MAR");
/// # Ok::<(), tambuyeel::Error>(())
/// ```
#[derive(Clone, Copy)]
pub struct ByteViewColumn<'a> {
    lent: Lent<'a>,
}

/// A number that was asked for.
fn number(x: Counted) -> Result<usize, Error> {
    accepted(x.refused)?;
    Ok(x.number)
}

/// An answer on two columns: below 16 it stands, else it is a refusal of the left (16) or the right one (32), with the row on each.
fn on_two(number: u64, i: usize, j: usize) -> Result<u64, Error> {
    match number {
        0..=15 => Ok(number),
        16..=31 => Err(Error::new(number - 16, i).on(Side::Left)),
        _ => Err(Error::new(number.wrapping_sub(32), j).on(Side::Right)),
    }
}

impl<'a> ByteViewColumn<'a> {
    /// All rows of these views over all blocks, as they are: a bad view is refused when it is read. See [`Self::check`].
    ///
    /// ```
    /// use tambuyeel::{Buffers, ByteViewColumn, Error, Kind};
    /// let views = tambuyeel::make_view("RO-8040-03MAR", 3, 0)?;
    /// let column = ByteViewColumn::new(Kind::Binary, Buffers { views: &views, ..Buffers::default() });
    /// let e = column.value(0).unwrap_err();
    /// assert_eq!((e.number(), e.row()), (Error::VIEW, Some(0)));
    /// # Ok::<(), Error>(())
    /// ```
    pub fn new(kind: Kind, buffers: Buffers<'a>) -> Self {
        let Buffers { views, bytes, starts, lens, nulls } = buffers;
        let blocks = starts.len().min(lens.len());
        let numbers = [0, views.len() / VIEW_SIZE, blocks, kind as usize, nulls.is_some() as usize];
        let lent = Lent { views, bytes, starts, lens, nulls: nulls.unwrap_or(&[]), numbers };
        ByteViewColumn { lent }
    }

    /// The same, and checked: refused with 2, 11 or 9.
    ///
    /// ```
    /// use tambuyeel::{Buffers, ByteViewColumn, Kind};
    /// assert!(ByteViewColumn::try_new(Kind::Binary, Buffers { views: &[0; 16], ..Buffers::default() }).is_ok());
    /// assert!(ByteViewColumn::try_new(Kind::Binary, Buffers { views: &[1; 16], ..Buffers::default() }).is_err());
    /// ```
    pub fn try_new(kind: Kind, buffers: Buffers<'a>) -> Result<Self, Error> {
        let column = Self::new(kind, buffers);
        column.check()?;
        Ok(column)
    }

    /// The same buffers with another first row and number of rows; where they don't fit, every call is refused with 2.
    ///
    /// ```
    /// use tambuyeel::{Buffers, ByteViewColumn, Kind};
    /// let column = ByteViewColumn::new(Kind::Binary, Buffers { views: &[0; 64], ..Buffers::default() });
    /// assert_eq!(column.with_rows(1, 3).null_count(), Ok(0));
    /// assert_eq!(column.with_rows(1, 4).null_count().unwrap_err().number(), 2);
    /// ```
    pub fn with_rows(mut self, first: usize, rows: usize) -> Self {
        self.lent.numbers[0] = first;
        self.lent.numbers[1] = rows;
        self
    }

    /// The same buffers with another number of blocks; where they don't fit, every call is refused with 2.
    ///
    /// ```
    /// use tambuyeel::{Buffers, ByteViewColumn, Kind};
    /// let column = ByteViewColumn::new(Kind::Binary, Buffers { starts: &[0, 2], lens: &[2, 9], bytes: b"AB", ..Buffers::default() });
    /// assert_eq!(column.check().unwrap_err().number(), 9);
    /// assert!(column.with_blocks(1).check().is_ok());
    /// ```
    pub fn with_blocks(mut self, blocks: usize) -> Self {
        self.lent.numbers[2] = blocks;
        self
    }

    pub(crate) fn of(lent: Lent<'a>) -> Self {
        ByteViewColumn { lent }
    }

    pub(crate) fn lent(&self) -> &Lent<'a> {
        &self.lent
    }

    /// What the column is borrowed from.
    ///
    /// ```
    /// use tambuyeel::{Buffers, ByteViewColumn, Kind};
    /// let column = ByteViewColumn::new(Kind::Binary, Buffers { views: &[0; 16], ..Buffers::default() });
    /// assert_eq!(column.buffers().views, [0; 16]);
    /// ```
    pub fn buffers(&self) -> Buffers<'a> {
        let Lent { views, bytes, starts, lens, nulls, numbers } = self.lent;
        Buffers { views, bytes, starts, lens, nulls: (numbers[4] != 0).then_some(nulls) }
    }

    /// The rows.
    ///
    /// ```
    /// use tambuyeel::{Buffers, ByteViewColumn, Kind};
    /// assert_eq!(ByteViewColumn::new(Kind::Binary, Buffers { views: &[0; 48], ..Buffers::default() }).len(), 3);
    /// ```
    pub fn len(&self) -> usize {
        self.lent.numbers[1]
    }

    /// Whether there are no rows.
    ///
    /// ```
    /// use tambuyeel::{Buffers, ByteViewColumn, Kind};
    /// assert!(ByteViewColumn::new(Kind::Binary, Buffers::default()).is_empty());
    /// ```
    pub fn is_empty(&self) -> bool {
        self.len() == 0
    }

    /// The first row, counted from row 0 of the views: a slice moves it.
    ///
    /// ```
    /// use tambuyeel::{Buffers, ByteViewColumn, Kind};
    /// let column = ByteViewColumn::new(Kind::Binary, Buffers { views: &[0; 48], ..Buffers::default() });
    /// assert_eq!(column.slice(2, 1)?.first(), 2);
    /// # Ok::<(), tambuyeel::Error>(())
    /// ```
    pub fn first(&self) -> usize {
        self.lent.numbers[0]
    }

    /// The blocks.
    ///
    /// ```
    /// use tambuyeel::{ByteViewArray, Kind};
    /// let column = ByteViewArray::from_offsets(Kind::Binary, &[0, 1, 3], b"ABC", None)?;
    /// assert_eq!(column.column().num_blocks(), 1);
    /// # Ok::<(), tambuyeel::Error>(())
    /// ```
    pub fn num_blocks(&self) -> usize {
        self.lent.numbers[2]
    }

    /// String or Binary.
    ///
    /// ```
    /// use tambuyeel::{Buffers, ByteViewColumn, Kind};
    /// assert_eq!(ByteViewColumn::new(Kind::String, Buffers::default()).kind(), Kind::String);
    /// ```
    pub fn kind(&self) -> Kind {
        if self.lent.numbers[3] == 0 {
            return Kind::Binary;
        }
        Kind::String
    }

    /// Whether its numbers fit its buffers.
    fn fits(&self) -> bool {
        self.slice(0, 0).is_ok()
    }

    fn part(&self, place: Place, row: usize) -> Result<&'a [u8], Error> {
        part(place, self.lent.views, self.lent.bytes, row)
    }

    /// A row's value, the null bit ignored: a part of the views where it is short, of the data where it is long. Refused with 2, 3, 11.
    ///
    /// ```
    /// use tambuyeel::{ByteViewArray, Kind};
    /// let column = ByteViewArray::from_offsets(Kind::Binary, &[0, 1, 14], b"ARO-8040-03MAR", None)?;
    /// assert_eq!(column.column().value(1)?, b"RO-8040-03MAR");
    /// assert_eq!(column.column().value(2).unwrap_err().number(), 3);
    /// # Ok::<(), tambuyeel::Error>(())
    /// ```
    pub fn value(&self, row: usize) -> Result<&'a [u8], Error> {
        self.part(ffi::value(&self.lent, row), row)
    }

    /// A row's value as text. Refused with 2, 3, 11, and with 10 where it isn't UTF-8, of a Binary column too.
    ///
    /// ```
    /// use tambuyeel::{ByteViewArray, Error, Kind};
    /// let column = ByteViewArray::from_offsets(Kind::Binary, &[0, 1, 2], b"A\xFF", None)?;
    /// assert_eq!(column.column().value_str(0)?, "A");
    /// assert_eq!(column.column().value_str(1).unwrap_err().number(), Error::NOT_UTF8);
    /// # Ok::<(), Error>(())
    /// ```
    pub fn value_str(&self, row: usize) -> Result<&'a str, Error> {
        std::str::from_utf8(self.value(row)?).map_err(|_| Error::new(Error::NOT_UTF8, row))
    }

    /// The first n bytes of a row's value, none where it has fewer. Refused with 2, 3, 11.
    ///
    /// ```
    /// use tambuyeel::{ByteViewArray, Kind};
    /// let column = ByteViewArray::from_offsets(Kind::Binary, &[0, 13], b"RO-8040-03MAR", None)?;
    /// assert_eq!(column.column().prefix(0, 2)?, b"RO");
    /// assert_eq!(column.column().prefix(0, 14)?, b"");
    /// # Ok::<(), tambuyeel::Error>(())
    /// ```
    pub fn prefix(&self, row: usize, n: usize) -> Result<&'a [u8], Error> {
        self.part(ffi::prefix(&self.lent, row, n), row)
    }

    /// The last n bytes of a row's value, none where it has fewer. Refused with 2, 3, 11.
    ///
    /// ```
    /// use tambuyeel::{ByteViewArray, Kind};
    /// let column = ByteViewArray::from_offsets(Kind::Binary, &[0, 13], b"RO-8040-03MAR", None)?;
    /// assert_eq!(column.column().suffix(0, 3)?, b"MAR");
    /// # Ok::<(), tambuyeel::Error>(())
    /// ```
    pub fn suffix(&self, row: usize, n: usize) -> Result<&'a [u8], Error> {
        self.part(ffi::suffix(&self.lent, row, n), row)
    }

    /// A row's length, as its view says it. Refused with 2, 3.
    ///
    /// ```
    /// use tambuyeel::{ByteViewArray, Kind};
    /// let column = ByteViewArray::from_offsets(Kind::Binary, &[0, 13], b"RO-8040-03MAR", None)?;
    /// assert_eq!(column.column().value_length(0)?, 13);
    /// # Ok::<(), tambuyeel::Error>(())
    /// ```
    pub fn value_length(&self, row: usize) -> Result<usize, Error> {
        number(ffi::length(&self.lent, row))
    }

    /// Whether a row is null. Refused with 2, 3.
    ///
    /// ```
    /// use tambuyeel::{ByteViewArray, Kind};
    /// let column = ByteViewArray::from_offsets(Kind::Binary, &[0, 1, 1], b"A", Some(&[0b01]))?;
    /// assert!(column.column().is_null(1)?);
    /// # Ok::<(), tambuyeel::Error>(())
    /// ```
    pub fn is_null(&self, row: usize) -> Result<bool, Error> {
        Ok(!self.is_valid(row)?)
    }

    /// Whether a row isn't null. Refused with 2, 3.
    ///
    /// ```
    /// use tambuyeel::{ByteViewArray, Kind};
    /// let column = ByteViewArray::from_offsets(Kind::Binary, &[0, 1, 1], b"A", Some(&[0b01]))?;
    /// assert!(column.column().is_valid(0)?);
    /// # Ok::<(), tambuyeel::Error>(())
    /// ```
    pub fn is_valid(&self, row: usize) -> Result<bool, Error> {
        Ok(number(ffi::null_bit(&self.lent, row))? != 0)
    }

    /// The nulls of the column. Refused with 2.
    ///
    /// ```
    /// use tambuyeel::{ByteViewArray, Kind};
    /// let column = ByteViewArray::from_offsets(Kind::Binary, &[0, 1, 1, 1], b"A", Some(&[0b001]))?;
    /// assert_eq!(column.column().null_count()?, 2);
    /// # Ok::<(), tambuyeel::Error>(())
    /// ```
    pub fn null_count(&self) -> Result<usize, Error> {
        self.null_run(0, self.len())
    }

    /// The nulls among `count` rows from `start` on. Refused with 2, 3.
    ///
    /// ```
    /// use tambuyeel::{ByteViewArray, Kind};
    /// let column = ByteViewArray::from_offsets(Kind::Binary, &[0, 1, 1, 1], b"A", Some(&[0b001]))?;
    /// assert_eq!(column.column().null_run(0, 2)?, 1);
    /// # Ok::<(), tambuyeel::Error>(())
    /// ```
    pub fn null_run(&self, start: usize, count: usize) -> Result<usize, Error> {
        number(ffi::null_run(&self.lent, start, count))
    }

    /// `length` rows from `offset` on, over the same buffers. Refused with 2, 3.
    ///
    /// ```
    /// use tambuyeel::{ByteViewArray, Kind};
    /// let column = ByteViewArray::from_offsets(Kind::Binary, &[0, 1, 2, 3], b"ABC", None)?;
    /// let tail = column.column().slice(1, 2)?;
    /// assert_eq!((tail.len(), tail.value(0)?), (2, &b"B"[..]));
    /// # Ok::<(), tambuyeel::Error>(())
    /// ```
    pub fn slice(&self, offset: usize, length: usize) -> Result<Self, Error> {
        let run = ffi::slice(&self.lent, offset, length);
        accepted(run.refused)?;
        Ok(self.with_rows(run.first, run.rows))
    }

    /// The lengths of all rows that aren't null, added up. Refused with 2.
    ///
    /// ```
    /// use tambuyeel::{ByteViewArray, Kind};
    /// let column = ByteViewArray::from_offsets(Kind::Binary, &[0, 1, 14], b"ARO-8040-03MAR", None)?;
    /// assert_eq!(column.column().total_bytes_len()?, 14);
    /// # Ok::<(), tambuyeel::Error>(())
    /// ```
    pub fn total_bytes_len(&self) -> Result<usize, Error> {
        number(ffi::total_bytes_len(&self.lent))
    }

    /// The lengths of all long rows, null ones too, added up: what a compaction takes. Refused with 2.
    ///
    /// ```
    /// use tambuyeel::{ByteViewArray, Kind};
    /// let column = ByteViewArray::from_offsets(Kind::Binary, &[0, 1, 14], b"ARO-8040-03MAR", None)?;
    /// assert_eq!(column.column().total_buffer_bytes_used()?, 13);
    /// # Ok::<(), tambuyeel::Error>(())
    /// ```
    pub fn total_buffer_bytes_used(&self) -> Result<usize, Error> {
        number(ffi::total_buffer_bytes_used(&self.lent))
    }

    /// Whether the column is valid: every view true, every block in the data. Refused with 2, 11 (the lowest bad row), 9.
    ///
    /// ```
    /// use tambuyeel::{Buffers, ByteViewColumn, Kind};
    /// let views = tambuyeel::make_view([0xFF], 0, 0)?;
    /// let buffers = Buffers { views: &views, ..Buffers::default() };
    /// assert!(ByteViewColumn::new(Kind::Binary, buffers).check().is_ok());
    /// assert_eq!(ByteViewColumn::new(Kind::String, buffers).check().unwrap_err().row(), Some(0));
    /// # Ok::<(), tambuyeel::Error>(())
    /// ```
    pub fn check(&self) -> Result<(), Error> {
        let answer = ffi::check(&self.lent);
        told(answer.number, answer.row)
    }

    /// A row's mark under the element code profile. Refused with 2, 3, 11, under a null too.
    ///
    /// ```
    /// use tambuyeel::{ByteViewArray, Kind, Mark};
    /// let column = ByteViewArray::try_from_iter(Kind::Binary, [Some("3MAR"), Some("32MAR"), Some("RO"), None])?;
    /// let marks: Vec<_> = (0..4).map(|row| column.column().mark(row)).collect::<Result<_, _>>()?;
    /// assert_eq!(marks, [Mark::Date, Mark::Code, Mark::Other, Mark::Null]);
    /// # Ok::<(), tambuyeel::Error>(())
    /// ```
    pub fn mark(&self, row: usize) -> Result<Mark, Error> {
        let answer = ffi::mark(&self.lent, row);
        told(answer.refused, row)?;
        Ok(match answer.number {
            0 => Mark::Null,
            1 => Mark::Other,
            2 => Mark::Code,
            _ => Mark::Date,
        })
    }

    /// How many rows have each mark. Refused with 2, 11 (the lowest row whose view isn't reachable).
    ///
    /// ```
    /// use tambuyeel::{ByteViewArray, Kind, Marks};
    /// let column = ByteViewArray::try_from_iter(Kind::Binary, [Some("3MAR"), Some("32MAR"), Some("RO"), None])?;
    /// assert_eq!(column.column().count_marks()?, Marks { nulls: 1, others: 1, codes: 1, dates: 1 });
    /// # Ok::<(), tambuyeel::Error>(())
    /// ```
    pub fn count_marks(&self) -> Result<Marks, Error> {
        let answer = ffi::count_marks(&self.lent);
        told(answer.refused, answer.row)?;
        Ok(Marks { nulls: answer.nulls, others: answer.others, codes: answer.codes, dates: answer.dates })
    }

    /// Row `i` against row `j` of another column by their bytes, null bits ignored. Refused with 2, 3, 11, on the left column first.
    ///
    /// ```
    /// use std::cmp::Ordering;
    /// use tambuyeel::{ByteViewArray, Kind};
    /// let column = ByteViewArray::from_offsets(Kind::Binary, &[0, 1, 3], b"AA\0", None)?;
    /// assert_eq!(column.column().compare(0, &column, 1)?, Ordering::Less);
    /// # Ok::<(), tambuyeel::Error>(())
    /// ```
    pub fn compare<'b>(&self, i: usize, that: impl Into<ByteViewColumn<'b>>, j: usize) -> Result<Ordering, Error> {
        match on_two(ffi::compare(&self.lent, i, &that.into().lent, j), i, j)? {
            0 => Ok(Ordering::Less),
            1 => Ok(Ordering::Equal),
            _ => Ok(Ordering::Greater),
        }
    }

    /// Whether two columns have as many rows and, at each row, equal null bits and equal shown values. Refused with 2, 11, on the left column first.
    ///
    /// ```
    /// use tambuyeel::{ByteViewArray, Kind};
    /// let column = ByteViewArray::from_offsets(Kind::Binary, &[0, 1, 14], b"ARO-8040-03MAR", None)?;
    /// assert!(column.column().same_column(&column.gc()?)?);
    /// assert!(!column.column().same_column(column.slice(0, 1)?)?);
    /// # Ok::<(), tambuyeel::Error>(())
    /// ```
    pub fn same_column<'b>(&self, that: impl Into<ByteViewColumn<'b>>) -> Result<bool, Error> {
        let answer = ffi::same_column(&self.lent, &that.into().lent);
        Ok(on_two(answer.number, answer.row, answer.row)? == 1)
    }

    /// All rows in their order: nulls as `None`. A bad row is an error and the walk goes on; a column that doesn't fit is one error.
    ///
    /// ```
    /// use tambuyeel::{ByteViewArray, Kind};
    /// let column = ByteViewArray::from_offsets(Kind::Binary, &[0, 1, 1], b"A", Some(&[0b01]))?;
    /// let rows: Vec<_> = column.column().iter().collect::<Result<_, _>>()?;
    /// assert_eq!(rows, [Some(&b"A"[..]), None]);
    /// # Ok::<(), tambuyeel::Error>(())
    /// ```
    pub fn iter(&self) -> Iter<'a> {
        Iter { column: *self, at: 0, end: self.len() }
    }

    /// All values in their order, null bits ignored, as arrow-rs's `bytes_iter`.
    ///
    /// ```
    /// use tambuyeel::{ByteViewArray, Kind};
    /// let column = ByteViewArray::from_offsets(Kind::Binary, &[0, 1, 1], b"A", Some(&[0b01]))?;
    /// let values: Vec<_> = column.column().bytes_iter().collect::<Result<_, _>>()?;
    /// assert_eq!(values, [&b"A"[..], b""]);
    /// # Ok::<(), tambuyeel::Error>(())
    /// ```
    pub fn bytes_iter(&self) -> impl Iterator<Item = Result<&'a [u8], Error>> {
        let column = *self;
        let end = if column.fits() { column.len() } else { column.len().min(1) };
        (0..end).map(move |row| column.value(row))
    }

    /// The rows over new buffers that hold what they point at and no more, in one block. Refused with 2, 11, 7.
    ///
    /// ```
    /// use tambuyeel::{ByteViewArray, Kind};
    /// let column = ByteViewArray::from_offsets(Kind::Binary, &[0, 13, 26], b"RO-8040-03MARRO-8040-03MAY", None)?;
    /// let last = column.slice(1, 1)?.gc()?;
    /// assert_eq!(last.column().buffers().bytes, b"RO-8040-03MAY");
    /// # Ok::<(), tambuyeel::Error>(())
    /// ```
    pub fn gc(&self) -> Result<ByteViewArray, Error> {
        self.gc_with_max_buffer_size(i32::MAX as usize)
    }

    /// The same over blocks of at most `most` bytes, unless one row alone points into a block. Refused with 1, 2, 11, 6, 7.
    ///
    /// ```
    /// use tambuyeel::{ByteViewArray, Kind};
    /// let column = ByteViewArray::from_offsets(Kind::Binary, &[0, 13, 26], b"RO-8040-03MARRO-8040-03MAY", None)?;
    /// assert_eq!(column.column().gc_with_max_buffer_size(26)?.num_blocks(), 1);
    /// assert_eq!(column.column().gc_with_max_buffer_size(25)?.num_blocks(), 2);
    /// # Ok::<(), tambuyeel::Error>(())
    /// ```
    pub fn gc_with_max_buffer_size(&self, most: usize) -> Result<ByteViewArray, Error> {
        // Room for the rows and bytes that an accepted compaction writes; a column that doesn't fit its buffers gets none and is refused.
        let bytes = self.total_buffer_bytes_used().unwrap_or(0);
        let rows = if self.fits() { self.len() } else { 0 };
        let mut out = ByteViewArray::with_room(rows, (rows + 1).min(MAX_BLOCKS), bytes.min(MAX_BYTES));
        let answer = out.written(|room, numbers| ffi::compact(&self.lent, most, room, numbers));
        told(answer.number, answer.row)?;
        Ok(out.cut())
    }
}

impl fmt::Debug for ByteViewColumn<'_> {
    fn fmt(&self, f: &mut fmt::Formatter<'_>) -> fmt::Result {
        f.debug_list().entries(self.iter()).finish()
    }
}

impl<'a> IntoIterator for ByteViewColumn<'a> {
    type Item = Result<Option<&'a [u8]>, Error>;
    type IntoIter = Iter<'a>;

    fn into_iter(self) -> Iter<'a> {
        self.iter()
    }
}

/// The rows of a column in their order. See [`ByteViewColumn::iter`].
#[derive(Clone)]
pub struct Iter<'a> {
    column: ByteViewColumn<'a>,
    at: usize,
    end: usize,
}

impl<'a> Iter<'a> {
    fn row(&self, row: usize) -> Result<Option<&'a [u8]>, Error> {
        if self.column.is_null(row)? {
            return Ok(None);
        }
        self.column.value(row).map(Some)
    }
}

impl<'a> Iterator for Iter<'a> {
    type Item = Result<Option<&'a [u8]>, Error>;

    fn next(&mut self) -> Option<Self::Item> {
        if self.at >= self.end {
            return None;
        }
        let row = self.row(self.at);
        self.at += 1;
        if row.is_err_and(|e| e.number() == Error::NUMBERS) {
            self.end = self.at;
        }
        Some(row)
    }

    fn size_hint(&self) -> (usize, Option<usize>) {
        let left = self.end - self.at;
        (left.min(1), Some(left))
    }
}

impl std::iter::FusedIterator for Iter<'_> {}
