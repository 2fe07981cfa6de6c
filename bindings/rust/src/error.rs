//! Refusals: a number, the row that it names, and of two columns which.

use std::fmt;

/// Which of two columns a refusal is of.
#[derive(Clone, Copy, Debug, PartialEq, Eq)]
pub enum Side {
    /// The column that was asked.
    Left,
    /// The other one.
    Right,
}

/// A refused call. Everything that was lent to it holds what it held before.
///
/// ```
/// use tambuyeel::{ByteViewBuilder, Kind};
///
/// let mut codes = ByteViewBuilder::new(Kind::String);
/// codes.append_value("A")?;
/// let e = codes.get_value(7).unwrap_err();
/// assert_eq!((e.number(), e.row(), e.side()), (3, None, None));
/// assert_eq!(e.to_string(), "refused with 3: there is no such row");
/// # Ok::<(), tambuyeel::Error>(())
/// ```
#[derive(Clone, Copy, Debug, PartialEq, Eq)]
pub struct Error {
    number: u64,
    row: Option<usize>,
    side: Option<Side>,
}

impl Error {
    /// A refusal by its number; `row` is kept where the number names one.
    pub(crate) fn new(number: u64, row: usize) -> Self {
        let row = (number == Self::VIEW).then_some(row);
        Error { number, row, side: None }
    }

    pub(crate) fn on(self, side: Side) -> Self {
        Error { side: Some(side), ..self }
    }

    /// Block size not 1 to 16,777,216, merge maximum 0, or compaction maximum above 2^31 - 1.
    pub const SETTING: u64 = 1;
    /// The numbers of a column don't fit its buffers or the limits.
    pub const NUMBERS: u64 = 2;
    /// Row, or slice end, past the rows.
    pub const ROW: u64 = 3;
    /// Value or block above 16,777,216 bytes.
    pub const TOO_LONG: u64 = 4;
    /// Too little row room.
    pub const ROW_ROOM: u64 = 5;
    /// Too little block room.
    pub const BLOCK_ROOM: u64 = 6;
    /// Too little data room.
    pub const DATA_ROOM: u64 = 7;
    /// No completed block of that number.
    pub const NO_BLOCK: u64 = 8;
    /// Range outside the block, or the block outside the data.
    pub const RANGE: u64 = 9;
    /// Not UTF-8, String kind only.
    pub const NOT_UTF8: u64 = 10;
    /// A view that isn't reachable, or isn't true.
    pub const VIEW: u64 = 11;
    /// Offsets absent, negative, falling, or past the bytes.
    pub const OFFSETS: u64 = 13;

    /// The refusal's number, one of the constants above.
    ///
    /// ```
    /// use tambuyeel::{ByteViewBuilder, Error, Kind};
    /// let e = ByteViewBuilder::new(Kind::Binary).with_fixed_block_size(0).unwrap_err();
    /// assert_eq!(e.number(), Error::SETTING);
    /// ```
    pub fn number(&self) -> u64 {
        self.number
    }

    /// With 11 the row, counted from the column's first.
    ///
    /// ```
    /// use tambuyeel::{Buffers, ByteViewColumn, Kind};
    /// let views = [[0; 16], [200; 16]].concat();
    /// let column = ByteViewColumn::new(Kind::Binary, Buffers { views: &views, ..Buffers::default() });
    /// assert_eq!(column.check().unwrap_err().row(), Some(1));
    /// ```
    pub fn row(&self) -> Option<usize> {
        self.row
    }

    /// Of two columns, which one is refused.
    ///
    /// ```
    /// use tambuyeel::{Buffers, ByteViewColumn, Kind, Side};
    /// let column = ByteViewColumn::new(Kind::Binary, Buffers { views: &[0; 32], ..Buffers::default() });
    /// assert_eq!(column.compare(1, column, 2).unwrap_err().side(), Some(Side::Right));
    /// ```
    pub fn side(&self) -> Option<Side> {
        self.side
    }

    fn words(&self) -> &'static str {
        match self.number {
            1 => "a setting is out of its range",
            2 => "the numbers don't fit the buffers that were lent with them",
            3 => "there is no such row",
            4 => "longer than 16,777,216 bytes",
            5 => "no room for the rows",
            6 => "no room for the blocks",
            7 => "no room for the bytes",
            8 => "there is no completed block of that number",
            9 => "outside its block, or the block outside the data",
            10 => "not UTF-8",
            11 => "a view that points outside its block or disagrees with its value",
            13 => "offsets that are missing, negative, falling or past the bytes",
            _ => "refused",
        }
    }
}

impl fmt::Display for Error {
    fn fmt(&self, f: &mut fmt::Formatter<'_>) -> fmt::Result {
        write!(f, "refused with {}: {}", self.number, self.words())?;
        if let Some(row) = self.row {
            write!(f, ", at row {row}")?;
        }
        match self.side {
            Some(Side::Left) => write!(f, ", in the left column"),
            Some(Side::Right) => write!(f, ", in the right column"),
            None => Ok(()),
        }
    }
}

impl std::error::Error for Error {}
