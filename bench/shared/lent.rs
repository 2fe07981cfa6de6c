//! A module of each driver that lends columns. A column as it is lent to the static libraries: a slice crosses as its pointer and its count of elements,
//! a column as the pointer to its five numbers.

use arrow_array::types::ByteViewType;
use arrow_array::{Array, GenericByteViewArray};
use model::{Column, Kind, Rooms};
use oracle::script::Raw;

/// An answer, and the row that refusal 11 names.
#[repr(C)]
#[derive(Clone, Copy, Debug, Default, PartialEq, Eq)]
pub struct Told {
    pub number: u64,
    pub row: usize,
}

/// A part of a buffer: 0 of the views, 1 of the data.
#[repr(C)]
#[derive(Clone, Copy, Debug, Default, PartialEq, Eq)]
pub struct Place {
    pub refused: u64,
    pub buffer: u64,
    pub offset: usize,
    pub len: usize,
}

#[repr(C)]
#[derive(Clone, Copy, Debug, Default, PartialEq, Eq)]
pub struct Counted {
    pub refused: u64,
    pub number: usize,
}

#[repr(C)]
#[derive(Clone, Copy, Debug, Default, PartialEq, Eq)]
pub struct Run {
    pub refused: u64,
    pub first: usize,
    pub rows: usize,
}

/// A column's buffers, or the room for one, and its five numbers.
#[derive(Clone, Debug, PartialEq, Eq)]
pub struct Lent {
    pub views: Vec<u8>,
    pub bytes: Vec<u8>,
    pub starts: Vec<usize>,
    pub lens: Vec<usize>,
    pub nulls: Vec<u8>,
    pub column: [usize; 5],
}

pub fn kind_number(kind: Kind) -> usize {
    (kind == Kind::String) as usize
}

/// A column's five numbers.
pub fn numbers(c: &Column) -> [usize; 5] {
    [c.first as usize, c.rows as usize, c.blocks as usize, kind_number(c.kind), c.mapped as usize]
}

/// Starts and lengths of blocks. Numbers have 64 bits on both sides.
fn table(blocks: &[(u64, u64)]) -> (Vec<usize>, Vec<usize>) {
    blocks.iter().map(|b| (b.0 as usize, b.1 as usize)).unzip()
}

impl Lent {
    /// A column spelled out.
    pub fn of_raw(raw: &Raw) -> Self {
        let (starts, lens) = table(&raw.table);
        Lent { views: raw.views.clone(), bytes: raw.data.clone(), starts, lens, nulls: raw.map.clone(), column: numbers(&raw.column) }
    }

    /// The model's buffers, with the numbers that stand in a column.
    pub fn of_rooms(rooms: &Rooms, column: [usize; 5]) -> Self {
        let (starts, lens) = table(&rooms.table);
        Lent { views: rooms.views.clone(), bytes: rooms.data.clone(), starts, lens, nulls: rooms.map.clone(), column }
    }

    /// The original's column, its buffers one after the other.
    pub fn of_array<T: ByteViewType + ?Sized>(array: &GenericByteViewArray<T>, text: bool) -> Self {
        let (mut bytes, mut starts, mut lens) = (vec![], vec![], vec![]);
        for b in array.data_buffers().iter() {
            starts.push(bytes.len());
            lens.push(b.len());
            bytes.extend_from_slice(b);
        }
        let mut nulls = vec![0; array.len().div_ceil(8)];
        for row in (0..array.len()).filter(|row| array.is_valid(*row)) {
            nulls[row / 8] |= 1 << (row % 8);
        }
        let mapped = array.nulls().is_some();
        let column = [0, array.len(), starts.len(), text as usize, mapped as usize];
        let views = array.views().iter().flat_map(|v| v.to_le_bytes()).collect();
        Lent { views, bytes, starts, lens, nulls, column }
    }

    /// Zeroed room for this many rows, bytes and blocks.
    pub fn room(rows: usize, bytes: usize, blocks: usize) -> Self {
        let (views, nulls) = (vec![0; 16 * rows], vec![0; rows.div_ceil(8)]);
        Lent { views, bytes: vec![0; bytes], starts: vec![0; blocks], lens: vec![0; blocks], nulls, column: [0; 5] }
    }
}

/// A call with a column's slices, or two columns': what comes before them and what comes after them in brackets.
#[allow(unused_macros)]
macro_rules! lent {
    ($call:ident($($before:expr),*), $l:expr, ($($after:expr),*) $(, $r:expr, ($($last:expr),*))?) => {
        unsafe {
            $call(
                $($before,)*
                $l.views.as_ptr(), $l.views.len(), $l.bytes.as_ptr(), $l.bytes.len(),
                $l.starts.as_ptr(), $l.starts.len(), $l.lens.as_ptr(), $l.lens.len(),
                $l.nulls.as_ptr(), $l.nulls.len(), $l.column.as_ptr(),
                $($after,)*
                $($r.views.as_ptr(), $r.views.len(), $r.bytes.as_ptr(), $r.bytes.len(),
                $r.starts.as_ptr(), $r.starts.len(), $r.lens.as_ptr(), $r.lens.len(),
                $r.nulls.as_ptr(), $r.nulls.len(), $r.column.as_ptr(),
                $($last,)*)?
            )
        }
    };
}

#[allow(unused_imports)]
pub(crate) use lent;
