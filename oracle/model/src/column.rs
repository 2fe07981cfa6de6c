//! Columns over lent buffers. Module 3: reading. The validity check.

use crate::nulls::{count_nulls, is_valid};
use crate::view::{in_data, is_long, is_true, length_of, reach, view_at};
use crate::{Kind, MAX_BLOCKS, MAX_ROWS, Part, Refusal, VIEW, refuse, sum_above};

/// A column's numbers.
#[derive(Clone, Copy, Debug, PartialEq, Eq)]
pub struct Column {
    pub first: u64,
    pub rows: u64,
    pub blocks: u64,
    pub kind: Kind,
    pub mapped: bool,
}

/// The buffers lent with a column. The table's records are a block's start and length.
#[derive(Clone, Copy, Debug)]
pub struct Lent<'a> {
    pub views: &'a [u8],
    pub data: &'a [u8],
    pub table: &'a [(u64, u64)],
    pub map: &'a [u8],
}

/// The rows that there is room for. `map` and `merge` are lengths, where they count.
pub fn row_room(views: &[u8], map: Option<u64>, merge: Option<u64>) -> u64 {
    let mut room = MAX_ROWS.min(views.len() as u64 / VIEW);
    if let Some(bytes) = map {
        room = room.min(bytes * 8);
    }
    room.min(merge.unwrap_or(u64::MAX))
}

/// The blocks that there is room for.
pub fn block_room(table: &[(u64, u64)]) -> u64 {
    MAX_BLOCKS.min(table.len() as u64)
}

fn room_of(lent: &Lent, c: &Column) -> u64 {
    let map = c.mapped.then_some(lent.map.len() as u64);
    row_room(lent.views, map, None)
}

/// 2: the numbers don't fit.
pub fn fits(lent: &Lent, c: &Column) -> Result<(), Refusal> {
    let rows = sum_above(c.first, c.rows, room_of(lent, c));
    refuse(rows || c.blocks > block_room(lent.table), 2)
}

/// 2, then 3: the row is past the rows.
fn fits_row(lent: &Lent, c: &Column, row: u64) -> Result<(), Refusal> {
    fits(lent, c)?;
    refuse(row >= c.rows, 3)
}

/// 2, then 3: start + count is past the rows.
fn fits_run(lent: &Lent, c: &Column, start: u64, count: u64) -> Result<(), Refusal> {
    fits(lent, c)?;
    refuse(sum_above(start, count, c.rows), 3)
}

/// The blocks of a column that fits.
pub fn blocks_of<'a>(lent: &Lent<'a>, c: &Column) -> &'a [(u64, u64)] {
    &lent.table[..c.blocks as usize]
}

/// 11 with the row, if its view isn't reachable; else where its value lies.
pub fn reached(lent: &Lent, c: &Column, row: u64) -> Result<Part, Refusal> {
    reach(lent, blocks_of(lent, c), c.first + row).ok_or(Refusal::at_row(11, row))
}

/// 11 with the lowest row whose view isn't true, judged by this kind.
pub fn all_true(lent: &Lent, c: &Column, kind: Kind) -> Result<(), Refusal> {
    for row in 0..c.rows {
        if !is_true(lent, blocks_of(lent, c), kind, c.first + row) {
            return Err(Refusal::at_row(11, row));
        }
    }
    Ok(())
}

/// 9: a block outside the data.
pub fn all_in_data(lent: &Lent, c: &Column) -> Result<(), Refusal> {
    let outside = blocks_of(lent, c).iter().any(|b| !in_data(*b, lent.data));
    refuse(outside, 9)
}

/// The null bit of a row of a column that fits: true is valid.
pub fn bit(lent: &Lent, c: &Column, row: u64) -> bool {
    !c.mapped || is_valid(lent.map, c.first + row)
}

/// A row's value, the null bit ignored.
pub fn value(lent: &Lent, c: &Column, row: u64) -> Result<Part, Refusal> {
    fits_row(lent, c, row)?;
    reached(lent, c, row)
}

/// The first n bytes of a row's value, none if it is shorter.
pub fn prefix(lent: &Lent, c: &Column, row: u64, n: u64) -> Result<Part, Refusal> {
    let part = value(lent, c, row)?;
    let len = if n <= part.len { n } else { 0 };
    Ok(Part { len, ..part })
}

/// The last n bytes of a row's value, none if it is shorter.
pub fn suffix(lent: &Lent, c: &Column, row: u64, n: u64) -> Result<Part, Refusal> {
    let part = value(lent, c, row)?;
    let len = if n <= part.len { n } else { 0 };
    let at = part.at + part.len - len;
    Ok(Part { at, len, ..part })
}

/// One call of the row walk: the value at its place, and the place afterwards, which moves only if there was one.
pub fn walk(lent: &Lent, c: &Column, place: u64) -> (Result<Part, Refusal>, u64) {
    let part = value(lent, c, place);
    let next = if part.is_ok() { place + 1 } else { place };
    (part, next)
}

/// A row's length, as its view says it.
pub fn length(lent: &Lent, c: &Column, row: u64) -> Result<u64, Refusal> {
    fits_row(lent, c, row)?;
    Ok(length_of(&view_at(lent.views, c.first + row)))
}

/// A row's null bit: true is valid.
pub fn null_bit(lent: &Lent, c: &Column, row: u64) -> Result<bool, Refusal> {
    fits_row(lent, c, row)?;
    Ok(bit(lent, c, row))
}

/// The nulls among `count` rows from `start` on.
pub fn null_run(lent: &Lent, c: &Column, start: u64, count: u64) -> Result<u64, Refusal> {
    fits_run(lent, c, start, count)?;
    Ok(if c.mapped {
        count_nulls(lent.map, c.first + start, count)
    } else {
        0
    })
}

/// The column of `count` rows from `start` on, over the same buffers.
pub fn slice(lent: &Lent, c: &Column, start: u64, count: u64) -> Result<Column, Refusal> {
    fits_run(lent, c, start, count)?;
    Ok(Column {
        first: c.first + start,
        rows: count,
        ..*c
    })
}

/// The sum of the lengths of all valid rows.
pub fn total_bytes_len(lent: &Lent, c: &Column) -> Result<u64, Refusal> {
    fits(lent, c)?;
    let valid = (0..c.rows).filter(|row| bit(lent, c, *row));
    Ok(valid
        .map(|row| length_of(&view_at(lent.views, c.first + row)))
        .sum())
}

/// The sum of the lengths of all long rows, null ones too.
pub fn total_buffer_bytes_used(lent: &Lent, c: &Column) -> Result<u64, Refusal> {
    fits(lent, c)?;
    let views = (0..c.rows).map(|row| view_at(lent.views, c.first + row));
    Ok(views.filter(is_long).map(|view| length_of(&view)).sum())
}

/// The validity check: every view true, every block in the data.
pub fn check(lent: &Lent, c: &Column) -> Result<(), Refusal> {
    fits(lent, c)?;
    all_true(lent, c, c.kind)?;
    all_in_data(lent, c)
}
