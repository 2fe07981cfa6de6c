//! Module 8: a column from 32-bit signed offsets.

use crate::builder::Rooms;
use crate::column::{Column, block_room, row_room};
use crate::nulls::{is_valid, put_bit};
use crate::utf8::is_utf8;
use crate::view::make_view;
use crate::{Kind, Refusal, refuse};

/// The bytes of a row, the offsets being lawful.
fn row_bytes<'a>(offsets: &[i32], bytes: &'a [u8], row: u64) -> &'a [u8] {
    &bytes[offsets[row as usize] as usize..offsets[row as usize + 1] as usize]
}

/// 13: none, one negative, one below the one before it, or one past the bytes.
fn lawful(offsets: &[i32], bytes: &[u8]) -> bool {
    let inside = |o: &i32| 0 <= *o && *o as usize <= bytes.len();
    !offsets.is_empty() && offsets.iter().all(inside) && offsets.windows(2).all(|w| w[0] <= w[1])
}

/// From offsets: 2, 13, 10, 5, 6, 7. Answers the column over the new buffers, whose merge table isn't used.
pub fn from_offsets(
    kind: Kind,
    offsets: &[i32],
    bytes: &[u8],
    map: Option<&[u8]>,
    rooms: &mut Rooms,
) -> Result<Column, Refusal> {
    let rows = (offsets.len() as u64).saturating_sub(1);
    refuse(map.is_some_and(|m| (m.len() as u64) * 8 < rows), 2)?;
    refuse(!lawful(offsets, bytes), 13)?;
    let valid = |row: u64| map.is_none_or(|m| is_valid(m, row));
    let text = |row: u64| !valid(row) || is_utf8(row_bytes(offsets, bytes, row));
    refuse(kind == Kind::String && !(0..rows).all(text), 10)?;
    refuse(
        rows > row_room(&rooms.views, Some(rooms.map.len() as u64), None),
        5,
    )?;
    refuse(block_room(&rooms.table) < 1, 6)?;
    refuse(bytes.len() as u64 > rooms.data_room(), 7)?;

    rooms.put_data(0, bytes);
    rooms.table[0] = (0, bytes.len() as u64);
    for row in 0..rows {
        let view = if valid(row) {
            make_view(
                row_bytes(offsets, bytes, row),
                0,
                offsets[row as usize] as u32,
            )?
        } else {
            [0; 16]
        };
        rooms.put_view(row, view);
        put_bit(&mut rooms.map, row, valid(row));
    }
    Ok(Column {
        first: 0,
        rows,
        blocks: 1,
        kind,
        mapped: !(0..rows).all(valid),
    })
}
