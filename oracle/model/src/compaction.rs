//! Module 7: compaction. Long values copied in row order, once per row, into new blocks.

use crate::builder::Rooms;
use crate::column::{Column, Lent, all_true, bit, block_room, fits, reached, row_room};
use crate::nulls::put_bit;
use crate::view::{is_long, length_of, moved, view_at};
use crate::{MAX_MAXIMUM, Refusal, refuse};

/// The lengths of the new blocks, and for each row its block and offset (of a long one).
fn walk(lent: &Lent, c: &Column, maximum: u64) -> (Vec<u64>, Vec<Option<(u64, u64)>>) {
    let mut blocks: Vec<u64> = vec![];
    let mut places = vec![];
    for row in 0..c.rows {
        let view = view_at(lent.views, c.first + row);
        if !is_long(&view) {
            places.push(None);
            continue;
        }
        if blocks.is_empty() {
            blocks.push(0);
        }
        let len = length_of(&view);
        if blocks[blocks.len() - 1] + len > maximum {
            blocks.push(0);
        }
        let last = blocks.len() - 1;
        places.push(Some((last as u64, blocks[last])));
        blocks[last] += len;
    }
    (blocks, places)
}

/// Compaction at a maximum: 1, 2, 11, 5, 6, 7. Answers the column over the new buffers, whose merge table isn't used.
pub fn compact(
    lent: &Lent,
    c: &Column,
    maximum: u64,
    rooms: &mut Rooms,
) -> Result<Column, Refusal> {
    refuse(maximum > MAX_MAXIMUM, 1)?;
    fits(lent, c)?;
    all_true(lent, c, c.kind)?;
    let map = c.mapped.then_some(rooms.map.len() as u64);
    refuse(c.rows > row_room(&rooms.views, map, None), 5)?;
    let (blocks, places) = walk(lent, c, maximum);
    refuse(blocks.len() as u64 > block_room(&rooms.table), 6)?;
    refuse(blocks.iter().sum::<u64>() > rooms.data_room(), 7)?;

    let mut start = 0;
    for (k, len) in blocks.iter().enumerate() {
        rooms.table[k] = (start, *len);
        start += len;
    }
    for row in 0..c.rows {
        let view = view_at(lent.views, c.first + row);
        let view = match places[row as usize] {
            None => view,
            Some((block, offset)) => {
                let value = reached(lent, c, row)?.of(lent.views, lent.data);
                rooms.put_data(rooms.table[block as usize].0 + offset, value);
                moved(&view, block, offset)
            }
        };
        rooms.put_view(row, view);
        if c.mapped {
            put_bit(&mut rooms.map, row, bit(lent, c, row));
        }
    }
    Ok(Column {
        first: 0,
        rows: c.rows,
        blocks: blocks.len() as u64,
        ..*c
    })
}
