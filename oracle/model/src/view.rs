//! Module 2: view records, reachable and true.

use crate::column::Lent;
use crate::utf8::is_utf8;
use crate::{Buffer, Kind, MAX_BYTES, MAX_SHORT, Part, Refusal, VIEW, refuse};

/// The sixteen bytes of a view.
pub type View = [u8; 16];

fn number(view: &View, at: usize) -> u64 {
    u32::from_le_bytes([view[at], view[at + 1], view[at + 2], view[at + 3]]) as u64
}

/// Bytes 0..4.
pub fn length_of(view: &View) -> u64 {
    number(view, 0)
}

pub fn is_long(view: &View) -> bool {
    length_of(view) > MAX_SHORT
}

/// Bytes 8..12 of a long view.
pub fn block_of(view: &View) -> u64 {
    number(view, 8)
}

/// Bytes 12..16 of a long view.
pub fn offset_of(view: &View) -> u64 {
    number(view, 12)
}

/// The view of row r of the views.
pub fn view_at(views: &[u8], r: u64) -> View {
    let at = (r * VIEW) as usize;
    views[at..at + 16].try_into().unwrap()
}

/// The view of a value: the value itself if it is short, else its first four bytes, the block and the offset.
pub fn make_view(value: &[u8], block: u32, offset: u32) -> Result<View, Refusal> {
    refuse(value.len() as u64 > MAX_BYTES, 4)?;
    let mut view = [0; 16];
    view[..4].copy_from_slice(&(value.len() as u32).to_le_bytes());
    if value.len() as u64 <= MAX_SHORT {
        view[4..4 + value.len()].copy_from_slice(value);
    } else {
        view[4..8].copy_from_slice(&value[..4]);
        view[8..12].copy_from_slice(&block.to_le_bytes());
        view[12..16].copy_from_slice(&offset.to_le_bytes());
    }
    Ok(view)
}

/// The view with another block number and offset.
pub fn moved(view: &View, block: u64, offset: u64) -> View {
    let mut new = *view;
    new[8..12].copy_from_slice(&(block as u32).to_le_bytes());
    new[12..16].copy_from_slice(&(offset as u32).to_le_bytes());
    new
}

/// Whether a block lies in the data.
pub fn in_data(block: (u64, u64), data: &[u8]) -> bool {
    block.0 as u128 + block.1 as u128 <= (data.len() as u64).min(MAX_BYTES) as u128
}

/// Where the value of row r lies, if its view is reachable. `blocks` are those that there are.
pub fn reach(lent: &Lent, blocks: &[(u64, u64)], r: u64) -> Option<Part> {
    let view = view_at(lent.views, r);
    if !is_long(&view) {
        return Some(Part {
            buffer: Buffer::Views,
            at: r * VIEW + 4,
            len: length_of(&view),
        });
    }
    let block = *blocks.get(block_of(&view) as usize)?;
    let inside = offset_of(&view) + length_of(&view) <= block.1;
    if in_data(block, lent.data) && inside {
        Some(Part {
            buffer: Buffer::Data,
            at: block.0 + offset_of(&view),
            len: length_of(&view),
        })
    } else {
        None
    }
}

/// Whether the view of row r is true.
pub fn is_true(lent: &Lent, blocks: &[(u64, u64)], kind: Kind, r: u64) -> bool {
    let Some(part) = reach(lent, blocks, r) else {
        return false;
    };
    let view = view_at(lent.views, r);
    let value = part.of(lent.views, lent.data);
    let shaped = if is_long(&view) {
        view[4..8] == value[..4]
    } else {
        view[4 + value.len()..].iter().all(|b| *b == 0)
    };
    shaped && (kind == Kind::Binary || is_utf8(value))
}
