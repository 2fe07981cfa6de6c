//! The second anchor: value and comparison in safe Rust that tests reach as document 01 asks, every slice by `get`. What can't be read is `None`.

use crate::Lent;
use std::cmp::Ordering;

const LIMIT: usize = 16_777_216;
const SHORT: usize = 12;

fn view(l: &Lent, row: usize) -> Option<&[u8; 16]> {
    let [first, rows, ..] = l.column;
    if row >= rows {
        return None;
    }
    let at = 16 * (first + row);
    l.views.get(at..at + 16)?.try_into().ok()
}

fn word(view: &[u8; 16], at: usize) -> Option<usize> {
    let bytes = view.get(at..at + 4)?.try_into().ok()?;
    Some(u32::from_le_bytes(bytes) as usize)
}

/// The view, the block's record, the block within the data, the range within the block.
fn shown<'a>(l: &'a Lent, view: &'a [u8; 16]) -> Option<&'a [u8]> {
    let len = word(view, 0)?;
    if len <= SHORT {
        return view.get(4..4 + len);
    }
    let (block, offset) = (word(view, 8)?, word(view, 12)?);
    if block >= l.column[2] {
        return None;
    }
    let (start, size) = (*l.starts.get(block)?, *l.lens.get(block)?);
    let data = l.bytes.get(..LIMIT.min(l.bytes.len()))?;
    data.get(start..)?.get(..size)?.get(offset..)?.get(..len)
}

pub fn value(l: &Lent, row: usize) -> Option<&[u8]> {
    shown(l, view(l, row)?)
}

/// Two short values by their twelve bytes, then by length; otherwise four bytes, then whole values. Both rows have to be readable.
pub fn compare(l: &Lent, i: usize, j: usize) -> Option<Ordering> {
    let (a, b) = (view(l, i)?, view(l, j)?);
    let (x, y) = (shown(l, a)?, shown(l, b)?);
    if x.len() <= SHORT && y.len() <= SHORT {
        return Some(a[4..].cmp(&b[4..]).then(x.len().cmp(&y.len())));
    }
    Some(a[4..8].cmp(&b[4..8]).then_with(|| x.cmp(y)))
}

#[inline(never)]
pub fn read_all(l: &Lent) -> u64 {
    let mut sum = 0u64;
    for row in 0..l.column[1] {
        if let Some(v) = value(l, row)
            && let Some(first) = v.first()
        {
            sum = sum.wrapping_add(v.len() as u64 + *first as u64);
        }
    }
    sum
}

#[inline(never)]
pub fn count_less(l: &Lent) -> u64 {
    (1..l.column[1]).map(|row| (compare(l, row - 1, row) == Some(Ordering::Less)) as u64).sum()
}
