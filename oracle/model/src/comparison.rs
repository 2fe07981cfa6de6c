//! Module 4: comparison of two rows, and the same-column question.

use crate::column::{Column, Lent, bit, fits, reached};
use crate::view::{View, is_long, length_of, view_at};
use crate::{Refusal, Side, refuse};

/// What a comparison answers.
#[derive(Clone, Copy, Debug, PartialEq, Eq)]
pub enum Order {
    Less,
    Equal,
    Greater,
}

/// Bytes from the left, the first that differ decide; one that ends first is less.
pub fn byte_order(a: &[u8], b: &[u8]) -> Order {
    for i in 0..a.len().min(b.len()) {
        if a[i] != b[i] {
            return number_order(a[i] as u64, b[i] as u64);
        }
    }
    number_order(a.len() as u64, b.len() as u64)
}

fn number_order(a: u64, b: u64) -> Order {
    if a < b {
        Order::Less
    } else if a == b {
        Order::Equal
    } else {
        Order::Greater
    }
}

/// Two short values: their twelve bytes, then their lengths.
fn short_order(a: &View, b: &View) -> Order {
    match byte_order(&a[4..], &b[4..]) {
        Order::Equal => number_order(length_of(a), length_of(b)),
        other => other,
    }
}

/// The comparison of two rows, null bits ignored.
pub fn compare(
    left: &Lent,
    lc: &Column,
    i: u64,
    right: &Lent,
    rc: &Column,
    j: u64,
) -> Result<Order, Refusal> {
    fits(left, lc)?;
    fits(right, rc)?;
    refuse(i >= lc.rows, 3)?;
    refuse(j >= rc.rows, 3)?;
    let a = reached(left, lc, i).map_err(|r| r.of(Side::Left))?;
    let b = reached(right, rc, j).map_err(|r| r.of(Side::Right))?;
    let va = view_at(left.views, lc.first + i);
    let vb = view_at(right.views, rc.first + j);
    if !is_long(&va) && !is_long(&vb) {
        return Ok(short_order(&va, &vb));
    }
    Ok(match byte_order(&va[4..8], &vb[4..8]) {
        Order::Equal => byte_order(a.of(left.views, left.data), b.of(right.views, right.data)),
        other => other,
    })
}

/// Every row of the column reachable.
fn all_reached(lent: &Lent, c: &Column, side: Side) -> Result<(), Refusal> {
    for row in 0..c.rows {
        reached(lent, c, row).map_err(|r| r.of(side))?;
    }
    Ok(())
}

/// Whether row counts are equal and, at each row, null bits and shown values.
pub fn same_column(left: &Lent, lc: &Column, right: &Lent, rc: &Column) -> Result<bool, Refusal> {
    fits(left, lc)?;
    fits(right, rc)?;
    all_reached(left, lc, Side::Left)?;
    all_reached(right, rc, Side::Right)?;
    if lc.rows != rc.rows {
        return Ok(false);
    }
    for row in 0..lc.rows {
        let a = reached(left, lc, row)?;
        let b = reached(right, rc, row)?;
        let values = a.of(left.views, left.data) == b.of(right.views, right.data);
        if !values || bit(left, lc, row) != bit(right, rc, row) {
            return Ok(false);
        }
    }
    Ok(true)
}
