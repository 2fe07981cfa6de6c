//! Times of reading, comparison, totals and the check, ours beside the original's, on the same columns, and value and comparison also beside safe Rust that
//! makes the same tests (src/safe.rs). A batch is one call on each side, rounds alternate, and every batch's answer is held against the other's before it
//! is timed. Prints the ratio of the best times, the median of the ratios of neighbouring rounds (below 1: ours is faster), the target, the same beside safe
//! Rust, the best times for one row, and the cost of twice as many rows. Sides: 0 ours, 1 the original's, 2 safe Rust.

use arrow_array::builder::GenericByteViewBuilder;
use arrow_array::types::{BinaryViewType, StringViewType};
use arrow_array::{Array, BinaryViewArray, GenericByteViewArray, StringViewArray};
use arrow_data::{validate_binary_view, validate_string_view};
use oracle::random::Random;
use reading::timing::{Ask, aim, seconds};
use reading::{Lent, safe};
use std::cmp::Ordering;

const ROUNDS: usize = 401;
/// The most that ours may take of what safe Rust takes.
const OF_SAFE: f64 = 0.8;
const ROWS: [usize; 3] = [1_000, 16_000, 32_000];

/// The original's batches.
mod original {
    use super::*;

    #[inline(never)]
    pub fn read_all(a: &BinaryViewArray) -> u64 {
        let mut sum = 0u64;
        for row in 0..a.len() {
            let v = a.value(row);
            if !v.is_empty() {
                sum = sum.wrapping_add(v.len() as u64 + v[0] as u64);
            }
        }
        sum
    }

    #[inline(never)]
    pub fn count_less(a: &BinaryViewArray) -> u64 {
        let mut n = 0;
        for row in 1..a.len() {
            // SAFETY: both rows are there.
            let order = unsafe { GenericByteViewArray::compare_unchecked(a, row - 1, a, row) };
            n += (order == Ordering::Less) as u64;
        }
        n
    }

    #[inline(never)]
    pub fn check_binary(a: &BinaryViewArray) -> u64 {
        validate_binary_view(a.views(), a.data_buffers()).is_err() as u64
    }

    #[inline(never)]
    pub fn check_string(a: &StringViewArray) -> u64 {
        validate_string_view(a.views(), a.data_buffers()).is_err() as u64
    }
}

type Batch<'a> = &'a mut dyn FnMut() -> u64;

/// Times the batches in turn, prints the row, and answers our best time for one.
fn row(ask: &Ask, name: &str, target: f64, rows: usize, ours: Batch, theirs: Batch) -> f64 {
    assert_eq!(ours(), theirs(), "{name}");
    let times = ask.times(theirs);
    let t = ask.turns::<2>(|side| seconds(times, if side == 0 { &mut *ours } else { &mut *theirs }));
    let (ratio, per) = (t.ratio(0, 1), 1e9 / rows as f64);
    println!("| {name}, {rows} rows | {ratio:.2} | {:.2} | {} | | | {:.2} | {:.2} | |", t.median(0, 1), aim(ratio, target), t.best(0) * per, t.best(1) * per);
    t.best(0)
}

/// The same with safe Rust as a third side.
fn row_of_three(ask: &Ask, name: &str, target: f64, rows: usize, sides: [Batch; 3]) -> f64 {
    let said = [0, 1, 2].map(|k: usize| sides[k]());
    assert_eq!(said, [said[0]; 3], "{name}");
    let times = ask.times(sides[1]);
    let t = ask.turns::<3>(|side| seconds(times, sides[side]));
    let (ratio, of_safe, per) = (t.ratio(0, 1), t.ratio(0, 2), 1e9 / rows as f64);
    let best = [0, 1, 2].map(|k| format!("{:.2}", t.best(k) * per)).join(" | ");
    println!("| {name}, {rows} rows | {ratio:.2} | {:.2} | {} | {of_safe:.2} | {} | {best} |", t.median(0, 1), aim(ratio, target), aim(of_safe, OF_SAFE));
    t.best(0)
}

/// The same work at each number of rows, then what twice as many rows cost us.
fn rows(ask: &Ask, name: &str, mut at: impl FnMut(usize) -> f64) {
    if ask.takes(name) {
        let times = ROWS.map(&mut at);
        println!("| {name}: twice {} rows cost {:.2} times as much | | | | | | | | |", ROWS[1], times[2] / times[1]);
    }
}

/// Values of from..=to bytes, one row in `null` a null if it isn't 0.
fn binary(n: usize, from: u64, to: u64, null: u64) -> BinaryViewArray {
    let mut random = Random::new(7);
    let mut b = GenericByteViewBuilder::<BinaryViewType>::new();
    for _ in 0..n {
        let len = from + random.below(to - from + 1);
        let value = random.bytes(len);
        if null > 0 && random.once_in(null) {
            b.append_null();
        } else {
            b.append_value(value);
        }
    }
    b.finish()
}

/// The same value in every row, stored for each anew.
fn equal(n: usize, len: u64) -> BinaryViewArray {
    let value = Random::new(9).bytes(len);
    let mut b = GenericByteViewBuilder::<BinaryViewType>::new();
    (0..n).for_each(|_| b.append_value(&value));
    b.finish()
}

/// Text of at most 40 bytes of these letters.
fn text(n: usize, letters: &[char]) -> StringViewArray {
    let mut random = Random::new(11);
    let mut b = GenericByteViewBuilder::<StringViewType>::new();
    for _ in 0..n {
        let len = random.below(41) as usize;
        let mut value = String::new();
        loop {
            let c = *random.pick(letters);
            if value.len() + c.len_utf8() > len {
                break;
            }
            value.push(c);
        }
        b.append_value(value);
    }
    b.finish()
}

fn reading(ask: &Ask) {
    for (name, from, to, target) in [("value, 0 to 12 bytes", 0, 12, 1.0), ("value, 13 to 40 bytes", 13, 40, 1.1), ("value, 0 to 40 bytes", 0, 40, 1.1)] {
        rows(ask, name, |n| {
            let a = binary(n, from, to, 0);
            let l = Lent::of_array(&a, false);
            row_of_three(ask, name, target, n, [&mut || l.read_all(), &mut || original::read_all(&a), &mut || safe::read_all(&l)])
        });
    }
}

fn comparison(ask: &Ask) {
    for (name, from, to) in
        [("comparison, random, 0 to 12 bytes", 0, 12), ("comparison, random, 13 to 40 bytes", 13, 40), ("comparison, random, 0 to 40 bytes", 0, 40)]
    {
        rows(ask, name, |n| {
            let a = binary(n, from, to, 0);
            let l = Lent::of_array(&a, false);
            row_of_three(ask, name, 1.0, n, [&mut || l.count_less(), &mut || original::count_less(&a), &mut || safe::count_less(&l)])
        });
    }
    for (len, target) in [(12, 0.0), (13, 1.2), (24, 1.2), (40, 1.2), (100, 1.2), (1_000, 1.3)] {
        let (a, name) = (equal(1_000, len), format!("comparison, equal, {len} bytes"));
        if ask.takes(&name) {
            let l = Lent::of_array(&a, false);
            row_of_three(ask, &name, target, 1_000, [&mut || l.count_less(), &mut || original::count_less(&a), &mut || safe::count_less(&l)]);
        }
    }
}

fn totals(ask: &Ask) {
    for (name, null) in [("total_bytes_len, no map", 0), ("total_bytes_len, one row in 5 null", 5)] {
        rows(ask, name, |n| {
            let a = binary(n, 0, 40, null);
            let l = Lent::of_array(&a, false);
            row(ask, name, 1.0, n, &mut || l.total_bytes_len().number as u64, &mut || a.total_bytes_len() as u64)
        });
    }
    let name = "total_buffer_bytes_used";
    rows(ask, name, |n| {
        let a = binary(n, 0, 40, 0);
        let l = Lent::of_array(&a, false);
        row(ask, name, 1.0, n, &mut || l.total_buffer_bytes_used().number as u64, &mut || a.total_buffer_bytes_used() as u64)
    });
}

fn checks(ask: &Ask) {
    for (name, from, to) in
        [("check of Binary, 0 to 12 bytes", 0, 12), ("check of Binary, 13 to 40 bytes", 13, 40), ("check of Binary, 0 to 40 bytes", 0, 40)]
    {
        rows(ask, name, |n| {
            let a = binary(n, from, to, 0);
            let l = Lent::of_array(&a, false);
            row(ask, name, 1.0, n, &mut || l.check().number, &mut || original::check_binary(&a))
        });
    }
    let (plain, latin, cjk) = (['a', 'b', ' ', 'Z', '0'], ['a', 'b', ' ', 'e', 'n', 'é'], ['漢', '字', '仮', '名']);
    for (name, letters) in [("check of String, ASCII", &plain[..]), ("check of String, Latin", &latin[..]), ("check of String, CJK", &cjk[..])] {
        rows(ask, name, |n| {
            let a = text(n, letters);
            let l = Lent::of_array(&a, true);
            row(ask, name, 1.2, n, &mut || l.check().number, &mut || original::check_string(&a))
        });
    }
}

fn main() {
    let ask = Ask::new(ROUNDS);
    println!("| work | best | median | target | of safe Rust | target | ours, ns a row | Rust | safe Rust |\n|---|---|---|---|---|---|---|---|---|");
    reading(&ask);
    comparison(&ask);
    totals(&ask);
    checks(&ask);
}
