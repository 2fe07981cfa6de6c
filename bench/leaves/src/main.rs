//! Times the proved leaves against Rust's std: each side does the same batch on the same input, rounds alternate, and a row gives the
//! ratio of the best times and the median of the ratios of neighbouring rounds (below 1: ours is faster). Every batch's answer is held against std's
//! before it is timed.
//!
//! `bench/run` builds the static library and runs this.

#[allow(dead_code)]
#[path = "../../../oracle/src/random.rs"]
mod random;
#[path = "../../shared/timing.rs"]
mod timing;

use random::Random;
use std::cell::RefCell;
use std::cmp::Ordering;
use std::hint::black_box;
use timing::{Ask, aim, seconds};

mod leaves {
    mod raw {
        unsafe extern "C" {
            pub fn leaf_count_nulls(map: *const u8, len: usize, rows: usize, times: usize) -> u64;
            pub fn leaf_copy_parts(src: *const u8, len: usize, dst: *mut u8, room: usize, n: usize);
            pub fn leaf_count_pairs(bytes: *const u8, len: usize, ends: *const usize, count: usize, sameness: bool) -> u64;
        }
    }
    pub fn count_nulls(map: &[u8], rows: usize, times: usize) -> u64 {
        unsafe { raw::leaf_count_nulls(map.as_ptr(), map.len(), rows, times) }
    }
    pub fn copy_parts(src: &[u8], dst: &mut [u8], n: usize) {
        unsafe { raw::leaf_copy_parts(src.as_ptr(), src.len(), dst.as_mut_ptr(), dst.len(), n) }
    }
    pub fn count_less(bytes: &[u8], ends: &[usize]) -> u64 {
        unsafe { raw::leaf_count_pairs(bytes.as_ptr(), bytes.len(), ends.as_ptr(), ends.len(), false) }
    }
    pub fn count_same(bytes: &[u8], ends: &[usize]) -> u64 {
        unsafe { raw::leaf_count_pairs(bytes.as_ptr(), bytes.len(), ends.as_ptr(), ends.len(), true) }
    }
}

mod std_side {
    use super::*;

    /// Nulls of a run that may start and end inside a byte: ones of masked bytes and of words.
    fn nulls(map: &[u8], first: usize, rows: usize) -> usize {
        let (mut at, end) = (first, first + rows);
        let mut ones = 0;
        if at % 8 != 0 && at < end {
            let take = (8 - at % 8).min(end - at);
            ones += ((map[at / 8] >> (at % 8)) as u32 & ((1u32 << take) - 1)).count_ones() as usize;
            at += take;
        }
        let whole = if at < end { &map[at / 8..end / 8] } else { &[] };
        let mut words = whole.chunks_exact(8);
        for w in &mut words {
            ones += u64::from_le_bytes(w.try_into().unwrap()).count_ones() as usize;
        }
        for b in words.remainder() {
            ones += b.count_ones() as usize;
        }
        if end % 8 != 0 && at < end {
            ones += (map[end / 8] as u32 & ((1u32 << (end % 8)) - 1)).count_ones() as usize;
        }
        rows - ones
    }

    #[inline(never)]
    pub fn count_nulls(map: &[u8], rows: usize, times: usize) -> u64 {
        (0..times).map(|k| nulls(map, k % 64, rows) as u64).sum()
    }

    #[inline(never)]
    pub fn copy_parts(src: &[u8], dst: &mut [u8], n: usize) {
        for (s, d) in src.chunks_exact(n).zip(dst.chunks_exact_mut(n)) {
            d.copy_from_slice(s);
        }
    }

    #[inline(never)]
    pub fn count_less(bytes: &[u8], ends: &[usize]) -> u64 {
        ends.windows(3).map(|e| (bytes[e[0]..e[1]].cmp(&bytes[e[1]..e[2]]) == Ordering::Less) as u64).sum()
    }

    #[inline(never)]
    pub fn count_same(bytes: &[u8], ends: &[usize]) -> u64 {
        ends.windows(3).map(|e| (bytes[e[0]..e[1]] == bytes[e[1]..e[2]]) as u64).sum()
    }
}

const ROUNDS: usize = 401;

/// Prints the row: the ratio of the best times, the median of the ratios of neighbouring rounds, and the best times. Answers whether the first is within
/// the target.
fn row<T>(ask: &Ask, name: &str, target: f64, items: usize, ours: &mut dyn FnMut() -> T, theirs: &mut dyn FnMut() -> T) -> bool {
    if !ask.takes(name) {
        return true;
    }
    let times = ask.times(theirs);
    let t = ask.turns::<2>(|side| seconds(times, if side == 0 { &mut *ours } else { &mut *theirs }));
    let (ratio, per) = (t.ratio(0, 1), 1e9 / items as f64);
    println!("| {name} | {ratio:.2} | {:.2} | {} | {:.2} | {:.2} |", t.median(0, 1), aim(ratio, target), t.best(0) * per, t.best(1) * per);
    target == 0.0 || ratio <= target
}

/// Values end to end, and where each begins and the last ends.
fn laid(values: &[Vec<u8>]) -> (Vec<u8>, Vec<usize>) {
    let mut ends = vec![0];
    let mut bytes = Vec::new();
    for v in values {
        bytes.extend_from_slice(v);
        ends.push(bytes.len());
    }
    (bytes, ends)
}

fn counting(ask: &Ask, r: &mut Random) -> bool {
    let map = r.bytes(4096 + 16);
    let rows = 8 * 4096;
    for rows in [0, 1, 7, 8, 9, 63, 64, 65, 1000, rows] {
        assert_eq!(leaves::count_nulls(&map, rows, 64), std_side::count_nulls(&map, rows, 64), "{rows} rows");
    }
    row(ask, "count nulls over 4 KB", 1.1, 64, &mut || leaves::count_nulls(black_box(&map), rows, 64), &mut || {
        std_side::count_nulls(black_box(&map), rows, 64)
    })
}

fn copying(ask: &Ask, r: &mut Random) -> bool {
    let mut all = true;
    for n in [13, 40, 64, 100, 256, 1024, 4096, 16_384, 65_536, 1 << 20] {
        let whole = n.max(16_384) / n * n;
        let src = r.bytes(whole as u64);
        // One destination for both sides: where it lies against the source decides the time of short copies.
        let dst = RefCell::new(vec![0; whole]);
        leaves::copy_parts(&src, &mut dst.borrow_mut(), n);
        assert_eq!(src, *dst.borrow(), "copies of {n} bytes");
        let target = 1.1;
        let name = if n < 1 << 20 { format!("copy {n} bytes") } else { "copy 1 MB".into() };
        all &= row(ask, &name, target, whole / n, &mut || leaves::copy_parts(black_box(&src), black_box(&mut dst.borrow_mut()), n), &mut || {
            std_side::copy_parts(black_box(&src), black_box(&mut dst.borrow_mut()), n)
        });
    }
    all
}

fn comparing(ask: &Ask, name: &str, targets: (f64, f64), values: &[Vec<u8>]) -> bool {
    let (bytes, ends) = laid(values);
    assert_eq!(leaves::count_less(&bytes, &ends), std_side::count_less(&bytes, &ends));
    assert_eq!(leaves::count_same(&bytes, &ends), std_side::count_same(&bytes, &ends));
    let n = values.len() - 1;
    let order = row(ask, &format!("order of {name}"), targets.0, n, &mut || leaves::count_less(black_box(&bytes), black_box(&ends)), &mut || {
        std_side::count_less(black_box(&bytes), black_box(&ends))
    });
    let same = row(ask, &format!("sameness of {name}"), targets.1, n, &mut || leaves::count_same(black_box(&bytes), black_box(&ends)), &mut || {
        std_side::count_same(black_box(&bytes), black_box(&ends))
    });
    order & same
}

fn main() {
    let (ask, mut r) = (Ask::new(ROUNDS), Random::new(7));
    println!("| work | best | median | target | ours, ns | std, ns |");
    println!("|---|---|---|---|---|---|");
    let mut all = counting(&ask, &mut r);
    all &= copying(&ask, &mut r);
    let random: Vec<_> = (0..1000).map(|_| 13 + r.below(28) as usize).collect();
    let random: Vec<_> = random.into_iter().map(|n| r.bytes(n as u64)).collect();
    all &= comparing(&ask, "random values of 13 to 40 bytes", (0.8, 0.0), &random);
    let one = r.bytes(1024);
    all &= comparing(&ask, "equal values of 1 KB", (1.3, 1.3), &vec![one.clone(); 32]);
    for n in [13, 24, 40, 100] {
        let value = r.bytes(n as u64);
        all &= comparing(&ask, &format!("equal values of {n} bytes"), (1.2, 1.2), &vec![value; 1000]);
    }
    let last: Vec<_> = (0..1000).map(|k| { let mut v = one[..40].to_vec(); v[39] = k as u8; v }).collect();
    all &= comparing(&ask, "values of 40 bytes that differ in the last", (0.0, 0.0), &last);
    println!();
    println!("{}", if all { "every target is met" } else { "a target is missed" });
}
