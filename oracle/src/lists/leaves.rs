//! The small lists: make_view, UTF-8, null runs, growth steps, byte order.

use super::put;
use crate::random::Random;
use arrow_array::builder::{BinaryViewBuilder, make_view};
use model::Growth;

/// make_view.bin.
pub fn make_views(seed: u64) -> Vec<u8> {
    let mut random = Random::new(seed);
    let mut out = vec![];
    for n in 0..=64 {
        for _ in 0..4 {
            let value = random.bytes(n);
            let block = *random.pick(&[0, 1, 255, 256, 4095, u32::MAX]);
            let offset = *random.pick(&[0, 13, 65_535, 65_536, 16_777_203, u32::MAX]);
            put(&mut out, &[block as u64, offset as u64, n]);
            out.extend(make_view(&value, block, offset).to_le_bytes());
            out.extend(value);
        }
    }
    out
}

fn put_utf8(out: &mut Vec<u8>, bytes: &[u8]) {
    let (yes, place) = match std::str::from_utf8(bytes) {
        Ok(_) => (1, bytes.len()),
        Err(e) => (0, e.valid_up_to()),
    };
    put(out, &[bytes.len() as u64, yes, place as u64]);
    out.extend(bytes);
}

/// utf8.bin: every lead byte with continuations on both sides of each boundary, cut at every length; then texts with and without
/// one byte changed.
pub fn utf8(seed: u64) -> Vec<u8> {
    const LEADS: [u8; 22] = [
        0x00, 0x41, 0x7f, 0x80, 0xbf, 0xc0, 0xc1, 0xc2, 0xdf, 0xe0, 0xe1, 0xec, 0xed, 0xee, 0xef,
        0xf0, 0xf1, 0xf3, 0xf4, 0xf5, 0xf8, 0xff,
    ];
    const SECONDS: [u8; 9] = [0x7f, 0x80, 0x8f, 0x90, 0x9f, 0xa0, 0xbf, 0xc0, 0x41];
    const MORE: [u8; 4] = [0x7f, 0x80, 0xbf, 0xc0];
    let mut random = Random::new(seed);
    let mut out = vec![];
    for a in LEADS {
        put_utf8(&mut out, &[a]);
        for b in SECONDS {
            put_utf8(&mut out, &[a, b]);
            for c in MORE {
                let d = *random.pick(&MORE);
                put_utf8(&mut out, &[a, b, c]);
                put_utf8(&mut out, &[a, b, c, d]);
                put_utf8(&mut out, &[a, b, c, 0x80]);
            }
        }
    }
    for _ in 0..400 {
        let mut bytes = vec![];
        let n = random.below(60);
        while (bytes.len() as u64) < n {
            let c = *random.pick(&[
                'a',
                '\u{7f}',
                '\u{80}',
                '\u{7ff}',
                '\u{800}',
                '\u{ffff}',
                '\u{10000}',
            ]);
            bytes.extend(c.to_string().bytes());
        }
        bytes.truncate(64);
        if random.once_in(2) && !bytes.is_empty() {
            let k = random.below(bytes.len() as u64) as usize;
            bytes[k] = *random.pick(&[0x00, 0x80, 0xbf, 0xc0, 0xe0, 0xf0, 0xff]);
        }
        put_utf8(&mut out, &bytes);
    }
    out
}

/// null_runs.bin.
pub fn null_runs(seed: u64) -> Vec<u8> {
    let mut random = Random::new(seed);
    let mut out = vec![];
    for k in 0..600 {
        let n = if k % 3 == 0 {
            random.below(64) + 1
        } else {
            random.below(20)
        };
        let map: Vec<u8> = match random.below(4) {
            0 => vec![0; n as usize],
            1 => vec![0xff; n as usize],
            _ => random.bytes(n),
        };
        let start = random.below(8 * n + 1);
        let count = if random.once_in(3) {
            8 * n - start
        } else {
            random.below(8 * n - start + 1)
        };
        let null = |r: &u64| map[(r / 8) as usize] & (1 << (r % 8)) == 0;
        let nulls = (start..start + count).filter(null).count() as u64;
        put(&mut out, &[n, start, count, nulls]);
        out.extend(map);
    }
    out
}

/// The sizes of the original's first blocks, as `allocated_size` shows them. A fixed size has to be 13 or more.
fn original_sizes(fixed: Option<u32>, steps: usize) -> Vec<u64> {
    let mut b = BinaryViewBuilder::with_capacity(4096);
    if let Some(size) = fixed {
        b = b.with_fixed_block_size(size);
    }
    let (mut size, mut used) = (0, 0);
    let mut sizes = vec![];
    for _ in 0..steps {
        // One byte more than the open block still takes.
        let len = (size - used + 1).max(13);
        let before = b.allocated_size();
        b.append_value(vec![7u8; len]);
        size = b.allocated_size() - before;
        used = len;
        sizes.push(size as u64);
    }
    sizes
}

/// The model's sizes, which have to be the original's.
fn same_sizes(fixed: Option<u32>, steps: usize) {
    let mut state = fixed.map_or(Growth::Doubling(8192), |n| Growth::Fixed(n as u64));
    for theirs in original_sizes(fixed, steps) {
        let (next, ours) = model::growth_step(state).unwrap();
        assert_eq!(theirs, ours, "a size of {state:?}");
        state = next;
    }
}

/// growth.bin. The steps of the original, as far as its sizes can be seen, have to be the model's.
pub fn growth() -> Vec<u8> {
    same_sizes(None, 12);
    for size in [13, 20, 26, 1000, 16_777_216] {
        same_sizes(Some(size), 3);
    }
    let mut out = vec![];
    let mut record = |growth: Growth| {
        let (kind, size) = match growth {
            Growth::Fixed(size) => (0, size),
            Growth::Doubling(size) => (1, size),
        };
        let (refusal, next, after) = match model::growth_step(growth) {
            Ok((Growth::Fixed(s) | Growth::Doubling(s), next)) => (0, next, s),
            Err(r) => (r.number as u64, 0, size),
        };
        put(&mut out, &[kind, size, refusal, next, after]);
    };
    for k in 0..=9 {
        record(Growth::Doubling(8192 << k));
    }
    for size in [
        0,
        1,
        4096,
        8191,
        8193,
        12_288,
        16_383,
        2_097_151,
        2_097_153,
        1 << 32,
        u64::MAX,
    ] {
        record(Growth::Doubling(size));
    }
    for size in [
        0,
        1,
        12,
        13,
        20,
        26,
        8192,
        16_777_215,
        16_777_216,
        16_777_217,
        1 << 32,
        u64::MAX,
    ] {
        record(Growth::Fixed(size));
    }
    out
}

/// order.bin.
pub fn orders(seed: u64) -> Vec<u8> {
    let mut random = Random::new(seed);
    let mut out = vec![];
    for _ in 0..700 {
        let n = if random.once_in(3) {
            random.below(65)
        } else {
            *random.pick(&[0, 1, 3, 4, 7, 8, 9, 12, 13, 16, 31])
        };
        let a: Vec<u8> = (0..n)
            .map(|_| *random.pick(&[0, 0, 1, 127, 128, 255]))
            .collect();
        let mut b = a.clone();
        for _ in 0..random.below(3) {
            match random.below(3) {
                0 if !b.is_empty() => {
                    let k = random.below(b.len() as u64) as usize;
                    b[k] = *random.pick(&[0, 1, 127, 128, 255]);
                }
                1 => {
                    let less = random.below(b.len() as u64 + 1) as usize;
                    b.truncate(less);
                }
                _ => b.push(*random.pick(&[0, 255])),
            }
        }
        b.truncate(64);
        put(
            &mut out,
            &[
                a.len() as u64,
                b.len() as u64,
                (a.cmp(&b) as i64 + 1) as u64,
            ],
        );
        out.extend(a);
        out.extend(b);
    }
    out
}
