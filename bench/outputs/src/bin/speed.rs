//! speed [ROUNDS [NAME [SIDE]]]: ours beside the original on the same columns, best of ROUNDS (31), nanoseconds a row. Compaction against
//! `gc_with_max_buffer_size`, which judges no row and, where no row is long, shares the views; judging alone is a call that is refused for want of row room. The offset column against the
//! original's `From` alone (it shares the bytes and judges nothing), and against all of the work: `try_new`, `From` and a copy of the bytes.

use arrow_array::builder::BinaryViewBuilder;
use arrow_array::types::{BinaryType, BinaryViewType, StringViewType, Utf8Type};
use arrow_array::{BinaryViewArray, GenericByteArray, GenericByteViewArray};
use arrow_buffer::{BooleanBuffer, Buffer, NullBuffer, OffsetBuffer, ScalarBuffer};
use oracle::random::Random;
use outputs::timing::{Ask, seconds};
use outputs::{Lent, from_offsets};
use std::hint::black_box;

fn build(random: &mut Random, rows: usize, lo: u64, hi: u64, nulls: bool) -> BinaryViewArray {
    let mut b = BinaryViewBuilder::with_capacity(rows);
    for _ in 0..rows {
        if nulls && random.below(5) == 0 {
            b.append_null();
            continue;
        }
        let n = lo + random.below(hi - lo + 1);
        b.append_value((0..n).map(|_| random.below(256) as u8).collect::<Vec<u8>>());
    }
    b.finish()
}

/// Nanoseconds a row of the least time of each side.
fn best<const N: usize>(ask: &Ask, rows: usize, times: usize, mut work: impl FnMut(usize)) -> [f64; N] {
    let t = ask.turns::<N>(|side| seconds(times, &mut || work(side)));
    std::array::from_fn(|side| t.best(side) * 1e9 / rows as f64)
}

fn compactions(ask: &Ask) {
    println!("{:<34} {:>7} {:>8} {:>8} {:>8}", "compaction", "ratio", "ours", "gc", "judging");
    let cases: [(&str, u64, u64, usize, usize, bool); 11] = [
        ("no long rows, 0-12", 0, 12, 32767, i32::MAX as usize, false),
        ("13-40, one block", 13, 40, 32767, i32::MAX as usize, false),
        ("13-40, maximum 4096", 13, 40, 32767, 4096, false),
        ("13-40, maximum 64K, nulls", 13, 40, 32767, 65536, true),
        ("0-40, one block", 0, 40, 32767, i32::MAX as usize, false),
        ("100-400, one block", 100, 400, 32767, i32::MAX as usize, false),
        ("1000, maximum 1M", 1000, 1000, 16000, 1 << 20, false),
        ("1000, 8000 rows", 1000, 1000, 8000, 1 << 20, false),
        ("13-40, 16000 rows", 13, 40, 16000, i32::MAX as usize, false),
        ("13-40, 8000 rows", 13, 40, 8000, i32::MAX as usize, false),
        ("13-40, 1000 rows", 13, 40, 1000, i32::MAX as usize, false),
    ];
    for (name, lo, hi, rows, most, nulls) in cases {
        if !ask.takes(name) {
            continue;
        }
        let a = build(&mut Random::new(5), rows, lo, hi, nulls);
        let source = Lent::of_array(&a, false);
        let mut out = Lent::room(rows, source.bytes.len(), 4096);
        let mut short = out.clone();
        short.views.pop();
        let reps = (32767 / rows).max(1);
        let [ours, gc, judging] = best::<3>(ask, rows, reps, |k| match k {
            0 => {
                assert_eq!(source.compact(most, &mut out).number, 0, "{name}");
                black_box(&out);
            }
            1 => {
                black_box(a.gc_with_max_buffer_size(most));
            }
            _ => {
                assert_eq!(source.compact(most, &mut short).number, 5);
            }
        });
        println!("{name:<34} {:>7.2} {ours:>8.2} {gc:>8.2} {judging:>8.2}", ours / gc);
    }
}

fn conversions(ask: &Ask) {
    println!("{:<34} {:>7} {:>7} {:>8} {:>8} {:>8}", "offset column", "/ From", "/ all", "ours", "From", "all");
    let cases: [(&str, u64, u64, bool, bool); 8] = [
        ("0-12", 0, 12, false, false),
        ("13-40", 13, 40, false, false),
        ("0-40", 0, 40, false, false),
        ("0-40, nulls", 0, 40, false, true),
        ("100-400", 100, 400, false, false),
        ("0-12, String", 0, 12, true, false),
        ("13-40, String", 13, 40, true, false),
        ("0-40, nulls, String", 0, 40, true, true),
    ];
    for (name, lo, hi, text, some) in cases {
        if !ask.takes(name) {
            continue;
        }
        let rows = 32767usize;
        let mut random = Random::new(5);
        let (mut bytes, mut offsets) = (vec![], vec![0i32]);
        for _ in 0..rows {
            let n = lo + random.below(hi - lo + 1);
            bytes.extend((0..n).map(|_| b'a' + random.below(26) as u8));
            offsets.push(bytes.len() as i32);
        }
        let map: Vec<u8> = (0..rows.div_ceil(8)).map(|_| (random.below(256) | random.below(256)) as u8).collect();
        let laid: Vec<u8> = offsets.iter().flat_map(|o| o.to_le_bytes()).collect();
        let mut out = Lent::room(rows, bytes.len(), 1);
        let nulls = some.then(|| NullBuffer::new(BooleanBuffer::new(Buffer::from(&map[..]), 0, rows)));
        let numbers = ScalarBuffer::from(offsets);
        let data = Buffer::from(&bytes[..]);
        let binary = GenericByteArray::<BinaryType>::try_new(OffsetBuffer::new(numbers.clone()), data.clone(), nulls.clone()).unwrap();
        let string = GenericByteArray::<Utf8Type>::try_new(OffsetBuffer::new(numbers.clone()), data.clone(), nulls.clone()).unwrap();
        let mut copy = vec![0u8; bytes.len()];
        let [ours, from, all] = best::<3>(ask, rows, 1, |k| match k {
            0 => {
                assert_eq!(from_offsets(&laid, &bytes, some.then_some(&map[..]), text as usize, &mut out), 0);
                black_box(&out);
            }
            1 if text => {
                black_box(GenericByteViewArray::<StringViewType>::from(&string));
            }
            1 => {
                black_box(GenericByteViewArray::<BinaryViewType>::from(&binary));
            }
            _ => {
                copy.copy_from_slice(&bytes);
                black_box(&copy);
                let offsets = OffsetBuffer::new(numbers.clone());
                if text {
                    let a = GenericByteArray::<Utf8Type>::try_new(offsets, data.clone(), nulls.clone()).unwrap();
                    black_box(GenericByteViewArray::<StringViewType>::from(&a));
                } else {
                    let a = GenericByteArray::<BinaryType>::try_new(offsets, data.clone(), nulls.clone()).unwrap();
                    black_box(GenericByteViewArray::<BinaryViewType>::from(&a));
                }
            }
        });
        println!("{name:<34} {:>7.2} {:>7.2} {ours:>8.2} {from:>8.2} {all:>8.2}", ours / from, ours / all);
    }
}

fn main() {
    let ask = Ask::new(31);
    compactions(&ask);
    conversions(&ask);
}
