//! Times of UTF-8 and of views against Rust's own, one call a row or a value on each side, rounds interleaved. Prints the ratio of the best times and
//! the median of the ratios.
use std::hint::black_box;
use text::timing::{Ask, seconds};
use text::*;

const ROUNDS: usize = 401;

/// `total` bytes of text in rows of `row` bytes, each well formed by itself: whole letters, then as many plain ones as are left.
fn texts(total: usize, row: usize, mut letter: impl FnMut(&mut Random) -> char) -> Vec<u8> {
    let mut x = Random::new(3);
    let mut s = Vec::with_capacity(total);
    while s.len() < total {
        let mut line = String::new();
        loop {
            let c = letter(&mut x);
            if line.len() + c.len_utf8() > row {
                break;
            }
            line.push(c);
        }
        let mut line = line.into_bytes();
        line.resize(row, b'.');
        s.extend_from_slice(&line);
    }
    s
}

/// Each side is asked row by row, by one call that isn't inlined: what a caller gets.
fn std_utf8(s: &[u8]) -> bool {
    std::str::from_utf8(s).is_ok()
}

fn std_make_view(out: &mut [u8; 16], v: &[u8]) -> u64 {
    *out = original::make_view(v, 0, 0).to_le_bytes();
    0
}

fn rows(s: &[u8], row: usize, formed: impl Fn(&[u8]) -> bool) -> usize {
    s.chunks_exact(row).filter(|r| formed(r)).count()
}

fn views(dst: &mut [u8], src: &[u8], lens: &[u8], make: impl Fn(&mut [u8; 16], &[u8]) -> u64) -> usize {
    let mut made = 0;
    for ((out, v), n) in dst.chunks_exact_mut(16).zip(src.chunks_exact(16)).zip(lens) {
        made += (make(out.try_into().unwrap(), &v[..*n as usize]) == 0) as usize;
    }
    made
}

fn compare(ask: &Ask, name: &str, unit: f64, mut ours: impl FnMut() -> usize, mut theirs: impl FnMut() -> usize) {
    assert_eq!(ours(), theirs(), "{name}");
    if !ask.takes(name) {
        return;
    }
    let times = ask.times(&mut theirs);
    let t = ask.turns::<2>(|side| if side == 0 { seconds(times, &mut ours) } else { seconds(times, &mut theirs) });
    let per = 1e9 / unit;
    println!("{name:<28} ours {:8.3} ns, Rust {:8.3} ns, ratio best {:.2}, median {:.2}", t.best(0) * per, t.best(1) * per, t.ratio(0, 1), t.median(0, 1));
}

fn main() {
    let ask = Ask::new(ROUNDS);
    println!("UTF-8, ns a byte, by kind of text and bytes of a row");
    let latin = |x: &mut Random| if x.below(6) == 0 { char::from_u32(0xc0 + x.below(0x140) as u32).unwrap() } else { (b'a' + x.below(26) as u8) as char };
    let chinese = |x: &mut Random| char::from_u32(0x4e00 + x.below(0x5000) as u32).unwrap();
    for row in [16, 64, 1024, 65536] {
        let total = 1 << 20;
        let ascii = |x: &mut Random| (32 + x.below(95) as u8) as char;
        for (kind, s) in [("ASCII", texts(total, row, ascii)), ("Latin", texts(total, row, latin)), ("CJK", texts(total, row, chinese))] {
            compare(&ask, &format!("{kind} {row}"), s.len() as f64, || rows(black_box(&s), row, |r| utf8(r).yes == 1), || rows(black_box(&s), row, std_utf8));
        }
    }
    println!("views, ns a view, by length of the value");
    let mut x = Random::new(7);
    let rows = 4096;
    let src: Vec<u8> = (0..16 * rows).map(|_| x.below(256) as u8).collect();
    let (mut a, mut b) = (vec![0u8; 16 * rows], vec![0u8; 16 * rows]);
    for n in [0, 1, 2, 3, 4, 7, 8, 11, 12, 13] {
        let lens: Vec<u8> = (0..rows).map(|_| if n == 13 { x.below(13) as u8 } else { n }).collect();
        let name = if n == 13 { "view of 0 to 12, mixed".into() } else { format!("view of {n}") };
        let ours = || views(black_box(&mut a), black_box(&src), &lens, |o, v| make_view(o, v, 0, 0));
        compare(&ask, &name, rows as f64, ours, || views(black_box(&mut b), black_box(&src), &lens, std_make_view));
        assert_eq!(a, b);
    }
}
