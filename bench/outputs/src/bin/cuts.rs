//! cuts SEED COUNT: what compaction wrote beside every way to cut the long rows into blocks. All lists of up to seven lengths of 13 to 15, then COUNT random
//! columns of up to 14 long rows with short and null ones among them, each at every maximum from 0 to one past the sum of the lengths, and at 2^31 - 1. A cut is
//! lawful at a maximum if each of its blocks is within it or has a single row. Compared: that no lawful cut has fewer blocks than the new table has lengths
//! above 0; that the new views' own cut is in row order, lawful, of the values that went in, and has as many; that only block 0 is empty. It ends with the
//! counts and fails at the first difference.

use oracle::random::Random;
use outputs::Lent;

const MOST: usize = (1 << 31) - 1;
const SHORT: usize = 12;
const LONG_ROWS: usize = 14;

#[derive(Default)]
struct Tally {
    columns: u64,
    cuts: u64,
    compactions: u64,
    empty_first: u64,
    above: u64,
    shared: u64,
}

/// A column of these rows: its long values are spread over one to three blocks, with other bytes between them.
fn column(random: &mut Random, rows: &[Vec<u8>]) -> Lent {
    let first = random.below(3) as usize;
    let mut blocks = vec![Vec::new(); 1 + random.below(3) as usize];
    let mut views = vec![0xaa; 16 * first];
    for x in rows {
        views.extend((x.len() as u32).to_le_bytes());
        if x.len() <= SHORT {
            views.extend(x.iter().chain(&[0; SHORT]).take(SHORT));
            continue;
        }
        let k = random.below(blocks.len() as u64) as usize;
        blocks[k].extend(&b"~~~"[..random.below(4) as usize]);
        views.extend(&x[..4]);
        views.extend((k as u32).to_le_bytes());
        views.extend((blocks[k].len() as u32).to_le_bytes());
        blocks[k].extend(x);
    }
    let lens: Vec<usize> = blocks.iter().map(Vec::len).collect();
    let starts = (0..lens.len()).map(|k| lens[..k].iter().sum()).collect();
    let nulls = (0..(first + rows.len()).div_ceil(8)).map(|_| random.below(256) as u8).collect();
    let column = [first, rows.len(), lens.len(), random.below(2) as usize, random.below(2) as usize];
    Lent { views, bytes: blocks.concat(), starts, lens, nulls, column }
}

/// The fewest blocks of a cut that is lawful at each maximum up to `most`: every cut is tried, bit i of its number closing a block after value i.
fn fewest(t: &mut Tally, lens: &[usize], most: usize) -> Vec<usize> {
    let mut best = vec![usize::MAX; most + 1];
    for cut in 0..1u32 << lens.len().saturating_sub(1) {
        let (mut blocks, mut rows, mut bytes, mut least) = (0, 0, 0, 0);
        for (i, n) in lens.iter().enumerate() {
            rows += 1;
            bytes += n;
            if rows > 1 {
                least = least.max(bytes);
            }
            if cut >> i & 1 == 1 || i + 1 == lens.len() {
                (blocks, rows, bytes) = (blocks + 1, 0, 0);
            }
        }
        // the cut is lawful from the maximum on that its longest block of two rows or more has
        best[least] = best[least].min(blocks);
        t.cuts += 1;
    }
    for m in 1..=most {
        best[m] = best[m].min(best[m - 1]);
    }
    best
}

fn word(v: &[u8], at: usize) -> usize {
    u32::from_le_bytes(v[at..at + 4].try_into().unwrap()) as usize
}

/// How many blocks of the new column aren't empty; whatever of it isn't as it should be.
fn judge(rows: &[Vec<u8>], most: usize, new: &Lent) -> Result<usize, String> {
    let [first, count, blocks, ..] = new.column;
    if (first, count) != (0, rows.len()) {
        return Err("other rows".into());
    }
    let filled = new.lens[..blocks].iter().filter(|n| **n > 0).count();
    if new.lens[..blocks].iter().skip(1).any(|n| *n == 0) {
        return Err("an empty block after the first".into());
    }
    let mut own: Vec<Vec<&[u8]>> = vec![vec![]; blocks];
    for (x, v) in rows.iter().zip(new.views.chunks_exact(16)).filter(|(x, _)| x.len() > SHORT) {
        let (len, block, offset) = (word(v, 0), word(v, 8), word(v, 12));
        let at = new.starts[block] + offset;
        let shown = &new.bytes[at..at + len];
        if shown != x.as_slice() || offset + len > new.lens[block] {
            return Err("another value".into());
        }
        if own[block + 1..].iter().any(|b| !b.is_empty()) {
            return Err("out of row order".into());
        }
        own[block].push(shown);
    }
    own.retain(|b| !b.is_empty());
    if own.len() != filled {
        return Err("a block that no row points into".into());
    }
    if own.iter().any(|b| b.len() > 1 && b.concat().len() > most) {
        return Err("a block of two rows above the maximum".into());
    }
    Ok(filled)
}

fn one(t: &mut Tally, random: &mut Random, rows: &[Vec<u8>]) {
    let lens: Vec<usize> = rows.iter().map(Vec::len).filter(|n| *n > SHORT).collect();
    assert!(lens.len() <= LONG_ROWS);
    let total: usize = lens.iter().sum();
    let best = fewest(t, &lens, total + 1);
    let source = column(random, rows);
    let room = Lent::room(rows.len(), total, lens.len() + 1);
    for most in (0..=total + 1).chain([MOST]) {
        let want = best[most.min(total)];
        let mut new = room.clone();
        if source.compact(most, &mut new).number != 0 {
            differs(&lens, most, "refused".into());
        }
        match judge(rows, most, &new) {
            Ok(filled) if filled == want => {}
            Ok(filled) => differs(&lens, most, format!("{filled} blocks that aren't empty, and a lawful cut of {want}")),
            Err(what) => differs(&lens, most, what),
        }
        let mut other = room.clone();
        if source.compact_through(most, &mut other).number != 0 || other != new {
            differs(&lens, most, "another answer over records".into());
        }
        t.compactions += 1;
        t.empty_first += (new.column[2] > want) as u64;
        t.above += new.lens[..new.column[2]].iter().any(|n| *n > most) as u64;
        t.shared += (want < lens.len()) as u64;
    }
    let mut new = room.clone();
    if source.compact(MOST + 1, &mut new).number != 1 || new != room {
        differs(&lens, MOST + 1, "not refused".into());
    }
    t.columns += 1;
}

fn differs(lens: &[usize], most: usize, what: String) -> ! {
    eprintln!("{lens:?} at {most}: {what}");
    std::process::exit(1)
}

fn value(random: &mut Random, len: usize) -> Vec<u8> {
    (0..len).map(|_| b'0' + random.below(75) as u8).collect()
}

/// The search for the fewest, by cases that can be counted by hand.
fn by_hand() {
    let cases: [(&[usize], usize, usize); 6] = [
        (&[], 0, 0),
        (&[13], 0, 1),
        (&[13, 13, 13], 26, 2),
        (&[13, 13], 12, 2),
        (&[13, 25, 13], 26, 3),
        (&[20, 13, 13, 20], 33, 2),
    ];
    for (lens, most, want) in cases {
        let found = fewest(&mut Tally::default(), lens, lens.iter().sum::<usize>() + 1)[most];
        assert_eq!(found, want, "{lens:?} at {most}");
    }
}

fn main() {
    let args: Vec<u64> = std::env::args().skip(1).map(|a| a.parse().expect("cuts SEED COUNT")).collect();
    let mut random = Random::new(args[0]);
    by_hand();
    let mut t = Tally::default();
    for n in 0..8u32 {
        for list in 0..3usize.pow(n) {
            let rows: Vec<Vec<u8>> = (0..n).map(|i| value(&mut random, 13 + list / 3usize.pow(i) % 3)).collect();
            one(&mut t, &mut random, &rows);
        }
    }
    for _ in 0..args[1] {
        let long = random.below(LONG_ROWS as u64 + 1);
        let spread = [3, 8, 30, 200][random.below(4) as usize];
        let mut rows = vec![];
        for _ in 0..long {
            for _ in 0..random.below(3) {
                let n = random.below(SHORT as u64 + 1) as usize;
                rows.push(value(&mut random, n));
            }
            let n = SHORT + 1 + random.below(spread) as usize;
            rows.push(value(&mut random, n));
        }
        one(&mut t, &mut random, &rows);
    }
    println!("{} columns, {} cuts tried, {} compactions over number slices and as many over records", t.columns, t.cuts, t.compactions);
    println!("  {} with an empty first block, {} with a block above the maximum, {} where rows share a block", t.empty_first, t.above, t.shared);
}
