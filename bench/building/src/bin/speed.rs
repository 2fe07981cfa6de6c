//! Times beside the original's builder on the same values: batches inside the library, call by call, and through the Rust binding; ours / original,
//! best and median.
//!
//! speed [ROUNDS [NAME [SIDE]]]. Every column is compared with the original's before it is timed. Both sides have their memory before the time begins: the
//! original has capacity for all rows and one block for all bytes, which a first value of 13 bytes has it allocate, and memory that was freed is used again;
//! what it makes is dropped after the time is taken. Through the binding both allocate for themselves. Sides: 0 ours, 1 the original's.

use arrow_array::builder::GenericByteViewBuilder;
use arrow_array::types::BinaryViewType;
use building::timing::Ask;
use building::{Buffers, Lent, Numbers, Values};
use oracle::random::Random;
use std::cell::RefCell;
use std::hint::black_box;
use std::time::Instant;
use tambuyeel::{ByteViewBuilder, Kind};

const ROUNDS: usize = 201;

type Original = GenericByteViewBuilder<BinaryViewType>;

unsafe extern "C" {
    fn tambuyeel_build(
        views: *mut u8, views_len: usize, bytes: *mut u8, bytes_len: usize, starts: *mut usize, starts_len: usize, lens: *mut usize, lens_len: usize,
        nulls: *mut u8, nulls_len: usize, places: *mut u32, places_len: usize,
        all: *const u8, all_len: usize, ends: *const usize, ends_len: usize, merge: usize,
    ) -> usize;
}

fn buffers(rows: usize, bytes: usize, places: usize) -> Buffers {
    let nulls = rows.div_ceil(8);
    Buffers {
        views: vec![0; 16 * rows],
        bytes: vec![0; bytes],
        starts: vec![0; 200],
        lens: vec![0; 200],
        nulls: vec![0; nulls],
        places: vec![0; places],
        lent: [16 * rows, bytes, 200, 200, nulls, places],
    }
}

fn plain(rows: usize, merge: bool) -> Original {
    let b = Original::with_capacity(rows);
    if merge { b.with_deduplicate_strings() } else { b }
}

/// The original with room for all rows and bytes, its block allocated.
fn builder(rows: usize, bytes: usize, merge: bool) -> Original {
    let b = Original::with_capacity(rows + 1).with_fixed_block_size(bytes as u32 + 13);
    let mut b = if merge { b.with_deduplicate_strings() } else { b };
    b.append_value([0; 13]);
    b
}

fn original(v: &Values, mut b: Original) -> Original {
    for x in v.each() {
        b.append_value(x);
    }
    b
}

fn batch(v: &Values, b: &mut Buffers, merge: bool) -> usize {
    let n = b.lent;
    unsafe {
        tambuyeel_build(b.views.as_mut_ptr(), n[0], b.bytes.as_mut_ptr(), n[1], b.starts.as_mut_ptr(), n[2], b.lens.as_mut_ptr(), n[3], b.nulls.as_mut_ptr(), n[4],
            b.places.as_mut_ptr(), n[5], v.all.as_ptr(), v.all.len(), v.ends.as_ptr(), v.ends.len(), merge as usize)
    }
}

/// One call a value, the state in between as the caller's numbers.
fn singly(v: &Values, b: &mut Buffers, merge: bool) -> usize {
    let mut s: Numbers = [0; 11];
    b.start(&mut s, &[0, 1, 0, merge as usize, 0]);
    for x in v.each() {
        b.append_value(&mut s, x);
    }
    s[5]
}

/// The same through the Rust binding, which makes its own room.
fn bound(v: &Values, rows: usize, merge: bool) -> ByteViewBuilder {
    let b = ByteViewBuilder::with_capacity(Kind::Binary, rows);
    let mut b = if merge { b.with_deduplicate_strings() } else { b };
    for x in v.each() {
        b.append_value(x).unwrap();
    }
    b
}

/// Two jobs in turn; what comes before each and the dropping of what it made isn't timed.
struct Jobs<A, B, F, G> {
    before: A,
    ours: F,
    fresh: B,
    theirs: G,
}

fn ratio<X, M, Y, N>(ask: &Ask, name: &str, rows: usize, mut j: Jobs<impl FnMut() -> X, impl FnMut() -> Y, impl FnMut(X) -> M, impl FnMut(Y) -> N>) {
    if !ask.takes(name) {
        return;
    }
    let t = ask.turns::<2>(|side| {
        if side == 0 {
            let x = (j.before)();
            let from = Instant::now();
            let made = black_box((j.ours)(x));
            let time = from.elapsed().as_nanos() as f64;
            drop(made);
            return time;
        }
        let y = (j.fresh)();
        let from = Instant::now();
        let made = black_box((j.theirs)(y));
        let time = from.elapsed().as_nanos() as f64;
        drop(made);
        time
    });
    let per = 1.0 / rows as f64;
    println!("{name:<60} {:>7.2} ns {:>7.2} ns   best {:.2}  median {:.2}", t.best(0) * per, t.best(1) * per, t.ratio(0, 1), t.median(0, 1));
}

fn values_case(ask: &Ask, name: &str, rows: usize, merge: bool, places: usize, v: &Values) {
    if !["batch", "call by call", "through the binding"].iter().any(|way| ask.takes(&format!("{name}, {way}"))) {
        return;
    }
    let total = v.all.len();
    let mut b = buffers(rows, total + 64, places);
    assert_eq!(batch(v, &mut b, merge), rows);
    let array = original(v, plain(rows, merge)).finish();
    for (r, view) in array.views().iter().enumerate() {
        assert_eq!(b.views[16 * r..16 * r + 16], view.to_le_bytes(), "{name}: row {r}");
    }
    let cell = RefCell::new(b);
    let cleared = || cell.borrow_mut().places.fill(0);
    let fresh = || builder(rows, total, merge);
    let theirs = |o| original(v, o);
    let ours = |()| batch(v, &mut cell.borrow_mut(), merge);
    ratio(ask, &format!("{name}, batch"), rows, Jobs { before: cleared, ours, fresh, theirs });
    let ours = |()| singly(v, &mut cell.borrow_mut(), merge);
    ratio(ask, &format!("{name}, call by call"), rows, Jobs { before: cleared, ours, fresh, theirs });
    let (ours, fresh) = (|()| bound(v, rows, merge), || plain(rows, merge));
    ratio(ask, &format!("{name}, through the binding"), rows, Jobs { before: || (), ours, fresh, theirs });
}

fn all_values(ask: &Ask) {
    for rows in [8_000, 16_000, 32_000] {
        values_case(ask, &format!("0 to 12 bytes, {rows} rows"), rows, false, 0, &Values::between(rows, 0, 12));
    }
    for rows in [8_000, 16_000, 32_000] {
        values_case(ask, &format!("13 to 40 bytes, {rows} rows"), rows, false, 0, &Values::between(rows, 13, 40));
    }
    let rows = 32_000;
    for (name, lo, hi) in
        [("5 bytes", 5, 5), ("12 bytes", 12, 12), ("13 bytes", 13, 13), ("40 bytes", 40, 40), ("0 to 40 bytes", 0, 40), ("200 bytes", 200, 200)]
    {
        values_case(ask, name, rows, false, 0, &Values::between(rows, lo, hi));
    }
    // half are repeats of what came before
    let half = Values::new(rows, |_, k| {
        let id = if k % 2 == 0 { k as u64 } else { (k as u64 * 7919) % (k as u64 + 1) / 2 * 2 };
        let mut r = Random::new(id);
        let n = 13 + r.below(28);
        r.bytes(n)
    });
    values_case(ask, "merging, half repeats, table half full", rows, true, 2 * rows + 1, &half);
    values_case(ask, "merging, half repeats, table just large enough", rows, true, rows, &half);
    let distinct = Values::between(29_490, 16, 40);
    values_case(ask, "merging, all differ, table half full", 29_490, true, 2 * 29_490, &distinct);
    values_case(ask, "merging, all differ, table nine tenths full", 29_490, true, 32_767, &distinct);
}

/// A fresh state of ours in buffers that stay.
fn started(b: &RefCell<Buffers>) -> Numbers {
    let mut s = [0; 11];
    b.borrow_mut().start(&mut s, &[0, 1, 0, 0, 0]);
    s
}

fn columns(ask: &Ask) {
    let v = Values::between(1_000, 0, 40);
    let src = RefCell::new(buffers(1_000, v.all.len(), 0));
    let (mut s, mut column) = (started(&src), [0; 5]);
    v.each().for_each(|x| assert_eq!(src.borrow_mut().append_value(&mut s, x), 0));
    assert_eq!(src.borrow_mut().finish(&mut s, &mut column), 0);
    let src = src.into_inner();
    let source = Lent { views: src.views, bytes: src.bytes, starts: src.starts, lens: src.lens, nulls: src.nulls, column };
    let array = original(&v, plain(1_000, false)).finish();
    let b = RefCell::new(buffers(20_000, 20 * v.all.len(), 0));
    ratio(ask, "a column of 1,000 rows, 20 times", 20_000, Jobs {
        before: || started(&b),
        ours: |mut s: Numbers| {
            (0..20).for_each(|_| assert_eq!(b.borrow_mut().append_column(&mut s, &source).number, 0));
            s
        },
        fresh: || plain(20_000, false),
        theirs: |mut o: Original| {
            (0..20).for_each(|_| o.append_array(&array));
            o
        },
    });
}

fn n_times(ask: &Ask) {
    for (name, n) in [("a value of 20 bytes, 1,000 times", 1_000), ("a value of 20 bytes, 10 times", 10)] {
        let b = RefCell::new(buffers(20_000, 400_000, 0));
        ratio(ask, name, 20_000, Jobs {
            before: || started(&b),
            ours: |mut s: Numbers| {
                (0..20_000 / n).for_each(|_| assert_eq!(b.borrow_mut().append_values(&mut s, &[7; 20], n), 0));
                s
            },
            fresh: || builder(20_000, 400_000, false),
            theirs: |mut o: Original| {
                (0..20_000 / n).for_each(|_| o.try_append_value_n([7u8; 20], n).unwrap());
                o
            },
        });
    }
}

fn finishes(ask: &Ask) {
    let v = Values::between(1_000, 0, 40);
    let b = RefCell::new(buffers(1_000, v.all.len(), 0));
    ratio(ask, "finish without merging, a call", 1, Jobs {
        before: || {
            let mut s = started(&b);
            v.each().for_each(|x| assert_eq!(b.borrow_mut().append_value(&mut s, x), 0));
            s
        },
        ours: |mut s: Numbers| {
            let mut column = [0; 5];
            b.borrow_mut().finish(&mut s, &mut column);
            column
        },
        fresh: || original(&v, plain(1_000, false)),
        theirs: |mut o: Original| (o.finish(), o),
    });
}

fn main() {
    let ask = Ask::new(ROUNDS);
    println!("{:<60} {:>10} {:>10}   ours / original", "", "ours", "original");
    all_values(&ask);
    columns(&ask);
    n_times(&ask);
    finishes(&ask);
}
