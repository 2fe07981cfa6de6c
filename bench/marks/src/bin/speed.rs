//! Times of counting marks, ours beside the plain recogniser over the original's array (src/plain.rs), on the same columns. A batch is one call on each side,
//! rounds alternate, and our counts are held against the other's before they are timed. Prints the ratio of the best times, the median of the ratios of
//! neighbouring rounds (below 1: ours is faster), the target, the best times for one row, and the cost of twice as many rows. Sides: 0 ours, 1 plain Rust.

use arrow_array::BinaryViewArray;
use arrow_array::builder::GenericByteViewBuilder;
use arrow_array::types::BinaryViewType;
use marks::timing::{Ask, aim, seconds};
use marks::{Lent, plain};
use oracle::random::Random;

const ROUNDS: usize = 401;
/// The most that ours may take of what plain Rust takes.
const TARGET: f64 = 1.1;
const ROWS: [usize; 3] = [1_000, 16_000, 32_000];
const MONTHS: [&str; 12] = ["JAN", "FEB", "MAR", "APR", "MAY", "JUN", "JUL", "AUG", "SEP", "OCT", "NOV", "DEC"];

/// Groups of letters and digits joined by hyphens, of from..=to bytes.
fn code(r: &mut Random, from: u64, to: u64) -> Vec<u8> {
    let n = from + r.below(to - from + 1);
    let mut value: Vec<u8> = (0..n).map(|_| *r.pick(b"ABCDEFGHIJKLMNOPQRSTUVWXYZ0123456789")).collect();
    for at in (2..n as usize - 1).step_by(2 + r.below(4) as usize) {
        value[at] = b'-';
    }
    value
}

/// A day and a month in either order, with a year or not; or groups of digits.
fn date(r: &mut Random) -> Vec<u8> {
    let (day, month, join) = (1 + r.below(31), *r.pick(&MONTHS), *r.pick(&["", "-"]));
    let text = match r.below(5) {
        0 => format!("{month}{join}{day:02}"),
        1 => format!("{day}{join}{month}-{:02}", r.below(100)),
        2 => format!("{day:02}{join}{month}-{}", 1900 + r.below(200)),
        3 => format!("{}-{}-{}", r.below(10_000), r.below(13), r.below(32)),
        _ => format!("{day}{join}{month}"),
    };
    text.into_bytes()
}

/// A code, a date, a code that one byte spoils, or a null.
fn mixed(r: &mut Random) -> Option<Vec<u8>> {
    match r.below(10) {
        0 => None,
        1 | 2 => Some(date(r)),
        3 | 4 => {
            let mut value = code(r, 4, 24);
            let at = r.below(value.len() as u64) as usize;
            value[at] = *r.pick(b"-az ./\xff");
            Some(value)
        }
        _ => Some(code(r, 4, 24)),
    }
}

fn column(n: usize, each: impl Fn(&mut Random) -> Option<Vec<u8>>) -> BinaryViewArray {
    let mut random = Random::new(7);
    let mut b = GenericByteViewBuilder::<BinaryViewType>::new();
    (0..n).for_each(|_| b.append_option(each(&mut random)));
    b.finish()
}

/// Times both sides in turn, prints the row, and answers our best time.
fn row(ask: &Ask, name: &str, array: &BinaryViewArray, rows: usize) -> f64 {
    let lent = Lent::of_array(array, false);
    let counts = plain::count_marks(array);
    assert_eq!(lent.count_marks().counts(), counts, "{name}");
    let mut ours = || lent.count_marks().counts();
    let mut theirs = || plain::count_marks(array);
    let times = ask.times(&mut theirs);
    let t = ask.turns::<2>(|side| if side == 0 { seconds(times, &mut ours) } else { seconds(times, &mut theirs) });
    let (ratio, per) = (t.ratio(0, 1), 1e9 / rows as f64);
    println!("| {name}, {rows} rows | {ratio:.2} | {:.2} | {} | {:.2} | {:.2} |", t.median(0, 1), aim(ratio, TARGET), t.best(0) * per, t.best(1) * per);
    t.best(0)
}

/// The same column at each number of rows, then what twice as many rows cost us.
fn rows(ask: &Ask, name: &str, each: impl Fn(&mut Random) -> Option<Vec<u8>>) {
    if ask.takes(name) {
        let times = ROWS.map(|n| row(ask, name, &column(n, &each), n));
        println!("| {name}: twice {} rows cost {:.2} times as much | | | | | |", ROWS[1], times[2] / times[1]);
    }
}

fn main() {
    let ask = Ask::new(ROUNDS);
    println!("| | ratio | median | target | ours, ns a row | plain, ns a row |\n|---|---|---|---|---|---|");
    rows(&ask, "codes of 8 to 24 bytes", |r| Some(code(r, 8, 24)));
    rows(&ask, "codes of 4 to 12 bytes", |r| Some(code(r, 4, 12)));
    rows(&ask, "dates", |r| Some(date(r)));
    rows(&ask, "mixed rows", mixed);
}
