//! A module of each driver. Times of two or more sides on the same input. Rounds are short, so that few are disturbed; the sides take turns, in every second
//! round in the opposite order. A program is called `speed [ROUNDS [NAME [SIDE]]]`; with a side it does that side's work alone, once a round, for counting.

use std::hint::black_box;
use std::time::Instant;

/// Seconds that one of `times` works takes.
pub fn seconds<T>(times: usize, work: &mut dyn FnMut() -> T) -> f64 {
    let from = Instant::now();
    for _ in 0..times {
        black_box(work());
    }
    from.elapsed().as_secs_f64() / times as f64
}

/// Has the allocator keep what is freed (glibc), so that after the first round no side asks the system for pages inside a time.
fn keep_memory() {
    const M_TRIM_THRESHOLD: i32 = -1;
    const M_MMAP_THRESHOLD: i32 = -3;
    unsafe extern "C" {
        fn mallopt(param: i32, value: i32) -> i32;
    }
    unsafe {
        mallopt(M_TRIM_THRESHOLD, 1 << 30);
        mallopt(M_MMAP_THRESHOLD, 1 << 30);
    }
}

/// What is asked for: how many rounds, the works whose name has this in it, one side alone.
pub struct Ask {
    rounds: usize,
    name: Option<String>,
    side: Option<usize>,
}

impl Ask {
    /// The program's arguments; so many rounds where they don't say.
    pub fn new(rounds: usize) -> Self {
        let args: Vec<String> = std::env::args().skip(1).collect();
        let number = |k: usize| args.get(k).map(|a| a.parse().expect("speed [ROUNDS [NAME [SIDE]]]"));
        keep_memory();
        Ask { rounds: number(0).unwrap_or(rounds), name: args.get(1).cloned(), side: number(2) }
    }

    pub fn takes(&self, name: &str) -> bool {
        self.name.as_ref().is_none_or(|n| name.contains(n.as_str()))
    }

    /// How often a work is done in a round of some 300 microseconds.
    pub fn times<T>(&self, work: &mut dyn FnMut() -> T) -> usize {
        if self.side.is_some() {
            return 1;
        }
        (0..3).map(|_| (3e-4 / seconds(1, work)).max(1.0) as usize).max().unwrap_or(1)
    }

    /// The times of N sides: `timed` gives one time of the side that it is asked for.
    pub fn turns<const N: usize>(&self, mut timed: impl FnMut(usize) -> f64) -> Turns<N> {
        let mut times = [const { vec![] }; N];
        for round in 0..self.rounds {
            for k in 0..N {
                let side = if round % 2 == 0 { k } else { N - 1 - k };
                if self.side.is_none_or(|s| s == side) {
                    times[side].push(timed(side));
                }
            }
        }
        Turns(times)
    }
}

pub struct Turns<const N: usize>([Vec<f64>; N]);

impl<const N: usize> Turns<N> {
    /// A side's least time.
    pub fn best(&self, side: usize) -> f64 {
        self.0[side].iter().copied().fold(f64::INFINITY, f64::min)
    }

    /// The ratio of the least times of two sides.
    pub fn ratio(&self, ours: usize, theirs: usize) -> f64 {
        self.best(ours) / self.best(theirs)
    }

    /// The median of the ratios of neighbouring rounds.
    pub fn median(&self, ours: usize, theirs: usize) -> f64 {
        let mut ratios: Vec<f64> = self.0[ours].iter().zip(&self.0[theirs]).map(|(a, b)| a / b).collect();
        ratios.sort_by(f64::total_cmp);
        ratios.get(ratios.len() / 2).copied().unwrap_or(f64::NAN)
    }
}

/// A ratio's target, and whether it is missed; none at 0.
pub fn aim(ratio: f64, target: f64) -> String {
    if target == 0.0 {
        return "-".into();
    }
    format!("{target:.1}{}", if ratio > target + 0.005 { " missed" } else { "" })
}
