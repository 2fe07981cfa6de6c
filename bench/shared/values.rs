//! A module of each driver that builds columns. Values end to end, and where each ends.

use oracle::random::Random;

pub struct Values {
    pub all: Vec<u8>,
    pub ends: Vec<usize>,
}

impl Values {
    /// `rows` values, each by the generator and its row.
    pub fn new(rows: usize, each: impl Fn(&mut Random, usize) -> Vec<u8>) -> Self {
        let (mut all, mut ends, mut r) = (vec![], vec![], Random::new(7));
        for k in 0..rows {
            all.extend(each(&mut r, k));
            ends.push(all.len());
        }
        Values { all, ends }
    }

    /// Random values of from..=to bytes.
    pub fn between(rows: usize, from: u64, to: u64) -> Self {
        Self::new(rows, |r, _| {
            let n = from + r.below(to - from + 1);
            r.bytes(n)
        })
    }

    pub fn each(&self) -> impl Iterator<Item = &[u8]> {
        self.ends.iter().scan(0, |at, e| {
            let x = &self.all[*at..*e];
            *at = *e;
            Some(x)
        })
    }
}
