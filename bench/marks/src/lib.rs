//! The static library's calls on marks, made safe. An answer of more than two words is written where a first pointer says, which is how C returns it on
//! x86-64 and what the library's code does on every machine.

#[path = "../../shared/lent.rs"]
pub mod lent;
pub mod plain;
#[path = "../../shared/timing.rs"]
pub mod timing;

use lent::lent;
pub use lent::{Counted, Lent};

/// How many rows have each mark.
#[repr(C)]
#[derive(Clone, Copy, Debug, Default, PartialEq, Eq)]
pub struct Marks {
    pub refused: u64,
    pub row: usize,
    pub nulls: usize,
    pub others: usize,
    pub codes: usize,
    pub dates: usize,
}

impl Marks {
    /// The counts by the marks' numbers.
    pub fn counts(&self) -> [usize; 4] {
        [self.nulls, self.others, self.codes, self.dates]
    }
}

unsafe extern "C" {
    fn tambuyeel_mark(
        views: *const u8, views_len: usize, bytes: *const u8, bytes_len: usize,
        starts: *const usize, starts_len: usize, lens: *const usize, lens_len: usize,
        nulls: *const u8, nulls_len: usize, column: *const usize, row: usize,
    ) -> Counted;
    fn tambuyeel_count_marks(
        out: *mut Marks,
        views: *const u8, views_len: usize, bytes: *const u8, bytes_len: usize,
        starts: *const usize, starts_len: usize, lens: *const usize, lens_len: usize,
        nulls: *const u8, nulls_len: usize, column: *const usize,
    );
}

/// The library reads what it is lent and asks nothing of it, so every call is safe.
impl Lent {
    pub fn mark(&self, row: usize) -> Counted {
        lent!(tambuyeel_mark(), self, (row))
    }

    pub fn count_marks(&self) -> Marks {
        let mut out = Marks::default();
        lent!(tambuyeel_count_marks(&mut out), self, ());
        out
    }
}
