//! The static library's calls on columns, made safe. An answer of more than two words is written where a first pointer says, which is how C returns it on
//! x86-64 and what the library's code does on every machine.

#[path = "../../shared/lent.rs"]
pub mod lent;
pub mod safe;
#[path = "../../shared/timing.rs"]
pub mod timing;

pub use lent::{Counted, Lent, Place, Run, Told};
use lent::lent;

/// Declares calls on one column: what comes before its slices, what comes after them, the answer.
macro_rules! declared {
    ($($name:ident($($out:ident: $kind:ty)?)($($arg:ident),*) $(-> $answer:ty)?;)*) => {
        unsafe extern "C" {
            $(fn $name(
                $($out: $kind,)?
                views: *const u8, views_len: usize, bytes: *const u8, bytes_len: usize,
                starts: *const usize, starts_len: usize, lens: *const usize, lens_len: usize,
                nulls: *const u8, nulls_len: usize, column: *const usize,
                $($arg: usize),*
            ) $(-> $answer)?;)*
        }
    };
}

declared! {
    tambuyeel_why_value()(row) -> u8;
    tambuyeel_value(out: *mut Place)(row);
    tambuyeel_prefix(out: *mut Place)(row, n);
    tambuyeel_suffix(out: *mut Place)(row, n);
    tambuyeel_length()(row) -> Counted;
    tambuyeel_null_bit()(row) -> Counted;
    tambuyeel_null_run()(start, count) -> Counted;
    tambuyeel_slice(out: *mut Run)(start, count);
    tambuyeel_total_bytes_len()() -> Counted;
    tambuyeel_total_buffer_bytes_used()() -> Counted;
    tambuyeel_check()() -> Told;
    bench_count_less()() -> u64;
    bench_read_all()() -> u64;
    records_why_value()(row) -> u64;
    records_check()() -> Told;
}

unsafe extern "C" {
    fn tambuyeel_compare(
        views: *const u8, views_len: usize, bytes: *const u8, bytes_len: usize,
        starts: *const usize, starts_len: usize, lens: *const usize, lens_len: usize,
        nulls: *const u8, nulls_len: usize, column: *const usize, i: usize,
        views2: *const u8, views_len2: usize, bytes2: *const u8, bytes_len2: usize,
        starts2: *const usize, starts_len2: usize, lens2: *const usize, lens_len2: usize,
        nulls2: *const u8, nulls_len2: usize, column2: *const usize, j: usize,
    ) -> u64;
    fn records_compare(
        views: *const u8, views_len: usize, bytes: *const u8, bytes_len: usize,
        starts: *const usize, starts_len: usize, lens: *const usize, lens_len: usize,
        nulls: *const u8, nulls_len: usize, column: *const usize, i: usize,
        views2: *const u8, views_len2: usize, bytes2: *const u8, bytes_len2: usize,
        starts2: *const usize, starts_len2: usize, lens2: *const usize, lens_len2: usize,
        nulls2: *const u8, nulls_len2: usize, column2: *const usize, j: usize,
    ) -> u64;
    fn records_walk(
        views: *const u8, views_len: usize, bytes: *const u8, bytes_len: usize,
        starts: *const usize, starts_len: usize, lens: *const usize, lens_len: usize,
        nulls: *const u8, nulls_len: usize, column: *const usize, row: usize,
        want: *const u8, want_len: usize,
    ) -> Counted;
    fn records_value_is(
        views: *const u8, views_len: usize, bytes: *const u8, bytes_len: usize,
        starts: *const usize, starts_len: usize, lens: *const usize, lens_len: usize,
        nulls: *const u8, nulls_len: usize, column: *const usize, row: usize,
        want: *const u8, want_len: usize,
    ) -> u64;
    fn tambuyeel_same_column(
        views: *const u8, views_len: usize, bytes: *const u8, bytes_len: usize,
        starts: *const usize, starts_len: usize, lens: *const usize, lens_len: usize,
        nulls: *const u8, nulls_len: usize, column: *const usize,
        views2: *const u8, views_len2: usize, bytes2: *const u8, bytes_len2: usize,
        starts2: *const usize, starts_len2: usize, lens2: *const usize, lens_len2: usize,
        nulls2: *const u8, nulls_len2: usize, column2: *const usize,
    ) -> Told;
}

/// The library reads what it is lent and asks nothing of it, so every call is safe.
impl Lent {
    pub fn why_value(&self, row: usize) -> u8 {
        lent!(tambuyeel_why_value(), self, (row))
    }

    pub fn value(&self, row: usize) -> Place {
        let mut out = Place::default();
        lent!(tambuyeel_value(&mut out), self, (row));
        out
    }

    pub fn prefix(&self, row: usize, n: usize) -> Place {
        let mut out = Place::default();
        lent!(tambuyeel_prefix(&mut out), self, (row, n));
        out
    }

    pub fn suffix(&self, row: usize, n: usize) -> Place {
        let mut out = Place::default();
        lent!(tambuyeel_suffix(&mut out), self, (row, n));
        out
    }

    pub fn length(&self, row: usize) -> Counted {
        lent!(tambuyeel_length(), self, (row))
    }

    pub fn null_bit(&self, row: usize) -> Counted {
        lent!(tambuyeel_null_bit(), self, (row))
    }

    pub fn null_run(&self, start: usize, count: usize) -> Counted {
        lent!(tambuyeel_null_run(), self, (start, count))
    }

    pub fn slice(&self, start: usize, count: usize) -> Run {
        let mut out = Run::default();
        lent!(tambuyeel_slice(&mut out), self, (start, count));
        out
    }

    pub fn total_bytes_len(&self) -> Counted {
        lent!(tambuyeel_total_bytes_len(), self, ())
    }

    pub fn total_buffer_bytes_used(&self) -> Counted {
        lent!(tambuyeel_total_buffer_bytes_used(), self, ())
    }

    pub fn check(&self) -> Told {
        lent!(tambuyeel_check(), self, ())
    }

    pub fn count_less(&self) -> u64 {
        lent!(bench_count_less(), self, ())
    }

    pub fn read_all(&self) -> u64 {
        lent!(bench_read_all(), self, ())
    }

    pub fn compare(&self, i: usize, that: &Lent, j: usize) -> u64 {
        lent!(tambuyeel_compare(), self, (i), that, (j))
    }

    /// The same calls over a table of records.
    pub fn why_value_through(&self, row: usize) -> u64 {
        lent!(records_why_value(), self, (row))
    }

    pub fn check_through(&self) -> Told {
        lent!(records_check(), self, ())
    }

    pub fn compare_through(&self, i: usize, that: &Lent, j: usize) -> u64 {
        lent!(records_compare(), self, (i), that, (j))
    }

    /// Whether a row's value over records is the part at a place, and still that part when its bytes are others.
    pub fn value_through(&self, row: usize, buffer: u64, offset: usize, len: usize) -> bool {
        self.twice(buffer, offset, len, |lent, want| lent!(records_value_is(), lent, (row, want.as_ptr(), want.len())) == 1)
    }

    /// Whether a step of the row walk over records from a row answers this, its value the part at a place, and still that part when its bytes are others.
    pub fn walk_through(&self, row: usize, answer: Counted, buffer: u64, offset: usize, len: usize) -> bool {
        self.twice(buffer, offset, len, |lent, want| lent!(records_walk(), lent, (row, want.as_ptr(), want.len())) == answer)
    }

    /// Asks twice with the part at a place, the second time with every byte of it changed where it lies.
    fn twice(&self, buffer: u64, offset: usize, len: usize, asked: impl Fn(&Lent, &[u8]) -> bool) -> bool {
        let mut lent = self.clone();
        (0..2).all(|_| {
            let from = if buffer == 1 { &mut lent.bytes } else { &mut lent.views };
            let want = from[offset..offset + len].to_vec();
            let same = asked(&lent, &want);
            let from = if buffer == 1 { &mut lent.bytes } else { &mut lent.views };
            from[offset..offset + len].iter_mut().for_each(|b| *b ^= 255);
            same
        })
    }

    pub fn same_column(&self, that: &Lent) -> Told {
        lent!(tambuyeel_same_column(), self, (), that, ())
    }
}
