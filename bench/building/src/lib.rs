//! The static library's builder calls, made safe: a slice crosses as its pointer and its count of elements, a state as eleven numbers.

#[path = "../../shared/lent.rs"]
pub mod lent;
#[path = "../../shared/timing.rs"]
pub mod timing;
#[path = "../../shared/values.rs"]
pub mod values;

pub use lent::{Counted, Lent, Place, Told, numbers};
use model::{Growth, Kind, Merge, State};
// Its archive has the calls declared here.
use tambuyeel as _;
pub use values::Values;

pub type Numbers = [usize; 11];

macro_rules! calls {
    ($($name:ident ( $($extra:ident : $t:ty),* ) -> $r:ty;)*) => {
        unsafe extern "C" {
            $(fn $name(
                state: *mut Numbers,
                views: *mut u8, views_len: usize,
                bytes: *mut u8, bytes_len: usize,
                starts: *mut usize, starts_len: usize,
                lens: *mut usize, lens_len: usize,
                nulls: *mut u8, nulls_len: usize,
                places: *mut u32, places_len: usize,
                $($extra: $t),*
            ) -> $r;)*
        }
    };
}

calls! {
    tambuyeel_append_value(x: *const u8, n: usize) -> u64;
    tambuyeel_append_values(x: *const u8, n: usize, times: usize) -> u64;
    tambuyeel_append_null() -> u64;
    tambuyeel_append_block(x: *const u8, n: usize) -> Counted;
    tambuyeel_append_view(block: u32, offset: u32, n: u32) -> u64;
    tambuyeel_append_column(
        v: *const u8, vn: usize, b: *const u8, bn: usize, s: *const usize, sn: usize, l: *const usize, ln: usize, m: *const u8, mn: usize,
        column: *const [usize; 5]
    ) -> Told;
    tambuyeel_get_value(row: usize) -> Place;
    tambuyeel_finish(column: *mut [usize; 5]) -> u64;
    tambuyeel_finish_by_copy(column: *mut [usize; 5]) -> u64;
    records_append_value(x: *const u8, n: usize) -> u64;
    records_append_values(x: *const u8, n: usize, times: usize) -> u64;
    records_append_null() -> u64;
    records_append_block(x: *const u8, n: usize) -> Counted;
    records_append_view(block: u32, offset: u32, n: u32) -> u64;
    records_append_column(
        v: *const u8, vn: usize, b: *const u8, bn: usize, s: *const usize, sn: usize, l: *const usize, ln: usize, m: *const u8, mn: usize,
        column: *const [usize; 5]
    ) -> Told;
    records_why_get(row: usize) -> u64;
    records_get_value_is(row: usize, x: *const u8, n: usize) -> u64;
    records_finish(column: *mut [usize; 5]) -> u64;
    records_finish_by_copy(column: *mut [usize; 5]) -> u64;
}

/// The answer where a table has more records than the instruments hold.
const TOO_MANY: u64 = 99;

/// The same calls over a table of records, made beside the others where this is asked for: how many were made, how many had too many records, and how many
/// answered or left something else.
pub mod through {
    use std::sync::atomic::{AtomicBool, AtomicU64, Ordering::Relaxed};

    pub static ON: AtomicBool = AtomicBool::new(false);
    static MADE: AtomicU64 = AtomicU64::new(0);
    static SKIPPED: AtomicU64 = AtomicU64::new(0);
    static DIFFERENT: AtomicU64 = AtomicU64::new(0);

    pub fn on() -> bool {
        ON.load(Relaxed)
    }

    pub(crate) fn count(number: u64, same: bool) {
        if number == super::TOO_MANY {
            SKIPPED.fetch_add(1, Relaxed);
            return;
        }
        MADE.fetch_add(1, Relaxed);
        if !same {
            DIFFERENT.fetch_add(1, Relaxed);
        }
    }

    /// Made, skipped, different.
    pub fn counts() -> [u64; 3] {
        [&MADE, &SKIPPED, &DIFFERENT].map(|n| n.load(Relaxed))
    }
}

unsafe extern "C" {
    fn tambuyeel_start(settings: *const [usize; 5], state: *mut Numbers, places: *mut u32, places_len: usize) -> u64;
}

/// What a builder is lent, and the lengths that it is lent of them: what lies past those has to stay.
#[derive(Clone, Debug, PartialEq, Eq)]
pub struct Buffers {
    pub views: Vec<u8>,
    pub bytes: Vec<u8>,
    pub starts: Vec<usize>,
    pub lens: Vec<usize>,
    pub nulls: Vec<u8>,
    pub places: Vec<u32>,
    /// Views, bytes, starts, lens, nulls, places.
    pub lent: [usize; 6],
}

macro_rules! with {
    ($b:expr, $s:expr, $f:ident $(, $x:expr)*) => {{
        let b = $b;
        let n = b.lent;
        unsafe {
            $f($s, b.views.as_mut_ptr(), n[0], b.bytes.as_mut_ptr(), n[1], b.starts.as_mut_ptr(), n[2], b.lens.as_mut_ptr(), n[3],
                b.nulls.as_mut_ptr(), n[4], b.places.as_mut_ptr(), n[5] $(, $x)*)
        }
    }};
}

/// A call, and the same one over records on copies of all that it is lent: answer, state and every buffer have to be the same.
macro_rules! both {
    ($b:expr, $s:expr, $f:ident, $g:ident, $number:expr $(, $x:expr)*) => {{
        if !$b.through() {
            return with!($b, $s, $f $(, $x)*);
        }
        let (mut copy, mut state) = ($b.clone(), *$s);
        let answer = with!(&mut *$b, &mut *$s, $f $(, $x)*);
        let other = with!(&mut copy, &mut state, $g $(, $x)*);
        through::count($number(other), other == answer && state == *$s && copy == *$b);
        answer
    }};
}

impl Buffers {
    /// Whether the calls over records are made too: where it is asked for, and the table isn't too large for them.
    fn through(&self) -> bool {
        let few = self.lent[2] <= 16 && self.lent[3] <= 16;
        if through::on() && !few {
            through::count(TOO_MANY, true);
        }
        through::on() && few
    }

    pub fn start(&mut self, s: &mut Numbers, settings: &[usize; 5]) -> u64 {
        unsafe { tambuyeel_start(settings, s, self.places.as_mut_ptr(), self.lent[5]) }
    }

    #[inline]
    pub fn append_value(&mut self, s: &mut Numbers, x: &[u8]) -> u64 {
        both!(self, s, tambuyeel_append_value, records_append_value, |n| n, x.as_ptr(), x.len())
    }

    pub fn append_values(&mut self, s: &mut Numbers, x: &[u8], n: usize) -> u64 {
        both!(self, s, tambuyeel_append_values, records_append_values, |n| n, x.as_ptr(), x.len(), n)
    }

    #[inline]
    pub fn append_null(&mut self, s: &mut Numbers) -> u64 {
        both!(self, s, tambuyeel_append_null, records_append_null, |n| n)
    }

    pub fn append_block(&mut self, s: &mut Numbers, x: &[u8]) -> Counted {
        both!(self, s, tambuyeel_append_block, records_append_block, |c: Counted| c.refused, x.as_ptr(), x.len())
    }

    pub fn append_view(&mut self, s: &mut Numbers, block: u32, offset: u32, n: u32) -> u64 {
        both!(self, s, tambuyeel_append_view, records_append_view, |n| n, block, offset, n)
    }

    pub fn append_column(&mut self, s: &mut Numbers, c: &Lent) -> Told {
        both!(self, s, tambuyeel_append_column, records_append_column, |t: Told| t.number, c.views.as_ptr(), c.views.len(), c.bytes.as_ptr(), c.bytes.len(),
            c.starts.as_ptr(), c.starts.len(), c.lens.as_ptr(), c.lens.len(), c.nulls.as_ptr(), c.nulls.len(), &c.column)
    }

    pub fn get_value(&mut self, s: &mut Numbers, row: usize) -> Place {
        let place = with!(&mut *self, &mut *s, tambuyeel_get_value, row);
        if self.through() {
            self.get_through(s, row, place);
        }
        place
    }

    pub fn finish(&mut self, s: &mut Numbers, column: &mut [usize; 5]) -> u64 {
        if !self.through() {
            return with!(self, s, tambuyeel_finish, column);
        }
        let (mut copy, mut state, mut other) = (self.clone(), *s, *column);
        let answer = with!(&mut *self, &mut *s, tambuyeel_finish, &mut *column);
        let number = with!(&mut copy, &mut state, records_finish, &mut other);
        through::count(number, number == answer && state == *s && other == *column && copy == *self);
        answer
    }

    pub fn finish_by_copy(&mut self, s: &mut Numbers, column: &mut [usize; 5]) -> u64 {
        if !self.through() {
            return with!(self, s, tambuyeel_finish_by_copy, column);
        }
        let (mut copy, mut state, mut other) = (self.clone(), *s, *column);
        let answer = with!(&mut *self, &mut *s, tambuyeel_finish_by_copy, &mut *column);
        let number = with!(&mut copy, &mut state, records_finish_by_copy, &mut other);
        through::count(number, number == answer && state == *s && other == *column && copy == *self);
        answer
    }

    /// A row's value over records: the same refusal, the part at that place, and still that part when its bytes are others.
    fn get_through(&self, s: &Numbers, row: usize, place: Place) {
        let (mut copy, mut state) = (self.clone(), *s);
        let number = with!(&mut copy, &mut state, records_why_get, row);
        let mut same = number == place.refused;
        for _ in 0..2 {
            let part = place.offset..place.offset + place.len;
            let want = if place.buffer == 0 { copy.views[part.clone()].to_vec() } else { copy.bytes[part.clone()].to_vec() };
            same &= with!(&mut copy, &mut state, records_get_value_is, row, want.as_ptr(), want.len()) == 1;
            let from = if place.buffer == 0 { &mut copy.views } else { &mut copy.bytes };
            from[part].iter_mut().for_each(|b| *b ^= 255);
        }
        through::count(number, same);
    }
}

/// A state by its numbers, as the header says it.
pub fn state_of(n: &Numbers) -> State {
    let w = n.map(|k| k as u64);
    State {
        kind: if w[0] == 0 { Kind::Binary } else { Kind::String },
        growth: if w[1] == 0 { Growth::Fixed(w[2]) } else { Growth::Doubling(w[2]) },
        merge: match w[3] {
            0 => Merge::Off,
            1 => Merge::On,
            _ => Merge::UpTo(w[4]),
        },
        rows: w[5],
        blocks: w[6],
        before: w[7],
        open: w[8],
        capacity: w[9],
        nulls: w[10] != 0,
    }
}

/// A state's numbers.
pub fn numbers_of(s: &State) -> Numbers {
    let (growth, size) = match s.growth {
        Growth::Fixed(n) => (0, n),
        Growth::Doubling(n) => (1, n),
    };
    let (merging, most) = match s.merge {
        Merge::Off => (0, 0),
        Merge::On => (1, 0),
        Merge::UpTo(n) => (2, n),
    };
    [(s.kind == Kind::String) as u64, growth, size, merging, most, s.rows, s.blocks, s.before, s.open, s.capacity, s.nulls as u64].map(|k| k as usize)
}

const KEY_A: u64 = 0x517c_c1b7_2722_0a95;
const KEY_B: u64 = 0x9e37_79b9_7f4a_7c15;

fn mix(h: u64, w: u64, k: u64) -> u64 {
    (h.rotate_left(5) ^ w).wrapping_mul(k)
}

fn word(x: &[u8], at: usize) -> u64 {
    u64::from_le_bytes(x[at..at + 8].try_into().unwrap())
}

/// The hash of a long value, as crates/hash/specs says it.
pub fn hash(x: &[u8]) -> u64 {
    let n = x.len();
    let (mut h, mut g, mut i) = (n as u64, 0, 0);
    while 16 < n - i {
        h = mix(h, word(x, i), KEY_A);
        g = mix(g, word(x, i + 8), KEY_B);
        i += 16;
    }
    if 8 < n - i {
        g = mix(g, word(x, i), KEY_B);
    }
    h = mix(h, word(x, n - 8), KEY_A);
    h = mix(h, g, KEY_A);
    h ^ (h >> 32)
}

/// A value of sixteen bytes whose hash is the same for every w.
pub fn colliding(w: u64) -> [u8; 16] {
    let mut inverse = 1u64;
    for _ in 0..6 {
        inverse = inverse.wrapping_mul(2u64.wrapping_sub(KEY_B.wrapping_mul(inverse)));
    }
    let h = mix(16, w, KEY_A);
    let first = (h.rotate_left(5) ^ 0x0123_4567_89ab_cdef).wrapping_mul(inverse);
    let mut out = [0; 16];
    out[..8].copy_from_slice(&first.to_le_bytes());
    out[8..].copy_from_slice(&w.to_le_bytes());
    out
}
