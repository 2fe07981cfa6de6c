//! The library's calls, made safe: a slice crosses as its pointer and its count of elements. All `unsafe` of this crate is here.
//!
//! The calls are proved, for all contents of what they are lent, to stay within the counts, to write only to what is lent as mutable, to keep
//! no pointer and to end. What Rust adds is that the pointers are live and that what is written to overlaps nothing else: borrows.

/// An answer, and the row that refusal 11 names.
#[repr(C)]
#[derive(Clone, Copy)]
pub(crate) struct Told {
    pub number: u64,
    pub row: usize,
}

/// A part of a buffer: 0 of the views, 1 of the data.
#[repr(C)]
#[derive(Clone, Copy)]
pub(crate) struct Place {
    pub refused: u64,
    pub buffer: u64,
    pub offset: usize,
    pub len: usize,
}

#[repr(C)]
#[derive(Clone, Copy)]
pub(crate) struct Counted {
    pub refused: u64,
    pub number: usize,
}

#[repr(C)]
#[derive(Clone, Copy)]
pub(crate) struct Run {
    pub refused: u64,
    pub first: usize,
    pub rows: usize,
}

#[repr(C)]
#[derive(Clone, Copy)]
pub(crate) struct Marks {
    pub refused: u64,
    pub row: usize,
    pub nulls: usize,
    pub others: usize,
    pub codes: usize,
    pub dates: usize,
}

#[repr(C)]
#[derive(Clone, Copy)]
pub(crate) struct Text {
    pub yes: u64,
    pub place: usize,
}

/// A column as it is lent: first row, rows, blocks, kind and map in its numbers.
#[derive(Clone, Copy)]
pub(crate) struct Lent<'a> {
    pub views: &'a [u8],
    pub bytes: &'a [u8],
    pub starts: &'a [usize],
    pub lens: &'a [usize],
    pub nulls: &'a [u8],
    pub numbers: [usize; 5],
}

/// Buffers to write to.
pub(crate) struct Room<'a> {
    pub views: &'a mut [u8],
    pub bytes: &'a mut [u8],
    pub starts: &'a mut [usize],
    pub lens: &'a mut [usize],
    pub nulls: &'a mut [u8],
}

/// Declares calls: each parameter list may hold `LENT` (a column's five slices and its numbers) and `ROOM` (five slices to write to).
macro_rules! declared {
    ($($name:ident($($words:tt)*) -> $answer:ty;)*) => { $(declared!(@ $name [$($words)*] [] -> $answer);)* };
    (@ $name:ident [LENT $(, $($rest:tt)*)?] [$($done:tt)*] -> $answer:ty) => {
        declared!(@ $name [$($($rest)*)?] [$($done)* _: *const u8, _: usize, _: *const u8, _: usize, _: *const usize, _: usize, _: *const usize, _: usize,
            _: *const u8, _: usize, _: *const [usize; 5],] -> $answer);
    };
    (@ $name:ident [ROOM $(, $($rest:tt)*)?] [$($done:tt)*] -> $answer:ty) => {
        declared!(@ $name [$($($rest)*)?] [$($done)* _: *mut u8, _: usize, _: *mut u8, _: usize, _: *mut usize, _: usize, _: *mut usize, _: usize,
            _: *mut u8, _: usize,] -> $answer);
    };
    (@ $name:ident [$kind:ty $(, $($rest:tt)*)?] [$($done:tt)*] -> $answer:ty) => {
        declared!(@ $name [$($($rest)*)?] [$($done)* _: $kind,] -> $answer);
    };
    (@ $name:ident [] [$($done:tt)*] -> $answer:ty) => { extern "C" { fn $name($($done)*) -> $answer; } };
}

type State = [usize; 11];

declared! {
    tambuyeel_value(LENT, usize) -> Place;
    tambuyeel_prefix(LENT, usize, usize) -> Place;
    tambuyeel_suffix(LENT, usize, usize) -> Place;
    tambuyeel_length(LENT, usize) -> Counted;
    tambuyeel_null_bit(LENT, usize) -> Counted;
    tambuyeel_null_run(LENT, usize, usize) -> Counted;
    tambuyeel_slice(LENT, usize, usize) -> Run;
    tambuyeel_total_bytes_len(LENT) -> Counted;
    tambuyeel_total_buffer_bytes_used(LENT) -> Counted;
    tambuyeel_check(LENT) -> Told;
    tambuyeel_mark(LENT, usize) -> Counted;
    tambuyeel_count_marks(LENT) -> Marks;
    tambuyeel_compare(LENT, usize, LENT, usize) -> u64;
    tambuyeel_same_column(LENT, LENT) -> Told;
    tambuyeel_make_view(*const u8, usize, u32, u32, *mut [u8; 16]) -> u64;
    tambuyeel_utf8(*const u8, usize) -> Text;
    tambuyeel_start(*const [usize; 5], *mut State, *mut u32, usize) -> u64;
    tambuyeel_append_value(*mut State, ROOM, *mut u32, usize, *const u8, usize) -> u64;
    tambuyeel_append_values(*mut State, ROOM, *mut u32, usize, *const u8, usize, usize) -> u64;
    tambuyeel_append_null(*mut State, ROOM, *mut u32, usize) -> u64;
    tambuyeel_append_block(*mut State, ROOM, *mut u32, usize, *const u8, usize) -> Counted;
    tambuyeel_append_view(*mut State, ROOM, *mut u32, usize, u32, u32, u32) -> u64;
    tambuyeel_append_column(*mut State, ROOM, *mut u32, usize, LENT) -> Told;
    tambuyeel_get_value(*const State, *const u8, usize, *const u8, usize, *const usize, usize, *const usize, usize, *const u8, usize,
        *const u32, usize, usize) -> Place;
    tambuyeel_finish(*mut State, ROOM, *mut u32, usize, *mut [usize; 5]) -> u64;
    tambuyeel_finish_by_copy(*mut State, ROOM, *mut u32, usize, *mut [usize; 5]) -> u64;
    tambuyeel_compact(LENT, usize, ROOM, *mut [usize; 5]) -> Told;
    tambuyeel_from_offsets(*const u8, usize, *const u8, usize, *const u8, usize, usize, usize, ROOM, *mut [usize; 5]) -> u64;
}

/// Safe functions over one column: the call with its slices, then the numbers asked with it.
macro_rules! reading {
    ($($name:ident = $call:ident($($arg:ident),*) -> $answer:ty;)*) => { $(
        pub(crate) fn $name(l: &Lent<'_>, $($arg: usize),*) -> $answer {
            // SAFETY: each pointer goes with the count of its own slice, which the borrow in `l` keeps live and unwritten during the call;
            // `numbers` is five numbers. The call only reads, within the counts, and keeps nothing.
            unsafe {
                $call(l.views.as_ptr(), l.views.len(), l.bytes.as_ptr(), l.bytes.len(), l.starts.as_ptr(), l.starts.len(),
                    l.lens.as_ptr(), l.lens.len(), l.nulls.as_ptr(), l.nulls.len(), &l.numbers, $($arg),*)
            }
        }
    )* };
}

reading! {
    value = tambuyeel_value(row) -> Place;
    prefix = tambuyeel_prefix(row, n) -> Place;
    suffix = tambuyeel_suffix(row, n) -> Place;
    length = tambuyeel_length(row) -> Counted;
    null_bit = tambuyeel_null_bit(row) -> Counted;
    null_run = tambuyeel_null_run(start, count) -> Counted;
    slice = tambuyeel_slice(start, count) -> Run;
    total_bytes_len = tambuyeel_total_bytes_len() -> Counted;
    total_buffer_bytes_used = tambuyeel_total_buffer_bytes_used() -> Counted;
    check = tambuyeel_check() -> Told;
    mark = tambuyeel_mark(row) -> Counted;
    count_marks = tambuyeel_count_marks() -> Marks;
}

pub(crate) fn compare(l: &Lent<'_>, i: usize, m: &Lent<'_>, j: usize) -> u64 {
    // SAFETY: as for one column, twice; both are only read, so they may share buffers.
    unsafe {
        tambuyeel_compare(
            l.views.as_ptr(), l.views.len(), l.bytes.as_ptr(), l.bytes.len(), l.starts.as_ptr(), l.starts.len(),
            l.lens.as_ptr(), l.lens.len(), l.nulls.as_ptr(), l.nulls.len(), &l.numbers, i,
            m.views.as_ptr(), m.views.len(), m.bytes.as_ptr(), m.bytes.len(), m.starts.as_ptr(), m.starts.len(),
            m.lens.as_ptr(), m.lens.len(), m.nulls.as_ptr(), m.nulls.len(), &m.numbers, j,
        )
    }
}

pub(crate) fn same_column(l: &Lent<'_>, m: &Lent<'_>) -> Told {
    // SAFETY: as for one column, twice; both are only read, so they may share buffers.
    unsafe {
        tambuyeel_same_column(
            l.views.as_ptr(), l.views.len(), l.bytes.as_ptr(), l.bytes.len(), l.starts.as_ptr(), l.starts.len(),
            l.lens.as_ptr(), l.lens.len(), l.nulls.as_ptr(), l.nulls.len(), &l.numbers,
            m.views.as_ptr(), m.views.len(), m.bytes.as_ptr(), m.bytes.len(), m.starts.as_ptr(), m.starts.len(),
            m.lens.as_ptr(), m.lens.len(), m.nulls.as_ptr(), m.nulls.len(), &m.numbers,
        )
    }
}

pub(crate) fn make_view(x: &[u8], block: u32, offset: u32, view: &mut [u8; 16]) -> u64 {
    // SAFETY: `x` is lent with its count and read; `view` is sixteen bytes that nothing else borrows.
    unsafe { tambuyeel_make_view(x.as_ptr(), x.len(), block, offset, view) }
}

pub(crate) fn utf8(x: &[u8]) -> Text {
    // SAFETY: `x` is lent with its count and only read.
    unsafe { tambuyeel_utf8(x.as_ptr(), x.len()) }
}

pub(crate) fn start(settings: &[usize; 5], state: &mut State, places: &mut [u32]) -> u64 {
    // SAFETY: five numbers to read, eleven to write, and a slice with its count that nothing else borrows.
    unsafe { tambuyeel_start(settings, state, places.as_mut_ptr(), places.len()) }
}

/// Safe functions over a builder: the call with its state and six slices, then what is given with it.
macro_rules! building {
    ($($name:ident = $call:ident($($arg:ident: $kind:ty),*; $($word:expr),*) -> $answer:ty;)*) => { $(
        #[inline]
        pub(crate) fn $name(state: &mut State, r: Room<'_>, places: &mut [u32], $($arg: $kind),*) -> $answer {
            // SAFETY: the state is eleven numbers. Each pointer goes with the count of its own slice; the exclusive borrows keep what is
            // written apart from each other and from what is given to be read. The call stays within the counts and keeps nothing.
            unsafe {
                $call(state, r.views.as_mut_ptr(), r.views.len(), r.bytes.as_mut_ptr(), r.bytes.len(), r.starts.as_mut_ptr(), r.starts.len(),
                    r.lens.as_mut_ptr(), r.lens.len(), r.nulls.as_mut_ptr(), r.nulls.len(), places.as_mut_ptr(), places.len(), $($word),*)
            }
        }
    )* };
}

building! {
    append_value = tambuyeel_append_value(x: &[u8]; x.as_ptr(), x.len()) -> u64;
    append_values = tambuyeel_append_values(x: &[u8], n: usize; x.as_ptr(), x.len(), n) -> u64;
    append_null = tambuyeel_append_null(;) -> u64;
    append_block = tambuyeel_append_block(x: &[u8]; x.as_ptr(), x.len()) -> Counted;
    append_view = tambuyeel_append_view(block: u32, offset: u32, n: u32; block, offset, n) -> u64;
    append_column = tambuyeel_append_column(l: &Lent<'_>; l.views.as_ptr(), l.views.len(), l.bytes.as_ptr(), l.bytes.len(), l.starts.as_ptr(),
        l.starts.len(), l.lens.as_ptr(), l.lens.len(), l.nulls.as_ptr(), l.nulls.len(), &l.numbers) -> Told;
    finish = tambuyeel_finish(numbers: &mut [usize; 5]; numbers) -> u64;
    finish_by_copy = tambuyeel_finish_by_copy(numbers: &mut [usize; 5]; numbers) -> u64;
}

/// The numbers in `l` aren't looked at: the state is the builder's.
pub(crate) fn get_value(state: &State, l: &Lent<'_>, places: &[u32], row: usize) -> Place {
    // SAFETY: the state is eleven numbers, each pointer goes with the count of its own slice, and all is only read.
    unsafe {
        tambuyeel_get_value(
            state, l.views.as_ptr(), l.views.len(), l.bytes.as_ptr(), l.bytes.len(), l.starts.as_ptr(), l.starts.len(),
            l.lens.as_ptr(), l.lens.len(), l.nulls.as_ptr(), l.nulls.len(), places.as_ptr(), places.len(), row,
        )
    }
}

pub(crate) fn compact(l: &Lent<'_>, most: usize, r: Room<'_>, numbers: &mut [usize; 5]) -> Told {
    // SAFETY: the source is read, as in `reading!`; the exclusive borrows in `r` keep the output apart from it, with a count for each pointer.
    unsafe {
        tambuyeel_compact(
            l.views.as_ptr(), l.views.len(), l.bytes.as_ptr(), l.bytes.len(), l.starts.as_ptr(), l.starts.len(),
            l.lens.as_ptr(), l.lens.len(), l.nulls.as_ptr(), l.nulls.len(), &l.numbers, most,
            r.views.as_mut_ptr(), r.views.len(), r.bytes.as_mut_ptr(), r.bytes.len(), r.starts.as_mut_ptr(), r.starts.len(),
            r.lens.as_mut_ptr(), r.lens.len(), r.nulls.as_mut_ptr(), r.nulls.len(), numbers,
        )
    }
}

/// `offsets` are little-endian, four bytes each.
pub(crate) fn from_offsets(offsets: &[u8], bytes: &[u8], nulls: Option<&[u8]>, kind: usize, r: Room<'_>, numbers: &mut [usize; 5]) -> u64 {
    let (mapped, nulls) = (nulls.is_some() as usize, nulls.unwrap_or(&[]));
    // SAFETY: three slices to read and five to write, each with its count; the exclusive borrows in `r` keep the output apart from the rest.
    unsafe {
        tambuyeel_from_offsets(
            offsets.as_ptr(), offsets.len(), bytes.as_ptr(), bytes.len(), nulls.as_ptr(), nulls.len(), mapped, kind,
            r.views.as_mut_ptr(), r.views.len(), r.bytes.as_mut_ptr(), r.bytes.len(), r.starts.as_mut_ptr(), r.starts.len(),
            r.lens.as_mut_ptr(), r.lens.len(), r.nulls.as_mut_ptr(), r.nulls.len(), numbers,
        )
    }
}
