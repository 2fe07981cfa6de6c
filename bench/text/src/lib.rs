//! The static library's calls, made safe: a slice crosses as its pointer and its count of bytes.

#[path = "../../../oracle/src/random.rs"]
mod random;
#[path = "../../shared/timing.rs"]
pub mod timing;

pub use random::Random;

/// The published files.
pub mod original {
    pub use arrow_array::builder::make_view;
}

/// The answer to the UTF-8 question: 1 or 0, and the place of the first ill-formed sequence, or the end.
#[repr(C)]
pub struct Text {
    pub yes: u64,
    pub place: usize,
}

mod raw {
    unsafe extern "C" {
        pub fn tambuyeel_utf8(x: *const u8, n: usize) -> super::Text;
        pub fn tambuyeel_make_view(x: *const u8, n: usize, block: u32, offset: u32, view: *mut [u8; 16]) -> u64;
    }
}

#[inline]
pub fn utf8(s: &[u8]) -> Text {
    unsafe { raw::tambuyeel_utf8(s.as_ptr(), s.len()) }
}

#[inline]
pub fn make_view(out: &mut [u8; 16], v: &[u8], block: u32, offset: u32) -> u64 {
    unsafe { raw::tambuyeel_make_view(v.as_ptr(), v.len(), block, offset, out) }
}

/// Up to where `s` is well formed, by Rust's own library.
pub fn std_first_bad(s: &[u8]) -> usize {
    match std::str::from_utf8(s) {
        Ok(_) => s.len(),
        Err(e) => e.valid_up_to(),
    }
}

/// A code point that a text may have, from each length of a sequence alike.
pub fn letter(x: &mut Random) -> char {
    loop {
        let (lo, hi) = [(0, 0x80), (0x80, 0x800), (0x800, 0x10000), (0x10000, 0x110000)][x.below(4) as usize];
        if let Some(c) = char::from_u32((lo + x.below(hi - lo)) as u32) {
            return c;
        }
    }
}
