//! The static library's compaction and offset column, made safe: a slice crosses as its pointer and its count of elements, a column as five numbers.

#[path = "../../shared/lent.rs"]
pub mod lent;
#[path = "../../shared/timing.rs"]
pub mod timing;

pub use lent::{Lent, Told, kind_number, numbers};
use lent::lent;

unsafe extern "C" {
    fn tambuyeel_compact(
        views: *const u8, views_len: usize, bytes: *const u8, bytes_len: usize,
        starts: *const usize, starts_len: usize, lens: *const usize, lens_len: usize,
        nulls: *const u8, nulls_len: usize, column: *const usize, most: usize,
        newviews: *mut u8, newviews_len: usize, newbytes: *mut u8, newbytes_len: usize,
        newstarts: *mut usize, newstarts_len: usize, newlens: *mut usize, newlens_len: usize,
        newnulls: *mut u8, newnulls_len: usize, newcolumn: *mut [usize; 5],
    ) -> Told;

    fn records_compact(
        views: *const u8, views_len: usize, bytes: *const u8, bytes_len: usize,
        starts: *const usize, starts_len: usize, lens: *const usize, lens_len: usize,
        nulls: *const u8, nulls_len: usize, column: *const usize, most: usize,
        newviews: *mut u8, newviews_len: usize, newbytes: *mut u8, newbytes_len: usize,
        newstarts: *mut usize, newstarts_len: usize, newlens: *mut usize, newlens_len: usize,
        newnulls: *mut u8, newnulls_len: usize, newcolumn: *mut [usize; 5],
    ) -> Told;

    fn tambuyeel_from_offsets(
        offsets: *const u8, offsets_len: usize, bytes: *const u8, bytes_len: usize, nulls: *const u8, nulls_len: usize, mapped: usize, kind: usize,
        newviews: *mut u8, newviews_len: usize, newbytes: *mut u8, newbytes_len: usize,
        newstarts: *mut usize, newstarts_len: usize, newlens: *mut usize, newlens_len: usize,
        newnulls: *mut u8, newnulls_len: usize, newcolumn: *mut [usize; 5],
    ) -> u64;
}

impl Lent {
    pub fn compact(&self, most: usize, out: &mut Lent) -> Told {
        lent!(tambuyeel_compact(), self, (
            most,
            out.views.as_mut_ptr(), out.views.len(), out.bytes.as_mut_ptr(), out.bytes.len(),
            out.starts.as_mut_ptr(), out.starts.len(), out.lens.as_mut_ptr(), out.lens.len(),
            out.nulls.as_mut_ptr(), out.nulls.len(), &mut out.column
        ))
    }

    /// The same over tables of records, of at most 16 each.
    pub fn compact_through(&self, most: usize, out: &mut Lent) -> Told {
        lent!(records_compact(), self, (
            most,
            out.views.as_mut_ptr(), out.views.len(), out.bytes.as_mut_ptr(), out.bytes.len(),
            out.starts.as_mut_ptr(), out.starts.len(), out.lens.as_mut_ptr(), out.lens.len(),
            out.nulls.as_mut_ptr(), out.nulls.len(), &mut out.column
        ))
    }
}

pub fn from_offsets(offsets: &[u8], bytes: &[u8], map: Option<&[u8]>, kind: usize, out: &mut Lent) -> u64 {
    let nulls = map.unwrap_or(&[]);
    unsafe {
        tambuyeel_from_offsets(
            offsets.as_ptr(), offsets.len(), bytes.as_ptr(), bytes.len(), nulls.as_ptr(), nulls.len(), map.is_some() as usize, kind,
            out.views.as_mut_ptr(), out.views.len(), out.bytes.as_mut_ptr(), out.bytes.len(),
            out.starts.as_mut_ptr(), out.starts.len(), out.lens.as_mut_ptr(), out.lens.len(),
            out.nulls.as_mut_ptr(), out.nulls.len(), &mut out.column,
        )
    }
}
