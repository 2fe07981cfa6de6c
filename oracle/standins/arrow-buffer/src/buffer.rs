//! A shared, immutable run of bytes.

use crate::ArrowNativeType;
use std::alloc::{Layout, dealloc, realloc};
use std::fmt;
use std::ops::Deref;
use std::ptr::NonNull;
use std::sync::Arc;

/// Memory taken over from a `Vec`.
struct Bytes {
    ptr: NonNull<u8>,
    len: usize,
    layout: Layout,
}

impl Drop for Bytes {
    fn drop(&mut self) {
        if self.layout.size() > 0 {
            // SAFETY: the memory came from a `Vec` with this layout.
            unsafe { dealloc(self.ptr.as_ptr(), self.layout) }
        }
    }
}

// SAFETY: nothing writes to the bytes while they are shared.
unsafe impl Send for Bytes {}
unsafe impl Sync for Bytes {}

/// A part of shared bytes.
#[derive(Clone)]
pub struct Buffer {
    data: Arc<Bytes>,
    ptr: *const u8,
    length: usize,
}

// SAFETY: as for the bytes.
unsafe impl Send for Buffer {}
unsafe impl Sync for Buffer {}

impl Buffer {
    /// The memory of a `Vec`, without a copy.
    #[inline]
    pub fn from_vec<T: ArrowNativeType>(vec: Vec<T>) -> Self {
        let mut vec = std::mem::ManuallyDrop::new(vec);
        let layout = Layout::array::<T>(vec.capacity()).unwrap();
        // SAFETY: a `Vec`'s pointer is never null.
        let ptr = unsafe { NonNull::new_unchecked(vec.as_mut_ptr().cast::<u8>()) };
        let len = std::mem::size_of_val(vec.as_slice());
        Self {
            ptr: ptr.as_ptr(),
            length: len,
            data: Arc::new(Bytes { ptr, len, layout }),
        }
    }

    /// A copy of the items.
    pub fn from_slice_ref<U: ArrowNativeType, T: AsRef<[U]>>(items: T) -> Self {
        Self::from_vec(items.as_ref().to_vec())
    }

    #[inline]
    pub fn len(&self) -> usize {
        self.length
    }

    #[inline]
    pub fn is_empty(&self) -> bool {
        self.length == 0
    }

    /// The bytes of memory that it holds.
    pub fn capacity(&self) -> usize {
        self.data.layout.size()
    }

    #[inline]
    pub fn as_slice(&self) -> &[u8] {
        // SAFETY: the part lies in the bytes that `data` keeps.
        unsafe { std::slice::from_raw_parts(self.ptr, self.length) }
    }

    #[inline]
    pub fn as_ptr(&self) -> *const u8 {
        self.ptr
    }

    /// A part of this, which shares its memory.
    ///
    /// # Panics
    ///
    /// If the part doesn't lie in this.
    pub fn slice_with_length(&self, offset: usize, length: usize) -> Self {
        assert!(
            offset.saturating_add(length) <= self.length,
            "the offset of the new Buffer cannot exceed the existing length"
        );
        Self {
            data: self.data.clone(),
            // SAFETY: just checked.
            ptr: unsafe { self.ptr.add(offset) },
            length,
        }
    }

    /// Gives back memory past the end, if nobody else holds this and it begins at the memory's start.
    pub fn shrink_to_fit(&mut self) {
        let begins = std::ptr::eq(self.ptr, self.data.ptr.as_ptr());
        let length = self.length;
        let Some(bytes) = Arc::get_mut(&mut self.data) else {
            return;
        };
        if !begins || length == 0 || length == bytes.layout.size() {
            return;
        }
        let layout = Layout::from_size_align(length, bytes.layout.align()).unwrap();
        // SAFETY: the memory has this layout and the new size is above 0.
        let new = unsafe { realloc(bytes.ptr.as_ptr(), bytes.layout, length) };
        if let Some(ptr) = NonNull::new(new) {
            bytes.ptr = ptr;
            bytes.layout = layout;
            bytes.len = length;
            self.ptr = ptr.as_ptr();
        }
    }
}

impl Deref for Buffer {
    type Target = [u8];

    #[inline]
    fn deref(&self) -> &[u8] {
        self.as_slice()
    }
}

impl AsRef<[u8]> for Buffer {
    fn as_ref(&self) -> &[u8] {
        self.as_slice()
    }
}

impl PartialEq for Buffer {
    fn eq(&self, other: &Self) -> bool {
        self.as_slice() == other.as_slice()
    }
}

impl Eq for Buffer {}

impl fmt::Debug for Buffer {
    fn fmt(&self, f: &mut fmt::Formatter<'_>) -> fmt::Result {
        f.debug_struct("Buffer")
            .field("length", &self.length)
            .field("data", &self.as_slice())
            .field("kept", &self.data.len)
            .finish()
    }
}

impl<T: ArrowNativeType> From<Vec<T>> for Buffer {
    fn from(vec: Vec<T>) -> Self {
        Self::from_vec(vec)
    }
}

impl From<&[u8]> for Buffer {
    fn from(bytes: &[u8]) -> Self {
        Self::from_vec(bytes.to_vec())
    }
}

impl<const N: usize> From<&[u8; N]> for Buffer {
    fn from(bytes: &[u8; N]) -> Self {
        Self::from_vec(bytes.to_vec())
    }
}
