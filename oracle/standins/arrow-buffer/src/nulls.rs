//! Which rows are null: 0 is null, 1 is valid, and the number of nulls is known.

use crate::{BitIterator, BooleanBuffer, Buffer};

/// The null bits of an array.
#[derive(Debug, Clone)]
pub struct NullBuffer {
    buffer: BooleanBuffer,
    null_count: usize,
}

impl NullBuffer {
    pub fn new(buffer: BooleanBuffer) -> Self {
        let null_count = buffer.len() - buffer.count_set_bits();
        Self { buffer, null_count }
    }

    /// All rows null.
    pub fn new_null(len: usize) -> Self {
        Self {
            buffer: BooleanBuffer::new_unset(len),
            null_count: len,
        }
    }

    #[inline]
    pub fn len(&self) -> usize {
        self.buffer.len()
    }

    #[inline]
    pub fn is_empty(&self) -> bool {
        self.buffer.is_empty()
    }

    #[inline]
    pub fn null_count(&self) -> usize {
        self.null_count
    }

    /// # Panics
    ///
    /// If there is no such row.
    #[inline]
    pub fn is_null(&self, i: usize) -> bool {
        !self.is_valid(i)
    }

    /// # Panics
    ///
    /// If there is no such row.
    #[inline]
    pub fn is_valid(&self, i: usize) -> bool {
        self.buffer.value(i)
    }

    /// A part of these, which shares their memory and is counted anew.
    ///
    /// # Panics
    ///
    /// If the part doesn't lie in these.
    pub fn slice(&self, offset: usize, len: usize) -> Self {
        Self::new(self.buffer.slice(offset, len))
    }

    pub fn iter(&self) -> BitIterator<'_> {
        self.buffer.iter()
    }

    pub fn inner(&self) -> &BooleanBuffer {
        &self.buffer
    }

    pub fn buffer(&self) -> &Buffer {
        self.buffer.inner()
    }

    pub fn shrink_to_fit(&mut self) {
        self.buffer.shrink_to_fit();
    }
}
