//! A buffer of numbers, and one of offsets.

use crate::{ArrowNativeType, Buffer};
use std::marker::PhantomData;
use std::ops::Deref;

/// A buffer seen as numbers.
#[derive(Clone)]
pub struct ScalarBuffer<T: ArrowNativeType> {
    buffer: Buffer,
    phantom: PhantomData<T>,
}

impl<T: ArrowNativeType> ScalarBuffer<T> {
    /// The numbers from `offset` on, `len` of them.
    ///
    /// # Panics
    ///
    /// If they don't lie in the buffer, or it isn't aligned for them.
    pub fn new(buffer: Buffer, offset: usize, len: usize) -> Self {
        let size = std::mem::size_of::<T>();
        let at = offset.checked_mul(size).expect("offset overflow");
        let bytes = len.checked_mul(size).expect("length overflow");
        buffer.slice_with_length(at, bytes).into()
    }

    /// A part of this, which shares its memory.
    ///
    /// # Panics
    ///
    /// If the part doesn't lie in this.
    pub fn slice(&self, offset: usize, len: usize) -> Self {
        Self::new(self.buffer.clone(), offset, len)
    }

    pub fn inner(&self) -> &Buffer {
        &self.buffer
    }

    pub fn into_inner(self) -> Buffer {
        self.buffer
    }

    pub fn shrink_to_fit(&mut self) {
        self.buffer.shrink_to_fit();
    }
}

impl<T: ArrowNativeType> Deref for ScalarBuffer<T> {
    type Target = [T];

    #[inline]
    fn deref(&self) -> &[T] {
        // SAFETY: aligned, since `from` checked it, and every bit pattern is a number.
        unsafe {
            std::slice::from_raw_parts(
                self.buffer.as_ptr().cast::<T>(),
                self.buffer.len() / std::mem::size_of::<T>(),
            )
        }
    }
}

impl<T: ArrowNativeType> From<Buffer> for ScalarBuffer<T> {
    fn from(buffer: Buffer) -> Self {
        assert_eq!(
            buffer.as_ptr().align_offset(std::mem::align_of::<T>()),
            0,
            "Memory pointer is not aligned with the specified scalar type"
        );
        Self {
            buffer,
            phantom: PhantomData,
        }
    }
}

impl<T: ArrowNativeType> From<Vec<T>> for ScalarBuffer<T> {
    fn from(vec: Vec<T>) -> Self {
        Self {
            buffer: Buffer::from_vec(vec),
            phantom: PhantomData,
        }
    }
}

impl<'a, T: ArrowNativeType> IntoIterator for &'a ScalarBuffer<T> {
    type Item = &'a T;
    type IntoIter = std::slice::Iter<'a, T>;

    fn into_iter(self) -> Self::IntoIter {
        self.iter()
    }
}

impl<T: ArrowNativeType> std::fmt::Debug for ScalarBuffer<T> {
    fn fmt(&self, f: &mut std::fmt::Formatter<'_>) -> std::fmt::Result {
        f.debug_tuple("ScalarBuffer").field(&&**self).finish()
    }
}

/// At least one offset, none negative and none below the one before it.
#[derive(Debug, Clone)]
pub struct OffsetBuffer<O: ArrowNativeType>(ScalarBuffer<O>);

impl<O: ArrowNativeType> OffsetBuffer<O> {
    /// # Panics
    ///
    /// If there is no offset, or one is negative or below the one before it.
    pub fn new(buffer: ScalarBuffer<O>) -> Self {
        assert!(!buffer.is_empty(), "offsets cannot be empty");
        assert!(buffer[0] >= O::default(), "offsets must be greater than 0");
        assert!(
            buffer.windows(2).all(|w| w[0] <= w[1]),
            "offsets must be monotonically increasing"
        );
        Self(buffer)
    }

    /// The last offset. There always is one.
    pub fn last(&self) -> O {
        self.0[self.0.len() - 1]
    }
}

impl<O: ArrowNativeType> Deref for OffsetBuffer<O> {
    type Target = [O];

    #[inline]
    fn deref(&self) -> &[O] {
        &self.0
    }
}
