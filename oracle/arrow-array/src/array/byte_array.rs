//! A stand-in of ours for arrow-array's byte_array.rs: bytes in one buffer, cut by offsets. What it accepts is what the
//! published `ByteArrayType::validate` accepts, over the documented rules of an offset buffer.

use super::{Array, ArrayAccessor, ArrayRef};
use crate::iterator::ArrayIter;
use crate::types::ByteArrayType;
use crate::types::bytes::ByteArrayNativeType;
use arrow_buffer::{ArrowNativeType, Buffer, NullBuffer, OffsetBuffer};
use arrow_data::ArrayData;
use arrow_schema::{ArrowError, DataType};
use std::any::Any;
use std::fmt;

/// A column of bytes by offsets.
pub struct GenericByteArray<T: ByteArrayType> {
    data_type: DataType,
    value_offsets: OffsetBuffer<T::Offset>,
    value_data: Buffer,
    nulls: Option<NullBuffer>,
}

impl<T: ByteArrayType> GenericByteArray<T> {
    /// # Errors
    ///
    /// If the nulls have another length than the rows, or `ByteArrayType::validate` says no.
    pub fn try_new(
        offsets: OffsetBuffer<T::Offset>,
        values: Buffer,
        nulls: Option<NullBuffer>,
    ) -> Result<Self, ArrowError> {
        T::validate(&offsets, &values)?;
        if nulls.as_ref().is_some_and(|n| n.len() != offsets.len() - 1) {
            return Err(ArrowError::InvalidArgumentError(
                "Incorrect length of null buffer".to_string(),
            ));
        }
        Ok(Self {
            data_type: T::DATA_TYPE,
            value_offsets: offsets,
            value_data: values,
            nulls,
        })
    }

    pub fn offsets(&self) -> &OffsetBuffer<T::Offset> {
        &self.value_offsets
    }

    pub fn values(&self) -> &Buffer {
        &self.value_data
    }

    pub fn iter(&self) -> ArrayIter<&Self> {
        ArrayIter::new(self)
    }
}

impl<T: ByteArrayType> Clone for GenericByteArray<T> {
    fn clone(&self) -> Self {
        Self {
            data_type: T::DATA_TYPE,
            value_offsets: self.value_offsets.clone(),
            value_data: self.value_data.clone(),
            nulls: self.nulls.clone(),
        }
    }
}

impl<T: ByteArrayType> fmt::Debug for GenericByteArray<T> {
    fn fmt(&self, f: &mut fmt::Formatter<'_>) -> fmt::Result {
        write!(f, "{}Array of {} rows", T::PREFIX, self.len())
    }
}

// SAFETY: made by `try_new` alone.
unsafe impl<T: ByteArrayType> Array for GenericByteArray<T> {
    fn as_any(&self) -> &dyn Any {
        self
    }

    fn to_data(&self) -> ArrayData {
        unimplemented!("no ArrayData of an offset column here")
    }

    fn into_data(self) -> ArrayData {
        self.to_data()
    }

    fn data_type(&self) -> &DataType {
        &self.data_type
    }

    fn slice(&self, _offset: usize, _length: usize) -> ArrayRef {
        unimplemented!("no slice of an offset column here")
    }

    fn len(&self) -> usize {
        self.value_offsets.len() - 1
    }

    fn is_empty(&self) -> bool {
        self.len() == 0
    }

    fn offset(&self) -> usize {
        0
    }

    fn nulls(&self) -> Option<&NullBuffer> {
        self.nulls.as_ref()
    }

    fn get_buffer_memory_size(&self) -> usize {
        self.value_data.capacity()
    }

    fn get_array_memory_size(&self) -> usize {
        size_of::<Self>() + self.get_buffer_memory_size()
    }
}

impl<'a, T: ByteArrayType> ArrayAccessor for &'a GenericByteArray<T> {
    type Item = &'a T::Native;

    fn value(&self, index: usize) -> Self::Item {
        assert!(index < self.len());
        unsafe { self.value_unchecked(index) }
    }

    unsafe fn value_unchecked(&self, index: usize) -> Self::Item {
        let start = self.value_offsets[index].as_usize();
        let end = self.value_offsets[index + 1].as_usize();
        let bytes = &self.value_data.as_slice()[start..end];
        // SAFETY: `try_new` asked `validate`.
        unsafe { T::Native::from_bytes_unchecked(bytes) }
    }
}
