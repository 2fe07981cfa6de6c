//! A stand-in of ours for arrow-data: the view's fields, the array's parts and the two validators. The validators'
//! bodies aren't published with the two files, so theirs follow document 01 ("true") and are compared with nothing.

use arrow_buffer::{Buffer, NullBuffer};
use arrow_schema::{ArrowError, DataType};

/// The longest value that lies in its view.
pub const MAX_INLINE_VIEW_LEN: u32 = 12;

/// The fields of a long value's view, from the low bits up.
#[derive(Debug, Copy, Clone, Default, PartialEq, Eq)]
#[repr(C)]
pub struct ByteView {
    pub length: u32,
    pub prefix: u32,
    pub buffer_index: u32,
    pub offset: u32,
}

impl ByteView {
    #[inline(always)]
    pub fn as_u128(self) -> u128 {
        (self.length as u128)
            | ((self.prefix as u128) << 32)
            | ((self.buffer_index as u128) << 64)
            | ((self.offset as u128) << 96)
    }
}

impl From<u128> for ByteView {
    #[inline]
    fn from(value: u128) -> Self {
        Self {
            length: value as u32,
            prefix: (value >> 32) as u32,
            buffer_index: (value >> 64) as u32,
            offset: (value >> 96) as u32,
        }
    }
}

impl From<ByteView> for u128 {
    #[inline]
    fn from(value: ByteView) -> Self {
        value.as_u128()
    }
}

fn wrong(row: usize, what: &str) -> ArrowError {
    ArrowError::InvalidArgumentError(format!("View at index {row}: {what}"))
}

/// Every view's value handed to `judge`, once it is reachable, padded with zeros and begins with its prefix.
fn validate(
    views: &[u128],
    buffers: &[Buffer],
    judge: impl Fn(&[u8]) -> bool,
) -> Result<(), ArrowError> {
    for (row, view) in views.iter().enumerate() {
        let bytes = view.to_le_bytes();
        let len = *view as u32;
        let value = if len <= MAX_INLINE_VIEW_LEN {
            let end = 4 + len as usize;
            if bytes[end..].iter().any(|b| *b != 0) {
                return Err(wrong(row, "padding isn't zero"));
            }
            &bytes[4..end]
        } else {
            let view = ByteView::from(*view);
            let start = view.offset as usize;
            let value = buffers
                .get(view.buffer_index as usize)
                .ok_or_else(|| wrong(row, "no such buffer"))?
                .get(start..start + len as usize)
                .ok_or_else(|| wrong(row, "range outside the buffer"))?;
            if value[..4] != bytes[4..8] {
                return Err(wrong(row, "prefix differs from the value"));
            }
            value
        };
        if !judge(value) {
            return Err(wrong(row, "not UTF-8"));
        }
    }
    Ok(())
}

/// Whether the views are valid over the buffers.
pub fn validate_binary_view(views: &[u128], buffers: &[Buffer]) -> Result<(), ArrowError> {
    validate(views, buffers, |_| true)
}

/// The same, and every value UTF-8.
pub fn validate_string_view(views: &[u128], buffers: &[Buffer]) -> Result<(), ArrowError> {
    validate(views, buffers, |value| std::str::from_utf8(value).is_ok())
}

/// The parts of an array.
#[derive(Debug, Clone)]
pub struct ArrayData {
    data_type: DataType,
    len: usize,
    nulls: Option<NullBuffer>,
    offset: usize,
    buffers: Vec<Buffer>,
    child_data: Vec<ArrayData>,
}

impl ArrayData {
    #[allow(clippy::type_complexity)]
    pub fn into_parts(
        self,
    ) -> (
        DataType,
        usize,
        Option<NullBuffer>,
        usize,
        Vec<Buffer>,
        Vec<ArrayData>,
    ) {
        (
            self.data_type,
            self.len,
            self.nulls,
            self.offset,
            self.buffers,
            self.child_data,
        )
    }
}

/// The parts of an array, being put together.
#[derive(Debug)]
pub struct ArrayDataBuilder {
    data: ArrayData,
}

impl ArrayDataBuilder {
    pub fn new(data_type: DataType) -> Self {
        Self {
            data: ArrayData {
                data_type,
                len: 0,
                nulls: None,
                offset: 0,
                buffers: vec![],
                child_data: vec![],
            },
        }
    }

    pub fn len(mut self, len: usize) -> Self {
        self.data.len = len;
        self
    }

    pub fn buffers(mut self, buffers: Vec<Buffer>) -> Self {
        self.data.buffers = buffers;
        self
    }

    pub fn nulls(mut self, nulls: Option<NullBuffer>) -> Self {
        self.data.nulls = nulls;
        self
    }

    /// # Safety
    ///
    /// The parts have to fit each other.
    pub unsafe fn build_unchecked(self) -> ArrayData {
        self.data
    }
}
