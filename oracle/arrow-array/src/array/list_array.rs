//! A stand-in of ours for the bound on offsets.

use arrow_buffer::ArrowNativeType;

/// A number that may be an offset.
pub trait OffsetSizeTrait: ArrowNativeType + num_traits::ToPrimitive {
    const IS_LARGE: bool;
}

impl OffsetSizeTrait for i32 {
    const IS_LARGE: bool = false;
}

impl OffsetSizeTrait for i64 {
    const IS_LARGE: bool = true;
}
