//! Numbers that may lie in a buffer.

/// A plain number of fixed width.
pub trait ArrowNativeType:
    std::fmt::Debug + Send + Sync + Copy + PartialOrd + Default + 'static
{
    /// The number as a `usize`, cut to its width.
    fn as_usize(self) -> usize;
    /// The number of this type, if it fits.
    fn from_usize(x: usize) -> Option<Self>;
}

macro_rules! native {
    ($($t:ty),*) => {$(
        impl ArrowNativeType for $t {
            #[inline]
            fn as_usize(self) -> usize {
                self as usize
            }
            #[inline]
            fn from_usize(x: usize) -> Option<Self> {
                x.try_into().ok()
            }
        }
    )*};
}

native!(u8, i32, i64, u32, u64, u128);
