//! A stand-in of ours for num-traits: the bound that the conversion of offset columns names.

/// A number that can be had as another, if it fits.
pub trait ToPrimitive {
    fn to_i64(&self) -> Option<i64>;
    fn to_u64(&self) -> Option<u64>;
    fn to_usize(&self) -> Option<usize> {
        self.to_u64().and_then(|x| usize::try_from(x).ok())
    }
}

macro_rules! to_primitive {
    ($($t:ty),*) => {$(
        impl ToPrimitive for $t {
            fn to_i64(&self) -> Option<i64> {
                i64::try_from(*self).ok()
            }
            fn to_u64(&self) -> Option<u64> {
                u64::try_from(*self).ok()
            }
        }
    )*};
}

to_primitive!(i32, i64, u32, u64, usize);
