//! A stand-in of ours for arrow-array's scalar.rs.

use crate::Array;

/// An array of one row, meant as a single value.
#[derive(Debug, Clone)]
pub struct Scalar<T: Array>(T);

impl<T: Array> Scalar<T> {
    /// # Panics
    ///
    /// If the array hasn't exactly one row.
    pub fn new(array: T) -> Self {
        assert_eq!(array.len(), 1);
        Self(array)
    }

    pub fn into_inner(self) -> T {
        self.0
    }
}
