//! The byte view array and its builder of arrow-array 60.0.0, as published but for one word, over stand-ins of ours.
//! This file, array/byte_array.rs, array/list_array.rs, builder/generic_bytes_builder.rs and scalar.rs are stand-ins.

pub mod array;
pub mod builder;
pub mod iterator;
mod scalar;
pub mod types;

pub use array::*;
pub use scalar::Scalar;
