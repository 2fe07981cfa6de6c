//! A stand-in of ours for arrow-buffer: what byte views and their builder ask of it, with the documented behaviour. It
//! costs what the real one costs: a buffer made of a `Vec` isn't copied and its clones share it, nulls are counted by
//! words, and the null builder makes its bits when the first null comes.

mod bits;
mod buffer;
mod builder;
mod native;
mod nulls;
mod scalar;

pub use bits::{BitIterator, BooleanBuffer};
pub use buffer::Buffer;
pub use builder::{BooleanBufferBuilder, NullBufferBuilder};
pub use native::ArrowNativeType;
pub use nulls::NullBuffer;
pub use scalar::{OffsetBuffer, ScalarBuffer};
