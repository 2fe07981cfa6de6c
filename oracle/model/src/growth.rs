//! Module 5: the sizes of new blocks.

use crate::{MAX_BYTES, Refusal, refuse};

/// How block sizes grow, with the size that was reached.
#[derive(Clone, Copy, Debug, PartialEq, Eq)]
pub enum Growth {
    Fixed(u64),
    Doubling(u64),
}

/// The size before the first step of the doubling.
pub const START: u64 = 8_192;
/// The size at which the doubling stays.
pub const LAST: u64 = 2_097_152;

/// Whether module 5 reaches the size.
pub fn reached_size(growth: Growth) -> bool {
    match growth {
        Growth::Fixed(size) => (1..=MAX_BYTES).contains(&size),
        Growth::Doubling(size) => (0..=8).any(|k| size == START << k),
    }
}

/// The state with the next size, and the next size.
pub fn stepped(growth: Growth) -> (Growth, u64) {
    match growth {
        Growth::Fixed(size) => (growth, size),
        Growth::Doubling(size) if size < LAST => (Growth::Doubling(2 * size), 2 * size),
        Growth::Doubling(_) => (growth, LAST),
    }
}

/// The growth step.
pub fn growth_step(growth: Growth) -> Result<(Growth, u64), Refusal> {
    refuse(!reached_size(growth), 2)?;
    Ok(stepped(growth))
}
