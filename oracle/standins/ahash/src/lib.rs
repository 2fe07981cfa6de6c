//! A stand-in of ours for ahash: a keyed hash by folded products, sixteen bytes a step. The real one draws its keys at
//! random; these are fixed, so that a run can be had again.

use std::hash::{BuildHasher, Hash, Hasher};

const MULTIPLE: u64 = 6364136223846793005;

/// The keys of a hash.
#[derive(Debug, Clone)]
pub struct RandomState {
    keys: [u64; 4],
}

impl Default for RandomState {
    fn default() -> Self {
        Self {
            keys: [
                0x243f_6a88_85a3_08d3,
                0x1319_8a2e_0370_7344,
                0xa409_3822_299f_31d0,
                0x082e_fa98_ec4e_6c89,
            ],
        }
    }
}

impl RandomState {
    /// The hash of one value.
    #[inline]
    #[allow(clippy::manual_hash_one)]
    pub fn hash_one<T: Hash>(&self, x: T) -> u64 {
        let mut hasher = self.build_hasher();
        x.hash(&mut hasher);
        hasher.finish()
    }
}

impl BuildHasher for RandomState {
    type Hasher = AHasher;

    #[inline]
    fn build_hasher(&self) -> AHasher {
        AHasher {
            buffer: self.keys[0],
            pad: self.keys[1],
            extra: [self.keys[2], self.keys[3]],
        }
    }
}

/// A hash under way.
#[derive(Debug, Clone)]
pub struct AHasher {
    buffer: u64,
    pad: u64,
    extra: [u64; 2],
}

#[inline(always)]
fn folded(a: u64, b: u64) -> u64 {
    let wide = (a as u128) * (b as u128);
    (wide as u64) ^ ((wide >> 64) as u64)
}

#[inline(always)]
fn word(part: &[u8]) -> u64 {
    u64::from_le_bytes(part[..8].try_into().unwrap())
}

#[inline(always)]
fn half(part: &[u8]) -> u64 {
    u32::from_le_bytes(part[..4].try_into().unwrap()) as u64
}

impl AHasher {
    #[inline(always)]
    fn step(&mut self, a: u64, b: u64) {
        let mixed = folded(a ^ self.extra[0], b ^ self.extra[1]);
        self.buffer = (self.buffer.wrapping_add(self.pad) ^ mixed).rotate_left(23);
    }
}

impl Hasher for AHasher {
    #[inline]
    fn write(&mut self, bytes: &[u8]) {
        let n = bytes.len();
        self.buffer = self.buffer.wrapping_add(n as u64).wrapping_mul(MULTIPLE);
        if n > 16 {
            self.step(word(&bytes[n - 16..]), word(&bytes[n - 8..]));
            let mut rest = bytes;
            while rest.len() > 16 {
                self.step(word(rest), word(&rest[8..]));
                rest = &rest[16..];
            }
        } else if n > 8 {
            self.step(word(bytes), word(&bytes[n - 8..]));
        } else if n > 3 {
            self.step(half(bytes), half(&bytes[n - 4..]));
        } else if n > 0 {
            let ends = (bytes[0] as u64) << 8 | bytes[n - 1] as u64;
            self.step(ends, bytes[n / 2] as u64);
        } else {
            self.step(0, 0);
        }
    }

    #[inline]
    fn write_u64(&mut self, x: u64) {
        self.buffer = folded(self.buffer ^ x, MULTIPLE);
    }

    #[inline]
    fn write_usize(&mut self, x: usize) {
        self.write_u64(x as u64);
    }

    #[inline]
    fn finish(&self) -> u64 {
        folded(self.buffer, self.pad).rotate_left((self.buffer & 63) as u32)
    }
}
