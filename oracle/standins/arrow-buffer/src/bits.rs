//! Packed bits, the low bit of a byte first.

use crate::Buffer;

/// The word of up to 64 bits from bit `at` on; bits past them are 0.
#[inline]
fn word_at(bytes: &[u8], at: usize, bits: usize) -> u64 {
    let (byte, shift) = (at / 8, at % 8);
    let held = (shift + bits).div_ceil(8);
    let mut low = [0u8; 16];
    low[..held].copy_from_slice(&bytes[byte..byte + held]);
    let word = (u128::from_le_bytes(low) >> shift) as u64;
    if bits == 64 {
        word
    } else {
        word & ((1 << bits) - 1)
    }
}

/// The ones among `len` bits from bit `offset` on: the part before the first whole word, whole words, and the rest.
fn ones(bytes: &[u8], offset: usize, len: usize) -> usize {
    let head = ((8 - offset % 8) % 8).min(len);
    let mut count = word_at(bytes, offset, head).count_ones() as usize;
    let (mut at, mut left) = (offset + head, len - head);
    let words = left / 64;
    if words > 0 {
        let start = at / 8;
        for w in bytes[start..start + words * 8].chunks_exact(8) {
            count += u64::from_ne_bytes(w.try_into().unwrap()).count_ones() as usize;
        }
        at += words * 64;
        left -= words * 64;
    }
    count + word_at(bytes, at, left).count_ones() as usize
}

/// A part of packed bits.
#[derive(Debug, Clone)]
pub struct BooleanBuffer {
    buffer: Buffer,
    bit_offset: usize,
    bit_len: usize,
}

impl BooleanBuffer {
    /// # Panics
    ///
    /// If the bits don't lie in the buffer.
    pub fn new(buffer: Buffer, bit_offset: usize, bit_len: usize) -> Self {
        let end = bit_offset.saturating_add(bit_len);
        assert!(
            end <= buffer.len().saturating_mul(8),
            "buffer not large enough"
        );
        Self {
            buffer,
            bit_offset,
            bit_len,
        }
    }

    /// Bits that are all 0.
    pub fn new_unset(len: usize) -> Self {
        Self::new(Buffer::from_vec(vec![0u8; len.div_ceil(8)]), 0, len)
    }

    pub fn count_set_bits(&self) -> usize {
        ones(&self.buffer, self.bit_offset, self.bit_len)
    }

    /// # Panics
    ///
    /// If there is no such bit.
    #[inline]
    pub fn value(&self, i: usize) -> bool {
        assert!(i < self.bit_len);
        self.bit(i)
    }

    #[inline]
    fn bit(&self, i: usize) -> bool {
        let at = self.bit_offset + i;
        self.buffer[at / 8] >> (at % 8) & 1 == 1
    }

    /// A part of these, which shares their memory.
    ///
    /// # Panics
    ///
    /// If the part doesn't lie in these.
    pub fn slice(&self, offset: usize, len: usize) -> Self {
        assert!(
            offset.saturating_add(len) <= self.bit_len,
            "the length + offset of the sliced BooleanBuffer cannot exceed the existing length"
        );
        Self {
            buffer: self.buffer.clone(),
            bit_offset: self.bit_offset + offset,
            bit_len: len,
        }
    }

    /// The bits as words, each with its number of bits.
    pub(crate) fn words(&self) -> impl Iterator<Item = (u64, usize)> + '_ {
        (0..self.bit_len).step_by(64).map(move |at| {
            let bits = (self.bit_len - at).min(64);
            (word_at(&self.buffer, self.bit_offset + at, bits), bits)
        })
    }

    #[inline]
    pub fn len(&self) -> usize {
        self.bit_len
    }

    #[inline]
    pub fn is_empty(&self) -> bool {
        self.bit_len == 0
    }

    pub fn offset(&self) -> usize {
        self.bit_offset
    }

    pub fn inner(&self) -> &Buffer {
        &self.buffer
    }

    pub fn shrink_to_fit(&mut self) {
        self.buffer.shrink_to_fit();
    }

    pub fn iter(&self) -> BitIterator<'_> {
        BitIterator { bits: self, at: 0 }
    }
}

/// One bit after another.
#[derive(Debug, Clone)]
pub struct BitIterator<'a> {
    bits: &'a BooleanBuffer,
    at: usize,
}

impl Iterator for BitIterator<'_> {
    type Item = bool;

    #[inline]
    fn next(&mut self) -> Option<bool> {
        if self.at == self.bits.bit_len {
            return None;
        }
        let bit = self.bits.bit(self.at);
        self.at += 1;
        Some(bit)
    }

    fn size_hint(&self) -> (usize, Option<usize>) {
        let left = self.bits.bit_len - self.at;
        (left, Some(left))
    }
}

impl ExactSizeIterator for BitIterator<'_> {}
