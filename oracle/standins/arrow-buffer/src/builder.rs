//! Builders of packed bits and of null bits.

use crate::{BooleanBuffer, Buffer, NullBuffer};

/// Bits added one after another.
#[derive(Debug)]
pub struct BooleanBufferBuilder {
    bytes: Vec<u8>,
    len: usize,
}

impl BooleanBufferBuilder {
    pub fn new(capacity: usize) -> Self {
        Self {
            bytes: Vec::with_capacity(capacity.div_ceil(8)),
            len: 0,
        }
    }

    pub fn len(&self) -> usize {
        self.len
    }

    pub fn is_empty(&self) -> bool {
        self.len == 0
    }

    /// The bytes of memory that it holds.
    pub fn capacity(&self) -> usize {
        self.bytes.capacity()
    }

    #[inline]
    pub fn append(&mut self, bit: bool) {
        let shift = self.len % 8;
        if shift == 0 {
            self.bytes.push(bit as u8);
        } else if bit {
            self.bytes[self.len / 8] |= 1 << shift;
        }
        self.len += 1;
    }

    #[inline]
    pub fn append_n(&mut self, n: usize, bit: bool) {
        let end = self.len + n;
        if bit {
            let shift = self.len % 8;
            if shift != 0 {
                self.bytes[self.len / 8] |= 0xff << shift;
            }
            self.bytes.resize(end.div_ceil(8), 0xff);
            if !end.is_multiple_of(8) {
                self.bytes[end / 8] &= (1 << (end % 8)) - 1;
            }
        } else {
            self.bytes.resize(end.div_ceil(8), 0);
        }
        self.len = end;
    }

    /// Up to 64 bits; those of `word` past them are 0.
    fn append_word(&mut self, word: u64, bits: usize) {
        let (byte, shift) = (self.len / 8, self.len % 8);
        let wide = (word as u128) << shift;
        let end = (self.len + bits).div_ceil(8);
        self.bytes.resize(end, 0);
        for (to, from) in self.bytes[byte..].iter_mut().zip(wide.to_le_bytes()) {
            *to |= from;
        }
        self.len += bits;
    }

    pub fn append_buffer(&mut self, bits: &BooleanBuffer) {
        self.bytes.reserve(bits.len().div_ceil(8));
        for (word, n) in bits.words() {
            self.append_word(word, n);
        }
    }

    pub fn as_slice(&self) -> &[u8] {
        &self.bytes
    }

    /// The bits; the builder is empty afterwards.
    pub fn finish(&mut self) -> BooleanBuffer {
        let len = std::mem::take(&mut self.len);
        BooleanBuffer::new(Buffer::from_vec(std::mem::take(&mut self.bytes)), 0, len)
    }

    /// A copy of the bits.
    pub fn finish_cloned(&self) -> BooleanBuffer {
        BooleanBuffer::new(Buffer::from_slice_ref(&self.bytes), 0, self.len)
    }
}

/// Null bits, of which there are none until the first null.
#[derive(Debug)]
pub struct NullBufferBuilder {
    bits: Option<BooleanBufferBuilder>,
    /// The rows so far, while there are no bits.
    len: usize,
    capacity: usize,
}

impl NullBufferBuilder {
    pub fn new(capacity: usize) -> Self {
        Self {
            bits: None,
            len: 0,
            capacity,
        }
    }

    pub fn len(&self) -> usize {
        match &self.bits {
            Some(bits) => bits.len(),
            None => self.len,
        }
    }

    pub fn is_empty(&self) -> bool {
        self.len() == 0
    }

    #[inline]
    pub fn append_non_null(&mut self) {
        match &mut self.bits {
            Some(bits) => bits.append(true),
            None => self.len += 1,
        }
    }

    #[inline]
    pub fn append_n_non_nulls(&mut self, n: usize) {
        match &mut self.bits {
            Some(bits) => bits.append_n(n, true),
            None => self.len += n,
        }
    }

    #[inline]
    pub fn append_null(&mut self) {
        self.made().append(false);
    }

    #[inline]
    pub fn append_n_nulls(&mut self, n: usize) {
        self.made().append_n(n, false);
    }

    pub fn append_buffer(&mut self, nulls: &NullBuffer) {
        if nulls.null_count() > 0 {
            self.made();
        }
        match &mut self.bits {
            Some(bits) => bits.append_buffer(nulls.inner()),
            None => self.len += nulls.len(),
        }
    }

    /// The bits, made now if there were none: all rows so far are valid.
    fn made(&mut self) -> &mut BooleanBufferBuilder {
        let (len, capacity) = (self.len, self.capacity);
        self.bits.get_or_insert_with(|| {
            let mut bits = BooleanBufferBuilder::new(len.max(capacity));
            bits.append_n(len, true);
            bits
        })
    }

    pub fn as_slice(&self) -> Option<&[u8]> {
        self.bits.as_ref().map(|bits| bits.as_slice())
    }

    /// The bytes of memory that it holds.
    pub fn allocated_size(&self) -> usize {
        self.bits.as_ref().map_or(0, |bits| bits.capacity())
    }

    /// The null bits, or none if no null came; the builder is empty afterwards.
    pub fn finish(&mut self) -> Option<NullBuffer> {
        self.len = 0;
        Some(NullBuffer::new(self.bits.take()?.finish()))
    }

    /// A copy of the null bits, or none if no null came.
    pub fn finish_cloned(&self) -> Option<NullBuffer> {
        Some(NullBuffer::new(self.bits.as_ref()?.finish_cloned()))
    }
}
