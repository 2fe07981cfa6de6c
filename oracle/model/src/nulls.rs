//! Module 1: the null map. Bit r%8 of byte r/8, low bit first, 1 = valid.

/// The bit of row r.
pub fn is_valid(map: &[u8], r: u64) -> bool {
    map[(r / 8) as usize] >> (r % 8) & 1 == 1
}

/// The nulls among `count` rows from `start` on.
pub fn count_nulls(map: &[u8], start: u64, count: u64) -> u64 {
    (start..start + count)
        .filter(|r| !is_valid(map, *r))
        .count() as u64
}

/// Writes the bit of a row that is added: those below it stay, those above it in its byte become 0.
pub fn put_bit(map: &mut [u8], r: u64, valid: bool) {
    let byte = &mut map[(r / 8) as usize];
    let below = (1u16 << (r % 8)) - 1;
    *byte &= below as u8;
    if valid {
        *byte |= 1 << (r % 8);
    }
}
