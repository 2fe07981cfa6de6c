//! UTF-8 by Unicode Table 3-7, row by row.

/// A row of the table: the first byte's range, the second's, and how many bytes 80..BF follow.
const ROWS: [(u8, u8, u8, u8, usize); 8] = [
    (0xC2, 0xDF, 0x80, 0xBF, 0),
    (0xE0, 0xE0, 0xA0, 0xBF, 1),
    (0xE1, 0xEC, 0x80, 0xBF, 1),
    (0xED, 0xED, 0x80, 0x9F, 1),
    (0xEE, 0xEF, 0x80, 0xBF, 1),
    (0xF0, 0xF0, 0x90, 0xBF, 2),
    (0xF1, 0xF3, 0x80, 0xBF, 2),
    (0xF4, 0xF4, 0x80, 0x8F, 2),
];

/// The length of the well-formed sequence that the bytes begin with, or 0.
fn sequence(bytes: &[u8]) -> usize {
    if bytes[0] <= 0x7F {
        return 1;
    }
    for (first, last, low, high, more) in ROWS {
        if bytes[0] < first || last < bytes[0] {
            continue;
        }
        let n = 2 + more;
        let second = bytes.len() >= n && low <= bytes[1] && bytes[1] <= high;
        if second && bytes[2..n].iter().all(|b| (0x80..=0xBF).contains(b)) {
            return n;
        }
    }
    0
}

/// The place of the first ill-formed sequence, or the length where there is none.
pub fn well_formed_up_to(bytes: &[u8]) -> u64 {
    let mut at = 0;
    while at < bytes.len() {
        let n = sequence(&bytes[at..]);
        if n == 0 {
            break;
        }
        at += n;
    }
    at as u64
}

/// Whether all of it is well formed.
pub fn is_utf8(bytes: &[u8]) -> bool {
    well_formed_up_to(bytes) == bytes.len() as u64
}
