//! utf8: the model's UTF-8, which is Table 3-7 row by row, beside the standard library's on short texts, all of them.

use model::well_formed_up_to;

fn same(text: &[u8]) -> bool {
    let theirs = match std::str::from_utf8(text) {
        Ok(_) => text.len(),
        Err(e) => e.valid_up_to(),
    };
    well_formed_up_to(text) == theirs as u64
}

fn main() {
    let (mut texts, mut wrong) = (0u64, 0u64);
    let mut look = |text: &[u8]| {
        texts += 1;
        if !same(text) {
            wrong += 1;
        }
    };
    look(&[]);
    for x in 0..1u32 << 24 {
        let [a, b, c, _] = x.to_le_bytes();
        if x < 1 << 8 {
            look(&[a]);
        }
        if x < 1 << 16 {
            look(&[a, b]);
        }
        look(&[a, b, c]);
        for first in 0xF0..=0xF4 {
            look(&[first, a, b, c]);
        }
    }
    println!("{texts} texts, {wrong} answered otherwise");
    if wrong > 0 {
        std::process::exit(1);
    }
}
