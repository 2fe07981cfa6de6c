//! The words' way of counting and copying bits beside the plain one.

use arrow_buffer::{BooleanBuffer, Buffer, NullBuffer, NullBufferBuilder};

fn bytes(n: usize) -> Vec<u8> {
    (0..n).map(|k| (k * k * 31 + k * 7 + 3) as u8).collect()
}

#[test]
fn counts() {
    let map = bytes(40);
    for start in 0..80 {
        for len in 0..=(320 - start) {
            let bits = BooleanBuffer::new(Buffer::from(map.as_slice()), start, len);
            let plain = (start..start + len)
                .filter(|r| map[r / 8] >> (r % 8) & 1 == 1)
                .count();
            assert_eq!(bits.count_set_bits(), plain, "{len} from {start}");
        }
    }
}

#[test]
fn builder() {
    let map = bytes(20);
    for before in 0..20 {
        for start in 0..9 {
            let len = 100 + before;
            let part = BooleanBuffer::new(Buffer::from(map.as_slice()), start, len);
            let mut b = NullBufferBuilder::new(0);
            let mut plain = vec![true; before];
            b.append_n_non_nulls(before);
            b.append_buffer(&NullBuffer::new(part.clone()));
            plain.extend(part.iter());
            b.append_n_non_nulls(start);
            plain.extend(vec![true; start]);
            b.append_n_nulls(3);
            plain.extend([false; 3]);
            b.append_non_null();
            plain.push(true);
            let nulls = b.finish().unwrap();
            assert_eq!(nulls.iter().collect::<Vec<_>>(), plain);
            assert_eq!(nulls.null_count(), plain.iter().filter(|v| !**v).count());
        }
    }
}
