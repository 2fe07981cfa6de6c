//! Inputs and outputs of the program.

use super::put;
use crate::checks::their_shelflist;
use crate::random::Random;

/// The longest input that isn't too long.
const MAX_INPUT: usize = 16_384;

fn line(random: &mut Random) -> Vec<u8> {
    if random.once_in(5) {
        return b"null=\n".to_vec();
    }
    let n = *random.pick(&[0, 1, 4, 11, 12, 13, 16, 31]);
    let mut line = b"code=".to_vec();
    line.extend(
        random
            .bytes(n)
            .iter()
            .map(|b| if *b == b'\n' { 0 } else { *b }),
    );
    line.push(b'\n');
    line
}

/// A line that isn't one.
fn bad(random: &mut Random) -> Vec<u8> {
    const BAD: [&[u8]; 10] = [
        b"\n",
        b"code\n",
        b"Code=A\n",
        b"null\n",
        b"null=x\n",
        b"null=\r\n",
        b" null=\n",
        b"=\n",
        b"\0\n",
        b" code=A\n",
    ];
    random.pick(&BAD).to_vec()
}

/// shelf.bin.
pub fn shelf(seed: u64) -> Vec<u8> {
    let mut random = Random::new(seed);
    let mut inputs: Vec<(bool, Vec<u8>)> = vec![];
    for rows in [0, 1, 2, 9, 10, 11, 19, 20, 21, 22, 40] {
        for ended in [true, false] {
            let mut input: Vec<u8> = (0..rows).flat_map(|_| line(&mut random)).collect();
            if !ended && !input.is_empty() {
                input.pop();
            }
            inputs.push((true, input));
        }
    }
    for rows in 0..12 {
        let mut input: Vec<u8> = (0..rows).flat_map(|_| line(&mut random)).collect();
        input.extend(bad(&mut random));
        input.extend((0..random.below(3)).flat_map(|_| line(&mut random)));
        inputs.push((false, input));
    }
    let mut full = b"code=".to_vec();
    full.resize(MAX_INPUT, b'x');
    inputs.push((true, full.clone()));
    full.push(b'\n');
    inputs.push((false, full));
    let mut out = vec![];
    for (lawful, input) in inputs {
        let output = model::shelflist(&input);
        if lawful {
            assert_eq!(output, their_shelflist(&input), "a shelf list");
        }
        put(
            &mut out,
            &[lawful as u64, input.len() as u64, output.len() as u64],
        );
        out.extend(input);
        out.extend(output.as_bytes());
    }
    out
}
