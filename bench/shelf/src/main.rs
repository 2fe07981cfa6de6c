//! Random inputs of the shelf list, good and bad, with the answers of the original, held to by the proved program `shelf_cases`: `shelf SEED COUNT PROGRAM`.
//! Each batch is a file of records that the program reads, answers by the functions that `shelflist` is made of, and compares; it says how many were right.

use oracle::checks::their_shelflist;
use oracle::random::Random;
use std::io::Write;
use std::process::{Command, exit};

const MAX_INPUT: usize = 16_384;
const BATCH: u64 = 20_000;

fn value(random: &mut Random, most: u64) -> Vec<u8> {
    let n = match random.below(4) {
        0 => random.below(4),
        1 => 11 + random.below(4),
        2 => random.below(40),
        _ => random.below(most + 1),
    };
    let mut x = random.bytes(n.min(most));
    x.iter_mut().for_each(|b| *b = if *b == b'\n' { b'\r' } else { *b });
    x
}

fn good_line(random: &mut Random, most: u64) -> Vec<u8> {
    if random.once_in(4) {
        return b"null=\n".to_vec();
    }
    let mut line = b"code=".to_vec();
    line.extend(value(random, most));
    line.push(b'\n');
    line
}

/// A good line with one byte changed, added or taken away, or cut; it may still be good.
fn odd_line(random: &mut Random) -> Vec<u8> {
    let mut line = good_line(random, 10);
    let at = random.below(line.len() as u64) as usize;
    match random.below(4) {
        0 => line[at] = random.word() as u8,
        1 => line.insert(at, random.word() as u8),
        2 => drop(line.remove(at)),
        _ => line.truncate(at),
    }
    line
}

fn input(random: &mut Random) -> Vec<u8> {
    let rows = match random.below(40) {
        0 => 2000 + random.below(800),
        1..4 => random.below(400),
        4..14 => 18 + random.below(5),
        _ => random.below(12),
    };
    let most = if random.once_in(8) { 300 } else { 20 };
    let odd = random.once_in(3);
    let mut text = vec![];
    for _ in 0..rows {
        let line = if odd && random.once_in(rows.max(2)) { odd_line(random) } else { good_line(random, most) };
        text.extend(line);
    }
    if random.once_in(3) && text.last() == Some(&b'\n') {
        text.pop();
    }
    // to the limit, and a byte or more past it
    if random.once_in(200) {
        let n = MAX_INPUT - 3 + random.below(8) as usize;
        let line = text.iter().rposition(|b| *b == b'\n').map_or(0, |k| k + 1);
        if text.len() < n && text[line..].starts_with(b"code=") {
            text.resize(n, 0xff);
        }
    }
    text
}

/// The answer, and whether it is the original's listing.
fn answer(text: &[u8]) -> (bool, String) {
    let said = model::shelflist(text);
    if said.starts_with("refused=") {
        return (false, said);
    }
    (true, their_shelflist(text))
}

fn main() {
    let words: Vec<String> = std::env::args().collect();
    let [_, seed, count, program] = &words[..] else {
        eprintln!("usage: shelf SEED COUNT PROGRAM");
        exit(2);
    };
    let mut random = Random::new(seed.parse().unwrap());
    let count: u64 = count.parse().unwrap();
    let program = std::fs::canonicalize(program).unwrap();
    let folder = std::env::temp_dir().join(format!("shelf-{}", std::process::id()));
    std::fs::create_dir(&folder).unwrap();
    let (mut listed, mut refused, mut bytes, mut done) = (0u64, 0u64, 0u64, 0u64);
    while done < count {
        let batch = BATCH.min(count - done);
        let mut file = std::io::BufWriter::new(std::fs::File::create(folder.join("vectors.bin")).unwrap());
        for _ in 0..batch {
            let mut text = input(&mut random);
            text.truncate(MAX_INPUT + 1);
            let (lawful, said) = answer(&text);
            listed += lawful as u64;
            refused += !lawful as u64;
            bytes += said.len() as u64;
            for word in [lawful as u64, text.len() as u64, said.len() as u64] {
                file.write_all(&word.to_le_bytes()).unwrap();
            }
            file.write_all(&text).unwrap();
            file.write_all(said.as_bytes()).unwrap();
        }
        file.into_inner().unwrap();
        let out = Command::new(&program).current_dir(&folder).output().unwrap();
        let said = String::from_utf8_lossy(&out.stdout).into_owned();
        if said != format!("vectors {batch} right\n") {
            println!("after {done} inputs: {said:?}; the batch is in {}", folder.display());
            exit(1);
        }
        done += batch;
    }
    std::fs::remove_dir_all(&folder).unwrap();
    println!("{done} inputs: {listed} listed as the original does, {refused} refused as the model does, {bytes} bytes of answers; 0 differ");
}
