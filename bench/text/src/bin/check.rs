//! UTF-8 and views against Rust's own: every string of up to three bytes, four bytes around each edge of Table 3-7, random text whole and damaged,
//! views of every length around each bound. It also writes what our side answered, for a second program to judge.
use std::io::Write;
use text::*;

/// Bytes around each end of a range of the table.
const EDGES: [u8; 20] = [0x00, 0x7e, 0x7f, 0x80, 0x81, 0x8e, 0x8f, 0x90, 0x91, 0x9e, 0x9f, 0xa0, 0xa1, 0xbe, 0xbf, 0xc0, 0xc1, 0xc2, 0xf0, 0xff];

struct Tally {
    tried: u64,
    formed: u64,
    wrong: u64,
}

impl Tally {
    fn new() -> Tally {
        Tally { tried: 0, formed: 0, wrong: 0 }
    }

    fn judge(&mut self, s: &[u8]) -> usize {
        let ours = utf8(s);
        self.tried += 1;
        self.formed += ours.yes;
        self.wrong += (ours.place != std_first_bad(s) || ours.yes != std::str::from_utf8(s).is_ok() as u64) as u64;
        ours.place
    }

    fn say(&self, what: &str) -> u64 {
        println!("{what}: tried={} formed={} wrong={}", self.tried, self.formed, self.wrong);
        self.wrong
    }
}

fn short(out: &mut impl Write) -> u64 {
    let mut wrong = 0;
    for n in 0..=3u32 {
        let mut t = Tally::new();
        for x in 0..256u32.pow(n) {
            let s = &x.to_be_bytes()[4 - n as usize..];
            out.write_all(&[t.judge(s) as u8]).unwrap();
        }
        wrong += t.say(&format!("all strings of {n} bytes"));
    }
    wrong
}

fn listed(out: &mut impl Write, t: &mut Tally, s: &[u8]) {
    out.write_all(&(s.len() as u32).to_le_bytes()).unwrap();
    out.write_all(&(t.judge(s) as u32).to_le_bytes()).unwrap();
    out.write_all(s).unwrap();
}

fn four(out: &mut impl Write) -> u64 {
    let mut t = Tally::new();
    for a in 0..=255u8 {
        for b in EDGES {
            for c in EDGES {
                for d in EDGES {
                    listed(out, &mut t, &[a, b, c, d]);
                }
            }
        }
    }
    t.say("four bytes around each edge")
}

fn random(out: &mut impl Write) -> u64 {
    let (mut t, mut x) = (Tally::new(), Random::new(3));
    for round in 0..400_000u32 {
        let mut s = String::new();
        let plain = x.below(3) == 0;
        for _ in 0..x.below(60) {
            s.push(if plain && x.below(20) > 0 { (x.below(128) as u8) as char } else { letter(&mut x) });
        }
        let mut s = s.into_bytes();
        for _ in 0..round % 3 {
            if !s.is_empty() {
                let at = x.below(s.len() as u64) as usize;
                match x.below(3) {
                    0 => s[at] = x.below(256) as u8,
                    1 => s.truncate(at),
                    _ => {
                        s.remove(at);
                    }
                }
            }
        }
        listed(out, &mut t, &s);
    }
    t.say("random text, whole and damaged")
}

fn views() -> u64 {
    let (mut x, mut tried, mut wrong) = (Random::new(42), 0u64, 0u64);
    let long: Vec<u8> = (0..16_777_218).map(|_| x.word() as u8).collect();
    let lengths: Vec<usize> = (0..=40).chain([255, 256, 257, 65_535, 65_536, 16_777_215, 16_777_216, 16_777_217, 16_777_218]).collect();
    for n in lengths {
        for _ in 0..100 {
            let from = x.below((long.len() - n + 1) as u64) as usize;
            let (v, block, offset) = (&long[from..from + n], x.word() as u32, x.word() as u32);
            let before = (x.word() as u128) << 64 | x.word() as u128;
            let mut out = before.to_le_bytes();
            let no = make_view(&mut out, v, block, offset);
            let want = if n <= 16_777_216 { (0, original::make_view(v, block, offset)) } else { (4, before) };
            tried += 1;
            wrong += ((no, u128::from_le_bytes(out)) != want) as u64;
        }
    }
    println!("views: tried={tried} wrong={wrong}");
    wrong
}

fn main() {
    let dir = std::env::args().nth(1).expect("a folder for the two lists");
    let open = |name: &str| std::io::BufWriter::new(std::fs::File::create(format!("{dir}/{name}")).unwrap());
    let (mut all, mut list) = (open("short.bin"), open("list.bin"));
    let wrong = short(&mut all) + four(&mut list) + random(&mut list) + views();
    all.flush().unwrap();
    list.flush().unwrap();
    println!("wrong={wrong}");
    std::process::exit((wrong != 0) as i32);
}
