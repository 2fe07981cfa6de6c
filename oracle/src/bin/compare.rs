//! compare FIRST COUNT [CALLS]: random scripts from so many seeds on, answered by original and model side by side.

use oracle::by_original::quiet;
use oracle::compare::{Tally, compare};
use oracle::generate::{For, script};
use std::process::exit;

fn main() {
    let args: Vec<u64> = std::env::args()
        .skip(1)
        .filter_map(|a| a.parse().ok())
        .collect();
    let (Some(first), Some(count)) = (args.first(), args.get(1)) else {
        eprintln!("usage: compare FIRST COUNT [CALLS]");
        exit(2);
    };
    let calls = *args.get(2).unwrap_or(&120) as usize;
    quiet();
    let mut tally = Tally::default();
    for seed in *first..first + count {
        if let Err(text) = compare(&script(seed, For::Both, calls), &mut tally) {
            println!("# seed {seed} differs\n{text}");
            exit(1);
        }
    }
    println!(
        "scripts {count}, calls {}, answers compared {} (refusals {}), states compared {}, unasked {}, beyond {}, differences 0",
        tally.calls, tally.answers, tally.refusals, tally.states, tally.unasked, tally.beyond
    );
}
