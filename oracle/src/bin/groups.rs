//! groups SEED COUNT: so many of each of what the fixed lists are taken from. It stops where original and model differ.

use oracle::by_original::quiet;
use oracle::lists::{building, outputs, reading};
use std::process::exit;

fn main() {
    let args: Vec<u64> = std::env::args()
        .skip(1)
        .filter_map(|a| a.parse().ok())
        .collect();
    let (Some(seed), Some(count)) = (args.first(), args.get(1)) else {
        eprintln!("usage: groups SEED COUNT");
        exit(2);
    };
    quiet();
    let count = *count as usize;
    let (mut questions, mut refused) = (0, [0u64; 14]);
    for g in reading::groups(*seed, 60).take(count) {
        questions += g.questions.len();
        for q in g.questions {
            refused[q.expected.refusal as usize] += 1;
        }
    }
    println!(
        "questions {questions}, accepted {}, refused {refused:?}",
        refused[0]
    );
    let (mut calls, mut refused) = (0, [0u64; 14]);
    for g in building::groups(*seed, 60).take(count) {
        calls += g.steps.len();
        for s in g.steps {
            refused[s.expected[0] as usize] += 1;
        }
    }
    println!(
        "builder's calls {calls}, accepted {}, refused {refused:?}",
        refused[0]
    );
    let both = outputs::compactions(*seed)
        .take(count)
        .filter(|c| c.both)
        .count();
    println!("compactions {count}, of them by both {both}");
    let both = outputs::offset_columns(*seed)
        .take(count)
        .filter(|c| c.both)
        .count();
    println!("offset columns {count}, of them by both {both}, differences 0");
}
