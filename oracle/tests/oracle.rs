//! The checks, a small comparison, and that scripts and lists can be had again.

use model::RETIRED;
use oracle::answer::{Answer, Engine};
use oracle::by_model::ByModel;
use oracle::by_original::quiet;
use oracle::compare::{Tally, compare};
use oracle::generate::{For, script};
use oracle::script::{call_of, line_of};

#[test]
fn bench_examples_shelf_list_and_differences() {
    let t = oracle::checks::all();
    assert!(t.passed >= 60);
    assert_eq!(t.failed, 0);
}

#[test]
fn original_and_model_agree() {
    quiet();
    let mut tally = Tally::default();
    for seed in 0..200 {
        compare(&script(seed, For::Both, 120), &mut tally).unwrap();
    }
    assert!(tally.answers > 15_000 && tally.states > 8_000 && tally.refusals > 1_000);
}

#[test]
fn a_line_is_read_as_it_was_written() {
    for seed in 0..50 {
        for call in script(seed, For::Model, 120) {
            assert_eq!(call_of(&line_of(&call)), Ok(Some(call)));
        }
    }
}

#[test]
fn the_same_seed_gives_the_same_script() {
    assert_eq!(script(5, For::Model, 120), script(5, For::Model, 120));
    assert_ne!(script(5, For::Model, 120), script(6, For::Model, 120));
}

/// On damaged columns, odd states and short buffers the model answers every call, each number is given at least once
/// but the retired one, and a refused call changes no lent buffer.
#[test]
fn the_model_is_total() {
    let mut given = [0u64; 14];
    for seed in 0..150 {
        let mut model = ByModel::default();
        model.watch = true;
        for call in script(seed, For::Model, 200) {
            if let (Answer::Refused(n, ..), _) = model.call(&call) {
                given[n as usize] += 1;
            }
        }
    }
    for (n, times) in given.iter().enumerate() {
        // 4 needs a value above 16,777,216 bytes; the checks have one.
        assert_eq!(
            *times > 0,
            ![0, 4, RETIRED as usize].contains(&n),
            "refusal {n}: {times} times"
        );
    }
}
