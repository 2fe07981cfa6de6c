//! vectors SEED FOLDER: writes the fixed lists of answers. README.md says how they are laid out. The same seed gives
//! the same bytes.

use oracle::by_original::quiet;
use oracle::lists::{building, leaves, outputs, reading, shelf};
use std::path::Path;
use std::process::exit;

fn main() {
    let args: Vec<String> = std::env::args().skip(1).collect();
    let (Some(seed), Some(folder)) = (args.first().and_then(|s| s.parse().ok()), args.get(1))
    else {
        eprintln!("usage: vectors SEED FOLDER");
        exit(2);
    };
    quiet();
    let lists = [
        ("reading.bin", reading::reading(seed)),
        ("make_view.bin", leaves::make_views(seed)),
        ("utf8.bin", leaves::utf8(seed)),
        ("null_runs.bin", leaves::null_runs(seed)),
        ("growth.bin", leaves::growth()),
        ("order.bin", leaves::orders(seed)),
        ("building.bin", building::building(seed)),
        ("compaction.bin", outputs::compaction(seed)),
        ("offsets.bin", outputs::offsets(seed)),
        ("shelf.bin", shelf::shelf(seed)),
    ];
    for (name, bytes) in lists {
        std::fs::write(Path::new(folder).join(name), &bytes).unwrap();
        println!("{name} {} bytes", bytes.len());
    }
}
