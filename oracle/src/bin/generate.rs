//! generate SEED CALLS both|model: prints a random script.

use oracle::generate::{For, script};
use oracle::script::line_of;
use std::process::exit;

fn main() {
    let args: Vec<String> = std::env::args().skip(1).collect();
    let whom = match args.get(2).map(|s| s.as_str()) {
        Some("both") => For::Both,
        Some("model") => For::Model,
        _ => {
            eprintln!("usage: generate SEED CALLS both|model");
            exit(2);
        }
    };
    let number = |k: usize| args[k].parse::<u64>().unwrap_or(0);
    for call in script(number(0), whom, number(1) as usize) {
        println!("{}", line_of(&call));
    }
}
