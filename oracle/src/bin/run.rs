//! run original|model < SCRIPT: prints each call, its answer, and what its builder or column holds after it.

use oracle::answer::Engine;
use oracle::by_model::ByModel;
use oracle::by_original::{ByOriginal, quiet};
use oracle::script::{call_of, line_of};
use std::io::{BufRead, Write, stdin, stdout};
use std::process::exit;

fn main() {
    let mut engine: Box<dyn Engine> = match std::env::args().nth(1).as_deref() {
        Some("original") => Box::new(ByOriginal::default()),
        Some("model") => Box::new(ByModel::default()),
        _ => {
            eprintln!("usage: run original|model < SCRIPT");
            exit(2);
        }
    };
    quiet();
    let mut out = stdout().lock();
    for (k, line) in stdin().lock().lines().enumerate() {
        let call = match call_of(&line.unwrap()) {
            Ok(Some(call)) => call,
            Ok(None) => continue,
            Err(text) => {
                eprintln!("line {}: {text}", k + 1);
                exit(2);
            }
        };
        let (answer, held) = engine.call(&call);
        writeln!(out, "{}\n= {answer}", line_of(&call)).unwrap();
        if let Some(held) = held {
            write!(out, "{held}").unwrap();
        }
    }
}
