//! check: the ten bench examples, the shelf list and the found differences, on original and model. Prints a line for
//! each and ends with how many passed.

fn main() {
    oracle::by_original::quiet();
    let t = oracle::checks::all();
    println!("{} passed, {} failed", t.passed, t.failed);
    if t.failed > 0 {
        std::process::exit(1);
    }
}
