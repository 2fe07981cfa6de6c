//! compare SEED GROUPS: asks the static library what `oracle::lists::reading` asks, and holds its answers against the expected ones: on valid
//! columns the original's and the model's, on damaged ones and on refusals the model's. Fails where one differs.

use oracle::by_original::quiet;
use oracle::lists::reading::{Group, Question, groups};
use reading::{Counted, Lent, Place};
use std::collections::BTreeMap;
use std::process::exit;

/// Questions of each group.
const QUESTIONS: usize = 64;

/// An answer: the refusal, which of two columns it is of (1 the left one) and the row that it names; a number; a part, or a slice's rows.
type Said = (u64, u64, u64, u64, [u64; 3]);

fn counted(x: Counted) -> Said {
    (x.refused, 0, 0, x.number as u64, [0; 3])
}

/// An empty part is nowhere.
fn placed(p: Place) -> Said {
    let part = if p.len == 0 { [0; 3] } else { [p.buffer + 1, p.offset as u64, p.len as u64] };
    (p.refused, 0, 0, 0, part)
}

/// An answer about two columns: below 16 the number, above it the refusal and 16 for the left column, 32 for the right one.
fn of_two(number: u64, row: usize) -> Said {
    if number < 16 { (0, 0, 0, number, [0; 3]) } else { (number % 16, number / 16, row as u64, 0, [0; 3]) }
}

/// The exported calls that answer a question, by their names.
fn ours(q: &Question, left: &Lent, right: &Lent) -> Vec<(&'static str, Said)> {
    let (a, b) = (q.a as usize, q.b as usize);
    match q.call {
        2 => vec![("prefix", placed(left.prefix(a, b)))],
        3 => vec![("suffix", placed(left.suffix(a, b)))],
        4 => vec![("length", counted(left.length(a)))],
        5 => vec![("null_bit", counted(left.null_bit(a)))],
        6 => vec![("null_run", counted(left.null_run(a, b)))],
        7 => {
            let s = left.slice(a, b);
            vec![("slice", (s.refused, 0, 0, s.first as u64, [0, 0, s.rows as u64]))]
        }
        8 => vec![("total_bytes_len", counted(left.total_bytes_len()))],
        9 => vec![("total_buffer_bytes_used", counted(left.total_buffer_bytes_used()))],
        10 => vec![
            ("compare", of_two(left.compare(a, right, b), 0)),
            ("compare over records", of_two(left.compare_through(a, right, b), 0)),
        ],
        11 => {
            let (told, through) = (left.check(), left.check_through());
            vec![
                ("check", (told.number, 0, told.row as u64, 0, [0; 3])),
                ("check over records", (through.number, 0, through.row as u64, 0, [0; 3])),
            ]
        }
        12 => {
            let told = left.same_column(right);
            vec![("same_column", of_two(told.number, told.row))]
        }
        // A step of the row walk asks for its place's value.
        _ => {
            let why = left.why_value(a) as u64;
            let [which, offset, len] = q.expected.part;
            let there = left.value_through(a, which.max(1) - 1, offset as usize, len as usize);
            let part = if there { q.expected.part } else { [9; 3] };
            let mut said = vec![
                ("value", placed(left.value(a))),
                ("why_value", (why, 0, 0, 0, [0; 3])),
                ("value over records", (left.why_value_through(a), 0, 0, 0, part)),
            ];
            if q.call == 13 {
                let (refused, number) = (q.expected.refusal, q.expected.number);
                let walks = left.walk_through(a, Counted { refused, number: number as usize }, which.max(1) - 1, offset as usize, len as usize);
                said.push(("walk over records", (refused, 0, 0, if walks { number } else { u64::MAX }, part)));
            }
            said
        }
    }
}

/// Which of two columns is refused. With 11 the question says it; with 2 it is the left one unless that fits, with 3 unless the row is there.
fn side(q: &Question, g: &Group) -> u64 {
    let raw = &g.left;
    let lent = model::Lent { views: &raw.views, data: &raw.data, table: &raw.table, map: &raw.map };
    match (q.call, q.expected.refusal) {
        (10 | 12, 11) => q.expected.side,
        (10 | 12, 2) => 1 + model::slice(&lent, &raw.column, 0, 0).is_ok() as u64,
        (10 | 12, 3) => 1 + (q.a < raw.column.rows) as u64,
        _ => 0,
    }
}

/// The expected answer as far as the call gives it: rows are named by the check and by same column alone.
fn expected(name: &str, q: &Question, g: &Group) -> Said {
    let e = &q.expected;
    let row = if name.starts_with("check") || name == "same_column" { e.row } else { 0 };
    let number = if q.call == 13 && name != "walk over records" { 0 } else { e.number };
    let part = if name == "why_value" { [0; 3] } else { e.part };
    (e.refusal, side(q, g), row, number, part)
}

#[derive(Default)]
struct Tally {
    calls: u64,
    refused: u64,
    different: u64,
    first: Option<String>,
}

/// By the call's name and whether the columns are valid.
type Tallies = BTreeMap<(&'static str, bool), Tally>;

fn ask(k: usize, g: &Group, tallies: &mut Tallies) {
    let (left, right) = (Lent::of_raw(&g.left), Lent::of_raw(&g.right));
    for q in &g.questions {
        for (name, x) in ours(q, &left, &right) {
            let y = expected(name, q, g);
            let t = tallies.entry((name, g.valid)).or_default();
            t.calls += 1;
            t.refused += (q.expected.refusal > 0) as u64;
            if x != y {
                t.different += 1;
                t.first.get_or_insert_with(|| format!("group {k}, {q:?}: ours {x:?}, expected {y:?}"));
            }
        }
    }
}

fn report(tallies: &Tallies) -> u64 {
    let (mut calls, mut refused, mut different) = (0, 0, 0);
    for ((name, valid), t) in tallies {
        let columns = if *valid { "valid" } else { "damaged" };
        println!("{name}, {columns} columns: {} calls, {} refused, {} different", t.calls, t.refused, t.different);
        if let Some(text) = &t.first {
            println!("  first: {text}");
        }
        calls += t.calls;
        refused += t.refused;
        different += t.different;
    }
    println!("{calls} calls, {refused} refused, {different} different");
    different
}

fn main() {
    let args: Vec<u64> = std::env::args().skip(1).filter_map(|a| a.parse().ok()).collect();
    let [seed, count] = args[..] else {
        eprintln!("usage: compare SEED GROUPS");
        exit(2);
    };
    quiet();
    let mut tallies = Tallies::new();
    for (k, g) in groups(seed, QUESTIONS).take(count as usize).enumerate() {
        ask(k, &g, &mut tallies);
    }
    if report(&tallies) > 0 {
        exit(1);
    }
}
