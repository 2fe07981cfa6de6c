//! Questions about columns.

use super::{buffers, head, lent, part_words, put, small};
use crate::answer::{Answer, Engine};
use crate::by_model::order_text;
use crate::by_original::ByOriginal;
use crate::generate::{For, damage, damage_by, spelled, values_of};
use crate::random::Random;
use crate::script::{Call, Raw};
use model::{Order, Part, Refusal, Side};

/// Groups of columns, and questions of each.
const GROUPS: usize = 110;
const QUESTIONS: usize = 21;

/// Words 3 to 9 of a question.
#[derive(Default, Clone, Copy, PartialEq, Eq, Debug)]
pub struct Expected {
    pub refusal: u64,
    pub row: u64,
    pub side: u64,
    pub number: u64,
    pub part: [u64; 3],
}

fn refused(r: Refusal) -> Expected {
    Expected {
        refusal: r.number as u64,
        row: r.row,
        side: match r.side {
            None => 0,
            Some(Side::Left) => 1,
            Some(Side::Right) => 2,
        },
        ..Expected::default()
    }
}

fn number(n: u64) -> Expected {
    Expected {
        number: n,
        ..Expected::default()
    }
}

fn part(p: Part) -> Expected {
    Expected {
        part: part_words(p),
        ..Expected::default()
    }
}

fn order(o: Order) -> u64 {
    match o {
        Order::Less => 0,
        Order::Equal => 1,
        Order::Greater => 2,
    }
}

/// The model's answer to a question, and the same question as a call of a script, the left column being 0 and the right
/// one 1.
fn asked(call: u64, a: u64, b: u64, left: &Raw, right: &Raw) -> (Expected, Call) {
    let (l, lc, r, rc) = (&lent(left), &left.column, &lent(right), &right.column);
    let or = |x: Result<Expected, Refusal>| x.unwrap_or_else(refused);
    match call {
        1 => (or(model::value(l, lc, a).map(part)), Call::Read(0, a)),
        2 => (
            or(model::prefix(l, lc, a, b).map(part)),
            Call::Prefix(0, a, b),
        ),
        3 => (
            or(model::suffix(l, lc, a, b).map(part)),
            Call::Suffix(0, a, b),
        ),
        4 => (or(model::length(l, lc, a).map(number)), Call::Length(0, a)),
        5 => (
            or(model::null_bit(l, lc, a).map(|x| number(x as u64))),
            Call::Bit(0, a),
        ),
        6 => (
            or(model::null_run(l, lc, a, b).map(number)),
            Call::Run(0, a, b),
        ),
        7 => {
            let slice = model::slice(l, lc, a, b).map(|c| Expected {
                number: c.first,
                part: [0, 0, c.rows],
                ..Expected::default()
            });
            (or(slice), Call::Slice(0, a, b, 2))
        }
        8 => (
            or(model::total_bytes_len(l, lc).map(number)),
            Call::Total(0),
        ),
        9 => (
            or(model::total_buffer_bytes_used(l, lc).map(number)),
            Call::Used(0),
        ),
        10 => {
            let answer = model::compare(l, lc, a, r, rc, b).map(|o| number(order(o)));
            (or(answer), Call::Compare(0, a, 1, b))
        }
        11 => (or(model::check(l, lc).map(|_| number(0))), Call::Check(0)),
        12 => {
            let answer = model::same_column(l, lc, r, rc).map(|s| number(s as u64));
            (or(answer), Call::Same(0, 1))
        }
        _ => {
            let (value, place) = model::walk(l, lc, a);
            let answer = or(value.map(part));
            (
                Expected {
                    number: place,
                    ..answer
                },
                Call::Read(0, a),
            )
        }
    }
}

/// Whether the original's answer is the expected one. What it can't be asked is left open.
fn agrees(theirs: &Answer, call: u64, e: &Expected, left: &Raw) -> bool {
    match theirs {
        Answer::Beyond => true,
        Answer::Unasked => e.refusal > 0,
        Answer::Refused(n, ..) => e.refusal == *n as u64,
        _ if e.refusal > 0 => false,
        Answer::Bytes(b) => {
            let from = if e.part[0] == 1 {
                &left.views
            } else {
                &left.data
            };
            *b == from[e.part[1] as usize..(e.part[1] + e.part[2]) as usize]
        }
        Answer::Number(n) => e.number == *n,
        Answer::Order(o) => {
            [Order::Less, Order::Equal, Order::Greater].map(order_text)[e.number as usize] == *o
        }
        Answer::Done => call == 7 || call == 11,
        _ => false,
    }
}

/// Mostly below n, which is a number of rows; else around n or far off.
fn near(random: &mut Random, n: u64) -> u64 {
    match random.below(16) {
        0 => n,
        1 => n.saturating_add(1),
        2 if random.once_in(3) => u64::MAX - random.below(2),
        _ => random.below(n.clamp(1, 1000)),
    }
}

/// The lowest row whose view isn't true, or some row.
fn bad_row(random: &mut Random, raw: &Raw) -> u64 {
    match model::check(&lent(raw), &raw.column) {
        Err(r) if r.number == 11 && random.once_in(2) => r.row,
        _ => near(random, raw.column.rows),
    }
}

fn question(random: &mut Random, k: usize, left: &Raw, right: &Raw) -> (u64, u64, u64) {
    let call = if k < 13 {
        k as u64 + 1
    } else {
        *random.pick(&[1, 2, 3, 5, 6, 7, 10, 10, 13])
    };
    let rows = left.column.rows;
    let row = bad_row(random, left);
    match call {
        2 | 3 => {
            let n = if random.once_in(3) {
                random.below(40)
            } else {
                random.below(15)
            };
            (call, row, n)
        }
        6 | 7 => {
            let rest = rows.saturating_sub(row);
            let count = if random.once_in(3) {
                rest
            } else {
                near(random, rest)
            };
            (call, row, count)
        }
        8 | 9 | 11 | 12 => (call, 0, 0),
        10 => (call, row, bad_row(random, right)),
        _ => (call, row, 0),
    }
}

/// A column small enough for the list, damaged if asked: in a value, in its reach, or anyhow.
pub fn column(random: &mut Random, damaged: bool) -> Raw {
    loop {
        let rows = *random.pick(&[0, 1, 3, 8, 8, 9, 17, 25]);
        let (held, kind) = values_of(random.word(), rows);
        let first = *random.pick(&[0, 0, 1, 5, 7, 8, 9]);
        let mut raw = spelled(random, &held, first, kind);
        if damaged {
            let way = random.pick(&[0, 7, 7, 13]) + random.below(5);
            damage_by(random, &mut raw, way);
            let bad = model::check(&lent(&raw), &raw.column).is_err();
            if !bad && !random.once_in(4) {
                continue;
            }
            if random.once_in(3) {
                damage(random, &mut raw, For::Model);
            }
        }
        if small(&raw) {
            return raw;
        }
    }
}

/// A question with its answer.
#[derive(Clone, Debug)]
pub struct Question {
    pub call: u64,
    pub a: u64,
    pub b: u64,
    pub expected: Expected,
}

/// Two columns and questions about them.
#[derive(Clone, Debug)]
pub struct Group {
    /// Both columns are valid, and original and model agree.
    pub valid: bool,
    pub left: Raw,
    pub right: Raw,
    pub questions: Vec<Question>,
}

/// Panics where the original, as far as it can be asked, answers otherwise.
fn group(random: &mut Random, valid: bool, questions: usize) -> Group {
    let left = column(random, !valid);
    let mut right = if random.once_in(3) {
        left.clone()
    } else {
        column(random, false)
    };
    if !valid && random.once_in(2) {
        let way = random.below(18);
        damage_by(random, &mut right, way);
    }
    let mut original = ByOriginal::default();
    original.call(&Call::Raw(0, left.clone()));
    original.call(&Call::Raw(1, right.clone()));
    let mut all = vec![];
    for k in 0..questions {
        let (call, a, b) = question(random, k, &left, &right);
        let (expected, asked) = asked(call, a, b, &left, &right);
        let (theirs, _) = original.call(&asked);
        // On damaged columns only what is defined for the original is compared: the check isn't.
        let compared = valid || !matches!(asked, Call::Check(_));
        if compared && !agrees(&theirs, call, &expected, &left) {
            panic!("{asked:?}: original {theirs}, model {expected:?}");
        }
        all.push(Question {
            call,
            a,
            b,
            expected,
        });
    }
    Group {
        valid,
        left,
        right,
        questions: all,
    }
}

/// Groups without end, valid and damaged ones in turn.
pub fn groups(seed: u64, questions: usize) -> impl Iterator<Item = Group> {
    let mut random = Random::new(seed);
    (0..).map(move |k| group(&mut random, k % 2 == 0, questions))
}

/// reading.bin.
pub fn reading(seed: u64) -> Vec<u8> {
    let mut out = vec![];
    for g in groups(seed, QUESTIONS).take(GROUPS) {
        put(&mut out, &[g.valid as u64, g.questions.len() as u64]);
        head(&mut out, &g.left);
        head(&mut out, &g.right);
        buffers(&mut out, &g.left);
        buffers(&mut out, &g.right);
        for q in g.questions {
            let e = q.expected;
            put(
                &mut out,
                &[q.call, q.a, q.b, e.refusal, e.row, e.side, e.number],
            );
            put(&mut out, &e.part);
        }
    }
    out
}
