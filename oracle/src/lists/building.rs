//! Sequences of calls on one builder.

use super::{
    FILL, MAX_BLOCKS, MAX_BYTES, MAX_MAP, buffers, head, kind, part_words, put, put_rooms,
};
use crate::answer::{Answer, Engine};
use crate::by_model::ByModel;
use crate::by_original::ByOriginal;
use crate::compare::{Verdict, states_differ, verdict};
use crate::generate::{For, building as script};
use crate::random::Random;
use crate::script::{Call, Raw, Sizes};
use model::{Growth, Kind, Merge, Rooms, State};

const GROUPS: usize = 44;
const CALLS: usize = 22;
/// Places of a merge table at most.
const MAX_PLACES: usize = 64;

fn sizes(random: &mut Random, enough: bool) -> Sizes {
    if enough || random.once_in(4) {
        return Sizes {
            views: MAX_BYTES,
            data: MAX_BYTES,
            table: MAX_BLOCKS,
            map: MAX_MAP,
            merge: MAX_PLACES,
        };
    }
    Sizes {
        views: random.below(16 * 22) as usize,
        data: random.below(200) as usize,
        table: random.below(7) as usize,
        map: random.below(4) as usize,
        merge: random.below(30) as usize,
    }
}

fn growth(growth: Growth) -> [u64; 2] {
    match growth {
        Growth::Fixed(size) => [0, size],
        Growth::Doubling(size) => [1, size],
    }
}

fn merge(merge: Merge) -> [u64; 2] {
    match merge {
        Merge::Off => [0, 0],
        Merge::On => [1, 0],
        Merge::UpTo(maximum) => [2, maximum],
    }
}

/// The call's number, its arguments, and the bytes that go with it. None for a column spelled out, which is kept.
fn encoded(call: &Call, column: &mut Option<Raw>) -> Option<([u64; 4], Vec<u8>)> {
    Some(match call {
        Call::Value(_, v) => ([1, 0, 0, 0], v.clone()),
        Call::Values(_, v, n) => ([2, *n, 0, 0], v.clone()),
        Call::Null(_) => ([3, 0, 0, 0], vec![]),
        Call::Block(_, v) => ([4, 0, 0, 0], v.clone()),
        Call::View(_, block, offset, len) => ([5, *block, *offset, *len], vec![]),
        Call::Append(..) => {
            let raw = column.as_ref().unwrap();
            let mut bytes = vec![];
            head(&mut bytes, raw);
            buffers(&mut bytes, raw);
            ([6, 0, 0, 0], bytes)
        }
        Call::Get(_, row) => ([7, *row, 0, 0], vec![]),
        Call::Finish(..) => ([8, 0, 0, 0], vec![]),
        Call::Copy(..) => ([9, 0, 0, 0], vec![]),
        Call::Raw(_, raw) => {
            *column = Some(raw.clone());
            return None;
        }
        other => panic!("{other:?} isn't a builder's call"),
    })
}

/// Words 5 to 10: refusal, row, number, part.
fn answered(call: &Call, answer: &Answer, after: &ByModel) -> [u64; 6] {
    let (state, rooms) = after.builder(0).unwrap();
    match (call, answer) {
        (_, Answer::Refused(n, row, _)) => [*n as u64, *row, 0, 0, 0, 0],
        (Call::Get(_, row), _) => {
            let p = part_words(model::get_value(state, rooms, *row).unwrap());
            [0, 0, 0, p[0], p[1], p[2]]
        }
        (_, Answer::Number(n)) => [0, 0, *n, 0, 0, 0],
        _ => [0; 6],
    }
}

fn state_words(s: &State) -> [u64; 7] {
    let size = growth(s.growth)[1];
    [
        s.rows,
        s.blocks,
        s.before,
        s.open,
        s.capacity,
        size,
        s.nulls as u64,
    ]
}

/// Words 18 to 20: the column that a finish answers.
fn column_words(call: &Call, answer: &Answer, after: &ByModel) -> [u64; 3] {
    match (call, answer) {
        (Call::Finish(_, c) | Call::Copy(_, c), Answer::Done) => {
            let column = after.column(*c).unwrap().column;
            [column.rows, column.blocks, column.mapped as u64]
        }
        _ => [0; 3],
    }
}

/// A call: words 0 to 3, the bytes that go with it, and words 5 to 20, which say what comes of it.
#[derive(Clone, Debug)]
pub struct Step {
    pub words: [u64; 4],
    pub bytes: Vec<u8>,
    pub expected: [u64; 16],
}

/// A builder's settings, the sizes of its buffers, calls on it, and its buffers afterwards.
#[derive(Clone, Debug)]
pub struct Group {
    /// Original and model agree after every call.
    pub both: bool,
    pub kind: Kind,
    pub growth: Growth,
    pub merge: Merge,
    pub sizes: Sizes,
    pub steps: Vec<Step>,
    pub rooms: Rooms,
}

/// Panics where the original, as far as it can be asked, answers otherwise.
fn group(script: &[Call], both: bool) -> Group {
    let mut model = ByModel::default();
    model.fill = FILL;
    let mut original = ByOriginal::default();
    let Call::Start(_, kind, growth, merge, sizes) = &script[0] else {
        panic!("a script begins with start");
    };
    original.call(&script[0]);
    model.call(&script[0]);
    let (mut column, mut steps) = (None, vec![]);
    for call in &script[1..] {
        let theirs = both.then(|| original.call(call));
        let Some((words, bytes)) = encoded(call, &mut column) else {
            model.call(call);
            continue;
        };
        let (answer, held) = model.call(call);
        if let Some((theirs, their_state)) = theirs {
            let verdict = verdict(&theirs, &answer);
            let differ = verdict != Verdict::Beyond && states_differ(&their_state, &held);
            let agree = verdict != Verdict::Differ && !differ;
            assert!(agree, "{call:?}: original {theirs}, model {answer}");
        }
        let mut expected = [0; 16];
        expected[..6].copy_from_slice(&answered(call, &answer, &model));
        expected[6..13].copy_from_slice(&state_words(&model.builder(0).unwrap().0));
        expected[13..].copy_from_slice(&column_words(call, &answer, &model));
        steps.push(Step {
            words,
            bytes,
            expected,
        });
    }
    Group {
        both,
        kind: *kind,
        growth: *growth,
        merge: *merge,
        sizes: *sizes,
        steps,
        rooms: model.builder(0).unwrap().1.clone(),
    }
}

/// Groups without end: with room for all, and short of it, in turn.
pub fn groups(seed: u64, calls: usize) -> impl Iterator<Item = Group> {
    let mut random = Random::new(seed);
    (0..).map(move |k| {
        let both = k % 2 == 0;
        let whom = if both { For::Both } else { For::Model };
        let sizes = sizes(&mut random, both);
        group(&script(random.word(), whom, sizes, calls), both)
    })
}

/// building.bin.
pub fn building(seed: u64) -> Vec<u8> {
    let mut out = vec![];
    for g in groups(seed, CALLS).take(GROUPS) {
        put(
            &mut out,
            &[g.both as u64, g.steps.len() as u64, kind(g.kind)],
        );
        put(&mut out, &growth(g.growth));
        put(&mut out, &merge(g.merge));
        let s = &g.sizes;
        put(
            &mut out,
            &[s.views, s.data, s.table, s.map, s.merge].map(|n| n as u64),
        );
        for step in g.steps {
            put(&mut out, &step.words);
            put(&mut out, &[step.bytes.len() as u64]);
            put(&mut out, &step.expected);
            out.extend(step.bytes);
        }
        put_rooms(&mut out, &g.rooms);
    }
    out
}
