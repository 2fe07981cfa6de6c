//! Calls that write a new column: compaction, and columns from offsets.

use super::reading::column;
use super::{FILL, buffers, head, kind, lent, put, put_rooms};
use crate::answer::{Answer, Engine, Held};
use crate::by_model::lend;
use crate::by_original::ByOriginal;
use crate::generate::{maximum, offset_source};
use crate::random::Random;
use crate::script::{Call, Raw, Sizes};
use model::{Column, Kind, Refusal, Rooms};

const GROUPS: usize = 220;

/// Room around what an output needs.
fn around(random: &mut Random, rows: u64, blocks: u64, bytes: u64) -> Sizes {
    let mut near = |n: u64| match random.below(8) {
        0 => n.saturating_sub(1),
        1 => n + 1,
        2 => n + 5,
        _ => n,
    };
    let (views, data, table, map) = (
        near(16 * rows),
        near(bytes),
        near(blocks),
        near(rows.div_ceil(8)),
    );
    Sizes {
        views: views.min(1024) as usize,
        data: data.min(1024) as usize,
        table: table.min(16) as usize,
        map: map.min(16) as usize,
        merge: 0,
    }
}

/// What the call answers, and the buffers afterwards.
fn put_output(out: &mut Vec<u8>, answer: &Result<Column, Refusal>, rooms: &Rooms) {
    let (refusal, row) = answer.map_or_else(|r| (r.number as u64, r.row), |_| (0, 0));
    let column = answer.map_or([0; 3], |c| [c.rows, c.blocks, c.mapped as u64]);
    put(out, &[refusal, row]);
    put(out, &column);
    put_rooms(out, rooms);
}

fn put_sizes(out: &mut Vec<u8>, s: &Sizes) {
    put(out, &[s.views, s.data, s.table, s.map].map(|n| n as u64));
}

/// What a column holds.
fn held(rooms: &Rooms, c: &Column) -> Held {
    let view = |r: usize| rooms.views[16 * r..16 * r + 16].try_into().unwrap();
    let valid = |r: u64| !c.mapped || model::is_valid(&rooms.map, r);
    let block = |b: &(u64, u64)| Some(rooms.data[b.0 as usize..(b.0 + b.1) as usize].to_vec());
    Held {
        views: (0..c.rows as usize).map(view).collect(),
        valid: (0..c.rows).map(valid).collect(),
        blocks: rooms.table[..c.blocks as usize].iter().map(block).collect(),
    }
}

/// Whether the original answers as the model, where it is defined and the model has the room. Panics if not.
fn agrees(theirs: (Answer, Option<Held>), ours: &Result<Column, Refusal>, rooms: &Rooms) -> bool {
    match (&theirs.0, ours) {
        (Answer::Beyond, _) => false,
        (_, Err(r)) if (5..=7).contains(&r.number) => false,
        (Answer::Unasked, Err(_)) => true,
        (Answer::Done, Ok(c)) => {
            assert_eq!(theirs.1, Some(held(rooms, c)));
            true
        }
        (a, b) => panic!("original {a}, model {b:?}"),
    }
}

fn long_lengths(raw: &Raw) -> Vec<u64> {
    let rows = raw
        .views
        .chunks_exact(16)
        .skip(raw.column.first.min(100) as usize);
    let lengths = rows.map(|v| u32::from_le_bytes(v[..4].try_into().unwrap()) as u64);
    lengths
        .take(raw.column.rows.min(100) as usize)
        .filter(|n| *n > 12)
        .collect()
}

/// A compaction: its source, the sizes of the output's buffers, the answer, and those buffers afterwards.
#[derive(Clone, Debug)]
pub struct Compaction {
    /// Original and model agree.
    pub both: bool,
    pub maximum: u64,
    pub source: Raw,
    pub sizes: Sizes,
    pub answer: Result<Column, Refusal>,
    pub rooms: Rooms,
}

/// How many blocks the lengths need, so that rooms can be chosen around it.
fn blocks_needed(lengths: &[u64], maximum: u64) -> u64 {
    let (mut blocks, mut last) = (0, 0);
    for n in lengths {
        if blocks == 0 {
            blocks = 1;
        }
        if last + n > maximum {
            blocks += 1;
            last = 0;
        }
        last += n;
    }
    blocks
}

/// Panics where the original, as far as it can be asked, answers otherwise.
fn one_compaction(random: &mut Random, damaged: bool) -> Compaction {
    let source = column(random, damaged);
    let lengths = long_lengths(&source);
    let maximum = maximum(random, &lengths);
    let bytes = lengths.iter().sum::<u64>().min(1 << 20);
    let blocks = blocks_needed(&lengths, maximum);
    let sizes = around(random, source.column.rows.min(64), blocks, bytes);
    let mut rooms = lend(&sizes, FILL);
    let answer = model::compact(&lent(&source), &source.column, maximum, &mut rooms);
    let mut original = ByOriginal::default();
    original.call(&Call::Raw(0, source.clone()));
    let theirs = original.call(&Call::Compact(0, maximum, 1, sizes));
    Compaction {
        both: agrees(theirs, &answer, &rooms),
        maximum,
        source,
        sizes,
        answer,
        rooms,
    }
}

/// Compactions without end, one in four of a damaged column.
pub fn compactions(seed: u64) -> impl Iterator<Item = Compaction> {
    let mut random = Random::new(seed);
    (0..).map(move |k| one_compaction(&mut random, k % 4 == 3))
}

/// compaction.bin.
pub fn compaction(seed: u64) -> Vec<u8> {
    let mut out = vec![];
    for c in compactions(seed).take(GROUPS) {
        put(&mut out, &[c.both as u64, c.maximum]);
        head(&mut out, &c.source);
        put_sizes(&mut out, &c.sizes);
        buffers(&mut out, &c.source);
        put_output(&mut out, &c.answer, &c.rooms);
    }
    out
}

/// A column made from offsets: the same of it.
#[derive(Clone, Debug)]
pub struct OffsetColumn {
    /// Original and model agree.
    pub both: bool,
    pub kind: Kind,
    pub offsets: Vec<i32>,
    pub bytes: Vec<u8>,
    pub map: Option<Vec<u8>>,
    pub sizes: Sizes,
    pub answer: Result<Column, Refusal>,
    pub rooms: Rooms,
}

/// Panics where the original, as far as it can be asked, answers otherwise.
fn one_offset_column(random: &mut Random) -> OffsetColumn {
    let (offsets, bytes, map) = loop {
        let source = offset_source(random.word());
        if source.1.len() <= 500 {
            break source;
        }
    };
    let kind = *random.pick(&[Kind::Binary, Kind::String]);
    let rows = offsets.len().saturating_sub(1) as u64;
    let sizes = around(random, rows, 1, bytes.len() as u64);
    let mut rooms = lend(&sizes, FILL);
    let answer = model::from_offsets(kind, &offsets, &bytes, map.as_deref(), &mut rooms);
    let call = Call::Offsets(0, kind, offsets.clone(), bytes.clone(), map.clone(), sizes);
    let theirs = ByOriginal::default().call(&call);
    OffsetColumn {
        both: agrees(theirs, &answer, &rooms),
        kind,
        offsets,
        bytes,
        map,
        sizes,
        answer,
        rooms,
    }
}

/// Columns from offsets without end.
pub fn offset_columns(seed: u64) -> impl Iterator<Item = OffsetColumn> {
    let mut random = Random::new(seed);
    (0..).map(move |_: u64| one_offset_column(&mut random))
}

/// offsets.bin.
pub fn offsets(seed: u64) -> Vec<u8> {
    let mut out = vec![];
    for c in offset_columns(seed).take(GROUPS) {
        let (offsets, bytes) = (c.offsets.len() as u64, c.bytes.len() as u64);
        put(&mut out, &[c.both as u64, kind(c.kind), offsets, bytes]);
        let map_len = c.map.as_ref().map_or(0, |m| m.len());
        put(&mut out, &[c.map.is_some() as u64, map_len as u64]);
        put_sizes(&mut out, &c.sizes);
        for o in &c.offsets {
            out.extend(o.to_le_bytes());
        }
        out.extend(&c.bytes);
        out.extend(c.map.unwrap_or_default());
        put_output(&mut out, &c.answer, &c.rooms);
    }
    out
}
