//! The fixed lists of answers, laid out as README.md says. What they are taken from goes on without end: `groups` and
//! the like, for whoever asks another library the same.

pub mod building;
pub mod leaves;
pub mod outputs;
pub mod reading;
pub mod shelf;

use crate::script::Raw;
use model::{Buffer, Kind, Lent, Part, Rooms};

const MAX_BYTES: usize = 1024;
const MAX_BLOCKS: usize = 16;
const MAX_MAP: usize = 16;
/// What lent buffers hold before the first call.
const FILL: u8 = 0xaa;

fn put(out: &mut Vec<u8>, words: &[u64]) {
    for w in words {
        out.extend(w.to_le_bytes());
    }
}

fn lent(raw: &Raw) -> Lent<'_> {
    Lent {
        views: &raw.views,
        data: &raw.data,
        table: &raw.table,
        map: &raw.map,
    }
}

fn head(out: &mut Vec<u8>, raw: &Raw) {
    let c = &raw.column;
    put(
        out,
        &[c.first, c.rows, c.blocks, kind(c.kind), c.mapped as u64],
    );
    put(out, &[raw.views.len() as u64, raw.data.len() as u64]);
    put(out, &[raw.table.len() as u64, raw.map.len() as u64]);
}

fn buffers(out: &mut Vec<u8>, raw: &Raw) {
    out.extend(&raw.views);
    out.extend(&raw.data);
    for b in &raw.table {
        put(out, &[b.0, b.1]);
    }
    out.extend(&raw.map);
}

/// The buffers of a builder or an output, without the merge table.
fn put_rooms(out: &mut Vec<u8>, rooms: &Rooms) {
    out.extend(&rooms.views);
    out.extend(&rooms.data);
    for b in &rooms.table {
        put(out, &[b.0, b.1]);
    }
    out.extend(&rooms.map);
}

fn kind(kind: Kind) -> u64 {
    match kind {
        Kind::Binary => 0,
        Kind::String => 1,
    }
}

/// Buffer, place and length of a part, all 0 if it is empty.
fn part_words(p: Part) -> [u64; 3] {
    let buffer = match p.buffer {
        Buffer::Views => 1,
        Buffer::Data => 2,
    };
    if p.len == 0 {
        [0; 3]
    } else {
        [buffer, p.at, p.len]
    }
}

fn small(raw: &Raw) -> bool {
    raw.views.len() <= MAX_BYTES
        && raw.data.len() <= MAX_BYTES
        && raw.table.len() <= MAX_BLOCKS
        && raw.map.len() <= MAX_MAP
}
