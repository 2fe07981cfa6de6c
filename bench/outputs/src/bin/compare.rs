//! compare SEED COUNT: COUNT sources of each kind from `oracle::lists::outputs`, and around each the maxima and rooms that decide. The first answer to
//! each source was asked of the original too, where it is defined; the model answers all. Compared are the refusal, the row that 11 names, the new
//! column's numbers, and every byte of every output buffer, refused or not. It ends with the counts and fails at the first difference.

use model::{Column, Refusal, Rooms};
use oracle::lists::outputs::{Compaction, OffsetColumn, compactions, offset_columns};
use oracle::script::Raw;
use outputs::{Lent, from_offsets, kind_number, numbers};

/// What stands in the buffers and numbers before a call.
const FILL: u8 = 0xaa;
const WORD: u64 = u64::from_le_bytes([FILL; 8]);
const BEFORE: [usize; 5] = [WORD as usize; 5];

#[derive(Default)]
struct Tally {
    calls: u64,
    rows: u64,
    both: u64,
    through: u64,
    refusals: [u64; 14],
}

impl Tally {
    fn count(&mut self, rows: u64, both: bool, answer: &Result<Column, Refusal>) {
        self.calls += 1;
        self.both += both as u64;
        let number = answer.as_ref().map_or_else(|r| r.number as usize, |_| 0);
        self.refusals[number] += 1;
        if number != 2 {
            self.rows += rows;
        }
    }

    fn tell(&self, name: &str) {
        println!("{name}: {} calls, {} rows, {} also by the original", self.calls, self.rows, self.both);
        if self.through > 0 {
            println!("  {} also over records", self.through);
        }
        for (n, count) in self.refusals.iter().enumerate().filter(|(_, count)| **count > 0) {
            println!("  {:>2}: {count}", if n == 0 { "ok".into() } else { n.to_string() });
        }
    }
}

fn room(views: usize, data: usize, table: usize, map: usize) -> Rooms {
    Rooms { views: vec![FILL; views], data: vec![FILL; data], table: vec![(WORD, WORD); table], map: vec![FILL; map], merge: vec![] }
}

/// The output that an answer leaves.
fn wanted(answer: &Result<Column, Refusal>, rooms: &Rooms) -> (u64, usize, Lent) {
    match answer {
        Ok(c) => (0, 0, Lent::of_rooms(rooms, numbers(c))),
        Err(r) => (r.number as u64, r.row as usize, Lent::of_rooms(rooms, BEFORE)),
    }
}

/// In two calls of three one of the table's two slices is longer than the other; the table is as long as the shorter.
fn uneven(calls: u64, out: &mut Lent, want: &mut Lent) {
    for l in [out, want] {
        match calls % 3 {
            1 => l.starts.push(WORD as usize),
            2 => l.lens.push(WORD as usize),
            _ => {}
        }
    }
}

/// Whether the instruments hold as many records.
fn few(l: &Lent) -> bool {
    l.starts.len() <= 16 && l.lens.len() <= 16
}

fn differs(what: String) -> ! {
    eprintln!("{what}");
    std::process::exit(1)
}

fn check_compaction(t: &mut Tally, source: &Lent, raw: &Raw, most: u64, before: &Rooms, both: bool, answer: &Result<Column, Refusal>, after: &Rooms) {
    let mut out = Lent::of_rooms(before, BEFORE);
    let (number, row, mut want) = wanted(answer, after);
    uneven(t.calls, &mut out, &mut want);
    let mut other = out.clone();
    let told = source.compact(most as usize, &mut out);
    if (told.number, told.row) != (number, row) || out != want {
        differs(format!("maximum {most} {raw:?}\nours {told:?} {out:?}\nwant {number} {row} {want:?}"));
    }
    if few(source) && few(&other) {
        let told = source.compact_through(most as usize, &mut other);
        if (told.number, told.row) != (number, row) || other != want {
            differs(format!("over records: maximum {most} {raw:?}\nours {told:?} {other:?}\nwant {number} {row} {want:?}"));
        }
        t.through += 1;
    }
    t.count(raw.column.rows.min(32767), both, answer);
}

/// The same source with another maximum and other rooms, by the model.
fn again(t: &mut Tally, source: &Lent, raw: &Raw, most: u64, rooms: Rooms) -> Option<Column> {
    let lent = model::Lent { views: &raw.views, data: &raw.data, table: &raw.table, map: &raw.map };
    let mut after = rooms.clone();
    let answer = model::compact(&lent, &raw.column, most, &mut after);
    check_compaction(t, source, raw, most, &rooms, false, &answer, &after);
    answer.ok()
}

fn one_compaction(t: &mut Tally, c: &Compaction) {
    let raw = &c.source;
    let source = Lent::of_raw(raw);
    let before = room(c.rooms.views.len(), c.rooms.data.len(), c.rooms.table.len(), c.rooms.map.len());
    check_compaction(t, &source, raw, c.maximum, &before, c.both, &c.answer, &c.rooms);
    let ample = || room(1024, 4096, 80, 16);
    let Some(new) = again(t, &source, raw, c.maximum, ample()) else { return };
    let lens: Vec<u64> = long_lengths(raw);
    // rooms that are exact, and one short of it
    let (views, data, table, map) = (16 * new.rows as usize, lens.iter().sum::<u64>() as usize, new.blocks as usize, if new.mapped { new.rows.div_ceil(8) as usize } else { 0 });
    again(t, &source, raw, c.maximum, room(views, data, table, map));
    if views > 0 {
        again(t, &source, raw, c.maximum, room(views - 1, data, table, map));
    }
    if data > 0 {
        again(t, &source, raw, c.maximum, room(views, data - 1, table, map));
    }
    if table > 0 {
        again(t, &source, raw, c.maximum, room(views, data, table - 1, map));
    }
    if map > 0 {
        again(t, &source, raw, c.maximum, room(views, data, table, map - 1));
    }
    // maxima around the sums of neighbours
    for from in 0..lens.len().min(3) {
        let mut sum = 0;
        for n in lens[from..].iter().take(3) {
            sum += n;
            for most in [sum - 1, sum, sum + 1] {
                again(t, &source, raw, most, ample());
            }
        }
    }
}

/// The long lengths of an accepted source.
fn long_lengths(raw: &Raw) -> Vec<u64> {
    let rows = raw.views.chunks_exact(16).skip(raw.column.first as usize).take(raw.column.rows as usize);
    rows.map(|v| u32::from_le_bytes(v[..4].try_into().unwrap()) as u64).filter(|n| *n > 12).collect()
}

fn check_offsets(t: &mut Tally, c: &OffsetColumn, bytes: &[u8], before: &Rooms, both: bool, answer: &Result<Column, Refusal>, after: &Rooms) {
    let mut out = Lent::of_rooms(before, BEFORE);
    let (want, _, mut left) = wanted(answer, after);
    uneven(t.calls, &mut out, &mut left);
    let number = from_offsets(bytes, &c.bytes, c.map.as_deref(), kind_number(c.kind), &mut out);
    if number != want || out != left {
        differs(format!("{c:?}\nours {number} {out:?}\nwant {want} {left:?}"));
    }
    t.count(c.offsets.len().saturating_sub(1) as u64, both, answer);
}

fn once_more(t: &mut Tally, c: &OffsetColumn, bytes: &[u8], rooms: Rooms) -> Option<Column> {
    let mut after = rooms.clone();
    let answer = model::from_offsets(c.kind, &c.offsets, &c.bytes, c.map.as_deref(), &mut after);
    check_offsets(t, c, bytes, &rooms, false, &answer, &after);
    answer.ok()
}

fn one_offset_column(t: &mut Tally, c: &OffsetColumn, k: u64) {
    let mut bytes: Vec<u8> = c.offsets.iter().flat_map(|o| o.to_le_bytes()).collect();
    let before = room(c.rooms.views.len(), c.rooms.data.len(), c.rooms.table.len(), c.rooms.map.len());
    check_offsets(t, c, &bytes, &before, c.both, &c.answer, &c.rooms);
    // bytes after the last whole offset count for nothing
    bytes.extend(&[0x7f, 0xff, 0x80][..(k % 4) as usize]);
    let rows = c.offsets.len().saturating_sub(1);
    let (views, data, map) = (16 * rows, c.bytes.len(), rows.div_ceil(8));
    if once_more(t, c, &bytes, room(views, data, 1, map)).is_none() {
        return;
    }
    once_more(t, c, &bytes, room(views, data, 0, map));
    if views > 0 {
        once_more(t, c, &bytes, room(views - 1, data, 1, map));
        once_more(t, c, &bytes, room(views, data, 1, map - 1));
    }
    if data > 0 {
        once_more(t, c, &bytes, room(views, data - 1, 1, map));
    }
}

fn main() {
    let args: Vec<u64> = std::env::args().skip(1).map(|a| a.parse().expect("compare SEED COUNT")).collect();
    let (seed, count) = (args[0], args[1]);
    // the original's own panics are answers, which the oracle catches
    std::panic::set_hook(Box::new(|_| {}));
    let mut t = Tally::default();
    for c in compactions(seed).take(count as usize) {
        one_compaction(&mut t, &c);
    }
    t.tell("compaction");
    let mut t = Tally::default();
    for (k, c) in offset_columns(seed).take(count as usize).enumerate() {
        one_offset_column(&mut t, &c, k as u64);
    }
    t.tell("offsets");
}
