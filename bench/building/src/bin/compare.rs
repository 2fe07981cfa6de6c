//! Random scripts of all builder calls through the exported functions. After every call its answer, the state's numbers and every lent buffer, and what lies
//! behind them, are compared with the model; the merge table with a search written down here.
//!
//! compare SEED CALLS: at least CALLS calls. compare original SEED GROUPS: the oracle's groups, where original and model agree.

use building::{Buffers, Lent as Source, Numbers, colliding, hash, numbers as column_numbers, numbers_of, state_of};
use model::{Buffer, Column, Growth, Kind, Lent, Merge, Refusal, Rooms, State};
use oracle::random::Random;

const NAMES: [&str; 10] = ["start", "value", "values", "null", "block", "view", "column", "get_value", "finish", "finish_by_copy"];
/// Bytes, records and places behind what is lent.
const BEHIND: usize = 9;

/// The greatest number that a builder call gives.
const MOST: usize = 11;

/// Counts of calls by refusal number, 0 for the accepted.
type Counts = [u64; MOST + 1];

struct Table([Counts; 10]);

impl Table {
    fn print(&self) {
        let head: Vec<String> = (0..=MOST).map(|n| format!("{n:>9}")).collect();
        println!("{:<15}{}", "refusal", head.join(""));
        for (name, row) in NAMES.iter().zip(&self.0) {
            let cells: Vec<String> = row.iter().map(|n| if *n == 0 { format!("{:>9}", ".") } else { format!("{n:>9}") }).collect();
            println!("{name:<15}{}", cells.join(""));
        }
    }
}

/// One builder: ours, and the model beside it.
struct Pair {
    numbers: Numbers,
    ours: Buffers,
    rooms: Rooms,
    /// What lies behind the model's rooms, and the table's longer half.
    behind: Buffers,
    places: Vec<u32>,
    /// The model's own table is followed: nothing was damaged since the start.
    clean: bool,
}


fn number(r: &Result<impl Sized, Refusal>) -> u64 {
    r.as_ref().err().map_or(0, |e| e.number as u64)
}

impl Pair {
    fn new(r: &mut Random, sizes: [usize; 5], skew: usize) -> Self {
        let [views, bytes, table, nulls, places] = sizes;
        let fill = r.word() as u8;
        let longer = if r.once_in(2) { [skew, 0] } else { [0, skew] };
        let ours = Buffers {
            views: vec![fill; views + BEHIND],
            bytes: vec![fill; bytes + BEHIND],
            starts: vec![fill as usize; table + skew + BEHIND],
            lens: vec![fill as usize; table + skew + BEHIND],
            nulls: vec![fill; nulls + BEHIND],
            places: vec![0x55; places + BEHIND],
            lent: [views, bytes, table + longer[0], table + longer[1], nulls, places],
        };
        let rooms = Rooms {
            views: vec![fill; views],
            data: vec![fill; bytes],
            table: vec![(fill as u64, fill as u64); table],
            map: vec![fill; nulls],
            merge: vec![0; places],
        };
        Pair { numbers: [0; 11], behind: ours.clone(), places: vec![0x55; places], ours, rooms, clean: true }
    }

    /// The state and every buffer, ours beside the model's.
    fn same(&self, numbers: &Numbers) -> Result<(), String> {
        let (o, b, n) = (&self.ours, &self.behind, &self.rooms);
        let check = |ok: bool, what: &str| if ok { Ok(()) } else { Err(what.to_string()) };
        check(self.numbers == *numbers, "state")?;
        check(o.views[..n.views.len()] == n.views[..] && o.views[n.views.len()..] == b.views[n.views.len()..], "views")?;
        check(o.bytes[..n.data.len()] == n.data[..] && o.bytes[n.data.len()..] == b.bytes[n.data.len()..], "bytes")?;
        let k = n.table.len();
        let table = n.table.iter().enumerate().all(|(i, t)| o.starts[i] == t.0 as usize && o.lens[i] == t.1 as usize);
        check(table && o.starts[k..] == b.starts[k..] && o.lens[k..] == b.lens[k..], "table")?;
        check(o.nulls[..n.map.len()] == n.map[..] && o.nulls[n.map.len()..] == b.nulls[n.map.len()..], "nulls")?;
        let p = self.places.len();
        check(o.places[..p] == self.places[..] && o.places[p..] == b.places[p..], "places")
    }

    /// What the merge table answers for x: a row, or a free place.
    fn search(&self, s: &State, x: &[u8]) -> (Option<u64>, Option<usize>) {
        let len = x.len() as u64;
        let merges = match s.merge {
            Merge::Off => false,
            Merge::On => len > 12,
            Merge::UpTo(most) => len > 12 && len <= most,
        };
        let n = self.places.len();
        if !merges || n == 0 {
            return (None, None);
        }
        let from = (hash(x) % n as u64) as usize;
        for k in 0..n {
            let p = (from + k) % n;
            let e = self.places[p] as u64;
            if e == 0 {
                return (None, Some(p));
            }
            let part = model::get_value(s, &self.rooms, e - 1);
            if part.is_ok_and(|q| q.of(&self.rooms.views, &self.rooms.data) == x) {
                return (Some(e - 1), None);
            }
        }
        (None, None)
    }

    /// A value n times in the model, its merge table made to say what ours does where that was damaged.
    fn model_value(&mut self, s: &State, x: &[u8], n: u64) -> Result<State, Refusal> {
        let (hit, free) = if x.len() > 12 && x.len() < 1 << 20 { self.search(s, x) } else { (None, None) };
        let kept = self.rooms.merge.clone();
        if !self.clean {
            self.rooms.merge.fill(0);
            if let (Some(r), Some(first)) = (hit, self.rooms.merge.first_mut()) {
                *first = (r as u32).wrapping_add(1);
            }
        }
        let done = model::append_value_n(s, &mut self.rooms, x, n);
        if !self.clean || done.is_err() {
            self.rooms.merge = kept;
        }
        if let (Ok(_), Some(p), true) = (&done, free, n > 0) {
            self.places[p] = s.rows as u32 + 1;
        }
        done
    }
}

/// A value: any bytes, or UTF-8, repeated ones and colliding ones among them; often as long as what is left of the room or of the open block.
fn value(r: &mut Random, p: &Pair, s: &State) -> Vec<u8> {
    let used = s.before.saturating_add(s.open);
    let mut len = match r.below(12) {
        0 => r.below(4),
        1..=3 => 10 + r.below(6),
        4 => (p.rooms.data.len() as u64).saturating_sub(used).saturating_add(r.below(3)).saturating_sub(1).min(400),
        5 => s.capacity.saturating_sub(s.open).saturating_add(r.below(3)).saturating_sub(1).min(400),
        6 => r.below(120),
        7 if p.rooms.data.len() > 5_000 => r.below(9_000),
        _ => 13 + r.below(28),
    };
    if r.once_in(3) {
        len = len.min(16);
    }
    if s.kind == Kind::String && !r.once_in(6) {
        let text = "aé€𝄞b".repeat(1 + len as usize / 10);
        let mut end = (len as usize).min(text.len());
        while !text.is_char_boundary(end) {
            end -= 1;
        }
        let mut bytes = text.as_bytes()[..end].to_vec();
        if r.once_in(2) {
            bytes.iter_mut().filter(|b| **b == b'a').for_each(|b| *b = b'a' + (len % 7) as u8);
        }
        return bytes;
    }
    match r.below(4) {
        0 => colliding(r.below(24)).to_vec(),
        1 => vec![r.below(3) as u8; len as usize],
        _ => r.bytes(len),
    }
}

/// A source column: built by the model, sliced and damaged.
fn source(r: &mut Random) -> (Source, Column, Rooms) {
    let kind = if r.once_in(3) { Kind::String } else { Kind::Binary };
    let growth = if r.once_in(2) { Growth::Fixed(1 + r.below(60)) } else { Growth::Doubling(8192) };
    let mut rooms = Rooms { views: vec![0; 16 * 24], data: vec![0; 700], table: vec![(0, 0); 12], map: vec![0; 3], merge: vec![] };
    let mut s = model::start(kind, growth, Merge::Off).unwrap();
    for _ in 0..r.below(14) {
        let len = r.below(40);
        let text: Vec<u8> = (0..len).map(|_| if kind == Kind::String || r.once_in(2) { b'a' + r.below(5) as u8 } else { r.word() as u8 }).collect();
        s = match r.below(8) {
            0 => model::append_null(&s, &mut rooms),
            1 => model::append_block(&s, &mut rooms, &text[..len as usize / 2]).map(|x| x.0),
            2 => {
                let k = r.below(3);
                model::append_view(&s, &mut rooms, k, r.below(8), r.below(24))
            }
            3 => {
                let n = r.below(4);
                model::append_value_n(&s, &mut rooms, &text, n)
            }
            _ => model::append_value(&s, &mut rooms, &text),
        }
        .unwrap_or(s);
    }
    let (_, mut c) = model::finish(&s, &mut rooms).unwrap();
    if r.once_in(2) {
        c.first = r.below(c.rows + 1);
        c.rows = r.below(c.rows - c.first + 1);
    }
    if r.once_in(4) {
        for _ in 0..1 + r.below(2) {
            match r.below(9) {
                0 => c.rows = odd(r, c.rows),
                1 => c.first = odd(r, c.first),
                2 => c.blocks = odd(r, c.blocks),
                3 => c.mapped = !c.mapped,
                4 => {
                    let k = r.below(12) as usize;
                    rooms.table[k].0 = odd(r, rooms.table[k].0);
                }
                5 => {
                    let k = r.below(12) as usize;
                    rooms.table[k].1 = odd(r, rooms.table[k].1);
                }
                _ => {
                    let at = (16 * c.first.min(23) + r.below(16 * c.rows.min(24).max(1))).min(383) as usize;
                    rooms.views[at] ^= 1 << r.below(8);
                }
            }
        }
    }
    let src = Source {
        views: rooms.views.clone(),
        bytes: rooms.data.clone(),
        starts: rooms.table.iter().map(|t| t.0 as usize).collect(),
        lens: rooms.table.iter().map(|t| t.1 as usize).collect(),
        nulls: rooms.map.clone(),
        column: [c.first as usize, c.rows as usize, c.blocks as usize, if c.kind == Kind::String { 1 + r.below(2) as usize } else { 0 }, c.mapped as usize],
    };
    (src, c, rooms)
}

/// Another number: near it, near a limit, or anything.
fn odd(r: &mut Random, n: u64) -> u64 {
    match r.below(5) {
        0 => n.wrapping_add(1),
        1 => n.wrapping_sub(1),
        2 => *r.pick(&[0, 12, 13, 32_767, 32_768, 4_096, 4_097, 16_777_216, 16_777_217, 1 << 32, u64::MAX, u64::MAX - 1, 1 << 63]),
        3 => r.below(64),
        _ => r.word(),
    }
}

fn sizes(r: &mut Random) -> [usize; 5] {
    let rows = r.below(40);
    let views = (16 * rows + r.below(2) * r.below(16)) as usize;
    let nulls = if r.once_in(3) { rows.div_ceil(8) as usize } else { r.below(6) as usize };
    let places = match r.below(4) {
        0 => r.below(8),
        1 => rows,
        2 => rows + 1,
        _ => 2 * rows + r.below(4),
    };
    let data = match r.below(24) {
        0 => 20_000,
        1..=8 => 1_400,
        _ => r.below(500),
    };
    [views, data as usize, r.below(12) as usize, nulls, places as usize]
}

/// Damage that no call did: the state's numbers, a view's byte, a record, a place.
fn damage(r: &mut Random, p: &mut Pair) {
    p.clean = false;
    match r.below(8) {
        0..=2 => {
            let k = r.below(11) as usize;
            p.numbers[k] = odd(r, p.numbers[k] as u64) as usize;
        }
        3 if !p.rooms.views.is_empty() => {
            let k = r.below(p.rooms.views.len() as u64) as usize;
            p.rooms.views[k] ^= 1 << r.below(8);
            p.ours.views[k] = p.rooms.views[k];
        }
        4 if !p.rooms.table.is_empty() => {
            let k = r.below(p.rooms.table.len() as u64) as usize;
            let t = &mut p.rooms.table[k];
            if r.once_in(2) { t.0 = odd(r, t.0) } else { t.1 = odd(r, t.1) }
            (p.ours.starts[k], p.ours.lens[k]) = (t.0 as usize, t.1 as usize);
        }
        5 | 6 if !p.places.is_empty() => {
            let k = r.below(p.places.len() as u64) as usize;
            p.places[k] = if r.once_in(2) { r.below(40) as u32 } else { r.word() as u32 };
            p.ours.places[k] = p.places[k];
        }
        7 if !p.rooms.map.is_empty() => {
            let k = r.below(p.rooms.map.len() as u64) as usize;
            p.rooms.map[k] = r.word() as u8;
            p.ours.nulls[k] = p.rooms.map[k];
        }
        _ => {}
    }
}

fn settings(r: &mut Random) -> [usize; 5] {
    let growth = r.below(2) as usize;
    let size = match r.below(6) {
        0 => odd(r, 16_777_216),
        _ => 1 + r.below(90),
    };
    let merging = *r.pick(&[0, 1, 1, 2, 2, 3]) as usize;
    let most = if r.once_in(6) { odd(r, 0) } else { 13 + r.below(30) };
    [r.below(3) as usize, growth, size as usize, merging, most as usize]
}

/// Start: the model's, with the places cleared where they are used.
fn start(r: &mut Random, p: &mut Pair, table: &mut Table) -> Result<(), String> {
    let set = settings(r);
    let before = p.numbers;
    let refused = p.ours.start(&mut p.numbers, &set);
    let w = set.map(|n| n as u64);
    let kind = if w[0] == 0 { Kind::Binary } else { Kind::String };
    let growth = if w[1] == 0 { Growth::Fixed(w[2]) } else { Growth::Doubling(8192) };
    let merge = match w[3] {
        0 => Merge::Off,
        1 => Merge::On,
        _ => Merge::UpTo(w[4]),
    };
    let theirs = model::start(kind, growth, merge);
    let want = theirs.as_ref().map_or(before, numbers_of);
    if let Ok(s) = &theirs {
        p.rooms.merge.fill(0);
        if s.merge != Merge::Off {
            p.places.fill(0);
        }
        p.clean = true;
    }
    table.0[0][refused as usize] += 1;
    if refused != number(&theirs) {
        return Err(format!("start {set:?}: {refused}, model {}", number(&theirs)));
    }
    p.same(&want).map_err(|e| format!("start {set:?}: {e} differ"))
}

/// One call on both; what differs, if anything does.
fn call(r: &mut Random, p: &mut Pair, long: &[u8], table: &mut Table) -> Result<(), String> {
    let s = state_of(&p.numbers);
    let before = p.numbers;
    let which = *r.pick(&[1, 1, 1, 1, 1, 2, 2, 3, 3, 4, 5, 5, 6, 6, 7, 7, 8, 9, 9]);
    let which = if which == 8 && !r.once_in(6) { 1 } else { which };
    let mut text = String::new();
    let (refused, theirs, want): (u64, u64, Numbers) = match which {
        1 | 2 => {
            let huge = r.once_in(60);
            let cut = if huge { 16_777_215 + r.below(3) as usize } else { 0 };
            let x = if huge { vec![] } else { value(r, p, &s) };
            // the longest values are told from the limit alone, so that none is copied
            let x: &[u8] = if huge && (s.kind == Kind::Binary || cut > 16_777_216) { &long[..cut] } else { &x };
            let n = if which == 1 { 1 } else { *r.pick(&[0, 0, 1, 2, 3, 5, 9, 30, 32_767, u64::MAX, u64::MAX - 1]) };
            let refused = if which == 1 { p.ours.append_value(&mut p.numbers, x) } else { p.ours.append_values(&mut p.numbers, x, n as usize) };
            text = format!("{} bytes, {n} times", x.len());
            let done = p.model_value(&s, x, n);
            (refused, number(&done), done.map_or(before, |t| numbers_of(&t)))
        }
        3 => {
            let refused = p.ours.append_null(&mut p.numbers);
            let done = model::append_null(&s, &mut p.rooms);
            (refused, number(&done), done.map_or(before, |t| numbers_of(&t)))
        }
        4 => {
            let huge = r.once_in(30);
            let x = value(r, p, &s);
            let x: &[u8] = if huge { &long[..16_777_216 + r.below(2) as usize] } else { &x[..x.len().min(r.below(60) as usize)] };
            let got = p.ours.append_block(&mut p.numbers, x);
            text = format!("{} bytes", x.len());
            let done = model::append_block(&s, &mut p.rooms, x);
            let block = done.as_ref().map_or(0, |d| d.1);
            if got.number as u64 != block {
                return Err(format!("block number {}, model {block}", got.number));
            }
            (got.refused, number(&done), done.map_or(before, |t| numbers_of(&t.0)))
        }
        5 => {
            let block = if r.once_in(20) { odd(r, s.blocks) as u32 } else { r.below(s.blocks.min(12) + 1) as u32 };
            let len = p.rooms.table.get(block as usize).map_or(10, |t| t.1.min(1 << 32));
            let offset = if r.once_in(12) { odd(r, len) as u32 } else { r.below(len + 2) as u32 };
            let n = match r.below(5) {
                0 => len.saturating_sub(offset as u64) as u32,
                1 => (len.saturating_sub(offset as u64) + 1) as u32,
                2 => odd(r, 13) as u32,
                _ => r.below(len + 2) as u32,
            };
            text = format!("{block} {offset} {n}");
            let refused = p.ours.append_view(&mut p.numbers, block, offset, n);
            let done = model::append_view(&s, &mut p.rooms, block as u64, offset as u64, n as u64);
            (refused, number(&done), done.map_or(before, |t| numbers_of(&t)))
        }
        6 => {
            let (src, c, rooms) = source(r);
            let got = p.ours.append_column(&mut p.numbers, &src);
            text = format!("{:?}", src.column);
            let lent = Lent { views: &rooms.views, data: &rooms.data, table: &rooms.table, map: &rooms.map };
            let done = model::append_column(&s, &mut p.rooms, &lent, &c);
            let row = done.as_ref().err().map_or(0, |e| e.row);
            if got.row as u64 != row {
                return Err(format!("row {}, model {row}", got.row));
            }
            (got.number, number(&done), done.map_or(before, |t| numbers_of(&t)))
        }
        7 => {
            let row = if r.once_in(8) { odd(r, s.rows) } else { r.below(s.rows.min(40) + 1) };
            text = format!("row {row}");
            let got = p.ours.get_value(&mut p.numbers, row as usize);
            let done = model::get_value(&s, &p.rooms, row);
            let part = done.as_ref().map_or((0, 0, 0), |q| ((q.buffer == Buffer::Data) as u64, q.at, q.len));
            let ours = (got.buffer, got.offset as u64, got.len as u64);
            if ours != part {
                return Err(format!("get_value {row}: part {ours:?}, model {part:?}"));
            }
            (got.refused, number(&done), before)
        }
        8 => {
            let mut column = [r.word() as usize; 5];
            let kept = column;
            let refused = p.ours.finish(&mut p.numbers, &mut column);
            let done = model::finish(&s, &mut p.rooms);
            let want = done.as_ref().map_or(kept, |d| column_numbers(&d.1));
            if column != want {
                return Err(format!("finish: column {column:?}, model {want:?}"));
            }
            if done.is_ok() && s.merge != Merge::Off {
                p.places.fill(0);
            }
            (refused, number(&done), done.map_or(before, |t| numbers_of(&t.0)))
        }
        _ => {
            let mut column = [r.word() as usize; 5];
            let kept = column;
            let refused = p.ours.finish_by_copy(&mut p.numbers, &mut column);
            let done = model::finish_copy(&s, &mut p.rooms);
            let want = done.as_ref().map_or(kept, column_numbers);
            if column != want {
                return Err(format!("finish_by_copy: column {column:?}, model {want:?}"));
            }
            (refused, number(&done), done.map_or(before, |_| numbers_of(&s)))
        }
    };
    let told = |what: String| format!("{} {text}\nstate before {before:?}\nlent {:?}\n{what}", NAMES[which], p.ours.lent);
    if refused > MOST as u64 {
        return Err(told(format!("refusal {refused}")));
    }
    table.0[which][refused as usize] += 1;
    if refused != theirs {
        return Err(told(format!("refusal {refused}, model {theirs}")));
    }
    p.same(&want).map_err(|e| told(format!("{e} differ; ours {:?}, model {want:?}", p.numbers)))
}

/// Buffers for all rows and blocks that there can be, the calls near those limits.
fn limits(r: &mut Random, long: &[u8], table: &mut Table) -> Result<u64, String> {
    let rows = 32_766 + r.below(3) as usize;
    let table_len = 4095 + r.below(3) as usize;
    let mut p = Pair::new(r, [16 * rows, 3000, table_len, rows.div_ceil(8), rows + 1], 1);
    p.numbers = numbers_of(&model::start(Kind::Binary, Growth::Fixed(40), if r.once_in(2) { Merge::On } else { Merge::Off }).unwrap());
    p.rooms.merge.fill(0);
    p.places.fill(0);
    p.ours.places[..rows + 1].fill(0);
    let mut calls = 0;
    let s = state_of(&p.numbers);
    let x = [7u8; 20];
    let most = 32_767.min(rows);
    for n in [most - 3, most, 1] {
        let before = p.numbers;
        let s = if calls == 0 { s } else { state_of(&p.numbers) };
        let refused = p.ours.append_values(&mut p.numbers, &x, n);
        let done = p.model_value(&s, &x, n as u64);
        table.0[2][refused as usize] += 1;
        if refused != number(&done) {
            return Err(format!("limits: {n} times: {refused}, model {}", number(&done)));
        }
        p.same(&done.map_or(before, |t| numbers_of(&t))).map_err(|e| format!("limits: {n} times: {e} differ"))?;
        calls += 1;
    }
    // records are spelled out up to a few below the limit
    p.clean = false;
    p.numbers[6] = 4093.min(p.rooms.table.len() - 3);
    for _ in 0..40 {
        call(r, &mut p, long, table).map_err(|e| format!("limits: {e}"))?;
        calls += 1;
    }
    Ok(calls)
}

/// The oracle's groups: each step's answer and state, and the buffers at the end.
fn original(seed: u64, groups: usize) {
    oracle::by_original::quiet();
    let (mut calls, mut both) = (0u64, 0u64);
    for g in oracle::lists::building::groups(seed, 60).take(groups) {
        let sizes = [g.sizes.views, g.sizes.data, g.sizes.table, g.sizes.map, g.sizes.merge];
        let [views, bytes, table, nulls, places] = sizes;
        let fill = 0xaa;
        let full = u64::from_le_bytes([fill; 8]) as usize;
        let mut ours = Buffers {
            views: vec![fill; views],
            bytes: vec![fill; bytes],
            starts: vec![full; table],
            lens: vec![full; table],
            nulls: vec![fill; nulls],
            places: vec![0; places],
            lent: [views, bytes, table, table, nulls, places],
        };
        let start = model::start(g.kind, g.growth, g.merge).unwrap();
        let mut n = numbers_of(&start);
        let settings = [n[0], n[1], n[2], n[3], n[4]];
        assert_eq!(ours.start(&mut n, &settings), 0);
        assert_eq!(n, numbers_of(&start));
        for s in &g.steps {
            let w = s.words;
            let x = &s.bytes[..];
            let mut column = [0usize; 5];
            let (mut row, mut number, mut part) = (0u64, 0u64, [0u64; 3]);
            let refused = match w[0] {
                1 => ours.append_value(&mut n, x),
                2 => ours.append_values(&mut n, x, w[1] as usize),
                3 => ours.append_null(&mut n),
                4 => {
                    let c = ours.append_block(&mut n, x);
                    number = c.number as u64;
                    c.refused
                }
                5 => ours.append_view(&mut n, w[1].min(u32::MAX as u64) as u32, w[2].min(u32::MAX as u64) as u32, w[3].min(u32::MAX as u64) as u32),
                6 => {
                    let word = |k: usize| u64::from_le_bytes(x[8 * k..8 * k + 8].try_into().unwrap()) as usize;
                    let (v, d, t, m) = (word(5), word(6), word(7), word(8));
                    let at = |k: usize| u64::from_le_bytes(x[72 + v + d + 8 * k..80 + v + d + 8 * k].try_into().unwrap()) as usize;
                    let src = Source {
                        views: x[72..72 + v].to_vec(),
                        bytes: x[72 + v..72 + v + d].to_vec(),
                        starts: (0..t).map(|k| at(2 * k)).collect(),
                        lens: (0..t).map(|k| at(2 * k + 1)).collect(),
                        nulls: x[72 + v + d + 16 * t..72 + v + d + 16 * t + m].to_vec(),
                        column: [word(0), word(1), word(2), word(3), word(4)],
                    };
                    let t = ours.append_column(&mut n, &src);
                    row = t.row as u64;
                    t.number
                }
                7 => {
                    let p = ours.get_value(&mut n, w[1] as usize);
                    if p.len > 0 {
                        part = [1 + p.buffer, p.offset as u64, p.len as u64];
                    }
                    if p.refused == 11 {
                        row = w[1];
                    }
                    p.refused
                }
                8 => ours.finish(&mut n, &mut column),
                _ => ours.finish_by_copy(&mut n, &mut column),
            };
            let k = n.map(|k| k as u64);
            let said = [refused, row, number, part[0], part[1], part[2], k[5], k[6], k[7], k[8], k[9], k[2], k[10], column[1] as u64, column[2] as u64, column[4] as u64];
            assert_eq!(said, s.expected, "call {:?}", s.words);
            calls += 1;
            both += g.both as u64;
        }
        let table: Vec<(u64, u64)> = ours.starts.iter().zip(&ours.lens).map(|(a, b)| (*a as u64, *b as u64)).collect();
        assert!(ours.views == g.rooms.views && ours.bytes == g.rooms.data && table == g.rooms.table && ours.nulls == g.rooms.map, "buffers of a group");
    }
    println!("{calls} calls in {groups} groups, {both} of them where the original agrees with the model; no difference");
}

/// How many calls were also made over records; fails where one was different.
fn over_records() {
    let [made, skipped, different] = building::through::counts();
    println!("over records: {made} calls, {different} different; {skipped} had too many records");
    if different > 0 {
        std::process::exit(1);
    }
}

fn main() {
    let args: Vec<String> = std::env::args().collect();
    building::through::ON.store(true, std::sync::atomic::Ordering::Relaxed);
    if args[1] == "original" {
        original(args[2].parse().unwrap(), args[3].parse().unwrap());
        return over_records();
    }
    let (seed, most): (u64, u64) = (args[1].parse().unwrap(), args[2].parse().unwrap());
    let long = vec![b'z'; 16_777_217 + 2];
    let mut table = Table([[0; MOST + 1]; 10]);
    let mut calls = 0;
    let mut k = 0;
    while calls < most {
        let mut r = Random::new(seed.wrapping_add(k).wrapping_mul(0x2545_f491_4f6c_dd1d));
        let shape = sizes(&mut r);
        let skew = r.below(3) as usize;
        let mut p = Pair::new(&mut r, shape, skew);
        let odd = r.once_in(3);
        for _ in 0..1 + r.below(3) {
            calls += 1;
            if let Err(e) = start(&mut r, &mut p, &mut table) {
                println!("script {k}: {e}");
                std::process::exit(1);
            }
        }
        for turn in 0..40 + r.below(60) {
            if odd && r.once_in(6) {
                damage(&mut r, &mut p);
            }
            calls += 1;
            if let Err(e) = call(&mut r, &mut p, &long, &mut table) {
                println!("script {k}, call {turn}: {e}");
                std::process::exit(1);
            }
        }
        if k % 4000 == 0 {
            match limits(&mut r, &long, &mut table) {
                Ok(n) => calls += n,
                Err(e) => {
                    println!("script {k}: {e}");
                    std::process::exit(1);
                }
            }
        }
        k += 1;
    }
    table.print();
    println!("{calls} calls in {k} scripts; no difference");
    over_records();
}
