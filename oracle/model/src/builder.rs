//! Module 6: the builder. Its state goes in and comes back; rows, blocks and bytes lie in lent buffers.

use crate::column::{
    Column, Lent, all_in_data, all_true, bit, block_room, blocks_of, fits, row_room,
};
use crate::growth::{Growth, START, reached_size, stepped};
use crate::nulls::put_bit;
use crate::utf8::is_utf8;
use crate::view::{View, block_of, in_data, is_long, make_view, moved, offset_of, reach, view_at};
use crate::{Kind, MAX_BYTES, MAX_SHORT, Part, Refusal, VIEW, refuse, sum_above};

/// Whether long values are merged, and up to which length.
#[derive(Clone, Copy, Debug, PartialEq, Eq)]
pub enum Merge {
    Off,
    On,
    UpTo(u64),
}

/// The builder's state.
#[derive(Clone, Copy, Debug, PartialEq, Eq)]
pub struct State {
    pub kind: Kind,
    pub growth: Growth,
    pub merge: Merge,
    pub rows: u64,
    /// Completed blocks.
    pub blocks: u64,
    /// Bytes before the open block.
    pub before: u64,
    /// Bytes of the open block; 0: none is open.
    pub open: u64,
    /// What the open block may hold.
    pub capacity: u64,
    /// Whether a null was added.
    pub nulls: bool,
}

/// The buffers lent to a builder. The merge table's entries are row + 1 of each row that may be merged with, in the
/// order in which they came, then zeros; its content is ours and is compared with nothing.
#[derive(Clone, Debug, PartialEq, Eq)]
pub struct Rooms {
    pub views: Vec<u8>,
    pub data: Vec<u8>,
    pub table: Vec<(u64, u64)>,
    pub map: Vec<u8>,
    pub merge: Vec<u32>,
}

impl Rooms {
    pub fn lent(&self) -> Lent<'_> {
        Lent {
            views: &self.views,
            data: &self.data,
            table: &self.table,
            map: &self.map,
        }
    }

    pub fn data_room(&self) -> u64 {
        MAX_BYTES.min(self.data.len() as u64)
    }

    pub fn put_view(&mut self, r: u64, view: View) {
        let at = (r * VIEW) as usize;
        self.views[at..at + 16].copy_from_slice(&view);
    }

    pub fn put_data(&mut self, at: u64, bytes: &[u8]) {
        let at = at as usize;
        self.data[at..at + bytes.len()].copy_from_slice(bytes);
    }
}

impl State {
    fn merging(&self) -> bool {
        self.merge != Merge::Off
    }

    fn row_room(&self, rooms: &Rooms) -> u64 {
        let merge = self.merging().then_some(rooms.merge.len() as u64);
        row_room(&rooms.views, Some(rooms.map.len() as u64), merge)
    }

    /// Completed blocks and the open one.
    fn all_blocks(&self) -> u64 {
        self.blocks + if self.open > 0 { 1 } else { 0 }
    }

    fn used(&self) -> u64 {
        self.before + self.open
    }

    /// 2: the numbers don't fit.
    fn fits(&self, rooms: &Rooms) -> Result<(), Refusal> {
        let open = if self.open > 0 { 1 } else { 0 };
        let rows = self.rows > self.row_room(rooms);
        let blocks = sum_above(self.blocks, open, block_room(&rooms.table));
        let data = sum_above(self.before, self.open, rooms.data_room());
        refuse(rows || blocks || data || !reached_size(self.growth), 2)
    }

    /// Whether a long value goes to the open block.
    fn takes(&self, len: u64) -> bool {
        self.open > 0 && !sum_above(self.open, len, self.capacity)
    }

    /// Whether values of this length are merged.
    fn merges(&self, len: u64) -> bool {
        match self.merge {
            Merge::Off => false,
            Merge::On => len > MAX_SHORT,
            Merge::UpTo(maximum) => len > MAX_SHORT && len <= maximum,
        }
    }

    /// Completes the open block, if any.
    fn complete(&mut self, rooms: &mut Rooms) {
        if self.open > 0 {
            rooms.table[self.blocks as usize] = (self.before, self.open);
            self.blocks += 1;
        }
        self.before += self.open;
        self.open = 0;
        self.capacity = 0;
    }

    /// Copies a block in whole, after the completed ones.
    fn put_block(&mut self, rooms: &mut Rooms, bytes: &[u8]) {
        rooms.put_data(self.before, bytes);
        rooms.table[self.blocks as usize] = (self.before, bytes.len() as u64);
        self.blocks += 1;
        self.before += bytes.len() as u64;
    }

    /// Adds a row.
    fn put_row(&mut self, rooms: &mut Rooms, view: View, valid: bool) {
        rooms.put_view(self.rows, view);
        put_bit(&mut rooms.map, self.rows, valid);
        self.rows += 1;
        self.nulls = self.nulls || !valid;
    }

    fn column(&self) -> Column {
        Column {
            first: 0,
            rows: self.rows,
            blocks: self.all_blocks(),
            kind: self.kind,
            mapped: self.nulls,
        }
    }

    /// The blocks to be read, the open one with the next number.
    fn blocks_read(&self, rooms: &Rooms) -> Vec<(u64, u64)> {
        let mut blocks = rooms.table[..self.blocks as usize].to_vec();
        if self.open > 0 {
            blocks.push((self.before, self.open));
        }
        blocks
    }
}

/// A fresh state with these settings.
pub fn start(kind: Kind, growth: Growth, merge: Merge) -> Result<State, Refusal> {
    let fixed = matches!(growth, Growth::Fixed(size) if !reached_size(Growth::Fixed(size)));
    refuse(fixed || merge == Merge::UpTo(0), 1)?;
    let growth = match growth {
        Growth::Fixed(size) => Growth::Fixed(size),
        Growth::Doubling(_) => Growth::Doubling(START),
    };
    Ok(State {
        kind,
        growth,
        merge,
        rows: 0,
        blocks: 0,
        before: 0,
        open: 0,
        capacity: 0,
        nulls: false,
    })
}

/// The same, and the merge table cleared.
pub fn start_merging(
    kind: Kind,
    growth: Growth,
    merge: Merge,
    rooms: &mut Rooms,
) -> Result<State, Refusal> {
    let s = start(kind, growth, merge)?;
    rooms.merge.fill(0);
    Ok(s)
}

/// The earliest row that a value call stored with these bytes.
fn earlier(s: &State, rooms: &Rooms, value: &[u8]) -> Option<u64> {
    let blocks = s.blocks_read(rooms);
    let rows = rooms
        .merge
        .iter()
        .take_while(|e| **e > 0)
        .map(|e| *e as u64 - 1);
    let mut equal = rows.filter(|r| {
        let part = reach(&rooms.lent(), &blocks, *r);
        *r < s.rows && part.is_some_and(|p| p.of(&rooms.views, &rooms.data) == value)
    });
    equal.next()
}

/// Value: 2, 4, 10, 5, 6, 7.
pub fn append_value(s: &State, rooms: &mut Rooms, value: &[u8]) -> Result<State, Refusal> {
    append_value_n(s, rooms, value, 1)
}

/// Value n times: one append, then n - 1 copies of its view.
pub fn append_value_n(
    s: &State,
    rooms: &mut Rooms,
    value: &[u8],
    n: u64,
) -> Result<State, Refusal> {
    s.fits(rooms)?;
    if n == 0 {
        return Ok(*s);
    }
    let len = value.len() as u64;
    refuse(len > MAX_BYTES, 4)?;
    refuse(s.kind == Kind::String && !is_utf8(value), 10)?;
    refuse(sum_above(s.rows, n, s.row_room(rooms)), 5)?;
    let hit = if s.merges(len) {
        earlier(s, rooms, value)
    } else {
        None
    };
    let stores = len > MAX_SHORT && hit.is_none();
    let opens = stores && !s.takes(len);
    refuse(
        opens && sum_above(s.all_blocks(), 1, block_room(&rooms.table)),
        6,
    )?;
    refuse(stores && sum_above(s.used(), len, rooms.data_room()), 7)?;

    let mut s = *s;
    let view = match hit {
        Some(row) => view_at(&rooms.views, row),
        None if !stores => make_view(value, 0, 0)?,
        None => {
            if opens {
                open_block(&mut s, rooms, len);
            }
            store(&mut s, rooms, value)?
        }
    };
    if stores && s.merges(len) {
        let entries = rooms.merge.iter().take_while(|e| **e > 0).count();
        if let Some(entry) = rooms.merge.get_mut(entries) {
            *entry = s.rows as u32 + 1;
        }
    }
    for _ in 0..n {
        s.put_row(rooms, view, true);
    }
    Ok(s)
}

/// A new open block for a value of this length: the one before is completed, and the growth takes a step.
fn open_block(s: &mut State, rooms: &mut Rooms, len: u64) {
    s.complete(rooms);
    let (growth, size) = stepped(s.growth);
    s.growth = growth;
    s.capacity = len.max(size);
}

/// The value's bytes at the end of the open block; answers its view.
fn store(s: &mut State, rooms: &mut Rooms, value: &[u8]) -> Result<View, Refusal> {
    rooms.put_data(s.used(), value);
    let view = make_view(value, s.blocks as u32, s.open as u32);
    s.open += value.len() as u64;
    view
}

/// Null: 2, 5.
pub fn append_null(s: &State, rooms: &mut Rooms) -> Result<State, Refusal> {
    s.fits(rooms)?;
    refuse(s.rows >= s.row_room(rooms), 5)?;
    let mut s = *s;
    s.put_row(rooms, [0; 16], false);
    Ok(s)
}

/// Block: 2, 4, 6, 7. Answers its number too.
pub fn append_block(s: &State, rooms: &mut Rooms, bytes: &[u8]) -> Result<(State, u64), Refusal> {
    s.fits(rooms)?;
    let len = bytes.len() as u64;
    refuse(len > MAX_BYTES, 4)?;
    refuse(sum_above(s.all_blocks(), 1, block_room(&rooms.table)), 6)?;
    refuse(sum_above(s.used(), len, rooms.data_room()), 7)?;
    let mut s = *s;
    s.complete(rooms);
    let number = s.blocks;
    s.put_block(rooms, bytes);
    Ok((s, number))
}

/// View of a completed block: 2, 8, 9, 10, 5.
pub fn append_view(
    s: &State,
    rooms: &mut Rooms,
    block: u64,
    offset: u64,
    len: u64,
) -> Result<State, Refusal> {
    s.fits(rooms)?;
    refuse(block >= s.blocks, 8)?;
    let record = rooms.table[block as usize];
    refuse(
        sum_above(offset, len, record.1) || !in_data(record, &rooms.data),
        9,
    )?;
    let at = (record.0 + offset) as usize;
    let value = rooms.data[at..at + len as usize].to_vec();
    refuse(s.kind == Kind::String && !is_utf8(&value), 10)?;
    refuse(s.rows >= s.row_room(rooms), 5)?;
    let mut s = *s;
    let view = make_view(&value, block as u32, offset as u32)?;
    s.put_row(rooms, view, true);
    Ok(s)
}

/// Column: 2, 11, 9, 5, 6, 7. Judged by the builder's kind.
pub fn append_column(
    s: &State,
    rooms: &mut Rooms,
    lent: &Lent,
    c: &Column,
) -> Result<State, Refusal> {
    s.fits(rooms)?;
    fits(lent, c)?;
    all_true(lent, c, s.kind)?;
    all_in_data(lent, c)?;
    let blocks = blocks_of(lent, c);
    let bytes: u64 = blocks.iter().map(|b| b.1).sum();
    refuse(sum_above(s.rows, c.rows, s.row_room(rooms)), 5)?;
    refuse(
        sum_above(s.all_blocks(), c.blocks, block_room(&rooms.table)),
        6,
    )?;
    refuse(sum_above(s.used(), bytes, rooms.data_room()), 7)?;

    let mut s = *s;
    s.complete(rooms);
    let base = s.blocks;
    for (start, len) in blocks {
        s.put_block(rooms, &lent.data[*start as usize..(start + len) as usize]);
    }
    for row in 0..c.rows {
        let view = view_at(lent.views, c.first + row);
        let view = if is_long(&view) {
            moved(&view, block_of(&view) + base, offset_of(&view))
        } else {
            view
        };
        s.put_row(rooms, view, bit(lent, c, row));
    }
    Ok(s)
}

/// The value of a row that was added: 2, 3, 11.
pub fn get_value(s: &State, rooms: &Rooms, row: u64) -> Result<Part, Refusal> {
    s.fits(rooms)?;
    refuse(row >= s.rows, 3)?;
    reach(&rooms.lent(), &s.blocks_read(rooms), row).ok_or(Refusal::at_row(11, row))
}

/// Finish: 2. The column, and a state without rows and blocks that keeps the growth size.
pub fn finish(s: &State, rooms: &mut Rooms) -> Result<(State, Column), Refusal> {
    s.fits(rooms)?;
    let mut s = *s;
    s.complete(rooms);
    let column = s.column();
    rooms.merge.fill(0);
    s.rows = 0;
    s.blocks = 0;
    s.before = 0;
    s.nulls = false;
    Ok((s, column))
}

/// Finish-by-copy: 2. The column; the open block's record is written, and the state stays.
pub fn finish_copy(s: &State, rooms: &mut Rooms) -> Result<Column, Refusal> {
    s.fits(rooms)?;
    let column = s.column();
    let mut copy = *s;
    copy.complete(rooms);
    Ok(column)
}
