//! Scripts answered by the model.

use crate::answer::{Answer, Engine, Held};
use crate::script::{Call, REGISTERS, Sizes};
use model::{Column, Order, Part, Refusal, Rooms, Side, State};

/// A column with buffers of its own.
#[derive(Clone, Debug)]
pub struct Kept {
    pub rooms: Rooms,
    pub column: Column,
}

/// Builders and columns of a script.
#[derive(Default)]
pub struct ByModel {
    /// Looks after each refusal whether the builder's buffers are as they were.
    pub watch: bool,
    /// What lent buffers hold before the first call.
    pub fill: u8,
    builders: [Option<(State, Rooms)>; REGISTERS],
    columns: [Option<Kept>; REGISTERS],
}

/// Buffers of these sizes, each byte the same.
pub fn lend(s: &Sizes, fill: u8) -> Rooms {
    let word = u64::from_le_bytes([fill; 8]);
    Rooms {
        views: vec![fill; s.views],
        data: vec![fill; s.data],
        table: vec![(word, word); s.table],
        map: vec![fill; s.map],
        merge: vec![0; s.merge],
    }
}

fn refused(r: Refusal) -> Answer {
    let side = match r.side {
        None => "",
        Some(Side::Left) => "left",
        Some(Side::Right) => "right",
    };
    Answer::Refused(r.number, r.row, side)
}

fn answer<T>(result: Result<T, Refusal>, accepted: impl FnOnce(T) -> Answer) -> Answer {
    match result {
        Ok(x) => accepted(x),
        Err(r) => refused(r),
    }
}

pub fn order_text(order: Order) -> &'static str {
    match order {
        Order::Less => "less",
        Order::Equal => "equal",
        Order::Greater => "greater",
    }
}

/// What the rows and these blocks hold. None where the rows aren't all there.
fn held(rooms: &Rooms, blocks: &[(u64, u64)], c: &Column) -> Option<Held> {
    let end = c.first.checked_add(c.rows)? as usize;
    let views = rooms.views.len() / 16;
    if views < end || c.mapped && rooms.map.len() * 8 < end {
        return None;
    }
    let view = |r: u64| {
        let at = r as usize * 16;
        rooms.views[at..at + 16].try_into().unwrap()
    };
    let block = |b: &(u64, u64)| {
        let end = b.0.checked_add(b.1)?;
        Some(rooms.data.get(b.0 as usize..end as usize)?.to_vec())
    };
    let rows = c.first..c.first + c.rows;
    Some(Held {
        views: rows.clone().map(view).collect(),
        valid: rows
            .map(|r| !c.mapped || model::is_valid(&rooms.map, r))
            .collect(),
        blocks: blocks.iter().map(block).collect(),
    })
}

/// The buffers as far as a finished column needs them.
fn cut(rooms: &Rooms, c: &Column) -> Rooms {
    let table = &rooms.table[..c.blocks as usize];
    let used = table.iter().map(|b| b.0.saturating_add(b.1)).max();
    let used = used.unwrap_or(0).min(rooms.data.len() as u64);
    Rooms {
        views: rooms.views[..c.rows as usize * 16].to_vec(),
        data: rooms.data[..used as usize].to_vec(),
        table: table.to_vec(),
        map: rooms.map[..(c.rows as usize).div_ceil(8)].to_vec(),
        merge: vec![],
    }
}

impl ByModel {
    /// A builder's state and buffers.
    pub fn builder(&self, b: usize) -> Option<&(State, Rooms)> {
        self.builders[b].as_ref()
    }

    /// A column and its buffers.
    pub fn column(&self, c: usize) -> Option<&Kept> {
        self.columns[c].as_ref()
    }

    /// A builder's call, and what the builder holds afterwards.
    fn build(
        &mut self,
        b: usize,
        call: impl FnOnce(&State, &mut Rooms) -> Result<(State, Answer), Refusal>,
    ) -> (Answer, Option<Held>) {
        let Some((state, rooms)) = &mut self.builders[b] else {
            return (Answer::Beyond, None);
        };
        let before = self.watch.then(|| rooms.clone());
        let done = call(state, rooms);
        if done.is_err() && before.is_some_and(|before| before != *rooms) {
            panic!("a refused call changed a lent buffer");
        }
        let said = answer(done, |(s, said)| {
            *state = s;
            said
        });
        (said, self.held_by(b))
    }

    /// What a builder holds, the open block last.
    fn held_by(&self, b: usize) -> Option<Held> {
        let (s, rooms) = self.builders[b].as_ref()?;
        let mut blocks = rooms.table.get(..s.blocks as usize)?.to_vec();
        if s.open > 0 {
            blocks.push((s.before, s.open));
        }
        let column = Column {
            first: 0,
            rows: s.rows,
            blocks: blocks.len() as u64,
            kind: s.kind,
            mapped: true,
        };
        held(rooms, &blocks, &column)
    }

    fn keep(&mut self, d: usize, rooms: Rooms, column: Column) -> (Answer, Option<Held>) {
        let blocks = rooms.table.get(..column.blocks as usize);
        let held = blocks.and_then(|blocks| held(&rooms, blocks, &column));
        self.columns[d] = Some(Kept { rooms, column });
        (Answer::Done, held)
    }

    /// A question about a column.
    fn ask(&self, c: usize, ask: impl FnOnce(&Kept) -> Answer) -> (Answer, Option<Held>) {
        let said = self.columns[c].as_ref().map_or(Answer::Beyond, ask);
        (said, None)
    }

    fn ask_part(
        &self,
        c: usize,
        ask: impl FnOnce(&Kept) -> Result<Part, Refusal>,
    ) -> (Answer, Option<Held>) {
        self.ask(c, |k| {
            answer(ask(k), |p| {
                Answer::Bytes(p.of(&k.rooms.views, &k.rooms.data).to_vec())
            })
        })
    }

    fn ask_two(
        &self,
        c: usize,
        d: usize,
        ask: impl FnOnce(&Kept, &Kept) -> Answer,
    ) -> (Answer, Option<Held>) {
        match (&self.columns[c], &self.columns[d]) {
            (Some(left), Some(right)) => (ask(left, right), None),
            _ => (Answer::Beyond, None),
        }
    }

    fn start(&mut self, call: &Call) -> (Answer, Option<Held>) {
        let Call::Start(b, kind, growth, merge, sizes) = call else {
            unreachable!()
        };
        let mut rooms = lend(sizes, self.fill);
        match model::start_merging(*kind, *growth, *merge, &mut rooms) {
            Ok(state) => {
                self.builders[*b] = Some((state, rooms));
                (Answer::Done, self.held_by(*b))
            }
            Err(r) => (refused(r), self.held_by(*b)),
        }
    }

    fn finish(&mut self, b: usize, d: usize) -> (Answer, Option<Held>) {
        let Some((state, rooms)) = &mut self.builders[b] else {
            return (Answer::Beyond, None);
        };
        match model::finish(state, rooms) {
            Ok((s, column)) => {
                *state = s;
                let rooms = cut(rooms, &column);
                self.keep(d, rooms, column)
            }
            Err(r) => (refused(r), None),
        }
    }

    fn copy(&mut self, b: usize, d: usize) -> (Answer, Option<Held>) {
        let Some((state, rooms)) = &mut self.builders[b] else {
            return (Answer::Beyond, None);
        };
        match model::finish_copy(state, rooms) {
            Ok(column) => {
                let rooms = cut(rooms, &column);
                self.keep(d, rooms, column)
            }
            Err(r) => (refused(r), None),
        }
    }

    fn compact(&mut self, c: usize, max: u64, d: usize, s: &Sizes) -> (Answer, Option<Held>) {
        let Some(k) = &self.columns[c] else {
            return (Answer::Beyond, None);
        };
        let mut rooms = lend(s, self.fill);
        match model::compact(&k.rooms.lent(), &k.column, max, &mut rooms) {
            Ok(column) => self.keep(d, rooms, column),
            Err(r) => (refused(r), None),
        }
    }

    fn offsets(&mut self, call: &Call) -> (Answer, Option<Held>) {
        let Call::Offsets(d, kind, offsets, bytes, map, sizes) = call else {
            unreachable!()
        };
        let mut rooms = lend(sizes, self.fill);
        match model::from_offsets(*kind, offsets, bytes, map.as_deref(), &mut rooms) {
            Ok(column) => self.keep(*d, rooms, column),
            Err(r) => (refused(r), None),
        }
    }

    fn slice(&mut self, c: usize, start: u64, count: u64, d: usize) -> (Answer, Option<Held>) {
        let Some(k) = self.columns[c].clone() else {
            return (Answer::Beyond, None);
        };
        match model::slice(&k.rooms.lent(), &k.column, start, count) {
            Ok(column) => self.keep(d, k.rooms, column),
            Err(r) => (refused(r), None),
        }
    }

    fn walk(&self, c: usize) -> (Answer, Option<Held>) {
        self.ask(c, |k| {
            let (mut place, mut all) = (0, vec![]);
            loop {
                let (part, next) = model::walk(&k.rooms.lent(), &k.column, place);
                match part {
                    Ok(p) => all.push(p.of(&k.rooms.views, &k.rooms.data).to_vec()),
                    Err(r) if r.number == 3 => return Answer::Values(all),
                    Err(r) => return refused(r),
                }
                place = next;
            }
        })
    }

    fn append(&mut self, b: usize, c: usize) -> (Answer, Option<Held>) {
        let Some(k) = self.columns[c].clone() else {
            return (Answer::Beyond, None);
        };
        self.build(b, |s, rooms| {
            let s = model::append_column(s, rooms, &k.rooms.lent(), &k.column)?;
            Ok((s, Answer::Done))
        })
    }

    /// A question, which changes nothing.
    fn question(&self, call: &Call) -> (Answer, Option<Held>) {
        match call {
            Call::Read(c, r) => self.ask_part(*c, |k| model::value(&k.rooms.lent(), &k.column, *r)),
            Call::Prefix(c, r, n) => {
                self.ask_part(*c, |k| model::prefix(&k.rooms.lent(), &k.column, *r, *n))
            }
            Call::Suffix(c, r, n) => {
                self.ask_part(*c, |k| model::suffix(&k.rooms.lent(), &k.column, *r, *n))
            }
            Call::Length(c, r) => self.ask(*c, |k| {
                answer(
                    model::length(&k.rooms.lent(), &k.column, *r),
                    Answer::Number,
                )
            }),
            Call::Bit(c, r) => self.ask(*c, |k| {
                let bit = model::null_bit(&k.rooms.lent(), &k.column, *r);
                answer(bit, |b| Answer::Number(b as u64))
            }),
            Call::Run(c, s, n) => self.ask(*c, |k| {
                answer(
                    model::null_run(&k.rooms.lent(), &k.column, *s, *n),
                    Answer::Number,
                )
            }),
            Call::Total(c) => self.ask(*c, |k| {
                answer(
                    model::total_bytes_len(&k.rooms.lent(), &k.column),
                    Answer::Number,
                )
            }),
            Call::Used(c) => self.ask(*c, |k| {
                answer(
                    model::total_buffer_bytes_used(&k.rooms.lent(), &k.column),
                    Answer::Number,
                )
            }),
            Call::Walk(c) => self.walk(*c),
            Call::Compare(c, i, d, j) => self.ask_two(*c, *d, |l, r| {
                let order = model::compare(
                    &l.rooms.lent(),
                    &l.column,
                    *i,
                    &r.rooms.lent(),
                    &r.column,
                    *j,
                );
                answer(order, |o| Answer::Order(order_text(o)))
            }),
            Call::Same(c, d) => self.ask_two(*c, *d, |l, r| {
                let same =
                    model::same_column(&l.rooms.lent(), &l.column, &r.rooms.lent(), &r.column);
                answer(same, |s| Answer::Number(s as u64))
            }),
            Call::Check(c) => self.ask(*c, |k| {
                answer(model::check(&k.rooms.lent(), &k.column), |_| Answer::Done)
            }),
            Call::List(c) => self.ask(*c, |k| {
                answer(model::list(&k.rooms.lent(), &k.column), Answer::Text)
            }),
            Call::Growth(g) => {
                let step = model::growth_step(*g);
                (answer(step, |(_, size)| Answer::Number(size)), None)
            }
            Call::MakeView(v, b, o) => {
                let view = model::make_view(v, *b, *o);
                (answer(view, |v| Answer::Bytes(v.to_vec())), None)
            }
            _ => unreachable!("a call that changes something"),
        }
    }
}

impl Engine for ByModel {
    fn call(&mut self, call: &Call) -> (Answer, Option<Held>) {
        let done = |s: State| (s, Answer::Done);
        match call {
            Call::Start(..) => self.start(call),
            Call::State(b, s, sizes) => {
                self.builders[*b] = Some((*s, lend(sizes, self.fill)));
                (Answer::Done, self.held_by(*b))
            }
            Call::Value(b, v) => self.build(*b, |s, r| model::append_value(s, r, v).map(done)),
            Call::Values(b, v, n) => {
                self.build(*b, |s, r| model::append_value_n(s, r, v, *n).map(done))
            }
            Call::Null(b) => self.build(*b, |s, r| model::append_null(s, r).map(done)),
            Call::Block(b, v) => self.build(*b, |s, r| {
                model::append_block(s, r, v).map(|(s, n)| (s, Answer::Number(n)))
            }),
            Call::View(b, k, o, n) => {
                self.build(*b, |s, r| model::append_view(s, r, *k, *o, *n).map(done))
            }
            Call::Append(b, c) => self.append(*b, *c),
            Call::Get(b, row) => self.build(*b, |s, r| {
                let part = model::get_value(s, r, *row)?;
                Ok((*s, Answer::Bytes(part.of(&r.views, &r.data).to_vec())))
            }),
            Call::Finish(b, c) => self.finish(*b, *c),
            Call::Copy(b, c) => self.copy(*b, *c),
            Call::Compact(c, max, d, s) => self.compact(*c, *max, *d, s),
            Call::Offsets(..) => self.offsets(call),
            Call::Raw(d, raw) => {
                let rooms = Rooms {
                    views: raw.views.clone(),
                    data: raw.data.clone(),
                    table: raw.table.clone(),
                    map: raw.map.clone(),
                    merge: vec![],
                };
                self.keep(*d, rooms, raw.column)
            }
            Call::Slice(c, start, count, d) => self.slice(*c, *start, *count, *d),
            question => self.question(question),
        }
    }
}
