//! Random scripts from a seed, dense around the boundaries. The model runs along, so that calls are made near the ends
//! of what there is.

use crate::answer::{Answer, Engine, Held};
use crate::by_model::ByModel;
use crate::random::Random;
use crate::script::{Call, Raw, Sizes};
use model::{Column, Growth, Kind, Merge, State};

/// For whom a script is.
#[derive(Clone, Copy, Debug, PartialEq, Eq)]
pub enum For {
    /// Original and model: valid columns, reachable ones to be compared, room for everything.
    Both,
    /// The model alone: also damaged columns, odd states and short buffers.
    Model,
}

const LENGTHS: [u64; 8] = [0, 1, 4, 11, 12, 13, 16, 31];
const FIXED: [u64; 14] = [1, 12, 13, 16, 20, 25, 26, 27, 29, 31, 44, 62, 100, 1000];
const MERGE: [u64; 6] = [1, 12, 13, 16, 30, 31];
const TIMES: [u64; 8] = [0, 1, 2, 3, 7, 8, 9, 65];
/// Lengths around the first sizes of the doubling.
const LARGE: [u64; 6] = [8192, 16371, 16383, 16384, 16385, 20000];
const BUILDERS: u64 = 3;
const COLUMNS: u64 = 6;
/// A builder is finished above this many rows.
const ENOUGH: usize = 150;

/// A script in the making.
pub struct Generator {
    random: Random,
    whom: For,
    model: ByModel,
    script: Vec<Call>,
    builders: Vec<Option<Held>>,
    kinds: Vec<Kind>,
    columns: Vec<Option<Held>>,
    column_kinds: Vec<Kind>,
    /// Columns that there are; of those whose numbers don't fit nothing is held.
    there: Vec<bool>,
    pool: Vec<Vec<u8>>,
    /// The values are those of scripts, and not of lists.
    scripts: bool,
    large: bool,
    /// The model's answer to the last call.
    answer: Answer,
}

/// A script of about so many calls.
pub fn script(seed: u64, whom: For, calls: usize) -> Vec<Call> {
    let mut g = Generator::new(seed, whom, true);
    for b in 0..BUILDERS as usize {
        g.start(b);
    }
    while g.script.len() < calls {
        g.step();
    }
    g.script
}

/// What a column of so many rows holds, made by value, null, block and view calls under random settings.
pub fn values_of(seed: u64, rows: usize) -> (Held, Kind) {
    let mut g = Generator::new(seed, For::Both, false);
    g.start(0);
    while g.builders[0].as_ref().map_or(0, |h| h.views.len()) < rows {
        match g.random.below(8) {
            0 | 1 => g.emit(Call::Null(0)),
            2 if g.random.once_in(3) => {
                let mut bytes = g.value();
                bytes.extend(g.value());
                g.emit(Call::Block(0, bytes))
            }
            3 => g.view(0),
            _ => {
                let value = g.value();
                g.emit(Call::Value(0, value))
            }
        }
    }
    g.emit(Call::Finish(0, 0));
    let mut held = g.columns[0].clone().unwrap();
    hide(&mut g.random, &mut held);
    (held, g.kinds[0])
}

/// A script of calls on builder 0 over buffers of these sizes. Each column that is appended is spelled out before. For
/// original and model nothing is refused for want of room.
pub fn building(seed: u64, whom: For, sizes: Sizes, calls: usize) -> Vec<Call> {
    let mut g = Generator::new(seed, whom, false);
    let (kind, growth, merge) = (g.kind(), g.growth(), g.merge());
    g.kinds[0] = kind;
    g.emit(Call::Start(0, kind, growth, merge, sizes));
    while g.script.len() < calls {
        g.build_small();
        let room = matches!(g.answer, Answer::Refused(5..=7, ..));
        if whom == For::Both && room {
            g.script.pop();
        }
    }
    g.script
}

impl Generator {
    /// One call on builder 0, none of it large.
    fn build_small(&mut self) {
        let rows = self.builders[0].as_ref().map_or(0, |h| h.views.len());
        match self.random.below(24) {
            0..=8 => {
                let v = self.value();
                self.emit(Call::Value(0, v))
            }
            9 | 10 => {
                let v = self.value();
                let n = *self.random.pick(&[0, 1, 2, 3, 7, 8, 9, u64::MAX]);
                let n = if self.model_alone() { n } else { n.min(9) };
                self.emit(Call::Values(0, v, n))
            }
            11..=13 => self.emit(Call::Null(0)),
            14 | 15 => {
                let mut bytes = self.value();
                bytes.extend(self.value());
                self.emit(Call::Block(0, bytes))
            }
            16 | 17 => self.view(0),
            18 | 19 => self.append_raw(),
            20 | 21 => {
                let row = self.row(rows);
                self.emit(Call::Get(0, row))
            }
            22 => self.emit(Call::Copy(0, 1)),
            _ => self.emit(Call::Finish(0, 1)),
        }
    }

    /// A small column, sometimes damaged, spelled out and appended.
    fn append_raw(&mut self) {
        let rows = self.random.below(7) as usize;
        let (held, kind) = values_of(self.random.word(), rows);
        let first = *self.random.pick(&[0, 0, 1, 7, 8]);
        let mut raw = spelled(&mut self.random, &held, first, kind);
        if self.random.once_in(3) {
            damage(&mut self.random, &mut raw, self.whom);
        }
        self.emit(Call::Raw(2, raw));
        self.emit(Call::Append(0, 2));
    }

    /// For scripts, one in 25 has values around the first sizes of the doubling.
    fn new(seed: u64, whom: For, scripts: bool) -> Self {
        let mut random = Random::new(seed);
        let large = scripts && random.once_in(25);
        let mut g = Generator {
            random,
            whom,
            model: ByModel::default(),
            script: vec![],
            builders: vec![None; BUILDERS as usize],
            kinds: vec![Kind::Binary; BUILDERS as usize],
            columns: vec![None; COLUMNS as usize],
            column_kinds: vec![Kind::Binary; COLUMNS as usize],
            there: vec![false; COLUMNS as usize],
            pool: vec![],
            scripts,
            large,
            answer: Answer::Done,
        };
        g.pool = (0..12).map(|_| g.fresh_value()).collect();
        g
    }

    fn model_alone(&self) -> bool {
        self.whom == For::Model
    }

    /// A length: mostly at a boundary.
    fn length(&mut self) -> u64 {
        match self.random.below(8) {
            0 => self.random.below(40),
            1 | 2 if self.large => *self.random.pick(&LARGE),
            _ => *self.random.pick(&LENGTHS),
        }
    }

    /// Well-formed text of so many bytes, in sequences of one to four.
    fn text(&mut self, n: u64) -> Vec<u8> {
        const CHARS: [char; 12] = [
            'A',
            'B',
            '-',
            '0',
            '\0',
            '\u{7f}',
            '\u{80}',
            '\u{7ff}',
            '\u{800}',
            '\u{d7ff}',
            '\u{ffff}',
            '\u{10ffff}',
        ];
        let mut bytes = vec![];
        while (bytes.len() as u64) < n {
            let c = *self.random.pick(&CHARS);
            let more = c.len_utf8() as u64;
            let c = if bytes.len() as u64 + more <= n {
                c
            } else {
                'Z'
            };
            let mut buffer = [0; 4];
            bytes.extend_from_slice(c.encode_utf8(&mut buffer).as_bytes());
        }
        bytes
    }

    /// Text with a sequence in it that is ill-formed, or only just well-formed.
    fn near_text(&mut self, n: u64) -> Vec<u8> {
        const NEAR: [&[u8]; 14] = [
            b"\xc0\x80",
            b"\xc1\xbf",
            b"\xc2\x80",
            b"\xe0\x9f\xbf",
            b"\xe0\xa0\x80",
            b"\xed\x9f\xbf",
            b"\xed\xa0\x80",
            b"\xed\xbf\xbf",
            b"\xf0\x8f\xbf\xbf",
            b"\xf0\x90\x80\x80",
            b"\xf4\x8f\xbf\xbf",
            b"\xf4\x90\x80\x80",
            b"\xe1\x80",
            b"\x80",
        ];
        let mut bytes = self.text(n);
        bytes.extend(*self.random.pick(&NEAR));
        bytes.extend(self.text(n % 3));
        bytes
    }

    fn fresh_value(&mut self) -> Vec<u8> {
        let n = self.length();
        if self.scripts && self.random.once_in(12) {
            return self.near_text(n);
        }
        match self.random.below(4) {
            // Few different bytes, so that values share their beginnings.
            0 => (0..n)
                .map(|_| *self.random.pick(&[0, 0, 65, 255]))
                .collect(),
            1 => {
                let byte = *self.random.pick(&[0, 65, 66, 255]);
                let mut bytes = vec![byte; n as usize];
                if n > 0 && self.random.once_in(2) {
                    bytes[n as usize - 1] = 65;
                }
                bytes
            }
            2 if self.random.once_in(4) => self.random.bytes(n),
            _ => self.text(n),
        }
    }

    fn value(&mut self) -> Vec<u8> {
        if self.random.once_in(4) {
            let value = self.fresh_value();
            let k = self.random.below(12) as usize;
            self.pool[k] = value;
        }
        let k = self.random.below(12) as usize;
        self.pool[k].clone()
    }

    /// A number near the one given, or far off.
    fn near(&mut self, n: u64) -> u64 {
        match self.random.below(8) {
            0 => n.saturating_sub(1),
            1 => n + 1,
            2 if self.random.once_in(4) => u64::MAX - self.random.below(3),
            3 | 4 => self.random.below(n + 1),
            _ => n,
        }
    }

    /// A row, mostly one that there is.
    fn row(&mut self, rows: usize) -> u64 {
        if rows == 0 || self.random.once_in(12) {
            self.near(rows as u64)
        } else {
            self.random.below(rows as u64)
        }
    }

    fn kind(&mut self) -> Kind {
        *self.random.pick(&[Kind::Binary, Kind::String])
    }

    fn growth(&mut self) -> Growth {
        match self.random.below(3) {
            0 => Growth::Doubling(8192),
            1 if self.large => Growth::Doubling(8192),
            1 => Growth::Fixed(1 + self.random.below(70)),
            _ => Growth::Fixed(*self.random.pick(&FIXED)),
        }
    }

    fn merge(&mut self) -> Merge {
        match self.random.below(4) {
            0 => Merge::On,
            1 => Merge::UpTo(*self.random.pick(&MERGE)),
            _ => Merge::Off,
        }
    }

    /// Room for everything that a script adds, or for the model alone for a few rows.
    fn sizes(&mut self) -> Sizes {
        if !self.model_alone() || self.random.once_in(3) {
            return Sizes {
                views: 16 * 4096,
                data: if self.large { 1 << 24 } else { 1 << 22 },
                table: 4096,
                map: 512,
                merge: 4096,
            };
        }
        Sizes {
            views: self.random.below(16 * 24) as usize,
            data: self.random.below(400) as usize,
            table: self.random.below(8) as usize,
            map: self.random.below(4) as usize,
            merge: self.random.below(24) as usize,
        }
    }

    /// Room around what an output needs: rows, blocks and bytes.
    fn output(&mut self, rows: u64, blocks: u64, bytes: u64) -> Sizes {
        if !self.model_alone() || self.random.once_in(3) {
            return Sizes {
                views: 16 * rows as usize,
                data: bytes as usize,
                table: blocks as usize,
                map: rows.div_ceil(8) as usize,
                merge: 0,
            };
        }
        let rows = self.near(rows).min(5000);
        Sizes {
            views: self.near(16 * rows).min(100_000) as usize,
            data: self.near(bytes).min(1 << 22) as usize,
            table: self.near(blocks).min(5000) as usize,
            map: self.near(rows.div_ceil(8)).min(1000) as usize,
            merge: 0,
        }
    }

    fn start(&mut self, b: usize) {
        let (kind, growth, merge, sizes) = (self.kind(), self.growth(), self.merge(), self.sizes());
        self.kinds[b] = kind;
        let (mut growth, mut merge) = (growth, merge);
        if self.random.once_in(30) {
            growth = Growth::Fixed(*self.random.pick(&[0, 16_777_216, 16_777_217, u64::MAX]));
        }
        if self.random.once_in(30) {
            merge = Merge::UpTo(0);
        }
        self.emit(Call::Start(b, kind, growth, merge, sizes));
        if self.builders[b].is_none() {
            self.emit(Call::Start(b, kind, Growth::Fixed(26), Merge::Off, sizes));
        }
    }

    /// A state that no calls left.
    fn odd_state(&mut self, b: usize) {
        let sizes = self.sizes();
        let rows = self.near(sizes.views as u64 / 16).min(5000);
        let size = self.near(16384);
        let growth = match self.random.below(3) {
            0 => Growth::Doubling(size),
            1 => Growth::Doubling(8192 << self.random.below(10)),
            _ => self.growth(),
        };
        let open = self.random.below(3) * self.random.below(30);
        let state = State {
            kind: self.kind(),
            growth,
            merge: self.merge(),
            rows,
            blocks: self.near(sizes.table as u64 / 2).min(5000),
            before: self.near(sizes.data as u64 / 2),
            open,
            capacity: self.near(open + 13),
            nulls: self.random.once_in(2),
        };
        self.kinds[b] = state.kind;
        self.emit(Call::State(b, state, sizes));
    }

    /// Notes the call, runs it on the model and keeps what is held afterwards.
    fn emit(&mut self, call: Call) {
        let (answer, held) = self.model.call(&call);
        let refused = matches!(answer, Answer::Refused(..));
        match &call {
            Call::Finish(_, d)
            | Call::Copy(_, d)
            | Call::Compact(_, _, d, _)
            | Call::Slice(_, _, _, d)
            | Call::Offsets(d, ..)
            | Call::Raw(d, _)
                if !refused =>
            {
                self.there[*d] = true
            }
            _ => (),
        }
        self.answer = answer;
        match &call {
            Call::Start(b, ..)
            | Call::State(b, ..)
            | Call::Value(b, _)
            | Call::Values(b, ..)
            | Call::Null(b)
            | Call::Block(b, _)
            | Call::View(b, ..)
            | Call::Append(b, _) => self.builders[*b] = held,
            Call::Finish(b, c) if !refused => {
                self.columns[*c] = held;
                self.column_kinds[*c] = self.kinds[*b];
                let none = Held {
                    views: vec![],
                    valid: vec![],
                    blocks: vec![],
                };
                self.builders[*b] = Some(none);
            }
            Call::Copy(b, c) if !refused => {
                self.columns[*c] = held;
                self.column_kinds[*c] = self.kinds[*b];
            }
            Call::Compact(c, _, d, _) | Call::Slice(c, _, _, d) if !refused => {
                self.columns[*d] = held;
                self.column_kinds[*d] = self.column_kinds[*c];
            }
            Call::Offsets(d, kind, ..) if !refused => {
                self.columns[*d] = held;
                self.column_kinds[*d] = *kind;
            }
            Call::Raw(d, raw) => {
                self.columns[*d] = held;
                self.column_kinds[*d] = raw.column.kind;
            }
            _ => (),
        }
        self.script.push(call);
    }

    fn builder(&mut self) -> usize {
        self.random.below(BUILDERS) as usize
    }

    fn column(&mut self) -> usize {
        self.random.below(COLUMNS) as usize
    }

    /// A column that there is, if there is one.
    fn some_column(&mut self) -> usize {
        let there: Vec<usize> = (0..self.there.len()).filter(|c| self.there[*c]).collect();
        if there.is_empty() {
            0
        } else {
            *self.random.pick(&there)
        }
    }

    fn rows_of(&self, c: usize) -> usize {
        let held = self.columns[c].as_ref();
        held.map_or(if self.there[c] { 9 } else { 0 }, |h| h.views.len())
    }

    fn step(&mut self) {
        if !self.there.contains(&true) || self.random.once_in(2) {
            self.build();
        } else {
            self.ask();
        }
    }

    fn build(&mut self) {
        let b = self.builder();
        let rows = self.builders[b].as_ref().map_or(0, |h| h.views.len());
        if rows > ENOUGH {
            let c = self.column();
            self.emit(Call::Finish(b, c));
            if matches!(self.answer, Answer::Refused(..)) {
                self.start(b);
            }
            return;
        }
        match self.random.below(24) {
            0..=9 => {
                let v = self.value();
                self.emit(Call::Value(b, v))
            }
            10 | 11 => {
                let v = self.value();
                let n = if self.model_alone() && self.random.once_in(8) {
                    u64::MAX
                } else {
                    *self.random.pick(&TIMES)
                };
                self.emit(Call::Values(b, v, n))
            }
            12..=14 => {
                for _ in 0..1 + self.random.below(3) {
                    self.emit(Call::Null(b))
                }
            }
            15 => {
                let mut bytes = self.value();
                bytes.extend(self.value());
                self.emit(Call::Block(b, bytes))
            }
            16 | 17 => self.view(b),
            18 | 19 => {
                let c = self.some_column();
                if rows + self.rows_of(c) < 2 * ENOUGH {
                    self.emit(Call::Append(b, c))
                }
            }
            20 => {
                let row = self.row(rows);
                self.emit(Call::Get(b, row))
            }
            21 if rows > 3 || self.random.once_in(4) => {
                let c = self.column();
                self.emit(Call::Finish(b, c))
            }
            22 if rows > 3 || self.random.once_in(4) => {
                let c = self.column();
                self.emit(Call::Copy(b, c))
            }
            _ if self.random.once_in(2) => self.start(b),
            _ if self.model_alone() => self.odd_state(b),
            _ => (),
        }
    }

    /// A view of some block, mostly of one that there is, ending around the block's end.
    fn view(&mut self, b: usize) {
        let lengths: Vec<u64> = self.builders[b].as_ref().map_or(vec![], |h| {
            h.blocks
                .iter()
                .map(|b| b.as_ref().map_or(0, |b| b.len() as u64))
                .collect()
        });
        if lengths.is_empty() && !self.random.once_in(4) {
            let bytes = self.value();
            return self.emit(Call::Block(b, bytes));
        }
        let block = self.row(lengths.len());
        let len = *lengths.get(block as usize).unwrap_or(&20);
        let offset = if self.random.once_in(2) {
            0
        } else {
            self.near(len)
        };
        let most = len.saturating_sub(offset);
        let n = if self.random.once_in(2) {
            self.near(most)
        } else {
            self.length().min(most)
        };
        self.emit(Call::View(b, block, offset, n));
    }

    fn ask(&mut self) {
        let (c, d) = (self.some_column(), self.some_column());
        let (rows, other) = (self.rows_of(c), self.rows_of(d));
        let row = self.row(rows);
        match self.random.below(24) {
            0..=2 => self.emit(Call::Read(c, row)),
            3 | 4 => {
                let n = if self.random.once_in(2) {
                    self.random.below(15)
                } else {
                    self.length()
                };
                self.emit(Call::Prefix(c, row, n))
            }
            5 | 6 => {
                let n = if self.random.once_in(2) {
                    self.random.below(15)
                } else {
                    self.length()
                };
                self.emit(Call::Suffix(c, row, n))
            }
            7 => self.emit(Call::Length(c, row)),
            8 => self.emit(Call::Bit(c, row)),
            9 | 10 => {
                let n = self.near((rows as u64).saturating_sub(row));
                self.emit(Call::Run(c, row, n))
            }
            11 => {
                let n = self.near((rows as u64).saturating_sub(row));
                let d = self.column();
                self.emit(Call::Slice(c, row, n, d))
            }
            12 => self.emit(Call::Total(c)),
            13 => self.emit(Call::Used(c)),
            14 => self.emit(Call::Walk(c)),
            15..=17 => {
                let j = self.row(other);
                self.emit(Call::Compare(c, row, d, j))
            }
            18 => {
                let d = if self.random.once_in(3) { c } else { d };
                self.emit(Call::Same(c, d))
            }
            19 => self.emit(Call::Check(c)),
            20 => self.emit(Call::List(c)),
            21 => {
                let d = self.column();
                self.compact(c, d)
            }
            22 => {
                let d = self.column();
                self.offsets(d)
            }
            _ => {
                let d = self.column();
                self.raw(c, d)
            }
        }
    }

    fn compact(&mut self, c: usize, d: usize) {
        let lengths: Vec<u64> = self.columns[c].as_ref().map_or(vec![], |h| {
            let all = h
                .views
                .iter()
                .map(|v| u32::from_le_bytes(v[..4].try_into().unwrap()) as u64);
            all.filter(|n| *n > 12).collect()
        });
        let rows = self.rows_of(c) as u64;
        let maximum = maximum(&mut self.random, &lengths);
        let bytes = lengths.iter().sum::<u64>().min(1 << 24);
        let sizes = self.output(rows, lengths.len() as u64 + 1, bytes);
        self.emit(Call::Compact(c, maximum, d, sizes));
    }

    fn source(&mut self) -> (Vec<i32>, Vec<u8>, Option<Vec<u8>>) {
        let rows = self.random.below(20);
        let mut bytes = if self.random.once_in(3) {
            self.value()
        } else {
            vec![]
        };
        let mut offsets = vec![bytes.len() as i32];
        for _ in 0..rows {
            if !self.random.once_in(4) {
                bytes.extend(self.value());
            }
            offsets.push(bytes.len() as i32);
        }
        if self.random.once_in(3) {
            bytes.extend(self.value());
        }
        let mut map = match self.random.below(3) {
            0 => None,
            _ => Some(self.random.bytes(rows.div_ceil(8))),
        };
        if self.random.once_in(6) {
            let k = self.random.below(offsets.len() as u64) as usize;
            match self.random.below(5) {
                0 => offsets[k] = -1,
                1 => offsets[k] = self.near(bytes.len() as u64).min(1 << 30) as i32,
                2 => offsets[k] += 1,
                3 => offsets.clear(),
                _ => map = map.map(|m| m[..m.len().saturating_sub(1)].to_vec()),
            }
        }
        (offsets, bytes, map)
    }

    fn offsets(&mut self, d: usize) {
        let (offsets, bytes, map) = self.source();
        let rows = offsets.len().saturating_sub(1) as u64;
        let sizes = self.output(rows, 1, bytes.len() as u64);
        let kind = self.kind();
        self.emit(Call::Offsets(d, kind, offsets, bytes, map, sizes));
    }

    /// A column spelled out from another one: rows before it, gaps between its blocks, and mostly some damage.
    fn raw(&mut self, c: usize, d: usize) {
        let Some(held) = self.columns[c].clone() else {
            return;
        };
        let mut held = held;
        hide(&mut self.random, &mut held);
        let first = *self.random.pick(&[0, 0, 1, 3, 7, 8, 9]);
        let mut raw = spelled(&mut self.random, &held, first, self.column_kinds[c]);
        let times = *self.random.pick(&[0, 1, 1, 2]);
        for _ in 0..times {
            damage(&mut self.random, &mut raw, self.whom);
        }
        self.emit(Call::Raw(d, raw));
        if self.random.once_in(2) {
            let to = self.column();
            self.compact(d, to);
        }
    }
}

/// A maximum around the sums of some neighbouring long rows.
pub fn maximum(random: &mut Random, lengths: &[u64]) -> u64 {
    let total: u64 = lengths.iter().sum();
    let some: u64 = match lengths.len() as u64 {
        0 => 0,
        n => {
            let start = random.below(n) as usize;
            let rows = 1 + random.below(3) as usize;
            lengths[start..].iter().take(rows).sum()
        }
    };
    match random.below(10) {
        0 => 0,
        1 => total,
        2 => total.saturating_sub(1),
        3 => i32::MAX as u64,
        4 => random.below(40),
        5 if random.once_in(3) => i32::MAX as u64 + 1,
        6 => some.saturating_sub(1),
        7 => some + 1,
        _ => some,
    }
}

/// Offsets, bytes and perhaps a map, mostly lawful.
pub fn offset_source(seed: u64) -> (Vec<i32>, Vec<u8>, Option<Vec<u8>>) {
    let mut g = Generator::new(seed, For::Both, false);
    g.source()
}

/// Some rows made null, their values staying where they are.
fn hide(random: &mut Random, held: &mut Held) {
    if random.once_in(2) {
        for valid in &mut held.valid {
            *valid = *valid && !random.once_in(4);
        }
    }
}

/// The column with rows before it and its blocks somewhere in the data.
pub fn spelled(random: &mut Random, held: &Held, first: u64, kind: Kind) -> Raw {
    let mut views = random.bytes(16 * first);
    for view in &held.views {
        views.extend(view);
    }
    let more = random.below(20);
    views.extend(random.bytes(more));
    let (mut data, mut table) = (vec![], vec![]);
    for block in &held.blocks {
        let gap = random.below(4);
        data.extend(random.bytes(gap));
        let bytes = block.clone().unwrap_or_default();
        table.push((data.len() as u64, bytes.len() as u64));
        data.extend(bytes);
    }
    let blocks = table.len() as u64;
    if random.once_in(2) {
        table.push((random.below(9), random.below(9)));
        data.extend(random.bytes(3));
    }
    let rows = held.views.len() as u64;
    let mut map = random.bytes((first + rows).div_ceil(8));
    for (k, valid) in held.valid.iter().enumerate() {
        let at = first as usize + k;
        map[at / 8] &= !(1 << (at % 8));
        map[at / 8] |= (*valid as u8) << (at % 8);
    }
    let nulls = held.valid.iter().any(|v| !v);
    let column = Column {
        first,
        rows,
        blocks,
        kind,
        mapped: nulls || random.once_in(2),
    };
    Raw {
        column,
        views,
        data,
        table,
        map,
    }
}

fn put_word(bytes: &mut [u8], at: usize, word: u64) {
    bytes[at..at + 4].copy_from_slice(&(word as u32).to_le_bytes());
}

/// One thing made wrong, or only different; for original and model only in views and data.
pub fn damage(random: &mut Random, raw: &mut Raw, whom: For) {
    let way = random.below(if whom == For::Model { 18 } else { 7 });
    damage_by(random, raw, way);
}

/// 0 to 6: bytes of a view or of the data. 7 to 11: a view's block or offset, the block table, the data's end. 12 to 16:
/// lengths of buffers and the column's numbers. 17: one more block, at the data's end or past it.
pub fn damage_by(random: &mut Random, raw: &mut Raw, way: u64) {
    let (first, rows) = (raw.column.first, raw.column.rows);
    let row = first.saturating_add(random.below(rows.min(1000) + 1));
    let at = 16 * row.min(1 << 20) as usize;
    if at + 16 > raw.views.len() {
        return;
    }
    let view: [u8; 16] = raw.views[at..at + 16].try_into().unwrap();
    let word = |k: usize| u32::from_le_bytes(view[k..k + 4].try_into().unwrap()) as u64;
    let block = raw.table.len() as u64;
    let far = *random.pick(&[
        0,
        1,
        12,
        13,
        14,
        255,
        256,
        0x7fff_ffff,
        0x8000_0000,
        0xffff_ffff,
    ]);
    let byte = random.word() as u8;
    match way {
        0 | 1 => raw.views[at + random.below(16) as usize] ^= 1 << (byte % 8),
        2 => raw.views[at + 4 + random.below(12) as usize] = byte,
        3 => put_word(&mut raw.views, at, far),
        4 => put_word(&mut raw.views, at, word(0).wrapping_add(1)),
        5 => put_word(&mut raw.views, at + 12, word(12).wrapping_add(1)),
        6 => {
            let place = random.below(raw.data.len() as u64 + 1) as usize;
            if let Some(b) = raw.data.get_mut(place) {
                *b ^= 1 << (byte % 8);
            }
        }
        7 => put_word(
            &mut raw.views,
            at + 8,
            *random.pick(&[block, block + 1, far]),
        ),
        8 => put_word(&mut raw.views, at + 12, far),
        9 => {
            let place = random.below(block + 1) as usize;
            if let Some(b) = raw.table.get_mut(place) {
                b.0 = *random.pick(&[
                    b.0.wrapping_add(1),
                    raw.data.len() as u64,
                    u64::MAX,
                    1 << 32,
                ]);
            }
        }
        10 => {
            let place = random.below(block + 1) as usize;
            if let Some(b) = raw.table.get_mut(place) {
                b.1 = *random.pick(&[
                    b.1.wrapping_add(1),
                    b.1.saturating_sub(1),
                    u64::MAX,
                    1 << 32,
                    0,
                ]);
            }
        }
        11 => {
            raw.data.pop();
        }
        12 => {
            let less = raw.views.len().saturating_sub(random.below(40) as usize);
            raw.views.truncate(less);
        }
        13 => {
            raw.map.pop();
        }
        14 => raw.column.blocks = *random.pick(&[0, block, block + 1, u64::MAX]),
        15 => raw.column.first = *random.pick(&[0, first.wrapping_add(1), u64::MAX, 32_767]),
        17 => {
            let past = *random.pick(&[
                (0, 0),
                (0, 1),
                (1, 0),
                (u64::MAX - raw.data.len() as u64, 1),
            ]);
            raw.table.truncate(raw.column.blocks.min(block) as usize);
            raw.table.push((raw.data.len() as u64 + past.0, past.1));
            raw.column.blocks = raw.table.len() as u64;
        }
        _ => {
            let (more, less) = (rows.wrapping_add(1), rows.saturating_sub(1));
            raw.column.rows = *random.pick(&[0, more, less, u64::MAX, 32_768])
        }
    }
}
