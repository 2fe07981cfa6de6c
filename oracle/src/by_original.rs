//! Scripts answered by the original. It is asked only what is defined there: about valid columns, and in comparison
//! also about reachable ones. A panic or an error of it is the refusal that document 01 makes of it.

use crate::answer::{Answer, Engine, Held};
use crate::script::{Call, REGISTERS, Raw};
use arrow_array::builder::{GenericByteViewBuilder, make_view};
use arrow_array::types::{
    BinaryType, BinaryViewType, ByteArrayType, ByteViewType, StringViewType, Utf8Type,
};
use arrow_array::{
    Array, BinaryViewArray, GenericByteArray, GenericByteViewArray, StringViewArray,
};
use arrow_buffer::{BooleanBuffer, Buffer, NullBuffer, OffsetBuffer, ScalarBuffer};
use model::{Growth, Kind, Merge};
use std::cell::Cell;
use std::cmp::Ordering;
use std::panic::{AssertUnwindSafe, catch_unwind};
use std::sync::Arc;

enum Builder {
    Binary(GenericByteViewBuilder<BinaryViewType>),
    String(GenericByteViewBuilder<StringViewType>),
}

#[derive(Clone)]
enum Array2 {
    Binary(BinaryViewArray),
    String(StringViewArray),
}

#[derive(Clone, Default)]
enum Slot {
    #[default]
    Empty,
    Valid(Array2),
    /// All its views are reachable, and comparison alone is asked. `bytes` says that they are true but for UTF-8.
    Reachable {
        array: BinaryViewArray,
        bytes: bool,
    },
    /// Its numbers don't fit, or a view isn't reachable, or a block is outside the data.
    Bad,
    /// What it would be isn't defined for the original.
    Gone,
}

/// Builders and columns of a script.
#[derive(Default)]
pub struct ByOriginal {
    builders: [Option<Builder>; REGISTERS],
    columns: [Slot; REGISTERS],
}

/// The same code for both kinds.
macro_rules! each {
    ($of:expr, $kind:ident, $x:ident => $body:expr) => {
        match $of {
            $kind::Binary($x) => $body,
            $kind::String($x) => $body,
        }
    };
}

thread_local! {
    static EXPECTED: Cell<bool> = const { Cell::new(false) };
}

/// Keeps the panics that are answers from being printed.
pub fn quiet() {
    let usual = std::panic::take_hook();
    std::panic::set_hook(Box::new(move |info| {
        if !EXPECTED.get() {
            usual(info)
        }
    }));
}

/// Runs it and answers None if it panics.
pub fn tried<T>(f: impl FnOnce() -> T) -> Option<T> {
    EXPECTED.set(true);
    let done = catch_unwind(AssertUnwindSafe(f)).ok();
    EXPECTED.set(false);
    done
}

/// The answer, or refusal 3 where the original panics or has nothing.
fn or_past<T>(x: Option<T>, accepted: impl FnOnce(T) -> Answer) -> Answer {
    x.map_or(Answer::refused(3), accepted)
}

fn held<T: ByteViewType + ?Sized>(array: &GenericByteViewArray<T>) -> Held {
    Held {
        views: array.views().iter().map(|v| v.to_le_bytes()).collect(),
        valid: (0..array.len()).map(|i| array.is_valid(i)).collect(),
        blocks: array
            .data_buffers()
            .iter()
            .map(|b| Some(b.to_vec()))
            .collect(),
    }
}

fn at<'a>(mut values: impl Iterator<Item = &'a [u8]>, row: u64) -> Answer {
    or_past(values.nth(row as usize), |v| Answer::Bytes(v.to_vec()))
}

fn started<T: ByteViewType + ?Sized>(
    growth: Growth,
    merge: Merge,
    rows: usize,
) -> GenericByteViewBuilder<T> {
    let mut b = GenericByteViewBuilder::<T>::with_capacity(rows);
    if let Growth::Fixed(size) = growth {
        b = b.with_fixed_block_size(size as u32);
    }
    match merge {
        Merge::Off => b,
        Merge::On => b.with_deduplicate_strings(),
        Merge::UpTo(max) => b
            .with_deduplicate_strings()
            .with_max_deduplication_len(max as u32),
    }
}

/// The refusal that an error of `try_append_view` means, by its text.
fn view_refusal(error: String) -> Answer {
    if error.contains("No block found") {
        Answer::refused(8)
    } else if error.contains("out of bounds") {
        Answer::refused(9)
    } else {
        Answer::refused(10)
    }
}

fn binary(array: &Array2) -> BinaryViewArray {
    match array {
        Array2::Binary(a) => a.clone(),
        Array2::String(a) => a.clone().to_binary_view(),
    }
}

/// The bits of a map as the original wants them, if it has that many.
fn null_bits(map: &[u8], first: usize, rows: usize) -> Option<NullBuffer> {
    if map.len() * 8 < first + rows {
        return None;
    }
    Some(NullBuffer::new(BooleanBuffer::new(
        Buffer::from(map),
        first,
        rows,
    )))
}

/// What a view says, read by the layout in the crate's documentation: None if it isn't reachable, else whether it is
/// true as bytes.
fn judged(view: u128, blocks: &[Buffer]) -> Option<(Vec<u8>, bool)> {
    let bytes = view.to_le_bytes();
    let word = |at: usize| u32::from_le_bytes(bytes[at..at + 4].try_into().unwrap()) as usize;
    let len = word(0);
    if len <= 12 {
        let padded = bytes[4 + len..].iter().all(|b| *b == 0);
        return Some((bytes[4..4 + len].to_vec(), padded));
    }
    let value = blocks.get(word(8))?.get(word(12)..word(12) + len)?;
    Some((value.to_vec(), value[..4] == bytes[4..8]))
}

/// A column spelled out, if its numbers fit and all its views are reachable.
fn made(raw: &Raw) -> Option<Slot> {
    let c = &raw.column;
    let (first, rows) = (
        usize::try_from(c.first).ok()?,
        usize::try_from(c.rows).ok()?,
    );
    let end = first.checked_add(rows)?;
    let views: Vec<u128> = raw
        .views
        .chunks_exact(16)
        .map(|v| u128::from_le_bytes(v.try_into().unwrap()))
        .collect();
    let view_part = views.get(first..end)?.to_vec();
    let mut blocks = vec![];
    for (start, len) in raw.table.get(..usize::try_from(c.blocks).ok()?)? {
        let range = *start as usize..start.checked_add(*len)? as usize;
        blocks.push(Buffer::from(raw.data.get(range)?));
    }
    let judged: Option<Vec<_>> = view_part.iter().map(|v| judged(*v, &blocks)).collect();
    let judged = judged?;
    let bytes = judged.iter().all(|j| j.1);
    let nulls = match c.mapped {
        true => Some(null_bits(&raw.map, first, rows)?),
        false => None,
    };
    let text = judged.iter().all(|j| std::str::from_utf8(&j.0).is_ok());
    let views = ScalarBuffer::from(views).slice(first, rows);
    // SAFETY: every view is reachable.
    let array = unsafe { BinaryViewArray::new_unchecked(views, Arc::from(blocks), nulls) };
    Some(match c.kind {
        Kind::Binary if bytes => Slot::Valid(Array2::Binary(array)),
        // SAFETY: every view is true.
        Kind::String if bytes && text => {
            Slot::Valid(Array2::String(unsafe { array.to_string_view_unchecked() }))
        }
        _ => Slot::Reachable { array, bytes },
    })
}

fn from_offsets<F, V>(
    offsets: Vec<i32>,
    bytes: &[u8],
    nulls: Option<NullBuffer>,
) -> Option<GenericByteViewArray<V>>
where
    F: ByteArrayType<Offset = i32>,
    V: ByteViewType<Native = F::Native>,
{
    let offsets = tried(|| OffsetBuffer::new(ScalarBuffer::from(offsets)))?;
    let array = GenericByteArray::<F>::try_new(offsets, Buffer::from(bytes), nulls).ok()?;
    Some(GenericByteViewArray::<V>::from(&array))
}

impl ByOriginal {
    fn held_by(&self, b: usize) -> Option<Held> {
        let builder = self.builders[b].as_ref()?;
        Some(each!(builder, Builder, x => held(&x.finish_cloned())))
    }

    fn build(
        &mut self,
        b: usize,
        call: impl FnOnce(&mut Builder) -> Answer,
    ) -> (Answer, Option<Held>) {
        match &mut self.builders[b] {
            None => (Answer::Beyond, None),
            Some(builder) => (call(builder), self.held_by(b)),
        }
    }

    fn keep(&mut self, d: usize, array: Array2) -> (Answer, Option<Held>) {
        let held = each!(&array, Array2, x => held(x));
        self.columns[d] = Slot::Valid(array);
        (Answer::Done, Some(held))
    }

    fn valid(&self, c: usize) -> Option<&Array2> {
        match &self.columns[c] {
            Slot::Valid(array) => Some(array),
            _ => None,
        }
    }

    /// A column whose views are all reachable, as bytes.
    fn reachable(&self, c: usize) -> Option<BinaryViewArray> {
        match &self.columns[c] {
            Slot::Valid(array) => Some(binary(array)),
            Slot::Reachable { array, .. } => Some(array.clone()),
            _ => None,
        }
    }

    /// The column that a call would have made isn't defined.
    fn gone(&mut self, d: usize) -> (Answer, Option<Held>) {
        self.columns[d] = Slot::Gone;
        (Answer::Beyond, None)
    }

    fn ask(&self, c: usize, ask: impl FnOnce(&Array2) -> Answer) -> (Answer, Option<Held>) {
        (self.valid(c).map_or(Answer::Beyond, ask), None)
    }

    fn value(builder: &mut Builder, v: &[u8], n: usize) -> Answer {
        match builder {
            Builder::Binary(b) => b.try_append_value_n(v, n).unwrap(),
            Builder::String(b) => match std::str::from_utf8(v) {
                Ok(text) => b.try_append_value_n(text, n).unwrap(),
                // The types keep it out. Of no times at all nothing is kept out.
                Err(_) if n > 0 => return Answer::Unasked,
                Err(_) => (),
            },
        }
        Answer::Done
    }

    fn view(builder: &mut Builder, block: u64, offset: u64, len: u64) -> Answer {
        let (Ok(k), Ok(o), Ok(n)) = (block.try_into(), offset.try_into(), len.try_into()) else {
            return Answer::Unasked;
        };
        match each!(builder, Builder, b => b.try_append_view(k, o, n)) {
            Ok(()) => Answer::Done,
            Err(e) => view_refusal(e.to_string()),
        }
    }

    /// The types keep kinds apart: a column of the other kind is turned into the builder's first.
    fn append(&mut self, b: usize, c: usize) -> (Answer, Option<Held>) {
        let array = match self.columns[c].clone() {
            Slot::Empty => return (Answer::Beyond, None),
            Slot::Valid(array) => array,
            Slot::Reachable { array, bytes: true } => Array2::Binary(array),
            Slot::Reachable { .. } | Slot::Bad => return self.build(b, |_| Answer::Unasked),
            Slot::Gone => {
                self.builders[b] = None;
                return (Answer::Beyond, None);
            }
        };
        self.build(b, |builder| {
            match (builder, &array) {
                (Builder::Binary(b), array) => b.append_array(&binary(array)),
                (Builder::String(b), Array2::String(a)) => b.append_array(a),
                (Builder::String(b), Array2::Binary(a)) => {
                    if !a.bytes_iter().all(|v| std::str::from_utf8(v).is_ok()) {
                        return Answer::Unasked;
                    }
                    // SAFETY: just looked.
                    b.append_array(&unsafe { a.clone().to_string_view_unchecked() })
                }
            }
            Answer::Done
        })
    }

    fn start(&mut self, call: &Call) -> (Answer, Option<Held>) {
        let Call::Start(b, kind, growth, merge, sizes) = call else {
            unreachable!()
        };
        let fixed = matches!(growth, Growth::Fixed(n) if *n == 0 || *n > 16_777_216);
        if fixed || *merge == Merge::UpTo(0) {
            return (Answer::Unasked, self.held_by(*b));
        }
        let rows = sizes.views / 16;
        self.builders[*b] = Some(match kind {
            Kind::Binary => Builder::Binary(started(*growth, *merge, rows)),
            Kind::String => Builder::String(started(*growth, *merge, rows)),
        });
        (Answer::Done, self.held_by(*b))
    }

    fn finish(&mut self, b: usize, d: usize, copy: bool) -> (Answer, Option<Held>) {
        let array = match &mut self.builders[b] {
            None => return self.gone(d),
            Some(Builder::Binary(x)) if copy => Array2::Binary(x.finish_cloned()),
            Some(Builder::String(x)) if copy => Array2::String(x.finish_cloned()),
            Some(Builder::Binary(x)) => Array2::Binary(x.finish()),
            Some(Builder::String(x)) => Array2::String(x.finish()),
        };
        self.keep(d, array)
    }

    fn compact(&mut self, c: usize, max: u64, d: usize) -> (Answer, Option<Held>) {
        let array = match &self.columns[c] {
            Slot::Empty => return (Answer::Beyond, None),
            _ if max > i32::MAX as u64 => return (Answer::Unasked, None),
            Slot::Valid(array) => array,
            Slot::Reachable { .. } => return (Answer::Unasked, None),
            Slot::Bad | Slot::Gone => return self.gone(d),
        };
        let array = match array {
            Array2::Binary(a) => Array2::Binary(a.gc_with_max_buffer_size(max as usize)),
            Array2::String(a) => Array2::String(a.gc_with_max_buffer_size(max as usize)),
        };
        self.keep(d, array)
    }

    fn offsets(&mut self, call: &Call) -> (Answer, Option<Held>) {
        let Call::Offsets(d, kind, offsets, bytes, map, _) = call else {
            unreachable!()
        };
        let rows = offsets.len().saturating_sub(1);
        let nulls = match map {
            None => None,
            Some(map) => match null_bits(map, 0, rows) {
                None => return (Answer::Unasked, None),
                some => some,
            },
        };
        let array = match kind {
            Kind::Binary => {
                from_offsets::<BinaryType, _>(offsets.clone(), bytes, nulls).map(Array2::Binary)
            }
            Kind::String => {
                from_offsets::<Utf8Type, _>(offsets.clone(), bytes, nulls).map(Array2::String)
            }
        };
        match array {
            Some(array) => self.keep(*d, array),
            // A String source is judged as a whole by the published rule, row by row by document 01.
            None if *kind == Kind::String => self.gone(*d),
            None => (Answer::Unasked, None),
        }
    }

    fn slice(&mut self, c: usize, start: u64, count: u64, d: usize) -> (Answer, Option<Held>) {
        let (start, count) = (start as usize, count as usize);
        let array = match &self.columns[c] {
            Slot::Empty => return (Answer::Beyond, None),
            Slot::Valid(Array2::Binary(a)) => tried(|| Array2::Binary(a.slice(start, count))),
            Slot::Valid(Array2::String(a)) => tried(|| Array2::String(a.slice(start, count))),
            _ => return self.gone(d),
        };
        match array {
            Some(array) => self.keep(d, array),
            None => (Answer::refused(3), None),
        }
    }

    fn compare(&self, c: usize, i: u64, d: usize, j: u64) -> (Answer, Option<Held>) {
        let (Some(left), Some(right)) = (self.reachable(c), self.reachable(d)) else {
            return (Answer::Beyond, None);
        };
        // `compare_unchecked` looks at no row past the end.
        if i >= left.len() as u64 || j >= right.len() as u64 {
            return (Answer::Unasked, None);
        }
        // SAFETY: both rows are there and reachable.
        let order = unsafe {
            GenericByteViewArray::compare_unchecked(&left, i as usize, &right, j as usize)
        };
        let text = match order {
            Ordering::Less => "less",
            Ordering::Equal => "equal",
            Ordering::Greater => "greater",
        };
        (Answer::Order(text), None)
    }

    /// The question is ours; this is the answer by the original's reading calls.
    fn same(&self, c: usize, d: usize) -> (Answer, Option<Held>) {
        let (Some(left), Some(right)) = (self.valid(c), self.valid(d)) else {
            return (Answer::Beyond, None);
        };
        let (left, right) = (binary(left), binary(right));
        let same = left.len() == right.len()
            && (0..left.len()).all(|i| left.is_null(i) == right.is_null(i))
            && left.bytes_iter().eq(right.bytes_iter());
        (Answer::Number(same as u64), None)
    }

    /// A question, which changes nothing.
    fn question(&self, call: &Call) -> (Answer, Option<Held>) {
        match call {
            Call::Read(c, r) => self.ask(*c, |a| {
                let value = match a {
                    Array2::Binary(a) => tried(|| a.value(*r as usize).to_vec()),
                    Array2::String(a) => tried(|| a.value(*r as usize).as_bytes().to_vec()),
                };
                or_past(value, Answer::Bytes)
            }),
            Call::Prefix(c, r, n) => self.ask(
                *c,
                |a| each!(a, Array2, x => at(x.prefix_bytes_iter(*n as usize), *r)),
            ),
            Call::Suffix(c, r, n) => self.ask(
                *c,
                |a| each!(a, Array2, x => at(x.suffix_bytes_iter(*n as usize), *r)),
            ),
            Call::Length(c, r) => self.ask(*c, |a| {
                let length = each!(a, Array2, x => x.lengths().nth(*r as usize));
                or_past(length, |n| Answer::Number(n as u64))
            }),
            Call::Bit(c, r) => self.ask(*c, |a| {
                let row = *r as usize;
                each!(a, Array2, x => {
                    // An array without a map may say valid past its rows, as documented.
                    let bit = if row < x.len() { Some(x.is_valid(row)) } else { None };
                    or_past(bit, |b| Answer::Number(b as u64))
                })
            }),
            Call::Run(c, s, n) => self.ask(*c, |a| {
                let (s, n) = (*s as usize, *n as usize);
                let nulls = each!(a, Array2, x => tried(|| x.slice(s, n).null_count()));
                or_past(nulls, |n| Answer::Number(n as u64))
            }),
            Call::Total(c) => self.ask(*c, |a| {
                Answer::Number(each!(a, Array2, x => x.total_bytes_len()) as u64)
            }),
            Call::Used(c) => self.ask(*c, |a| {
                Answer::Number(each!(a, Array2, x => x.total_buffer_bytes_used()) as u64)
            }),
            Call::Walk(c) => self.ask(*c, |a| {
                Answer::Values(each!(a, Array2, x => x.bytes_iter().map(|v| v.to_vec()).collect()))
            }),
            Call::Compare(c, i, d, j) => self.compare(*c, *i, *d, *j),
            Call::Same(c, d) => self.same(*c, *d),
            Call::Check(c) => self.ask(*c, |a| {
                let done = match a.clone() {
                    Array2::Binary(a) => {
                        let (views, blocks, nulls) = a.into_parts();
                        BinaryViewArray::try_new(views, blocks, nulls).is_ok()
                    }
                    Array2::String(a) => {
                        let (views, blocks, nulls) = a.into_parts();
                        StringViewArray::try_new(views, blocks, nulls).is_ok()
                    }
                };
                if done {
                    Answer::Done
                } else {
                    Answer::refused(11)
                }
            }),
            Call::List(c) => self.ask(*c, |a| Answer::Text(format!("{:?}", binary(a)))),
            Call::Growth(_) => (Answer::Beyond, None),
            Call::MakeView(v, b, o) => (
                Answer::Bytes(make_view(v, *b, *o).to_le_bytes().to_vec()),
                None,
            ),
            _ => unreachable!("a call that changes something"),
        }
    }
}

impl Engine for ByOriginal {
    fn call(&mut self, call: &Call) -> (Answer, Option<Held>) {
        match call {
            Call::Start(..) => self.start(call),
            Call::State(b, ..) => {
                self.builders[*b] = None;
                (Answer::Beyond, None)
            }
            Call::Value(b, v) => self.build(*b, |b| Self::value(b, v, 1)),
            Call::Values(b, v, n) => self.build(*b, |b| Self::value(b, v, *n as usize)),
            Call::Null(b) => self.build(*b, |b| {
                each!(b, Builder, x => x.append_null());
                Answer::Done
            }),
            Call::Block(b, v) => self.build(*b, |b| {
                let buffer = Buffer::from(v.as_slice());
                Answer::Number(each!(b, Builder, x => x.append_block(buffer)) as u64)
            }),
            Call::View(b, k, o, n) => self.build(*b, |b| Self::view(b, *k, *o, *n)),
            Call::Append(b, c) => self.append(*b, *c),
            Call::Get(b, row) => self.build(*b, |b| {
                let value = tried(|| each!(b, Builder, x => x.get_value(*row as usize).to_vec()));
                or_past(value, Answer::Bytes)
            }),
            Call::Finish(b, c) => self.finish(*b, *c, false),
            Call::Copy(b, c) => self.finish(*b, *c, true),
            Call::Compact(c, max, d, _) => self.compact(*c, *max, *d),
            Call::Offsets(..) => self.offsets(call),
            Call::Raw(d, raw) => {
                self.columns[*d] = made(raw).unwrap_or(Slot::Bad);
                (Answer::Done, None)
            }
            Call::Slice(c, start, count, d) => self.slice(*c, *start, *count, *d),
            question => self.question(question),
        }
    }
}
