//! The ten bench examples, the shelf list and the found differences, on original and model.

use crate::answer::hex;
use crate::by_original::tried;
use arrow_array::builder::{BinaryViewBuilder, StringViewBuilder, make_view};
use arrow_array::types::Utf8Type;
use arrow_array::{Array, BinaryViewArray, GenericByteArray};
use arrow_buffer::{Buffer, OffsetBuffer, ScalarBuffer};
use model::{Growth, Kind, Merge, Refusal, Rooms, State};
use std::cmp::Ordering;

/// What passed and what failed.
#[derive(Default)]
pub struct Tally {
    pub passed: u32,
    pub failed: u32,
}

impl Tally {
    fn that(&mut self, name: &str, yes: bool) {
        println!("{} {name}", if yes { "passed" } else { "FAILED" });
        if yes {
            self.passed += 1;
        } else {
            self.failed += 1;
        }
    }
}

/// Lent buffers with room for the examples.
fn rooms() -> Rooms {
    Rooms {
        views: vec![0; 16 * 64],
        data: vec![0; 1 << 16],
        table: vec![(0, 0); 64],
        map: vec![0; 8],
        merge: vec![0; 64],
    }
}

/// A model's builder with its buffers.
struct Ours {
    s: State,
    rooms: Rooms,
}

impl Ours {
    fn new(kind: Kind, growth: Growth, merge: Merge) -> Self {
        Ours {
            s: model::start(kind, growth, merge).unwrap(),
            rooms: rooms(),
        }
    }

    fn binary(growth: Growth) -> Self {
        Self::new(Kind::Binary, growth, Merge::Off)
    }

    fn value(&mut self, v: &[u8]) -> Result<(), Refusal> {
        self.s = model::append_value(&self.s, &mut self.rooms, v)?;
        Ok(())
    }

    fn view(&self, row: usize) -> &[u8] {
        &self.rooms.views[16 * row..16 * row + 16]
    }
}

const DOUBLING: Growth = Growth::Doubling(8192);

/// The column of these values by the original.
fn theirs(values: &[Vec<u8>], fixed: Option<u32>) -> BinaryViewArray {
    let mut b = BinaryViewBuilder::with_capacity(values.len());
    if let Some(size) = fixed {
        b = b.with_fixed_block_size(size);
    }
    for v in values {
        b.append_value(v);
    }
    b.finish()
}

fn of_lengths(lengths: &[usize]) -> Vec<Vec<u8>> {
    lengths.iter().map(|n| vec![b'A'; *n]).collect()
}

/// Block lengths after compaction at a maximum: the original's and the model's.
fn compacted(lengths: &[usize], maximum: u64) -> (Vec<usize>, Vec<usize>) {
    let array = theirs(&of_lengths(lengths), None).gc_with_max_buffer_size(maximum as usize);
    let mut ours = Ours::binary(DOUBLING);
    for v in of_lengths(lengths) {
        ours.value(&v).unwrap();
    }
    let (_, c) = model::finish(&ours.s, &mut ours.rooms).unwrap();
    let mut out = rooms();
    let c = model::compact(&ours.rooms.lent(), &c, maximum, &mut out).unwrap();
    let blocks = out.table[..c.blocks as usize]
        .iter()
        .map(|b| b.1 as usize)
        .collect();
    (
        array.data_buffers().iter().map(|b| b.len()).collect(),
        blocks,
    )
}

/// All lists of three of these lengths.
fn triples(of: &[usize]) -> Vec<[usize; 3]> {
    let mut all = vec![];
    for a in of {
        for b in of {
            for c in of {
                all.push([*a, *b, *c]);
            }
        }
    }
    all
}

/// All values of up to three bytes out of 0, 1 and 255, and each with bytes before it that make it 12, 13 or 16 long.
fn many_values() -> Vec<Vec<u8>> {
    let mut all: Vec<Vec<u8>> = vec![vec![]];
    for n in 0..3 {
        let longest: Vec<Vec<u8>> = all.iter().filter(|v| v.len() == n).cloned().collect();
        for v in longest {
            all.extend([0, 1, 255].map(|b| [&v[..], &[b]].concat()));
        }
    }
    let padded = |v: &Vec<u8>, n: usize| [&vec![0; n - v.len()][..], v].concat();
    let long = all.iter().flat_map(|v| [12, 13, 16].map(|n| padded(v, n)));
    let mut both: Vec<Vec<u8>> = all.iter().cloned().chain(long).collect();
    both.extend(all.iter().map(|v| [&v[..], &[0; 12]].concat()));
    both
}

/// Every pair of many values compared: original, model and the order of bytes agree.
fn many_orders(t: &mut Tally) {
    let values = many_values();
    let array = theirs(&values, Some(100));
    let mut ours = Ours::binary(Growth::Fixed(40));
    ours.rooms = wide_rooms();
    values.iter().for_each(|v| ours.value(v).unwrap());
    let (_, c) = model::finish(&ours.s, &mut ours.rooms).unwrap();
    let lent = ours.rooms.lent();
    let same = |i: usize, j: usize| {
        // SAFETY: both rows are there and valid.
        let theirs = unsafe { BinaryViewArray::compare_unchecked(&array, i, &array, j) };
        let ours = match model::compare(&lent, &c, i as u64, &lent, &c, j as u64).unwrap() {
            model::Order::Less => Ordering::Less,
            model::Order::Equal => Ordering::Equal,
            model::Order::Greater => Ordering::Greater,
        };
        theirs == ours && ours == values[i].cmp(&values[j])
    };
    let n = values.len();
    let all = (0..n).all(|i| (0..n).all(|j| same(i, j)));
    t.that(
        &format!("comparison of {n} times {n} values, original, model and the order of bytes"),
        all,
    );
}

/// Every short list at every maximum, and every fixed block size: original and model agree.
fn small_lists(t: &mut Tally) {
    let all = triples(&[0, 12, 13, 14, 26, 31]);
    let same = |l: &[usize; 3], max| {
        let (theirs, ours) = compacted(l, max);
        theirs == ours
    };
    let compacted = all.iter().all(|l| (0..=80).all(|max| same(l, max)));
    t.that(
        "compaction of three rows at every maximum from 0 to 80, original and model",
        compacted,
    );
    let placed = |l: &[usize; 3], size: u32| {
        let values = of_lengths(l);
        let theirs = theirs(&values, Some(size));
        let ours = our_views(&values, Growth::Fixed(size as u64));
        theirs
            .views()
            .iter()
            .map(|v| v.to_le_bytes().to_vec())
            .eq(ours)
    };
    let built = all.iter().all(|l| (1..=80).all(|size| placed(l, size)));
    t.that(
        "three values in blocks of every fixed size from 1 to 80, original and model",
        built,
    );
}

fn compacts(lengths: &[usize], maximum: u64, blocks: &[usize]) -> bool {
    let (theirs, ours) = compacted(lengths, maximum);
    theirs == blocks && ours == blocks
}

/// The block numbers of long views.
fn block_numbers(array: &BinaryViewArray) -> Vec<u32> {
    array.views().iter().map(|v| (*v >> 64) as u32).collect()
}

/// The model's views of these values.
fn our_views(values: &[Vec<u8>], growth: Growth) -> Vec<Vec<u8>> {
    let mut ours = Ours::binary(growth);
    for v in values {
        ours.value(v).unwrap();
    }
    (0..values.len())
        .map(|row| ours.view(row).to_vec())
        .collect()
}

fn our_block_numbers(values: &[Vec<u8>], growth: Growth) -> Vec<u32> {
    let number = |view: Vec<u8>| u32::from_le_bytes(view[8..12].try_into().unwrap());
    our_views(values, growth).into_iter().map(number).collect()
}

/// The order of two values by both.
fn orders(a: &[u8], b: &[u8]) -> (Ordering, model::Order) {
    let array = theirs(&[a.to_vec(), b.to_vec()], None);
    // SAFETY: both rows are there and valid.
    let theirs = unsafe { BinaryViewArray::compare_unchecked(&array, 0, &array, 1) };
    let mut ours = Ours::binary(DOUBLING);
    ours.value(a).unwrap();
    ours.value(b).unwrap();
    let (_, c) = model::finish(&ours.s, &mut ours.rooms).unwrap();
    let lent = ours.rooms.lent();
    (theirs, model::compare(&lent, &c, 0, &lent, &c, 1).unwrap())
}

fn bench_1_to_5(t: &mut Tally) {
    let empty = hex(&make_view(b"", 7, 9).to_le_bytes()) == "0".repeat(32);
    t.that(
        "1: empty value, sixteen zero bytes (make_view)",
        empty && model::make_view(b"", 7, 9) == Ok([0; 16]),
    );
    let mut ours = Ours::binary(DOUBLING);
    ours.value(b"").unwrap();
    let array = theirs(&[vec![]], None);
    t.that(
        "1: by the builders",
        ours.view(0) == [0; 16] && array.views()[0] == 0,
    );

    let twelve = "0c000000524f2d383034302d30333033";
    let code = b"RO-8040-0303";
    let both = hex(&make_view(code, 0, 0).to_le_bytes()) == twelve;
    t.that(
        "2: RO-8040-0303 lies in its view",
        both && hex(&model::make_view(code, 0, 0).unwrap()) == twelve,
    );

    let values = vec![b"RO-8040-03MAR".to_vec(), b"RO-8040-03MAY".to_vec()];
    let mut ours = Ours::binary(DOUBLING);
    values.iter().for_each(|v| ours.value(v).unwrap());
    let array = theirs(&values, None);
    let want = [
        "0d000000524f2d380000000000000000",
        "0d000000524f2d38000000000d000000",
    ];
    let found: Vec<String> = array
        .views()
        .iter()
        .map(|v| hex(&v.to_le_bytes()))
        .collect();
    t.that(
        "3: RO-8040-03MAR and RO-8040-03MAY, original",
        found == want,
    );
    t.that("3: model", [hex(ours.view(0)), hex(ours.view(1))] == want);

    for (size, numbers) in [(20, [0, 1]), (26, [0, 0])] {
        let values = of_lengths(&[13, 13]);
        let theirs = block_numbers(&theirs(&values, Some(size))) == numbers;
        let ours = our_block_numbers(&values, Growth::Fixed(size as u64)) == numbers;
        t.that(
            &format!("4: fixed {size}, two values of 13: blocks {numbers:?}"),
            theirs && ours,
        );
    }

    let twelve_zeros = [&b"A"[..], &[0; 12]].concat();
    for (name, other) in [
        ("one zero", &b"A\0"[..]),
        ("twelve zeros", &twelve_zeros[..]),
    ] {
        let below = orders(b"A", other) == (Ordering::Less, model::Order::Less);
        let above = orders(other, b"A") == (Ordering::Greater, model::Order::Greater);
        t.that(&format!("5: A is below A and {name}"), below && above);
    }
}

fn bench_6_to_10(t: &mut Tally) {
    t.that(
        "6: 13, 30, 13 at 20",
        compacts(&[13, 30, 13], 20, &[13, 30, 13]),
    );
    t.that(
        "7: 13, 5, 13 at 12",
        compacts(&[13, 5, 13], 12, &[0, 13, 13]),
    );
    t.that("8: 13, 13 at 26", compacts(&[13, 13], 26, &[26]));
    t.that("8: 13, 13 at 25", compacts(&[13, 13], 25, &[13, 13]));
    t.that(
        "8, sharper: 13, 13, 13 at 26",
        compacts(&[13, 13, 13], 26, &[26, 13]),
    );

    let array = theirs(&[b"RO-8040-03MAR".to_vec()], None);
    let prefix = array.prefix_bytes_iter(14).next().unwrap().is_empty();
    let suffix = array.suffix_bytes_iter(3).next().unwrap() == b"MAR";
    t.that(
        "9: prefix 14 empty, suffix 3 MAR, original",
        prefix && suffix,
    );
    let mut ours = Ours::binary(DOUBLING);
    ours.value(b"RO-8040-03MAR").unwrap();
    let (_, c) = model::finish(&ours.s, &mut ours.rooms).unwrap();
    let lent = ours.rooms.lent();
    let bytes = |p: model::Part| p.of(&ours.rooms.views, &ours.rooms.data).to_vec();
    let prefix = model::prefix(&lent, &c, 0, 14).map(bytes) == Ok(vec![]);
    let suffix = model::suffix(&lent, &c, 0, 3).map(bytes) == Ok(b"MAR".to_vec());
    t.that("9: model", prefix && suffix);

    let texts: [(&[u8], bool); 4] = [
        (&[0xC0, 0x80], false),
        (&[0xED, 0xA0, 0x80], false),
        (&[0xF4, 0x90, 0x80, 0x80], false),
        (&[0xF4, 0x8F, 0xBF, 0xBF], true),
    ];
    for (text, is) in texts {
        let mut b = StringViewBuilder::new();
        let block = b.append_block(Buffer::from(text));
        let theirs = b.try_append_view(block, 0, text.len() as u32).is_ok();
        let mut ours = Ours::new(Kind::String, DOUBLING, Merge::Off);
        let appended = ours.value(text);
        let right = if is {
            appended.is_ok()
        } else {
            appended == Err(Refusal::new(10))
        };
        t.that(
            &format!("10: {} is UTF-8: {is}", hex(text)),
            theirs == is && right,
        );
    }
}

/// The shelf list by the original's builder and its own listing.
pub fn their_shelflist(input: &[u8]) -> String {
    let mut b = BinaryViewBuilder::new();
    for line in input.split(|c| *c == b'\n').filter(|l| !l.is_empty()) {
        match line.strip_prefix(b"code=") {
            Some(value) => b.append_value(value),
            None => b.append_null(),
        }
    }
    let a = b.finish();
    format!(
        "{a:?}\nrows={}\nnulls={}\nbytes={}\nblock_bytes={}\nblocks={}\n",
        a.len(),
        a.null_count(),
        a.total_bytes_len(),
        a.total_buffer_bytes_used(),
        a.data_buffers().len()
    )
}

fn shelf(t: &mut Tally) {
    let input = b"code=A\nnull=\ncode=RO-8040-03MAR\n";
    let want = "BinaryViewArray\n[\n  [65],\n  null,\n  [82, 79, 45, 56, 48, 52, 48, 45, 48, 51, 77, 65, 82],\n]\n\
                rows=3\nnulls=1\nbytes=14\nblock_bytes=13\nblocks=1\n";
    t.that("shelf list, original", their_shelflist(input) == want);
    t.that("shelf list, model", model::shelflist(input) == want);
    t.that(
        "shelf list, last line end missing",
        model::shelflist(&input[..input.len() - 1]) == want,
    );
    for rows in [0, 1, 9, 10, 11, 19, 20, 21, 22, 40, 300] {
        let line = |r: usize| match r % 3 {
            0 => format!("code={}\n", "x".repeat(r % 20)),
            1 => "null=\n".to_string(),
            _ => format!("code={r}\n"),
        };
        let input: String = (0..rows).map(line).collect();
        let same = their_shelflist(input.as_bytes()) == model::shelflist(input.as_bytes());
        t.that(
            &format!("shelf list of {rows} rows, original and model"),
            same,
        );
    }
    let refusals: [(&[u8], &str); 7] = [
        (b"\n", "refused=1\n"),
        (b"code=A\n\n", "refused=2\n"),
        (b"null=x\n", "refused=1\n"),
        (b"null=\r\n", "refused=1\n"),
        (b"code=A\ncode\n", "refused=2\n"),
        (&[b'x'; 16_384], "refused=1\n"),
        (&[b'x'; 16_385], "refused=0\n"),
    ];
    for (input, want) in refusals {
        let name = format!("shelf list refused, {} bytes: {}", input.len(), want.trim());
        t.that(&name, model::shelflist(input) == want);
    }
}

/// Whether the original panics.
fn panics(f: impl FnOnce()) -> bool {
    tried(f).is_none()
}

/// The views of a builder whose merge table begins with room for `capacity` rows, after `others` different long values
/// with the first one again at the end: whether the last is merged with the first.
fn merged_after(others: usize, capacity: usize) -> bool {
    let mut b = BinaryViewBuilder::with_capacity(capacity).with_deduplicate_strings();
    let value = |k: usize| format!("a long value, {k:08}");
    for k in 0..others {
        b.append_value(value(k));
    }
    b.append_value(value(0));
    let a = b.finish();
    a.views()[0] == a.views()[others]
}

fn differences_builder(t: &mut Tally) {
    t.that(
        "merge table: with room for all rows a merge isn't missed",
        (1..200).all(|n| merged_after(n, 256)),
    );
    t.that(
        "merge table: without, the original misses merges",
        (1..200).any(|n| !merged_after(n, 0)),
    );
    let debug = cfg!(debug_assertions);
    let zero = panics(|| drop(BinaryViewBuilder::new().with_fixed_block_size(0)));
    t.that(
        "start: fixed size 0, the original panics in debug builds alone",
        zero == debug,
    );
    let zero = panics(|| drop(BinaryViewBuilder::new().with_max_deduplication_len(0)));
    t.that("start: merge maximum 0, the same", zero == debug);
    let refused = |g, m| model::start(Kind::Binary, g, m) == Err(Refusal::new(1));
    let both = refused(Growth::Fixed(0), Merge::Off) && refused(DOUBLING, Merge::UpTo(0));
    t.that(
        "start: both are 1, and a fixed size of 16,777,217",
        both && refused(Growth::Fixed(16_777_217), Merge::Off),
    );
    let mut b = BinaryViewBuilder::new().with_fixed_block_size(16_777_217);
    b.append_value(vec![1u8; 16_777_217]);
    let block = b.append_block(Buffer::from_vec(vec![1u8; 16_777_217]));
    t.that(
        "bounds: the original takes more than 16,777,216 bytes",
        block == 1 && b.get_value(0).len() == 16_777_217,
    );
    let mut ours = Ours::binary(DOUBLING);
    let long = vec![1u8; 16_777_217];
    t.that(
        "bounds: a value of 16,777,217 bytes is 4",
        ours.value(&long) == Err(Refusal::new(4)),
    );
    let mut b = BinaryViewBuilder::with_capacity(8).with_max_deduplication_len(40);
    b.append_value([7u8; 13]);
    b.append_value([7u8; 13]);
    let a = b.finish();
    t.that(
        "merging off: the original ignores a merge maximum while merging is off",
        a.views()[0] != a.views()[1],
    );
    let mut b = BinaryViewBuilder::with_capacity(8);
    b.append_value([7u8; 13]);
    let copy = b.finish_cloned();
    b.append_value([8u8; 13]);
    t.that(
        "finish-by-copy: the original's copy is a snapshot",
        copy.data_buffers()[0].len() == 13,
    );
    let mut ours = Ours::binary(DOUBLING);
    ours.value(&[7; 13]).unwrap();
    model::finish_copy(&ours.s, &mut ours.rooms).unwrap();
    let before = ours.rooms.table[0];
    ours.value(&[8; 13]).unwrap();
    model::finish_copy(&ours.s, &mut ours.rooms).unwrap();
    t.that(
        "finish-by-copy: ours shares the record, which becomes longer",
        (before.1, ours.rooms.table[0].1) == (13, 26),
    );
}

fn differences_columns(t: &mut Tally) {
    t.that(
        "compaction: 13, 13 at maximum 0",
        compacts(&[13, 13], 0, &[0, 13, 13]),
    );
    let a = theirs(&of_lengths(&[13, 13]), None).gc_with_max_buffer_size(usize::MAX);
    t.that(
        "compaction: the original takes any maximum",
        a.data_buffers().len() == 1,
    );
    let mut b = BinaryViewBuilder::with_capacity(16);
    for k in 0..10 {
        if k % 3 == 0 {
            b.append_null()
        } else {
            b.append_value([k as u8; 14])
        }
    }
    let a = b.finish().slice(3, 5).gc();
    t.that(
        "compaction: the original's compacted map keeps its bit offset",
        a.nulls().unwrap().inner().offset() == 3,
    );
    let one = theirs(&of_lengths(&[1]), None);
    let mut ours = Ours::binary(DOUBLING);
    ours.value(b"A").unwrap();
    let (_, c) = model::finish(&ours.s, &mut ours.rooms).unwrap();
    let past = model::null_bit(&ours.rooms.lent(), &c, 1);
    t.that(
        "null bit past the rows: the original without a map says valid, ours is 3",
        one.is_valid(1) && past == Err(Refusal::new(3)),
    );
    let mut b = BinaryViewBuilder::new();
    b.append_value([0xffu8]);
    let text = b.finish().to_string_view();
    t.that(
        "kinds: a Binary FF can't become the original's String column",
        text.is_err(),
    );
    let mut source = Ours::binary(DOUBLING);
    source.value(&[0xff]).unwrap();
    let (_, c) = model::finish(&source.s, &mut source.rooms).unwrap();
    let mut ours = Ours::new(Kind::String, DOUBLING, Merge::Off);
    let appended = model::append_column(&ours.s, &mut ours.rooms, &source.rooms.lent(), &c);
    t.that(
        "kinds: appended to a String builder it is 11, row 0",
        appended == Err(Refusal::at_row(11, 0)),
    );
    let mut out = rooms();
    let none = model::from_offsets(Kind::Binary, &[], b"", None, &mut out);
    t.that("offsets: no offsets are 13", none == Err(Refusal::new(13)));
    let first = {
        let mut b = BinaryViewBuilder::with_capacity(8);
        let before = b.allocated_size();
        b.append_value([7u8; 13]);
        b.allocated_size() - before
    };
    t.that(
        "growth: the original's first block is 16,384 bytes, not 8 KB",
        first == 16_384,
    );
}

/// A column of one long row whose four bytes are not those of its value, and one short row padded with a one.
fn untrue() -> (BinaryViewArray, Rooms, model::Column) {
    let value = b"ABCDEFGHIJKLM";
    let long = make_view(value, 0, 0) ^ (0x20 << 32);
    let short = make_view(b"A", 0, 0) | (1 << 48);
    let mut lent = rooms();
    lent.views[..16].copy_from_slice(&long.to_le_bytes());
    lent.views[16..32].copy_from_slice(&short.to_le_bytes());
    lent.data[..13].copy_from_slice(value);
    lent.table[0] = (0, 13);
    let c = model::Column {
        first: 0,
        rows: 2,
        blocks: 1,
        kind: Kind::Binary,
        mapped: false,
    };
    let blocks = vec![Buffer::from(value)].into();
    // SAFETY: both views are reachable, and only prefix and comparison are asked.
    let array = unsafe { BinaryViewArray::new_unchecked(vec![long, short].into(), blocks, None) };
    (array, lent, c)
}

fn differences_untrue(t: &mut Tally) {
    let (array, lent, c) = untrue();
    let theirs = array.prefix_bytes_iter(1).next().unwrap().to_vec();
    let ours = model::prefix(&lent.lent(), &c, 0, 1).unwrap();
    let ours = ours.of(&lent.views, &lent.data).to_vec();
    t.that(
        "prefix of 1 to 4 bytes: the original's from the view, ours from the data",
        (theirs, ours) == (b"a".to_vec(), b"A".to_vec()),
    );
    let mut padded = Ours::binary(DOUBLING);
    padded.value(b"A").unwrap();
    let (_, zero) = model::finish(&padded.s, &mut padded.rooms).unwrap();
    let one = model::slice(&lent.lent(), &c, 1, 1).unwrap();
    let same = model::same_column(&lent.lent(), &one, &padded.rooms.lent(), &zero);
    let order = model::compare(&lent.lent(), &one, 0, &padded.rooms.lent(), &zero, 0);
    let other = self::theirs(&[b"A".to_vec()], None);
    // SAFETY: both rows are there and reachable.
    let theirs = unsafe { BinaryViewArray::compare_unchecked(&array, 1, &other, 0) };
    t.that(
        "padding: the same column, though comparison says greater",
        same == Ok(true) && order == Ok(model::Order::Greater),
    );
    t.that(
        "padding: the original's comparison says greater too",
        theirs == Ordering::Greater,
    );
    let offsets = OffsetBuffer::new(ScalarBuffer::from(vec![0i32, 0]));
    let source = GenericByteArray::<Utf8Type>::try_new(offsets, Buffer::from(&[0xffu8]), None);
    let ours = model::from_offsets(Kind::String, &[0, 0], &[0xff], None, &mut rooms());
    t.that(
        "offsets: FF outside all rows, the published rule refuses and document 01 accepts",
        source.is_err() && ours.is_ok(),
    );
}

/// Buffers past every limit.
fn wide_rooms() -> Rooms {
    Rooms {
        views: vec![0; 16 * 33_000],
        data: vec![0; 20_000_000],
        table: vec![(0, 0); 5_000],
        map: vec![0; 5_000],
        merge: vec![0; 33_000],
    }
}

/// A builder and the original's, both given the same values until ours refuses one. How many were taken, the refusal,
/// and whether both hold the same views.
fn until_refused(fixed: u32, len: usize) -> (u64, u32, bool) {
    let mut ours = Ours::binary(Growth::Fixed(fixed as u64));
    ours.rooms = wide_rooms();
    let mut b = BinaryViewBuilder::with_capacity(33_000).with_fixed_block_size(fixed);
    let refusal = loop {
        let mut value = vec![0u8; len];
        let row = ours.s.rows as u32;
        value[..4.min(len)].copy_from_slice(&row.to_le_bytes()[..4.min(len)]);
        match ours.value(&value) {
            Ok(()) => b.append_value(value),
            Err(r) => break r.number,
        }
    };
    let array = b.finish();
    let same = (0..array.len()).all(|r| array.views()[r].to_le_bytes() == *ours.view(r));
    (
        ours.s.rows,
        refusal,
        same && ours.s.rows == array.len() as u64,
    )
}

fn limits(t: &mut Tally) {
    t.that(
        "limits: 32,767 rows, then 5",
        until_refused(1_000, 4) == (32_767, 5, true),
    );
    t.that(
        "limits: 4,096 blocks, then 6",
        until_refused(13, 13) == (4_096, 6, true),
    );
    t.that(
        "limits: 16,777,216 bytes, then 7",
        until_refused(65_536, 65_536) == (256, 7, true),
    );
    let mut ours = Ours::binary(Growth::Fixed(1));
    ours.rooms = wide_rooms();
    let whole = vec![7; 16_777_216];
    let taken = ours.value(&whole).is_ok() && ours.s.open == 16_777_216;
    t.that("limits: one value of 16,777,216 bytes", taken);
    let short = ours.value(b"short").is_ok();
    t.that(
        "limits: full of bytes, a short value is taken, a long one is 7",
        short && ours.value(&[7; 13]) == Err(Refusal::new(7)),
    );
}

fn block_sizes(t: &mut Tally) {
    let mut b = BinaryViewBuilder::with_capacity(8);
    let mut sizes = vec![];
    for n in [20_000usize, 13, 32_768] {
        let before = b.allocated_size();
        b.append_value(vec![7u8; n]);
        sizes.push(b.allocated_size() - before);
    }
    t.that(
        "growth: 20,000 bytes first: capacity 20,000, then 32,768",
        sizes[..2] == [20_000, 32_768],
    );
    t.that(
        "growth: exactly as long as it has to be",
        sizes[2] == 65_536,
    );
    let mut b = BinaryViewBuilder::with_capacity(8);
    b.append_value([7u8; 13]);
    let views = b.finish().views().len();
    let before = b.allocated_size();
    b.append_value([7u8; 13]);
    // The finish gave the views away, so the new ones are counted too: four of sixteen bytes.
    let grown = b.allocated_size() - before;
    t.that(
        "growth: finish keeps the growth size: 32,768 next",
        views == 1 && grown == 32_768 + 4 * 16,
    );
}

/// Runs them all and prints a line for each.
pub fn all() -> Tally {
    let mut t = Tally::default();
    bench_1_to_5(&mut t);
    bench_6_to_10(&mut t);
    small_lists(&mut t);
    many_orders(&mut t);
    shelf(&mut t);
    differences_builder(&mut t);
    differences_columns(&mut t);
    differences_untrue(&mut t);
    block_sizes(&mut t);
    limits(&mut t);
    t
}
