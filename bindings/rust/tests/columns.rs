//! Columns that are built, compacted, sliced and appended, against a plain list of values; the limits; damaged columns.

use std::cmp::Ordering;
use tambuyeel::{Buffers, ByteViewArray, ByteViewBuilder, ByteViewColumn, Error, Kind, Mark, Marks, Side, MAX_BYTES, MAX_ROWS};

/// A small generator: the next of a fixed sequence, below `n`.
struct Random(u64);

impl Random {
    fn below(&mut self, n: usize) -> usize {
        self.0 ^= self.0 << 13;
        self.0 ^= self.0 >> 7;
        self.0 ^= self.0 << 17;
        (self.0 % n as u64) as usize
    }

    /// A null, a short or a long value; few kinds, so that values come again.
    fn value(&mut self) -> Option<Vec<u8>> {
        let len = [0, 1, 4, 12, 13, 14, 40, 300][self.below(8)];
        let fill = b"ABM\0"[self.below(4)];
        (self.below(6) > 0).then(|| (0..len).map(|k| if k % 5 == 4 { b'-' } else { fill }).collect())
    }

    fn values(&mut self, most: usize) -> Vec<Option<Vec<u8>>> {
        (0..self.below(most)).map(|_| self.value()).collect()
    }

    fn builder(&mut self, kind: Kind) -> ByteViewBuilder {
        let builder = ByteViewBuilder::new(kind);
        let builder = match self.below(3) {
            0 => builder,
            1 => builder.with_deduplicate_strings(),
            _ => builder.with_deduplicate_strings().with_max_deduplication_len(20).unwrap(),
        };
        match self.below(2) {
            0 => builder,
            _ => builder.with_fixed_block_size(1 + self.below(400) as u32).unwrap(),
        }
    }
}

fn shown(column: ByteViewColumn) -> Vec<Option<Vec<u8>>> {
    column.iter().map(|row| row.unwrap().map(<[u8]>::to_vec)).collect()
}

#[test]
fn every_row_shows_what_was_appended() {
    let mut random = Random(3);
    for round in 0..200 {
        let kind = if round % 2 == 0 { Kind::Binary } else { Kind::String };
        let (a, b) = (random.values(60), random.values(60));
        let mut builder = random.builder(kind);
        for value in &a {
            builder.append_option(value.as_ref()).unwrap();
        }
        let copy = builder.finish_cloned();
        for (row, value) in a.iter().enumerate() {
            assert_eq!(builder.get_value(row).unwrap(), value.as_deref().unwrap_or(b""));
        }
        let other = ByteViewArray::try_from_iter(kind, b.iter().map(Option::as_ref)).unwrap();
        let cut = random.below(b.len() + 1);
        builder.append_array(other.slice(cut, b.len() - cut).unwrap()).unwrap();
        let column = builder.finish();
        let list: Vec<_> = a.iter().chain(&b[cut..]).cloned().collect();
        assert_eq!(shown(copy.column()), a);
        assert_eq!(shown(column.column()), list);
        column.check().unwrap();
        assert_eq!(column.null_count().unwrap(), list.iter().filter(|v| v.is_none()).count());
        assert_eq!(column.total_bytes_len().unwrap(), list.iter().flatten().map(Vec::len).sum());
        compacts(&mut random, &column, &list);
        orders(&mut random, &column, &list);
    }
}

/// Slices, compacted at any maximum, show the same rows; a block is above the maximum only if one row points into it.
fn compacts(random: &mut Random, column: &ByteViewArray, list: &[Option<Vec<u8>>]) {
    let start = random.below(list.len() + 1);
    let slice = column.slice(start, list.len() - start).unwrap();
    let most = random.below(700);
    for small in [slice.gc().unwrap(), slice.gc_with_max_buffer_size(most).unwrap()] {
        small.check().unwrap();
        assert_eq!(shown(small.column()), list[start..]);
        assert!(slice.same_column(&small).unwrap());
        assert_eq!(small.buffers().bytes.len(), slice.total_buffer_bytes_used().unwrap());
    }
    let small = slice.gc_with_max_buffer_size(most).unwrap();
    let longest = list[start..].iter().flatten().map(Vec::len).max().unwrap_or(0);
    assert!(small.buffers().lens.iter().all(|len| *len <= most.max(longest)));
}

/// Rows compare as their bytes do, a null counting as empty.
fn orders(random: &mut Random, column: &ByteViewArray, list: &[Option<Vec<u8>>]) {
    if list.is_empty() {
        return;
    }
    let small = column.gc().unwrap();
    for _ in 0..20 {
        let (i, j) = (random.below(list.len()), random.below(list.len()));
        let bytes = |row: usize| list[row].as_deref().unwrap_or(b"");
        assert_eq!(column.compare(i, &small, j).unwrap(), bytes(i).cmp(bytes(j)));
    }
}

#[test]
fn a_block_takes_what_fills_it() {
    for (size, blocks) in [(20, 2), (25, 2), (26, 1), (27, 1)] {
        let mut codes = ByteViewBuilder::new(Kind::Binary).with_fixed_block_size(size).unwrap();
        codes.append_value("RO-8040-03MAR").unwrap();
        codes.append_value("RO-8040-03MAY").unwrap();
        assert_eq!(codes.finish().num_blocks(), blocks, "fixed {size}");
    }
}

#[test]
fn the_growth_size_stays_at_finish() {
    let mut codes = ByteViewBuilder::new(Kind::Binary);
    let long = vec![b'A'; 10_000];
    codes.append_value(&long).unwrap(); // a block of 16,384
    codes.append_value(&long).unwrap(); // and one of 32,768
    assert_eq!(codes.finish().num_blocks(), 2);
    for _ in 0..6 {
        codes.append_value(&long).unwrap(); // one of 65,536
    }
    assert_eq!(codes.finish().num_blocks(), 1);
}

#[test]
fn settings_may_come_late() {
    let mut codes = ByteViewBuilder::new(Kind::Binary);
    codes.append_value("RO-8040-03MAR").unwrap();
    let mut codes = codes.with_deduplicate_strings();
    codes.append_value("RO-8040-03MAR").unwrap();
    codes.append_value("RO-8040-03MAR").unwrap();
    let column = codes.finish_cloned();
    assert_eq!((column.len(), column.buffers().bytes.len()), (3, 26));
    // Once more changes nothing, and keeps what may be merged with.
    let mut codes = codes.with_deduplicate_strings().with_fixed_block_size(7).unwrap();
    codes.append_value("RO-8040-03MAR").unwrap();
    assert_eq!(codes.finish().buffers().bytes.len(), 26);
}

#[test]
fn rows_end_at_the_limit() {
    let mut codes = ByteViewBuilder::new(Kind::String).with_deduplicate_strings();
    codes.try_append_value_n("RO-8040-03MAR", MAX_ROWS - 1).unwrap();
    assert_eq!(codes.try_append_value_n("A", 2).unwrap_err().number(), Error::ROW_ROOM);
    codes.append_null().unwrap();
    assert_eq!(codes.append_null().unwrap_err().number(), Error::ROW_ROOM);
    let column = codes.finish();
    assert_eq!((column.len(), column.null_count().unwrap(), column.buffers().bytes.len()), (MAX_ROWS, 1, 13));
}

#[test]
fn bytes_and_blocks_end_at_their_limits() {
    let mut codes = ByteViewBuilder::new(Kind::Binary);
    let block = vec![7; MAX_BYTES];
    assert_eq!(codes.append_block(vec![7; MAX_BYTES + 1]).unwrap_err().number(), Error::TOO_LONG);
    assert_eq!(codes.append_block(&block).unwrap(), 0);
    assert_eq!(codes.append_block("A").unwrap_err().number(), Error::DATA_ROOM);
    for k in 1..4_096 {
        assert_eq!(codes.append_block("").unwrap(), k);
    }
    assert_eq!(codes.append_block("").unwrap_err().number(), Error::BLOCK_ROOM);
    codes.append_value("short").unwrap();
    assert_eq!(codes.append_value("longer than twelve").unwrap_err().number(), Error::BLOCK_ROOM);
    codes.try_append_view(0, 16_777_000, 216).unwrap();
    let column = codes.finish();
    assert_eq!(column.gc().unwrap().buffers().bytes, [7; 216]);
}

#[test]
fn offsets_and_their_refusals() {
    let number = |offsets: &[i32], bytes: &[u8], nulls| ByteViewArray::from_offsets(Kind::String, offsets, bytes, nulls).unwrap_err().number();
    assert_eq!(number(&[], b"", None), Error::OFFSETS);
    assert_eq!(number(&[-1, 0], b"", None), Error::OFFSETS);
    assert_eq!(number(&[0, 2], b"A", None), Error::OFFSETS);
    assert_eq!(number(&[0, 1], b"\xFF", None), Error::NOT_UTF8);
    assert_eq!(number(&[0; 10], b"", Some(&[0xFF])), Error::NUMBERS);
    assert_eq!(number(&[0; MAX_ROWS + 2], b"", None), Error::ROW_ROOM);
    assert_eq!(number(&[0], &vec![b'A'; MAX_BYTES + 1], None), Error::DATA_ROOM);
    // A null row isn't looked at.
    let column = ByteViewArray::from_offsets(Kind::String, &[0, 1, 2], b"A\xFF", Some(&[0b01])).unwrap();
    assert_eq!(shown(column.column()), [Some(b"A".to_vec()), None]);
}

#[test]
fn damaged_columns_are_refused() {
    let mut random = Random(11);
    let column = ByteViewArray::try_from_iter(Kind::Binary, (0..40).map(|_| random.value())).unwrap();
    for _ in 0..2_000 {
        let mut views = column.buffers().views.to_vec();
        for _ in 0..=random.below(3) {
            let at = random.below(views.len());
            views[at] = random.below(256) as u8;
        }
        let (starts, lens) = ([random.below(40), random.below(1 << 40)], [random.below(4_000), usize::MAX - random.below(9)]);
        let buffers = match random.below(2) {
            0 => Buffers { views: &views, ..column.buffers() },
            _ => Buffers { views: &views, starts: &starts, lens: &lens, ..column.buffers() },
        };
        let bad = ByteViewColumn::new([Kind::Binary, Kind::String][random.below(2)], buffers).with_rows(random.below(4), 37 + random.below(2));
        match bad.check() {
            Ok(()) => {
                assert!(bad.iter().all(|row| row.is_ok()));
                assert!(bad.same_column(&bad.gc().unwrap()).unwrap());
            }
            // A compaction doesn't look at blocks that no row points into.
            Err(e) if e.number() == Error::RANGE => assert!(bad.gc().is_ok()),
            Err(e) => assert_eq!(bad.gc().unwrap_err(), e),
        }
        counts(bad);
        let _ = (bad.compare(random.below(50), &column, random.below(50)), bad.total_bytes_len(), bad.bytes_iter().count());
    }
}

/// The counts are those of the rows' marks; refused, the lowest row that is refused is named.
fn counts(column: ByteViewColumn) {
    let mut counts = Marks::default();
    for row in 0..column.len() {
        match column.mark(row) {
            Ok(Mark::Null) => counts.nulls += 1,
            Ok(Mark::Other) => counts.others += 1,
            Ok(Mark::Code) => counts.codes += 1,
            Ok(Mark::Date) => counts.dates += 1,
            Err(e) => return assert_eq!(column.count_marks().unwrap_err(), e),
        }
    }
    assert_eq!(column.count_marks(), Ok(counts));
}

#[test]
fn marks_of_codes() {
    use Mark::{Code, Date, Null, Other};
    let long = "RO-8040-03MAR-ABCDEFGHIJ";
    let list = [
        (Some("3MAR"), Date),
        (Some("03-MAR-2019"), Date),
        (Some("1234-1234-1234"), Date),
        (Some("32MAR"), Code),
        (Some("RO-8040-03MAR"), Code),
        (Some(long), Code),
        (Some("RO-8040-03MAR-ABCDEFGHIJK"), Other),
        (Some("1-2"), Other),
        (Some("RO--8040"), Other),
        (Some("ro-8040"), Other),
        (None, Null),
        (Some("MAR-31"), Date),
    ];
    let column = ByteViewArray::try_from_iter(Kind::String, list.map(|(value, _)| value)).unwrap();
    for (row, (value, mark)) in list.iter().enumerate() {
        assert_eq!(column.mark(row), Ok(*mark), "{value:?}");
    }
    assert_eq!(column.count_marks(), Ok(Marks { nulls: 1, others: 4, codes: 3, dates: 4 }));
    assert_eq!(column.slice(3, 8).unwrap().count_marks(), Ok(Marks { nulls: 1, others: 4, codes: 3, dates: 0 }));
    assert_eq!(column.slice(12, 0).unwrap().count_marks(), Ok(Marks::default()));
    assert_eq!(column.mark(12).unwrap_err().number(), Error::ROW);
    // A null row's view has to be reachable, and nothing more is asked of it.
    let views = [tambuyeel::make_view("3MAR", 0, 0).unwrap(), tambuyeel::make_view(long, 0, 0).unwrap()].concat();
    for (bytes, marks) in [(long, Ok(Marks { nulls: 1, dates: 1, ..Marks::default() })), (&long[1..], Err((11, Some(1))))] {
        let buffers = Buffers { views: &views, bytes: bytes.as_bytes(), starts: &[0], lens: &[bytes.len()], nulls: Some(&[0b01]) };
        let column = ByteViewColumn::new(Kind::Binary, buffers);
        assert_eq!(column.count_marks().map_err(|e| (e.number(), e.row())), marks);
        assert_eq!(column.mark(1).map_err(|e| (e.number(), e.row())), marks.map(|_| Null));
    }
}

#[test]
fn a_refused_call_changes_nothing() {
    let mut codes = ByteViewBuilder::new(Kind::String).with_deduplicate_strings();
    for code in ["A", "RO-8040-03MAR", "RO-8040-03MAY"] {
        codes.append_value(code).unwrap();
    }
    let binary = ByteViewArray::try_from_iter(Kind::Binary, [Some([0xFF])]).unwrap();
    let before = codes.finish_cloned();
    codes.append_value([0xFF; 13]).unwrap_err();
    codes.append_array(&binary).unwrap_err();
    codes.try_append_view(0, 0, 1).unwrap_err();
    codes.try_append_value_n("RO-8040-03APR", MAX_ROWS).unwrap_err();
    codes.append_block(vec![0; MAX_BYTES]).unwrap_err();
    let after = codes.finish_cloned();
    assert_eq!((before.buffers().views, before.buffers().bytes), (after.buffers().views, after.buffers().bytes));
    assert_eq!((before.buffers().starts, before.buffers().lens), (after.buffers().starts, after.buffers().lens));
    codes.append_value("RO-8040-03MAY").unwrap();
    assert_eq!(codes.finish().buffers().bytes.len(), 26);
}

#[test]
fn refusals_say_row_and_side() {
    let views = [tambuyeel::make_view("A", 0, 0).unwrap(), tambuyeel::make_view("RO-8040-03MAR", 9, 0).unwrap()].concat();
    let bad = ByteViewColumn::new(Kind::Binary, Buffers { views: &views, ..Buffers::default() });
    let good = ByteViewArray::try_from_iter(Kind::Binary, [Some("A"), Some("B")]).unwrap();
    let told = |e: Error| (e.number(), e.row(), e.side());
    assert_eq!(told(bad.value(1).unwrap_err()), (11, Some(1), None));
    assert_eq!(told(bad.prefix(1, 0).unwrap_err()), (11, Some(1), None));
    assert_eq!(told(bad.mark(1).unwrap_err()), (11, Some(1), None));
    assert_eq!(told(bad.count_marks().unwrap_err()), (11, Some(1), None));
    assert_eq!(told(bad.compare(1, &good, 0).unwrap_err()), (11, Some(1), Some(Side::Left)));
    assert_eq!(told(good.compare(0, bad, 1).unwrap_err()), (11, Some(1), Some(Side::Right)));
    assert_eq!(told(good.compare(2, bad, 2).unwrap_err()), (3, None, Some(Side::Left)));
    assert_eq!(told(good.same_column(bad).unwrap_err()), (11, Some(1), Some(Side::Right)));
    assert_eq!(told(bad.slice(1, 1).unwrap().check().unwrap_err()), (11, Some(0), None));
    assert_eq!(told(bad.gc().unwrap_err()), (11, Some(1), None));
    assert_eq!(told(ByteViewBuilder::new(Kind::Binary).append_array(bad).unwrap_err()), (11, Some(1), None));
    assert_eq!(bad.compare(0, &good, 1), Ok(Ordering::Less));
    let said = good.compare(0, bad, 1).unwrap_err().to_string();
    assert_eq!(said, "refused with 11: a view that points outside its block or disagrees with its value, at row 1, in the right column");
}

#[test]
fn numbers_that_fit_nothing() {
    let column = ByteViewColumn::new(Kind::Binary, Buffers::default()).with_rows(usize::MAX, usize::MAX).with_blocks(usize::MAX);
    assert_eq!(column.iter().count(), 1);
    assert_eq!(column.bytes_iter().count(), 1);
    assert_eq!(column.gc().unwrap_err().number(), Error::NUMBERS);
    assert_eq!(column.mark(0).unwrap_err().number(), Error::NUMBERS);
    assert_eq!(column.count_marks().unwrap_err().number(), Error::NUMBERS);
    assert_eq!(column.slice(usize::MAX, usize::MAX).unwrap_err().number(), Error::NUMBERS);
    assert_eq!(ByteViewBuilder::new(Kind::Binary).append_array(column).unwrap_err().number(), Error::NUMBERS);
    let most = ByteViewArray::default().gc_with_max_buffer_size(1 << 31).unwrap_err();
    assert_eq!(most.number(), Error::SETTING);
}
