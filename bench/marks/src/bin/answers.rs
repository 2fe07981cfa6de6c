//! Marks of many strings, one byte a string, ours in its low half and the plain recogniser's in its high half: `answers all ALPHABET MOST` of every string over the alphabet of up to MOST bytes, the shorter ones first and
//! strings of a length in the alphabet's order; `answers list` of the strings that it reads, each a byte for its length and then its bytes, a byte 255 alone for
//! a null row. compare.py reads them.
//!
//! Strings become the rows of columns of up to 32,767 rows, behind some rows that aren't asked for, so that the null bits begin anywhere in a byte; each row is
//! asked for its mark, and each column for its counts, which have to be those of its rows.

use marks::{Lent, plain};
use std::io::{BufWriter, Read, Write, stdin, stdout};

const MOST_ROWS: usize = 32_767;
const SHORT: usize = 12;
/// A block is closed when it has as many bytes.
const BLOCK: usize = 5_000;

/// A column that is being filled.
struct Column {
    lent: Lent,
    skipped: usize,
    /// What the plain recogniser says of each row.
    plain: Vec<usize>,
}

impl Column {
    /// Over no rows but `skipped` null ones.
    fn new(skipped: usize) -> Self {
        let mut column = Column { lent: Lent::room(0, 0, 0), skipped, plain: vec![] };
        (0..skipped).for_each(|_| column.push(None));
        column
    }

    fn rows(&self) -> usize {
        self.lent.views.len() / 16
    }

    fn push(&mut self, value: Option<&[u8]>) {
        let row = self.rows();
        self.plain.push(value.map_or(0, plain::mark_of));
        let l = &mut self.lent;
        if row % 8 == 0 {
            l.nulls.push(0);
        }
        l.nulls[row / 8] |= (value.is_some() as u8) << (row % 8);
        let value = value.unwrap_or(b"");
        l.views.extend((value.len() as u32).to_le_bytes());
        if value.len() <= SHORT {
            l.views.extend(value);
            l.views.resize(16 * (row + 1), 0);
            return;
        }
        if l.lens.last().is_none_or(|n| *n >= BLOCK) {
            l.starts.push(l.bytes.len());
            l.lens.push(0);
        }
        let block = l.lens.len() - 1;
        l.views.extend(&value[..4]);
        l.views.extend((block as u32).to_le_bytes());
        l.views.extend((l.lens[block] as u32).to_le_bytes());
        l.lens[block] += value.len();
        l.bytes.extend(value);
    }

    /// Asks for the rows and the counts, writes the marks, and begins anew.
    fn ask(&mut self, out: &mut impl Write) {
        let rows = self.rows() - self.skipped;
        self.lent.column = [self.skipped, rows, self.lent.lens.len(), 0, 1];
        let mut counts = [0; 4];
        for row in 0..rows {
            let answer = self.lent.mark(row);
            assert_eq!(answer.refused, 0, "row {row}");
            counts[answer.number] += 1;
            out.write_all(&[(answer.number + 16 * self.plain[self.skipped + row]) as u8]).unwrap();
        }
        let marks = self.lent.count_marks();
        assert_eq!((marks.refused, marks.row, marks.counts()), (0, 0, counts));
        *self = Column::new((self.skipped + 5) % 19);
    }

    fn take(&mut self, value: Option<&[u8]>, out: &mut impl Write) {
        self.push(value);
        if self.rows() == MOST_ROWS {
            self.ask(out);
        }
    }
}

/// Every string of `n` bytes over the alphabet.
fn all(alphabet: &[u8], n: usize, column: &mut Column, out: &mut impl Write) {
    let mut places = vec![0; n];
    loop {
        let value: Vec<u8> = places.iter().map(|k| alphabet[*k]).collect();
        column.take(Some(&value), out);
        let Some(at) = places.iter().rposition(|k| k + 1 < alphabet.len()) else { return };
        places[at] += 1;
        places[at + 1..].fill(0);
    }
}

/// The strings that are read.
fn list(column: &mut Column, out: &mut impl Write) {
    let mut input = vec![];
    stdin().read_to_end(&mut input).unwrap();
    let mut rest = &input[..];
    while let [length, after @ ..] = rest {
        let n = if *length == 255 { 0 } else { *length as usize };
        column.take((*length != 255).then_some(&after[..n]), out);
        rest = &after[n..];
    }
}

fn main() {
    let args: Vec<String> = std::env::args().skip(1).collect();
    let args: Vec<&str> = args.iter().map(String::as_str).collect();
    let mut out = BufWriter::with_capacity(1 << 16, stdout().lock());
    let mut column = Column::new(3);
    match args[..] {
        ["all", alphabet, most] => {
            for n in 0..=most.parse().unwrap() {
                all(alphabet.as_bytes(), n, &mut column, &mut out);
            }
        }
        ["list"] => list(&mut column, &mut out),
        _ => panic!("answers all ALPHABET MOST, or answers list"),
    }
    column.ask(&mut out);
    out.flush().unwrap();
}
