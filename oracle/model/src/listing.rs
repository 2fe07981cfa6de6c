//! The listing of a Binary column, and module 9: the program `shelflist`.

use crate::builder::{Merge, Rooms, append_null, append_value, finish, start};
use crate::column::{
    Column, Lent, null_bit, null_run, total_buffer_bytes_used, total_bytes_len, value,
};
use crate::growth::{Growth, START};
use crate::{Kind, Refusal};

/// The longest input of the program.
const MAX_INPUT: usize = 16_384;

/// A row's line.
fn line(lent: &Lent, c: &Column, row: u64) -> Result<String, Refusal> {
    let part = value(lent, c, row)?;
    if !null_bit(lent, c, row)? {
        return Ok("  null,\n".to_string());
    }
    let numbers: Vec<String> = part
        .of(lent.views, lent.data)
        .iter()
        .map(|b| b.to_string())
        .collect();
    Ok(format!("  [{}],\n", numbers.join(", ")))
}

/// The listing. Above 20 rows only the first and last ten show.
pub fn list(lent: &Lent, c: &Column) -> Result<String, Refusal> {
    let mut text = "BinaryViewArray\n[\n".to_string();
    for row in 0..c.rows {
        if c.rows > 20 && row == 10 {
            text += &format!("  ...{} elements...,\n", c.rows - 20);
        }
        if c.rows <= 20 || row < 10 || row >= c.rows - 10 {
            text += &line(lent, c, row)?;
        }
    }
    Ok(text + "]")
}

/// The input's lines; the last line end may be missing.
fn lines(input: &[u8]) -> Vec<&[u8]> {
    let mut all: Vec<&[u8]> = input.split(|b| *b == b'\n').collect();
    if all.last().is_some_and(|last| last.is_empty()) {
        all.pop();
    }
    all
}

/// What the program prints for this input.
pub fn shelflist(input: &[u8]) -> String {
    if input.len() > MAX_INPUT {
        return "refused=0\n".to_string();
    }
    let lines = lines(input);
    let mut rooms = Rooms {
        views: vec![0; 16 * lines.len()],
        data: vec![0; MAX_INPUT],
        table: vec![(0, 0)],
        map: vec![0; lines.len().div_ceil(8)],
        merge: vec![],
    };
    let growth = Growth::Doubling(START);
    let mut s = start(Kind::Binary, growth, Merge::Off).unwrap();
    for (k, line) in lines.iter().enumerate() {
        s = match line.strip_prefix(b"code=") {
            Some(value) => append_value(&s, &mut rooms, value).unwrap(),
            None if *line == b"null=" => append_null(&s, &mut rooms).unwrap(),
            None => return format!("refused={}\n", k + 1),
        };
    }
    let (_, c) = finish(&s, &mut rooms).unwrap();
    let lent = rooms.lent();
    format!(
        "{}\nrows={}\nnulls={}\nbytes={}\nblock_bytes={}\nblocks={}\n",
        list(&lent, &c).unwrap(),
        c.rows,
        null_run(&lent, &c, 0, c.rows).unwrap(),
        total_bytes_len(&lent, &c).unwrap(),
        total_buffer_bytes_used(&lent, &c).unwrap(),
        c.blocks
    )
}
