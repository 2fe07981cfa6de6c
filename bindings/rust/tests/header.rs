//! The C header says the same numbers and words as this crate.

use tambuyeel::{Buffers, ByteViewColumn, Error, Kind, Mark};

const HEADER: &str = include_str!("../../../include/tambuyeel.h");

fn constant(name: &str) -> u64 {
    let line = HEADER.lines().find(|line| line.contains(&format!("{name} = "))).unwrap_or_else(|| panic!("{name} isn't in the header"));
    let after = line.split(&format!("{name} = ")).nth(1).unwrap();
    after.chars().take_while(char::is_ascii_digit).collect::<String>().parse().unwrap()
}

#[test]
fn numbers() {
    let refusals = [
        ("SETTING", Error::SETTING),
        ("NUMBERS", Error::NUMBERS),
        ("ROW", Error::ROW),
        ("TOO_LONG", Error::TOO_LONG),
        ("ROW_ROOM", Error::ROW_ROOM),
        ("BLOCK_ROOM", Error::BLOCK_ROOM),
        ("DATA_ROOM", Error::DATA_ROOM),
        ("NO_BLOCK", Error::NO_BLOCK),
        ("RANGE", Error::RANGE),
        ("NOT_UTF8", Error::NOT_UTF8),
        ("VIEW", Error::VIEW),
        ("OFFSETS", Error::OFFSETS),
    ];
    for (name, number) in refusals {
        assert_eq!(constant(&format!("TAMBUYEEL_REFUSED_{name}")), number, "{name}");
    }
    assert_eq!(constant("TAMBUYEEL_MOST_ROWS"), tambuyeel::MAX_ROWS as u64);
    assert_eq!(constant("TAMBUYEEL_MOST_BLOCKS"), tambuyeel::MAX_BLOCKS as u64);
    assert_eq!(constant("TAMBUYEEL_MOST_BYTES"), tambuyeel::MAX_BYTES as u64);
    assert_eq!(constant("TAMBUYEEL_SHORT_MOST"), tambuyeel::MAX_INLINE_VIEW_LEN as u64);
    assert_eq!(constant("TAMBUYEEL_VIEW_SIZE"), tambuyeel::VIEW_SIZE as u64);
    assert_eq!(constant("TAMBUYEEL_STRING"), Kind::String as u64);
    for (name, mark) in [("NULL", Mark::Null), ("OTHER", Mark::Other), ("CODE", Mark::Code), ("DATE", Mark::Date)] {
        assert_eq!(constant(&format!("TAMBUYEEL_MARK_{name}")), mark as u64, "{name}");
    }
}

#[test]
fn words() {
    let column = ByteViewColumn::new(Kind::Binary, Buffers::default());
    let said = column.value(0).unwrap_err().to_string();
    let line = HEADER.lines().find(|line| line.contains("case TAMBUYEEL_REFUSED_ROW:")).unwrap();
    assert_eq!(said, format!("refused with 3: {}", line.split('"').nth(1).unwrap()));
}
