//! The README's first example.

use tambuyeel::{ByteViewBuilder, Kind};

fn main() -> Result<(), tambuyeel::Error> {
    // Build a column,
    let mut codes = ByteViewBuilder::new(Kind::String);
    codes.append_value("A")?;
    codes.append_null()?;
    codes.append_value("RO-8040-03MAR")?;
    let column = codes.finish();

    // compact it,
    let small = column.gc()?;

    // read it back.
    for row in &small {
        match row? {
            Some(code) => println!("{}", String::from_utf8_lossy(code)),
            None => println!("null"),
        }
    }
    Ok(())
}
