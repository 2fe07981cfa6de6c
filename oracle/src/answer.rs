//! What a call answers, and what a column or builder holds afterwards, in one form for original and model.

use std::fmt;

/// The answer to a call.
#[derive(Clone, Debug, PartialEq, Eq)]
pub enum Answer {
    Done,
    Number(u64),
    Bytes(Vec<u8>),
    Values(Vec<Vec<u8>>),
    Order(&'static str),
    Text(String),
    /// The number; for 11 the row and, of two columns, which.
    Refused(u32, u64, &'static str),
    /// The original's types or rules keep the call from being made. The model has to refuse it.
    Unasked,
    /// The call, or what it is about, isn't defined for the original.
    Beyond,
}

impl Answer {
    pub fn refused(number: u32) -> Self {
        Answer::Refused(number, 0, "")
    }
}

/// Bytes in hexadecimal, `-` for none.
pub fn hex(bytes: &[u8]) -> String {
    if bytes.is_empty() {
        return "-".to_string();
    }
    bytes.iter().map(|b| format!("{b:02x}")).collect()
}

impl fmt::Display for Answer {
    fn fmt(&self, f: &mut fmt::Formatter<'_>) -> fmt::Result {
        match self {
            Answer::Done => write!(f, "done"),
            Answer::Number(n) => write!(f, "{n}"),
            Answer::Bytes(b) => write!(f, "{}", hex(b)),
            Answer::Values(all) => {
                let all: Vec<String> = all.iter().map(|b| hex(b)).collect();
                write!(f, "{}", all.join(" "))
            }
            Answer::Order(o) => write!(f, "{o}"),
            Answer::Text(t) => write!(f, "{}", t.replace('\n', "|")),
            Answer::Refused(11, row, side) => write!(f, "refused 11 row {row} {side}"),
            Answer::Refused(n, _, _) => write!(f, "refused {n}"),
            Answer::Unasked => write!(f, "unasked"),
            Answer::Beyond => write!(f, "beyond"),
        }
    }
}

/// What a column or a builder holds: a view and a null bit a row, and the blocks, the open one last. A block that
/// doesn't lie in the data is None.
#[derive(Clone, Debug, PartialEq, Eq)]
pub struct Held {
    pub views: Vec<[u8; 16]>,
    pub valid: Vec<bool>,
    pub blocks: Vec<Option<Vec<u8>>>,
}

impl fmt::Display for Held {
    fn fmt(&self, f: &mut fmt::Formatter<'_>) -> fmt::Result {
        for (view, valid) in self.views.iter().zip(&self.valid) {
            write!(f, "  {} {}", hex(view), if *valid { 1 } else { 0 })?;
            writeln!(f)?;
        }
        for block in &self.blocks {
            match block {
                Some(bytes) => writeln!(f, "  block {}", hex(bytes))?,
                None => writeln!(f, "  block outside")?,
            }
        }
        Ok(())
    }
}

/// Something that answers calls.
pub trait Engine {
    /// The answer, and what the call's builder or column holds after it, if it has one.
    fn call(&mut self, call: &crate::script::Call) -> (Answer, Option<Held>);
}
