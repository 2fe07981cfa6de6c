//! Scripts: one call a line. README.md says what each means.

use crate::answer::hex;
use model::{Column, Growth, Kind, Merge, State};

/// The sizes of lent buffers: views and data and map in bytes, table in records, merge table in places.
#[derive(Clone, Copy, Debug, PartialEq, Eq)]
pub struct Sizes {
    pub views: usize,
    pub data: usize,
    pub table: usize,
    pub map: usize,
    pub merge: usize,
}

/// A column spelled out with its buffers.
#[derive(Clone, Debug, PartialEq, Eq)]
pub struct Raw {
    pub column: Column,
    pub views: Vec<u8>,
    pub data: Vec<u8>,
    pub table: Vec<(u64, u64)>,
    pub map: Vec<u8>,
}

/// A call. The first numbers are those of builders and columns.
#[derive(Clone, Debug, PartialEq, Eq)]
pub enum Call {
    Start(usize, Kind, Growth, Merge, Sizes),
    State(usize, State, Sizes),
    Value(usize, Vec<u8>),
    Values(usize, Vec<u8>, u64),
    Null(usize),
    Block(usize, Vec<u8>),
    View(usize, u64, u64, u64),
    Append(usize, usize),
    Get(usize, u64),
    Finish(usize, usize),
    Copy(usize, usize),
    Compact(usize, u64, usize, Sizes),
    Offsets(usize, Kind, Vec<i32>, Vec<u8>, Option<Vec<u8>>, Sizes),
    Raw(usize, Raw),
    Slice(usize, u64, u64, usize),
    Read(usize, u64),
    Prefix(usize, u64, u64),
    Suffix(usize, u64, u64),
    Length(usize, u64),
    Bit(usize, u64),
    Run(usize, u64, u64),
    Total(usize),
    Used(usize),
    Walk(usize),
    Compare(usize, u64, usize, u64),
    Same(usize, usize),
    Check(usize),
    List(usize),
    Growth(Growth),
    MakeView(Vec<u8>, u32, u32),
}

/// Builders and columns that a script may name: 0 to 15.
pub const REGISTERS: usize = 16;

type Words<'a> = std::str::SplitWhitespace<'a>;

fn word<'a>(w: &mut Words<'a>) -> Result<&'a str, String> {
    w.next().ok_or("a word is missing".to_string())
}

fn number<T: std::str::FromStr>(w: &mut Words) -> Result<T, String> {
    let text = word(w)?;
    text.parse()
        .map_err(|_| format!("'{text}' isn't a number that fits here"))
}

fn register(w: &mut Words) -> Result<usize, String> {
    let k: usize = number(w)?;
    if k < REGISTERS {
        Ok(k)
    } else {
        Err(format!("no builder or column {k}"))
    }
}

fn unhex(text: &str) -> Result<Vec<u8>, String> {
    let bytes = if text == "-" { "" } else { text };
    if !bytes.is_ascii() || bytes.len() % 2 != 0 {
        return Err(format!("'{text}' isn't bytes in hexadecimal"));
    }
    (0..bytes.len() / 2)
        .map(|k| u8::from_str_radix(&bytes[2 * k..2 * k + 2], 16).map_err(|e| e.to_string()))
        .collect()
}

fn bytes(w: &mut Words) -> Result<Vec<u8>, String> {
    unhex(word(w)?)
}

fn kind(w: &mut Words) -> Result<Kind, String> {
    match word(w)? {
        "binary" => Ok(Kind::Binary),
        "string" => Ok(Kind::String),
        other => Err(format!("no kind '{other}'")),
    }
}

/// `name` alone, or `name:number`.
fn setting(text: &str) -> Result<(&str, Option<u64>), String> {
    match text.split_once(':') {
        None => Ok((text, None)),
        Some((name, n)) => Ok((
            name,
            Some(n.parse().map_err(|_| format!("no number in '{text}'"))?),
        )),
    }
}

fn growth(w: &mut Words) -> Result<Growth, String> {
    match setting(word(w)?)? {
        ("fixed", Some(n)) => Ok(Growth::Fixed(n)),
        ("doubling", n) => Ok(Growth::Doubling(n.unwrap_or(8192))),
        other => Err(format!("no growth '{other:?}'")),
    }
}

fn merge(w: &mut Words) -> Result<Merge, String> {
    match setting(word(w)?)? {
        ("off", None) => Ok(Merge::Off),
        ("on", None) => Ok(Merge::On),
        ("upto", Some(n)) => Ok(Merge::UpTo(n)),
        other => Err(format!("no merge setting '{other:?}'")),
    }
}

fn sizes(w: &mut Words) -> Result<Sizes, String> {
    Ok(Sizes {
        views: number(w)?,
        data: number(w)?,
        table: number(w)?,
        map: number(w)?,
        merge: number(w)?,
    })
}

fn list<T: std::str::FromStr>(w: &mut Words) -> Result<Vec<T>, String> {
    let text = word(w)?;
    if text == "-" {
        return Ok(vec![]);
    }
    let all = text
        .split(',')
        .map(|t| t.parse().map_err(|_| format!("'{t}' isn't a number")));
    all.collect()
}

fn flag(w: &mut Words) -> Result<bool, String> {
    Ok(number::<u8>(w)? != 0)
}

fn table(w: &mut Words) -> Result<Vec<(u64, u64)>, String> {
    let numbers: Vec<u64> = list(w)?;
    Ok(numbers.chunks_exact(2).map(|p| (p[0], p[1])).collect())
}

fn raw(w: &mut Words) -> Result<Raw, String> {
    Ok(Raw {
        column: Column {
            kind: kind(w)?,
            first: number(w)?,
            rows: number(w)?,
            blocks: number(w)?,
            mapped: flag(w)?,
        },
        views: bytes(w)?,
        data: bytes(w)?,
        table: table(w)?,
        map: bytes(w)?,
    })
}

fn state(w: &mut Words) -> Result<State, String> {
    Ok(State {
        kind: kind(w)?,
        growth: growth(w)?,
        merge: merge(w)?,
        rows: number(w)?,
        blocks: number(w)?,
        before: number(w)?,
        open: number(w)?,
        capacity: number(w)?,
        nulls: flag(w)?,
    })
}

fn input_map(w: &mut Words) -> Result<Option<Vec<u8>>, String> {
    match word(w)? {
        "none" => Ok(None),
        text => Ok(Some(unhex(text)?)),
    }
}

fn parse(w: &mut Words) -> Result<Call, String> {
    let r = register;
    Ok(match word(w)? {
        "start" => Call::Start(r(w)?, kind(w)?, growth(w)?, merge(w)?, sizes(w)?),
        "state" => Call::State(r(w)?, state(w)?, sizes(w)?),
        "value" => Call::Value(r(w)?, bytes(w)?),
        "values" => Call::Values(r(w)?, bytes(w)?, number(w)?),
        "null" => Call::Null(r(w)?),
        "block" => Call::Block(r(w)?, bytes(w)?),
        "view" => Call::View(r(w)?, number(w)?, number(w)?, number(w)?),
        "append" => Call::Append(r(w)?, r(w)?),
        "get" => Call::Get(r(w)?, number(w)?),
        "finish" => Call::Finish(r(w)?, r(w)?),
        "copy" => Call::Copy(r(w)?, r(w)?),
        "compact" => Call::Compact(r(w)?, number(w)?, r(w)?, sizes(w)?),
        "offsets" => Call::Offsets(
            r(w)?,
            kind(w)?,
            list(w)?,
            bytes(w)?,
            input_map(w)?,
            sizes(w)?,
        ),
        "raw" => Call::Raw(r(w)?, raw(w)?),
        "slice" => Call::Slice(r(w)?, number(w)?, number(w)?, r(w)?),
        "read" => Call::Read(r(w)?, number(w)?),
        "prefix" => Call::Prefix(r(w)?, number(w)?, number(w)?),
        "suffix" => Call::Suffix(r(w)?, number(w)?, number(w)?),
        "length" => Call::Length(r(w)?, number(w)?),
        "bit" => Call::Bit(r(w)?, number(w)?),
        "run" => Call::Run(r(w)?, number(w)?, number(w)?),
        "total" => Call::Total(r(w)?),
        "used" => Call::Used(r(w)?),
        "walk" => Call::Walk(r(w)?),
        "compare" => Call::Compare(r(w)?, number(w)?, r(w)?, number(w)?),
        "same" => Call::Same(r(w)?, r(w)?),
        "check" => Call::Check(r(w)?),
        "list" => Call::List(r(w)?),
        "growth" => Call::Growth(growth(w)?),
        "make_view" => Call::MakeView(bytes(w)?, number(w)?, number(w)?),
        other => return Err(format!("no call '{other}'")),
    })
}

/// The call of a line; none if it is empty or a comment.
pub fn call_of(line: &str) -> Result<Option<Call>, String> {
    if line.trim().is_empty() || line.starts_with('#') {
        return Ok(None);
    }
    let mut words = line.split_whitespace();
    let call = parse(&mut words)?;
    match words.next() {
        None => Ok(Some(call)),
        Some(more) => Err(format!("'{more}' is too much")),
    }
}

fn kind_text(kind: Kind) -> &'static str {
    match kind {
        Kind::Binary => "binary",
        Kind::String => "string",
    }
}

fn growth_text(growth: Growth) -> String {
    match growth {
        Growth::Fixed(n) => format!("fixed:{n}"),
        Growth::Doubling(n) => format!("doubling:{n}"),
    }
}

fn merge_text(merge: Merge) -> String {
    match merge {
        Merge::Off => "off".to_string(),
        Merge::On => "on".to_string(),
        Merge::UpTo(n) => format!("upto:{n}"),
    }
}

fn sizes_text(s: &Sizes) -> String {
    format!("{} {} {} {} {}", s.views, s.data, s.table, s.map, s.merge)
}

fn list_text<T: ToString>(all: impl Iterator<Item = T>) -> String {
    let all: Vec<String> = all.map(|x| x.to_string()).collect();
    if all.is_empty() {
        "-".to_string()
    } else {
        all.join(",")
    }
}

fn raw_text(raw: &Raw) -> String {
    let c = &raw.column;
    let table = list_text(raw.table.iter().flat_map(|b| [b.0, b.1]));
    format!(
        "{} {} {} {} {} {} {} {table} {}",
        kind_text(c.kind),
        c.first,
        c.rows,
        c.blocks,
        c.mapped as u8,
        hex(&raw.views),
        hex(&raw.data),
        hex(&raw.map)
    )
}

fn state_text(s: &State) -> String {
    format!(
        "{} {} {} {} {} {} {} {} {}",
        kind_text(s.kind),
        growth_text(s.growth),
        merge_text(s.merge),
        s.rows,
        s.blocks,
        s.before,
        s.open,
        s.capacity,
        s.nulls as u8
    )
}

/// The line of a call.
pub fn line_of(call: &Call) -> String {
    match call {
        Call::Start(b, k, g, m, s) => format!(
            "start {b} {} {} {} {}",
            kind_text(*k),
            growth_text(*g),
            merge_text(*m),
            sizes_text(s)
        ),
        Call::State(b, state, s) => format!("state {b} {} {}", state_text(state), sizes_text(s)),
        Call::Value(b, v) => format!("value {b} {}", hex(v)),
        Call::Values(b, v, n) => format!("values {b} {} {n}", hex(v)),
        Call::Null(b) => format!("null {b}"),
        Call::Block(b, v) => format!("block {b} {}", hex(v)),
        Call::View(b, k, o, n) => format!("view {b} {k} {o} {n}"),
        Call::Append(b, c) => format!("append {b} {c}"),
        Call::Get(b, r) => format!("get {b} {r}"),
        Call::Finish(b, c) => format!("finish {b} {c}"),
        Call::Copy(b, c) => format!("copy {b} {c}"),
        Call::Compact(c, m, d, s) => format!("compact {c} {m} {d} {}", sizes_text(s)),
        Call::Offsets(d, k, o, v, m, s) => format!(
            "offsets {d} {} {} {} {} {}",
            kind_text(*k),
            list_text(o.iter()),
            hex(v),
            m.as_ref().map_or("none".to_string(), |m| hex(m)),
            sizes_text(s)
        ),
        Call::Raw(d, raw) => format!("raw {d} {}", raw_text(raw)),
        Call::Slice(c, s, n, d) => format!("slice {c} {s} {n} {d}"),
        Call::Read(c, r) => format!("read {c} {r}"),
        Call::Prefix(c, r, n) => format!("prefix {c} {r} {n}"),
        Call::Suffix(c, r, n) => format!("suffix {c} {r} {n}"),
        Call::Length(c, r) => format!("length {c} {r}"),
        Call::Bit(c, r) => format!("bit {c} {r}"),
        Call::Run(c, s, n) => format!("run {c} {s} {n}"),
        Call::Total(c) => format!("total {c}"),
        Call::Used(c) => format!("used {c}"),
        Call::Walk(c) => format!("walk {c}"),
        Call::Compare(c, i, d, j) => format!("compare {c} {i} {d} {j}"),
        Call::Same(c, d) => format!("same {c} {d}"),
        Call::Check(c) => format!("check {c}"),
        Call::List(c) => format!("list {c}"),
        Call::Growth(g) => format!("growth {}", growth_text(*g)),
        Call::MakeView(v, b, o) => format!("make_view {} {b} {o}", hex(v)),
    }
}
