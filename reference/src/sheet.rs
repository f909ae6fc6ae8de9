//! Run sheets: the text that names a ring, its own values and a list of calls.

use crate::value::{Block, Order, Value, number};
use std::fmt::{Display, Formatter, Result as FmtResult};

pub const SHEET_LIMIT: usize = 60_000;
/// The newline is not counted.
pub const LINE_LIMIT: usize = 120;
pub const PARTIES_LIMIT: u64 = 8;
const HIGHEST_FAULTY: u64 = 64;

/// A line that is missing or cannot be read, counted from 1.
#[derive(Clone, Copy, PartialEq, Eq, Debug)]
pub struct Unreadable {
    pub line: usize,
}

#[derive(Clone, Copy, PartialEq, Eq, Debug)]
pub enum Call {
    Hand(u64),
    Repeat(u64),
    Lose(u64),
    Timer(u64),
}

impl Display for Call {
    fn fmt(&self, out: &mut Formatter) -> FmtResult {
        match self {
            Call::Hand(place) => write!(out, "hand={place}"),
            Call::Repeat(place) => write!(out, "repeat={place}"),
            Call::Lose(place) => write!(out, "lose={place}"),
            Call::Timer(party) => write!(out, "timer={party}"),
        }
    }
}

/// A sheet that can be read, of one kind of value.
#[derive(Clone, PartialEq, Eq, Debug)]
pub struct Sheet<V> {
    pub parties: u64,
    pub faults: u64,
    /// Bit j - 1 is party j.
    pub faulty: u64,
    /// By party; blank for a faulty one.
    pub own: Vec<V>,
    pub calls: Vec<Call>,
}

#[derive(Clone, PartialEq, Eq, Debug)]
pub enum AnySheet {
    Blocks(Sheet<Block>),
    Orders(Sheet<Order>),
}

/// The lines of a sheet, with the number of the line that comes next.
struct Lines<'a> {
    sheet: &'a [u8],
    start: usize,
    number: usize,
}

impl<'a> Lines<'a> {
    fn unreadable(&self) -> Unreadable {
        Unreadable { line: self.number }
    }

    /// The line that comes next, without its newline; none at the end of the sheet.
    fn peek(&self) -> Result<Option<&'a [u8]>, Unreadable> {
        let rest = &self.sheet[self.start..];
        if rest.is_empty() {
            return Ok(None);
        }
        match rest.iter().position(|&byte| byte == b'\n') {
            Some(length) if length <= LINE_LIMIT && self.start + length < SHEET_LIMIT => {
                Ok(Some(&rest[..length]))
            }
            _ => Err(self.unreadable()),
        }
    }

    fn pass(&mut self, line: &[u8]) {
        self.start += line.len() + 1;
        self.number += 1;
    }

    /// Reads the next line, which must be there, and passes it.
    fn read<T>(&mut self, reading: impl Fn(&[u8]) -> Option<T>) -> Result<T, Unreadable> {
        let line = self.peek()?.ok_or(self.unreadable())?;
        let result = reading(line).ok_or(self.unreadable())?;
        self.pass(line);
        Ok(result)
    }
}

/// What stands behind `name=`.
fn field<'a>(line: &'a [u8], name: &str) -> Option<&'a [u8]> {
    line.strip_prefix(name.as_bytes())?.strip_prefix(b"=")
}

pub fn read_sheet(sheet: &[u8]) -> Result<AnySheet, Unreadable> {
    let mut lines = Lines { sheet, start: 0, number: 1 };
    let blocks = lines.read(|line| match field(line, "kind")? {
        kind if kind == Block::NAME.as_bytes() => Some(true),
        kind if kind == Order::NAME.as_bytes() => Some(false),
        _ => None,
    })?;
    if blocks {
        read_rest(lines).map(AnySheet::Blocks)
    } else {
        read_rest(lines).map(AnySheet::Orders)
    }
}

fn read_rest<V: Value>(mut lines: Lines) -> Result<Sheet<V>, Unreadable> {
    let parties = lines
        .read(|line| number(field(line, "parties")?).filter(|&parties| parties <= PARTIES_LIMIT))?;
    let has_faults = lines.peek()?.is_some_and(|line| field(line, "faults").is_some());
    let faults = if has_faults { lines.read(|line| number(field(line, "faults")?))? } else { 0 };
    let faulty = lines.read(|line| faulty_parties(field(line, "faulty")?))?;
    let mut own = Vec::new();
    for index in 0..parties {
        let is_faulty = faulty >> index & 1 == 1;
        own.push(lines.read(|line| own_value(field(line, "own")?, is_faulty))?);
    }
    let mut calls = Vec::new();
    while lines.peek()?.is_some() {
        calls.push(lines.read(read_call)?);
    }
    Ok(Sheet { parties, faults, faulty, own, calls })
}

/// `none`, or strictly rising numbers 1 to 64 with commas, as bits.
fn faulty_parties(text: &[u8]) -> Option<u64> {
    if text == b"none" {
        return Some(0);
    }
    let mut bits = 0;
    let mut last = 0;
    for part in text.split(|&byte| byte == b',') {
        let party = number(part)?;
        if party <= last || party > HIGHEST_FAULTY {
            return None;
        }
        bits |= 1 << (party - 1);
        last = party;
    }
    Some(bits)
}

/// A faulty party has `-` for its own value, and an honest one never.
fn own_value<V: Value>(text: &[u8], is_faulty: bool) -> Option<V> {
    if is_faulty { (text == b"-").then_some(V::blank()) } else { V::from_text(text) }
}

/// The call that a line of a sheet names.
pub fn read_call(line: &[u8]) -> Option<Call> {
    let equals = line.iter().position(|&byte| byte == b'=')?;
    let number = number(&line[equals + 1..])?;
    match &line[..equals] {
        b"hand" => Some(Call::Hand(number)),
        b"repeat" => Some(Call::Repeat(number)),
        b"lose" => Some(Call::Lose(number)),
        b"timer" => Some(Call::Timer(number)),
        _ => None,
    }
}

/// The lines before the calls.
pub fn head<V: Value>(sheet: &Sheet<V>, leave_out_faults: bool) -> String {
    let mut text = format!("kind={}\nparties={}\n", V::NAME, sheet.parties);
    if !leave_out_faults {
        text += &format!("faults={}\n", sheet.faults);
    }
    let is_faulty = |index: u64| sheet.faulty >> index & 1 == 1;
    let faulty: Vec<String> =
        (0..64).filter(|&index| is_faulty(index)).map(|index| (index + 1).to_string()).collect();
    let faulty = if faulty.is_empty() { "none".to_string() } else { faulty.join(",") };
    text += &format!("faulty={faulty}\n");
    for (index, value) in sheet.own.iter().enumerate() {
        let own = if is_faulty(index as u64) { "-".to_string() } else { value.to_string() };
        text += &format!("own={own}\n");
    }
    text
}
