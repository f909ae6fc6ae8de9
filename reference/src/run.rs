//! Running a sheet, and the listing that it ends with.

use crate::refusal::{Refusal, UNREADABLE_SHEET};
use crate::ring::{Ring, State};
use crate::sheet::{AnySheet, Call, Sheet, Unreadable, read_sheet};
use crate::value::Value;
use crate::wire::Wire;
use std::fmt::Write;

/// The capacity of the wire that a sheet's ring has.
pub const SHEET_CAPACITY: usize = 1_000;

/// The listing of a sheet, whatever its bytes are.
pub fn listing(sheet: &[u8]) -> String {
    match read_sheet(sheet) {
        Ok(AnySheet::Blocks(sheet)) => run(&sheet),
        Ok(AnySheet::Orders(sheet)) => run(&sheet),
        Err(Unreadable { line }) => stopped(UNREADABLE_SHEET, line),
    }
}

pub fn set_up<V: Value>(sheet: &Sheet<V>) -> Result<Ring<V>, Refusal> {
    let mut ring = Ring::new(Wire::new(SHEET_CAPACITY));
    ring.set_up(sheet.parties, sheet.faults, sheet.faulty, &sheet.own)?;
    Ok(ring)
}

pub fn apply<V: Value>(ring: &mut Ring<V>, call: Call) -> Result<u64, Refusal> {
    match call {
        Call::Hand(place) => ring.hand(place),
        Call::Repeat(place) => ring.repeat(place),
        Call::Lose(place) => ring.lose(place),
        Call::Timer(party) => ring.timer(party),
    }
}

fn run<V: Value>(sheet: &Sheet<V>) -> String {
    let mut ring = match set_up(sheet) {
        Ok(ring) => ring,
        Err(refusal) => return stopped(refusal.number(), 0),
    };
    let refused = sheet.calls.iter().filter(|&&call| apply(&mut ring, call).is_err()).count();
    let waiting = ring.wire().count();
    let mut text = format!("calls={}\nrefused={refused}\nwaiting={waiting}\n", sheet.calls.len());
    for party in 1..=sheet.parties {
        text += &shown(&ring, party);
    }
    text
}

/// The five lines of one party.
pub fn shown<V: Value>(ring: &Ring<V>, party: u64) -> String {
    let mut text = String::new();
    if let Ok(shown) = ring.show(party) {
        let (state, value) = match shown.state {
            State::Faulty => ("faulty", "none".to_string()),
            State::Open => ("open", "none".to_string()),
            State::Decided => ("decided", shown.value.to_string()),
        };
        let _ = write!(
            text,
            "party={party}\nstate={state}\nview={}\nlock={}\nvalue={value}\n",
            shown.view, shown.lock
        );
    }
    text
}

fn stopped(number: u8, line: usize) -> String {
    format!("stopped={number}\nline={line}\n")
}
