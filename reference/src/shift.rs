//! Shifts with liars that speak: a sheet's lines, and `send=` with a frame in hexadecimal digits.
//!
//! A sheet cannot have such a line, so shifts are for comparing engines call by call: the trace
//! of a shift has every answer and every post.

use crate::frame::{frame_length, read_frame, write_frame};
use crate::message::Message;
use crate::refusal::Refusal;
use crate::ring::Ring;
use crate::run::{apply, set_up, shown};
use crate::sheet::{AnySheet, Call, Sheet, head, read_call, read_sheet};
use crate::value::Value;
use std::fmt::Write;

/// A call of a shift.
#[derive(Clone, PartialEq, Eq, Debug)]
pub enum ShiftCall {
    Call(Call),
    /// The bytes of what should be a frame from a faulty party.
    Send(Vec<u8>),
}

/// The set-up as a sheet without calls, and the calls.
#[derive(Clone, Debug)]
pub struct Shift<V> {
    pub start: Sheet<V>,
    pub calls: Vec<ShiftCall>,
}

fn hexadecimal(bytes: &[u8]) -> String {
    bytes.iter().map(|byte| format!("{byte:02x}")).collect()
}

fn from_hexadecimal(text: &str) -> Option<Vec<u8>> {
    let digits: Option<Vec<u8>> =
        text.chars().map(|digit| digit.to_digit(16).map(|digit| digit as u8)).collect();
    let digits = digits?;
    (digits.len() % 2 == 0).then(|| digits.chunks(2).map(|pair| pair[0] << 4 | pair[1]).collect())
}

pub fn frame_of<V: Value>(message: &Message<V>) -> Vec<u8> {
    let mut bytes = vec![0; frame_length::<V>()];
    let written = write_frame(&message.fields(), &mut bytes);
    assert_eq!(written, Ok(()), "every message in range has a frame");
    bytes
}

impl<V: Value> Shift<V> {
    pub fn text(&self) -> String {
        let mut text = head(&self.start, false);
        for call in &self.calls {
            text += &match call {
                ShiftCall::Call(call) => format!("{call}\n"),
                ShiftCall::Send(frame) => format!("send={}\n", hexadecimal(frame)),
            };
        }
        text
    }

    /// Every answer and every post, then the end as a listing has it.
    fn trace(&self) -> String {
        let mut ring = match set_up(&self.start) {
            Ok(ring) => ring,
            Err(refusal) => return format!("refused={}\n", refusal.number()),
        };
        let mut text = posts(&ring, ring.wire().count());
        for call in &self.calls {
            match apply_shift_call(&mut ring, call) {
                Ok(answer) => {
                    let _ = writeln!(text, "answer={answer}");
                    text += &posts(&ring, answer as usize);
                }
                Err(refusal) => {
                    let _ = writeln!(text, "refused={}", refusal.number());
                }
            }
        }
        let _ = writeln!(text, "waiting={}", ring.wire().count());
        (1..=self.start.parties).fold(text, |text, party| text + &shown(&ring, party))
    }
}

pub fn apply_shift_call<V: Value>(ring: &mut Ring<V>, call: &ShiftCall) -> Result<u64, Refusal> {
    match call {
        ShiftCall::Call(call) => apply(ring, *call),
        ShiftCall::Send(frame) => ring.send(&read_frame(frame)?.fields()),
    }
}

/// The last messages of the wire, which the call just made has posted.
fn posts<V: Value>(ring: &Ring<V>, count: usize) -> String {
    let skipped = ring.wire().count() - count;
    let lines = ring.wire().messages().skip(skipped);
    lines.map(|message| format!("post={}\n", hexadecimal(&frame_of(message)))).collect()
}

/// The trace of a shift's text; none if it cannot be read.
pub fn trace(text: &str) -> Option<String> {
    let is_call = |line: &&str| {
        ["hand=", "repeat=", "lose=", "timer=", "send="].iter().any(|name| line.starts_with(name))
    };
    let start: String = text.split_inclusive('\n').take_while(|line| !is_call(line)).collect();
    let calls: Option<Vec<ShiftCall>> = text[start.len()..].lines().map(shift_call).collect();
    let calls = calls?;
    match read_sheet(start.as_bytes()).ok()? {
        AnySheet::Blocks(start) => Some(Shift { start, calls }.trace()),
        AnySheet::Orders(start) => Some(Shift { start, calls }.trace()),
    }
}

fn shift_call(line: &str) -> Option<ShiftCall> {
    match line.strip_prefix("send=") {
        Some(digits) => from_hexadecimal(digits).map(ShiftCall::Send),
        None => read_call(line.as_bytes()).map(ShiftCall::Call),
    }
}
