//! Frames: messages as bytes.

use crate::message::{Fields, Message};
use crate::refusal::Refusal;
use crate::value::Value;

/// The number of bytes of every frame of a kind of value.
pub fn frame_length<V: Value>() -> usize {
    20 + 2 * V::WIDTH
}

/// Writes the frame of the message with these fields at the start of the buffer.
pub fn write_frame<V: Value>(fields: &Fields<V>, buffer: &mut [u8]) -> Result<(), Refusal> {
    let length = frame_length::<V>();
    if buffer.len() < length {
        return Err(Refusal::Table);
    }
    Message::from_fields(fields).ok_or(Refusal::Field)?;
    let mut bytes = vec![fields.kind as u8, fields.from as u8, fields.to as u8, 0];
    for number in [fields.view, fields.key, fields.second_key, fields.previous] {
        bytes.extend((number as i32).to_be_bytes());
    }
    bytes.extend(fields.value.to_bytes());
    bytes.extend(fields.second_value.to_bytes());
    buffer[..length].copy_from_slice(&bytes);
    Ok(())
}

/// The message that these bytes are the frame of.
pub fn read_frame<V: Value>(bytes: &[u8]) -> Result<Message<V>, Refusal> {
    if bytes.len() != frame_length::<V>() || bytes[3] != 0 {
        return Err(Refusal::Frame);
    }
    let number = |at: usize| {
        let field = [bytes[at], bytes[at + 1], bytes[at + 2], bytes[at + 3]];
        i64::from(i32::from_be_bytes(field))
    };
    let (value, second_value) = bytes[20..].split_at(V::WIDTH);
    let fields = Fields {
        kind: i64::from(bytes[0]),
        from: i64::from(bytes[1]),
        to: i64::from(bytes[2]),
        view: number(4),
        key: number(8),
        value: V::from_bytes(value).ok_or(Refusal::Frame)?,
        second_key: number(12),
        second_value: V::from_bytes(second_value).ok_or(Refusal::Frame)?,
        previous: number(16),
    };
    Message::from_fields(&fields).ok_or(Refusal::Frame)
}
