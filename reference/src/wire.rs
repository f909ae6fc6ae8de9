//! The wire: the messages that wait, oldest first.

use crate::message::Message;
use crate::refusal::Refusal;
use crate::value::Value;
use std::collections::VecDeque;

#[derive(Clone, Debug)]
pub struct Wire<V> {
    waiting: VecDeque<Message<V>>,
    capacity: usize,
}

impl<V: Value> Wire<V> {
    pub fn new(capacity: usize) -> Self {
        Wire { waiting: VecDeque::new(), capacity }
    }

    pub fn count(&self) -> usize {
        self.waiting.len()
    }

    pub fn room(&self) -> usize {
        self.capacity - self.waiting.len()
    }

    pub fn post(&mut self, message: Message<V>) -> Result<(), Refusal> {
        if self.room() == 0 {
            return Err(Refusal::Room);
        }
        self.waiting.push_back(message);
        Ok(())
    }

    /// The message at a place, counted from 0.
    pub fn look(&self, place: u64) -> Result<Message<V>, Refusal> {
        let place = usize::try_from(place).map_err(|_| Refusal::Place)?;
        self.waiting.get(place).copied().ok_or(Refusal::Place)
    }

    /// Removes the message at a place; the later ones move up.
    pub fn take_out(&mut self, place: u64) -> Result<Message<V>, Refusal> {
        let place = usize::try_from(place).map_err(|_| Refusal::Place)?;
        self.waiting.remove(place).ok_or(Refusal::Place)
    }

    pub fn messages(&self) -> impl Iterator<Item = &Message<V>> {
        self.waiting.iter()
    }
}
