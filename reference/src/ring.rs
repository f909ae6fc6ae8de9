//! The ring: its parties, its wire, and the seven calls on them.

use crate::message::{Fields, LAST_VIEW, MOST_PARTIES, Message};
use crate::party::{Party, Shape};
use crate::refusal::Refusal;
use crate::value::Value;
use crate::wire::Wire;

#[derive(Clone, Debug)]
pub struct Ring<V> {
    /// None before set-up.
    shape: Option<Shape>,
    /// By party; none for a faulty one.
    parties: Vec<Option<Party<V>>>,
    wire: Wire<V>,
}

#[derive(Clone, Copy, PartialEq, Eq, Debug)]
pub enum State {
    Faulty,
    Open,
    Decided,
}

/// What is told of one party.
#[derive(Clone, Copy, PartialEq, Eq, Debug)]
pub struct Shown<V> {
    pub state: State,
    pub view: i64,
    pub lock: i64,
    /// The decided value, else blank.
    pub value: V,
}

impl<V: Value> Ring<V> {
    /// A ring before its set-up.
    pub fn new(wire: Wire<V>) -> Self {
        Ring { shape: None, parties: Vec::new(), wire }
    }

    pub fn wire(&self) -> &Wire<V> {
        &self.wire
    }

    pub fn shape(&self) -> Option<Shape> {
        self.shape
    }

    /// The honest party with this number.
    pub fn honest(&self, number: i64) -> Option<&Party<V>> {
        let index = usize::try_from(number).ok()?.checked_sub(1)?;
        self.parties.get(index)?.as_ref()
    }

    /// Sets up a ring; bit j - 1 of `faulty` is party j.
    pub fn set_up(&mut self, n: u64, f: u64, faulty: u64, own: &[V]) -> Result<u64, Refusal> {
        let shape = checked_shape(n, f)?;
        if n < 64 && faulty >> n != 0 {
            return Err(Refusal::Party);
        }
        if u64::from(faulty.count_ones()) > f {
            return Err(Refusal::Honesty);
        }
        let own = own.get(..n as usize).ok_or(Refusal::Table)?;
        let is_faulty = |index: usize| faulty >> index & 1 == 1;
        if own.iter().enumerate().any(|(index, value)| !is_faulty(index) && !value.allowed()) {
            return Err(Refusal::OwnValue);
        }
        if self.wire.count() > 0 {
            return Err(Refusal::WireInUse);
        }
        self.ask_room(n * n)?;
        self.shape = Some(shape);
        self.parties.clear();
        for (index, value) in own.iter().enumerate() {
            if is_faulty(index) {
                self.parties.push(None);
                continue;
            }
            let (party, posts) = Party::new(index as i64 + 1, shape, *value);
            self.parties.push(Some(party));
            self.post_all(posts)?;
        }
        Ok(0)
    }

    /// Takes a message out and steps its receiver; answers the number of posts.
    pub fn hand(&mut self, place: u64) -> Result<u64, Refusal> {
        let message = self.step_allowed(place)?;
        self.wire.take_out(place)?;
        self.step(&message)
    }

    /// Steps the receiver of a message that stays in the wire.
    pub fn repeat(&mut self, place: u64) -> Result<u64, Refusal> {
        let message = self.step_allowed(place)?;
        self.step(&message)
    }

    pub fn lose(&mut self, place: u64) -> Result<u64, Refusal> {
        self.wire.take_out(place).map(|_| 0)
    }

    /// Posts a message of a faulty party.
    pub fn send(&mut self, fields: &Fields<V>) -> Result<u64, Refusal> {
        self.ask_party(fields.from)?;
        self.ask_party(fields.to)?;
        if self.honest(fields.from).is_some() {
            return Err(Refusal::Honesty);
        }
        let message = Message::from_fields(fields).ok_or(Refusal::Field)?;
        self.wire.post(message).map(|()| 1)
    }

    /// A party's view has lasted too long; answers the number of posts.
    pub fn timer(&mut self, party: u64) -> Result<u64, Refusal> {
        let number = i64::try_from(party).map_err(|_| Refusal::Party)?;
        self.ask_party(number)?;
        let record = self.honest(number).ok_or(Refusal::Honesty)?.record();
        if record.decision.is_some() {
            return Err(Refusal::Decided);
        }
        if record.view == LAST_VIEW {
            return Err(Refusal::LastView);
        }
        self.ask_room(self.step_room())?;
        let posts = match &mut self.parties[number as usize - 1] {
            Some(party) => party.time_out(),
            None => Vec::new(),
        };
        self.post_all(posts)
    }

    pub fn show(&self, party: u64) -> Result<Shown<V>, Refusal> {
        let number = i64::try_from(party).map_err(|_| Refusal::Party)?;
        self.ask_party(number)?;
        let Some(party) = self.honest(number) else {
            return Ok(Shown { state: State::Faulty, view: 0, lock: 0, value: V::blank() });
        };
        let record = party.record();
        let state = if record.decision.is_some() { State::Decided } else { State::Open };
        let value = record.decision.unwrap_or(V::blank());
        Ok(Shown { state, view: record.view, lock: record.lock.view, value })
    }

    /// The message at a place, if its receiver may be stepped.
    fn step_allowed(&self, place: u64) -> Result<Message<V>, Refusal> {
        let message = self.wire.look(place)?;
        self.ask_party(message.from)?;
        self.ask_party(message.to)?;
        self.ask_room(self.step_room())?;
        Ok(message)
    }

    fn step(&mut self, message: &Message<V>) -> Result<u64, Refusal> {
        match &mut self.parties[message.to as usize - 1] {
            Some(party) => {
                let posts = party.hear(message);
                self.post_all(posts)
            }
            None => Ok(0),
        }
    }

    /// The room that is asked for before a party's step; no step posts more.
    fn step_room(&self) -> u64 {
        3 * self.size() as u64 + 8
    }

    /// The number of parties, 0 before set-up.
    fn size(&self) -> i64 {
        self.shape.map_or(0, |shape| shape.parties)
    }

    fn ask_party(&self, party: i64) -> Result<(), Refusal> {
        if (1..=self.size()).contains(&party) { Ok(()) } else { Err(Refusal::Party) }
    }

    fn ask_room(&self, room: u64) -> Result<(), Refusal> {
        if self.wire.room() as u64 >= room { Ok(()) } else { Err(Refusal::Room) }
    }

    fn post_all(&mut self, posts: Vec<Message<V>>) -> Result<u64, Refusal> {
        let count = posts.len() as u64;
        for message in posts {
            self.wire.post(message)?;
        }
        Ok(count)
    }
}

/// n from 1 to 64, and 3 * f below n.
fn checked_shape(n: u64, f: u64) -> Result<Shape, Refusal> {
    let within = (1..=MOST_PARTIES as u64).contains(&n) && 3 * u128::from(f) < u128::from(n);
    if within { Ok(Shape { parties: n as i64, faults: f as i64 }) } else { Err(Refusal::Shape) }
}
