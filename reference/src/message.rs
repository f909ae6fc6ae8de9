//! Messages: what parties say to one another, and the plain fields that carry it.

use crate::value::Value;

pub const LAST_VIEW: i64 = 2_000_000_000;
/// From and to of a message, whatever the size of the ring.
pub const MOST_PARTIES: i64 = 64;

/// The rounds of votes in a view, in the order in which they follow one another.
#[derive(Clone, Copy, PartialEq, Eq, PartialOrd, Ord, Debug)]
pub enum Round {
    Echo,
    Key1,
    Key2,
    Key3,
    Lock,
}

pub const ROUNDS: [Round; 5] = [Round::Echo, Round::Key1, Round::Key2, Round::Key3, Round::Lock];

/// The key3 and key2 that a party tells the primary of a view.
#[derive(Clone, Copy, PartialEq, Eq, Debug)]
pub struct Suggest<V> {
    pub key3: i64,
    pub value3: V,
    pub key2: i64,
    pub value2: V,
    pub previous2: i64,
}

/// The key1 that a party tells everyone at the start of a view.
#[derive(Clone, Copy, PartialEq, Eq, Debug)]
pub struct Proof<V> {
    pub key1: i64,
    pub value1: V,
    pub previous1: i64,
}

/// What one message says.
#[derive(Clone, Copy, PartialEq, Eq, Debug)]
pub enum Content<V> {
    Request { view: i64 },
    Suggest { view: i64, suggest: Suggest<V> },
    Proof { view: i64, proof: Proof<V> },
    Propose { view: i64, key: i64, value: V },
    Vote { round: Round, view: i64, value: V },
    Done { value: V },
    Abort { view: i64 },
}

/// A message whose fields are all in range.
#[derive(Clone, Copy, PartialEq, Eq, Debug)]
pub struct Message<V> {
    pub from: i64,
    pub to: i64,
    pub content: Content<V>,
}

/// The plain fields of a message; any numbers may stand in them.
#[derive(Clone, Copy, PartialEq, Eq, Debug)]
pub struct Fields<V> {
    pub kind: i64,
    pub from: i64,
    pub to: i64,
    pub view: i64,
    pub key: i64,
    pub value: V,
    pub second_key: i64,
    pub second_value: V,
    pub previous: i64,
}

impl<V: Value> Content<V> {
    /// The kind number, 1 to 11.
    pub fn kind(&self) -> i64 {
        match self {
            Content::Request { .. } => 1,
            Content::Suggest { .. } => 2,
            Content::Proof { .. } => 3,
            Content::Propose { .. } => 4,
            Content::Vote { round, .. } => 5 + *round as i64,
            Content::Done { .. } => 10,
            Content::Abort { .. } => 11,
        }
    }

    /// The view that the message names; a done names none and has 0.
    pub fn view(&self) -> i64 {
        match *self {
            Content::Request { view }
            | Content::Suggest { view, .. }
            | Content::Proof { view, .. }
            | Content::Propose { view, .. }
            | Content::Vote { view, .. }
            | Content::Abort { view } => view,
            Content::Done { .. } => 0,
        }
    }
}

impl<V: Value> Message<V> {
    /// The fields of the message; those that its kind does not use are 0 or blank.
    pub fn fields(&self) -> Fields<V> {
        let mut fields = Fields {
            kind: self.content.kind(),
            from: self.from,
            to: self.to,
            view: self.content.view(),
            key: 0,
            value: V::blank(),
            second_key: 0,
            second_value: V::blank(),
            previous: 0,
        };
        match self.content {
            Content::Request { .. } | Content::Abort { .. } => {}
            Content::Suggest { suggest, .. } => {
                fields.key = suggest.key3;
                fields.value = suggest.value3;
                fields.second_key = suggest.key2;
                fields.second_value = suggest.value2;
                fields.previous = suggest.previous2;
            }
            Content::Proof { proof, .. } => {
                fields.key = proof.key1;
                fields.value = proof.value1;
                fields.previous = proof.previous1;
            }
            Content::Propose { key, value, .. } => {
                fields.key = key;
                fields.value = value;
            }
            Content::Vote { value, .. } | Content::Done { value } => fields.value = value,
        }
        fields
    }

    /// The message with these fields, unless one is out of range or filled without use.
    pub fn from_fields(fields: &Fields<V>) -> Option<Self> {
        let parties = 1..=MOST_PARTIES;
        if !parties.contains(&fields.from) || !parties.contains(&fields.to) {
            return None;
        }
        let content = content(fields)?;
        let message = Message { from: fields.from, to: fields.to, content };
        (used_fields_in_range(&content) && message.fields() == *fields).then_some(message)
    }
}

/// What the fields that the kind uses say; none for a number that is no kind.
fn content<V: Value>(fields: &Fields<V>) -> Option<Content<V>> {
    let Fields { view, key, value, .. } = *fields;
    Some(match fields.kind {
        1 => Content::Request { view },
        2 => Content::Suggest {
            view,
            suggest: Suggest {
                key3: key,
                value3: value,
                key2: fields.second_key,
                value2: fields.second_value,
                previous2: fields.previous,
            },
        },
        3 => Content::Proof {
            view,
            proof: Proof { key1: key, value1: value, previous1: fields.previous },
        },
        4 => Content::Propose { view, key, value },
        kind @ 5..=9 => Content::Vote { round: ROUNDS[kind as usize - 5], view, value },
        10 => Content::Done { value },
        11 => Content::Abort { view },
        _ => return None,
    })
}

fn used_fields_in_range<V: Value>(content: &Content<V>) -> bool {
    let key_in_range = |key: i64| (0..=LAST_VIEW).contains(&key);
    let previous_in_range = |previous: i64| (-1..=LAST_VIEW).contains(&previous);
    let view_in_range = match *content {
        Content::Done { .. } => true,
        Content::Abort { view } => (1..LAST_VIEW).contains(&view),
        _ => (1..=LAST_VIEW).contains(&content.view()),
    };
    view_in_range
        && match *content {
            Content::Suggest { suggest, .. } => {
                key_in_range(suggest.key3)
                    && key_in_range(suggest.key2)
                    && previous_in_range(suggest.previous2)
            }
            Content::Proof { proof, .. } => {
                key_in_range(proof.key1) && previous_in_range(proof.previous1)
            }
            Content::Propose { key, .. } => key_in_range(key),
            _ => true,
        }
}
