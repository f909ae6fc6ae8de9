//! The kinds of value that a ring can agree on.

use std::fmt::{Debug, Display, Formatter, Result as FmtResult};

/// A kind of value: a fixed number of bytes, and which values may be agreed on.
pub trait Value: Copy + Eq + Debug + Display {
    /// The number of bytes of every value of this kind.
    const WIDTH: usize;
    /// The word that names the kind in a run sheet.
    const NAME: &'static str;

    /// The value whose bytes are all zero; it is never allowed.
    fn blank() -> Self;
    fn allowed(&self) -> bool;
    /// The value's bytes, exactly `WIDTH` of them.
    fn to_bytes(&self) -> Vec<u8>;
    /// The value with these bytes, if there is one.
    fn from_bytes(bytes: &[u8]) -> Option<Self>;
    /// The value that a run sheet writes so, if there is one.
    fn from_text(text: &[u8]) -> Option<Self>;
}

/// A number as run sheets write it: base ten, below 2^64, no leading zero.
pub fn number(text: &[u8]) -> Option<u64> {
    if text.is_empty() || (text.len() > 1 && text[0] == b'0') {
        return None;
    }
    text.iter().try_fold(0u64, |sum, &digit| {
        if !digit.is_ascii_digit() {
            return None;
        }
        sum.checked_mul(10)?.checked_add(u64::from(digit - b'0'))
    })
}

/// A block of stamp numbers, drawn for one party.
#[derive(Clone, Copy, PartialEq, Eq, Debug)]
pub struct Block {
    pub first: u64,
    pub count: u32,
    pub party: u16,
}

impl Value for Block {
    const WIDTH: usize = 14;
    const NAME: &'static str = "block";

    fn blank() -> Self {
        Block { first: 0, count: 0, party: 0 }
    }

    fn allowed(&self) -> bool {
        (1..=1_000_000).contains(&self.count)
            && self.first.checked_add(u64::from(self.count) - 1).is_some()
            && (1..=64).contains(&self.party)
    }

    fn to_bytes(&self) -> Vec<u8> {
        let mut bytes = self.first.to_be_bytes().to_vec();
        bytes.extend(self.count.to_be_bytes());
        bytes.extend(self.party.to_be_bytes());
        bytes
    }

    fn from_bytes(bytes: &[u8]) -> Option<Self> {
        if bytes.len() != Self::WIDTH {
            return None;
        }
        Some(Block {
            first: u64::from_be_bytes(bytes[..8].try_into().ok()?),
            count: u32::from_be_bytes(bytes[8..12].try_into().ok()?),
            party: u16::from_be_bytes(bytes[12..].try_into().ok()?),
        })
    }

    fn from_text(text: &[u8]) -> Option<Self> {
        let numbers: Option<Vec<u64>> = text.split(|&byte| byte == b',').map(number).collect();
        match numbers?[..] {
            [first, count, party] => {
                Some(Block { first, count: count.try_into().ok()?, party: party.try_into().ok()? })
            }
            _ => None,
        }
    }
}

impl Display for Block {
    fn fmt(&self, out: &mut Formatter) -> FmtResult {
        write!(out, "{},{},{}", self.first, self.count, self.party)
    }
}

/// The number of a pace, 1 to 600.
#[derive(Clone, Copy, PartialEq, Eq, Debug)]
pub struct Pace(u16);

/// An order to all presses of a hall.
#[derive(Clone, Copy, PartialEq, Eq, Debug)]
pub enum Order {
    Blank,
    Hold,
    Resume,
    Pace(Pace),
}

impl Order {
    /// The order to keep this pace, if it is one.
    pub fn pace(number: u64) -> Option<Order> {
        let number = u16::try_from(number).ok()?;
        (1..=600).contains(&number).then_some(Order::Pace(Pace(number)))
    }
}

impl Value for Order {
    const WIDTH: usize = 3;
    const NAME: &'static str = "order";

    fn blank() -> Self {
        Order::Blank
    }

    fn allowed(&self) -> bool {
        *self != Order::Blank
    }

    fn to_bytes(&self) -> Vec<u8> {
        let (tag, number) = match self {
            Order::Blank => (0, 0),
            Order::Hold => (1, 0),
            Order::Resume => (2, 0),
            Order::Pace(Pace(number)) => (3, *number),
        };
        let [high, low] = number.to_be_bytes();
        vec![tag, high, low]
    }

    fn from_bytes(bytes: &[u8]) -> Option<Self> {
        match *bytes {
            [0, 0, 0] => Some(Order::Blank),
            [1, 0, 0] => Some(Order::Hold),
            [2, 0, 0] => Some(Order::Resume),
            [3, high, low] => Order::pace(u64::from(u16::from_be_bytes([high, low]))),
            _ => None,
        }
    }

    fn from_text(text: &[u8]) -> Option<Self> {
        match text {
            b"hold" => Some(Order::Hold),
            b"resume" => Some(Order::Resume),
            _ => Order::pace(number(text.strip_prefix(b"pace,")?)?),
        }
    }
}

impl Display for Order {
    fn fmt(&self, out: &mut Formatter) -> FmtResult {
        match self {
            Order::Blank => write!(out, "blank"),
            Order::Hold => write!(out, "hold"),
            Order::Resume => write!(out, "resume"),
            Order::Pace(Pace(number)) => write!(out, "pace,{number}"),
        }
    }
}
