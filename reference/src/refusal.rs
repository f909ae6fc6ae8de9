//! Why a call is refused, and the number that it answers then.

#[derive(Clone, Copy, PartialEq, Eq, Debug)]
pub enum Refusal {
    /// n or f outside the limits.
    Shape,
    /// A party that is not in the ring.
    Party,
    /// More than f faulty; send from an honest party; timer of a faulty one.
    Honesty,
    /// A table or buffer that is too short.
    Table,
    /// An honest party's own value is not allowed.
    OwnValue,
    /// A field out of range, or an unused one that is not empty.
    Field,
    /// Bytes that are no frame.
    Frame,
    /// No message at that place.
    Place,
    /// Too little room in the wire.
    Room,
    /// Set-up over a wire that is not empty.
    WireInUse,
    /// Timer of a party that has decided.
    Decided,
    /// Timer in the last view.
    LastView,
}

/// The number of an unreadable sheet; the sheet's own fault also has a line.
pub const UNREADABLE_SHEET: u8 = 8;

impl Refusal {
    pub fn number(self) -> u8 {
        match self {
            Refusal::Shape => 1,
            Refusal::Party => 2,
            Refusal::Honesty => 3,
            Refusal::Table => 4,
            Refusal::OwnValue => 5,
            Refusal::Field => 6,
            Refusal::Frame => 7,
            Refusal::Place => 9,
            Refusal::Room => 10,
            Refusal::WireInUse => 11,
            Refusal::Decided => 12,
            Refusal::LastView => 13,
        }
    }
}
