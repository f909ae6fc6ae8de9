//! An independent stamp ring: n parties agree on one value though up to f lie.
//!
//! It is written from the published protocol and the rules set out in `docs/RULES.md`, in another
//! manner than the proved engine: a party keeps sets of what it heard in its view, and
//! applies every rule whose condition holds in those sets until none is left. Runs of both
//! programs are then compared.

pub mod frame;
pub mod generate;
pub mod liar;
pub mod message;
pub mod party;
pub mod random;
pub mod refusal;
pub mod ring;
pub mod run;
pub mod sheet;
pub mod shift;
pub mod value;
pub mod wire;
