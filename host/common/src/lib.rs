//! What the tests of the wrapper, of the peer and of both beside each other
//! share, and the race: boards, events, a host that tells both sides the same,
//! and how the peer's types and the library's become each other.

pub mod boards;
pub mod convert;
pub mod dice;
pub mod events;
pub mod generate;
pub mod host;
pub mod pair;
pub mod walk;
