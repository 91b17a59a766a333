//! Why an ACTIVATE is refused, held or started, from the log.

use crate::flat::{self, Cpus};
use crate::log::Flaw;

pub use crate::flat::Activate;

/// The first of the rules for ACTIVATE that applies.
#[derive(Clone, Copy, Debug, PartialEq, Eq)]
pub enum Reason {
    /// -7: nothing is prepared.
    NothingPrepared,
    /// -7: this component is being prepared.
    BeingPrepared(u64),
    /// -7: this component is half prepared.
    HalfPrepared(u64),
    /// -7: the board is dead.
    BoardDead,
    /// -8: X1 is not this component, which the state is about.
    OtherComponent(u64),
    /// -8: flags above bit 0.
    OtherFlags,
    /// -8: skip on a component that is not optional.
    NotOptional,
    /// -8: skip while gathering.
    SkipInGathering,
    /// -8: no skip in an activation without rendezvous.
    NoSkip,
    /// -10: X3 is no good entry.
    BadEntry,
    /// -2: this component is being activated without rendezvous.
    BeingActivated(u64),
    /// Activation starts, without rendezvous.
    Skipped,
    /// The caller is held, and these powered CPUs are still missing.
    Held(Cpus),
    /// Activation starts: all powered CPUs are present.
    AllPresent,
    /// -7: this component's preparation was cancelled while it ran.
    Withdrawn(u64),
}

impl Reason {
    /// A reason from its numbers, or what was refused.
    ///
    /// # Panics
    ///
    /// If no reason has this number: the library is another.
    pub fn from_flat(w: flat::Why) -> Result<Reason, Flaw> {
        Flaw::check(w.refusal, w.place)?;
        Ok(match w.reason {
            1 => Reason::NothingPrepared,
            2 => Reason::BeingPrepared(w.component),
            3 => Reason::HalfPrepared(w.component),
            4 => Reason::BoardDead,
            5 => Reason::OtherComponent(w.component),
            6 => Reason::OtherFlags,
            7 => Reason::NotOptional,
            8 => Reason::SkipInGathering,
            9 => Reason::NoSkip,
            10 => Reason::BadEntry,
            11 => Reason::BeingActivated(w.component),
            12 => Reason::Skipped,
            13 => Reason::Held(w.missing),
            14 => Reason::AllPresent,
            15 => Reason::Withdrawn(w.component),
            other => panic!("no reason has the number {other}"),
        })
    }
}

/// Why an ACTIVATE is refused, held or started if it is made at a place of a log: after that many of its records. From the
/// packed board description, a log from its fresh board and the call alone.
///
/// A record before the place that is not what the rules give there is refused: [`Refusal::DEPARTS`](crate::Refusal::DEPARTS).
pub fn why_at(board: &[u8], log: &[u8], place: usize, ask: &Activate) -> Result<Reason, Flaw> {
    Reason::from_flat(flat::why(board, log, place, *ask))
}
