//! Answers: what the CPUs are told.

use crate::flat::{self, Cpus, Freed};
use crate::refusal::Refusal;

pub use crate::flat::Registers;

/// The status -k, as X0 has it.
pub const fn status(k: u64) -> u64 {
    k.wrapping_neg()
}

/// The caller's part of an answer.
#[derive(Clone, Copy, Debug, PartialEq, Eq)]
pub enum Caller {
    /// There is no caller: a report or an image.
    Nothing,
    /// The caller goes on with X0 to X3.
    Returned(Registers),
    /// The caller waits for the others.
    Held,
    /// Prime starts, and the caller is held.
    PrimeStarted,
    /// Activation starts, and the caller is held.
    ActivationStarted,
    /// The caller is off.
    Gone,
}

/// The release part of an answer.
#[derive(Clone, Copy, Debug, PartialEq, Eq)]
pub enum Release {
    /// Nobody is released.
    Nobody,
    /// These CPUs go on, each with the same X0 and X1.
    Returned(Freed),
    /// These CPUs resume, each at the entry and with the context id at its place in the two tables.
    Resumed(Cpus),
}

/// The answer to an accepted event.
#[derive(Clone, Copy, Debug, PartialEq, Eq)]
pub struct Answer {
    /// What becomes of the caller.
    pub caller: Caller,
    /// Who else goes on.
    pub release: Release,
}

impl Answer {
    /// An answer from its numbers, or its refusal.
    ///
    /// # Panics
    ///
    /// If no caller's part or no release has this number: the library is another, and nobody knows what a CPU has to do.
    pub fn from_flat(a: flat::Answer) -> Result<Answer, Refusal> {
        Refusal::check(a.refusal)?;
        Ok(Answer {
            caller: caller(a),
            release: release(a),
        })
    }
}

impl From<Answer> for flat::Answer {
    fn from(a: Answer) -> flat::Answer {
        let (caller, returned) = match a.caller {
            Caller::Nothing => (0, Registers::default()),
            Caller::Returned(x) => (1, x),
            Caller::Held => (2, Registers::default()),
            Caller::PrimeStarted => (3, Registers::default()),
            Caller::ActivationStarted => (4, Registers::default()),
            Caller::Gone => (5, Registers::default()),
        };
        let (release, freed) = match a.release {
            Release::Nobody => (0, Freed::default()),
            Release::Returned(freed) => (1, freed),
            Release::Resumed(cpus) => (2, Freed { cpus, x0: 0, x1: 0 }),
        };
        flat::Answer {
            refusal: 0,
            caller,
            returned,
            release,
            freed,
        }
    }
}

fn caller(a: flat::Answer) -> Caller {
    match a.caller {
        0 => Caller::Nothing,
        1 => Caller::Returned(a.returned),
        2 => Caller::Held,
        3 => Caller::PrimeStarted,
        4 => Caller::ActivationStarted,
        5 => Caller::Gone,
        other => panic!("no caller's part has the number {other}"),
    }
}

fn release(a: flat::Answer) -> Release {
    match a.release {
        0 => Release::Nobody,
        1 => Release::Returned(a.freed),
        2 => Release::Resumed(a.freed.cpus),
        other => panic!("no release has the number {other}"),
    }
}
