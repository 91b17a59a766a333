//! What the agent answers to an accepted event.

use crate::CpuSet;

/// The answer to an accepted event.
#[derive(Clone, Copy, PartialEq, Eq, Debug)]
pub struct Answer {
    /// What happens to the calling CPU.
    pub caller: Caller,
    /// What happens to CPUs that were waiting.
    pub release: Release,
}

/// The caller's part of an answer.
#[derive(Clone, Copy, PartialEq, Eq, Debug)]
pub enum Caller {
    /// There is no caller: a report or an image.
    Nothing,
    /// The call returns with X0 to X3.
    Returned([u64; 4]),
    /// The caller is held until the others arrive.
    Held,
    /// Priming starts and the caller is held.
    PrimeStarted,
    /// Activation starts and the caller is held.
    ActivationStarted,
    /// The caller is powered off.
    Gone,
}

/// The release part of an answer.
#[derive(Clone, Copy, PartialEq, Eq, Debug)]
pub enum Release {
    /// Nobody is released.
    Nobody,
    /// These CPUs return from their calls.
    Returned {
        /// The released CPUs.
        cpus: CpuSet,
        /// X0 of each.
        x0: u64,
        /// X1 of each.
        x1: u64,
    },
    /// These CPUs resume at the addresses in the lent tables.
    Resumed(CpuSet),
}

impl Answer {
    /// The answer to an accepted event that needs none.
    pub(crate) const NOTHING: Self = Self {
        caller: Caller::Nothing,
        release: Release::Nobody,
    };

    /// Only a caller's part.
    #[inline]
    pub(crate) const fn caller(caller: Caller) -> Self {
        Self {
            caller,
            release: Release::Nobody,
        }
    }

    /// Only a release part.
    #[inline]
    pub(crate) const fn release(release: Release) -> Self {
        Self {
            caller: Caller::Nothing,
            release,
        }
    }

    /// A call that returns with X0 alone.
    #[inline]
    pub(crate) const fn returned(x0: u64) -> Self {
        Self::caller(Caller::Returned([x0, 0, 0, 0]))
    }
}

/// The register value of status -k.
#[inline]
pub const fn status(k: u64) -> u64 {
    k.wrapping_neg()
}
