//! A log that arrives in deliveries, whatever bytes each has.

use crate::flat::{self, LogRecord};
use crate::log::Flaw;
use crate::refusal::Refusal;

/// Where a reader of deliveries stands.
#[derive(Clone, Copy, Debug, PartialEq, Eq)]
pub enum Standing {
    /// It takes deliveries.
    Open,
    /// The log has ended, and all of it was read.
    Closed,
    /// The log is refused with this, and whatever comes is too.
    Refused(Flaw),
}

/// A reader of a log that arrives in deliveries, by value: each call gives the one to go on with. It keeps at most 50 bytes.
///
/// It is one that deliveries can lead to: there is no way to make another.
#[derive(Clone, Copy, Debug, PartialEq, Eq)]
pub struct Lead(flat::Lead);

/// The answer to a delivery.
#[derive(Clone, Copy, Debug, PartialEq, Eq)]
pub struct Taken<'d> {
    /// The reader to go on with.
    pub lead: Lead,
    /// The record that the delivery completes, if it does; or what is refused.
    pub given: Result<Option<LogRecord>, Flaw>,
    /// What is left of the delivery, to be taken next. If refused, that is all of it.
    pub rest: &'d [u8],
}

impl Lead {
    /// A reader before the first delivery.
    pub fn open() -> Lead {
        Lead(flat::lead_open())
    }

    /// A reader that was kept as numbers; refused with 37 if no reader has them.
    pub fn from_flat(lead: flat::Lead) -> Result<Lead, Refusal> {
        // An empty delivery is nothing to a reader, or refused with what it has: only 37 says that it is none.
        match Refusal::check(flat::lead_take(lead, &[]).refusal) {
            Err(refusal) if refusal == Refusal::NO_READER => Err(refusal),
            _ => Ok(Lead(lead)),
        }
    }

    /// The reader as numbers, to keep.
    pub fn as_flat(&self) -> &flat::Lead {
        &self.0
    }

    /// Takes a delivery up to the end of a record, or all of it. An empty one is nothing, unless the reader is at its end.
    pub fn take(self, delivery: &[u8]) -> Taken<'_> {
        let taken = flat::lead_take(self.0, delivery);
        let refused = Flaw::check(taken.refusal, taken.place);
        Taken {
            lead: Lead(taken.lead),
            given: refused.map(|()| (taken.given == 1).then_some(taken.record)),
            rest: delivery.get(taken.used..).unwrap_or_default(),
        }
    }

    /// The log has ended: the number of its records, or what is refused.
    pub fn close(self) -> (Lead, Result<usize, Flaw>) {
        let closed = flat::lead_close(self.0);
        let refused = Flaw::check(closed.refusal, closed.place);
        (Lead(closed.lead), refused.map(|()| closed.records))
    }

    /// Where it stands.
    ///
    /// # Panics
    ///
    /// If no standing has its number: the library, which gave it or takes it, is another.
    pub fn standing(&self) -> Standing {
        let refused = Flaw::check(self.0.refusal, self.0.place);
        match (self.0.standing, refused) {
            (0, _) => Standing::Open,
            (1, _) => Standing::Closed,
            (2, Err(flaw)) => Standing::Refused(flaw),
            (other, _) => panic!("no standing has the number {other}"),
        }
    }

    /// How many records were given.
    pub fn records(&self) -> usize {
        self.0.records
    }

    /// The bytes that are kept: the first ones of the next record.
    pub fn kept(&self) -> &[u8] {
        self.0.kept.get(..self.0.length).unwrap_or_default()
    }
}

impl Default for Lead {
    fn default() -> Lead {
        Lead::open()
    }
}
