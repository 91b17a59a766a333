//! The log: one record for each accepted event, and four questions that it answers.

use core::error::Error;
use core::fmt;

use crate::answer::Answer;
use crate::event::{Call, Event};
use crate::flat::{self, Cpus, CpusAt, Found, LogRecord};
use crate::refusal::Refusal;

/// Bytes of a log record.
pub const RECORD_BYTES: usize = 51;
/// Records that a log has at most.
pub const MOST_RECORDS: usize = 1024;

/// Why a question or a delivery is refused.
#[derive(Clone, Copy, Debug, PartialEq, Eq, Hash)]
pub struct Flaw {
    /// The refusal.
    pub refusal: Refusal,
    /// The place of the record to blame, counted from 0; 0 where it is the log, the board, the call or the reader.
    pub place: usize,
}

impl Flaw {
    /// What the library says by a number: 0 is no refusal.
    pub(crate) fn check(number: u64, place: usize) -> Result<(), Flaw> {
        Refusal::check(number).map_err(|refusal| Flaw { refusal, place })
    }
}

impl fmt::Display for Flaw {
    fn fmt(&self, f: &mut fmt::Formatter<'_>) -> fmt::Result {
        write!(f, "{}, at {}", self.refusal, self.place)
    }
}

impl Error for Flaw {
    fn source(&self) -> Option<&(dyn Error + 'static)> {
        Some(&self.refusal)
    }
}

/// What is prepared at a place of a log.
#[derive(Clone, Copy, Debug, PartialEq, Eq)]
pub struct Prepared {
    /// The component, if one is.
    pub component: Option<u64>,
    /// How many records were looked at, the deciding one included.
    pub looked: usize,
}

/// Writes the log record of an accepted event at the start of the buffer, and gives the number of bytes written.
///
/// Bytes not written stay. The answer is the one that [`Record::step`](crate::Record::step) gave to the event.
pub fn write_log(buf: &mut [u8], event: &Event, answer: &Answer) -> Result<usize, Refusal> {
    let written = flat::log(buf, (*event).into(), (*answer).into());
    Refusal::check(written.refusal)?;
    Ok(written.bytes)
}

/// The record that the bytes open with, and the unread rest.
pub fn read_record(log: &[u8]) -> Result<(LogRecord, &[u8]), Refusal> {
    let read = flat::read_record(log);
    Refusal::check(read.refusal)?;
    Ok((read.record, log.get(read.bytes..).unwrap_or_default()))
}

/// Which component is prepared at a place of a log: after that many of its records.
pub fn prepared_at(log: &[u8], place: usize) -> Result<Prepared, Flaw> {
    let answer = flat::prepared(log, place);
    Flaw::check(answer.refusal, answer.place)?;
    Ok(Prepared {
        component: component(answer.prepared),
        looked: answer.looked,
    })
}

/// The powered CPUs at a place of a log, by the log alone.
///
/// A log that no agent wrote can switch on a CPU of 64 or more: it is in no set.
pub fn powered_at(log: &[u8], place: usize) -> Result<Cpus, Flaw> {
    cpus(flat::powered(log, place))
}

/// The held CPUs at a place of a log, by the log alone.
pub fn held_at(log: &[u8], place: usize) -> Result<Cpus, Flaw> {
    cpus(flat::held(log, place))
}

/// The component, if any, whose rendezvous activation starts if the call is made at a place of a log; from the packed board
/// description, the log and the call alone.
pub fn starts_at(board: &[u8], log: &[u8], place: usize, call: &Call) -> Result<Option<u64>, Flaw> {
    let answer = flat::starts(board, log, place, *call);
    Flaw::check(answer.refusal, answer.place)?;
    Ok(component(answer.started))
}

fn cpus(t: CpusAt) -> Result<Cpus, Flaw> {
    Flaw::check(t.refusal, t.place)?;
    Ok(t.cpus)
}

fn component(f: Found) -> Option<u64> {
    match f.found {
        1 => Some(f.component),
        _ => None,
    }
}
