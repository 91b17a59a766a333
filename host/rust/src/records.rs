//! The records of a log that is read from anything, as its bytes arrive.

use std::fmt;
use std::io::{self, ErrorKind, Read};
use std::iter::FusedIterator;
use std::ops::Range;
use std::vec;
use std::vec::Vec;

use crate::flat::LogRecord;
use crate::lead::{Lead, Standing};
use crate::log::Flaw;

/// Bytes that one read asks for.
const BUFFER_BYTES: usize = 4096;

/// Why there is no next record.
#[derive(Debug)]
pub enum Error {
    /// The bytes can't be read now. The next record may come later: nothing is lost.
    Io(io::Error),
    /// The log is refused: no record comes any more.
    Refused(Flaw),
}

impl fmt::Display for Error {
    fn fmt(&self, f: &mut fmt::Formatter<'_>) -> fmt::Result {
        match self {
            Error::Io(error) => error.fmt(f),
            Error::Refused(flaw) => flaw.fmt(f),
        }
    }
}

impl std::error::Error for Error {
    fn source(&self) -> Option<&(dyn std::error::Error + 'static)> {
        match self {
            Error::Io(error) => error.source(),
            Error::Refused(flaw) => flaw.source(),
        }
    }
}

/// The records of a log, each as soon as its last byte was read.
///
/// It reads once where it has no byte left, and gives every record of those bytes before it reads again. A read of no bytes is the
/// end of the log, as everywhere in `std`; a source that has nothing yet fails instead, with [`ErrorKind::WouldBlock`] or
/// [`ErrorKind::TimedOut`] say, and a later call goes on. A lead whose reads of no bytes mean that nothing has come yet is for a
/// [`Lead`], to which an empty delivery is nothing. After the end and after a refusal it gives `None`, and reads no more.
///
/// # Panics
///
/// At a source that says it read more bytes than there was room for.
///
/// ```
/// use lfa::{Error, LogRecord, Records, Refusal};
///
/// let lead: &[u8] = &[0; 50];
/// let records: Result<Vec<LogRecord>, Error> = Records::of(lead).collect();
/// assert!(matches!(records, Err(Error::Refused(flaw)) if flaw.refusal == Refusal::LOG_TOO_SHORT));
/// ```
#[derive(Debug)]
pub struct Records<R> {
    source: R,
    lead: Lead,
    buffer: Vec<u8>,
    /// Where in the buffer the bytes stand that were read and not taken.
    unread: Range<usize>,
}

impl<R: Read> Records<R> {
    /// The records of the log that the source has from here on.
    pub fn of(source: R) -> Records<R> {
        Records {
            source,
            lead: Lead::open(),
            buffer: vec![0; BUFFER_BYTES],
            unread: 0..0,
        }
    }

    /// The reader, as the records that were given leave it.
    pub fn lead(&self) -> &Lead {
        &self.lead
    }

    /// Takes what was read, up to the end of a record.
    fn take(&mut self) -> Result<Option<LogRecord>, Flaw> {
        let taken = self.lead.take(&self.buffer[self.unread.clone()]);
        self.lead = taken.lead;
        self.unread.start = self.unread.end - taken.rest.len();
        taken.given
    }

    /// Reads once, until it is not interrupted.
    fn read(&mut self) -> io::Result<usize> {
        loop {
            match self.source.read(&mut self.buffer) {
                Err(error) if error.kind() == ErrorKind::Interrupted => {}
                read => return read,
            }
        }
    }

    /// The next record; none at the end of the log.
    fn advance(&mut self) -> Result<Option<LogRecord>, Error> {
        loop {
            if self.unread.is_empty() {
                self.unread = 0..self.read().map_err(Error::Io)?;
            }
            if self.unread.is_empty() {
                return self.end();
            }
            if let Some(record) = self.take().map_err(Error::Refused)? {
                return Ok(Some(record));
            }
        }
    }

    /// The log is at its end.
    fn end(&mut self) -> Result<Option<LogRecord>, Error> {
        let (lead, closed) = self.lead.close();
        self.lead = lead;
        closed.map(|_| None).map_err(Error::Refused)
    }
}

impl<R: Read> Iterator for Records<R> {
    type Item = Result<LogRecord, Error>;

    fn next(&mut self) -> Option<Self::Item> {
        match self.lead.standing() {
            Standing::Open => self.advance().transpose(),
            Standing::Closed | Standing::Refused(_) => None,
        }
    }
}

impl<R: Read> FusedIterator for Records<R> {}
