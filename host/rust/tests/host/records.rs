//! The records of a log from anything that can be read.

use std::cell::Cell;
use std::collections::VecDeque;
use std::error::Error as _;
use std::io::{self, ErrorKind, Read};
use std::rc::Rc;

use crate::lead::{log, one_by_one};
use lfa::{
    Error, Flaw, LogRecord, Records, Refusal, Standing, MOST_KEPT, MOST_RECORDS, RECORD_BYTES,
};

/// What one read gives.
type Reads = VecDeque<Result<Vec<u8>, ErrorKind>>;

/// A source that gives these, each in a read, and then nothing; it counts its reads.
struct Source {
    reads: Reads,
    count: Rc<Cell<usize>>,
}

impl Read for Source {
    fn read(&mut self, buf: &mut [u8]) -> io::Result<usize> {
        self.count.set(self.count.get() + 1);
        match self.reads.pop_front() {
            Some(Ok(mut bytes)) => {
                let rest = bytes.split_off(bytes.len().min(buf.len()));
                if !rest.is_empty() {
                    self.reads.push_front(Ok(rest));
                }
                buf[..bytes.len()].copy_from_slice(&bytes);
                Ok(bytes.len())
            }
            Some(Err(kind)) => Err(kind.into()),
            None => Ok(0),
        }
    }
}

/// The records of these reads, and the count of those that were made.
fn records_of(
    reads: impl IntoIterator<Item = Result<Vec<u8>, ErrorKind>>,
) -> (Records<Source>, Rc<Cell<usize>>) {
    let count = Rc::new(Cell::new(0));
    let reads = reads.into_iter().collect();
    let source = Source {
        reads,
        count: count.clone(),
    };
    (Records::of(source), count)
}

/// A log in reads of this length.
fn chunks(log: &[u8], length: usize) -> impl Iterator<Item = Result<Vec<u8>, ErrorKind>> + '_ {
    log.chunks(length).map(|bytes| Ok(bytes.to_vec()))
}

/// All that comes, but no more than any log has; an error of reading by its kind.
fn all(records: &mut Records<Source>) -> Vec<Result<LogRecord, Result<ErrorKind, Flaw>>> {
    let kind = |error| match error {
        Error::Io(error) => Ok(error.kind()),
        Error::Refused(flaw) => Err(flaw),
    };
    let most = records.take(2 * MOST_RECORDS);
    most.map(|record| record.map_err(kind)).collect()
}

/// The records of a good log, as they come.
fn good(log: &[u8]) -> Vec<Result<LogRecord, Result<ErrorKind, Flaw>>> {
    one_by_one(log).into_iter().map(Ok).collect()
}

#[test]
fn reads_of_any_length_give_the_same() {
    let log = log();
    for length in [1, 2, 50, 51, 52, 102, 103, log.len()] {
        let (mut records, _) = records_of(chunks(&log, length));
        assert_eq!(all(&mut records), good(&log), "reads of {length}");
        assert_eq!(records.lead().standing(), Standing::Closed);
    }
}

#[test]
fn the_longest_log_in_reads_longer_than_the_buffer() {
    let log = log()[..RECORD_BYTES].repeat(MOST_RECORDS);
    for length in [4095, 4096, 4097, log.len()] {
        let (mut records, _) = records_of(chunks(&log, length));
        assert_eq!(all(&mut records), good(&log), "reads of {length}");
    }
}

/// A record comes without a read that it does not need.
#[test]
fn nothing_is_read_ahead() {
    let log = log();
    for length in 1..=log.len() {
        let (records, count) = records_of(chunks(&log, length));
        for (place, record) in records.enumerate() {
            record.expect("a good log");
            let needed = (RECORD_BYTES * (place + 1)).div_ceil(length);
            assert_eq!(count.get(), needed, "reads of {length}");
        }
        let needed = log.len().div_ceil(length) + 1;
        assert_eq!(count.get(), needed, "reads of {length}");
    }
}

#[test]
fn an_interrupted_read_is_made_again() {
    let log = log();
    let each = chunks(&log, 20).flat_map(|read| [Err(ErrorKind::Interrupted), read]);
    let end = [Err(ErrorKind::Interrupted), Err(ErrorKind::Interrupted)];
    let (mut records, _) = records_of(each.chain(end));
    assert_eq!(all(&mut records), good(&log));
}

/// A lead that has nothing yet says so, and a later call goes on.
#[test]
fn a_source_that_fails_loses_nothing() {
    let log = log();
    for length in [1, 50, 51, 52, 120] {
        let fails = [Err(ErrorKind::WouldBlock), Err(ErrorKind::TimedOut)];
        let each = chunks(&log, length).flat_map(|read| [fails.clone(), [read, fails[0].clone()]]);
        let (mut records, _) = records_of(each.flatten());
        let (given, failed): (Vec<_>, Vec<_>) =
            all(&mut records).into_iter().partition(Result::is_ok);
        assert_eq!(given, good(&log), "reads of {length}");
        assert_eq!(failed.len(), 3 * log.len().div_ceil(length));
    }
}

/// What comes is this refusal after the good records before it, and then nothing.
#[track_caller]
fn refused(log: &[u8], refusal: Refusal, place: usize, before: &[u8]) {
    let flaw = Flaw { refusal, place };
    for length in [1, 50, 51, 52, log.len()] {
        let (mut records, count) = records_of(chunks(log, length));
        let mut expected = good(before);
        expected.push(Err(Err(flaw)));
        assert_eq!(all(&mut records), expected, "reads of {length}");
        assert_eq!(records.lead().standing(), Standing::Refused(flaw));
        let reads = count.get();
        assert!(records.next().is_none() && records.next().is_none());
        assert_eq!(count.get(), reads, "reads of {length}");
    }
}

#[test]
fn a_damaged_log_is_refused_at_its_record() {
    for place in 0..6 {
        let start = RECORD_BYTES * place;
        let mut log = log();
        let before = log[..start].to_vec();
        log[start + 2] |= 1;
        refused(&log, Refusal::FIELD, place, &before);
        log[start] |= 0xE0;
        refused(&log, Refusal::UNKNOWN, place, &before);
        let short = &log[..start + 1 + 10 * place % MOST_KEPT];
        refused(short, Refusal::LOG_TOO_SHORT, place, &before);
    }
}

#[test]
fn a_byte_past_the_most_records_is_refused() {
    let full = log()[..RECORD_BYTES].repeat(MOST_RECORDS);
    let longer = [&full[..], &[0]].concat();
    refused(&longer, Refusal::LOG, 0, &full);
}

#[test]
fn the_end_is_the_end() {
    for log in [Vec::new(), log()] {
        let more = [Ok(Vec::new()), Ok(log.clone())];
        let reads = [Ok(log.clone())].into_iter().filter(|_| !log.is_empty());
        let (mut records, count) = records_of(reads.chain(more));
        assert_eq!(all(&mut records), good(&log));
        let reads = count.get();
        assert!(records.next().is_none());
        assert_eq!(count.get(), reads);
    }
}

#[test]
fn errors_say_what_happened() {
    let log = [0; RECORD_BYTES];
    let (mut records, _) = records_of([Err(ErrorKind::BrokenPipe), Ok(log.to_vec())]);
    let mut said = || {
        let error = records.next().expect("an error").expect_err("an error");
        let source = error.source().map(ToString::to_string);
        (error.to_string(), source)
    };
    let pipe = io::Error::from(ErrorKind::BrokenPipe).to_string();
    assert_eq!(said(), (pipe, None));
    let unknown = "refused 32: kind, outcome or code unknown".to_string();
    assert_eq!(said(), (format!("{unknown}, at 0"), Some(unknown)));
}
