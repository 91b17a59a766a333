//! Log records by their fields: written by the peer, read on both sides.

use common::generate::{ACTIVATE_CODES, PRIME_CODES};
use common::pair::read_record;
use peer::*;

fn read(bytes: &[u8]) -> Result<LogRecord, Refusal> {
    read_record(&"a record", bytes)
}

fn number<T: std::fmt::Debug>(result: Result<T, Refusal>) -> u64 {
    result.unwrap_err().number()
}

fn good_call(outcome: u64) -> LogRecord {
    let given = if outcome == 1 { u64::MAX } else { 0 };
    LogRecord {
        kind: CALL,
        cpu: 63,
        code: 0,
        outcome,
        words: [1, 2, u64::MAX, 4, 5, given],
    }
}

fn good_report(kind: u64, code: u64) -> LogRecord {
    let given = if code == 12 { 0 } else { u64::MAX };
    LogRecord {
        kind,
        cpu: 0,
        code,
        outcome: RELEASED,
        words: [0, 31, 0, 0, 0, given],
    }
}

fn good_image() -> LogRecord {
    LogRecord {
        kind: IMAGE,
        cpu: 0,
        code: 0,
        outcome: NOTED,
        words: [0, 31, 0xFFFF_FFFF, 0, 0, 0],
    }
}

fn good_records() -> Vec<LogRecord> {
    let mut records: Vec<_> = (1..=5).map(good_call).collect();
    records.extend(PRIME_CODES.map(|code| good_report(PRIME, code)));
    records.extend(ACTIVATE_CODES.map(|code| good_report(ACTIVATE, code)));
    records.push(good_image());
    records
}

#[test]
fn log_records_round_trip() {
    for record in good_records() {
        let mut bytes = [7; 60];
        assert_eq!(record.write(&mut bytes), Ok(51));
        assert_eq!(bytes[51..], [7; 9]);
        assert_eq!(read(&bytes), Ok(record));
        assert_eq!(read(&bytes[..51]), Ok(record));
        for length in 0..51 {
            assert_eq!(number(read(&bytes[..length])), 30);
            let mut short = vec![7; length];
            assert_eq!(number(record.write(&mut short)), 34);
            assert!(short.iter().all(|&byte| byte == 7));
        }
    }
}

/// Whether the outcome, and the code of a report, go with the kind.
fn head_fits(record: &LogRecord) -> bool {
    match record.kind {
        CALL => (1..=5).contains(&record.outcome),
        PRIME => record.outcome == 6 && PRIME_CODES.contains(&record.code),
        ACTIVATE => record.outcome == 6 && ACTIVATE_CODES.contains(&record.code),
        IMAGE => record.outcome == 7,
        _ => false,
    }
}

/// Whether the fields that the kind uses are in their ranges.
fn used_fields_fit(record: &LogRecord) -> bool {
    let [_, component, version, ..] = record.words;
    match record.kind {
        CALL => record.cpu <= 63,
        IMAGE => component <= 31 && version <= 0xFFFF_FFFF,
        _ => component <= 31,
    }
}

/// The fields that the kind, the outcome and the code do not use.
fn unused_fields(record: &LogRecord) -> Vec<u64> {
    let (cpu, code) = (record.cpu, record.code);
    let [word_1, _, word_3, word_4, word_5, word_6] = record.words;
    match record.kind {
        CALL if record.outcome == 1 => vec![code],
        CALL => vec![code, word_6],
        IMAGE => vec![cpu, code, word_1, word_4, word_5, word_6],
        ACTIVATE if code == 12 => vec![cpu, word_1, word_3, word_4, word_5, word_6],
        _ => vec![cpu, word_1, word_3, word_4, word_5],
    }
}

/// What reading or writing these fields should be refused with.
fn refusal(record: &LogRecord) -> Option<u64> {
    if !head_fits(record) {
        return Some(32);
    }
    let unused_are_zero = unused_fields(record).iter().all(|&field| field == 0);
    let fits = used_fields_fit(record) && unused_are_zero;
    (!fits).then_some(31)
}

/// The record with one of its ten fields changed.
fn with_field(mut record: LogRecord, field: usize, value: u64) -> LogRecord {
    match field {
        0 => record.kind = value,
        1 => record.cpu = value,
        2 => record.code = value,
        3 => record.outcome = value,
        word => record.words[word - 4] = value,
    }
    record
}

/// The record with each field in turn at small numbers and around the limits.
fn one_field_changed(good: LogRecord) -> impl Iterator<Item = LogRecord> {
    let limits = [11, 12, 16, 31, 32, 63, 64, 67, 1 << 32, u64::MAX];
    let values = (0..=8).chain(limits);
    values.flat_map(move |value| (0..10).map(move |field| with_field(good, field, value)))
}

/// A record is written and reads back, or is refused and nothing is written.
fn check_writing(record: LogRecord) {
    let mut bytes = [7; 51];
    match refusal(&record) {
        None => {
            assert_eq!(record.write(&mut bytes), Ok(51));
            assert_eq!(read(&bytes), Ok(record));
        }
        Some(expected) => {
            assert_eq!(number(record.write(&mut bytes)), expected);
            assert_eq!(number(record.write(&mut [])), expected);
            assert_eq!(bytes, [7; 51]);
        }
    }
}

#[test]
fn log_writing_refusals() {
    for good in good_records() {
        assert_eq!(refusal(&good), None);
        one_field_changed(good).for_each(check_writing);
    }
}

#[test]
fn log_reading_refusals() {
    // Every head over words that are good for some kind.
    for words in [
        [0, 1, 0, 0, 0, 0],
        [0, 1, 0, 0, 0, 9],
        [0, 32, 0, 0, 0, 0],
        [0, 1, 1 << 32, 0, 0, 0],
        [1, 1, 0, 0, 0, 0],
    ] {
        let mut bytes = [0u8; 51];
        for (place, word) in words.iter().enumerate() {
            bytes[3 + 8 * place..][..8].copy_from_slice(&u64::to_be_bytes(*word));
        }
        for head in 0..1u64 << 18 {
            let record = LogRecord {
                kind: head >> 15,
                cpu: head >> 9 & 63,
                code: head >> 4 & 31,
                outcome: head & 15,
                words,
            };
            for reserved in [0, 1, 32] {
                bytes[..3].copy_from_slice(&(head << 6 | reserved).to_be_bytes()[5..]);
                let expected = match refusal(&record) {
                    None if reserved != 0 => Some(31),
                    other => other,
                };
                match expected {
                    None => assert_eq!(read(&bytes), Ok(record)),
                    Some(expected) => assert_eq!(number(read(&bytes)), expected),
                }
            }
        }
    }
}

#[test]
fn deciding_records() {
    let cancel = |x0: u64, outcome, given| LogRecord {
        kind: CALL,
        cpu: 0,
        code: 0,
        outcome,
        words: [x0, 7, 0, 0, 0, given],
    };
    let number = Function::Cancel.number();
    assert!(cancel(number, RETURNED, 0).is_deciding());
    assert!(cancel(number | 1 << 63, RETURNED, 0).is_deciding());
    assert!(!cancel(number, RETURNED, status(8)).is_deciding());
    assert!(!cancel(number, HELD, 0).is_deciding());
    assert!(!cancel(number - 1, RETURNED, 0).is_deciding());
    for record in good_records() {
        let expected = match record.kind {
            PRIME => record.code != 1,
            ACTIVATE => record.code > 2 || record.code == 0,
            _ => false,
        };
        let postpones = record.kind == ACTIVATE && record.code == 2;
        // Word 6 says what is prepared then, and not whether it decides.
        for given in [0, 1, status(11), record.words[5]] {
            let record = with_field(record, 9, given);
            assert_eq!(record.is_deciding(), expected);
            assert_eq!(record.is_postponement(), postpones);
        }
    }
}
