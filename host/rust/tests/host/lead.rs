//! A log in deliveries, by value.

use common::boards::PLAIN;
use common::host::{close, read_record, take, Host};
use lfa::{
    flat, Flaw, Lead, LogRecord, Refusal, Standing, Taken, MOST_KEPT, MOST_RECORDS, RECORD_BYTES,
};

/// Six records.
pub fn log() -> Vec<u8> {
    Host::usual().together(PLAIN).log
}

/// The records of a good log, one by one.
pub fn one_by_one(mut log: &[u8]) -> Vec<LogRecord> {
    let mut records = Vec::new();
    while !log.is_empty() {
        let (record, rest) = read_record(log).expect("a record");
        records.push(record);
        log = rest;
    }
    records
}

/// The reader after a delivery, and the records of it or what is refused.
fn take_all(mut lead: Lead, mut delivery: &[u8]) -> (Lead, Result<Vec<LogRecord>, Flaw>) {
    let mut records = Vec::new();
    while !delivery.is_empty() {
        let taken = take(lead, delivery);
        match taken.given {
            Ok(given) => records.extend(given),
            Err(flaw) => return (taken.lead, Err(flaw)),
        }
        (lead, delivery) = (taken.lead, taken.rest);
    }
    (lead, Ok(records))
}

/// The reader after all of these bytes, which are good.
fn after(bytes: &[u8]) -> Lead {
    let (lead, records) = take_all(Lead::open(), bytes);
    records.expect("good bytes");
    lead
}

/// A full log.
fn full() -> Vec<u8> {
    log()[..RECORD_BYTES].repeat(MOST_RECORDS)
}

/// Whatever comes to the reader is refused with this, and it stays as it is.
#[track_caller]
fn refuses_all(lead: Lead, refusal: Refusal, place: usize) {
    let flaw = Flaw { refusal, place };
    let log = log();
    for rest in [&log[..0], &log[..1], &log] {
        let given = Err(flaw);
        assert_eq!(take(lead, rest), Taken { lead, given, rest });
    }
    assert_eq!(close(lead), (lead, Err(flaw)));
}

/// The bytes are refused with this as the last of them arrives, and then for good.
#[track_caller]
fn refused(bytes: &[u8], refusal: Refusal, place: usize) {
    let (last, before) = bytes.split_last().expect("bytes");
    let lead = after(before);
    let rest = &[*last][..];
    let taken = take(lead, rest);
    let flaw = Flaw { refusal, place };
    assert_eq!((taken.given, taken.rest), (Err(flaw), rest));
    assert_eq!(taken.lead.standing(), Standing::Refused(flaw));
    assert_eq!(taken.lead.records(), lead.records());
    assert!(taken.lead.kept().is_empty());
    refuses_all(taken.lead, refusal, place);
}

#[test]
fn a_new_reader_is_open_and_has_nothing() {
    let lead = Lead::open();
    assert_eq!((lead.standing(), lead.records()), (Standing::Open, 0));
    assert!(lead.kept().is_empty());
    assert_eq!(lead, Lead::default());
    let zeros = flat::Lead {
        standing: 0,
        refusal: 0,
        place: 0,
        records: 0,
        length: 0,
        kept: [0; MOST_KEPT],
    };
    assert_eq!(*lead.as_flat(), zeros);
}

#[test]
fn a_record_is_given_with_its_last_byte() {
    let log = log();
    let records = one_by_one(&log);
    let mut lead = Lead::open();
    for (at, byte) in log.chunks(1).enumerate() {
        let taken = take(lead, byte);
        let whole = (at + 1) % RECORD_BYTES == 0;
        let given = whole.then(|| records[at / RECORD_BYTES]);
        assert_eq!((taken.given, taken.rest), (Ok(given), &[][..]));
        lead = taken.lead;
        let begun = (at + 1) / RECORD_BYTES;
        assert_eq!(lead.records(), begun);
        assert_eq!(lead.kept(), &log[RECORD_BYTES * begun..=at]);
    }
    let (lead, closed) = close(lead);
    assert_eq!((lead.standing(), closed), (Standing::Closed, Ok(6)));
}

#[test]
fn deliveries_of_any_length_give_the_same() {
    let log = log();
    for length in 1..=log.len() {
        let mut lead = Lead::open();
        let mut records = Vec::new();
        for delivery in log.chunks(length) {
            let (next, given) = take_all(lead, delivery);
            records.extend(given.expect("a good log"));
            lead = next;
        }
        assert_eq!(records, one_by_one(&log), "deliveries of {length}");
        assert_eq!(close(lead).1, Ok(6));
    }
}

#[test]
fn the_rest_of_a_delivery_is_handed_back() {
    let log = log();
    for kept in 0..=MOST_KEPT {
        let (before, delivery) = log.split_at(kept);
        let taken = take(after(before), delivery);
        assert_eq!(taken.given, Ok(Some(one_by_one(&log)[0])));
        assert_eq!(taken.rest, &log[RECORD_BYTES..]);
        assert_eq!(taken.lead, after(&log[..RECORD_BYTES]));
    }
}

#[test]
fn an_empty_delivery_is_nothing() {
    for lead in [Lead::open(), after(&log()[..70]), after(&full())] {
        let given = Ok(None);
        let rest = &[][..];
        assert_eq!(take(lead, &[]), Taken { lead, given, rest });
    }
}

#[test]
fn a_bad_record_is_refused_with_its_last_byte() {
    for place in 0..6 {
        let end = RECORD_BYTES * (place + 1);
        let mut log = log();
        log[RECORD_BYTES * place + 2] |= 1;
        refused(&log[..end], Refusal::FIELD, place);
        log[RECORD_BYTES * place] |= 0xE0;
        refused(&log[..end], Refusal::UNKNOWN, place);
    }
}

#[test]
fn bytes_left_over_are_30_at_that_record() {
    let log = log();
    for length in (0..=log.len()).filter(|length| length % RECORD_BYTES != 0) {
        let place = length / RECORD_BYTES;
        let refusal = Refusal::LOG_TOO_SHORT;
        let flaw = Flaw { refusal, place };
        let (lead, closed) = close(after(&log[..length]));
        assert_eq!(closed, Err(flaw));
        assert_eq!(lead.standing(), Standing::Refused(flaw));
        assert_eq!((lead.records(), lead.kept()), (place, &[][..]));
        refuses_all(lead, refusal, place);
    }
}

#[test]
fn a_byte_past_1024_records_is_33() {
    let mut log = full();
    assert_eq!(close(after(&log)).1, Ok(MOST_RECORDS));
    log.push(0xFF);
    refused(&log, Refusal::LOG, 0);
    // A bad record among them comes first.
    log[RECORD_BYTES * (MOST_RECORDS - 1)] = 0xFF;
    log.pop();
    refused(&log, Refusal::UNKNOWN, MOST_RECORDS - 1);
}

#[test]
fn a_closed_reader_takes_nothing_more() {
    for bytes in [&[][..], &log(), &full()] {
        let (lead, closed) = close(after(bytes));
        assert_eq!(closed, Ok(bytes.len() / RECORD_BYTES));
        refuses_all(lead, Refusal::CLOSED, 0);
    }
}

/// A reader of each standing, some at their limits.
fn readers() -> Vec<Lead> {
    let mut past = full();
    past.push(0);
    let mut bad = log();
    bad[0] = 0;
    let mut readers = vec![
        take_all(Lead::open(), &past).0,
        take_all(Lead::open(), &bad).0,
    ];
    for bytes in [&[][..], &log()[..50], &log(), &full()] {
        readers.extend([after(bytes), close(after(bytes)).0]);
    }
    readers
}

#[test]
fn a_kept_reader_comes_back() {
    for lead in readers() {
        assert_eq!(Lead::from_flat(*lead.as_flat()), Ok(lead));
    }
}

/// With this change, whatever comes is refused with 37, and the numbers stay.
fn is_none(lead: &Lead, what: &str, change: impl FnOnce(&mut flat::Lead)) {
    let mut lead = *lead.as_flat();
    change(&mut lead);
    assert_eq!(Lead::from_flat(lead), Err(Refusal::NO_READER), "{what}");
    for delivery in [&[][..], &[0; 60]] {
        let taken = flat::Taken {
            lead,
            refusal: 37,
            place: 0,
            used: 0,
            given: 0,
            record: LogRecord::default(),
        };
        assert_eq!(flat::lead_take(lead, delivery), taken, "{what}");
    }
    let closed = flat::Closed {
        lead,
        refusal: 37,
        place: 0,
        records: 0,
    };
    assert_eq!(flat::lead_close(lead), closed, "{what}");
}

#[test]
fn numbers_that_no_reader_has_are_37() {
    for lead in readers() {
        let flat = lead.as_flat();
        let is_refused = flat.standing == 2;
        is_none(&lead, "standing", |l| l.standing = 3);
        is_none(&lead, "standing", |l| l.standing |= 1 << 32);
        is_none(&lead, "records", |l| l.records = 1025);
        is_none(&lead, "length", |l| l.length = 51);
        is_none(&lead, "place", |l| l.place += 1);
        is_none(&lead, "refusal", |l| {
            l.refusal = if is_refused { 0 } else { 31 }
        });
        if flat.length < MOST_KEPT {
            is_none(&lead, "past the length", |l| l.kept[l.length] = 1);
            is_none(&lead, "past the length", |l| l.kept[MOST_KEPT - 1] = 1);
        }
        if flat.standing != 0 || flat.records == MOST_RECORDS {
            is_none(&lead, "kept", |l| l.length = 1);
        }
    }
}

#[test]
fn a_refusal_has_its_place() {
    let at_a_record = close(after(&log()[..70])).0;
    let at_the_log = readers()[0];
    for refusal in [29, 34, 36, 37] {
        is_none(&at_a_record, "refusal", |l| l.refusal = refusal);
        is_none(&at_the_log, "refusal", |l| l.refusal = refusal);
    }
    for refusal in 30..33 {
        is_none(&at_the_log, "no record", |l| l.refusal = refusal);
        let full = |l: &mut flat::Lead| (l.refusal, l.place, l.records) = (refusal, 1024, 1024);
        is_none(&at_a_record, "past the last", full);
        let elsewhere = |l: &mut flat::Lead| (l.refusal, l.place) = (refusal, 0);
        is_none(&at_a_record, "another place", elsewhere);
    }
    is_none(&at_a_record, "33 at a record", |l| l.refusal = 33);
    is_none(&at_the_log, "33 too early", |l| l.records = 1023);
}
