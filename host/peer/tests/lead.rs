//! Logs in deliveries: the same as record by record, and which numbers are a
//! reader's.

use common::boards::PLAIN;
use common::walk::Walk;
use peer::*;

/// A log of six records.
fn log() -> Vec<u8> {
    Walk::usual().together(PLAIN).log
}

/// A log with the most records.
fn full() -> Vec<u8> {
    log()[..RECORD_BYTES].repeat(MAX_RECORDS)
}

/// A reader after these deliveries, and their records, up to a refusal.
fn after(deliveries: &[&[u8]]) -> (Lead, Result<Vec<LogRecord>, Flaw>) {
    let mut lead = Lead::new();
    let mut records = Vec::new();
    for delivery in deliveries {
        let mut rest = *delivery;
        while !rest.is_empty() {
            let (next, took) = lead.take(rest);
            lead = next;
            match took {
                Ok(took) => {
                    records.extend(took.record);
                    rest = &rest[took.used..];
                }
                Err(flaw) => return (lead, Err(flaw)),
            }
        }
    }
    (lead, Ok(records))
}

/// A reader after good bytes.
fn open(bytes: &[u8]) -> Lead {
    let (lead, records) = after(&[bytes]);
    records.expect("good bytes");
    lead
}

/// Whatever comes is refused with this, and nothing changes.
#[track_caller]
fn refuses_all(lead: &Lead, number: u64, place: usize) {
    for delivery in [&[][..], &[0], &log()] {
        let (next, took) = lead.clone().take(delivery);
        let flaw = took.expect_err("refused");
        assert_eq!((flaw.refusal.number(), flaw.place), (number, place));
        assert_eq!(next, *lead);
    }
    let (next, closed) = lead.clone().close();
    let flaw = closed.expect_err("refused");
    assert_eq!((flaw.refusal.number(), flaw.place), (number, place));
    assert_eq!(next, *lead);
}

#[test]
fn every_cut_gives_the_records_of_the_log() {
    let log = log();
    let read = Log::read(&log).expect("a log");
    let records: Vec<_> = read.records().collect();
    for second in 0..=log.len() {
        for first in 0..=second {
            let cut = [&log[..first], &log[first..second], &log[second..]];
            let (lead, given) = after(&cut);
            assert_eq!(given, Ok(records.clone()));
            let (lead, closed) = lead.close();
            assert_eq!(closed, Ok(6));
            assert_eq!(lead, Lead::Closed { records: 6 });
        }
    }
}

#[test]
fn at_most_a_record_without_its_last_byte_is_kept() {
    let log = log();
    for length in 0..=log.len() {
        let (records, kept) = (length / RECORD_BYTES, length % RECORD_BYTES);
        let kept = log[length - kept..length].to_vec();
        assert!(kept.len() <= MAX_KEPT);
        assert_eq!(open(&log[..length]), Lead::Open { records, kept });
    }
}

#[test]
fn an_empty_delivery_is_nothing_to_an_open_reader() {
    for lead in [Lead::new(), open(&log()[..99]), open(&full())] {
        let (next, took) = lead.clone().take(&[]);
        let nothing = Took {
            record: None,
            used: 0,
        };
        assert_eq!((next, took), (lead, Ok(nothing)));
    }
}

#[test]
fn a_closed_reader_gives_36() {
    for bytes in [&[][..], &log(), &full()] {
        let (lead, closed) = open(bytes).close();
        assert_eq!(closed, Ok(bytes.len() / RECORD_BYTES));
        refuses_all(&lead, 36, 0);
    }
}

#[test]
fn bytes_left_over_give_30() {
    let log = log();
    for length in (0..log.len()).filter(|length| length % RECORD_BYTES != 0) {
        let (lead, closed) = open(&log[..length]).close();
        assert!(closed.is_err());
        refuses_all(&lead, 30, length / RECORD_BYTES);
    }
}

/// The bytes are refused as the last of them comes, not before.
#[track_caller]
fn refused(bytes: &[u8], number: u64, place: usize) {
    let (last, before) = bytes.split_last().expect("bytes");
    let (lead, took) = open(before).take(&[*last]);
    assert!(took.is_err());
    refuses_all(&lead, number, place);
    let (at_once, _) = after(&[bytes]);
    assert_eq!(at_once, lead);
}

#[test]
fn a_bad_record_is_refused_when_it_is_whole() {
    for place in 0..6 {
        let end = RECORD_BYTES * (place + 1);
        let mut log = log();
        log[end - RECORD_BYTES + 2] |= 1;
        refused(&log[..end], 31, place);
        log[end - RECORD_BYTES] |= 0xE0;
        refused(&log[..end], 32, place);
    }
}

#[test]
fn the_first_byte_past_the_last_record_gives_33() {
    let mut log = full();
    log.push(0x20);
    refused(&log, 33, 0);
    for bad in [0, 500, MAX_RECORDS - 1] {
        let mut log = log.clone();
        log[RECORD_BYTES * bad] = 0;
        refused(&log[..RECORD_BYTES * (bad + 1)], 32, bad);
    }
}

/// Numbers near the limits.
const COUNTS: [usize; 6] = [0, 1, 2, MAX_RECORDS - 1, MAX_RECORDS, MAX_RECORDS + 1];
const LENGTHS: [usize; 5] = [0, 1, MAX_KEPT, MAX_KEPT + 1, usize::MAX];

/// Every reader with one of these counts that keeps zeros of one of these
/// lengths, by deliveries that lead there.
fn reached() -> Vec<Stored> {
    let mut found = Vec::new();
    let bad = [0; RECORD_BYTES];
    let mut unused = log()[..RECORD_BYTES].to_vec();
    unused[2] |= 1;
    for count in COUNTS {
        let good = log()[..RECORD_BYTES].repeat(count);
        let next = LENGTHS.map(|length| &bad[..length.min(MAX_KEPT)]);
        for next in next.into_iter().chain([&bad[..], &unused]) {
            let (lead, _) = after(&[&good, next]);
            let (closed, _) = lead.clone().close();
            found.extend([lead.stored(), closed.stored()]);
        }
    }
    found
}

/// Every such number in every field.
fn all_numbers() -> impl Iterator<Item = Stored> {
    let heads = (0..4).flat_map(|standing| {
        let refusals = [0, 1].into_iter().chain(29..=37);
        refusals.map(move |refusal| (standing, refusal))
    });
    let counts = || COUNTS.into_iter();
    let tails = move || counts().flat_map(move |place| counts().map(move |n| (place, n)));
    let numbers = heads.flat_map(move |head| tails().map(move |tail| (head, tail)));
    numbers.flat_map(|((standing, refusal), (place, records))| {
        LENGTHS.map(|length| Stored {
            standing,
            refusal,
            place,
            records,
            length,
            kept: [0; MAX_KEPT],
        })
    })
}

/// A reader's numbers are those that deliveries lead to, and no other.
#[test]
fn faults_are_what_no_deliveries_lead_to() {
    let reached = reached();
    let mut readers = 0;
    for numbers in all_numbers() {
        let is_reached = reached.contains(&numbers);
        assert_eq!(numbers.faults().is_empty(), is_reached, "{numbers:?}");
        let again = numbers.reader().map(|lead| lead.stored());
        assert_eq!(again, is_reached.then_some(numbers));
        readers += usize::from(is_reached);
    }
    // Open with each length but when full, closed with each count; refused with
    // 30 to 32 but when full, with 33 when full.
    assert_eq!(readers, 4 * 3 + 1 + 5 + 4 * 3 + 1);
}

#[test]
fn a_byte_after_those_that_are_kept_is_a_fault() {
    for length in 0..=MAX_KEPT {
        let numbers = open(&log()[..length]).stored();
        assert_eq!(numbers.faults(), []);
        for at in length..MAX_KEPT {
            let mut numbers = numbers;
            numbers.kept[at] = 1;
            assert_eq!(numbers.faults(), [Fault::Past]);
        }
    }
}

#[test]
fn numbers_of_no_reader_give_37_and_stay() {
    for numbers in all_numbers().filter(|numbers| !numbers.faults().is_empty()) {
        let refusal = Refusal::NoReader;
        let flaw = Flaw { refusal, place: 0 };
        for delivery in [&[][..], &[0; 60]] {
            assert_eq!(numbers.take(delivery), (numbers, Err(flaw)));
        }
        assert_eq!(numbers.close(), (numbers, Err(flaw)));
    }
}
