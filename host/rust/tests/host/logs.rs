//! Writing log records, and what a damaged log is refused with.

use common::boards::{described, usual, OPTIONAL, PLAIN, RESETS};
use common::events::*;
use common::host::{cpus_at, prepared_at, read_record, starts_at, why_at, write_log, Host};
use lfa::{
    code, flat, function, status, Activate, Answer, Call, Caller, Cpus, Event, Flaw, Freed,
    LogRecord, Reason, Refusal, Registers, Release, Report, RECORD_BYTES,
};

const NOTHING: Answer = Answer {
    caller: Caller::Nothing,
    release: Release::Nobody,
};

const RETURNED: Answer = Answer {
    caller: Caller::Returned(Registers {
        x0: 1,
        x1: 2,
        x2: 3,
        x3: 4,
    }),
    release: Release::Nobody,
};

/// Nothing is written, and the number is this one.
fn not_written(length: usize, event: Event, answer: Answer, refusal: Refusal) {
    let mut buf = vec![0xA5; length];
    assert_eq!(write_log(&mut buf, &event, &answer), Err(refusal));
    assert!(buf.iter().all(|&b| b == 0xA5));
}

#[test]
fn a_record_is_51_bytes_and_the_rest_stays() {
    let mut buf = [0xA5; 60];
    let event = call(3, [1, 2, 3, 4, 5]);
    assert_eq!(write_log(&mut buf, &event, &RETURNED), Ok(RECORD_BYTES));
    assert_eq!(buf[..3], [0x21, 0x80, 0x40]);
    for (i, word) in [1u64, 2, 3, 4, 5, 1].into_iter().enumerate() {
        assert_eq!(buf[3 + 8 * i..][..8], word.to_be_bytes());
    }
    assert!(buf[RECORD_BYTES..].iter().all(|&b| b == 0xA5));
}

#[test]
fn no_room_is_34() {
    for length in 0..RECORD_BYTES {
        not_written(length, image(0, 5), NOTHING, Refusal::NO_ROOM);
    }
}

#[test]
fn a_call_without_callers_part_is_32() {
    not_written(0, call(0, [0; 5]), NOTHING, Refusal::UNKNOWN);
    not_written(51, call(99, [0; 5]), NOTHING, Refusal::UNKNOWN);
    not_written(51, prime_report(PLAIN, 2), NOTHING, Refusal::UNKNOWN);
}

#[test]
fn a_refused_answer_is_not_logged() {
    let refused = flat::Answer {
        refusal: 4,
        caller: 1,
        ..flat::Answer::default()
    };
    let mut buf = [0xA5; 51];
    let event = flat::Event::from(call(0, [0; 5]));
    let written = flat::log(&mut buf, event, refused);
    assert_eq!((written.refusal, written.bytes), (32, 0));
    assert_eq!(buf, [0xA5; 51]);
}

#[test]
fn an_event_of_unknown_kind_is_not_logged() {
    for kind in [0, 5, u64::MAX] {
        let event = flat::Event {
            kind,
            ..flat::Event::default()
        };
        let mut buf = [0xA5; 51];
        let written = flat::log(&mut buf, event, RETURNED.into());
        assert_eq!((written.refusal, written.bytes), (32, 0));
        assert_eq!(buf, [0xA5; 51]);
    }
}

#[test]
fn a_number_without_room_in_its_field_is_31() {
    not_written(0, call(64, [0; 5]), RETURNED, Refusal::FIELD);
    not_written(51, image(32, 5), NOTHING, Refusal::FIELD);
    let report = Event::Prime(Report {
        component: u64::MAX,
        code: 0,
    });
    not_written(51, report, NOTHING, Refusal::FIELD);
}

/// The usual board's description.
fn board() -> Vec<u8> {
    described(&usual(4, 4))
}

/// An image, a PRIME, and its report.
fn log() -> Vec<u8> {
    let mut host = Host::usual().preparing(PLAIN);
    host.take(prime_report(PLAIN, 0));
    host.log
}

/// Every question refuses the log with this number and place.
fn refused(log: &[u8], place: usize, number: u64, at: usize) {
    let flaw = prepared_at(log, place).expect_err("refused");
    assert_eq!((flaw.refusal.number(), flaw.place), (number, at));
    assert_eq!(cpus_at(log, place), [Err(flaw); 2]);
    let told = flat::CpusAt {
        refusal: number,
        place: at,
        ..flat::CpusAt::default()
    };
    assert_eq!(
        [flat::powered(log, place), flat::held(log, place)],
        [told; 2]
    );
    let started = starts_at(&board(), log, place, &Call::default());
    assert_eq!(started, Err(flaw));
    let why = why_at(&board(), log, place, &Activate::default());
    assert_eq!(why, Err(flaw));
}

/// Since 33 comes first, no log here is refused with 30.
#[test]
fn a_length_or_a_place_that_is_wrong_is_33() {
    let log = log();
    for length in (0..=log.len()).filter(|n| n % RECORD_BYTES != 0) {
        refused(&log[..length], 0, 33, 0);
    }
    refused(&log, 4, 33, 0);
    refused(&log, usize::MAX, 33, 0);
    refused(&[], 1, 33, 0);
}

#[test]
fn an_unknown_kind_outcome_or_code_is_32_with_its_place() {
    let bad_kind = |log: &mut Vec<u8>, k: usize| log[k * RECORD_BYTES] = 0xE0;
    let bad_outcome = |log: &mut Vec<u8>, k: usize| log[k * RECORD_BYTES + 2] = 0;
    for k in 0..3 {
        let mut log = log();
        bad_outcome(&mut log, k);
        refused(&log, 0, 32, k);
        bad_kind(&mut log, k);
        refused(&log, 3, 32, k);
    }
}

#[test]
fn an_unused_field_is_31_with_its_place() {
    let mut log = log();
    log[2 * RECORD_BYTES + 50 - 8] = 1;
    refused(&log, 1, 31, 2);
    log[RECORD_BYTES + 2] |= 1;
    refused(&log, 1, 31, 1);
    // The first bad record is given, for any place; one past the end comes before.
    log[2 * RECORD_BYTES] = 0;
    (0..=3).for_each(|place| refused(&log, place, 31, 1));
    refused(&log, 4, 33, 0);
    log[0] = 0xE0;
    refused(&log, 0, 32, 0);
}

/// The answer to a report that gives this X0.
fn released(x0: u64) -> Answer {
    Answer {
        caller: Caller::Nothing,
        release: Release::Returned(Freed {
            x0,
            ..Freed::default()
        }),
    }
}

#[test]
fn an_x0_of_a_reset_is_31() {
    let mut host = Host::usual().together(RESETS);
    let reset = activate_report(RESETS, code::BY_RESET);
    host.take(reset);
    let last = host.log.len() / RECORD_BYTES - 1;
    *host.log.last_mut().expect("a log") = 1;
    refused(&host.log, 0, 31, last);
    not_written(51, reset, released(1), Refusal::FIELD);
    let written = write_log(&mut [0; 51], &reset, &released(0));
    assert_eq!(written, Ok(RECORD_BYTES));
}

/// Whatever stands before it. Code 1 does not decide, with any X0.
#[test]
fn a_preparation_is_finished_by_an_x0_of_0() {
    for x0 in [0, 1, 1 << 32, status(11), u64::MAX] {
        for code in [0, 1, 3, 4, 6, 11] {
            let mut log = log();
            let mut record = [0; RECORD_BYTES];
            let report = prime_report(OPTIONAL, code);
            write_log(&mut record, &report, &released(x0)).expect("room");
            log.extend(record);
            let (prepared, looked) = match (code, x0) {
                (1, _) => (Some(PLAIN), 2),
                (0, 0) => (Some(OPTIONAL), 1),
                _ => (None, 1),
            };
            let found = prepared_at(&log, 4).expect("a log");
            assert_eq!((found.component, found.looked), (prepared, looked));
            for component in [PLAIN, OPTIONAL] {
                let call = from_cpu(0, activate(0, component));
                let starts = prepared.filter(|&id| id == component);
                assert_eq!(starts_at(&board(), &log, 4, &call), Ok(starts));
            }
        }
    }
}

#[test]
fn a_log_of_other_bytes_is_refused() {
    refused(&[0; 51], 0, 32, 0);
    refused(&[0xFF; 510], 10, 32, 0);
}

#[test]
fn an_empty_log_has_nothing_prepared() {
    let found = prepared_at(&[], 0).expect("a log");
    assert_eq!((found.component, found.looked), (None, 0));
    assert_eq!(cpus_at(&[], 0), [Ok(Cpus::of(&[0])), Ok(Cpus::default())]);
    assert_eq!(starts_at(&board(), &[], 0, &Call::default()), Ok(None));
    let why = why_at(&board(), &[], 0, &Activate::default());
    assert_eq!(why, Ok(Reason::NothingPrepared));
}

#[test]
fn the_boards_refusal_comes_first() {
    let mut board = board();
    board.push(0);
    let flaw = Flaw {
        refusal: Refusal::BOARD_TOO_LONG,
        place: 0,
    };
    let call = Call::default();
    assert_eq!(starts_at(&board, &[0; 51], 1, &call), Err(flaw));
    assert_eq!(starts_at(&board, &[0; 50], 9, &call), Err(flaw));
    let ask = Activate::default();
    assert_eq!(why_at(&board, &[0; 51], 1, &ask), Err(flaw));
    assert_eq!(why_at(&board, &[0; 50], 9, &ask), Err(flaw));
}

#[test]
fn one_cpu_starts_by_the_log() {
    let log = log();
    let activate = Call {
        x0: function::ACTIVATE,
        x1: PLAIN,
        ..Call::default()
    };
    assert_eq!(starts_at(&board(), &log, 3, &activate), Ok(Some(PLAIN)));
    assert_eq!(starts_at(&board(), &log, 2, &activate), Ok(None));
    let off = Call { cpu: 1, ..activate };
    assert_eq!(starts_at(&board(), &log, 3, &off), Ok(None));
}

#[test]
fn a_postponement_leaves_its_component_prepared() {
    let mut host = Host::usual().powered(3).ready(OPTIONAL);
    for cpu in 0..3 {
        host.activate(cpu, OPTIONAL);
    }
    host.take(activate_report(OPTIONAL, 2));
    let found = prepared_at(&host.log, host.records()).expect("a log");
    assert_eq!((found.component, found.looked), (Some(OPTIONAL), 5));
    host.call(0, cancel(OPTIONAL));
    let found = prepared_at(&host.log, host.records()).expect("a log");
    assert_eq!((found.component, found.looked), (None, 1));
}

#[test]
fn the_last_of_three_starts_by_the_log() {
    let mut host = Host::usual().powered(3).ready(RESETS);
    for cpu in 0..2 {
        assert_eq!(host.would_start(cpu, activate(cpu, RESETS)), None);
        host.activate(cpu, RESETS);
    }
    for (cpu, starts) in [
        (2, Some(RESETS)),
        (1, None),
        (3, None),
        (4, None),
        (64, None),
    ] {
        assert_eq!(
            host.would_start(cpu, activate(cpu, RESETS)),
            starts,
            "CPU {cpu}"
        );
    }
    host.activate(2, RESETS);
    for cpu in 0..4 {
        assert_eq!(
            host.would_start(cpu, activate(cpu, RESETS)),
            None,
            "CPU {cpu}"
        );
    }
}

#[test]
fn earlier_arrivals_do_not_count_by_the_log() {
    let mut host = Host::usual().together(PLAIN);
    host.take(activate_report(PLAIN, 2));
    assert_eq!(host.would_start(1, activate(1, PLAIN)), None);
    host.activate(0, PLAIN);
    assert_eq!(host.would_start(1, activate(1, PLAIN)), Some(PLAIN));
    host.call(1, cancel(PLAIN));
    assert_eq!(host.would_start(1, activate(1, PLAIN)), None);
}

#[test]
fn no_rendezvous_starts_by_the_log_after_a_skip() {
    let mut host = Host::usual().ready(OPTIONAL);
    let mut skipped = |code, starts| {
        assert_eq!(host.would_start(0, activate(0, OPTIONAL)), starts);
        host.call(0, skip(OPTIONAL));
        host.take(activate_report(OPTIONAL, code));
    };
    skipped(code::AGAIN, Some(OPTIONAL));
    skipped(2, None);
    skipped(2, Some(OPTIONAL));
}

#[test]
fn a_record_reads_back_with_the_unread_rest() {
    let log = log();
    let image = LogRecord {
        kind: 4,
        outcome: 7,
        w2: PLAIN,
        w3: 5,
        ..LogRecord::default()
    };
    let prime = LogRecord {
        kind: 1,
        outcome: 3,
        w1: function::PRIME,
        w2: PLAIN,
        ..LogRecord::default()
    };
    let report = LogRecord {
        kind: 2,
        outcome: 6,
        w2: PLAIN,
        ..LogRecord::default()
    };
    let mut unread = &log[..];
    for expected in [image, prime, report] {
        let (record, rest) = read_record(unread).expect("a record");
        assert_eq!(record, expected);
        assert_eq!(rest, &unread[RECORD_BYTES..]);
        unread = rest;
    }
    assert!(unread.is_empty());
}

#[test]
fn every_field_of_a_call_reads_back() {
    let mut buf = [0; RECORD_BYTES];
    let event = call(63, [1, 2, 3, 4, u64::MAX]);
    write_log(&mut buf, &event, &RETURNED).expect("room");
    let call = LogRecord {
        kind: 1,
        cpu: 63,
        code: 0,
        outcome: 1,
        w1: 1,
        w2: 2,
        w3: 3,
        w4: 4,
        w5: u64::MAX,
        w6: 1,
    };
    assert_eq!(read_record(&buf), Ok((call, &[][..])));
}

#[test]
fn a_record_that_is_none_is_30_32_or_31() {
    let log = log();
    for length in 0..RECORD_BYTES {
        assert_eq!(read_record(&log[..length]), Err(Refusal::LOG_TOO_SHORT));
    }
    let mut bad = log[..RECORD_BYTES].to_vec();
    bad[2] |= 1;
    assert_eq!(read_record(&bad), Err(Refusal::FIELD));
    bad[0] = 0xE0;
    assert_eq!(read_record(&bad), Err(Refusal::UNKNOWN));
    assert_eq!(
        flat::read_record(&bad),
        flat::Read {
            refusal: 32,
            ..flat::Read::default()
        }
    );
}
