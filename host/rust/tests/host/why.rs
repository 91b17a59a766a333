//! Why an ACTIVATE is refused, held or started: every reason and refusal, at this boundary.

use common::boards::{FIRST, FIXED, LAST, OPTIONAL, PLAIN, RESETS, SVN};
use common::events::*;
use common::host::{in_every_state, returned, why_at, write_log, Host};
use lfa::{
    code, flat, function, status, Activate, Answer, Caller, Cpus, Event, Flaw, Freed, Reason,
    Refusal, Release, RECORD_BYTES,
};

/// In the range, and no multiple of 4.
const BAD_ENTRY: u64 = LAST;

fn held(missing: &[u64]) -> Result<Reason, Flaw> {
    Ok(Reason::Held(Cpus::of(missing)))
}

fn refused(refusal: Refusal, place: usize) -> Result<Reason, Flaw> {
    Err(Flaw { refusal, place })
}

/// The registers of any ACTIVATE.
fn asked(component: u64, flags: u64, entry: u64) -> [u64; 5] {
    [function::ACTIVATE, component, flags, entry, 0]
}

#[test]
fn each_state_says_why() {
    let told = in_every_state(PLAIN).map(|host| host.why(1, activate(1, PLAIN)));
    let expected = [
        Ok(Reason::NothingPrepared),
        Ok(Reason::BeingPrepared(PLAIN)),
        Ok(Reason::HalfPrepared(PLAIN)),
        held(&[0]),
        Ok(Reason::AllPresent),
        refused(Refusal::CPU_HELD, 0),
        Ok(Reason::OtherComponent(OPTIONAL)),
        Ok(Reason::OtherComponent(OPTIONAL)),
        Ok(Reason::BoardDead),
        Ok(Reason::Withdrawn(PLAIN)),
    ];
    assert_eq!(told, expected);
}

#[test]
fn the_first_rule_is_named() {
    let ready = Host::usual().powered(2).ready(RESETS);
    for (x1, x2, x3, reason) in [
        (PLAIN, 3, BAD_ENTRY, Reason::OtherComponent(RESETS)),
        (u64::MAX, 3, BAD_ENTRY, Reason::OtherComponent(RESETS)),
        (RESETS, 3, BAD_ENTRY, Reason::OtherFlags),
        (RESETS, 1 << 63, BAD_ENTRY, Reason::OtherFlags),
        (RESETS, 1, BAD_ENTRY, Reason::NotOptional),
        (RESETS, 0, BAD_ENTRY, Reason::BadEntry),
        (RESETS, 0, FIRST, Reason::Held(Cpus::of(&[0]))),
    ] {
        assert_eq!(ready.why(1, asked(x1, x2, x3)), Ok(reason), "{x1} {x2}");
    }
    let gathering = Host::usual().gathering(RESETS);
    let skipping = gathering.why(1, asked(RESETS, 1, FIRST));
    assert_eq!(skipping, Ok(Reason::NotOptional));
}

#[test]
fn skip_goes_by_the_state() {
    let optional = Host::usual().powered(2).ready(OPTIONAL);
    let alone = Ok(Reason::BeingActivated(OPTIONAL));
    for (host, with_skip, without) in [
        (optional, Ok(Reason::Skipped), held(&[0])),
        (
            Host::usual().gathering(OPTIONAL),
            Ok(Reason::SkipInGathering),
            Ok(Reason::AllPresent),
        ),
        (Host::usual().alone(), alone, Ok(Reason::NoSkip)),
        (
            Host::usual().half_activated(),
            Ok(Reason::Skipped),
            Ok(Reason::NoSkip),
        ),
    ] {
        assert_eq!(host.why(1, skip(OPTIONAL)), with_skip);
        assert_eq!(host.why(1, activate(1, OPTIONAL)), without);
    }
}

/// Three on of four: the one that is off is not waited for.
#[test]
fn the_missing_are_powered_and_not_held() {
    let mut host = Host::usual().powered(3).ready(PLAIN);
    assert_eq!(host.why(0, activate(0, PLAIN)), held(&[1, 2]));
    host.activate(2, PLAIN);
    assert_eq!(host.why(0, activate(0, PLAIN)), held(&[1]));
    assert_eq!(host.why(1, activate(1, PLAIN)), held(&[0]));
    host.activate(0, PLAIN);
    assert_eq!(host.why(1, activate(1, PLAIN)), Ok(Reason::AllPresent));
}

#[test]
fn after_a_postponement_both_are_missing_again() {
    let mut host = Host::usual().together(PLAIN);
    host.take(activate_report(PLAIN, 2));
    assert_eq!(host.why(0, activate(0, PLAIN)), held(&[1]));
    assert_eq!(host.why(1, activate(1, PLAIN)), held(&[0]));
}

#[test]
fn the_incident_names_who_is_missing() {
    let mut host = Host::usual().powered(3).ready(PLAIN);
    host.activate(0, PLAIN);
    host.returns(1, cpu_on(3), status(6));
    assert_eq!(host.why(1, activate(1, PLAIN)), held(&[2]));
    host.activate(1, PLAIN);
    assert_eq!(host.why(2, activate(2, PLAIN)), Ok(Reason::AllPresent));
}

#[test]
fn callers_that_cannot_call_are_refused() {
    let host = Host::usual().gathering(PLAIN);
    for (cpu, refusal) in [
        (0, Refusal::CPU_HELD),
        (2, Refusal::CPU_OFF),
        (4, Refusal::NO_SUCH_CPU),
        (64, Refusal::NO_SUCH_CPU),
        (u64::MAX, Refusal::NO_SUCH_CPU),
    ] {
        let why = host.why(cpu, activate(cpu, PLAIN));
        assert_eq!(why, refused(refusal, 0), "CPU {cpu}");
    }
}

/// An image, a PRIME, its report, a CPU_ON and an ACTIVATE.
fn log() -> Vec<u8> {
    Host::usual().gathering(PLAIN).log
}

/// Why CPU 1 is told what it is told at a place of a log of the usual board.
fn why(log: &[u8], place: usize) -> Result<Reason, Flaw> {
    let ask = Activate {
        cpu: 1,
        x1: PLAIN,
        ..Activate::default()
    };
    why_at(&Host::usual().board, log, place, &ask)
}

/// The log with another record at a place: an event that had this answer.
fn with(place: usize, event: Event, caller: Caller, x0: u64) -> Vec<u8> {
    let freed = Freed {
        x0,
        ..Freed::default()
    };
    let answer = Answer {
        caller,
        release: Release::Returned(freed),
    };
    let mut log = log();
    let written = write_log(&mut log[place * RECORD_BYTES..], &event, &answer);
    assert_eq!(written, Ok(RECORD_BYTES));
    log
}

/// Logs in which the record at a place is not what the rules give there.
fn that_differ() -> [(usize, Vec<u8>); 8] {
    let report = prime_report(PLAIN, code::DONE);
    let (on, held) = (call(0, cpu_on(1)), call(0, activate(0, PLAIN)));
    let started = Caller::ActivationStarted;
    [
        // Refused: no capable component, CPU off, no such job, CPU held.
        (0, with(0, image(FIXED, SVN), Caller::Nothing, 0)),
        (1, with(1, call(1, VERSION), returned(65536), 0)),
        (2, with(2, prime_report(RESETS, 0), Caller::Nothing, 0)),
        (2, with(2, call(0, VERSION), returned(65536), 0)),
        // Answered otherwise.
        (1, with(1, call(0, prime(PLAIN)), Caller::Held, 0)),
        (2, with(2, report, Caller::Nothing, status(4))),
        (3, with(3, on, returned(status(4)), 0)),
        (4, with(4, held, started, 0)),
    ]
}

#[test]
fn a_record_that_differs_is_35_from_there_on() {
    for (bad, differs) in that_differ() {
        for place in 0..=5 {
            let expected = match place > bad {
                true => refused(Refusal::DEPARTS, bad),
                false => why(&log(), place),
            };
            assert_eq!(why(&differs, place), expected, "{bad} before {place}");
        }
    }
}

#[test]
fn a_bad_record_comes_before_one_that_differs() {
    for (_, mut log) in that_differ() {
        log[4 * RECORD_BYTES + 2] |= 1;
        (0..=5).for_each(|place| assert_eq!(why(&log, place), refused(Refusal::FIELD, 4)));
        log[3 * RECORD_BYTES] = 0;
        (0..=5).for_each(|place| assert_eq!(why(&log, place), refused(Refusal::UNKNOWN, 3)));
        assert_eq!(why(&log, 6), refused(Refusal::LOG, 0));
    }
}

/// What the numbers are, besides the enum.
#[test]
fn only_what_the_reason_names_is_given() {
    let host = Host::usual().powered(2).ready(RESETS);
    let numbers = |cpu, x1| {
        let a = flat::Activate {
            cpu,
            x1,
            x3: FIRST,
            ..Activate::default()
        };
        flat::why(&host.board, &host.log, host.records(), a)
    };
    let none = flat::Why::default();
    let missing = flat::Why {
        reason: 13,
        missing: Cpus::of(&[1]),
        ..none
    };
    assert_eq!(numbers(0, RESETS), missing);
    let other = flat::Why {
        reason: 5,
        component: RESETS,
        ..none
    };
    assert_eq!(numbers(0, 99), other);
    assert_eq!(numbers(2, RESETS), flat::Why { refusal: 3, ..none });
}

/// The reason goes with the report, whatever its code is.
#[test]
fn withdrawn_is_a_reason_until_the_report() {
    for code in [0, 1, 3, 4, 6, 11] {
        let mut host = Host::usual().powered(2).withdrawn(RESETS);
        for x in [activate(1, RESETS), skip(RESETS), activate(1, 99)] {
            assert_eq!(host.why(1, x), Ok(Reason::Withdrawn(RESETS)));
        }
        let caller = refused(Refusal::CPU_HELD, 0);
        assert_eq!(host.why(0, activate(0, RESETS)), caller);
        host.take(prime_report(RESETS, code));
        assert_eq!(
            host.why(0, activate(0, RESETS)),
            Ok(Reason::NothingPrepared)
        );
    }
}
