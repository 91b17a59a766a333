//! The update of two CPUs, with its log and the questions, and one whose first preparation is withdrawn.

use common::boards::{usual, FIRST};
use common::events::*;
use common::host::{cpus_at, prepared_at, returned, starts_at, why_at, Host};
use lfa::{
    function, status, Activate, Call, Caller, Cpus, Event, Flaw, Freed, Reason, Refusal, Release,
    State, RECORD_BYTES,
};

const UPDATED: u64 = 1;

/// What an event answers, and the state after it.
type Told = Result<(Caller, Release, State), Refusal>;

/// The events in order, one of them refused.
fn events() -> [Event; 8] {
    [
        call(0, [function::CPU_ON, 1, FIRST, 0xC1, 0]),
        image(UPDATED, 5),
        call(0, prime(UPDATED)),
        prime_report(UPDATED, 0),
        call(0, activate(0, UPDATED)),
        call(0, VERSION),
        call(1, activate(1, UPDATED)),
        activate_report(UPDATED, 12),
    ]
}

fn fresh() -> Host {
    Host::of(&usual(2, 2))
}

fn after(events: impl IntoIterator<Item = Event>) -> Host {
    let mut host = fresh();
    for event in events {
        let _ = host.tell(event);
    }
    host
}

fn updated() -> Host {
    after(events())
}

/// A host after these events, each of which was answered so.
fn answered<const N: usize>(events: [Event; N], answers: [Told; N]) -> Host {
    let mut host = fresh();
    for (event, expected) in events.into_iter().zip(answers) {
        let answer = host.tell(event);
        let seen = answer.map(|a| (a.caller, a.release, host.record.state()));
        assert_eq!(seen, expected, "{event:?}");
    }
    host
}

/// CPU 0 goes on with this X0.
fn released(x0: u64) -> Release {
    Release::Returned(Freed {
        cpus: Cpus::of(&[0]),
        x0,
        x1: 0,
    })
}

fn resumed(cpus: &[u64]) -> Release {
    Release::Resumed(Cpus::of(cpus))
}

#[test]
fn each_event_answers_as_document_01_says() {
    let answers = [
        Ok((returned(0), resumed(&[1]), State::Idle)),
        Ok((Caller::Nothing, Release::Nobody, State::Idle)),
        Ok((Caller::PrimeStarted, Release::Nobody, State::Preparing(1))),
        Ok((Caller::Nothing, released(0), State::Ready(1))),
        Ok((Caller::Held, Release::Nobody, State::Gathering(1))),
        Err(Refusal::CPU_HELD),
        Ok((
            Caller::ActivationStarted,
            Release::Nobody,
            State::Together(1),
        )),
        Ok((Caller::Nothing, resumed(&[0, 1]), State::Idle)),
    ];
    let host = answered(events(), answers);
    assert_eq!(host.entries, [FIRST, FIRST + 4]);
    assert_eq!(host.contexts, [100, 101]);
    assert_eq!(host.record.pending(UPDATED), None);
}

#[test]
fn the_log_has_the_accepted_events() {
    let log = updated().log;
    assert_eq!(log.len(), 7 * RECORD_BYTES);
    let opens: Vec<&[u8]> = log.chunks(RECORD_BYTES).map(|r| &r[..3]).collect();
    let expected: [[u8; 3]; 7] = [
        [0x20, 0x00, 0x40],
        [0x80, 0x01, 0xC0],
        [0x20, 0x00, 0xC0],
        [0x40, 0x01, 0x80],
        [0x20, 0x00, 0x80],
        [0x20, 0x81, 0x00],
        [0x60, 0x31, 0x80],
    ];
    assert_eq!(opens, expected);
}

/// What is prepared at each place of a host's log, and how many records that takes.
fn prepared_everywhere(host: &Host) -> Vec<(Option<u64>, usize)> {
    let places = 0..=host.records();
    let found = places.map(|k| prepared_at(&host.log, k).expect("a log"));
    found.map(|p| (p.component, p.looked)).collect()
}

#[test]
fn the_log_says_what_is_prepared() {
    let one = Some(UPDATED);
    let before = [(None, 0), (None, 1), (None, 2), (None, 3)];
    let after = [(one, 1), (one, 2), (one, 3), (None, 1)];
    let expected = [before, after].concat();
    assert_eq!(prepared_everywhere(&updated()), expected);
}

/// At each place of the log these CPUs are held, and both are on from the first record on.
fn check_cpus(host: &Host, held: &[&[u64]]) {
    assert_eq!(held.len(), host.records() + 1);
    for (place, cpus) in held.iter().enumerate() {
        let on: &[u64] = if place == 0 { &[0] } else { &[0, 1] };
        let told = [on, cpus].map(|list| Ok(Cpus::of(list)));
        assert_eq!(cpus_at(&host.log, place), told, "place {place}");
    }
}

#[test]
fn the_log_says_who_is_powered_and_held() {
    let held: [&[u64]; 8] = [&[], &[], &[], &[0], &[], &[0], &[0, 1], &[]];
    check_cpus(&updated(), &held);
}

#[test]
fn the_log_says_what_starts() {
    let host = updated();
    let starts = |place, call| starts_at(&host.board, &host.log, place, &call);
    let last = from_cpu(1, activate(1, UPDATED));
    assert_eq!(starts(5, last), Ok(Some(UPDATED)));
    for place in [0, 1, 2, 3, 4, 6, 7] {
        assert_eq!(starts(place, last), Ok(None), "place {place}");
    }
}

/// Why a CPU's ACTIVATE is refused, held or started at a place of a host's log.
fn why(host: &Host, place: usize, cpu: u64) -> Result<Reason, Flaw> {
    let ask = Activate {
        cpu,
        x1: UPDATED,
        x3: FIRST,
        ..Activate::default()
    };
    why_at(&host.board, &host.log, place, &ask)
}

fn refused(refusal: Refusal) -> Result<Reason, Flaw> {
    Err(Flaw { refusal, place: 0 })
}

fn waits_for(cpu: u64) -> Result<Reason, Flaw> {
    Ok(Reason::Held(Cpus::of(&[cpu])))
}

#[test]
fn the_log_says_why() {
    let host = updated();
    let (idle, held) = (Ok(Reason::NothingPrepared), refused(Refusal::CPU_HELD));
    let first = [idle, idle, idle, held, waits_for(1), held, held, idle];
    let second = [
        refused(Refusal::CPU_OFF),
        idle,
        idle,
        Ok(Reason::BeingPrepared(UPDATED)),
        waits_for(0),
        Ok(Reason::AllPresent),
        held,
        idle,
    ];
    for (place, both) in first.into_iter().zip(second).enumerate() {
        let told = (why(&host, place, 0), why(&host, place, 1));
        assert_eq!(told, both, "place {place}");
    }
}

/// The update again, but CPU 1 cancels the first preparation, and again; its job still gets done.
fn events_with_a_cancel() -> [Event; 11] {
    [
        call(0, [function::CPU_ON, 1, FIRST, 0xC1, 0]),
        image(UPDATED, 5),
        call(0, prime(UPDATED)),
        call(1, cancel(UPDATED)),
        call(1, cancel(UPDATED)),
        image(UPDATED, 6),
        prime_report(UPDATED, 0),
        call(1, prime(UPDATED)),
        prime_report(UPDATED, 0),
        call(0, activate(0, UPDATED)),
        call(1, activate(1, UPDATED)),
    ]
}

#[test]
fn a_withdrawn_preparation_ends_with_its_report() {
    let withdrawn = Ok((returned(0), Release::Nobody, State::Withdrawn(1)));
    let second = Freed {
        cpus: Cpus::of(&[1]),
        ..Freed::default()
    };
    let answers = [
        Ok((returned(0), resumed(&[1]), State::Idle)),
        Ok((Caller::Nothing, Release::Nobody, State::Idle)),
        Ok((Caller::PrimeStarted, Release::Nobody, State::Preparing(1))),
        withdrawn,
        withdrawn,
        Err(Refusal::IN_USE),
        Ok((Caller::Nothing, released(status(11)), State::Idle)),
        Ok((Caller::PrimeStarted, Release::Nobody, State::Preparing(1))),
        Ok((Caller::Nothing, Release::Returned(second), State::Ready(1))),
        Ok((Caller::Held, Release::Nobody, State::Gathering(1))),
        Ok((
            Caller::ActivationStarted,
            Release::Nobody,
            State::Together(1),
        )),
    ];
    let host = answered(events_with_a_cancel(), answers);
    assert_eq!(host.record.pending(UPDATED), Some(5));
}

/// The CANCELs and the report of code 0 decide, and only the second report finishes a preparation.
#[test]
fn the_log_of_a_withdrawn_preparation() {
    let host = after(events_with_a_cancel());
    let one = Some(UPDATED);
    let none = [0, 1, 2, 3, 1, 1, 1, 2].map(|looked| (None, looked));
    let expected = [&none[..], &[(one, 1), (one, 2), (one, 3)]].concat();
    assert_eq!(prepared_everywhere(&host), expected);
    let before: [&[u64]; 6] = [&[], &[], &[], &[0], &[0], &[0]];
    let after: [&[u64]; 5] = [&[], &[1], &[], &[0], &[0, 1]];
    check_cpus(&host, &[&before[..], &after].concat());
    let withdrawn = Ok(Reason::Withdrawn(UPDATED));
    let idle = Ok(Reason::NothingPrepared);
    let held = refused(Refusal::CPU_HELD);
    for (place, both) in [
        (3, (held, Ok(Reason::BeingPrepared(UPDATED)))),
        (4, (held, withdrawn)),
        (5, (held, withdrawn)),
        (6, (idle, idle)),
        (8, (waits_for(1), waits_for(0))),
    ] {
        let told = (why(&host, place, 0), why(&host, place, 1));
        assert_eq!(told, both, "place {place}");
    }
    let last = from_cpu(1, activate(1, UPDATED));
    let starts = (0..=10).map(|k| starts_at(&host.board, &host.log, k, &last));
    let expected = (0..=10).map(|k| Ok((k == 9).then_some(UPDATED)));
    assert!(starts.eq(expected));
}

/// A log that no agent writes: a host's, with one more CPU_ON at a place, of any number and with any X0.
fn with_on(host: &Host, place: usize, target: u64, given: u64) -> Vec<u8> {
    let (before, after) = host.log.split_at(place * RECORD_BYTES);
    let mut on = host.log[..RECORD_BYTES].to_vec();
    on[11..19].copy_from_slice(&target.to_be_bytes());
    on[43..].copy_from_slice(&given.to_be_bytes());
    [before, &on, after].concat()
}

#[test]
fn a_cpu_that_no_set_has_is_not_told() {
    let host = updated();
    for target in [2, 63, 64, 65, 1 << 32 | 1, u64::MAX] {
        let log = with_on(&host, 7, target, 0);
        let on = Cpus::of(&[0, 1, target]);
        assert_eq!(on.count(), if target < 64 { 3 } else { 2 });
        assert_eq!(cpus_at(&log, 8), [Ok(on), Ok(Cpus::default())]);
        let failed = with_on(&host, 7, target, status(2));
        let both = Cpus::of(&[0, 1]);
        assert_eq!(cpus_at(&failed, 8), [Ok(both), Ok(Cpus::default())]);
    }
}

/// A CPU_ON of any number that returned 0, anywhere before the call.
#[test]
fn nothing_starts_after_a_cpu_that_no_set_has() {
    let host = updated();
    let last = from_cpu(1, activate(1, UPDATED));
    let after_on = |place: usize, target: u64, given: u64| {
        let log = with_on(&host, place, target, given);
        starts_at(&host.board, &log, 6, &last).expect("a log")
    };
    for place in 0..=5 {
        for target in [63, 64, 65, 256, 1 << 32, u64::MAX] {
            assert_eq!(after_on(place, target, 0), None, "{target}");
            assert_eq!(after_on(place, target, status(2)), Some(UPDATED));
        }
        assert_eq!(after_on(place, 1, 0), Some(UPDATED), "place {place}");
    }
}

#[test]
fn only_the_right_call_starts() {
    let host = updated();
    let starts = |call| starts_at(&host.board, &host.log, 5, &call);
    let last = from_cpu(1, activate(1, UPDATED));
    let wrong = [
        Call { cpu: 0, ..last },
        Call { cpu: 2, ..last },
        Call {
            cpu: u64::MAX,
            ..last
        },
        Call {
            x0: function::PRIME,
            ..last
        },
        Call { x1: 0, ..last },
        Call { x2: 1, ..last },
        Call {
            x3: FIRST + 2,
            ..last
        },
    ];
    for call in wrong {
        assert_eq!(starts(call), Ok(None), "{call:?}");
    }
    assert_eq!(starts(Call { x4: 0, ..last }), Ok(Some(UPDATED)));
}
