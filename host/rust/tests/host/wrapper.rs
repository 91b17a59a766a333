//! The safe layer by itself: numbers to enums and back, and the words of refusals.

use std::error::Error;

use common::events::{activate_report, call, image, prime_report};
use lfa::{
    flat, prepared_at, Answer, Caller, Cpus, Event, Flaw, Freed, Reason, Record, Refusal,
    Registers, Release, State,
};

#[test]
fn states_from_numbers() {
    let with_component = [
        State::Preparing(7),
        State::HalfPrepared(7),
        State::Ready(7),
        State::Gathering(7),
        State::Together(7),
        State::Alone(7),
        State::HalfActivated(7),
    ];
    for (number, state) in (1..).zip(with_component) {
        assert_eq!(State::from_numbers(number, 7), Some(state));
    }
    assert_eq!(State::from_numbers(0, 0), Some(State::Idle));
    assert_eq!(State::from_numbers(8, 0), Some(State::Dead));
    assert_eq!(State::from_numbers(9, 7), Some(State::Withdrawn(7)));
    for (number, subject) in [(0, 1), (8, 1), (10, 0), (u64::MAX, 0)] {
        assert_eq!(State::from_numbers(number, subject), None);
    }
}

#[test]
fn events_have_the_kinds_of_the_log() {
    let events: [Event; 4] = [
        call(0, [0; 5]),
        prime_report(0, 0),
        activate_report(0, 0),
        image(0, 0),
    ];
    let kinds = events.map(|e| flat::Event::from(e).kind);
    assert_eq!(kinds, [1, 2, 3, 4]);
}

#[test]
fn answers_there_and_back() {
    let x = Registers {
        x0: 1,
        x1: 2,
        x2: 3,
        x3: 4,
    };
    let callers = [
        Caller::Nothing,
        Caller::Returned(x),
        Caller::Held,
        Caller::PrimeStarted,
        Caller::ActivationStarted,
        Caller::Gone,
    ];
    let freed = Freed {
        cpus: Cpus::of(&[1, 63]),
        x0: 5,
        x1: 6,
    };
    let releases = [
        Release::Nobody,
        Release::Returned(freed),
        Release::Resumed(freed.cpus),
    ];
    for (i, caller) in callers.into_iter().enumerate() {
        for (k, release) in releases.into_iter().enumerate() {
            let answer = Answer { caller, release };
            let numbers = flat::Answer::from(answer);
            assert_eq!((numbers.caller, numbers.release), (i as u64, k as u64));
            assert_eq!(Answer::from_flat(numbers), Ok(answer));
        }
    }
}

#[test]
#[should_panic(expected = "no caller's part has the number 6")]
fn another_number_is_no_caller_s_part() {
    let _ = Answer::from_flat(flat::Answer {
        caller: 6,
        ..flat::Answer::default()
    });
}

#[test]
#[should_panic(expected = "no release has the number 3")]
fn another_number_is_no_release() {
    let _ = Answer::from_flat(flat::Answer {
        release: 3,
        ..flat::Answer::default()
    });
}

#[test]
fn reasons_from_numbers() {
    let missing = Cpus::of(&[1, 63]);
    let reasons = [
        Reason::NothingPrepared,
        Reason::BeingPrepared(7),
        Reason::HalfPrepared(7),
        Reason::BoardDead,
        Reason::OtherComponent(7),
        Reason::OtherFlags,
        Reason::NotOptional,
        Reason::SkipInGathering,
        Reason::NoSkip,
        Reason::BadEntry,
        Reason::BeingActivated(7),
        Reason::Skipped,
        Reason::Held(missing),
        Reason::AllPresent,
        Reason::Withdrawn(7),
    ];
    for (number, reason) in (1..).zip(reasons) {
        let why = flat::Why {
            reason: number,
            component: 7,
            missing,
            ..flat::Why::default()
        };
        assert_eq!(Reason::from_flat(why), Ok(reason));
    }
}

#[test]
fn a_refusal_comes_before_a_reason() {
    let why = flat::Why {
        refusal: 35,
        place: 3,
        reason: 99,
        ..flat::Why::default()
    };
    let flaw = Flaw {
        refusal: Refusal::DEPARTS,
        place: 3,
    };
    assert_eq!(Reason::from_flat(why), Err(flaw));
}

#[test]
#[should_panic(expected = "no reason has the number 16")]
fn another_number_is_no_reason() {
    let _ = Reason::from_flat(flat::Why {
        reason: 16,
        ..flat::Why::default()
    });
}

#[test]
#[should_panic(expected = "no reason has the number 0")]
fn no_number_is_no_reason() {
    let _ = Reason::from_flat(flat::Why::default());
}

#[test]
fn sets_of_cpus() {
    let set = Cpus::of(&[0, 5, 63, 64, u64::MAX]);
    assert!(set.iter().eq([0, 5, 63]));
    assert_eq!(set.count(), 3);
    assert!(set.has(63) && !set.has(1) && !set.has(64) && !set.has(u64::MAX));
    assert!(!set.is_empty() && Cpus::default().is_empty());
}

#[test]
fn refusals_say_what_was_refused() {
    let refusal = Record::fresh(&[]).expect_err("too short");
    assert_eq!(refusal.to_string(), "refused 20: board: too short");
    let flaw = prepared_at(&[0; 51], 0).expect_err("no kind");
    assert_eq!(
        flaw.to_string(),
        "refused 32: kind, outcome or code unknown, at 0"
    );
    assert_eq!(
        flaw.source().map(|e| e.to_string()),
        Some(flaw.refusal.to_string())
    );
    let unheard_of = flat::Answer {
        refusal: 1000,
        ..flat::Answer::default()
    };
    let refusal = Answer::from_flat(unheard_of).expect_err("refused");
    assert_eq!(refusal.to_string(), "refused 1000: unknown refusal");
    assert_eq!(Refusal::LOG.number(), 33);
    assert_eq!(
        Refusal::DEPARTS.to_string(),
        "refused 35: log: the rules refuse a record's event, or answer it otherwise"
    );
    assert_eq!(
        Refusal::CLOSED.to_string(),
        "refused 36: lead: a delivery or a second close after a good close"
    );
    assert_eq!(
        Refusal::NO_READER.to_string(),
        "refused 37: lead: a state that no reader has"
    );
}
