//! Document 01's table of rules and its lists of report codes, cell by cell.

use common::boards::{FIRST, FIXED, OPTIONAL, PLAIN, RESETS, SVN};
use common::events::*;
use common::host::{in_every_state, returned, Host};
use lfa::{function, status, Caller, Cpus, Freed, Refusal, Release, State};

/// A host with its state's component, the skip flag that fits, and what CPU 1 gets by PRIME, ACTIVATE and CANCEL.
type Row = (Host, u64, u64, Caller, Caller, Caller);

/// An image is pending.
fn idle() -> Host {
    let mut host = Host::usual();
    host.take(image(PLAIN, SVN));
    host
}

fn says(k: u64) -> Caller {
    returned(status(k))
}

// In together no caller exists: see the refusals.
#[rustfmt::skip]
fn rows() -> [Row; 10] {
    let primes = Caller::PrimeStarted;
    let starts = Caller::ActivationStarted;
    let held = Caller::Held;
    let with_two = |host: Host| host.powered(2);
    [
        (with_two(idle()), PLAIN, 0, primes, says(7), says(0)),
        (with_two(Host::usual()).preparing(PLAIN), PLAIN, 0, says(2), says(7), says(0)),
        (with_two(Host::usual().half_prepared(PLAIN)), PLAIN, 0, primes, says(7), says(0)),
        (with_two(Host::usual().ready(PLAIN)), PLAIN, 0, says(7), held, says(0)),
        (with_two(Host::usual().ready(OPTIONAL)), OPTIONAL, 1, says(7), starts, says(0)),
        (Host::usual().gathering(PLAIN), PLAIN, 0, says(7), starts, says(0)),
        (Host::usual().alone(), OPTIONAL, 1, says(7), says(2), says(2)),
        (Host::usual().half_activated(), OPTIONAL, 1, says(7), starts, says(0)),
        (Host::usual().dead(), PLAIN, 0, says(7), says(7), says(0)),
        (with_two(Host::usual()).withdrawn(PLAIN), PLAIN, 0, says(2), says(7), says(0)),
    ]
}

#[test]
fn each_state_answers_prime_activate_and_cancel() {
    for (host, component, flags, prime_given, activate_given, cancel_given) in rows() {
        let state = host.record.state();
        let by = |x: [u64; 5]| host.clone().call(1, x);
        let answers = [
            by(prime(component)),
            by([function::ACTIVATE, component, flags, 0, 0]),
            by(cancel(component)),
        ];
        let given = [prime_given, activate_given, cancel_given];
        assert_eq!(answers, given, "{state:?}");
    }
}

#[test]
fn cancel_leads_to_idle_or_withdrawn() {
    for (mut host, component, .., cancel_given) in rows() {
        let (before, held) = (host.record.state(), host.record.held());
        let answer = host.take(call(1, cancel(component)));
        let (after, release) = match before {
            State::Dead => (State::Dead, Release::Nobody),
            State::Gathering(_) => (State::Idle, released(held, 11)),
            State::Preparing(c) => (State::Withdrawn(c), Release::Nobody),
            State::Withdrawn(_) => (before, Release::Nobody),
            _ if cancel_given == says(0) => (State::Idle, Release::Nobody),
            _ => (before, Release::Nobody),
        };
        assert_eq!(
            (answer.release, host.record.state()),
            (release, after),
            "{before:?}"
        );
    }
}

/// Numbers that are not this component's.
fn others(component: u64) -> [u64; 6] {
    [RESETS, FIXED, 4, 99, 1 << 32 | component, u64::MAX]
}

/// What CPU 1 gets by PRIME, ACTIVATE and CANCEL for another component than the state's.
fn for_another(state: State) -> [Caller; 3] {
    match state {
        State::Idle | State::Dead => [says(7), says(7), says(0)],
        State::Preparing(_) | State::Withdrawn(_) => [says(2), says(7), says(8)],
        State::HalfPrepared(_) => [says(7), says(7), says(8)],
        _ => [says(7), says(8), says(8)],
    }
}

#[test]
fn another_id_is_not_the_states() {
    for (host, component, ..) in rows() {
        let state = host.record.state();
        let by = |x: [u64; 5]| host.clone().call(1, x);
        for id in others(component) {
            let [prime_given, activate_given, cancel_given] = for_another(state);
            assert_eq!(by(prime(id)), prime_given, "{state:?}");
            assert_eq!(by(activate(1, id)), activate_given, "{state:?}");
            assert_eq!(by(skip(id)), activate_given, "{state:?}");
            assert_eq!(by(cancel(id)), cancel_given, "{state:?}");
        }
    }
}

#[test]
fn half_prepared_takes_only_its_own() {
    let mut host = Host::usual().half_prepared(PLAIN);
    host.take(image(RESETS, SVN));
    host.returns(0, prime(RESETS), status(7));
    assert_eq!(host.call(0, prime(PLAIN)), Caller::PrimeStarted);
    assert_eq!(host.record.held(), Cpus::of(&[0]));
}

/// What CPU_ON of CPU 2 and CPU_OFF give CPU 1.
fn power_calls(state: State) -> [Caller; 2] {
    match state {
        State::Gathering(_) | State::Alone(_) | State::HalfActivated(_) => [says(6), says(3)],
        _ => [says(0), Caller::Gone],
    }
}

#[test]
fn power_calls_are_free_or_frozen() {
    for (host, ..) in rows() {
        let state = host.record.state();
        let by = |x: [u64; 5]| {
            let mut host = host.clone();
            (host.call(1, x), host.record.on())
        };
        let [on, off] = power_calls(state);
        let are_on = |cpus: &[u64], frozen| Cpus::of(if frozen { &[0, 1] } else { cpus });
        let after_on = are_on(&[0, 1, 2], on != says(0));
        let after_off = are_on(&[0], off != Caller::Gone);
        assert_eq!(by(cpu_on(2)), (on, after_on), "{state:?}");
        assert_eq!(by(CPU_OFF), (off, after_off), "{state:?}");
    }
}

#[test]
fn power_calls_say_what_is_wrong() {
    Host::usual().returns(0, CPU_OFF, status(3));
    for (mut host, ..) in rows() {
        let mut on = |target, entry, k| {
            host.returns(1, [function::CPU_ON, target, entry, 0, 0], status(k));
        };
        on(4, 0, 2);
        on(1 << 32, FIRST, 2);
        on(0, 0, 9);
        on(0, FIRST, 4);
    }
}

#[test]
fn the_last_cpu_stays_on() {
    let mut host = Host::usual().powered(2);
    assert_eq!(host.call(0, CPU_OFF), Caller::Gone);
    host.returns(1, CPU_OFF, status(3));
    assert_eq!(host.tell(call(0, CPU_OFF)), Err(Refusal::CPU_OFF));
    let answer = host.take(call(1, cpu_on(0)));
    assert_eq!(answer.release, Release::Resumed(Cpus::of(&[0])));
}

#[test]
fn a_held_cpu_keeps_the_board_on() {
    let three = || Host::usual().powered(3);
    for (mut host, code) in [
        (three().preparing(PLAIN), 0),
        (three().withdrawn(PLAIN), 11),
    ] {
        assert_eq!(host.call(1, CPU_OFF), Caller::Gone);
        assert_eq!(host.call(2, CPU_OFF), Caller::Gone);
        let answer = host.take(prime_report(PLAIN, 0));
        assert_eq!(answer.release, released(Cpus::of(&[0]), code));
    }
}

#[test]
fn activate_says_what_is_wrong() {
    let flags_and_bad_entry = [function::ACTIVATE, RESETS, 2, 0, 0];
    let no_skip = [function::ACTIVATE, OPTIONAL, 0, 0, 0];
    let skip_and_bad_entry = [function::ACTIVATE, RESETS, 1, 3, 0];
    let mut resets = Host::usual().ready(RESETS);
    resets.returns(0, flags_and_bad_entry, status(8));
    resets.returns(0, skip_and_bad_entry, status(8));
    resets.returns(0, [function::ACTIVATE, RESETS, 0, 3, 0], status(10));
    Host::usual()
        .ready(PLAIN)
        .returns(0, skip(PLAIN), status(8));
    Host::usual().ready(PLAIN).returns(0, no_skip, status(8));
    let mut gathering = Host::usual().gathering(OPTIONAL);
    gathering.returns(1, skip(OPTIONAL), status(8));
    Host::usual().alone().returns(1, no_skip, status(8));
    Host::usual()
        .half_activated()
        .returns(0, no_skip, status(8));
}

#[test]
fn flags_that_do_not_fit_are_wrong() {
    for (mut host, component, ..) in rows() {
        let k = match host.record.state() {
            State::Idle | State::Preparing(_) | State::HalfPrepared(_) => 7,
            State::Dead | State::Withdrawn(_) => 7,
            _ => 8,
        };
        // Skip is for optional components alone.
        let skip = (component == PLAIN).then_some(1);
        let above_bit_0 = [2, 3, 1 << 32, 1 << 32 | 1, u64::MAX];
        for flags in above_bit_0.into_iter().chain(skip) {
            let x = [function::ACTIVATE, component, flags, FIRST, 0];
            host.returns(1, x, status(k));
        }
    }
}

#[test]
fn entries_are_kept_with_may_reset_alone() {
    for (component, entry, context) in [(PLAIN, 0, 0), (RESETS, FIRST, 100)] {
        let host = Host::usual().gathering(component);
        let rec = host.record.as_flat();
        assert_eq!(rec.entry[..2], [entry, 0]);
        assert_eq!(rec.context[..2], [context, 0]);
    }
    let mut host = Host::usual().powered(2).ready(PLAIN);
    let bad_entry = [function::ACTIVATE, PLAIN, 0, 3, 5];
    assert_eq!(host.call(1, bad_entry), Caller::Held);
}

/// Every number a report could have, and some more.
fn codes() -> impl Iterator<Item = u64> {
    (0..70).chain([u64::MAX, 1 << 32, status(2)])
}

/// The status that a code releases with.
fn released(cpus: Cpus, code: u64) -> Release {
    Release::Returned(Freed {
        cpus,
        x0: if code == 1 { 0 } else { status(code) },
        x1: u64::from(code == 1),
    })
}

/// The state after a prime report and the code that CPUs are released with, if the code is allowed.
fn after_prime(state: State, code: u64) -> Option<(State, u64)> {
    match (state, code) {
        (State::Withdrawn(_), 0 | 1 | 3 | 4 | 6 | 11) => Some((State::Idle, 11)),
        (State::Preparing(c), 0) => Some((State::Ready(c), code)),
        (State::Preparing(c), 1) => Some((State::HalfPrepared(c), code)),
        (State::Preparing(_), 3 | 4 | 6 | 11) => Some((State::Idle, code)),
        _ => None,
    }
}

#[test]
fn prime_reports() {
    let two = || Host::usual().powered(2);
    for host in [two().preparing(PLAIN), two().withdrawn(PLAIN)] {
        for code in codes() {
            check_prime_report(host.clone(), code);
        }
    }
}

fn check_prime_report(mut host: Host, code: u64) {
    let before = host.record.state();
    let answer = host.tell(prime_report(PLAIN, code));
    let held = Cpus::of(&[0]);
    let expected = match after_prime(before, code) {
        Some((next, given)) => Ok((Caller::Nothing, released(held, given), next)),
        None => Err(Refusal::CODE),
    };
    let seen = answer.map(|a| (a.caller, a.release, host.record.state()));
    assert_eq!(seen, expected, "{before:?}, code {code}");
    assert_eq!(host.record.pending(PLAIN), Some(SVN));
}

/// The state after an activate report, if the code is allowed.
fn after_activation(state: State, code: u64) -> Option<State> {
    match (state, code) {
        (_, 0 | 3 | 4 | 6 | 9 | 11) => Some(State::Idle),
        (State::Together(RESETS), 12) => Some(State::Idle),
        (State::Alone(c), 1) => Some(State::HalfActivated(c)),
        (State::Together(c) | State::Alone(c), 2) => Some(State::Ready(c)),
        (_, 5) => Some(State::Dead),
        _ => None,
    }
}

#[test]
fn activate_reports() {
    let informed = || {
        let mut host = Host::usual();
        host.call(0, GET_INFO);
        host
    };
    let hosts = [
        (informed().together(PLAIN), PLAIN),
        (informed().together(RESETS), RESETS),
        (informed().together(OPTIONAL), OPTIONAL),
        (informed().alone(), OPTIONAL),
    ];
    for (host, component) in hosts {
        for code in codes() {
            check_activate_report(host.clone(), component, code);
        }
    }
}

fn check_activate_report(mut host: Host, component: u64, code: u64) {
    let before = host.record.state();
    let held = host.record.held();
    let answer = host.tell(activate_report(component, code));
    let (next, image) = (host.record.state(), host.record.pending(component));
    let seen = answer.map(|a| (a.release, next, image));
    let (release, pending) = match code {
        12 => (Release::Resumed(held), None),
        0 => (released(held, 0), None),
        _ => (released(held, code), Some(SVN)),
    };
    let expected = match after_activation(before, code) {
        Some(next) => Ok((release, next, pending)),
        None => Err(Refusal::CODE),
    };
    assert_eq!(seen, expected, "{before:?}, code {code}");
    assert_eq!(
        host.record.is_informed(),
        image.is_some(),
        "{before:?}, code {code}"
    );
}

#[test]
fn images_replace_older_ones() {
    for mut host in in_every_state(PLAIN) {
        host.take(image(RESETS, 9));
        host.take(image(RESETS, 0));
        assert_eq!(host.record.pending(RESETS), Some(0));
    }
}
