//! A preparation that is cancelled while its job runs: request 3, by the peer
//! alone.

use common::boards::{packed, usual, FIRST, FIXED, OPTIONAL, PLAIN, RESETS, SVN};
use common::generate::PRIME_CODES;
use common::pair::with_x0;
use common::walk::{ask, call, image, Walk};
use peer::*;

/// The answer to an image.
const NOTHING: Answer = Answer {
    caller: Caller::Nothing,
    release: Release::Nobody,
};

fn cpus(list: &[u64]) -> CpuSet {
    list.iter().copied().collect()
}

fn cancel(cpu: u64, id: u64) -> Event {
    call(cpu, Function::Cancel, [id, 0, 0, 0])
}

/// A call that returned with this X0 and released nobody.
fn returned(x0: u64) -> Result<Answer, Refusal> {
    Ok(Answer {
        caller: Caller::Returned([x0, 0, 0, 0]),
        release: Release::Nobody,
    })
}

/// A report that let these CPUs go with -11.
fn given_up(list: &[u64]) -> Result<Answer, Refusal> {
    Ok(Answer {
        caller: Caller::Nothing,
        release: Release::Returned {
            cpus: cpus(list),
            x0: status(11),
            x1: 0,
        },
    })
}

/// It is answered so, and the record stays.
#[track_caller]
fn stays(walk: &Walk, event: Event, answer: Result<Answer, Refusal>) {
    let mut after = walk.clone();
    assert_eq!(after.step(&event), answer, "{event:?}");
    assert_eq!(after.record, walk.record, "{event:?}");
    after.check_reading();
}

/// Numbers that are not this component's.
fn others(component: u64) -> [u64; 7] {
    let other = (component + 1) % 4;
    [
        other,
        4,
        31,
        99,
        component + 256,
        component | 1 << 32,
        u64::MAX,
    ]
}

#[test]
fn a_cancel_in_preparing_changes_the_state_alone() {
    for component in [PLAIN, RESETS, OPTIONAL] {
        let preparing = Walk::usual().preparing(component);
        let mut walk = preparing.clone();
        assert_eq!(walk.step(&cancel(1, component)), returned(0));
        let expected = Record {
            state: State::Withdrawn(component),
            ..preparing.record
        };
        assert_eq!(walk.record, expected);
    }
}

/// By the record and by the log, which has to keep it apart from those that
/// are held for ACTIVATE.
#[test]
fn the_caller_of_prime_stays_held() {
    let mut walk = Walk::usual().powered(2).preparing(PLAIN);
    for cpu in [1, 2, 1] {
        assert_eq!(walk.step(&cancel(cpu, PLAIN)), returned(0));
        assert_eq!(walk.record.state, State::Withdrawn(PLAIN));
        assert_eq!(walk.record.held, cpus(&[0]));
        assert_eq!(held_at(&walk.log, walk.records()), Ok(cpus(&[0])));
        stays(&walk, cancel(0, PLAIN), Err(Refusal::CpuHeld));
    }
}

#[test]
fn another_id_is_8_before_and_after() {
    for walk in [
        Walk::usual().preparing(PLAIN),
        Walk::usual().withdrawn(PLAIN),
    ] {
        for id in others(PLAIN) {
            stays(&walk, cancel(1, id), returned(status(8)));
        }
    }
}

#[test]
fn the_row_of_withdrawn() {
    for component in [PLAIN, RESETS, OPTIONAL] {
        let mut walk = Walk::usual().withdrawn(component);
        assert_eq!(walk.step(&image((component + 1) % 3, SVN)), Ok(NOTHING));
        for id in (0..5).chain([99, u64::MAX]) {
            let prime = call(1, Function::Prime, [id, 0, 0, 0]);
            stays(&walk, prime, returned(status(2)));
            for flags in [0, 1, 2] {
                let activate = call(1, Function::Activate, [id, flags, FIRST, 0]);
                stays(&walk, activate, returned(status(7)));
            }
        }
        stays(&walk, cancel(1, component), returned(0));
    }
}

#[test]
fn images_for_its_component_are_8() {
    let mut walk = Walk::usual().withdrawn(PLAIN);
    for version in [0, SVN, SVN + 1] {
        let refused = Err(Refusal::ComponentInUse);
        stays(&walk, image(PLAIN, version), refused);
        stays(&walk, image(FIXED, version), Err(Refusal::NotCapable));
    }
    assert_eq!(walk.step(&image(RESETS, 0)), Ok(NOTHING));
    assert!(walk.record.pending[RESETS as usize]);
}

#[test]
fn every_allowed_report_leads_to_idle_with_11() {
    for component in [PLAIN, RESETS, OPTIONAL] {
        let withdrawn = Walk::usual().withdrawn(component);
        for code in (0..70).chain([1 << 32, status(11), u64::MAX]) {
            let report = Event::Prime(Report { component, code });
            if !PRIME_CODES.contains(&code) {
                stays(&withdrawn, report, Err(Refusal::CodeNotAllowed));
                continue;
            }
            let mut walk = withdrawn.clone();
            assert_eq!(walk.step(&report), given_up(&[0]), "code {code}");
            let expected = Record {
                state: State::Idle,
                held: cpus(&[]),
                ..withdrawn.record.clone()
            };
            assert_eq!(walk.record, expected, "code {code}");
            let record = walk.logged_at(walk.records() - 1);
            assert_eq!((record.code, record.words[5]), (code, status(11)));
            walk.check_reading();
        }
    }
}

#[test]
fn reports_without_that_job_are_5() {
    let walk = Walk::usual().withdrawn(PLAIN);
    for code in [0, 1, 11, 99] {
        for component in others(PLAIN) {
            let report = Report { component, code };
            stays(&walk, Event::Prime(report), Err(Refusal::NoSuchJob));
        }
        let component = PLAIN;
        let report = Report { component, code };
        stays(&walk, Event::Activate(report), Err(Refusal::NoSuchJob));
    }
}

/// The held CPU is on: the last one that runs may go off too, and the report
/// brings the held one back.
#[test]
fn power_calls_are_free() {
    let mut walk = Walk::usual().withdrawn(PLAIN);
    let on = call(1, Function::CpuOn, [2, FIRST, 7, 0]);
    let resumed = Answer {
        caller: Caller::Returned([0; 4]),
        release: Release::Resumed(cpus(&[2])),
    };
    assert_eq!(walk.step(&on), Ok(resumed));
    assert_eq!(walk.record.on, cpus(&[0, 1, 2]));
    walk.check_reading();
    for (cpu, left) in [(2, cpus(&[0, 1])), (1, cpus(&[0]))] {
        let off = call(cpu, Function::CpuOff, [0; 4]);
        let gone = walk.step(&off).map(|answer| answer.caller);
        assert_eq!(gone, Ok(Caller::Gone));
        assert_eq!(walk.record.on, left);
        assert_eq!(walk.record.state, State::Withdrawn(PLAIN));
        walk.check_reading();
    }
    let walk = walk.reported(PLAIN, 0);
    let last = call(0, Function::CpuOff, [0; 4]);
    stays(&walk, last, returned(status(3)));
}

/// The record of withdrawn with one thing changed.
fn changed(change: fn(&mut Record)) -> bool {
    let mut record = Walk::usual().powered(2).withdrawn(PLAIN).record;
    change(&mut record);
    record.is_well_formed()
}

#[test]
fn well_formed_as_preparing_is() {
    assert!(changed(|_| {}));
    assert!(changed(|record| record.held = CpuSet::only(2)));
    assert!(changed(|record| record.version[0] = SVN + 1));
    assert!(!changed(|record| record.held = CpuSet::default()));
    assert!(!changed(|record| record.held = record.held.with(1)));
    assert!(!changed(|record| record.held = record.on));
    assert!(!changed(|record| record.held = CpuSet::only(3)));
    assert!(!changed(|record| record.state = State::Withdrawn(RESETS)));
    assert!(!changed(|record| record.state = State::Withdrawn(FIXED)));
    assert!(!changed(|record| record.state = State::Withdrawn(4)));
    assert!(!changed(|record| record.version[0] = SVN - 1));
    assert!(!changed(|record| {
        (record.pending[0], record.version[0]) = (false, 0)
    }));
    assert!(!changed(|record| record.entry[0] = FIRST));
    assert!(!changed(|record| record.context[0] = 1));
}

/// What is prepared at each place, and how many records that takes.
fn prepared(log: &[u8]) -> Vec<(Option<u64>, usize)> {
    let places = 0..=log.len() / RECORD_BYTES;
    let found = places.map(|place| prepared_at(log, place).expect("a log"));
    found.map(|each| (each.component, each.looked)).collect()
}

/// The image stays: it is primed again, and then it is prepared.
#[test]
fn the_log_of_a_second_try() {
    let walk = Walk::usual().withdrawn(RESETS).reported(RESETS, 0);
    let walk = walk.call(1, Function::Prime, [RESETS, 0, 0, 0]);
    let walk = walk.reported(RESETS, 0).activating(0, RESETS, 0);
    let none = |looked| (None, looked);
    let before = [none(0), none(1), none(2), none(3), none(1), none(1)];
    let after = [none(2), (Some(RESETS), 1), (Some(RESETS), 2)];
    assert_eq!(prepared(&walk.log), [&before[..], &after].concat());
    let held = (0..=walk.records()).map(|place| held_at(&walk.log, place));
    let sets: [&[u64]; 9] = [&[], &[], &[], &[0], &[0], &[], &[1], &[], &[0]];
    assert!(held.eq(sets.map(|list| Ok(cpus(list)))));
    let last = with_x0(&ask(1, [RESETS, 0, FIRST, 0]));
    let starts = |place| starts_at(&walk.board, &walk.log, place, &last);
    let started: Vec<_> = (0..=walk.records())
        .filter_map(|at| starts(at).ok()?)
        .collect();
    assert_eq!((started, starts(8)), (vec![RESETS], Ok(Some(RESETS))));
}

/// The record of a prime report.
fn reported(component: u64, code: u64, given: u64) -> LogRecord {
    LogRecord {
        kind: PRIME,
        code,
        outcome: RELEASED,
        words: [0, component, 0, 0, 0, given],
        ..LogRecord::default()
    }
}

/// Whatever stands before it: word 6 by itself says whether code 0 finishes.
/// Code 1 decides nothing with any word 6.
#[test]
fn word_6_tells_whether_a_preparation_is_finished() {
    for given in [0, 1, 1 << 32, 1 << 63, status(11), u64::MAX] {
        for code in PRIME_CODES {
            let records = [reported(7, 0, 0), reported(9, code, given)];
            let log = records.map(|record| packed(&record)).concat();
            let expected = match (code, given) {
                (1, _) => (Some(7), 2),
                (0, 0) => (Some(9), 1),
                _ => (None, 1),
            };
            let found = prepared(&log);
            assert_eq!(found[1..], [(Some(7), 1), expected], "{code} {given}");
        }
    }
}

/// A single CPU would start whatever is prepared.
#[test]
fn nothing_starts_by_a_preparation_that_is_not_finished() {
    let walk = Walk::of(usual(4, 1));
    let activate = with_x0(&ask(0, [PLAIN, 0, 0, 0]));
    for given in [0, 1, 1 << 63, status(11)] {
        let log = packed(&reported(PLAIN, 0, given));
        let expected = (given == 0).then_some(PLAIN);
        assert_eq!(starts_at(&walk.board, &log, 1, &activate), Ok(expected));
    }
}
