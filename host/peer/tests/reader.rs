//! The plain reader, beside the agent: what is read off a log.

use common::boards::{packed, usual, PLAIN};
use common::convert::{peer_call, state_number, STATES};
use common::dice::Dice;
use common::events::{activate, activate_report, from_cpu};
use common::generate::{event, Mood};
use common::host::Host;
use common::pair::started_by;
use common::walk::Walk;
use peer::*;
use std::collections::{BTreeMap, BTreeSet};

/// The record of a call about this component or CPU, with an X0 of 0.
fn called(cpu: u64, function: Function, x1: u64, outcome: u64) -> LogRecord {
    LogRecord {
        kind: CALL,
        cpu,
        outcome,
        words: [function.number(), x1, 0, 0, 0, 0],
        ..LogRecord::default()
    }
}

fn log_of(records: &[LogRecord]) -> Vec<u8> {
    records.iter().flat_map(packed).collect()
}

#[test]
fn a_cancel_releases_only_those_held_for_activate() {
    // A log that no agent writes: CPUs are held for both calls at once.
    let log = log_of(&[
        called(0, Function::Prime, PLAIN, PRIME_STARTED),
        called(1, Function::Activate, PLAIN, HELD),
        called(2, Function::Cancel, PLAIN, RETURNED),
    ]);
    let held = [0, 1, 2, 3].map(|place| held_at(&log, place).expect("a log"));
    let sets: [&[u64]; 4] = [&[], &[0], &[0, 1], &[0]];
    assert_eq!(held, sets.map(|cpus| cpus.iter().copied().collect()));
}

#[test]
fn sets_have_no_room_for_a_cpu_of_64_or_more() {
    for target in [1, 63, 64, 65, 1 << 32, u64::MAX] {
        let log = log_of(&[called(0, Function::CpuOn, target, RETURNED)]);
        let on = [0, target].into_iter().filter(|&cpu| cpu < 64).collect();
        assert_eq!(powered_at(&log, 1), Ok(on));
        assert_eq!(held_at(&log, 1), Ok(CpuSet::default()));
    }
}

/// Both sets are refused with this number and place.
#[track_caller]
fn refused(log: &[u8], place: usize, number: u64, at: usize) {
    for told in [powered_at(log, place), held_at(log, place)] {
        let flaw = told.expect_err("refused");
        assert_eq!((flaw.refusal.number(), flaw.place), (number, at));
    }
}

#[test]
fn logs_that_tell_no_sets() {
    let walk = Walk::usual().withdrawn(PLAIN);
    let records = walk.records();
    refused(&walk.log, records + 1, 33, 0);
    refused(&walk.log, usize::MAX, 33, 0);
    let length = walk.log.len();
    for cut in (0..length).filter(|length| length % RECORD_BYTES != 0) {
        refused(&walk.log[..cut], 0, 33, 0);
    }
    for bad in 0..records {
        let mut log = walk.log.clone();
        log[RECORD_BYTES * bad + 2] |= 1;
        (0..=records).for_each(|place| refused(&log, place, 31, bad));
        log[RECORD_BYTES * bad] |= 0xE0;
        (0..=records).for_each(|place| refused(&log, place, 32, bad));
        refused(&log, records + 1, 33, 0);
    }
    let longest = walk.log[..RECORD_BYTES].repeat(MAX_RECORDS + 1);
    refused(&longest, 0, 33, 0);
    let full = &longest[RECORD_BYTES..];
    assert_eq!(powered_at(full, MAX_RECORDS), Ok(walk.record.on));
}

/// The log tells what an event starts, before the agent gets it.
fn step(walk: &mut Walk, event: &Event) -> Result<Answer, Refusal> {
    let read = match event {
        Event::Call(call) => starts_at(&walk.board, &walk.log, walk.records(), call),
        _ => Ok(None),
    };
    let answer = walk.step(event);
    assert_eq!(read, Ok(started_by(&answer, walk.record.state)));
    answer
}

#[test]
fn the_reader_agrees_with_the_agent() {
    let mut dice = Dice::new(19);
    let mut outcomes = BTreeMap::<u64, u64>::new();
    let mut states = BTreeSet::new();
    for turn in 0..400 {
        let board = usual(4, 1 + turn % 4);
        let mood = Mood::any(&mut dice, &board);
        let mut walk = Walk::of(board);
        for _ in 0..250 {
            let event = event(&mut dice, &walk.record, &mood);
            walk.check_reading();
            states.insert(state_number(walk.record.state));
            if let Ok(answer) = step(&mut walk, &event) {
                let outcome = logged(&event, &answer).outcome;
                *outcomes.entry(outcome).or_default() += 1;
            }
        }
    }
    println!("outcomes that the reader read: {outcomes:?}");
    let often: Vec<_> = outcomes.iter().filter(|(_, &count)| count > 100).collect();
    assert_eq!(often.len(), 7, "{outcomes:?}");
    assert!(states.into_iter().eq(0..STATES));
}

#[test]
fn an_earlier_place_of_a_longer_log() {
    let mut host = Host::usual().together(PLAIN);
    host.take(activate_report(PLAIN, 0));
    let last = peer_call(&from_cpu(1, activate(1, PLAIN)));
    let records = host.records();
    for place in 0..=records {
        let expected = (place == records - 2).then_some(PLAIN);
        assert_eq!(
            starts_at(&host.board, &host.log, place, &last),
            Ok(expected)
        );
        let log = Log::read(&host.log).expect("a log");
        let reading = Reading::of(&log.before(place).expect("a place"));
        assert_eq!(reading.starts(&host.peer.board, &last), expected);
    }
}
