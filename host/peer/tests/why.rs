//! Why an ACTIVATE is refused, held or started: request 1, by the peer alone.

use common::boards::{packed, usual, FIRST, FIXED, LAST, OPTIONAL, PLAIN, RESETS, SVN};
use common::convert::reason_number;
use common::dice::Dice;
use common::generate::{any_activate, event, Mood, PRIME_CODES};
use common::pair::check_why;
use common::walk::{ask, Walk};
use peer::*;
use std::collections::BTreeMap;

/// No multiple of 4, in the range.
const BAD: u64 = LAST;

fn logged_image(component: u64) -> LogRecord {
    LogRecord {
        kind: IMAGE,
        outcome: NOTED,
        words: [0, component, u64::from(SVN), 0, 0, 0],
        ..LogRecord::default()
    }
}

/// A report of one of the two kinds, and an X0 of 0.
fn logged_report(kind: u64, component: u64, code: u64) -> LogRecord {
    LogRecord {
        kind,
        code,
        outcome: RELEASED,
        words: [0, component, 0, 0, 0, 0],
        ..LogRecord::default()
    }
}

fn logged_version(cpu: u64) -> LogRecord {
    LogRecord {
        kind: CALL,
        cpu,
        outcome: RETURNED,
        words: [Function::Version.number(), 0, 0, 0, 0, 65536],
        ..LogRecord::default()
    }
}

fn held(missing: &[u64]) -> Reason {
    Reason::Held(missing.iter().copied().collect())
}

/// It is refused with this number and place.
#[track_caller]
fn refused(why: Result<Reason, Flaw>, number: u64, place: usize) {
    let flaw = why.expect_err("refused");
    assert_eq!((flaw.refusal.number(), flaw.place), (number, place));
}

/// A state of the -7 rows is the reason, whatever the registers are.
fn told_for_any_registers(walk: Walk, reason: Reason) {
    for component in (0..4).chain([99, u64::MAX]) {
        for flags in [0, 1, 2, 3, u64::MAX] {
            for entry in [FIRST, BAD] {
                assert_eq!(walk.why(1, [component, flags, entry, 0]), reason);
            }
        }
    }
}

#[test]
fn rows_of_7_name_the_state() {
    let idle = |walk| told_for_any_registers(walk, Reason::NothingPrepared);
    idle(Walk::usual());
    idle(Walk::usual().primed(PLAIN, 4));
    idle(Walk::usual().together(PLAIN).activated(PLAIN, 11));
    idle(Walk::usual().alone().activated(OPTIONAL, 0));
    idle(Walk::usual().gathering(PLAIN).cancelled(PLAIN));
    told_for_any_registers(Walk::usual().preparing(RESETS), Reason::Preparing(RESETS));
    let half = Walk::usual().primed(OPTIONAL, 1);
    told_for_any_registers(half, Reason::HalfPrepared(OPTIONAL));
    told_for_any_registers(Walk::usual().dead(), Reason::Dead);
    let withdrawn = Walk::usual().withdrawn(RESETS);
    told_for_any_registers(withdrawn.clone(), Reason::Withdrawn(RESETS));
    let again = withdrawn.cancelled(RESETS);
    told_for_any_registers(again, Reason::Withdrawn(RESETS));
}

/// Nothing is left of a CANCEL once its job's report is there.
#[test]
fn withdrawn_lasts_until_the_report() {
    for code in PRIME_CODES {
        let walk = Walk::usual().withdrawn(PLAIN).reported(PLAIN, code);
        told_for_any_registers(walk.clone(), Reason::NothingPrepared);
        let ready = walk.ready(PLAIN);
        assert_eq!(ready.why(1, [PLAIN, 0, 0, 0]), held(&[0]));
    }
}

/// What CPU 1 is told with each X2 and X3 in turn, after it asked with
/// everything wrong at once and put X1 right, and then the flags above bit 0.
fn told_in_order(walk: Walk, own: u64, rest: &[([u64; 2], Reason)]) {
    let first = [
        ([FIXED, 3, BAD], Reason::OtherComponent(own)),
        ([own, 3, BAD], Reason::OtherFlags),
        ([own, 2, BAD], Reason::OtherFlags),
    ];
    let rest = rest
        .iter()
        .map(|&([x2, x3], reason)| ([own, x2, x3], reason));
    for ([x1, x2, x3], reason) in first.into_iter().chain(rest) {
        let why = walk.why(1, [x1, x2, x3, u64::MAX]);
        assert_eq!(why, reason, "{:?}: {x1} {x2} {x3}", walk.record.state);
    }
}

#[test]
fn rules_come_in_their_order() {
    use Reason::*;
    let ready = |component| Walk::usual().ready(component);
    let gathering = |component| Walk::usual().gathering(component);
    let (skip, bad) = ([1, BAD], [0, BAD]);
    let good = [0, FIRST];
    let waits = held(&[0]);
    told_in_order(ready(PLAIN), PLAIN, &[(skip, NotOptional), (bad, waits)]);
    told_in_order(
        ready(RESETS),
        RESETS,
        &[(skip, NotOptional), (bad, BadEntry), (good, waits)],
    );
    told_in_order(ready(OPTIONAL), OPTIONAL, &[(skip, Skipped), (bad, waits)]);
    told_in_order(
        gathering(RESETS),
        RESETS,
        &[(skip, NotOptional), (bad, BadEntry), (good, AllPresent)],
    );
    told_in_order(
        gathering(OPTIONAL),
        OPTIONAL,
        &[(skip, SkipWhileGathering), (bad, AllPresent)],
    );
    told_in_order(
        Walk::usual().alone(),
        OPTIONAL,
        &[(bad, NoSkip), (skip, Alone(OPTIONAL))],
    );
    told_in_order(
        Walk::usual().half_activated(),
        OPTIONAL,
        &[(bad, NoSkip), (skip, Skipped)],
    );
}

#[test]
fn arguments_are_compared_whole() {
    let walk = Walk::usual().ready(OPTIONAL);
    let other = Reason::OtherComponent(OPTIONAL);
    for x1 in [PLAIN, 4, 32, OPTIONAL + 256, OPTIONAL | 1 << 32, u64::MAX] {
        assert_eq!(walk.why(1, [x1, 0, 0, 0]), other, "{x1}");
    }
    for bit in 1..64 {
        for skip in [0, 1] {
            let why = walk.why(1, [OPTIONAL, 1 << bit | skip, 0, 0]);
            assert_eq!(why, Reason::OtherFlags, "bit {bit}");
        }
    }
}

#[test]
fn entries_count_with_may_reset_alone() {
    for (entry, good) in [
        (0x1000, true),
        (0x1FFC, true),
        (0xFFC, false),
        (0x1FFE, false),
        (0x2000, false),
    ] {
        let reason = if good { held(&[0]) } else { Reason::BadEntry };
        let ready = |component| Walk::usual().ready(component);
        assert_eq!(ready(RESETS).why(1, [RESETS, 0, entry, 0]), reason);
        assert_eq!(ready(PLAIN).why(1, [PLAIN, 0, entry, 0]), held(&[0]));
    }
}

/// Powered, not held and not the caller: neither all CPUs, nor the caller.
#[test]
fn the_missing_are_powered_and_not_held() {
    let mut walk = Walk::usual().powered(5).powered(7).ready(PLAIN);
    let x = [PLAIN, 0, 0, 0];
    let why = |walk: &Walk, cpu| walk.why(cpu, x);
    assert_eq!(why(&walk, 0), held(&[1, 5, 7]));
    assert_eq!(why(&walk, 7), held(&[0, 1, 5]));
    walk = walk.activating(5, PLAIN, 0);
    assert_eq!(why(&walk, 0), held(&[1, 7]));
    assert_eq!(why(&walk, 1), held(&[0, 7]));
    walk = walk.activating(0, PLAIN, 0);
    assert_eq!(why(&walk, 1), held(&[7]));
    assert_eq!(why(&walk, 7), held(&[1]));
    walk = walk.activating(7, PLAIN, 0);
    assert_eq!(why(&walk, 1), Reason::AllPresent);
}

#[test]
fn a_cpu_that_went_off_is_not_missing() {
    let walk = Walk::usual()
        .powered(2)
        .ready(PLAIN)
        .call(2, Function::CpuOff, [0; 4]);
    assert_eq!(walk.why(1, [PLAIN, 0, 0, 0]), held(&[0]));
    let walk = walk.call(0, Function::CpuOff, [0; 4]);
    assert_eq!(walk.why(1, [PLAIN, 0, 0, 0]), Reason::AllPresent);
}

#[test]
fn one_cpu_on_is_all_present() {
    let walk = Walk::of(usual(4, 8)).ready(PLAIN);
    assert_eq!(walk.why(0, [PLAIN, 0, 0, 0]), Reason::AllPresent);
}

#[test]
fn a_full_board_misses_63() {
    let walk = (1..64).fold(Walk::of(usual(32, 64)), Walk::powered);
    let why = walk.ready(PLAIN).why(63, [PLAIN, 0, 0, 0]);
    assert_eq!(why, Reason::Held((0..63).collect()));
}

#[test]
fn earlier_arrivals_do_not_count() {
    let postponed = Walk::usual().together(PLAIN).activated(PLAIN, 2);
    assert_eq!(postponed.why(0, [PLAIN, 0, 0, 0]), held(&[1]));
    let cancelled = Walk::usual().gathering(PLAIN).cancelled(PLAIN).ready(PLAIN);
    assert_eq!(cancelled.why(1, [PLAIN, 0, 0, 0]), held(&[0]));
}

/// The incident: CPU 0 waits, CPU 1 tries in vain to switch CPU 5 on, and waits
/// too. What CPU 2 would have been told at each place.
#[test]
fn the_incident() {
    let walk = Walk::usual()
        .powered(2)
        .gathering(PLAIN)
        .call(1, Function::CpuOn, [5, FIRST, 0, 0])
        .activating(1, PLAIN, 0);
    assert_eq!(walk.logged_at(6).words[5], status(6));
    let call = ask(2, [PLAIN, 0, 0, 0]);
    let told: Vec<_> = (0..=walk.records())
        .map(|place| walk.why_at(place, &call).map_err(|flaw| flaw.refusal))
        .collect();
    let expected = [
        Err(Refusal::CpuOff),
        Err(Refusal::CpuOff),
        Ok(Reason::NothingPrepared),
        Ok(Reason::NothingPrepared),
        Ok(Reason::Preparing(PLAIN)),
        Ok(held(&[0, 1])),
        Ok(held(&[1])),
        Ok(held(&[1])),
        Ok(Reason::AllPresent),
    ];
    assert_eq!(told, expected);
}

#[test]
fn the_caller_is_refused_with_place_0() {
    let walk = Walk::usual().together(RESETS);
    let x = [RESETS, 0, FIRST, 0];
    let callers = [(1, 4), (2, 3), (7, 3), (8, 2), (64, 2), (u64::MAX, 2)];
    for (cpu, number) in callers {
        refused(walk.why_at(walk.records(), &ask(cpu, x)), number, 0);
    }
    // Held for PRIME, and so before the -7 of its row.
    for walk in [
        Walk::usual().preparing(PLAIN),
        Walk::usual().withdrawn(PLAIN),
    ] {
        refused(walk.why_at(walk.records(), &ask(0, x)), 4, 0);
    }
}

#[test]
fn a_length_or_place_that_is_wrong_is_33() {
    let walk = Walk::usual().ready(PLAIN);
    let call = ask(0, [PLAIN, 0, 0, 0]);
    let past = walk.records() + 1;
    for place in [past, past + 1, 1024, usize::MAX] {
        refused(walk.why_at(place, &call), 33, 0);
    }
    for length in (0..walk.log.len()).filter(|length| length % RECORD_BYTES != 0) {
        let cut = why_at(&walk.board, &walk.log[..length], 0, &call);
        refused(cut, 33, 0);
    }
    let images = |count| packed(&logged_image(PLAIN)).repeat(count);
    let full = why_at(&walk.board, &images(MAX_RECORDS), MAX_RECORDS, &call);
    assert_eq!(full, Ok(Reason::NothingPrepared));
    let longer = why_at(&walk.board, &images(MAX_RECORDS + 1), 0, &call);
    refused(longer, 33, 0);
}

/// A log with calls that returned or not, reports and an image.
fn long_walk() -> Walk {
    Walk::usual()
        .call(1, Function::GetInfo, [0; 4])
        .together(RESETS)
        .activated(RESETS, 2)
        .activating(0, RESETS, 0)
        .cancelled(RESETS)
        .withdrawn(RESETS)
        .reported(RESETS, 0)
        .call(1, Function::CpuOff, [0; 4])
        .ready(OPTIONAL)
        .activating(0, OPTIONAL, 1)
        .activated(OPTIONAL, 1)
}

#[test]
fn a_bad_record_is_found_anywhere() {
    let walk = long_walk();
    let records = walk.records();
    let call = ask(0, [OPTIONAL, 1, 0, 0]);
    for bad in 0..records {
        let mut reserved = walk.clone();
        reserved.bytes(bad)[2] |= 1;
        let mut unknown = walk.clone();
        unknown.bytes(bad)[0] |= 0xE0;
        for place in 0..=records {
            refused(reserved.why_at(place, &call), 31, bad);
            refused(unknown.why_at(place, &call), 32, bad);
            refused(unknown.why_at(records + 1, &call), 33, 0);
        }
        // The first one is given, whichever of the two it is.
        for later in bad + 1..records {
            reserved.bytes(later)[0] |= 0xE0;
            refused(reserved.why_at(records, &call), 31, bad);
        }
    }
}

/// The record at a place is not what the rules give: 35 with its place, for
/// every place after it, and for no other.
fn differs_at(changed: &Walk, bad: usize, unchanged: &Walk) {
    for cpu in 0..3 {
        let call = ask(cpu, [OPTIONAL, 1, 0, 0]);
        for place in 0..=changed.records() {
            let why = changed.why_at(place, &call);
            if place > bad {
                refused(why, 35, bad);
            } else {
                assert_eq!(why, unchanged.why_at(place, &call));
            }
        }
    }
}

#[test]
fn another_outcome_is_35() {
    let walk = long_walk();
    let mut changed = 0;
    for place in 0..walk.records() {
        let found = walk.logged_at(place);
        for outcome in (1..=5).filter(|&other| found.kind == CALL && other != found.outcome) {
            let mut record = found;
            (record.outcome, record.words[5]) = (outcome, 0);
            differs_at(&walk.clone().with(place, &record), place, &walk);
            changed += 1;
        }
    }
    assert_eq!(changed, 4 * 12);
}

#[test]
fn another_word_6_is_35() {
    let walk = long_walk();
    let mut changed = 0;
    for place in 0..walk.records() {
        let found = walk.logged_at(place);
        if let RETURNED | RELEASED = found.outcome {
            for bit in [0, 1, 31, 32, 63] {
                let mut record = found;
                record.words[5] ^= 1 << bit;
                differs_at(&walk.clone().with(place, &record), place, &walk);
                changed += 1;
            }
        }
    }
    assert_eq!(changed, 5 * 9);
}

#[test]
fn an_event_that_is_refused_is_35() {
    let long = long_walk();
    let everywhere = [
        logged_version(8),
        logged_version(7),
        logged_report(PRIME, FIXED, 0),
        logged_report(ACTIVATE, FIXED, 0),
        logged_image(FIXED),
    ];
    for record in everywhere {
        for place in 0..=long.records() {
            let changed = long.clone().with_inserted(place, &record);
            differs_at(&changed, place, &long);
        }
    }
    let gathering = Walk::usual().gathering(OPTIONAL);
    let alone = Walk::usual().alone();
    let withdrawn = Walk::usual().withdrawn(OPTIONAL);
    for (walk, record) in [
        (&gathering, logged_version(0)),
        (&gathering, logged_image(OPTIONAL)),
        (&alone, logged_report(ACTIVATE, OPTIONAL, 12)),
        (&withdrawn, logged_version(0)),
        (&withdrawn, logged_image(OPTIONAL)),
        (&withdrawn, logged_report(ACTIVATE, OPTIONAL, 0)),
    ] {
        let changed = walk.clone().with_inserted(walk.records(), &record);
        differs_at(&changed, walk.records(), walk);
    }
}

/// Words that the answer does not go by may be anything.
#[test]
fn an_event_that_is_answered_alike_is_no_35() {
    let walk = Walk::usual().gathering(PLAIN);
    let last = walk.records() - 1;
    let mut record = walk.logged_at(last);
    (record.words[0], record.words[3], record.words[4]) = (record.words[0] | 1 << 63, BAD, 9);
    let changed = walk.with(last, &record);
    assert_eq!(changed.why(1, [PLAIN, 0, 0, 0]), Reason::AllPresent);
}

#[test]
fn the_first_record_that_differs_is_given() {
    let walk = Walk::usual().powered(2).ready(PLAIN);
    let mut on = walk.logged_at(1);
    on.words[5] = status(4);
    let call = ask(0, [PLAIN, 0, 0, 0]);
    let end = walk.records();
    let later = walk.with(2, &logged_image(FIXED));
    refused(later.why_at(end, &call), 35, 2);
    let both = later.with(1, &on);
    refused(both.why_at(end, &call), 35, 1);
    assert!(both.why_at(1, &call).is_ok());
}

/// Bad boards by their refusals.
fn bad_boards(good: &[u8]) -> [(u64, Vec<u8>); 6] {
    let changed = |change: fn(&mut Vec<u8>)| {
        let mut board = good.to_vec();
        change(&mut board);
        board
    };
    [
        (20, changed(|board| board.truncate(38))),
        (21, changed(|board| board.push(0))),
        (22, changed(|board| board[1] |= 1)),
        (23, changed(|board| board[2] = 0xFF)),
        (24, changed(|board| board[34] |= 0x60)),
        (25, changed(|board| board.copy_within(18..34, 39))),
    ]
}

/// Everything wrong at once, then put right in the order of refusal.
#[test]
fn the_first_refusal_is_given() {
    let good = Walk::usual().powered(2).ready(PLAIN);
    let records = good.records();
    let off = ask(7, [PLAIN, 0, 0, 0]);
    let mut wrong = good.clone().with(2, &logged_image(FIXED));
    wrong.bytes(records - 1)[2] |= 1;
    for (number, board) in bad_boards(&wrong.board) {
        for place in [0, records, records + 1] {
            let why = why_at(&board, &wrong.log, place, &off);
            refused(why, number, 0);
            let why = why_at(&board, &wrong.log[1..], place, &off);
            refused(why, number, 0);
        }
    }
    refused(wrong.why_at(records + 1, &off), 33, 0);
    refused(wrong.why_at(records, &off), 31, records - 1);
    // Even where the bad record comes after the place, and the place after
    // the record that differs.
    refused(wrong.why_at(3, &off), 31, records - 1);
    wrong.bytes(records - 1)[2] &= !1;
    refused(wrong.why_at(records, &off), 35, 2);
    refused(wrong.why_at(2, &off), 3, 0);
    refused(good.why_at(records, &off), 3, 0);
    let on = Activate { cpu: 2, ..off };
    assert_eq!(good.why_at(records, &on), Ok(held(&[0, 1])));
}

#[test]
fn an_empty_log_has_nothing_prepared() {
    let walk = Walk::of(usual(4, 8));
    let idle = walk.why_at(0, &ask(0, [PLAIN, 0, 0, 0]));
    assert_eq!(idle, Ok(Reason::NothingPrepared));
    refused(walk.why_at(0, &ask(1, [0; 4])), 3, 0);
    refused(walk.why_at(1, &ask(0, [0; 4])), 33, 0);
}

#[test]
fn the_reason_names_the_agents_answer() {
    let mut dice = Dice::new(24);
    let mut reasons = BTreeMap::<u64, u64>::new();
    for turn in 0..200 {
        let board = usual(4, 1 + turn % 5);
        let mood = Mood::any(&mut dice, &board);
        let mut walk = Walk::of(board);
        for _ in 0..100 {
            let call = any_activate(&mut dice, &walk.record);
            let place = walk.records();
            let why = walk.why_at(place, &call);
            check_why(&dice, &walk.record, &walk.log, place, &call, why);
            if let Ok(reason) = why {
                *reasons.entry(reason_number(reason)).or_default() += 1;
            }
            let _ = walk.step(&event(&mut dice, &walk.record, &mood));
        }
    }
    println!("reasons: {reasons:?}");
    assert!(reasons.into_keys().eq(1..=15));
}
