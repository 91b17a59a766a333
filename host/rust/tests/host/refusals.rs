//! Every refusal of an event and of a board, and that a refused event changes nothing.

use common::boards::{described, usual, FIXED, OPTIONAL, PLAIN, RESETS};
use common::convert::zero_record;
use common::events::*;
use common::host::{fresh, in_every_state, Host};
use lfa::{flat, Event, Refusal, State};

/// The event is refused with this number; that record and tables stay, the host looks at.
fn refused(mut host: Host, event: Event, refusal: Refusal) {
    assert_eq!(host.tell(event), Err(refusal), "{event:?}");
}

#[test]
fn numbers_are_document_01s() {
    let events = [
        Refusal::SHORT_TABLE,
        Refusal::NO_SUCH_CPU,
        Refusal::CPU_OFF,
        Refusal::CPU_HELD,
        Refusal::NO_JOB,
        Refusal::CODE,
        Refusal::COMPONENT,
        Refusal::IN_USE,
        Refusal::NOT_WELL_FORMED,
    ];
    assert!(events.iter().map(|r| r.number()).eq(1..=9));
    let boards = [
        Refusal::BOARD_TOO_SHORT,
        Refusal::BOARD_TOO_LONG,
        Refusal::RESERVED_BIT,
        Refusal::RANGE,
        Refusal::BOTH_FLAGS,
        Refusal::UUID_TWICE,
        Refusal::COUNT,
        Refusal::NO_BOARD_ROOM,
    ];
    assert!(boards.iter().map(|r| r.number()).eq(20..=27));
    let logs = [
        Refusal::LOG_TOO_SHORT,
        Refusal::FIELD,
        Refusal::UNKNOWN,
        Refusal::LOG,
        Refusal::NO_ROOM,
    ];
    assert!(logs.iter().map(|r| r.number()).eq(30..=34));
    // Document 02's.
    assert_eq!(Refusal::DEPARTS.number(), 35);
}

#[test]
fn a_short_table_is_1() {
    for (entries, contexts) in [(3, 4), (4, 3), (0, 4), (4, 0), (0, 0)] {
        let mut host = Host::usual();
        host.entries.truncate(entries);
        host.contexts.truncate(contexts);
        let calls = [call(0, VERSION), call(99, VERSION), call(99, [0; 5])];
        let reports = [prime_report(PLAIN, 0), activate_report(PLAIN, 0)];
        let images = [image(PLAIN, 5), image(FIXED, 5)];
        for event in calls.into_iter().chain(reports).chain(images) {
            refused(host.clone(), event, Refusal::SHORT_TABLE);
        }
    }
}

#[test]
fn longer_tables_are_fine_and_stay_past_the_count() {
    let mut host = Host::usual();
    host.entries.resize(100, 1);
    host.contexts.resize(80, 2);
    host.power(3);
    assert!(host.entries[4..].iter().all(|&x| x == 1));
    assert!(host.contexts[4..].iter().all(|&x| x == 2));
}

#[test]
fn a_call_from_no_cpu_is_2() {
    for cpu in [4, 63, 64, u64::MAX] {
        refused(Host::usual(), call(cpu, VERSION), Refusal::NO_SUCH_CPU);
    }
}

#[test]
fn a_call_from_a_cpu_that_is_off_is_3() {
    refused(Host::usual(), call(1, VERSION), Refusal::CPU_OFF);
    refused(
        Host::usual().together(PLAIN),
        call(3, VERSION),
        Refusal::CPU_OFF,
    );
}

#[test]
fn a_call_from_a_held_cpu_is_4() {
    for host in in_every_state(PLAIN) {
        for cpu in host.record.held().iter() {
            refused(host.clone(), call(cpu, VERSION), Refusal::CPU_HELD);
        }
    }
    let held = in_every_state(PLAIN).map(|host| host.record.held().count());
    assert_eq!(held, [0, 1, 0, 0, 1, 2, 1, 0, 0, 1]);
}

#[test]
fn a_report_without_its_job_is_5() {
    for host in in_every_state(PLAIN) {
        let state = host.record.state();
        for id in (0..5).chain([u64::MAX]) {
            let prime_runs = [State::Preparing(id), State::Withdrawn(id)].contains(&state);
            let activate_runs = [State::Together(id), State::Alone(id)].contains(&state);
            for code in [0, 99].into_iter().filter(|_| !prime_runs) {
                refused(host.clone(), prime_report(id, code), Refusal::NO_JOB);
            }
            for code in [0, 99].into_iter().filter(|_| !activate_runs) {
                refused(host.clone(), activate_report(id, code), Refusal::NO_JOB);
            }
        }
    }
}

#[test]
fn a_code_that_is_not_allowed_is_6() {
    let preparing = Host::usual().preparing(PLAIN);
    refused(preparing, prime_report(PLAIN, 2), Refusal::CODE);
    let withdrawn = Host::usual().powered(2).withdrawn(PLAIN);
    refused(withdrawn, prime_report(PLAIN, 2), Refusal::CODE);
    let together = Host::usual().together(PLAIN);
    refused(together.clone(), activate_report(PLAIN, 1), Refusal::CODE);
    refused(together, activate_report(PLAIN, 12), Refusal::CODE);
    refused(
        Host::usual().alone(),
        activate_report(OPTIONAL, 12),
        Refusal::CODE,
    );
}

#[test]
fn an_image_for_no_capable_component_is_7() {
    for host in in_every_state(PLAIN) {
        for c in [FIXED, 4, 31, 32, 1 << 32, u64::MAX] {
            refused(host.clone(), image(c, 5), Refusal::COMPONENT);
        }
    }
}

#[test]
fn an_image_for_the_states_component_is_8() {
    let subjects = [RESETS, RESETS, RESETS, RESETS, RESETS, OPTIONAL, OPTIONAL];
    let [mut idle, of_a_component @ .., mut dead, withdrawn] = in_every_state(RESETS);
    for (host, subject) in of_a_component.into_iter().zip(subjects) {
        refused(host, image(subject, 6), Refusal::IN_USE);
    }
    refused(withdrawn, image(RESETS, 6), Refusal::IN_USE);
    idle.take(image(RESETS, 6));
    dead.take(image(PLAIN, 6));
}

/// An event of a kind that is none is refused with this number, and record and tables stay.
fn no_kind_refused(rec: flat::Record, length: usize, refusal: u64) {
    for kind in [0, 5, 7, u64::MAX] {
        let event = flat::Event {
            kind,
            ..flat::Event::default()
        };
        let mut after = rec;
        let (mut entries, mut contexts) = (vec![1; length], vec![2; length]);
        let answer = flat::step(&mut after, event, &mut entries, &mut contexts);
        assert_eq!(answer, only(refusal), "kind {kind}, tables of {length}");
        assert_eq!(after, rec);
        assert_eq!((entries, contexts), (vec![1; length], vec![2; length]));
    }
}

#[test]
fn an_event_of_unknown_kind_is_32() {
    for length in [4, 5, 64] {
        no_kind_refused(*Host::usual().record.as_flat(), length, 32);
    }
}

#[test]
fn a_short_table_comes_before_an_unknown_kind() {
    for length in 0..4 {
        no_kind_refused(*Host::usual().record.as_flat(), length, 1);
    }
}

#[test]
fn a_damaged_record_comes_before_an_unknown_kind() {
    let good = *Host::usual().record.as_flat();
    let damaged = [
        flat::Record {
            informed: 2,
            ..good
        },
        flat::Record { state: 10, ..good },
        flat::Record { subject: 1, ..good },
        flat::Record {
            on: flat::Cpus::default(),
            ..good
        },
    ];
    for rec in damaged {
        no_kind_refused(rec, 4, 9);
        no_kind_refused(rec, 0, 9);
    }
}

/// A refused answer: its number, and all else 0.
fn only(refusal: u64) -> flat::Answer {
    flat::Answer {
        refusal,
        ..flat::Answer::default()
    }
}

#[test]
fn a_refused_answer_has_only_its_number() {
    let mut rec = *Host::usual().record.as_flat();
    let event = call(1, [u64::MAX; 5]).into();
    let answer = flat::step(&mut rec, event, &mut [0; 4], &mut [0; 4]);
    assert_eq!(answer, only(3));
}

#[test]
fn fields_that_the_kind_does_not_name_are_ignored() {
    let fresh = *Host::usual().record.as_flat();
    let noise = flat::Event {
        kind: 0,
        call: flat::Call {
            cpu: u64::MAX,
            x0: 1,
            x1: 2,
            x2: 3,
            x3: 4,
            x4: 5,
        },
        report: flat::Report {
            component: 99,
            code: 99,
        },
        image: flat::Image {
            component: 99,
            version: 99,
        },
    };
    let plain = flat::Event::from(image(PLAIN, 7));
    let noisy = flat::Event {
        kind: plain.kind,
        image: plain.image,
        ..noise
    };
    let (mut a, mut b) = (fresh, fresh);
    let answer = flat::step(&mut a, plain, &mut [0; 4], &mut [0; 4]);
    assert_eq!(flat::step(&mut b, noisy, &mut [0; 4], &mut [0; 4]), answer);
    assert_eq!(answer.refusal, 0);
    assert_eq!(a, b);
    assert_eq!(flat::log(&mut [0; 51], noisy, answer).bytes, 51);
}

/// A board is refused with this number, and a record of zeros.
fn board_refused(board: &[u8], refusal: Refusal) {
    assert_eq!(fresh(board), Err(refusal));
    let fresh = flat::fresh(board);
    assert_eq!(fresh.refusal, refusal.number());
    assert_eq!(fresh.rec, zero_record());
}

/// The usual board's description.
fn board() -> Vec<u8> {
    described(&usual(4, 4))
}

/// The place of a component's flags in a description; its UUID is before them.
const fn flags_of(component: usize) -> usize {
    18 + 21 * component + 16
}

#[test]
fn a_board_that_is_too_short_is_20() {
    let board = board();
    for length in 0..board.len() {
        board_refused(&board[..length], Refusal::BOARD_TOO_SHORT);
    }
}

#[test]
fn a_board_that_is_too_long_is_21() {
    let mut board = board();
    board.push(0);
    board_refused(&board, Refusal::BOARD_TOO_LONG);
}

#[test]
fn a_reserved_bit_is_22() {
    for bit in 0..5 {
        for place in [1, flags_of(0), flags_of(1)] {
            let mut board = board();
            board[place] |= 1 << bit;
            board_refused(&board, Refusal::RESERVED_BIT);
        }
    }
}

#[test]
fn a_range_that_ends_before_it_begins_is_23() {
    let mut board = board();
    board[2] = 1;
    board_refused(&board, Refusal::RANGE);
}

#[test]
fn optional_with_may_reset_is_24() {
    let mut board = board();
    board[flags_of(PLAIN as usize)] |= 0x60;
    board_refused(&board, Refusal::BOTH_FLAGS);
}

#[test]
fn a_uuid_twice_is_25() {
    for other in 1..4 {
        let mut board = board();
        board.copy_within(18..34, flags_of(other) - 16);
        board_refused(&board, Refusal::UUID_TWICE);
    }
}

#[test]
fn the_first_refusal_of_a_board_is_given() {
    let mut bad = board();
    bad.copy_within(18..34, flags_of(1) - 16);
    board_refused(&bad, Refusal::UUID_TWICE);
    bad[flags_of(2)] |= 0x60;
    board_refused(&bad, Refusal::BOTH_FLAGS);
    bad[2] = 1;
    board_refused(&bad, Refusal::RANGE);
    bad[1] |= 1;
    board_refused(&bad, Refusal::RESERVED_BIT);
    let short = bad.len() - 1;
    board_refused(&bad[..short], Refusal::BOARD_TOO_SHORT);
    bad.push(0);
    board_refused(&bad, Refusal::BOARD_TOO_LONG);
}
