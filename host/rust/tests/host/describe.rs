//! Board descriptions written from their parts.

use common::boards::{usual, LAST};
use common::convert::flat_board;
use common::host::{describe, fresh};
use lfa::{Board, Refusal};

/// The parts of the usual board of two components and four CPUs.
fn parts() -> Board {
    flat_board(&usual(2, 4))
}

/// The parts are refused with this number, and nothing is written.
fn refused(parts: &Board, room: usize, refusal: Refusal) {
    let mut buf = vec![0xA5; room];
    assert_eq!(describe(&mut buf, parts), Err(refusal));
    assert!(buf.iter().all(|&b| b == 0xA5));
}

#[test]
fn each_part_has_its_place() {
    let mut parts = parts();
    parts.first = 0x0102_0304_0506_0708;
    parts.last = 0x1112_1314_1516_1718;
    parts.component[1].svn = 0xA1A2_A3A4;
    let mut buf = [0xA5; 64];
    assert_eq!(describe(&mut buf, &parts), Ok(60));
    assert_eq!(buf[..2], [0x08, 0x60]);
    assert_eq!(buf[2..10], [1, 2, 3, 4, 5, 6, 7, 8]);
    assert_eq!(buf[10..18], parts.last.to_be_bytes());
    assert_eq!(buf[18..34], parts.component[0].uuid);
    assert_eq!(buf[34], 0x80);
    assert_eq!(buf[55..60], [0xC0, 0xA1, 0xA2, 0xA3, 0xA4]);
    assert_eq!(buf[60..], [0xA5; 4]);
    assert_eq!(*fresh(&buf[..60]).expect("a board").board(), parts);
}

/// Everything wrong at once, then put right in the order of refusal.
#[test]
fn the_first_refusal_is_given() {
    let mut wrong = parts();
    wrong.component[1].capable = 2;
    (wrong.components, wrong.first) = (33, LAST + 1);
    wrong.component[1].optional = 1;
    wrong.component[0].uuid = wrong.component[1].uuid;
    refused(&wrong, 59, Refusal::RESERVED_BIT);
    wrong.component[1].capable = 1;
    refused(&wrong, 59, Refusal::COUNT);
    wrong.components = 2;
    refused(&wrong, 59, Refusal::RANGE);
    wrong.first = LAST;
    refused(&wrong, 59, Refusal::BOTH_FLAGS);
    wrong.component[1].optional = 0;
    refused(&wrong, 59, Refusal::UUID_TWICE);
    wrong.component[0].uuid[0] ^= 1;
    refused(&wrong, 59, Refusal::NO_BOARD_ROOM);
    assert_eq!(describe(&mut [0; 60], &wrong), Ok(60));
}

#[test]
fn counts_have_limits() {
    for (components, cpus) in [(0, 4), (33, 4), (2, 0), (2, 65), (u64::MAX, u64::MAX)] {
        let mut parts = parts();
        (parts.components, parts.cpus) = (components, cpus);
        refused(&parts, 700, Refusal::COUNT);
    }
}

#[test]
fn flags_are_0_or_1() {
    for value in [2, 3, 128, 255] {
        for change in [
            |parts: &mut Board, value| parts.component[1].capable = value,
            |parts: &mut Board, value| parts.component[1].may_reset = value,
            |parts: &mut Board, value| parts.component[1].optional = value,
        ] {
            let mut parts = parts();
            change(&mut parts, value);
            refused(&parts, 60, Refusal::RESERVED_BIT);
        }
    }
}

/// Past the count nothing is looked at; with a count over the limit, all is.
#[test]
fn parts_past_the_count_do_not_matter() {
    let mut parts = parts();
    parts.component[2] = parts.component[0];
    parts.component[2].may_reset = 2;
    parts.component[2].optional = 255;
    assert_eq!(describe(&mut [0; 60], &parts), Ok(60));
    parts.components = 33;
    refused(&parts, 700, Refusal::RESERVED_BIT);
}
