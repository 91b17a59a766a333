//! Packed board descriptions, good and bad.

use crate::clauses::dice_flag;
use common::boards::{any, any_of, described};
use common::convert::{flat_board, refusal_of};
use common::dice::Dice;
use common::pair::{describe, read_board};
use lfa::flat;
use peer::{MAX_COMPONENTS, MAX_CPUS};
use std::collections::BTreeMap;

/// Reads a description on both sides and tells the refusal, or 0.
fn compare(dice: &mut Dice, bytes: &[u8]) -> u64 {
    dice.next_step();
    refusal_of(&read_board(dice, bytes))
}

/// Breaks a description in one way or another.
pub fn damage(dice: &mut Dice, bytes: &mut Vec<u8>) {
    let length = bytes.len();
    match dice.below(12) {
        0 => bytes.truncate(dice.place(length)),
        1 => bytes.truncate(length - 1),
        2 => bytes.resize(length + 1 + dice.place(50), 0),
        3 => {
            let place = dice.place(length);
            dice.fill(&mut bytes[place..]);
        }
        // One count more or less, and so too short or too long.
        4 => bytes[0] = bytes[0].wrapping_add(8),
        5 => bytes[0] = bytes[0].wrapping_sub(8),
        6 => bytes[1] |= 1 << dice.below(5),
        7 => bytes[2..18].rotate_left(8),
        8 => set_flags(dice, bytes, 0x60),
        9 => {
            let reserved = 1 << dice.below(5);
            set_flags(dice, bytes, reserved);
        }
        10 => same_uuid(dice, bytes),
        _ => bytes[dice.place(length)] ^= 1 << dice.below(8),
    }
}

/// The place of the first byte of any component, if the description has one.
fn any_component(dice: &mut Dice, bytes: &[u8]) -> Option<usize> {
    let count = bytes.len().checked_sub(18)? / 21;
    (count != 0).then(|| 18 + 21 * dice.place(count))
}

fn set_flags(dice: &mut Dice, bytes: &mut [u8], flags: u8) {
    if let Some(at) = any_component(dice, bytes) {
        bytes[at + 16] |= flags;
    }
}

fn same_uuid(dice: &mut Dice, bytes: &mut [u8]) {
    let (one, other) = (any_component(dice, bytes), any_component(dice, bytes));
    if let (Some(one), Some(other)) = (one, other) {
        bytes.copy_within(one..one + 16, other);
    }
}

#[test]
fn good_boards() {
    let mut dice = Dice::new(2);
    for components in 1..=32 {
        for cpus in 1..=64 {
            let board = any_of(&mut dice, components, cpus);
            let bytes = described(&board);
            assert_eq!(bytes.len() as u64, 18 + 21 * components);
            dice.next_step();
            let mut room = vec![7; bytes.len()];
            let written = describe(&dice, &mut room, &flat_board(&board));
            assert_eq!((written, &room), (Ok(bytes.len()), &bytes), "{dice}");
            assert_eq!(read_board(&dice, &bytes), Ok(board), "{dice}");
        }
    }
}

#[test]
fn every_cut_of_a_board() {
    let mut dice = Dice::new(3);
    for _ in 0..20 {
        let mut bytes = described(&any(&mut dice));
        bytes.resize(bytes.len() + 25, 0);
        for length in 0..bytes.len() {
            compare(&mut dice, &bytes[..length]);
        }
    }
}

#[test]
fn damaged_boards() {
    let mut dice = Dice::new(4);
    let mut refusals = BTreeMap::<u64, u64>::new();
    for _ in 0..40_000 {
        let mut bytes = described(&any(&mut dice));
        for _ in 0..1 + dice.below(3) {
            if bytes.len() >= 18 {
                damage(&mut dice, &mut bytes);
            }
        }
        *refusals.entry(compare(&mut dice, &bytes)).or_default() += 1;
    }
    println!("refusals of damaged boards: {refusals:?}");
    let kinds: Vec<u64> = refusals.into_keys().collect();
    assert_eq!(kinds, [0, 20, 21, 22, 23, 24, 25], "{dice}");
}

#[test]
fn random_boards() {
    let mut dice = Dice::new(5);
    for _ in 0..40_000 {
        let mut bytes = [0; 760];
        dice.fill(&mut bytes);
        // Half of them of the length that their first byte asks for.
        let asked = 18 + 21 * (usize::from(bytes[0] >> 3) + 1);
        let length = if dice.one_in(2) {
            asked
        } else {
            dice.place(bytes.len())
        };
        compare(&mut dice, &bytes[..length]);
    }
}

/// Changes the parts of a board, within the counts or past them.
fn change_parts(dice: &mut Dice, parts: &mut flat::Board) {
    let (place, other) = (dice.place(MAX_COMPONENTS), dice.place(MAX_COMPONENTS));
    let over = dice.one_of(&[1, 2, 1 << 32, 1 << 63]);
    match dice.below(10) {
        0 => parts.components = 0,
        1 => parts.components = MAX_COMPONENTS as u64 + over,
        2 => parts.components = 1 + dice.below(MAX_COMPONENTS as u64),
        3 => parts.cpus = 0,
        4 => parts.cpus = MAX_CPUS as u64 + over,
        5 => (parts.first, parts.last) = (parts.last, parts.first),
        6 => {
            (
                parts.component[place].may_reset,
                parts.component[place].optional,
            ) = (1, 1)
        }
        7 => parts.component[place].uuid = parts.component[other].uuid,
        8 => *dice_flag(dice, &mut parts.component[place]) = 2 + dice.below(254) as u8,
        _ => *dice_flag(dice, &mut parts.component[place]) ^= 1,
    }
}

/// The length of a buffer for a description: mostly enough for any.
fn room(dice: &mut Dice) -> usize {
    let most = 18 + 21 * MAX_COMPONENTS;
    match dice.below(4) {
        0 => dice.place(most),
        _ => most + dice.place(9),
    }
}

#[test]
fn changed_parts() {
    let mut dice = Dice::new(20);
    let mut refusals = BTreeMap::<u64, u64>::new();
    for _ in 0..100_000 {
        dice.next_step();
        let mut parts = flat_board(&any(&mut dice));
        for _ in 0..dice.below(3) {
            change_parts(&mut dice, &mut parts);
        }
        let mut buf = vec![7; room(&mut dice)];
        let written = describe(&dice, &mut buf, &parts);
        *refusals.entry(refusal_of(&written)).or_default() += 1;
        if let Ok(bytes) = written {
            assert_eq!(compare(&mut dice, &buf[..bytes]), 0, "{dice}");
        }
    }
    println!("refusals of changed parts: {refusals:?}");
    let kinds: Vec<u64> = refusals.into_keys().collect();
    assert_eq!(kinds, [0, 22, 23, 24, 25, 26, 27], "{dice}");
}

/// Exactly as long as the description, and a byte less.
#[test]
fn just_enough_room() {
    let mut dice = Dice::new(21);
    for components in 1..=32 {
        let parts = flat_board(&any_of(&mut dice, components, 1));
        let length = 18 + 21 * components as usize;
        let written = describe(&dice, &mut vec![7; length], &parts);
        assert_eq!(written, Ok(length));
        let refused = describe(&dice, &mut vec![7; length - 1], &parts);
        assert_eq!(refusal_of(&refused), 27);
    }
}
