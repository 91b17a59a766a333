//! Boards that both sides take: the usual one, and any; and what is packed.

use crate::dice::Dice;
use peer::*;

/// The components of the usual board, by what is special about them.
pub const PLAIN: u64 = 0;
pub const RESETS: u64 = 1;
pub const OPTIONAL: u64 = 2;
pub const FIXED: u64 = 3;

/// Range and SVN of the usual board.
pub const FIRST: u64 = 0x1000;
pub const LAST: u64 = 0x1FFF;
pub const SVN: u32 = 5;

/// The usual board at this size: the four kinds of components in turn. UUID
/// bytes of the first one are 00 to 0f.
pub fn usual(components: u64, cpus: u64) -> Board {
    let mut board = Board {
        components,
        cpus,
        first: FIRST,
        last: LAST,
        component: [Component::default(); MAX_COMPONENTS],
    };
    for (place, each) in (0u8..).zip(&mut board.component[..components as usize]) {
        let kind = u64::from(place) % 4;
        *each = Component {
            uuid: std::array::from_fn(|byte| byte as u8 ^ place << 3),
            capable: kind != FIXED,
            may_reset: kind == RESETS,
            optional: kind == OPTIONAL,
            svn: SVN,
        };
    }
    board
}

/// A count up to the most: small, large or any.
pub fn count(dice: &mut Dice, most: u64) -> u64 {
    match dice.below(8) {
        0 => 1,
        1 | 2 => 2,
        3 | 4 => 1 + dice.below(8),
        5 => most,
        _ => 1 + dice.below(most),
    }
}

/// A range of entry addresses: narrow, wide, or of one address.
fn range(dice: &mut Dice) -> (u64, u64) {
    let (one, other) = (dice.word(), dice.word());
    match dice.below(32) {
        0 => (one, one),
        1..=4 => (0, u64::MAX),
        5..=7 => (one & !3, one & !3),
        8..=11 => (u64::MAX - one % 64, u64::MAX),
        12..=15 => (0, one % 64),
        16..=19 => (one.min(other), one.max(other)),
        _ => (FIRST, LAST),
    }
}

/// UUIDs that differ: at random, or in one byte alone.
fn set_uuids(dice: &mut Dice, components: &mut [Component]) {
    let alike = dice.one_in(2);
    let byte = dice.place(16);
    let mut common = [0; 16];
    dice.fill(&mut common);
    for (place, component) in (0u8..).zip(components) {
        component.uuid = common;
        if !alike {
            dice.fill(&mut component.uuid);
        }
        component.uuid[byte] = common[byte].wrapping_add(place);
    }
}

fn svn(dice: &mut Dice) -> u32 {
    match dice.below(8) {
        0 => 0,
        1 => u32::MAX,
        2 => dice.word() as u32,
        _ => 1 + dice.below(6) as u32,
    }
}

/// A board of these counts that both sides take.
pub fn any_of(dice: &mut Dice, components: u64, cpus: u64) -> Board {
    let (first, last) = range(dice);
    let mut board = Board {
        components,
        cpus,
        first,
        last,
        component: [Component::default(); MAX_COMPONENTS],
    };
    let existing = &mut board.component[..components as usize];
    set_uuids(dice, existing);
    for component in existing {
        component.capable = !dice.one_in(4);
        component.may_reset = dice.one_in(3);
        component.optional = !component.may_reset && dice.one_in(2);
        component.svn = svn(dice);
    }
    board
}

/// A board of any size that both sides take.
pub fn any(dice: &mut Dice) -> Board {
    let (components, cpus) = (count(dice, 32), count(dice, 64));
    any_of(dice, components, cpus)
}

/// The packed description of a board.
pub fn described(board: &Board) -> Vec<u8> {
    let mut bytes = vec![0; 690];
    let length = board.write(&mut bytes).expect("a good board");
    bytes.truncate(length);
    bytes
}

/// The bytes of a log record.
pub fn packed(record: &LogRecord) -> [u8; RECORD_BYTES] {
    let mut bytes = [0; RECORD_BYTES];
    record.write(&mut bytes).expect("a good record");
    bytes
}
