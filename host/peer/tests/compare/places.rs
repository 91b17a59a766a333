//! Every place of a record, and every pair of UUIDs: which records are well
//! formed, on both sides.

use common::boards::{usual, PLAIN, RESETS};
use common::convert::{flat_record, NOT_WELL_FORMED, SHORT_TABLE};
use common::dice::Dice;
use common::host::{in_every_state, Host};
use common::pair::same;
use lfa::flat;
use peer::*;

/// Whether a record is well formed. With tables that are too short both sides
/// say no more.
fn well_formed(record: &Record) -> bool {
    let mut library = flat_record(record);
    let answer = flat::step(&mut library, flat::Event::default(), &mut [], &mut []);
    let expected = record.is_well_formed();
    let refusal = if expected {
        SHORT_TABLE
    } else {
        NOT_WELL_FORMED
    };
    same(&format!("{record:?}"), "refusal", &answer.refusal, &refusal);
    expected
}

/// Records in every state, and of a full board with each count of held CPUs.
fn samples() -> Vec<Record> {
    let small = [PLAIN, RESETS].into_iter().flat_map(in_every_state);
    let mut samples: Vec<_> = small.map(|host| host.peer).collect();
    let mut full = Host::of(&usual(32, 64)).powered(64).ready(29);
    for cpu in 0..64 {
        full.activate(cpu, 29);
        samples.push(full.peer.clone());
    }
    samples
}

/// The record with one field of a component's place changed.
fn with_field(mut record: Record, place: usize, field: usize) -> Record {
    let each = &mut record.board.component[place];
    match field {
        0 => each.uuid[15] = 1,
        1 => each.capable = true,
        2 => each.may_reset = true,
        3 => each.optional = true,
        4 => each.svn = 1,
        5 => record.pending[place] = true,
        _ => record.version[place] = 1,
    }
    record
}

#[test]
fn every_place_is_looked_at() {
    for sample in samples() {
        assert!(well_formed(&sample));
        for place in sample.board.components as usize..MAX_COMPONENTS {
            for field in 0..7 {
                assert!(!well_formed(&with_field(sample.clone(), place, field)));
            }
        }
        for cpu in 0..MAX_CPUS {
            let mut record = sample.clone();
            record.context[cpu] ^= 1;
            well_formed(&record);
            record.entry[cpu] ^= 1;
            assert!(!well_formed(&record));
        }
    }
}

#[test]
fn every_pair_of_uuids_is_compared() {
    let record = Record::fresh(usual(32, 64));
    for one in 0..32 {
        for other in 0..one {
            let mut record = record.clone();
            record.board.component[one].uuid = record.board.component[other].uuid;
            assert!(!well_formed(&record));
            record.board.component[one].uuid[15] ^= 0x80;
            assert!(well_formed(&record));
        }
    }
}

/// A UUID at a place: equal to the others but in one byte, or in every byte
/// another, or at random.
fn uuid_of(shape: usize, place: u8) -> [u8; 16] {
    match shape {
        0..16 => std::array::from_fn(|at| if at == shape { place } else { 0 }),
        16 => [place; 16],
        17 => [255 - place; 16],
        _ => {
            let mut uuid = [0; 16];
            Dice::of(u64::from(place) + 97 * shape as u64, 0).fill(&mut uuid);
            uuid
        }
    }
}

#[test]
fn uuids_that_are_alike() {
    for shape in 0..40 {
        let mut record = Record::fresh(usual(32, 1));
        for (place, each) in (0..).zip(&mut record.board.component) {
            each.uuid = uuid_of(shape, place);
        }
        assert!(well_formed(&record));
        record.board.component[31].uuid = record.board.component[0].uuid;
        assert!(!well_formed(&record));
    }
}
