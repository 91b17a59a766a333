//! Records that are not well formed, clause by clause, and records with
//! random damage.

use crate::clauses::{any_component, dice_flag, good_entry, keeps_entries, CLAUSES};
use crate::tally::Tally;
use crate::walks::Walk;
use common::convert::*;
use common::dice::Dice;
use common::generate::{self, entry, junk_event, Mood};
use common::pair::{flat_form, refused_step, Pair, Tables};
use lfa::flat;
use peer::*;
use std::collections::BTreeMap;

/// How many records of each state are damaged.
const SAMPLES: usize = 60;

/// A record that a walk came by, with an event that suits it.
struct Sample {
    record: flat::Record,
    event: Event,
}

/// Samples of every state, few from each walk.
fn samples(dice: &mut Dice) -> Vec<Sample> {
    let mut found: [Vec<Sample>; STATES] = Default::default();
    let mut tally = Tally::default();
    while found.iter().any(|each| each.len() < SAMPLES) {
        let mut walk = Walk::new(dice);
        let mood = Mood::any(dice, &walk.pair.peer.board);
        let mut taken = [0; STATES];
        while !walk.is_over() && walk.records() < 150 && dice.below(600) != 0 {
            walk.step(dice, &mut tally);
            let state = walk.pair.library.state as usize;
            if taken[state] < 3 && found[state].len() < SAMPLES && dice.one_in(4) {
                taken[state] += 1;
                found[state].push(Sample {
                    record: walk.pair.library,
                    event: generate::event(dice, &walk.pair.peer, &mood),
                });
            }
        }
    }
    found.into_iter().flatten().collect()
}

/// One event on a damaged record, on both sides, and one of a kind that is
/// none; the first one's refusal, or 0.
fn compare(dice: &mut Dice, damaged: &flat::Record, event: &Event, tables: &Tables) -> u64 {
    dice.next_step();
    let refusal = compare_known(dice, damaged, event, tables);
    let junk = junk_event(dice);
    refused_step(dice, damaged, junk, tables, unknown_refusal(refusal));
    refusal
}

/// One event on both sides; the refusal, or 0. What the peer's types cannot
/// hold is refused with 9.
fn compare_known(dice: &mut Dice, damaged: &flat::Record, event: &Event, tables: &Tables) -> u64 {
    let Some(peer) = peer_record(damaged) else {
        let form = flat_form(dice, event);
        refused_step(dice, damaged, form, tables, NOT_WELL_FORMED);
        return NOT_WELL_FORMED;
    };
    let mut pair = Pair {
        library: *damaged,
        peer,
    };
    let (answer, _) = pair.step(dice, event, tables);
    refusal_of(&answer)
}

#[test]
fn every_clause() {
    let mut dice = Dice::new(6);
    let samples = samples(&mut dice);
    let mut broken = BTreeMap::<&str, u64>::new();
    for sample in &samples {
        for (name, breaker) in CLAUSES {
            let mut damaged = sample.record;
            if breaker(&mut dice, &mut damaged).is_none() {
                continue;
            }
            let tables = Tables::mostly_long(&mut dice, sample.record.board.cpus);
            let refusal = compare(&mut dice, &damaged, &sample.event, &tables);
            assert_eq!(refusal, NOT_WELL_FORMED, "{dice}: {name} {damaged:?}");
            *broken.entry(name).or_default() += 1;
        }
    }
    println!("clauses broken: {broken:?}");
    for (name, _) in CLAUSES {
        assert!(broken.get(name) >= Some(&3), "{dice}: {name} {broken:?}");
    }
}

/// A number that could be any field's.
fn any_number(dice: &mut Dice, r: &flat::Record) -> u64 {
    match dice.below(8) {
        0 => 0,
        1 => 1,
        2 => dice.below(10),
        3 => dice.below(66),
        4 => good_entry(r).unwrap_or(4),
        5 => 1 << dice.below(64),
        6 => r.on.bits,
        _ => dice.word(),
    }
}

/// Changes one field of a component.
fn change_component(dice: &mut Dice, r: &mut flat::Record) {
    let number = any_number(dice, r);
    let place = dice.place(MAX_COMPONENTS);
    let bit = dice.one_in(2);
    let component = if dice.one_in(3) {
        &mut r.board.component[place]
    } else {
        any_component(dice, r)
    };
    match dice.below(4) {
        0 => component.uuid[dice.place(16)] ^= 1 << dice.below(8),
        1 => component.svn = number as u32,
        2 if bit => *dice_flag(dice, component) ^= 1,
        _ => *dice_flag(dice, component) = number as u8,
    }
}

/// Changes one field, to anything that it could hold.
fn change(dice: &mut Dice, r: &mut flat::Record) {
    let number = any_number(dice, r);
    let (component, cpu) = (dice.place(MAX_COMPONENTS), dice.place(MAX_CPUS));
    match dice.below(18) {
        0 => r.board.components = number,
        1 => r.board.cpus = number,
        2 => r.board.first = number,
        3 => r.board.last = number,
        4 => r.pending[component] = number as u8,
        5 => r.pending[component] ^= 1,
        6 => r.version[component] = number as u32,
        7 => r.state = dice.below(STATES as u64 + 1),
        8 => r.state = number,
        9 => r.subject = number,
        10 => r.on.bits = number,
        11 => r.on.bits ^= 1 << cpu,
        12 => r.held.bits = number,
        13 => r.held.bits ^= 1 << cpu,
        14 => r.entry[cpu] = number,
        15 => r.context[cpu] = number,
        16 => r.informed = number,
        _ => change_component(dice, r),
    }
}

/// Whether the counts allow for more changes.
fn counts_fit(r: &flat::Record) -> bool {
    (1..=32).contains(&r.board.components) && (1..=64).contains(&r.board.cpus)
}

#[test]
fn random_damage() {
    let mut dice = Dice::new(7);
    let samples = samples(&mut dice);
    let mut refusals = BTreeMap::<u64, u64>::new();
    for _ in 0..150_000 {
        let sample = &samples[dice.place(samples.len())];
        let mut damaged = sample.record;
        for _ in 0..1 + dice.below(2) {
            if counts_fit(&damaged) {
                change(&mut dice, &mut damaged);
            }
        }
        let tables = Tables::mostly_long(&mut dice, sample.record.board.cpus);
        let refusal = compare(&mut dice, &damaged, &sample.event, &tables);
        *refusals.entry(refusal).or_default() += 1;
    }
    println!("refusals of records with random damage: {refusals:?}");
    let count = |refusal| refusals.get(&refusal).copied().unwrap_or(0);
    assert!(count(0) > 1000 && count(NOT_WELL_FORMED) > 1000, "{dice}");
}

/// Entries of held CPUs at the limits of the range, on both sides.
#[test]
fn entries_at_the_limits() {
    let mut dice = Dice::new(8);
    let samples = samples(&mut dice);
    let mut refusals = BTreeMap::<u64, u64>::new();
    for sample in samples.iter().filter(|each| keeps_entries(&each.record)) {
        let board = peer_record(&sample.record).expect("a good record").board;
        for _ in 0..200 {
            let mut damaged = sample.record;
            let cpu = dice.member(damaged.held.iter()).expect("one is held");
            damaged.entry[cpu as usize] = entry(&mut dice, &board);
            damaged.context[cpu as usize] = dice.word();
            let tables = Tables::long(&mut dice, board.cpus);
            let refusal = compare(&mut dice, &damaged, &sample.event, &tables);
            *refusals.entry(refusal).or_default() += 1;
        }
    }
    let count = |refusal| refusals.get(&refusal).copied().unwrap_or(0);
    assert!(count(0) > 50 && count(NOT_WELL_FORMED) > 50, "{refusals:?}");
}
