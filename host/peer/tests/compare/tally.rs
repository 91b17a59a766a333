//! What a run came by, and that nothing was left out.

use common::convert::{state_number, STATES};
use common::generate::{ACTIVATE_CODES, FUNCTIONS, PRIME_CODES};
use peer::*;
use std::collections::{BTreeMap, BTreeSet};
use std::fmt::Debug;

/// The number of the caller's part and X0 as a signed number.
type Outcome = (u64, i64);
/// A number of FUNCTIONS, or 9 for a word that is none of them.
type FunctionPlace = usize;

/// The outcomes of each function, and of a word that is none.
type Outcomes = [&'static [Outcome]; 10];

const OUTCOMES: Outcomes = [
    &[(1, 65536)],
    &[(1, -1), (1, 0)],
    &[(1, -8), (1, 0)],
    &[(1, -8), (1, -7), (1, 0)],
    &[(1, -7), (1, -3), (1, -2), (3, 0)],
    &[(1, -10), (1, -8), (1, -7), (1, -2), (2, 0), (4, 0)],
    &[(1, -8), (1, -2), (1, 0)],
    &[(1, -3), (5, 0)],
    &[(1, -9), (1, -6), (1, -4), (1, -2), (1, 0)],
    &[(1, -1)],
];

/// Those in withdrawn. The held CPU is on, so no caller is the last one.
const OUTCOMES_IN_WITHDRAWN: Outcomes = [
    &[(1, 65536)],
    &[(1, -1), (1, 0)],
    &[(1, -8), (1, 0)],
    &[(1, -8), (1, -7), (1, 0)],
    &[(1, -2)],
    &[(1, -7)],
    &[(1, -8), (1, 0)],
    &[(5, 0)],
    &[(1, -9), (1, -4), (1, -2), (1, 0)],
    &[(1, -1)],
];

const PREPARING: usize = 1;
/// The state in which no CPU can call.
const TOGETHER: usize = 5;
const WITHDRAWN: usize = 9;

/// The moves from one state to another.
const MOVES: [(usize, usize); 21] = [
    (0, 1),
    (1, 0),
    (1, 2),
    (1, 3),
    (1, 9),
    (2, 0),
    (2, 1),
    (3, 0),
    (3, 4),
    (3, 5),
    (3, 6),
    (4, 0),
    (4, 5),
    (5, 0),
    (5, 3),
    (5, 8),
    (6, 0),
    (6, 3),
    (6, 7),
    (6, 8),
    (9, 0),
];
/// The moves out of half-activated.
const LATE_MOVES: [(usize, usize); 2] = [(7, 0), (7, 6)];

/// Counts of everything that can happen.
#[derive(Default)]
pub struct Tally {
    pub events: u64,
    components: BTreeMap<u64, u64>,
    cpus: BTreeMap<u64, u64>,
    states: BTreeMap<usize, u64>,
    moves: BTreeMap<(usize, usize), u64>,
    callers: BTreeMap<u64, u64>,
    releases: BTreeMap<u64, u64>,
    prime_codes: BTreeMap<(usize, u64), u64>,
    activate_codes: BTreeMap<u64, u64>,
    refusals: BTreeMap<u64, u64>,
    refusals_in_withdrawn: BTreeMap<u64, u64>,
    outcomes: BTreeMap<(FunctionPlace, Outcome), u64>,
    outcomes_in_withdrawn: BTreeMap<(FunctionPlace, Outcome), u64>,
    cells: BTreeMap<(FunctionPlace, usize), u64>,
    reads: BTreeMap<bool, u64>,
    cpus_read: BTreeMap<usize, u64>,
}

/// Counts one more of these.
pub fn add<K: Ord>(counts: &mut BTreeMap<K, u64>, key: K) {
    *counts.entry(key).or_default() += 1;
}

fn function_place(x0: u64) -> FunctionPlace {
    FUNCTIONS
        .iter()
        .position(|&function| Function::from_x0(x0) == Some(function))
        .unwrap_or(FUNCTIONS.len())
}

fn outcome(caller: Caller) -> Outcome {
    match caller {
        Caller::Nothing => (0, 0),
        Caller::Returned([x0, ..]) => (RETURNED, x0 as i64),
        Caller::Held => (HELD, 0),
        Caller::PrimeStarted => (PRIME_STARTED, 0),
        Caller::ActivationStarted => (ACTIVATION_STARTED, 0),
        Caller::Gone => (GONE, 0),
    }
}

impl Tally {
    /// Counts an event between two states with its answer.
    pub fn count(
        &mut self,
        before: State,
        event: &Event,
        answer: &Result<Answer, Refusal>,
        after: State,
    ) {
        self.events += 1;
        let (before, after) = (state_number(before), state_number(after));
        add(&mut self.states, after);
        match answer {
            Ok(answer) => self.count_accepted(before, event, answer, after),
            Err(refusal) => self.count_refused(before, refusal.number()),
        }
    }

    /// Counts the board of a walk.
    pub fn count_board(&mut self, board: &Board) {
        add(&mut self.components, board.components);
        add(&mut self.cpus, board.cpus);
    }

    /// Counts what was read off a log ahead of a call.
    pub fn count_read(&mut self, read: Option<u64>) {
        add(&mut self.reads, read.is_some());
    }

    /// Counts that powered and held CPUs were read off a log in a state.
    pub fn count_cpus_read(&mut self, state: State) {
        add(&mut self.cpus_read, state_number(state));
    }

    fn count_refused(&mut self, before: usize, refusal: u64) {
        add(&mut self.refusals, refusal);
        if before == WITHDRAWN {
            add(&mut self.refusals_in_withdrawn, refusal);
        }
    }

    fn count_accepted(&mut self, before: usize, event: &Event, answer: &Answer, after: usize) {
        if before != after {
            add(&mut self.moves, (before, after));
        }
        let outcome = outcome(answer.caller);
        add(&mut self.callers, outcome.0);
        let release = match answer.release {
            Release::Nobody => 0,
            Release::Returned { .. } => 1,
            Release::Resumed(_) => 2,
        };
        add(&mut self.releases, release);
        match event {
            Event::Call(call) => {
                let function = function_place(call.x0);
                add(&mut self.outcomes, (function, outcome));
                add(&mut self.cells, (function, before));
                if before == WITHDRAWN {
                    add(&mut self.outcomes_in_withdrawn, (function, outcome));
                }
            }
            Event::Prime(report) => add(&mut self.prime_codes, (before, report.code)),
            Event::Activate(report) => add(&mut self.activate_codes, report.code),
            Event::Image(_) => {}
        }
    }

    /// Prints the counts, and fails where something never happened or should
    /// not have happened.
    pub fn check(&self) {
        println!("events: {}", self.events);
        exactly("walks by components", &self.components, 1..=32);
        exactly("walks by CPUs", &self.cpus, 1..=64);
        exactly("states", &self.states, 0..STATES);
        exactly("moves", &self.moves, MOVES.into_iter().chain(LATE_MOVES));
        exactly("caller's parts", &self.callers, 0..6);
        exactly("releases", &self.releases, 0..3);
        let primed = [PREPARING, WITHDRAWN].into_iter();
        exactly(
            "prime codes",
            &self.prime_codes,
            primed.flat_map(|state| PRIME_CODES.map(|code| (state, code))),
        );
        exactly("activate codes", &self.activate_codes, ACTIVATE_CODES);
        exactly("refusals", &self.refusals, 1..9);
        let in_withdrawn = &self.refusals_in_withdrawn;
        exactly("refusals in withdrawn", in_withdrawn, 1..9);
        exactly("activations read ahead", &self.reads, [false, true]);
        exactly("CPUs read by state", &self.cpus_read, 0..STATES);
        exactly("outcomes", &self.outcomes, each_of(OUTCOMES));
        let in_withdrawn = &self.outcomes_in_withdrawn;
        let expected = each_of(OUTCOMES_IN_WITHDRAWN);
        exactly("outcomes in withdrawn", in_withdrawn, expected);
        let callable = (0..STATES).filter(|&state| state != TOGETHER);
        exactly(
            "cells",
            &self.cells,
            callable.flat_map(|state| (0..10).map(move |function| (function, state))),
        );
    }
}

/// All of some lists as one, each with the place of its list.
pub fn each_of<T: Copy + 'static, const N: usize>(
    lists: [&'static [T]; N],
) -> impl Iterator<Item = (usize, T)> {
    let lists = lists.into_iter().enumerate();
    lists.flat_map(|(place, list)| list.iter().map(move |&each| (place, each)))
}

/// Fails unless exactly these were counted.
pub fn exactly<K: Ord + Copy + Debug>(
    what: &str,
    counts: &BTreeMap<K, u64>,
    expected: impl IntoIterator<Item = K>,
) {
    println!("{what}: {counts:?}");
    let counted: BTreeSet<K> = counts.keys().copied().collect();
    let expected: BTreeSet<K> = expected.into_iter().collect();
    let missing: Vec<_> = expected.difference(&counted).collect();
    let strange: Vec<_> = counted.difference(&expected).collect();
    assert!(
        missing.is_empty() && strange.is_empty(),
        "{what}: never came {missing:?}, should not come {strange:?}"
    );
}
