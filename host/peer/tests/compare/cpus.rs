//! The powered CPUs and the held ones by the log: at every place of walks, and
//! of their logs with damage.

use crate::logs::damage;
use crate::story::Story;
use crate::tally::{add, exactly};
use common::convert::{state_number, STATES};
use common::dice::Dice;
use common::pair::{ask_cpus, check_cpus};
use peer::*;
use std::collections::BTreeMap;

/// The states in which CPUs are held.
const HOLDING: [usize; 5] = [1, 4, 5, 6, 9];

/// The log says what the record has.
#[test]
fn cpus_of_walks() {
    let mut dice = Dice::new(31);
    let mut counts = BTreeMap::new();
    for _ in 0..400 {
        let most = 1 + dice.place(40);
        let story = Story::any(&mut dice, most);
        for place in 0..=story.len() {
            dice.next_step();
            let record = story.at(place);
            check_cpus(&dice, record, &story.log, place);
            let state = state_number(record.state);
            add(&mut counts, (state, !record.held.is_empty()));
        }
    }
    let expected = (0..STATES).map(|state| (state, HOLDING.contains(&state)));
    exactly("whether CPUs are held, by state", &counts, expected);
}

/// A bad record comes with its place, also from after the place asked about.
#[test]
fn cpus_of_damaged_logs() {
    let mut dice = Dice::new(32);
    let mut counts = BTreeMap::new();
    for _ in 0..150 {
        let most = 1 + dice.place(25);
        let story = Story::any(&mut dice, most);
        for _ in 0..40 {
            dice.next_step();
            let mut log = story.log.clone();
            for _ in 0..1 + dice.below(2) {
                damage(&mut dice, &mut log);
            }
            let place = dice.place(log.len() / RECORD_BYTES + 2);
            let (refusal, after) = match ask_cpus(&dice, &log, place) {
                Ok(_) => (0, false),
                Err(flaw) => (flaw.refusal.number(), flaw.place > place),
            };
            add(&mut counts, (refusal, after));
        }
    }
    let bad = [31, 32].into_iter();
    let bad = bad.flat_map(|number| [(number, false), (number, true)]);
    let expected = bad.chain([(0, false), (33, false)]);
    exactly("refusals, and whether after the place", &counts, expected);
}
