//! Why an ACTIVATE is refused, held or started: every reason, every refusal
//! and which of them comes first, on both sides.

use crate::boards;
use crate::logs::{self, full_walk};
use crate::story::{record_of, refused_cpu, Change, Story, CHANGES};
use crate::tally::{add, each_of, exactly};
use crate::walks::Walk;
use common::boards::packed;
use common::convert::{flaw_refusal, reason_number, state_number, STATES};
use common::dice::Dice;
use common::generate::any_activate;
use common::pair::{ask_why, same};
use peer::*;
use std::collections::BTreeMap;
use std::ops::Range;

/// The reasons of each state, by their numbers. In together nobody can call.
const REASONS: [&[u64]; STATES] = [
    &[1],
    &[2],
    &[3],
    &[5, 6, 7, 10, 12, 13, 14],
    &[5, 6, 7, 8, 10, 13, 14],
    &[],
    &[5, 6, 9, 11],
    &[5, 6, 9, 12],
    &[4],
    &[15],
];

/// The refusals of the caller in each state.
const CALLERS: [&[u64]; STATES] = [
    &[2, 3],
    &[2, 3, 4],
    &[2, 3],
    &[2, 3],
    &[2, 3, 4],
    &[2, 3, 4],
    &[2, 3, 4],
    &[2, 3],
    &[2, 3],
    &[2, 3, 4],
];

/// Every place of a walk, with calls that mostly get far.
#[test]
fn whys_of_walks() {
    let mut dice = Dice::new(25);
    let mut reasons = BTreeMap::new();
    let mut callers = BTreeMap::new();
    for _ in 0..500 {
        let most = 1 + dice.place(40);
        let story = Story::any(&mut dice, most);
        for place in (0..=story.len()).flat_map(|place| [place; 3]) {
            dice.next_step();
            let state = state_number(story.at(place).state);
            let ask = any_activate(&mut dice, story.at(place));
            let why = ask_why(&dice, &story.board, &story.log, place, &ask);
            story.check(&dice, place, &ask, why);
            match why {
                Ok(reason) => add(&mut reasons, (state, reason_number(reason))),
                Err(flaw) => add(&mut callers, (state, flaw.refusal.number())),
            }
        }
    }
    exactly("reasons by state", &reasons, each_of(REASONS));
    exactly("callers refused by state", &callers, each_of(CALLERS));
}

/// Where it stands among the records before the place.
#[derive(Clone, Copy, PartialEq, Eq, PartialOrd, Ord, Debug)]
enum Where {
    Only,
    First,
    Middle,
    Last,
}

impl Where {
    fn of(at: usize, place: usize) -> Self {
        match (at == 0, at + 1 == place) {
            (true, true) => Self::Only,
            (true, false) => Self::First,
            (false, false) => Self::Middle,
            (false, true) => Self::Last,
        }
    }
}

/// Where each change can be: on a fresh board nobody is held and no job runs,
/// and no component is the state's.
fn changes_by_where() -> impl Iterator<Item = (Change, Where)> {
    let all = [Where::Only, Where::First, Where::Middle, Where::Last];
    let pairs = CHANGES
        .into_iter()
        .flat_map(move |change| all.map(|place| (change, place)));
    pairs.filter(|(change, place)| match change {
        Change::Refused(4 | 6 | 8) => matches!(place, Where::Middle | Where::Last),
        _ => true,
    })
}

/// One record that differs: 35 with its place from there on, and no other
/// answer than before up to there.
#[test]
fn one_record_that_differs() {
    let mut dice = Dice::new(26);
    let mut counts = BTreeMap::new();
    for round in 0..1500 {
        let most = 1 + dice.place(14);
        let story = Story::any(&mut dice, most);
        let change = CHANGES[round % CHANGES.len()];
        let at = dice.place(story.len() + 1);
        let Some(log) = story.changed(&mut dice, at, change) else {
            continue;
        };
        for place in 0..=log.len() / RECORD_BYTES {
            dice.next_step();
            let ask = any_activate(&mut dice, story.at(place));
            let why = ask_why(&dice, &story.board, &log, place, &ask);
            if place <= at {
                story.check(&dice, place, &ask, why);
                continue;
            }
            let flaw = Flaw {
                refusal: Refusal::Differs,
                place: at,
            };
            same(&dice, "what differs", &why, &Err(flaw));
            add(&mut counts, (change, Where::of(at, place)));
        }
    }
    exactly("records that differ", &counts, changes_by_where());
}

/// The same in the longest logs.
#[test]
fn one_record_of_a_full_log_that_differs() {
    let mut dice = Dice::new(27);
    // Of any CPU on any board: refused, or answered otherwise.
    let other_version = LogRecord {
        kind: CALL,
        outcome: RETURNED,
        words: [Function::Version.number(), 0, 0, 0, 0, 1],
        ..LogRecord::default()
    };
    for at in [0, 1, MAX_RECORDS / 2, MAX_RECORDS - 2, MAX_RECORDS - 1] {
        let Walk {
            board,
            mut log,
            pair,
            ..
        } = full_walk(&mut dice, MAX_RECORDS);
        record_of(&mut log, at).copy_from_slice(&packed(&other_version));
        for place in [at, at + 1, MAX_RECORDS] {
            dice.next_step();
            let ask = any_activate(&mut dice, &pair.peer);
            let why = ask_why(&dice, &board, &log, place, &ask);
            assert_eq!(flaw_refusal(&why) == 35, place > at, "{dice}");
        }
    }
}

/// Makes a record unreadable, so that this number comes.
pub fn spoil(dice: &mut Dice, bytes: &mut [u8], number: u64) {
    match number {
        31 => bytes[2] |= 1 << dice.below(6),
        _ => bytes[0] |= 0xE0,
    }
}

/// Makes some records of a log bad.
fn spoil_some(dice: &mut Dice, log: &mut [u8], places: Range<usize>) {
    for place in places {
        if dice.one_in(4) {
            let number = dice.one_of(&[31, 32]);
            spoil(dice, record_of(log, place), number);
        }
    }
}

/// A bad record anywhere, and another one that differs: the bad one comes,
/// after the other one and after the place too.
#[test]
fn bad_records_and_one_that_differs() {
    let mut dice = Dice::new(28);
    let mut counts = BTreeMap::new();
    for round in 0..400 {
        let story = Story::any(&mut dice, 12);
        let (at, bad) = (dice.place(story.len() + 1), dice.place(story.len() + 1));
        let change = dice.one_of(&CHANGES);
        let number = 31 + round % 2;
        let Some(mut log) = story.changed(&mut dice, at, change) else {
            continue;
        };
        let records = log.len() / RECORD_BYTES;
        if at == bad || bad == records {
            continue;
        }
        spoil(&mut dice, record_of(&mut log, bad), number);
        // Of more bad ones, the first comes.
        spoil_some(&mut dice, &mut log, bad + 1..records);
        for place in 0..=records {
            dice.next_step();
            let ask = any_activate(&mut dice, story.at(place));
            let why = ask_why(&dice, &story.board, &log, place, &ask);
            let flaw = why.expect_err("a bad record");
            let given = (flaw.refusal.number(), flaw.place);
            same(&dice, "what is bad", &given, &(number, bad));
            if at < place {
                add(&mut counts, (number, bad < at, bad < place));
            }
        }
    }
    let known = [(true, true), (false, true), (false, false)];
    exactly(
        "bad records, before the one that differs and before the place",
        &counts,
        [31, 32]
            .into_iter()
            .flat_map(|number| known.map(|(other, place)| (number, other, place))),
    );
}

/// What can be wrong, in the order of refusal, and with what numbers.
const WRONG: [&[u64]; 5] = [
    &[20, 21, 22, 23, 24, 25],
    &[33],
    &[31, 32],
    &[35],
    &[2, 3, 4],
];

/// Whether a set of them, as a number, has this one.
fn is_wrong(wrong: usize, thing: usize) -> bool {
    wrong >> thing & 1 == 1
}

/// A question that may be wrong, with what it then has to be refused with.
struct Question {
    board: Vec<u8>,
    log: Vec<u8>,
    place: usize,
    ask: Activate,
    refused: Option<(u64, usize)>,
}

impl Question {
    /// A question that nothing is wrong with, if a CPU can ask it.
    fn good(dice: &mut Dice, story: &Story) -> Option<Self> {
        let place = dice.place(story.len() + 1);
        let record = story.at(place);
        let cpu = dice.member(record.on.without(record.held).members())?;
        let ask = any_activate(dice, record);
        Some(Self {
            board: story.board.clone(),
            log: story.log.clone(),
            place,
            ask: Activate { cpu, ..ask },
            refused: None,
        })
    }

    /// A question with these things wrong, if it can be. The first of them is
    /// made wrong last, and so is what it has to be refused with.
    fn with(dice: &mut Dice, wrong: usize, round: usize) -> Option<Self> {
        let story = Story::any(dice, 12);
        let mut question = Self::good(dice, &story)?;
        for (thing, numbers) in WRONG.iter().enumerate().rev() {
            if is_wrong(wrong, thing) {
                question.spoil(dice, &story, numbers[round % numbers.len()])?;
            }
        }
        Some(question)
    }

    /// Makes one thing wrong so that this number comes, if it can be.
    fn spoil(&mut self, dice: &mut Dice, story: &Story, number: u64) -> Option<()> {
        let mut at = 0;
        match number {
            2..=4 => self.ask.cpu = refused_cpu(dice, story.at(self.place), number)?,
            35 => {
                at = dice.place(self.place.max(1));
                let change = dice.one_of(&CHANGES);
                self.log = story.changed(dice, at, change)?;
                (at < self.place).then_some(())?;
            }
            31 | 32 => {
                at = dice.place((self.log.len() / RECORD_BYTES).max(1));
                (!self.log.is_empty()).then_some(())?;
                spoil(dice, record_of(&mut self.log, at), number);
            }
            33 => self.spoil_length(dice),
            _ => spoil_board(dice, &mut self.board, number)?,
        }
        self.refused = Some((number, at));
        Some(())
    }

    /// A part of a record, too many records, or a place past the end.
    fn spoil_length(&mut self, dice: &mut Dice) {
        let records = self.log.len() / RECORD_BYTES;
        match dice.below(3) {
            0 => self.log.resize(self.log.len() + 1 + dice.place(50), 0),
            1 if records != 0 => {
                self.log = self.log.repeat(MAX_RECORDS / records + 1);
                self.log.truncate(RECORD_BYTES * (MAX_RECORDS + 1));
            }
            _ => self.place = dice.one_of(&[records + 1, records + 2, usize::MAX]),
        }
    }
}

/// Makes a description bad so that this number comes, if it can be.
fn spoil_board(dice: &mut Dice, board: &mut Vec<u8>, number: u64) -> Option<()> {
    let components = (board.len() - 18) / 21;
    let component = 18 + 21 * dice.place(components);
    match number {
        20 => board.truncate(dice.place(board.len())),
        21 => board.resize(board.len() + 1 + dice.place(40), 0),
        22 => board[dice.one_of(&[1, component + 16])] |= 1 << dice.below(5),
        23 => (board[2], board[10]) = (0xFF, 0),
        24 => board[component + 16] |= 0x60,
        _ => {
            (component != 18).then_some(())?;
            board.copy_within(18..34, component);
        }
    }
    Some(())
}

/// Every set of things that can be wrong at once: the first one comes.
#[test]
fn the_first_refusal_is_given() {
    let mut dice = Dice::new(29);
    let mut counts = BTreeMap::new();
    for (wrong, round) in (0..32).flat_map(|wrong| (0..12).map(move |round| (wrong, round))) {
        dice.next_step();
        let question = loop {
            if let Some(question) = Question::with(&mut dice, wrong, round) {
                break question;
            }
        };
        let (board, log) = (&question.board, &question.log);
        let why = ask_why(&dice, board, log, question.place, &question.ask);
        let refused = why.err().map(|flaw| (flaw.refusal.number(), flaw.place));
        same(&dice, "the first refusal", &refused, &question.refused);
        add(&mut counts, (wrong, flaw_refusal(&why)));
    }
    let numbers = |wrong| {
        let first = (0..WRONG.len()).find(|&thing| is_wrong(wrong, thing));
        first.map_or(&[0][..], |thing| WRONG[thing]).iter()
    };
    exactly(
        "refusals by what was wrong",
        &counts,
        (0..32).flat_map(|wrong| numbers(wrong).map(move |&number| (wrong, number))),
    );
}

/// Boards and logs with random damage.
#[test]
fn whys_of_damaged_boards_and_logs() {
    let mut dice = Dice::new(30);
    let mut refusals = BTreeMap::new();
    for _ in 0..150 {
        let most = 1 + dice.place(20);
        let story = Story::any(&mut dice, most);
        for _ in 0..40 {
            dice.next_step();
            let (mut board, mut log) = (story.board.clone(), story.log.clone());
            if dice.one_in(4) {
                boards::damage(&mut dice, &mut board);
            }
            for _ in 0..dice.below(3) {
                logs::damage(&mut dice, &mut log);
            }
            let place = dice.place(log.len() / RECORD_BYTES + 2);
            let ask = any_activate(&mut dice, story.at(place));
            let why = ask_why(&dice, &board, &log, place, &ask);
            add(&mut refusals, flaw_refusal(&why));
        }
    }
    let callers_and_boards = [0, 2, 3, 4].into_iter().chain(20..=25);
    let expected = callers_and_boards.chain([31, 32, 33, 35]);
    exactly("whys of damaged boards and logs", &refusals, expected);
}
