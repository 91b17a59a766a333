//! Logs of walks, damaged logs and logs that no agent writes, with the
//! questions at many places; and the writer on random answers.

use crate::tally::Tally;
use crate::walks::Walk;
use common::boards::{any, described, packed};
use common::convert::*;
use common::dice::Dice;
use common::generate::{entry, id, junk_event, noise, ACTIVATE_CODES, FUNCTIONS, PRIME_CODES};
use common::pair::{
    ask, ask_cpus, ask_prepared, ask_starts, ask_why, flat_form, log, question, read_record,
    without_x0,
};
use lfa::flat;
use peer::*;
use std::collections::BTreeMap;
use std::ops::Range;

/// A walk whose log has at most so many records.
fn walk(dice: &mut Dice, records: usize) -> Walk {
    let mut tally = Tally::default();
    let mut walk = Walk::new(dice);
    for _ in 0..4 * records {
        if walk.is_over() || walk.records() == records {
            break;
        }
        walk.step(dice, &mut tally);
    }
    walk
}

/// A walk whose log has exactly so many records.
pub fn full_walk(dice: &mut Dice, records: usize) -> Walk {
    loop {
        let walk = walk(dice, records);
        if walk.records() == records {
            return walk;
        }
    }
}

/// Asks at every place of a log and one past it.
fn ask_everywhere(dice: &mut Dice, record: &Record, board: &[u8], log: &[u8]) {
    for place in 0..=log.len() / RECORD_BYTES + 1 {
        dice.next_step();
        let call = question(dice, record);
        ask(dice, board, log, place, &call);
    }
}

/// Asks at some places of a log, now and then past it.
fn ask_somewhere(dice: &mut Dice, record: &Record, board: &[u8], log: &[u8]) {
    let records = log.len() / RECORD_BYTES;
    for _ in 0..2 {
        dice.next_step();
        let place = match dice.below(16) {
            0 => records + 1,
            1 => dice.word() as usize,
            2..=5 => records,
            _ => dice.place(records + 1),
        };
        let call = question(dice, record);
        ask(dice, board, log, place, &call);
    }
}

#[test]
fn logs_of_walks() {
    let mut dice = Dice::new(9);
    for _ in 0..150 {
        let records = 1 + dice.place(40);
        let walk = walk(&mut dice, records);
        ask_everywhere(&mut dice, &walk.pair.peer, &walk.board, &walk.log);
    }
}

/// Breaks a log in one way or another.
pub fn damage(dice: &mut Dice, log: &mut Vec<u8>) {
    let length = log.len();
    let records = length / RECORD_BYTES;
    if records == 0 {
        return;
    }
    let at = RECORD_BYTES * dice.place(records);
    match dice.below(10) {
        0 => log.truncate(dice.place(length)),
        1 => log.truncate(at),
        2 => log.resize(length + 1 + dice.place(110), 0),
        3 => dice.fill(&mut log[at..at + RECORD_BYTES]),
        4 => drop(log.drain(at..at + RECORD_BYTES)),
        5 => log.extend_from_within(at..at + RECORD_BYTES),
        // In the head, where most bits have a rule.
        6 | 7 => log[at + dice.place(3)] ^= 1 << dice.below(8),
        8 => log[at + 3 + 8 * dice.place(6)] ^= 1 << dice.below(8),
        _ => log[at + dice.place(RECORD_BYTES)] ^= 1 << dice.below(8),
    }
}

#[test]
fn damaged_logs() {
    let mut dice = Dice::new(10);
    let mut refusals = BTreeMap::<u64, u64>::new();
    for _ in 0..150 {
        let records = 1 + dice.place(25);
        let walk = walk(&mut dice, records);
        for _ in 0..40 {
            let mut log = walk.log.clone();
            for _ in 0..1 + dice.below(2) {
                damage(&mut dice, &mut log);
            }
            ask_somewhere(&mut dice, &walk.pair.peer, &walk.board, &log);
            let read = prepared_at(&log, 0).map_err(|flaw| flaw.refusal);
            *refusals.entry(refusal_of(&read)).or_default() += 1;
        }
    }
    println!("refusals of damaged logs: {refusals:?}");
    let kinds: Vec<u64> = refusals.into_keys().collect();
    assert_eq!(kinds, [0, 31, 32, 33], "{dice}");
}

/// Every bit of a log, flipped.
#[test]
fn every_bit_of_a_log() {
    let mut dice = Dice::new(11);
    for _ in 0..3 {
        let walk = full_walk(&mut dice, 6);
        for bit in 0..8 * walk.log.len() {
            let mut log = walk.log.clone();
            log[bit / 8] ^= 1 << (bit % 8);
            dice.next_step();
            let call = question(&mut dice, &walk.pair.peer);
            ask(&dice, &walk.board, &log, 6, &call);
        }
    }
}

#[test]
fn random_logs() {
    let mut dice = Dice::new(12);
    for _ in 0..3000 {
        let board = any(&mut dice);
        let described = described(&board);
        let record = Record::fresh(board);
        let mut log = vec![0; RECORD_BYTES * dice.place(5)];
        if dice.one_in(4) {
            log.resize(dice.place(300), 0);
        }
        dice.fill(&mut log);
        ask_somewhere(&mut dice, &record, &described, &log);
    }
}

/// A full log, one of a record more, and full ones with one bad record.
#[test]
fn longest_logs() {
    let mut dice = Dice::new(13);
    for _ in 0..4 {
        let walk = full_walk(&mut dice, MAX_RECORDS);
        let Walk { board, log, .. } = &walk;
        let record = &walk.pair.peer;
        for place in [0, 1, 500, MAX_RECORDS - 1, MAX_RECORDS, MAX_RECORDS + 1] {
            dice.next_step();
            let call = question(&mut dice, record);
            ask(&dice, board, log, place, &call);
        }
        let mut longer = log.clone();
        longer.extend_from_slice(&log[..RECORD_BYTES]);
        ask_somewhere(&mut dice, record, board, &longer);
        longer.extend_from_slice(&longer.clone());
        ask_somewhere(&mut dice, record, board, &longer);
        for _ in 0..10 {
            let mut damaged = log.clone();
            damage(&mut dice, &mut damaged);
            ask_somewhere(&mut dice, record, board, &damaged);
        }
    }
}

/// The board's refusal comes first, with place 0.
#[test]
fn logs_of_bad_boards() {
    let mut dice = Dice::new(14);
    let mut refused = 0;
    for _ in 0..300 {
        let walk = walk(&mut dice, 5);
        let mut board = walk.board.clone();
        let mut log = walk.log.clone();
        match dice.below(3) {
            0 => board.truncate(dice.place(walk.board.len())),
            1 => board.push(0),
            _ => board[dice.place(walk.board.len())] ^= 1 << dice.below(8),
        }
        if dice.one_in(2) {
            damage(&mut dice, &mut log);
        }
        refused += u64::from(Board::read(&board).is_err());
        ask_somewhere(&mut dice, &walk.pair.peer, &board, &log);
    }
    assert!(refused > 100, "{dice}");
}

/// What the call of a record says, with small numbers so that records have to
/// do with each other.
fn any_logged_call(dice: &mut Dice, record: &Record) -> LogRecord {
    let cpus = record.board.cpus;
    let function = match dice.below(8) {
        0..=3 => Function::Activate,
        4 => Function::CpuOn,
        5 => Function::Cancel,
        _ => dice.one_of(&FUNCTIONS),
    };
    let target = dice.below(cpus + 1);
    let second = match function {
        Function::CpuOn => dice.one_of(&[target, target, target, 63, 64, 1 << 32, target | 256]),
        _ => id(dice, record),
    };
    let outcome = match function {
        Function::Cancel if !dice.one_in(4) => RETURNED,
        _ => dice.one_of(&[RETURNED, RETURNED, HELD, HELD, 3, 3, 4, GONE]),
    };
    let given = match outcome {
        RETURNED => dice.one_of(&[0, 0, 0, status(8), 1, u64::MAX]),
        _ => 0,
    };
    LogRecord {
        kind: CALL,
        cpu: dice.one_of(&[0, 0, target % 64, target % 64, 63]),
        code: 0,
        outcome,
        words: [
            function.number() | dice.one_of(&[0, 0, 0, 1 << 32]),
            second,
            dice.one_of(&[0, 0, 0, 1, 2, 3, 1 << 32, 1 << 32 | 1]),
            entry(dice, &record.board),
            dice.word(),
            given,
        ],
    }
}

/// A readable record that need not follow from those before it.
fn any_record(dice: &mut Dice, record: &Record) -> LogRecord {
    let component = match dice.below(16) {
        0 => dice.below(32),
        _ => dice.below(record.board.components.min(3)),
    };
    let (kind, code, outcome, given) = match dice.below(16) {
        0 | 1 => (PRIME, dice.one_of(&PRIME_CODES), RELEASED, dice.word()),
        2 => (PRIME, 0, RELEASED, dice.one_of(&[1, 1 << 32, status(11)])),
        3 | 4 => (PRIME, 0, RELEASED, 0),
        5 => (ACTIVATE, dice.one_of(&[1, 2]), RELEASED, 0),
        6 => match dice.one_of(&ACTIVATE_CODES) {
            12 => (ACTIVATE, 12, RELEASED, 0),
            code => (ACTIVATE, code, RELEASED, 9),
        },
        7 => (IMAGE, 0, NOTED, 0),
        _ => return any_logged_call(dice, record),
    };
    let version = if kind == IMAGE {
        dice.below(1 << 32)
    } else {
        0
    };
    LogRecord {
        kind,
        cpu: 0,
        code,
        outcome,
        words: [0, component, version, 0, 0, given],
    }
}

/// A log of any records.
fn any_log(dice: &mut Dice, record: &Record) -> Vec<u8> {
    (0..dice.below(16))
        .flat_map(|_| packed(&any_record(dice, record)))
        .collect()
}

/// What was met in logs that no agent writes.
#[derive(Default, Debug)]
struct Met {
    started: u64,
    /// Not started because of a CPU that no set has.
    stopped: u64,
    /// Not prepared because of word 6 of a prime report of code 0.
    unfinished: u64,
    /// Still held, so for PRIME, at a CANCEL that returned 0.
    kept: u64,
    /// Whys by their refusals.
    whys: BTreeMap<u64, u64>,
}

impl Met {
    /// Every question at a place of a log.
    fn ask(&mut self, dice: &mut Dice, record: &Record, log: &[u8], place: usize) {
        let board = described(&record.board);
        let prepared = ask_prepared(dice, log, place).expect("a good log");
        let mut call = question(dice, record);
        call.x1 = prepared.component.unwrap_or(call.x1);
        let read = ask_starts(dice, &board, log, place, &call).expect("a good log");
        let why = ask_why(dice, &board, log, place, &without_x0(&call));
        let refusal = refusal_of(&why.map_err(|flaw| flaw.refusal));
        let [_, held] = ask_cpus(dice, log, place).expect("a good log");
        let mut reading = reading_at(log, place).expect("a good log");
        let beyond = std::mem::take(&mut reading.powered_beyond);
        let stopped = beyond && reading.starts(&record.board, &call).is_some();
        let kept = !held.is_empty() && is_cancelled(log, place);
        self.started += u64::from(read.is_some());
        self.stopped += u64::from(stopped);
        self.unfinished += u64::from(is_unfinished(log, place, &prepared));
        self.kept += u64::from(kept);
        *self.whys.entry(refusal).or_default() += 1;
    }
}

/// The record at a place of a good log, if there is one.
fn record_at(log: &[u8], place: usize) -> Option<LogRecord> {
    LogRecord::read(&log[RECORD_BYTES * place..]).ok()
}

/// Whether it was a prime report of code 0 that left nothing prepared.
fn is_unfinished(log: &[u8], place: usize, prepared: &Prepared) -> bool {
    if prepared.looked == 0 {
        return false;
    }
    let decided = record_at(log, place - prepared.looked);
    prepared.component.is_none() && decided.is_some_and(|at| at.kind == PRIME && at.code == 0)
}

/// Whether the record before a place is a CANCEL that returned 0.
fn is_cancelled(log: &[u8], place: usize) -> bool {
    let last = place.checked_sub(1).and_then(|last| record_at(log, last));
    last.is_some_and(|last| last.is_cancelling())
}

/// Readable records in any order: what is read off them goes by the rules of
/// the log alone.
#[test]
fn logs_that_no_agent_writes() {
    let mut dice = Dice::new(15);
    let mut met = Met::default();
    for _ in 0..2000 {
        let mut board = any(&mut dice);
        if !dice.one_in(8) {
            board.cpus = board.cpus.min(3);
        }
        let record = Record::fresh(board);
        let log = any_log(&mut dice, &record);
        for place in 0..=log.len() / RECORD_BYTES {
            dice.next_step();
            met.ask(&mut dice, &record, &log, place);
        }
    }
    println!("in logs that no agent writes: {met:?}");
    assert!(met.started > 500 && met.stopped > 5, "{dice}: {met:?}");
    assert!(met.unfinished > 500 && met.kept > 10, "{dice}: {met:?}");
    let often = |refusal| met.whys.get(&refusal) > Some(&500);
    assert!(often(0) && often(35), "{dice}: {met:?}");
}

/// The bits of a record, and those of its word 6.
const BITS: Range<usize> = 0..8 * RECORD_BYTES;
const WORD_6: Range<usize> = BITS.end - 64..BITS.end;

/// An activate report of code 12 with a bit of word 6 set and another bit
/// flipped, unless it is the same one.
fn reset_with(given: usize, other: usize) -> [u8; RECORD_BYTES] {
    let mut bytes = [0; RECORD_BYTES];
    bytes[..3].copy_from_slice(&[0x60, 0x31, 0x80]);
    bytes[other / 8] ^= 1 << (other % 8);
    bytes[given / 8] |= 1 << (given % 8);
    bytes
}

/// No X0 is given by reset: every bit of word 6, alone and beside every other
/// bit of the record.
#[test]
fn resets_read_with_an_x0() {
    let mut dice = Dice::new(17);
    let walk = full_walk(&mut dice, 6);
    let mut refusals = BTreeMap::<u64, u64>::new();
    for (given, other) in WORD_6.flat_map(|given| BITS.map(move |other| (given, other))) {
        let mut log = walk.log.clone();
        log.extend_from_slice(&reset_with(given, other));
        dice.next_step();
        let place = dice.place(8);
        let call = question(&mut dice, &walk.pair.peer);
        let _ = ask_starts(&dice, &walk.board, &log, place, &call);
        let refusal = match ask_prepared(&dice, &log, place) {
            Ok(_) => 0,
            Err(Flaw { refusal, place }) => {
                assert_eq!(place, 6, "{dice}");
                refusal.number()
            }
        };
        *refusals.entry(refusal).or_default() += 1;
    }
    // One of the other bits makes the code 4, which gives an X0; eleven make
    // the kind, the code or the outcome unknown.
    let expected = [(0, 64), (31, 64 * 396), (32, 64 * 11)];
    assert_eq!(refusals, BTreeMap::from(expected), "{dice}");
}

/// The same in writing: reports about code 12 with and without an X0.
#[test]
fn resets_logged_with_an_x0() {
    let mut dice = Dice::new(18);
    let mut counts = BTreeMap::<(u64, bool, bool), u64>::new();
    for _ in 0..20_000 {
        dice.next_step();
        let event = Event::Activate(Report {
            component: dice.one_of(&[0, 31, 31, 32]),
            code: dice.one_of(&[11, 12, 12, 13]),
        });
        let x0 = 1 << dice.below(64);
        let x0 = dice.one_of(&[0, x0, status(12)]);
        let cpus = CpuSet::only(0);
        let returned = Release::Returned { cpus, x0, x1: 0 };
        let release = dice.one_of(&[Release::Nobody, returned, Release::Resumed(cpus)]);
        let answer = Answer {
            caller: Caller::Nothing,
            release,
        };
        let record = logged(&event, &answer);
        let form = flat_form(&mut dice, &event);
        let written = log(&mut dice, form, flat_answer(&Ok(answer)), Some(record)).is_some();
        let kind = (record.code, record.words[5] != 0, written);
        *counts.entry(kind).or_default() += 1;
    }
    println!("codes, whether an X0 was given, and whether it was written: {counts:?}");
    for (kind, comes) in [
        ((11, true, true), true),
        ((12, false, true), true),
        ((12, true, false), true),
        ((12, true, true), false),
        ((13, false, true), false),
    ] {
        assert_eq!(counts.contains_key(&kind), comes, "{dice}: {counts:?}");
    }
}

/// The number of a part: mostly a known one, which are below the end.
fn part(dice: &mut Dice, end: u64) -> u64 {
    match dice.below(32) {
        0 => end + dice.below(4),
        1 => 1 << 32 | dice.below(end),
        _ => dice.below(end),
    }
}

/// An answer with any parts, most of them known ones.
fn any_answer(dice: &mut Dice) -> flat::Answer {
    flat::Answer {
        refusal: dice.one_of(&[0, 0, 0, 0, 0, 0, 0, 1, 9, 1 << 32]),
        caller: part(dice, 6),
        returned: flat::Registers {
            x0: dice.word(),
            x1: dice.word(),
            x2: dice.word(),
            x3: dice.word(),
        },
        release: part(dice, 3),
        freed: flat::Freed {
            cpus: flat::Cpus { bits: dice.word() },
            x0: dice.word(),
            x1: dice.word(),
        },
    }
}

/// An event to log: like one that comes, or anything.
fn any_event(dice: &mut Dice, record: &Record) -> flat::Event {
    let mut event = match dice.below(4) {
        0 => junk_event(dice),
        _ => {
            let event = noise(dice, record);
            flat_form(dice, &event)
        }
    };
    match dice.below(8) {
        0..=3 => event.kind = 1 + dice.below(4),
        4 => event.kind = dice.below(7),
        _ => {}
    }
    event.report.component %= dice.one_of(&[1 << 63, 34]);
    event.report.code %= dice.one_of(&[1 << 63, 14]);
    event.image.component %= dice.one_of(&[1 << 63, 34]);
    event.call.cpu %= dice.one_of(&[1 << 63, 66]);
    event
}

#[test]
fn random_answers_logged() {
    let mut dice = Dice::new(16);
    let record = Record::fresh(any(&mut dice));
    let mut written = 0;
    for _ in 0..200_000 {
        dice.next_step();
        let (event, answer) = (any_event(&mut dice, &record), any_answer(&mut dice));
        let expected = peer_logged(&event, &answer);
        written += u64::from(log(&mut dice, event, answer, expected).is_some());
    }
    println!("random answers written: {written}");
    assert!(written > 20_000, "{dice}: {written}");
}

/// Records read one by one: of walks, damaged, cut short and random.
#[test]
fn records_read() {
    let mut dice = Dice::new(22);
    let mut refusals = BTreeMap::<u64, u64>::new();
    for _ in 0..400 {
        let records = 1 + dice.place(25);
        let mut log = walk(&mut dice, records).log;
        for round in 0..40 {
            if round % 4 == 3 {
                damage(&mut dice, &mut log);
            }
            let start = match dice.below(8) {
                0 => dice.place(log.len() + 1),
                _ => RECORD_BYTES * dice.place(log.len() / RECORD_BYTES + 1),
            };
            dice.next_step();
            let read = read_record(&dice, &log[start..]);
            *refusals.entry(refusal_of(&read)).or_default() += 1;
        }
    }
    println!("refusals of records read: {refusals:?}");
    let kinds: Vec<u64> = refusals.into_keys().collect();
    assert_eq!(kinds, [0, 30, 31, 32], "{dice}");
}

/// Every bit of a record, flipped, and random bytes.
#[test]
fn every_bit_of_a_record() {
    let mut dice = Dice::new(23);
    let walk = full_walk(&mut dice, 40);
    for record in walk.log.chunks(RECORD_BYTES) {
        for bit in BITS {
            let mut bytes = record.to_vec();
            bytes[bit / 8] ^= 1 << (bit % 8);
            let _ = read_record(&dice, &bytes);
            dice.fill(&mut bytes[bit / 8..]);
            let _ = read_record(&dice, &bytes);
        }
    }
}
