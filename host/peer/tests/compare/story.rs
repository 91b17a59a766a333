//! Walks with all that was on their way, and their logs with one record that
//! is not what the rules give there.

use crate::tally::Tally;
use crate::walks::Walk;
use common::boards::packed;
use common::dice::Dice;
use common::generate::{any_call, ACTIVATE_CODES, PRIME_CODES};
use common::pair::check_why;
use peer::*;

/// The log of a walk, with the board's record at each of its places.
pub struct Story {
    pub board: Vec<u8>,
    pub log: Vec<u8>,
    records: Vec<Record>,
}

impl Story {
    /// A story of at most so many log records.
    pub fn any(dice: &mut Dice, most: usize) -> Self {
        let mut tally = Tally::default();
        let mut walk = Walk::new(dice);
        let mut records = vec![walk.pair.peer.clone()];
        for _ in 0..4 * most {
            if walk.is_over() || walk.records() == most {
                break;
            }
            walk.step(dice, &mut tally);
            if walk.records() == records.len() {
                records.push(walk.pair.peer.clone());
            }
        }
        Self {
            board: walk.board,
            log: walk.log,
            records,
        }
    }

    /// How many log records there are.
    pub fn len(&self) -> usize {
        self.log.len() / RECORD_BYTES
    }

    /// The board's record at a place, or at the end where the place is past it.
    pub fn at(&self, place: usize) -> &Record {
        &self.records[place.min(self.len())]
    }

    /// That an answer at a place fits the board's record there.
    pub fn check(&self, dice: &Dice, place: usize, ask: &Activate, why: Result<Reason, Flaw>) {
        check_why(dice, self.at(place), &self.log, place, ask, why);
    }

    /// The log with the record at a place changed, or with one more before it
    /// whose event is refused there, if it can be.
    pub fn changed(&self, dice: &mut Dice, at: usize, change: Change) -> Option<Vec<u8>> {
        let mut log = self.log.clone();
        if let Change::Refused(number) = change {
            let record = refused_record(dice, self.at(at), number)?;
            let start = RECORD_BYTES * at;
            log.splice(start..start, packed(&record));
        } else {
            let record = LogRecord::read(&log[RECORD_BYTES * at..]).ok()?;
            let other = match change {
                Change::Outcome => with_outcome(dice, record)?,
                _ => with_word_6(dice, record)?,
            };
            record_of(&mut log, at).copy_from_slice(&packed(&other));
        }
        Some(log)
    }
}

/// The bytes of the record at a place.
pub fn record_of(log: &mut [u8], place: usize) -> &mut [u8] {
    &mut log[RECORD_BYTES * place..][..RECORD_BYTES]
}

/// How a log record differs from what the rules give.
#[derive(Clone, Copy, PartialEq, Eq, PartialOrd, Ord, Debug)]
pub enum Change {
    /// The event has another outcome.
    Outcome,
    /// The event has another X0.
    Word6,
    /// The event is refused with this number.
    Refused(u64),
}

/// Every change.
pub const CHANGES: [Change; 9] = [
    Change::Outcome,
    Change::Word6,
    Change::Refused(2),
    Change::Refused(3),
    Change::Refused(4),
    Change::Refused(5),
    Change::Refused(6),
    Change::Refused(7),
    Change::Refused(8),
];

/// An X0 that a call or a report may give.
fn any_x0(dice: &mut Dice) -> u64 {
    dice.one_of(&[0, 1, 65536, status(2), status(7), status(8), status(11)])
}

/// The record of a call with another outcome; the others have just one.
fn with_outcome(dice: &mut Dice, mut record: LogRecord) -> Option<LogRecord> {
    let others = (RETURNED..=GONE).filter(|&other| other != record.outcome);
    record.outcome = dice.member(others)?;
    record.words[5] = match record.outcome {
        RETURNED => any_x0(dice),
        _ => 0,
    };
    (record.kind == CALL).then_some(record)
}

/// The record with another X0, where it gives one.
fn with_word_6(dice: &mut Dice, mut record: LogRecord) -> Option<LogRecord> {
    let bit = dice.below(64);
    record.words[5] ^= match dice.below(3) {
        0 => 1 << bit,
        1 => 1 << 32,
        _ => any_x0(dice).max(1),
    };
    let gives = matches!(record.outcome, RETURNED | RELEASED) && record.code != 12;
    gives.then_some(record)
}

/// A log record whose event is refused with this number, if there is one.
fn refused_record(dice: &mut Dice, record: &Record, number: u64) -> Option<LogRecord> {
    let event = refused_event(dice, record, number)?;
    let (mut entries, mut contexts) = ([0; MAX_CPUS], [0; MAX_CPUS]);
    let mut after = record.clone();
    let answer = after.step(&event, &mut entries, &mut contexts);
    assert_eq!(answer.map_err(Refusal::number), Err(number), "{dice}");
    Some(logged(&event, &any_answer(dice, &event)))
}

/// An event that is refused with this number, if a log has room for one.
fn refused_event(dice: &mut Dice, record: &Record, number: u64) -> Option<Event> {
    Some(match number {
        2..=4 => {
            let cpu = refused_cpu(dice, record, number)?;
            let call = any_call(dice, record);
            Event::Call(Call { cpu, ..call })
        }
        5 => report_without_job(dice, record)?,
        6 => report_not_allowed(dice, record)?,
        _ => Event::Image(Image {
            component: refused_component(dice, record, number)?,
            version: dice.below(10) as u32,
        }),
    })
}

/// A CPU of at most 63 whose call is refused with this number, if there is one.
pub fn refused_cpu(dice: &mut Dice, record: &Record, number: u64) -> Option<u64> {
    let cpus = record.board.cpus;
    match number {
        2 => dice.member(cpus..MAX_CPUS as u64),
        3 => dice.member(CpuSet::below(cpus).without(record.on).members()),
        _ => dice.member(record.held.members()),
    }
}

/// A report on a job that does not run.
fn report_without_job(dice: &mut Dice, record: &Record) -> Option<Event> {
    let component = dice.below(32);
    let (event, jobs) = if dice.one_in(2) {
        let code = dice.one_of(&PRIME_CODES);
        let jobs = [State::Preparing(component), State::Withdrawn(component)];
        (Event::Prime(Report { component, code }), jobs)
    } else {
        let code = dice.one_of(&ACTIVATE_CODES);
        let jobs = [State::Together(component), State::Alone(component)];
        (Event::Activate(Report { component, code }), jobs)
    };
    (!jobs.contains(&record.state)).then_some(event)
}

/// A report on the running activation with a code that is not for it.
fn report_not_allowed(dice: &mut Dice, record: &Record) -> Option<Event> {
    let component = record.state.component()?;
    let may_reset = record.board.component[component as usize].may_reset;
    let code = match record.state {
        State::Alone(_) => 12,
        State::Together(_) if may_reset => 1,
        State::Together(_) => dice.one_of(&[1, 12]),
        _ => return None,
    };
    Some(Event::Activate(Report { component, code }))
}

/// A component whose image is refused with this number, if there is one.
fn refused_component(dice: &mut Dice, record: &Record, number: u64) -> Option<u64> {
    let all = &record.board.component;
    match number {
        // Places past the count are not capable either.
        7 => dice.member((0..32).filter(|&id| !all[id as usize].capable)),
        _ => record.state.component(),
    }
}

/// An answer that could be one to this event.
fn any_answer(dice: &mut Dice, event: &Event) -> Answer {
    let x0 = any_x0(dice);
    let cpus = CpuSet::only(0);
    Answer {
        caller: dice.one_of(&[
            Caller::Returned([x0, 0, 0, 0]),
            Caller::Held,
            Caller::PrimeStarted,
            Caller::ActivationStarted,
            Caller::Gone,
        ]),
        release: match event {
            Event::Activate(report) if report.code == 12 => Release::Resumed(cpus),
            _ => Release::Returned { cpus, x0, x1: 0 },
        },
    }
}
