//! Readers of deliveries of every standing, and every fault that none has, each
//! with what gives it to one.

use crate::clauses::{large, nonzero};
use common::dice::Dice;
use peer::*;

/// A reader that deliveries can lead to, mostly near the limits.
pub fn any_reader(dice: &mut Dice) -> Stored {
    let records = match dice.below(4) {
        0 => dice.place(2),
        1 => MAX_RECORDS - 1,
        2 => MAX_RECORDS,
        _ => dice.place(MAX_RECORDS),
    };
    let mut kept = vec![0; dice.one_of(&[0, 1, 25, MAX_KEPT - 1, MAX_KEPT])];
    dice.fill(&mut kept);
    let refusal = dice.one_of(&[Refusal::LogTooShort, Refusal::BadField, Refusal::Unknown]);
    let full = records == MAX_RECORDS;
    let reader = match dice.below(4) {
        0 => Lead::Closed { records },
        1 if full => {
            let refusal = Refusal::BadLength;
            let flaw = Flaw { refusal, place: 0 };
            Lead::Refused { records, flaw }
        }
        1 => {
            let place = records;
            let flaw = Flaw { refusal, place };
            Lead::Refused { records, flaw }
        }
        _ if full => Lead::Open {
            records,
            kept: Vec::new(),
        },
        _ => Lead::Open { records, kept },
    };
    reader.stored()
}

/// Gives a reader one fault and no other, where it can.
pub type Breaker = fn(&mut Dice, &mut Stored) -> Option<()>;

/// Every fault.
pub const FAULTS: [(Fault, Breaker); 13] = [
    (Fault::Standing, |dice, r| {
        r.standing = large(dice, REFUSED);
        Some(())
    }),
    (Fault::IdleRefusal, |dice, r| {
        r.refusal = dice.one_of(&[1, 29, 30, 31, 32, 33, 34, 36, 37, 1 << 32]);
        (r.standing != REFUSED).then_some(())
    }),
    (Fault::IdlePlace, |dice, r| {
        r.place = dice.one_of(&[1, r.records.max(1), 1 << 32]);
        (r.standing != REFUSED).then_some(())
    }),
    (Fault::Refusal, |dice, r| {
        let near = dice.one_of(&[0, 1, 29, 34, 35, 36, 37]);
        r.refusal = dice.one_of(&[near, near, 30 | 1 << 8, 31 | 1 << 32, u64::MAX]);
        (r.standing == REFUSED).then_some(())
    }),
    (Fault::Place, |dice, r| {
        let at = r.records;
        r.place = dice.one_of(&[at + 1, at.wrapping_sub(1), 0, MAX_RECORDS, at | 1 << 32]);
        at_a_record(r)
    }),
    (Fault::PastTheLast, |_, r| {
        (r.records, r.place) = (MAX_RECORDS, MAX_RECORDS);
        at_a_record(r)
    }),
    (Fault::PlaceOfNoRecord, |dice, r| {
        let far = nonzero(dice) as usize;
        r.place = dice.one_of(&[1, MAX_RECORDS - 1, MAX_RECORDS, far]);
        (r.refusal == 33).then_some(())
    }),
    (Fault::TooEarly, |dice, r| {
        let any = dice.place(MAX_RECORDS);
        r.records = dice.one_of(&[0, 1, MAX_RECORDS - 1, any]);
        (r.refusal == 33).then_some(())
    }),
    (Fault::Records, |dice, r| {
        r.records = large(dice, MAX_RECORDS as u64) as usize;
        r.place = if at_a_record(r).is_some() {
            r.records
        } else {
            0
        };
        Some(())
    }),
    (Fault::Length, |dice, r| {
        r.length = large(dice, MAX_KEPT as u64) as usize;
        Some(())
    }),
    (Fault::KeptAtTheEnd, |dice, r| {
        keep(dice, r);
        (r.standing != OPEN).then_some(())
    }),
    (Fault::KeptWhenFull, |dice, r| {
        keep(dice, r);
        (r.records == MAX_RECORDS).then_some(())
    }),
    (Fault::Past, |dice, r| {
        let past = r.kept.get_mut(r.length..)?;
        let last = past.len().checked_sub(1)?;
        let any = dice.place(past.len());
        past[dice.one_of(&[0, last, any])] = 1 << dice.below(8);
        Some(())
    }),
];

/// Whether a record is to blame.
fn at_a_record(r: &Stored) -> Option<()> {
    matches!(r.refusal, 30..=32).then_some(())
}

/// Bytes where there may be none.
fn keep(dice: &mut Dice, r: &mut Stored) {
    r.length = dice.one_of(&[1, 2, MAX_KEPT - 1, MAX_KEPT]);
    dice.fill(&mut r.kept[..r.length]);
}

/// The standings that each fault can be by itself in.
pub fn faults_by_standing() -> impl Iterator<Item = (Fault, u64)> {
    let all = FAULTS
        .into_iter()
        .flat_map(|(fault, _)| [OPEN, CLOSED, REFUSED].map(|standing| (fault, standing)));
    all.filter(|&(fault, standing)| match fault {
        Fault::Standing | Fault::IdleRefusal | Fault::IdlePlace => standing != REFUSED,
        Fault::Length | Fault::KeptWhenFull => standing == OPEN,
        Fault::KeptAtTheEnd => standing != OPEN,
        Fault::Records | Fault::Past => true,
        _ => standing == REFUSED,
    })
}
