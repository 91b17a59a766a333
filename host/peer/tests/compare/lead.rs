//! Logs in deliveries: good and damaged ones, cut in all ways; and readers that
//! are none, with whatever comes to them.

use crate::faults::{any_reader, faults_by_standing, FAULTS};
use crate::logs::{damage, full_walk};
use crate::story::{record_of, Story};
use crate::tally::{add, exactly};
use crate::why::spoil;
use common::convert::flaw_refusal;
use common::dice::Dice;
use common::pair::{lead_close, lead_open, lead_take, same};
use peer::*;
use std::collections::BTreeMap;

/// What comes to a reader.
#[derive(Clone, Copy, PartialEq, Eq, PartialOrd, Ord, Debug)]
enum Came {
    Nothing,
    Bytes,
    Close,
}

const ALL_CAME: [Came; 3] = [Came::Nothing, Came::Bytes, Came::Close];

/// The refusals of a reader that takes no more: of its log, closed, and none.
const AT_THE_END: [u64; 6] = [30, 31, 32, 33, 36, 37];

/// What was met: what a reader gives to everything, or 0 where it is open; what
/// came to it; and the refusal, or 0.
#[derive(Default)]
struct Met(BTreeMap<(u64, Came, u64), u64>);

/// What a reader gives to everything, or 0 where it is open.
fn stands(lead: &Stored) -> u64 {
    match lead.reader() {
        Some(Lead::Open { .. }) => 0,
        Some(Lead::Closed { .. }) => 36,
        Some(Lead::Refused { flaw, .. }) => flaw.refusal.number(),
        None => 37,
    }
}

impl Met {
    fn take(&mut self, dice: &mut Dice, lead: &mut Stored, delivery: &[u8]) -> Result<Took, Flaw> {
        dice.next_step();
        let came = match delivery {
            [] => Came::Nothing,
            _ => Came::Bytes,
        };
        let (next, took) = lead_take(dice, lead, delivery);
        add(&mut self.0, (stands(lead), came, flaw_refusal(&took)));
        *lead = next;
        took
    }

    fn close(&mut self, dice: &mut Dice, lead: &mut Stored) -> Result<usize, Flaw> {
        dice.next_step();
        let (next, closed) = lead_close(dice, lead);
        add(
            &mut self.0,
            (stands(lead), Came::Close, flaw_refusal(&closed)),
        );
        *lead = next;
        closed
    }

    /// A delivery and the rest of it, until nothing is left; its records are
    /// added to those before.
    fn take_all(
        &mut self,
        dice: &mut Dice,
        lead: &mut Stored,
        mut delivery: &[u8],
        records: &mut Vec<LogRecord>,
    ) -> Result<(), Flaw> {
        loop {
            let took = self.take(dice, lead, delivery)?;
            records.extend(took.record);
            delivery = &delivery[took.used..];
            if delivery.is_empty() {
                return Ok(());
            }
        }
    }

    /// Deliveries, and the close: the records, and what was refused first.
    fn take_log(
        &mut self,
        dice: &mut Dice,
        lead: &mut Stored,
        deliveries: &[&[u8]],
    ) -> (Vec<LogRecord>, Option<Flaw>) {
        let mut records = Vec::new();
        for delivery in deliveries {
            if let Err(flaw) = self.take_all(dice, lead, delivery, &mut records) {
                return (records, Some(flaw));
            }
        }
        let closed = self.close(dice, lead);
        let expected = closed.is_ok().then_some(records.len());
        same(dice, "records of the log", &closed.ok(), &expected);
        (records, closed.err())
    }

    /// Whatever comes to a reader at its end, or to none, gets this one refusal
    /// and changes nothing.
    fn stays(&mut self, dice: &mut Dice, lead: &Stored, flaw: Flaw) {
        let mut bytes = [0; 2 * RECORD_BYTES];
        dice.fill(&mut bytes);
        let delivery = &bytes[..1 + dice.place(bytes.len())];
        for _ in 0..2 {
            let mut after = *lead;
            for delivery in [&[], delivery] {
                let took = self.take(dice, &mut after, delivery);
                same(dice, "the same refusal", &took, &Err(flaw));
            }
            let closed = self.close(dice, &mut after);
            same(dice, "the same refusal", &closed, &Err(flaw));
            same(dice, "the same reader", &after, lead);
        }
    }

    /// A log in these deliveries comes to the same as its records one by one;
    /// the refusal, or 0.
    fn compare(&mut self, dice: &mut Dice, deliveries: &[&[u8]]) -> u64 {
        let mut lead = lead_open(dice);
        let told = self.take_log(dice, &mut lead, deliveries);
        let joined = deliveries.concat();
        same(dice, "one by one", &told, &one_by_one(&joined));
        let refusal = Refusal::AlreadyClosed;
        let flaw = told.1.unwrap_or(Flaw { refusal, place: 0 });
        self.stays(dice, &lead, flaw);
        told.1.map_or(0, |flaw| flaw.refusal.number())
    }

    /// Fails unless all that can be met was, but for these.
    fn check(&self, what: &str, left_out: &[u64]) {
        let open = [
            (0, Came::Nothing, 0),
            (0, Came::Bytes, 0),
            (0, Came::Bytes, 31),
            (0, Came::Bytes, 32),
            (0, Came::Bytes, 33),
            (0, Came::Close, 0),
            (0, Came::Close, 30),
        ];
        let ended = AT_THE_END
            .into_iter()
            .flat_map(|number| ALL_CAME.map(|came| (number, came, number)));
        let all = open.into_iter().chain(ended);
        exactly(what, &self.0, all.filter(|met| !left_out.contains(&met.2)));
    }
}

/// The records of a log, one by one, and what is refused first.
fn one_by_one(mut log: &[u8]) -> (Vec<LogRecord>, Option<Flaw>) {
    let mut records = Vec::new();
    while !log.is_empty() {
        let place = records.len();
        if place == MAX_RECORDS {
            let refusal = Refusal::BadLength;
            return (records, Some(Flaw { refusal, place: 0 }));
        }
        match LogRecord::read(log) {
            Ok(record) => records.push(record),
            Err(refusal) => return (records, Some(Flaw { refusal, place })),
        }
        log = &log[RECORD_BYTES..];
    }
    (records, None)
}

/// How many manners there are to cut a log; the last one mixes the others.
const MANNERS: u64 = 7;

/// The length of a delivery in this manner.
fn any_length(dice: &mut Dice, manner: u64) -> usize {
    match manner {
        0 => 1,
        1 => dice.place(2),
        2 => 50 + dice.place(3),
        3 => dice.place(120),
        4 => usize::MAX,
        5 => 1 << dice.below(12),
        _ => {
            let manner = dice.below(MANNERS - 1);
            any_length(dice, manner)
        }
    }
}

/// A log, cut in some manner.
fn cut<'l>(dice: &mut Dice, mut log: &'l [u8]) -> Vec<&'l [u8]> {
    let manner = dice.below(MANNERS);
    let mut deliveries = Vec::new();
    while !log.is_empty() {
        let (delivery, rest) = log.split_at(any_length(dice, manner).min(log.len()));
        deliveries.push(delivery);
        log = rest;
    }
    if dice.one_in(2) {
        deliveries.push(&[]);
    }
    deliveries
}

/// What is done to a log.
#[derive(Clone, Copy, PartialEq, Eq, PartialOrd, Ord, Debug)]
enum Way {
    Anything,
    Nothing,
    UnknownKind,
    UnusedBit,
    CutShort,
    BytePast,
    RecordsPast,
    BadThenPast,
    BadPast,
}

/// A way with its refusals.
type Ways = &'static [(Way, &'static [u64])];

/// Those for logs of any length, the first of them at random.
const SHORT: Ways = &[
    (Way::Anything, &[0, 30, 31, 32]),
    (Way::Nothing, &[0]),
    (Way::UnknownKind, &[32]),
    (Way::UnusedBit, &[31]),
    (Way::CutShort, &[30]),
];

/// Those that go past the most records.
const PAST: Ways = &[
    (Way::BytePast, &[33]),
    (Way::RecordsPast, &[33]),
    (Way::BadThenPast, &[31, 32]),
    (Way::BadPast, &[33]),
];

/// Each way with each of its refusals.
fn with_refusals(ways: &[(Way, &'static [u64])]) -> Vec<(Way, u64)> {
    let each = ways.iter();
    each.flat_map(|(way, numbers)| numbers.iter().map(|&number| (*way, number)))
        .collect()
}

/// Does this to a log, which has records.
fn change(dice: &mut Dice, log: &mut Vec<u8>, way: Way) {
    let records = log.len() / RECORD_BYTES;
    let at = dice.place(records);
    let number = dice.one_of(&[31, 32]);
    match way {
        Way::Anything => damage(dice, log),
        Way::Nothing => {}
        Way::UnknownKind => spoil(dice, record_of(log, at), 32),
        Way::UnusedBit => spoil(dice, record_of(log, at), 31),
        Way::CutShort => log.truncate(RECORD_BYTES * at + 1 + dice.place(MAX_KEPT)),
        Way::BytePast => log.push(dice.word() as u8),
        Way::RecordsPast => log.extend_from_within(..RECORD_BYTES * (1 + at)),
        Way::BadThenPast => {
            spoil(dice, record_of(log, at), number);
            log.push(dice.word() as u8);
        }
        Way::BadPast => {
            log.extend_from_within(..RECORD_BYTES);
            spoil(dice, record_of(log, records), number);
        }
    }
}

#[test]
fn logs_in_deliveries() {
    let mut dice = Dice::new(33);
    let mut met = Met::default();
    let mut ways = BTreeMap::new();
    for (way, _) in SHORT.iter().cycle().take(500 * SHORT.len()) {
        let most = 1 + dice.place(12);
        let mut log = Story::any(&mut dice, most).log;
        if log.is_empty() {
            continue;
        }
        change(&mut dice, &mut log, *way);
        let deliveries = cut(&mut dice, &log);
        add(&mut ways, (*way, met.compare(&mut dice, &deliveries)));
    }
    met.check("what came to readers of short logs", &[33, 37]);
    exactly("short logs by ways", &ways, with_refusals(SHORT));
}

/// Logs of the most records, and past them.
#[test]
fn longest_logs_in_deliveries() {
    let mut dice = Dice::new(34);
    let mut met = Met::default();
    let mut ways = BTreeMap::new();
    let full = full_walk(&mut dice, MAX_RECORDS).log;
    let all = [&SHORT[1..], PAST].concat();
    for (way, _) in all.iter().cycle().take(20 * all.len()) {
        let mut log = full.clone();
        change(&mut dice, &mut log, *way);
        let deliveries = cut(&mut dice, &log);
        add(&mut ways, (*way, met.compare(&mut dice, &deliveries)));
    }
    met.check("what came to readers of the longest logs", &[37]);
    exactly("the longest logs by ways", &ways, with_refusals(&all));
}

/// Three records, good and bad, cut at every two places.
#[test]
fn every_cut_of_a_log() {
    let mut dice = Dice::new(35);
    let mut met = Met::default();
    let good = full_walk(&mut dice, 3).log;
    for (way, _) in &SHORT[1..] {
        let mut log = good.clone();
        change(&mut dice, &mut log, *way);
        for second in 0..=log.len() {
            for first in 0..=second {
                let cut = [&log[..first], &log[first..second], &log[second..]];
                met.compare(&mut dice, &cut);
            }
        }
    }
    met.check("what came to readers of three records", &[33, 37]);
}

/// Every bit of a record, flipped, behind a cut anywhere.
#[test]
fn every_bit_of_a_delivered_record() {
    let mut dice = Dice::new(36);
    let mut met = Met::default();
    let log = full_walk(&mut dice, 12).log;
    for bit in 0..8 * log.len() {
        let mut log = log.clone();
        log[bit / 8] ^= 1 << (bit % 8);
        let (one, other) = log.split_at(dice.place(log.len() + 1));
        met.compare(&mut dice, &[one, other]);
    }
    met.check("what came to readers of a flipped bit", &[30, 33, 37]);
}

/// Each fault by itself, on readers of every standing.
#[test]
fn every_fault() {
    let mut dice = Dice::new(37);
    let mut met = Met::default();
    let mut alone = BTreeMap::new();
    for _ in 0..3000 {
        let sample = any_reader(&mut dice);
        for (fault, breaker) in FAULTS {
            let mut damaged = sample;
            let broken = breaker(&mut dice, &mut damaged).is_some();
            if !broken || damaged.faults() != [fault] {
                continue;
            }
            let refusal = Refusal::NoReader;
            met.stays(&mut dice, &damaged, Flaw { refusal, place: 0 });
            add(&mut alone, (fault, sample.standing));
        }
    }
    exactly(
        "what came to readers that are none",
        &met.0,
        ALL_CAME.map(|came| (37, came, 37)),
    );
    exactly(
        "faults by themselves, by standing",
        &alone,
        faults_by_standing(),
    );
}

/// A number near one of the limits.
fn near(dice: &mut Dice) -> usize {
    let limit = dice.one_of(&[1, 30, 33, 36, MAX_KEPT, MAX_RECORDS]);
    match dice.below(8) {
        0 => 0,
        1 => dice.word() as usize,
        2 => limit | 1 << 32,
        _ => limit + dice.place(3) - 1,
    }
}

/// Changes one field, to anything that it could hold.
fn change_field(dice: &mut Dice, r: &mut Stored) {
    let number = near(dice);
    match dice.below(8) {
        0 => r.standing = dice.below(4),
        1 => r.standing = number as u64,
        2 => r.refusal = number as u64,
        3 => r.place = number,
        4 => r.place = r.records,
        5 => r.records = number,
        6 => r.length = number,
        _ => r.kept[dice.place(MAX_KEPT)] = dice.one_of(&[0, 1, 0x80]),
    }
}

/// A delivery of the log to a reader, which now and then keeps the start of it.
fn next_of<'l>(dice: &mut Dice, lead: &mut Stored, log: &'l [u8]) -> &'l [u8] {
    let mut start = 0;
    if lead.reader().is_some() && dice.one_in(2) {
        start = lead.length;
        lead.kept[..start].copy_from_slice(&log[..start]);
    }
    &log[start..start + dice.place(log.len() - start + 1)]
}

/// Readers with random damage, which may leave them readers.
#[test]
fn readers_with_random_damage() {
    let mut dice = Dice::new(38);
    let mut met = Met::default();
    let log = full_walk(&mut dice, 3).log;
    for _ in 0..60_000 {
        let mut lead = any_reader(&mut dice);
        for _ in 0..dice.below(4) {
            change_field(&mut dice, &mut lead);
        }
        let delivery = next_of(&mut dice, &mut lead, &log);
        let mut closed = lead;
        let _ = met.close(&mut dice, &mut closed);
        let _ = met.take(&mut dice, &mut lead, delivery);
        let _ = met.take(&mut dice, &mut lead, &[]);
        let _ = met.close(&mut dice, &mut lead);
    }
    met.check("what came to readers with random damage", &[]);
}
