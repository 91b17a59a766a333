//! One board, step, log record or question on both sides, and that they agree.
//! Where they do not, the message says at what it was.

use crate::convert::*;
use crate::dice::Dice;
use crate::generate::{any_call, junk_event};
use lfa::flat;
use peer::*;
use std::fmt::{Debug, Display};

/// Places of a lent table, more than any board has CPUs.
const PLACES: usize = 72;
/// Bytes of a lent buffer, more than a log record has.
const ROOM: usize = 60;

/// Fails unless the two are equal.
#[track_caller]
pub fn same<T: PartialEq + Debug>(at: &impl Display, what: &str, library: &T, peer: &T) {
    assert!(
        library == peer,
        "{at}: {what}\nlibrary: {library:?}\n   peer: {peer:?}"
    );
}

/// Reads a board's description on both sides.
pub fn read_board(at: &impl Display, bytes: &[u8]) -> Result<Board, Refusal> {
    let expected = Board::read(bytes);
    same(
        at,
        "fresh",
        &(bytes, flat::fresh(bytes)),
        &(bytes, flat_fresh(expected.clone())),
    );
    expected
}

/// The two lent tables, each with places past the part that is lent.
#[derive(Clone, PartialEq, Debug)]
pub struct Tables {
    entries: [u64; PLACES],
    contexts: [u64; PLACES],
    lent: (usize, usize),
}

impl Tables {
    /// Tables with other values each time and at each place.
    fn any(dice: &mut Dice, lent: (usize, usize)) -> Self {
        let (one, other) = (dice.word(), dice.word());
        Self {
            entries: std::array::from_fn(|place| one.wrapping_add(place as u64)),
            contexts: std::array::from_fn(|place| other.wrapping_sub(place as u64)),
            lent,
        }
    }

    /// Tables that are long enough.
    pub fn long(dice: &mut Dice, cpus: u64) -> Self {
        let spare = PLACES + 1 - cpus as usize;
        let lent = (
            cpus as usize + dice.place(spare),
            cpus as usize + dice.place(spare),
        );
        Self::any(dice, lent)
    }

    /// Tables of which one is too short, or both are.
    pub fn short(dice: &mut Dice, cpus: u64) -> Self {
        let short = dice.place(cpus as usize);
        let other = dice.place(PLACES + 1);
        let lent = if dice.one_in(2) {
            (short, other)
        } else {
            (other, short)
        };
        Self::any(dice, lent)
    }

    /// Mostly tables that are long enough.
    pub fn mostly_long(dice: &mut Dice, cpus: u64) -> Self {
        if dice.one_in(64) {
            Self::short(dice, cpus)
        } else {
            Self::long(dice, cpus)
        }
    }

    /// The refusal of the lengths, or 0.
    pub fn refusal(&self, cpus: u64) -> u64 {
        let shorter = self.lent.0.min(self.lent.1);
        if (shorter as u64) < cpus {
            SHORT_TABLE
        } else {
            0
        }
    }

    fn lend(&mut self) -> (&mut [u64], &mut [u64]) {
        let (one, other) = self.lent;
        (&mut self.entries[..one], &mut self.contexts[..other])
    }
}

/// The flat form of an event; what its kind does not name is 0 or anything.
pub fn flat_form(dice: &mut Dice, event: &Event) -> flat::Event {
    let rest = if dice.one_in(4) {
        junk_event(dice)
    } else {
        flat::Event::default()
    };
    flat_event(event, rest)
}

fn library_step(
    record: &mut flat::Record,
    event: flat::Event,
    tables: &mut Tables,
) -> flat::Answer {
    let (entries, contexts) = tables.lend();
    flat::step(record, event, entries, contexts)
}

/// A step of the library that has to be refused with this number and to
/// change nothing.
pub fn refused_step(
    at: &impl Display,
    record: &flat::Record,
    event: flat::Event,
    tables: &Tables,
    refusal: u64,
) {
    let (mut after, mut tables_after) = (*record, tables.clone());
    let answer = library_step(&mut after, event, &mut tables_after);
    same(at, "refused answer", &answer, &flat_refused(refusal));
    same(at, "record after a refusal", &after, record);
    same(at, "tables after a refusal", &tables_after, tables);
}

/// The same record on both sides.
pub struct Pair {
    pub library: flat::Record,
    pub peer: Record,
}

impl Pair {
    /// One event on both sides. The answer and the flat form are handed back.
    pub fn step(
        &mut self,
        dice: &mut Dice,
        event: &Event,
        tables: &Tables,
    ) -> (Result<Answer, Refusal>, flat::Event) {
        let form = flat_form(dice, event);
        let before = self.library;
        let (mut theirs, mut ours) = (tables.clone(), tables.clone());
        let answer = library_step(&mut self.library, form, &mut theirs);
        let (entries, contexts) = ours.lend();
        let expected = self.peer.step(event, entries, contexts);
        let given = flat_answer(&expected);
        same(dice, "answer", &(form, answer), &(form, given));
        same(dice, "record", &self.library, &flat_record(&self.peer));
        same(dice, "tables", &theirs, &ours);
        if expected.is_err() {
            same(dice, "refused, record", &self.library, &before);
            same(dice, "refused, tables", &theirs, tables);
        }
        (expected, form)
    }
}

/// The component that a log has to say is prepared in a state.
pub fn prepared_in(state: State) -> Option<u64> {
    match state {
        State::Ready(id) | State::Gathering(id) | State::Together(id) => Some(id),
        State::Alone(id) | State::HalfActivated(id) => Some(id),
        _ => None,
    }
}

/// The component whose rendezvous activation an answer started, by the state
/// that it led to.
pub fn started_by(answer: &Result<Answer, Refusal>, after: State) -> Option<u64> {
    match (answer, after) {
        (Ok(answer), State::Together(id)) if answer.caller == Caller::ActivationStarted => Some(id),
        _ => None,
    }
}

/// The length of a lent buffer, mostly with room for a record.
fn room(dice: &mut Dice) -> usize {
    if dice.one_in(16) {
        dice.place(RECORD_BYTES)
    } else {
        RECORD_BYTES + dice.place(ROOM - RECORD_BYTES + 1)
    }
}

/// Writes a log record on both sides at the start of a buffer; `expected` is
/// the peer's record, or none where the library has to refuse with 32.
pub fn write(
    at: &impl Display,
    buf: &mut [u8],
    event: flat::Event,
    answer: flat::Answer,
    expected: Option<LogRecord>,
) -> Result<usize, Refusal> {
    let mut ours = buf.to_vec();
    let written = flat::log(buf, event, answer);
    let expected = match expected {
        Some(record) => record.write(&mut ours),
        None => Err(Refusal::Unknown),
    };
    same(
        at,
        "log",
        &(event, answer, written, &*buf),
        &(event, answer, flat_written(expected), &*ours),
    );
    expected
}

/// Writes a board's description from its parts on both sides.
pub fn describe(at: &impl Display, buf: &mut [u8], parts: &flat::Board) -> Result<usize, Refusal> {
    let mut ours = buf.to_vec();
    let written = flat::describe(buf, *parts);
    let expected = match peer_parts(parts) {
        Some(board) => board.write(&mut ours),
        None => Err(Refusal::ReservedBit),
    };
    same(
        at,
        "description",
        &(parts, written, &*buf),
        &(parts, flat_written(expected), &*ours),
    );
    expected
}

/// Reads the log record that the bytes open with, on both sides.
pub fn read_record(at: &impl Display, bytes: &[u8]) -> Result<LogRecord, Refusal> {
    let expected = LogRecord::read(bytes);
    same(
        at,
        "log record",
        &(bytes, flat::read_record(bytes)),
        &(bytes, flat_read(expected)),
    );
    expected
}

/// A reader of deliveries before the first, on both sides.
pub fn lead_open(at: &impl Display) -> Stored {
    let expected = Lead::new().stored();
    same(at, "a reader", &flat::lead_open(), &flat_lead(&expected));
    expected
}

/// One delivery on both sides. The reader to go on with, and what came of it.
pub fn lead_take(
    at: &impl Display,
    lead: &Stored,
    delivery: &[u8],
) -> (Stored, Result<Took, Flaw>) {
    let expected = lead.take(delivery);
    same(
        at,
        "delivery",
        &(lead, delivery, flat::lead_take(flat_lead(lead), delivery)),
        &(lead, delivery, flat_taken(&expected)),
    );
    expected
}

/// The same for closing.
pub fn lead_close(at: &impl Display, lead: &Stored) -> (Stored, Result<usize, Flaw>) {
    let expected = lead.close();
    same(
        at,
        "close",
        &(lead, flat::lead_close(flat_lead(lead))),
        &(lead, flat_closed(&expected)),
    );
    expected
}

/// The same with any room; the bytes after it stay. The written bytes, if any.
pub fn log(
    dice: &mut Dice,
    event: flat::Event,
    answer: flat::Answer,
    expected: Option<LogRecord>,
) -> Option<[u8; RECORD_BYTES]> {
    let length = room(dice);
    let mut bytes = [0; ROOM];
    dice.fill(&mut bytes);
    let past = bytes;
    let written = write(dice, &mut bytes[..length], event, answer, expected);
    same(dice, "past the buffer", &&bytes[length..], &&past[length..]);
    written.ok()?;
    bytes.first_chunk().copied()
}

/// Every question at a place, on both sides; the call is taken for an ACTIVATE
/// where the question is about one.
pub fn ask(at: &impl Display, board: &[u8], log: &[u8], place: usize, call: &Call) {
    let _ = ask_prepared(at, log, place);
    let _ = ask_cpus(at, log, place);
    let _ = ask_starts(at, board, log, place, call);
    let _ = ask_why(at, board, log, place, &without_x0(call));
}

/// The call that an ACTIVATE is.
pub fn with_x0(ask: &Activate) -> Call {
    Call {
        cpu: ask.cpu,
        x0: Function::Activate.number(),
        x1: ask.x1,
        x2: ask.x2,
        x3: ask.x3,
        x4: ask.x4,
    }
}

/// A call taken for an ACTIVATE.
pub fn without_x0(call: &Call) -> Activate {
    Activate {
        cpu: call.cpu,
        x1: call.x1,
        x2: call.x2,
        x3: call.x3,
        x4: call.x4,
    }
}

/// What is prepared at a place, on both sides.
pub fn ask_prepared(at: &impl Display, log: &[u8], place: usize) -> Result<Prepared, Flaw> {
    let expected = prepared_at(log, place);
    same(
        at,
        "prepared",
        &(place, flat::prepared(log, place)),
        &(place, flat_prepared(expected)),
    );
    expected
}

/// The powered CPUs and the held ones at a place, on both sides.
pub fn ask_cpus(at: &impl Display, log: &[u8], place: usize) -> Result<[CpuSet; 2], Flaw> {
    let expected = [powered_at(log, place), held_at(log, place)];
    same(
        at,
        "powered and held",
        &(place, [flat::powered(log, place), flat::held(log, place)]),
        &(place, expected.map(flat_cpus_at)),
    );
    let [powered, held] = expected;
    Ok([powered?, held?])
}

/// Where a log led to this record: the CPUs that the log says are powered and
/// held are the record's.
pub fn check_cpus(at: &impl Display, record: &Record, log: &[u8], place: usize) {
    let told = ask_cpus(at, log, place);
    let expected = Ok([record.on, record.held]);
    same(at, "by the log and by the record", &told, &expected);
}

/// What starts at a call, on both sides.
pub fn ask_starts(
    at: &impl Display,
    board: &[u8],
    log: &[u8],
    place: usize,
    call: &Call,
) -> Result<Option<u64>, Flaw> {
    let expected = starts_at(board, log, place, call);
    same(
        at,
        "starts",
        &(
            place,
            call,
            flat::starts(board, log, place, flat_call(call)),
        ),
        &(place, call, flat_started(expected)),
    );
    expected
}

/// Why an ACTIVATE is refused, held or started, on both sides.
pub fn ask_why(
    at: &impl Display,
    board: &[u8],
    log: &[u8],
    place: usize,
    ask: &Activate,
) -> Result<Reason, Flaw> {
    let expected = why_at(board, log, place, ask);
    same(
        at,
        "why",
        &(place, ask, flat::why(board, log, place, flat_activate(ask))),
        &(place, ask, flat_why(expected)),
    );
    expected
}

/// Where a log led to this record: why an ACTIVATE is refused, held or started
/// is what the agent answers to it, and fits what the plain reader knows.
pub fn check_why(
    at: &impl Display,
    record: &Record,
    log: &[u8],
    place: usize,
    ask: &Activate,
    why: Result<Reason, Flaw>,
) {
    let call = with_x0(ask);
    let (mut entries, mut contexts) = ([0; MAX_CPUS], [0; MAX_CPUS]);
    let mut after = record.clone();
    let answer = after.step(&Event::Call(call), &mut entries, &mut contexts);
    let caller = answer.map(|answer| answer.caller);
    let refused = |refusal| Flaw { refusal, place: 0 };
    let given = caller.map_err(refused);
    same(at, "why and step", &why.map(named_by), &given);
    let reading = reading_at(log, place).expect("a good log");
    let all_present = why == Ok(Reason::AllPresent);
    let starts = reading.starts(&record.board, &call).is_some();
    same(at, "why and starts", &all_present, &starts);
    if let Ok(Reason::Held(missing)) = why {
        let (powered, held) = (reading.powered, reading.held());
        let waits = |&cpu: &u64| powered.has(cpu) && !held.has(cpu) && cpu != ask.cpu;
        let expected: CpuSet = (0..MAX_CPUS as u64).filter(waits).collect();
        same(at, "why and powered", &missing, &expected);
        assert!(!missing.is_empty(), "{at}: nobody is missing");
    }
}

/// What a reason says becomes of the caller.
fn named_by(reason: Reason) -> Caller {
    let returned = |k| Caller::Returned([status(k), 0, 0, 0]);
    match reason {
        Reason::NothingPrepared
        | Reason::Preparing(_)
        | Reason::HalfPrepared(_)
        | Reason::Dead
        | Reason::Withdrawn(_) => returned(7),
        Reason::OtherComponent(_)
        | Reason::OtherFlags
        | Reason::NotOptional
        | Reason::SkipWhileGathering
        | Reason::NoSkip => returned(8),
        Reason::BadEntry => returned(10),
        Reason::Alone(_) => returned(2),
        Reason::Held(_) => Caller::Held,
        Reason::Skipped | Reason::AllPresent => Caller::ActivationStarted,
    }
}

/// A call to ask about, mostly the ACTIVATE of one component.
pub fn question(dice: &mut Dice, record: &Record) -> Call {
    let mut call = any_call(dice, record);
    if dice.one_in(4) {
        return call;
    }
    call.x0 = Function::Activate.number();
    call.x1 = dice.below(record.board.components);
    call.x2 = 0;
    call.x3 = record.board.first.next_multiple_of(4);
    call
}
