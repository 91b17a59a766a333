//! Between the peer's types and the library's flat ones.

use lfa::flat;
use peer::*;

/// The refusal of a record that is not well formed, given before all others.
pub const NOT_WELL_FORMED: u64 = 9;
/// The refusal of a table that is too short.
pub const SHORT_TABLE: u64 = 1;
/// The refusal of an event of an unknown kind.
const UNKNOWN_KIND: u64 = 32;

/// The refusal of an event of an unknown kind where one of a known kind has
/// this refusal, or 0: the two that look at no kind come first.
pub fn unknown_refusal(known: u64) -> u64 {
    match known {
        NOT_WELL_FORMED | SHORT_TABLE => known,
        _ => UNKNOWN_KIND,
    }
}

/// The number of the refusal, or 0.
pub fn refusal_of<T>(result: &Result<T, Refusal>) -> u64 {
    match result {
        Ok(_) => 0,
        Err(refusal) => refusal.number(),
    }
}

/// The number of the refusal and its place, or 0 and 0.
fn flaw_numbers<T>(result: &Result<T, Flaw>) -> (u64, usize) {
    match result {
        Ok(_) => (0, 0),
        Err(flaw) => (flaw.refusal.number(), flaw.place),
    }
}

/// The number of the refusal, or 0, where it has a place.
pub fn flaw_refusal<T>(result: &Result<T, Flaw>) -> u64 {
    flaw_numbers(result).0
}

/// How many states there are; their numbers are below it.
pub const STATES: usize = 10;

/// The number of a state and its component, 0 where it has none.
fn state_numbers(state: State) -> (u64, u64) {
    match state {
        State::Idle => (0, 0),
        State::Preparing(id) => (1, id),
        State::HalfPrepared(id) => (2, id),
        State::Ready(id) => (3, id),
        State::Gathering(id) => (4, id),
        State::Together(id) => (5, id),
        State::Alone(id) => (6, id),
        State::HalfActivated(id) => (7, id),
        State::Dead => (8, 0),
        State::Withdrawn(id) => (9, id),
    }
}

/// The state of these numbers, if there is one.
fn state(number: u64, subject: u64) -> Option<State> {
    Some(match number {
        0 if subject == 0 => State::Idle,
        1 => State::Preparing(subject),
        2 => State::HalfPrepared(subject),
        3 => State::Ready(subject),
        4 => State::Gathering(subject),
        5 => State::Together(subject),
        6 => State::Alone(subject),
        7 => State::HalfActivated(subject),
        8 if subject == 0 => State::Dead,
        9 => State::Withdrawn(subject),
        _ => return None,
    })
}

/// The number of a state.
pub fn state_number(state: State) -> usize {
    state_numbers(state).0 as usize
}

fn flat_component(component: &Component) -> flat::Component {
    flat::Component {
        uuid: component.uuid,
        svn: component.svn,
        capable: component.capable.into(),
        may_reset: component.may_reset.into(),
        optional: component.optional.into(),
    }
}

pub fn flat_board(board: &Board) -> flat::Board {
    flat::Board {
        components: board.components,
        cpus: board.cpus,
        first: board.first,
        last: board.last,
        component: board.component.each_ref().map(flat_component),
    }
}

pub fn flat_cpus(cpus: CpuSet) -> flat::Cpus {
    cpus.members().collect()
}

pub fn peer_cpus(cpus: flat::Cpus) -> CpuSet {
    cpus.iter().collect()
}

pub fn flat_record(record: &Record) -> flat::Record {
    let (state, subject) = state_numbers(record.state);
    flat::Record {
        board: flat_board(&record.board),
        pending: record.pending.map(u8::from),
        version: record.version,
        state,
        subject,
        on: flat_cpus(record.on),
        held: flat_cpus(record.held),
        entry: record.entry,
        context: record.context,
        informed: record.informed.into(),
    }
}

/// A flag, if the number is one.
fn flag(number: impl Into<u64>) -> Option<bool> {
    match number.into() {
        0 => Some(false),
        1 => Some(true),
        _ => None,
    }
}

fn peer_component(component: &flat::Component) -> Option<Component> {
    Some(Component {
        uuid: component.uuid,
        capable: flag(component.capable)?,
        may_reset: flag(component.may_reset)?,
        optional: flag(component.optional)?,
        svn: component.svn,
    })
}

/// The peer's board with the first so many components.
fn peer_board(board: &flat::Board, counted: usize) -> Option<Board> {
    let mut component = [Component::default(); MAX_COMPONENTS];
    for (each, flat) in component.iter_mut().zip(&board.component[..counted]) {
        *each = peer_component(flat)?;
    }
    Some(Board {
        components: board.components,
        cpus: board.cpus,
        first: board.first,
        last: board.last,
        component,
    })
}

/// The peer's board to be written, unless a flag is none: one within the
/// count, or any where the count is over the limit.
pub fn peer_parts(board: &flat::Board) -> Option<Board> {
    let counted = board.components.min(MAX_COMPONENTS as u64);
    peer_board(board, counted as usize)
}

/// The peer's record, unless its types cannot hold what the flat one says.
pub fn peer_record(record: &flat::Record) -> Option<Record> {
    let mut pending = [false; MAX_COMPONENTS];
    for (pending, &number) in pending.iter_mut().zip(&record.pending) {
        *pending = flag(number)?;
    }
    Some(Record {
        board: peer_board(&record.board, MAX_COMPONENTS)?,
        pending,
        version: record.version,
        state: state(record.state, record.subject)?,
        on: peer_cpus(record.on),
        held: peer_cpus(record.held),
        entry: record.entry,
        context: record.context,
        informed: flag(record.informed)?,
    })
}

/// A record with nothing in it, as it comes with a refused board.
pub fn zero_record() -> flat::Record {
    flat::Record {
        board: flat::Board::default(),
        pending: [0; MAX_COMPONENTS],
        version: [0; MAX_COMPONENTS],
        state: 0,
        subject: 0,
        on: flat::Cpus::default(),
        held: flat::Cpus::default(),
        entry: [0; MAX_CPUS],
        context: [0; MAX_CPUS],
        informed: 0,
    }
}

pub fn flat_fresh(board: Result<Board, Refusal>) -> flat::Fresh {
    match board {
        Ok(board) => flat::Fresh {
            refusal: 0,
            rec: flat_record(&Record::fresh(board)),
        },
        Err(refusal) => flat::Fresh {
            refusal: refusal.number(),
            rec: zero_record(),
        },
    }
}

pub fn flat_call(call: &Call) -> flat::Call {
    flat::Call {
        cpu: call.cpu,
        x0: call.x0,
        x1: call.x1,
        x2: call.x2,
        x3: call.x3,
        x4: call.x4,
    }
}

fn flat_report(report: &Report) -> flat::Report {
    flat::Report {
        component: report.component,
        code: report.code,
    }
}

/// The event, with the fields that its kind does not name left as they are in
/// `rest`.
pub fn flat_event(event: &Event, rest: flat::Event) -> flat::Event {
    match event {
        Event::Call(call) => flat::Event {
            kind: CALL,
            call: flat_call(call),
            ..rest
        },
        Event::Prime(report) => flat::Event {
            kind: PRIME,
            report: flat_report(report),
            ..rest
        },
        Event::Activate(report) => flat::Event {
            kind: ACTIVATE,
            report: flat_report(report),
            ..rest
        },
        Event::Image(image) => flat::Event {
            kind: IMAGE,
            image: flat::Image {
                component: image.component,
                version: image.version,
            },
            ..rest
        },
    }
}

pub fn peer_call(call: &flat::Call) -> Call {
    Call {
        cpu: call.cpu,
        x0: call.x0,
        x1: call.x1,
        x2: call.x2,
        x3: call.x3,
        x4: call.x4,
    }
}

/// The peer's event, if the kind is known.
pub fn peer_event(event: &flat::Event) -> Option<Event> {
    let report = Report {
        component: event.report.component,
        code: event.report.code,
    };
    Some(match event.kind {
        CALL => Event::Call(peer_call(&event.call)),
        PRIME => Event::Prime(report),
        ACTIVATE => Event::Activate(report),
        IMAGE => Event::Image(Image {
            component: event.image.component,
            version: event.image.version,
        }),
        _ => return None,
    })
}

/// A refused answer: its number and nothing else.
pub fn flat_refused(refusal: u64) -> flat::Answer {
    flat::Answer {
        refusal,
        ..flat::Answer::default()
    }
}

fn flat_freed(cpus: CpuSet, x0: u64, x1: u64) -> flat::Freed {
    flat::Freed {
        cpus: flat_cpus(cpus),
        x0,
        x1,
    }
}

pub fn flat_answer(answer: &Result<Answer, Refusal>) -> flat::Answer {
    let answer = match answer {
        Ok(answer) => answer,
        Err(refusal) => return flat_refused(refusal.number()),
    };
    let (caller, [x0, x1, x2, x3]) = match answer.caller {
        Caller::Nothing => (0, [0; 4]),
        Caller::Returned(registers) => (1, registers),
        Caller::Held => (2, [0; 4]),
        Caller::PrimeStarted => (3, [0; 4]),
        Caller::ActivationStarted => (4, [0; 4]),
        Caller::Gone => (5, [0; 4]),
    };
    let (release, freed) = match answer.release {
        Release::Nobody => (0, flat::Freed::default()),
        Release::Returned { cpus, x0, x1 } => (1, flat_freed(cpus, x0, x1)),
        Release::Resumed(cpus) => (2, flat_freed(cpus, 0, 0)),
    };
    flat::Answer {
        refusal: 0,
        caller,
        returned: flat::Registers { x0, x1, x2, x3 },
        release,
        freed,
    }
}

/// The peer's answer, if the flat one is accepted. A part of an unknown number
/// is none: the log of a call without a caller's part is refused anyway.
pub fn peer_answer(answer: &flat::Answer) -> Option<Answer> {
    let flat::Registers { x0, x1, x2, x3 } = answer.returned;
    let caller = match answer.caller {
        1 => Caller::Returned([x0, x1, x2, x3]),
        2 => Caller::Held,
        3 => Caller::PrimeStarted,
        4 => Caller::ActivationStarted,
        5 => Caller::Gone,
        _ => Caller::Nothing,
    };
    let flat::Freed { cpus, x0, x1 } = answer.freed;
    let cpus = peer_cpus(cpus);
    let release = match answer.release {
        1 => Release::Returned { cpus, x0, x1 },
        2 => Release::Resumed(cpus),
        _ => Release::Nobody,
    };
    (answer.refusal == 0).then_some(Answer { caller, release })
}

/// The peer's record of an event and its answer, if both are.
pub fn peer_logged(event: &flat::Event, answer: &flat::Answer) -> Option<LogRecord> {
    Some(logged(&peer_event(event)?, &peer_answer(answer)?))
}

pub fn flat_written(written: Result<usize, Refusal>) -> flat::Written {
    match written {
        Ok(bytes) => flat::Written { refusal: 0, bytes },
        Err(refusal) => flat::Written {
            refusal: refusal.number(),
            bytes: 0,
        },
    }
}

fn flat_log_record(record: &LogRecord) -> flat::LogRecord {
    let [w1, w2, w3, w4, w5, w6] = record.words;
    flat::LogRecord {
        kind: record.kind,
        cpu: record.cpu,
        code: record.code,
        outcome: record.outcome,
        w1,
        w2,
        w3,
        w4,
        w5,
        w6,
    }
}

pub fn flat_read(read: Result<LogRecord, Refusal>) -> flat::Read {
    match read {
        Ok(record) => flat::Read {
            refusal: 0,
            bytes: RECORD_BYTES,
            record: flat_log_record(&record),
        },
        Err(refusal) => flat::Read {
            refusal: refusal.number(),
            ..flat::Read::default()
        },
    }
}

fn flat_found(found: Option<u64>) -> flat::Found {
    flat::Found {
        found: found.is_some().into(),
        component: found.unwrap_or(0),
    }
}

pub fn flat_prepared(prepared: Result<Prepared, Flaw>) -> flat::Prepared {
    match prepared {
        Ok(prepared) => flat::Prepared {
            prepared: flat_found(prepared.component),
            looked: prepared.looked,
            ..flat::Prepared::default()
        },
        Err(flaw) => flat::Prepared {
            refusal: flaw.refusal.number(),
            place: flaw.place,
            ..flat::Prepared::default()
        },
    }
}

pub fn flat_cpus_at(told: Result<CpuSet, Flaw>) -> flat::CpusAt {
    match told {
        Ok(cpus) => flat::CpusAt {
            cpus: flat_cpus(cpus),
            ..flat::CpusAt::default()
        },
        Err(flaw) => flat::CpusAt {
            refusal: flaw.refusal.number(),
            place: flaw.place,
            ..flat::CpusAt::default()
        },
    }
}

pub fn flat_started(started: Result<Option<u64>, Flaw>) -> flat::Started {
    match started {
        Ok(started) => flat::Started {
            started: flat_found(started),
            ..flat::Started::default()
        },
        Err(flaw) => flat::Started {
            refusal: flaw.refusal.number(),
            place: flaw.place,
            ..flat::Started::default()
        },
    }
}

pub fn flat_activate(ask: &Activate) -> flat::Activate {
    flat::Activate {
        cpu: ask.cpu,
        x1: ask.x1,
        x2: ask.x2,
        x3: ask.x3,
        x4: ask.x4,
    }
}

pub fn peer_activate(ask: &flat::Activate) -> Activate {
    Activate {
        cpu: ask.cpu,
        x1: ask.x1,
        x2: ask.x2,
        x3: ask.x3,
        x4: ask.x4,
    }
}

/// The number of a reason, its component and the CPUs still missing; 0 and
/// none where it has none.
fn reason_numbers(reason: Reason) -> (u64, u64, CpuSet) {
    let nobody = CpuSet::default();
    match reason {
        Reason::NothingPrepared => (1, 0, nobody),
        Reason::Preparing(id) => (2, id, nobody),
        Reason::HalfPrepared(id) => (3, id, nobody),
        Reason::Dead => (4, 0, nobody),
        Reason::OtherComponent(id) => (5, id, nobody),
        Reason::OtherFlags => (6, 0, nobody),
        Reason::NotOptional => (7, 0, nobody),
        Reason::SkipWhileGathering => (8, 0, nobody),
        Reason::NoSkip => (9, 0, nobody),
        Reason::BadEntry => (10, 0, nobody),
        Reason::Alone(id) => (11, id, nobody),
        Reason::Skipped => (12, 0, nobody),
        Reason::Held(missing) => (13, 0, missing),
        Reason::AllPresent => (14, 0, nobody),
        Reason::Withdrawn(id) => (15, id, nobody),
    }
}

/// The number of a reason.
pub fn reason_number(reason: Reason) -> u64 {
    reason_numbers(reason).0
}

pub fn flat_why(why: Result<Reason, Flaw>) -> flat::Why {
    match why {
        Ok(reason) => {
            let (reason, component, missing) = reason_numbers(reason);
            flat::Why {
                reason,
                component,
                missing: flat_cpus(missing),
                ..flat::Why::default()
            }
        }
        Err(flaw) => flat::Why {
            refusal: flaw.refusal.number(),
            place: flaw.place,
            ..flat::Why::default()
        },
    }
}

pub fn flat_lead(lead: &Stored) -> flat::Lead {
    flat::Lead {
        standing: lead.standing,
        refusal: lead.refusal,
        place: lead.place,
        records: lead.records,
        length: lead.length,
        kept: lead.kept,
    }
}

pub fn peer_lead(lead: &flat::Lead) -> Stored {
    Stored {
        standing: lead.standing,
        refusal: lead.refusal,
        place: lead.place,
        records: lead.records,
        length: lead.length,
        kept: lead.kept,
    }
}

pub fn flat_taken((lead, took): &(Stored, Result<Took, Flaw>)) -> flat::Taken {
    let (refusal, place) = flaw_numbers(took);
    let record = took.ok().and_then(|took| took.record);
    flat::Taken {
        lead: flat_lead(lead),
        refusal,
        place,
        used: took.map_or(0, |took| took.used),
        given: record.is_some().into(),
        record: record.map_or(flat::LogRecord::default(), |it| flat_log_record(&it)),
    }
}

pub fn flat_closed((lead, closed): &(Stored, Result<usize, Flaw>)) -> flat::Closed {
    let (refusal, place) = flaw_numbers(closed);
    flat::Closed {
        lead: flat_lead(lead),
        refusal,
        place,
        records: closed.unwrap_or(0),
    }
}
