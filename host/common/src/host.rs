//! A host that keeps a board's record on both sides, its tables and its log.
//!
//! The answers are the wrapper's; that the peer's are the same is looked at
//! with every event, log record and question.

use crate::boards::{described, usual, OPTIONAL, PLAIN, SVN};
use crate::convert::*;
use crate::events::*;
use crate::pair::{
    self, ask_cpus, ask_prepared, ask_starts, ask_why, lead_close, lead_take, read_board, same,
    write,
};
use lfa::{
    code, flat, Activate, Answer, Board, Call, Caller, Cpus, Event, Flaw, Lead, LogRecord,
    Prepared, Reason, Record, Refusal, Registers, Release, Taken, RECORD_BYTES,
};

/// What the tables hold where nothing was written.
pub const UNTOUCHED: u64 = 0xDEAD;

/// A call that returns with X0 alone.
pub fn returned(x0: u64) -> Caller {
    Caller::Returned(Registers {
        x0,
        ..Registers::default()
    })
}

/// Writes a board's description from its parts, on both sides.
pub fn describe(buf: &mut [u8], parts: &Board) -> Result<usize, Refusal> {
    let _ = pair::describe(&"parts", &mut buf.to_vec(), parts);
    lfa::describe(buf, parts)
}

/// Reads the log record that the bytes open with, on both sides.
pub fn read_record(bytes: &[u8]) -> Result<(LogRecord, &[u8]), Refusal> {
    let _ = pair::read_record(&"a log", bytes);
    lfa::read_record(bytes)
}

/// The record of a board that was just switched on, on both sides.
pub fn fresh(board: &[u8]) -> Result<Record, Refusal> {
    let _ = read_board(&"a board", board);
    Record::fresh(board)
}

/// What is prepared at a place of a log, on both sides.
pub fn prepared_at(log: &[u8], place: usize) -> Result<Prepared, Flaw> {
    let _ = ask_prepared(&"a log", log, place);
    lfa::prepared_at(log, place)
}

/// The powered CPUs and the held ones at a place of a log, on both sides.
pub fn cpus_at(log: &[u8], place: usize) -> [Result<Cpus, Flaw>; 2] {
    let _ = ask_cpus(&"a log", log, place);
    [lfa::powered_at(log, place), lfa::held_at(log, place)]
}

/// What starts at a call made at a place of a log, on both sides.
pub fn starts_at(board: &[u8], log: &[u8], place: usize, call: &Call) -> Result<Option<u64>, Flaw> {
    let _ = ask_starts(&"a log", board, log, place, &peer_call(call));
    lfa::starts_at(board, log, place, call)
}

/// Why an ACTIVATE made at a place of a log is refused, held or started, on
/// both sides.
pub fn why_at(board: &[u8], log: &[u8], place: usize, ask: &Activate) -> Result<Reason, Flaw> {
    let _ = ask_why(&"a log", board, log, place, &peer_activate(ask));
    lfa::why_at(board, log, place, ask)
}

/// Takes a delivery, on both sides.
pub fn take(lead: Lead, delivery: &[u8]) -> Taken<'_> {
    let _ = lead_take(&"a delivery", &peer_lead(lead.as_flat()), delivery);
    lead.take(delivery)
}

/// Closes a reader of deliveries, on both sides.
pub fn close(lead: Lead) -> (Lead, Result<usize, Flaw>) {
    let _ = lead_close(&"a close", &peer_lead(lead.as_flat()));
    lead.close()
}

/// Writes the log record of an event and its answer, on both sides.
pub fn write_log(buf: &mut [u8], event: &Event, answer: &Answer) -> Result<usize, Refusal> {
    let (form, given) = (flat::Event::from(*event), flat::Answer::from(*answer));
    let expected = peer_logged(&form, &given);
    let _ = write(&"a log", &mut buf.to_vec(), form, given, expected);
    lfa::write_log(buf, event, answer)
}

#[derive(Clone)]
pub struct Host {
    pub board: Vec<u8>,
    pub record: Record,
    pub peer: peer::Record,
    pub entries: Vec<u64>,
    pub contexts: Vec<u64>,
    pub log: Vec<u8>,
}

impl Host {
    /// The usual board, with four components and four CPUs, just switched on.
    pub fn usual() -> Host {
        Host::of(&usual(4, 4))
    }

    pub fn of(board: &peer::Board) -> Host {
        let cpus = board.cpus as usize;
        let board = described(board);
        Host {
            record: fresh(&board).expect("a board"),
            peer: peer::Record::fresh(peer::Board::read(&board).expect("a board")),
            board,
            entries: vec![UNTOUCHED; cpus],
            contexts: vec![UNTOUCHED; cpus],
            log: Vec::new(),
        }
    }

    /// One event; an accepted one is logged.
    pub fn tell(&mut self, event: Event) -> Result<Answer, Refusal> {
        let before = self.clone();
        let answer = self
            .record
            .step(&event, &mut self.entries, &mut self.contexts);
        self.tell_peer(&before, event, answer);
        self.check_what_stays(&before, event, answer);
        let mut bytes = [0; RECORD_BYTES];
        assert_eq!(write_log(&mut bytes, &event, &answer?), Ok(RECORD_BYTES));
        self.log.extend(bytes);
        answer
    }

    /// The peer gets the same event, and has to come to the same.
    fn tell_peer(&mut self, before: &Host, event: Event, answer: Result<Answer, Refusal>) {
        let at = format!("{event:?}");
        let event = peer_event(&event.into()).expect("a kind");
        let (mut entries, mut contexts) = (before.entries.clone(), before.contexts.clone());
        let expected = self.peer.step(&event, &mut entries, &mut contexts);
        let answer = match answer {
            Ok(answer) => answer.into(),
            Err(refusal) => flat_refused(refusal.number()),
        };
        same(&at, "answer", &answer, &flat_answer(&expected));
        same(
            &at,
            "record",
            self.record.as_flat(),
            &flat_record(&self.peer),
        );
        same(&at, "entries", &self.entries, &entries);
        same(&at, "contexts", &self.contexts, &contexts);
    }

    /// A refusal leaves everything, and so does a status but for the log; of
    /// the tables only the places of CPUs that resume are written.
    fn check_what_stays(&self, before: &Host, event: Event, answer: Result<Answer, Refusal>) {
        let changes = match answer.map(|answer| answer.caller) {
            Ok(Caller::Returned(x)) => x.x0 == 0,
            Ok(_) => true,
            Err(_) => false,
        };
        assert!(changes || self.record == before.record, "{event:?}");
        let resumed = match answer.map(|answer| answer.release) {
            Ok(Release::Resumed(cpus)) => cpus,
            _ => Cpus::default(),
        };
        let stays = |now: &[u64], then: &[u64]| {
            let mut places = (0..).zip(now.iter().zip(then));
            places.all(|(cpu, (now, then))| now == then || resumed.has(cpu))
        };
        assert!(stays(&self.entries, &before.entries), "{event:?}");
        assert!(stays(&self.contexts, &before.contexts), "{event:?}");
    }

    /// An event that is accepted.
    pub fn take(&mut self, event: Event) -> Answer {
        self.tell(event).expect("accepted")
    }

    /// A call that is accepted; its caller's part.
    pub fn call(&mut self, cpu: u64, x: [u64; 5]) -> Caller {
        self.take(call(cpu, x)).caller
    }

    /// A call that nobody but its caller hears of, and that returns with X0 alone.
    pub fn returns(&mut self, cpu: u64, x: [u64; 5], x0: u64) {
        let answer = self.take(call(cpu, x));
        assert_eq!(answer.caller, returned(x0), "call {x:#x?}");
        assert_eq!(answer.release, Release::Nobody);
    }

    /// The records of the log so far.
    pub fn records(&self) -> usize {
        self.log.len() / RECORD_BYTES
    }

    /// The component that the log says a call would start now.
    pub fn would_start(&self, cpu: u64, x: [u64; 5]) -> Option<u64> {
        let started = starts_at(&self.board, &self.log, self.records(), &from_cpu(cpu, x));
        started.expect("a log")
    }

    /// Why an ACTIVATE, by the log, is refused, held or started now; X0 is not
    /// looked at.
    pub fn why(&self, cpu: u64, [_, x1, x2, x3, x4]: [u64; 5]) -> Result<Reason, Flaw> {
        let ask = Activate {
            cpu,
            x1,
            x2,
            x3,
            x4,
        };
        why_at(&self.board, &self.log, self.records(), &ask)
    }

    /// CPU 0 switches another on.
    pub fn power(&mut self, cpu: u64) {
        assert_eq!(self.call(0, cpu_on(cpu)), returned(0));
    }

    /// CPU 0 switches others on: then so many are.
    pub fn powered(mut self, count: u64) -> Host {
        (1..count).for_each(|cpu| self.power(cpu));
        self
    }

    /// An image arrives, and CPU 0 primes it.
    pub fn preparing(mut self, component: u64) -> Host {
        self.take(image(component, SVN));
        assert_eq!(self.call(0, prime(component)), Caller::PrimeStarted);
        self
    }

    /// CPU 1, which has to be on, cancels what CPU 0 prepares.
    pub fn withdrawn(self, component: u64) -> Host {
        let mut host = self.preparing(component);
        host.returns(1, cancel(component), 0);
        host
    }

    pub fn half_prepared(self, component: u64) -> Host {
        let mut host = self.preparing(component);
        host.take(prime_report(component, code::AGAIN));
        host
    }

    pub fn ready(self, component: u64) -> Host {
        let mut host = self.preparing(component);
        host.take(prime_report(component, code::DONE));
        host
    }

    /// CPU 1 is on too, and CPU 0 is held.
    pub fn gathering(self, component: u64) -> Host {
        let mut host = self.ready(component);
        host.power(1);
        assert_eq!(host.activate(0, component), Caller::Held);
        host
    }

    /// Both CPUs are held.
    pub fn together(self, component: u64) -> Host {
        let mut host = self.gathering(component);
        assert_eq!(host.activate(1, component), Caller::ActivationStarted);
        host
    }

    /// CPU 1 is on too, and CPU 0 skips the rendezvous.
    pub fn alone(self) -> Host {
        let mut host = self.ready(OPTIONAL);
        host.power(1);
        assert_eq!(host.call(0, skip(OPTIONAL)), Caller::ActivationStarted);
        host
    }

    pub fn half_activated(self) -> Host {
        let mut host = self.alone();
        host.take(activate_report(OPTIONAL, code::AGAIN));
        host
    }

    pub fn dead(self) -> Host {
        let mut host = self.together(PLAIN);
        host.take(activate_report(PLAIN, 5));
        host
    }

    pub fn activate(&mut self, cpu: u64, component: u64) -> Caller {
        self.call(cpu, activate(cpu, component))
    }
}

/// A host in each state, with CPUs 0 and 1 on; the states that can be about
/// any component are about this one, which is plain or resets.
pub fn in_every_state(component: u64) -> [Host; STATES] {
    let with_two = |host: Host| host.powered(2);
    [
        with_two(Host::usual()),
        with_two(Host::usual()).preparing(component),
        with_two(Host::usual().half_prepared(component)),
        with_two(Host::usual().ready(component)),
        Host::usual().gathering(component),
        Host::usual().together(component),
        Host::usual().alone(),
        Host::usual().half_activated(),
        Host::usual().dead(),
        with_two(Host::usual()).withdrawn(component),
    ]
}
