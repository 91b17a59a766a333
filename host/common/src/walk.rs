//! A board on its way by the peer alone, with its log.

use crate::boards::{described, packed, usual, FIRST, OPTIONAL, PLAIN, SVN};
use crate::pair::{prepared_in, with_x0};
use peer::*;

/// A board on its way, with its log.
#[derive(Clone)]
pub struct Walk {
    pub record: Record,
    pub board: Vec<u8>,
    pub log: Vec<u8>,
}

impl Walk {
    pub fn of(board: Board) -> Self {
        Self {
            board: described(&board),
            record: Record::fresh(board),
            log: Vec::new(),
        }
    }

    /// The usual board with eight CPUs, of which the first two are on.
    pub fn usual() -> Self {
        Self::of(usual(4, 8)).powered(1)
    }

    /// One event; an accepted one is logged.
    pub fn step(&mut self, event: &Event) -> Result<Answer, Refusal> {
        let (mut entries, mut contexts) = ([0; MAX_CPUS], [0; MAX_CPUS]);
        let answer = self.record.step(event, &mut entries, &mut contexts)?;
        self.log.extend(packed(&logged(event, &answer)));
        Ok(answer)
    }

    /// One event that is accepted.
    pub fn after(mut self, event: Event) -> Self {
        self.step(&event).expect("accepted");
        self
    }

    pub fn call(self, cpu: u64, function: Function, x: [u64; 4]) -> Self {
        self.after(call(cpu, function, x))
    }

    pub fn powered(self, cpu: u64) -> Self {
        self.call(0, Function::CpuOn, [cpu, FIRST, 0, 0])
    }

    pub fn preparing(self, component: u64) -> Self {
        self.after(image(component, SVN))
            .call(0, Function::Prime, [component, 0, 0, 0])
    }

    /// The running prime job ends.
    pub fn reported(self, component: u64, code: u64) -> Self {
        self.after(Event::Prime(Report { component, code }))
    }

    pub fn primed(self, component: u64, code: u64) -> Self {
        self.preparing(component).reported(component, code)
    }

    pub fn ready(self, component: u64) -> Self {
        self.primed(component, 0)
    }

    pub fn activating(self, cpu: u64, component: u64, flags: u64) -> Self {
        self.call(cpu, Function::Activate, [component, flags, FIRST, 0])
    }

    /// The running activation ends.
    pub fn activated(self, component: u64, code: u64) -> Self {
        self.after(Event::Activate(Report { component, code }))
    }

    /// CPU 0 is held.
    pub fn gathering(self, component: u64) -> Self {
        self.ready(component).activating(0, component, 0)
    }

    /// CPU 0 is held.
    pub fn alone(self) -> Self {
        self.ready(OPTIONAL).activating(0, OPTIONAL, 1)
    }

    pub fn half_activated(self) -> Self {
        self.alone().activated(OPTIONAL, 1)
    }

    pub fn together(self, component: u64) -> Self {
        self.gathering(component).activating(1, component, 0)
    }

    /// CPU 1 cancels.
    pub fn cancelled(self, component: u64) -> Self {
        self.call(1, Function::Cancel, [component, 0, 0, 0])
    }

    /// CPU 0 is held.
    pub fn withdrawn(self, component: u64) -> Self {
        self.preparing(component).cancelled(component)
    }

    pub fn dead(self) -> Self {
        self.together(PLAIN).activated(PLAIN, 5)
    }

    pub fn records(&self) -> usize {
        self.log.len() / RECORD_BYTES
    }

    /// The bytes of the record at a place.
    pub fn bytes(&mut self, place: usize) -> &mut [u8] {
        &mut self.log[RECORD_BYTES * place..][..RECORD_BYTES]
    }

    pub fn logged_at(&self, place: usize) -> LogRecord {
        LogRecord::read(&self.log[RECORD_BYTES * place..]).expect("a record")
    }

    /// With another record at a place.
    pub fn with(mut self, place: usize, record: &LogRecord) -> Self {
        self.bytes(place).copy_from_slice(&packed(record));
        self
    }

    /// With one more record at a place.
    pub fn with_inserted(mut self, place: usize, record: &LogRecord) -> Self {
        let at = RECORD_BYTES * place;
        self.log.splice(at..at, packed(record));
        self
    }

    /// The log tells what the record has: what is prepared, who is on and held.
    pub fn check_reading(&self) {
        let (record, place) = (&self.record, self.records());
        let prepared = prepared_at(&self.log, place).expect("a log");
        assert_eq!(prepared.component, prepared_in(record.state));
        assert_eq!(powered_at(&self.log, place), Ok(record.on));
        assert_eq!(held_at(&self.log, place), Ok(record.held));
    }

    pub fn why_at(&self, place: usize, ask: &Activate) -> Result<Reason, Flaw> {
        why_at(&self.board, &self.log, place, ask)
    }

    /// Why, at the log's end, for a call that is admitted.
    pub fn why(&self, cpu: u64, x: [u64; 4]) -> Reason {
        let why = self.why_at(self.records(), &ask(cpu, x));
        why.expect("a log, and a CPU that may call")
    }
}

/// An ACTIVATE to ask about.
pub fn ask(cpu: u64, [x1, x2, x3, x4]: [u64; 4]) -> Activate {
    Activate {
        cpu,
        x1,
        x2,
        x3,
        x4,
    }
}

pub fn call(cpu: u64, function: Function, x: [u64; 4]) -> Event {
    let x0 = function.number();
    Event::Call(Call {
        x0,
        ..with_x0(&ask(cpu, x))
    })
}

pub fn image(component: u64, version: u32) -> Event {
    Event::Image(Image { component, version })
}
