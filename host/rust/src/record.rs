//! A board's record, and one event on it.

use crate::answer::Answer;
use crate::event::{Call, Event};
use crate::flat::{self, Board, Cpus};
use crate::refusal::Refusal;

/// The state of a board, with the component that it is about.
#[derive(Clone, Copy, Debug, PartialEq, Eq)]
pub enum State {
    /// Nothing is under way.
    Idle,
    /// A prime job runs.
    Preparing(u64),
    /// PRIME has to be called again.
    HalfPrepared(u64),
    /// Prepared.
    Ready(u64),
    /// Some powered CPUs are held for the activation.
    Gathering(u64),
    /// An activate job runs, with all powered CPUs held.
    Together(u64),
    /// An activate job runs without rendezvous.
    Alone(u64),
    /// ACTIVATE has to be called again.
    HalfActivated(u64),
    /// An activation failed for good.
    Dead,
    /// A prime job runs whose preparation was cancelled: only its report lets the held CPU go.
    Withdrawn(u64),
}

impl State {
    /// The state of a number and a component. None for a number that no state has, and for a component other than 0 in idle or dead.
    pub fn from_numbers(state: u64, subject: u64) -> Option<State> {
        match (state, subject) {
            (0, 0) => Some(State::Idle),
            (1, c) => Some(State::Preparing(c)),
            (2, c) => Some(State::HalfPrepared(c)),
            (3, c) => Some(State::Ready(c)),
            (4, c) => Some(State::Gathering(c)),
            (5, c) => Some(State::Together(c)),
            (6, c) => Some(State::Alone(c)),
            (7, c) => Some(State::HalfActivated(c)),
            (8, 0) => Some(State::Dead),
            (9, c) => Some(State::Withdrawn(c)),
            _ => None,
        }
    }
}

/// Writes a board's packed description from its parts at the start of the buffer, and gives the number of bytes written.
///
/// Bytes not written stay. What stands past the counts is not looked at.
pub fn describe(buf: &mut [u8], board: &Board) -> Result<usize, Refusal> {
    let written = flat::describe(buf, *board);
    Refusal::check(written.refusal)?;
    Ok(written.bytes)
}

/// A board's record. It is well formed: there is no way to make another.
#[derive(Clone, Debug, PartialEq, Eq)]
pub struct Record(flat::Record);

impl Record {
    /// The record of a board that was just switched on, from its packed description.
    pub fn fresh(board: &[u8]) -> Result<Record, Refusal> {
        let fresh = flat::fresh(board);
        Refusal::check(fresh.refusal)?;
        Ok(Record(fresh.rec))
    }

    /// A record that was kept as numbers; refused with 9 if it is not well formed.
    pub fn from_flat(mut rec: flat::Record) -> Result<Record, Refusal> {
        // No table is long enough, so nothing happens: refused with 9, or with 1 if the record is well formed.
        let event = Event::Call(Call::default()).into();
        let answer = flat::step(&mut rec, event, &mut [], &mut []);
        match Answer::from_flat(answer) {
            Err(refusal) if refusal != Refusal::SHORT_TABLE => Err(refusal),
            _ => Ok(Record(rec)),
        }
    }

    /// The record as numbers, to keep.
    pub fn as_flat(&self) -> &flat::Record {
        &self.0
    }

    /// One event. In the two tables, which are at least as long as the board has CPUs, only the places of CPUs that resume by
    /// entry are written. A refused event changes nothing.
    pub fn step(
        &mut self,
        event: &Event,
        entries: &mut [u64],
        contexts: &mut [u64],
    ) -> Result<Answer, Refusal> {
        Answer::from_flat(flat::step(&mut self.0, (*event).into(), entries, contexts))
    }

    /// The board.
    pub fn board(&self) -> &Board {
        &self.0.board
    }

    /// The state.
    ///
    /// # Panics
    ///
    /// If no state has the record's number: the library, which takes it for well formed, is another.
    pub fn state(&self) -> State {
        State::from_numbers(self.0.state, self.0.subject)
            .unwrap_or_else(|| panic!("no state has the number {}", self.0.state))
    }

    /// The powered CPUs.
    pub fn on(&self) -> Cpus {
        self.0.on
    }

    /// The CPUs that wait for a job or for others.
    pub fn held(&self) -> Cpus {
        self.0.held
    }

    /// The version of a component's pending image, if there is one.
    pub fn pending(&self, component: u64) -> Option<u32> {
        let i = usize::try_from(component).ok()?;
        match self.0.pending.get(i) {
            Some(1) => self.0.version.get(i).copied(),
            _ => None,
        }
    }

    /// Whether a GET_INFO is noted.
    pub fn is_informed(&self) -> bool {
        self.0.informed == 1
    }
}
