//! The board's record and when it is well formed.

use crate::board::{uuids_differ, Board, Component, MAX_COMPONENTS, MAX_CPUS};
use crate::cpus::CpuSet;

/// Where the agent stands, with the component it works on.
#[derive(Clone, Copy, PartialEq, Eq, Debug)]
pub enum State {
    /// Nothing under way.
    Idle,
    /// A prime job runs.
    Preparing(u64),
    /// A prime job asked to be called again.
    HalfPrepared(u64),
    /// The component is prepared.
    Ready(u64),
    /// Some powered CPUs, not all, have arrived for activation.
    Gathering(u64),
    /// An activation job runs with all powered CPUs held.
    Together(u64),
    /// An activation job runs with one CPU held.
    Alone(u64),
    /// An activation job without rendezvous asked to be called again.
    HalfActivated(u64),
    /// An activation failed beyond repair.
    Dead,
    /// A prime job runs whose preparation was cancelled.
    Withdrawn(u64),
}

impl State {
    /// The state's component; idle and dead have none.
    #[inline]
    pub const fn component(self) -> Option<u64> {
        match self {
            Self::Idle | Self::Dead => None,
            Self::Preparing(id)
            | Self::HalfPrepared(id)
            | Self::Ready(id)
            | Self::Gathering(id)
            | Self::Together(id)
            | Self::Alone(id)
            | Self::HalfActivated(id)
            | Self::Withdrawn(id) => Some(id),
        }
    }
}

/// Everything the agent keeps about a board.
#[derive(Clone, PartialEq, Eq, Debug)]
pub struct Record {
    /// The board.
    pub board: Board,
    /// Which components have a pending image.
    pub pending: [bool; MAX_COMPONENTS],
    /// The version of each pending image, 0 where none is pending.
    pub version: [u32; MAX_COMPONENTS],
    /// The state with its component.
    pub state: State,
    /// The powered CPUs.
    pub on: CpuSet,
    /// The held CPUs.
    pub held: CpuSet,
    /// Where each CPU resumes that may be reset while held, else 0.
    pub entry: [u64; MAX_CPUS],
    /// The context id of each of them, else 0.
    pub context: [u64; MAX_CPUS],
    /// GET_INFO was called and not yet forgotten.
    pub informed: bool,
}

impl Record {
    /// The record of a board just started: CPU 0 on and nothing else.
    pub fn fresh(board: Board) -> Self {
        Self {
            board,
            pending: [false; MAX_COMPONENTS],
            version: [0; MAX_COMPONENTS],
            state: State::Idle,
            on: CpuSet::only(0),
            held: CpuSet::default(),
            entry: [0; MAX_CPUS],
            context: [0; MAX_CPUS],
            informed: false,
        }
    }

    /// Whether the record is well formed.
    pub fn is_well_formed(&self) -> bool {
        let board = &self.board;
        board.counts_in_limits()
            && board.first <= board.last
            && !self.on.is_empty()
            && self.on.is_part_of(board.all_cpus())
            && self.state_is_well_formed()
            && self.components_are_well_formed()
            && self.resumes_are_well_formed()
            && uuids_differ(board.existing())
    }

    /// The state's component and the held CPUs.
    #[inline]
    fn state_is_well_formed(&self) -> bool {
        let (on, held) = (self.on, self.held);
        let held_as_they_should = held.is_part_of(on)
            && match self.state {
                State::Preparing(_) | State::Withdrawn(_) | State::Alone(_) => held.count() == 1,
                State::Gathering(_) => !held.is_empty() && held.is_proper_part_of(on),
                State::Together(_) => held == on,
                State::Idle
                | State::HalfPrepared(_)
                | State::Ready(_)
                | State::HalfActivated(_)
                | State::Dead => held.is_empty(),
            };
        let Some(id) = self.state.component() else {
            return held_as_they_should;
        };
        let Some(component) = self.board.get(id) else {
            return false;
        };
        let place = id as usize;
        let alone = matches!(self.state, State::Alone(_) | State::HalfActivated(_));
        held_as_they_should
            && self.pending[place]
            && self.version[place] >= component.svn
            && (component.optional || !alone)
    }

    /// The components' flags, the pending images and the places past the count.
    #[inline]
    fn components_are_well_formed(&self) -> bool {
        let existing = self.board.existing();
        let flags_fit = existing.iter().zip(&self.pending).all(|(each, &pending)| {
            (each.capable || !pending) && !(each.optional && each.may_reset)
        });
        let mut wrong = false;
        for (&pending, &version) in self.pending.iter().zip(&self.version) {
            wrong |= !pending & (version != 0);
        }
        let past = existing.len();
        flags_fit
            && !wrong
            && self.pending[past..].iter().all(|&pending| !pending)
            && self.board.component[past..]
                .iter()
                .all(|component| *component == Component::default())
    }

    /// The entries and context ids kept for held CPUs.
    #[inline]
    fn resumes_are_well_formed(&self) -> bool {
        let keeps = self.keeps_resumes();
        let kept = if keeps { self.held } else { CpuSet::default() };
        let resumes = self.entry.iter().zip(&self.context);
        (0..).zip(resumes).all(|(cpu, (&entry, &context))| {
            if kept.has(cpu) {
                self.board.is_good_entry(entry)
            } else {
                entry == 0 && context == 0
            }
        })
    }

    /// Whether held CPUs have entries and context ids now.
    #[inline]
    pub(crate) fn keeps_resumes(&self) -> bool {
        match self.state {
            State::Gathering(id) | State::Together(id) => {
                self.board.get(id).is_some_and(|each| each.may_reset)
            }
            _ => false,
        }
    }
}
