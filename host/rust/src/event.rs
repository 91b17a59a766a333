//! Events: what the agent is told.

use crate::flat;

pub use crate::flat::{Call, Image, Report};

/// The function numbers: LFA's own, and two of PSCI's.
pub mod function {
    /// X0 is 65536.
    pub const VERSION: u64 = 0xC400_02E0;
    /// X1 is a function number.
    pub const FEATURES: u64 = 0xC400_02E1;
    /// X1 is 0.
    pub const GET_INFO: u64 = 0xC400_02E2;
    /// X1 is a component.
    pub const GET_INVENTORY: u64 = 0xC400_02E3;
    /// X1 is a component.
    pub const PRIME: u64 = 0xC400_02E4;
    /// X1 is a component, X2 flags (bit 0 skips the rendezvous), X3 an entry, X4 a context id.
    pub const ACTIVATE: u64 = 0xC400_02E5;
    /// X1 is a component.
    pub const CANCEL: u64 = 0xC400_02E6;
    /// The caller goes off.
    pub const CPU_OFF: u64 = 0x8400_0002;
    /// X1 is the target, X2 an entry, X3 a context id.
    pub const CPU_ON: u64 = 0xC400_0003;
}

/// The codes of reports that are no status.
pub mod code {
    /// Done.
    pub const DONE: u64 = 0;
    /// Call again.
    pub const AGAIN: u64 = 1;
    /// Done by reset.
    pub const BY_RESET: u64 = 12;
}

/// An event.
#[derive(Clone, Copy, Debug, PartialEq, Eq)]
pub enum Event {
    /// A CPU calls.
    Call(Call),
    /// A prime job ended.
    Prime(Report),
    /// An activate job ended.
    Activate(Report),
    /// An image arrived.
    Image(Image),
}

impl From<Event> for flat::Event {
    fn from(event: Event) -> flat::Event {
        let mut e = flat::Event::default();
        match event {
            Event::Call(call) => (e.kind, e.call) = (1, call),
            Event::Prime(report) => (e.kind, e.report) = (2, report),
            Event::Activate(report) => (e.kind, e.report) = (3, report),
            Event::Image(image) => (e.kind, e.image) = (4, image),
        }
        e
    }
}
