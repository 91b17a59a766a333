//! The numbers of the refusals.

use core::error::Error;
use core::fmt;

/// A refusal, by its number. It is the whole answer, and all that was lent is as it was.
#[derive(Clone, Copy, Debug, PartialEq, Eq, Hash)]
pub struct Refusal(u64);

impl Refusal {
    /// A resume table has too few places for the board's CPUs.
    pub const SHORT_TABLE: Refusal = Refusal(1);
    /// Call: no such CPU.
    pub const NO_SUCH_CPU: Refusal = Refusal(2);
    /// Call: CPU off.
    pub const CPU_OFF: Refusal = Refusal(3);
    /// Call: CPU held.
    pub const CPU_HELD: Refusal = Refusal(4);
    /// Report: the component has no such job running.
    pub const NO_JOB: Refusal = Refusal(5);
    /// Report: code not allowed for the job.
    pub const CODE: Refusal = Refusal(6);
    /// Image: no such or not capable component.
    pub const COMPONENT: Refusal = Refusal(7);
    /// Image: it is the state's component.
    pub const IN_USE: Refusal = Refusal(8);
    /// Record not well formed.
    pub const NOT_WELL_FORMED: Refusal = Refusal(9);
    /// Board: too short.
    pub const BOARD_TOO_SHORT: Refusal = Refusal(20);
    /// Board: too long.
    pub const BOARD_TOO_LONG: Refusal = Refusal(21);
    /// Board: reserved bit set; to write: a flag that is neither 0 nor 1.
    pub const RESERVED_BIT: Refusal = Refusal(22);
    /// Board: first > last.
    pub const RANGE: Refusal = Refusal(23);
    /// Board: optional with may_reset.
    pub const BOTH_FLAGS: Refusal = Refusal(24);
    /// Board: UUID twice.
    pub const UUID_TWICE: Refusal = Refusal(25);
    /// Board to write: not 1 to 32 components, or not 1 to 64 CPUs.
    pub const COUNT: Refusal = Refusal(26);
    /// Board to write: the buffer is too short.
    pub const NO_BOARD_ROOM: Refusal = Refusal(27);
    /// Log: fewer bytes than a record has.
    pub const LOG_TOO_SHORT: Refusal = Refusal(30);
    /// Log: unused field not 0, or a number too large for its field.
    pub const FIELD: Refusal = Refusal(31);
    /// Log: kind, outcome or code unknown. Event: kind unknown, which an [`Event`](crate::Event) never is.
    pub const UNKNOWN: Refusal = Refusal(32);
    /// Log: part of a record, over 1,024 of them, or a place past the end.
    pub const LOG: Refusal = Refusal(33);
    /// No room for 51 bytes.
    pub const NO_ROOM: Refusal = Refusal(34);
    /// Log: the rules refuse a record's event, or answer it otherwise.
    pub const DEPARTS: Refusal = Refusal(35);
    /// Lead: a delivery or a second close after a good close.
    pub const CLOSED: Refusal = Refusal(36);
    /// Lead: a state that no reader has.
    pub const NO_READER: Refusal = Refusal(37);

    /// Its number.
    pub fn number(self) -> u64 {
        self.0
    }

    /// What the library says by a number: 0 is no refusal.
    pub(crate) fn check(number: u64) -> Result<(), Refusal> {
        match number {
            0 => Ok(()),
            _ => Err(Refusal(number)),
        }
    }

    /// What was refused, in short.
    fn words(self) -> &'static str {
        match self {
            Refusal::SHORT_TABLE => "a resume table has too few places for the board's CPUs",
            Refusal::NO_SUCH_CPU => "call: no such CPU",
            Refusal::CPU_OFF => "call: CPU off",
            Refusal::CPU_HELD => "call: CPU held",
            Refusal::NO_JOB => "report: the component has no such job running",
            Refusal::CODE => "report: code not allowed for it",
            Refusal::COMPONENT => "image: no such or not capable component",
            Refusal::IN_USE => "image: it is the state's component",
            Refusal::NOT_WELL_FORMED => "record not well formed",
            Refusal::BOARD_TOO_SHORT => "board: too short",
            Refusal::BOARD_TOO_LONG => "board: too long",
            Refusal::RESERVED_BIT => "board: reserved bit set, or a flag neither 0 nor 1",
            Refusal::RANGE => "board: first > last",
            Refusal::BOTH_FLAGS => "board: optional with may_reset",
            Refusal::UUID_TWICE => "board: UUID twice",
            Refusal::COUNT => "board to write: not 1 to 32 components, or not 1 to 64 CPUs",
            Refusal::NO_BOARD_ROOM => "board to write: the buffer is too short",
            Refusal::LOG_TOO_SHORT => "log: fewer bytes than a record has",
            Refusal::FIELD => "log: unused field not 0, or a number too large for its field",
            Refusal::UNKNOWN => "kind, outcome or code unknown",
            Refusal::LOG => "log: part of a record, over 1,024 of them, or a place past the end",
            Refusal::NO_ROOM => "no room for 51 bytes",
            Refusal::DEPARTS => "log: the rules refuse a record's event, or answer it otherwise",
            Refusal::CLOSED => "lead: a delivery or a second close after a good close",
            Refusal::NO_READER => "lead: a state that no reader has",
            _ => "unknown refusal",
        }
    }
}

impl fmt::Display for Refusal {
    fn fmt(&self, f: &mut fmt::Formatter<'_>) -> fmt::Result {
        write!(f, "refused {}: {}", self.0, self.words())
    }
}

impl Error for Refusal {}
