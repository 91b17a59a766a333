//! The numbered refusals.

/// Why an event, a board or a log was refused. A refusal comes with nothing
/// else and leaves everything lent as it was.
#[derive(Clone, Copy, PartialEq, Eq, Hash, Debug)]
#[repr(u8)]
pub enum Refusal {
    /// A resume table has too few places for the board's CPUs.
    ShortTable = 1,
    /// The call names a CPU the board does not have.
    NoSuchCpu = 2,
    /// The calling CPU is off.
    CpuOff = 3,
    /// The calling CPU is held.
    CpuHeld = 4,
    /// No job of the report's kind runs for the report's component.
    NoSuchJob = 5,
    /// The report's code is not allowed for the job.
    CodeNotAllowed = 6,
    /// The image's component does not exist or is not capable.
    NotCapable = 7,
    /// The image's component is the state's component.
    ComponentInUse = 8,
    /// The record is not well formed.
    NotWellFormed = 9,
    /// The board description is too short.
    BoardTooShort = 20,
    /// The board description is too long.
    BoardTooLong = 21,
    /// A reserved bit of the board description is set.
    ReservedBit = 22,
    /// The range's first address is above its last.
    RangeReversed = 23,
    /// A component is both optional and may_reset.
    OptionalMayReset = 24,
    /// Two components have the same UUID.
    UuidTwice = 25,
    /// A count of the board to write is outside its limits.
    CountOutsideLimits = 26,
    /// No room for the bytes of the board.
    NoRoomForBoard = 27,
    /// Fewer than 51 bytes are left of the log.
    LogTooShort = 30,
    /// An unused field is not 0, or a value is too large for its field.
    BadField = 31,
    /// The kind, the outcome or the code is unknown.
    Unknown = 32,
    /// The log's length or the place asked about is wrong.
    BadLength = 33,
    /// No room for the 51 bytes of a log record.
    NoRoomForRecord = 34,
    /// The event of a log record is refused by the rules, or answered otherwise.
    Differs = 35,
    /// A delivery or a close comes to a reader whose log ended well.
    AlreadyClosed = 36,
    /// The numbers of a reader of deliveries are those of none.
    NoReader = 37,
}

impl Refusal {
    /// The number of the refusal.
    pub const fn number(self) -> u64 {
        self as u64
    }
}
