//! What crosses to the library: numbers, arrays of numbers, and structs of these, as `lfa.h` has them.
//!
//! Every function here is safe: references are all that the library asks of pointers, and whatever the numbers are, it gives a
//! stated answer. Before the first call each of them looks whether the library is the one that these structs are for ([`Abi`]).

use core::mem::size_of;
use core::sync::atomic::{AtomicBool, Ordering};

/// Components that a board has at most.
pub const MOST_COMPONENTS: usize = 32;
/// CPUs that a board has at most.
pub const MOST_CPUS: usize = 64;
/// Bytes that a reader keeps between two deliveries at most.
pub const MOST_KEPT: usize = 50;

/// Which library it is: a host that was built for another must not call it. This struct is the same for all of them.
#[repr(C)]
#[derive(Clone, Copy, Debug, Default, PartialEq, Eq)]
pub struct Abi {
    /// The ABI number: every other layout, meaning of a number or need of more stack has another.
    pub number: u64,
    /// Bytes of a [`Record`].
    pub record: u64,
    /// Bytes of an [`Event`].
    pub event: u64,
    /// Bytes of an [`Answer`].
    pub answer: u64,
}

impl Abi {
    /// The library that this wrapper is for.
    pub const OWN: Abi = Abi {
        number: 4,
        record: size_of::<Record>() as u64,
        event: size_of::<Event>() as u64,
        answer: size_of::<Answer>() as u64,
    };

    /// Panics unless this is the library that the wrapper is for.
    pub fn check(self) {
        assert!(
            self == Abi::OWN,
            "the linked library is another than this wrapper is for: {self:?} and not {:?}",
            Abi::OWN
        );
    }
}

/// A set of CPUs.
#[repr(C)]
#[derive(Clone, Copy, Debug, Default, PartialEq, Eq, Hash)]
pub struct Cpus {
    /// Bit n is CPU n.
    pub bits: u64,
}

/// A component of a board; a flag is 0 or 1.
#[repr(C)]
#[derive(Clone, Copy, Debug, Default, PartialEq, Eq)]
pub struct Component {
    /// Its UUID, byte 0 first.
    pub uuid: [u8; 16],
    /// The least image version that may be prepared.
    pub svn: u32,
    /// It can be activated live.
    pub capable: u8,
    /// Its activation may reset CPUs.
    pub may_reset: u8,
    /// Its activation may skip the rendezvous.
    pub optional: u8,
}

/// What does not change about a board.
#[repr(C)]
#[derive(Clone, Copy, Debug, Default, PartialEq, Eq)]
pub struct Board {
    /// How many components there are, 1 to 32.
    pub components: u64,
    /// How many CPUs there are, 1 to 64.
    pub cpus: u64,
    /// The first address that can be an entry.
    pub first: u64,
    /// The last one.
    pub last: u64,
    /// The components, and zeros past their count.
    pub component: [Component; MOST_COMPONENTS],
}

/// A board's record.
#[repr(C)]
#[derive(Clone, Copy, Debug, PartialEq, Eq)]
pub struct Record {
    /// The board.
    pub board: Board,
    /// 1 where an image is pending.
    pub pending: [u8; MOST_COMPONENTS],
    /// The pending image's version, else 0.
    pub version: [u32; MOST_COMPONENTS],
    /// Its place in document 01's table of rules, from 0 (idle) on; a new state takes the next.
    pub state: u64,
    /// The state's component; 0 in idle and dead.
    pub subject: u64,
    /// The powered CPUs.
    pub on: Cpus,
    /// Those that wait for a job or for others.
    pub held: Cpus,
    /// Where a CPU that is held for ACTIVATE with may_reset resumes, else 0.
    pub entry: [u64; MOST_CPUS],
    /// Its context id, else 0.
    pub context: [u64; MOST_CPUS],
    /// 1 where a GET_INFO is noted.
    pub informed: u64,
}

/// A call: the CPU that makes it, and its registers.
#[repr(C)]
#[derive(Clone, Copy, Debug, Default, PartialEq, Eq)]
pub struct Call {
    /// The CPU.
    pub cpu: u64,
    /// X0; its low 32 bits are the function number.
    pub x0: u64,
    /// X1.
    pub x1: u64,
    /// X2.
    pub x2: u64,
    /// X3.
    pub x3: u64,
    /// X4.
    pub x4: u64,
}

/// The end of a job.
#[repr(C)]
#[derive(Clone, Copy, Debug, Default, PartialEq, Eq)]
pub struct Report {
    /// The component that the job was for.
    pub component: u64,
    /// What became of the job: 0, 1 for again, 12 for a reset, or a status without its sign.
    pub code: u64,
}

/// An image that arrived.
#[repr(C)]
#[derive(Clone, Copy, Debug, Default, PartialEq, Eq)]
pub struct Image {
    /// The component that it is for.
    pub component: u64,
    /// Its security version.
    pub version: u32,
}

/// An event: the kind says which of the other three counts.
#[repr(C)]
#[derive(Clone, Copy, Debug, Default, PartialEq, Eq)]
pub struct Event {
    /// 1 a call, 2 a prime report, 3 an activate report, 4 an image.
    pub kind: u64,
    /// Counts for kind 1.
    pub call: Call,
    /// Counts for kinds 2 and 3.
    pub report: Report,
    /// Counts for kind 4.
    pub image: Image,
}

/// What a caller goes on with.
#[repr(C)]
#[derive(Clone, Copy, Debug, Default, PartialEq, Eq)]
pub struct Registers {
    /// X0.
    pub x0: u64,
    /// X1.
    pub x1: u64,
    /// X2.
    pub x2: u64,
    /// X3.
    pub x3: u64,
}

/// The CPUs that are released.
#[repr(C)]
#[derive(Clone, Copy, Debug, Default, PartialEq, Eq)]
pub struct Freed {
    /// Which CPUs.
    pub cpus: Cpus,
    /// X0 of each; 0 by entry.
    pub x0: u64,
    /// X1 of each; 0 by entry.
    pub x1: u64,
}

/// An answer. A refused one has only the number of the refusal, and all else 0.
#[repr(C)]
#[derive(Clone, Copy, Debug, Default, PartialEq, Eq)]
pub struct Answer {
    /// 0 or the number of the refusal.
    pub refusal: u64,
    /// 0 no caller, 1 returned, 2 held, 3 prime started, 4 activation started, 5 gone.
    pub caller: u64,
    /// X0 to X3 where the caller returned, else 0.
    pub returned: Registers,
    /// 0 nobody, 1 with X0 and X1, 2 by entry address.
    pub release: u64,
    /// Who is released.
    pub freed: Freed,
}

/// The answer of [`fresh`].
#[repr(C)]
#[derive(Clone, Copy, Debug, PartialEq, Eq)]
pub struct Fresh {
    /// 0 or the number of the refusal.
    pub refusal: u64,
    /// The record; all 0 if refused.
    pub rec: Record,
}

/// The answer of [`log`] and of [`describe`].
#[repr(C)]
#[derive(Clone, Copy, Debug, Default, PartialEq, Eq)]
pub struct Written {
    /// 0 or the number of the refusal.
    pub refusal: u64,
    /// How many bytes were written; 0 if refused.
    pub bytes: usize,
}

/// A record of the log.
#[repr(C)]
#[derive(Clone, Copy, Debug, Default, PartialEq, Eq)]
pub struct LogRecord {
    /// 1 a call, 2 a prime report, 3 an activate report, 4 an image.
    pub kind: u64,
    /// The CPU of a call, else 0.
    pub cpu: u64,
    /// The code of a report, else 0.
    pub code: u64,
    /// 1 returned, 2 held, 3 prime started, 4 activation started, 5 gone, 6 released, 7 noted.
    pub outcome: u64,
    /// X0 of a call, else 0.
    pub w1: u64,
    /// X1 of a call, else the component.
    pub w2: u64,
    /// X2 of a call, the version of an image, else 0.
    pub w3: u64,
    /// X3 of a call, else 0.
    pub w4: u64,
    /// X4 of a call, else 0.
    pub w5: u64,
    /// The X0 given for outcomes 1 and 6, else 0.
    pub w6: u64,
}

/// The answer of [`read_record`].
#[repr(C)]
#[derive(Clone, Copy, Debug, Default, PartialEq, Eq)]
pub struct Read {
    /// 0 or the number of the refusal.
    pub refusal: u64,
    /// How many bytes were read; 0 if refused.
    pub bytes: usize,
    /// The record; all 0 if refused.
    pub record: LogRecord,
}

/// A component, or none.
#[repr(C)]
#[derive(Clone, Copy, Debug, Default, PartialEq, Eq)]
pub struct Found {
    /// 1, or 0 where there is none.
    pub found: u64,
    /// The component; 0 where there is none.
    pub component: u64,
}

/// The answer of [`prepared`].
#[repr(C)]
#[derive(Clone, Copy, Debug, Default, PartialEq, Eq)]
pub struct Prepared {
    /// 0 or the number of the refusal.
    pub refusal: u64,
    /// If refused, the place of the record to blame, or 0 where it is the log.
    pub place: usize,
    /// What is prepared.
    pub prepared: Found,
    /// How many records were looked at, the deciding one included.
    pub looked: usize,
}

/// The answer of [`powered`] and of [`held`].
#[repr(C)]
#[derive(Clone, Copy, Debug, Default, PartialEq, Eq)]
pub struct CpusAt {
    /// 0 or the number of the refusal.
    pub refusal: u64,
    /// If refused, the place of the record to blame, or 0 where it is the log.
    pub place: usize,
    /// The CPUs; none if refused.
    pub cpus: Cpus,
}

/// The answer of [`starts`].
#[repr(C)]
#[derive(Clone, Copy, Debug, Default, PartialEq, Eq)]
pub struct Started {
    /// 0 or the number of the refusal.
    pub refusal: u64,
    /// If refused, the place of the record to blame, or 0 where it is the log or the board.
    pub place: usize,
    /// What starts.
    pub started: Found,
}

/// An ACTIVATE: the CPU that makes it, and its registers but for X0.
#[repr(C)]
#[derive(Clone, Copy, Debug, Default, PartialEq, Eq)]
pub struct Activate {
    /// The CPU.
    pub cpu: u64,
    /// X1, the component.
    pub x1: u64,
    /// X2, the flags: bit 0 skips the rendezvous.
    pub x2: u64,
    /// X3, the entry.
    pub x3: u64,
    /// X4, the context id.
    pub x4: u64,
}

/// The answer of [`why`].
#[repr(C)]
#[derive(Clone, Copy, Debug, Default, PartialEq, Eq)]
pub struct Why {
    /// 0 or the number of the refusal.
    pub refusal: u64,
    /// If refused, the place of the record to blame, or 0 where it is the log, the board or the call.
    pub place: usize,
    /// 0 if refused, else the number of a [`Reason`](crate::Reason), from 1 on; a new one takes the next.
    pub reason: u64,
    /// The component that the reason has, else 0.
    pub component: u64,
    /// The powered CPUs still missing where the caller is held, else none.
    pub missing: Cpus,
}

/// A reader of a log that arrives in deliveries, between two of them.
#[repr(C)]
#[derive(Clone, Copy, Debug, PartialEq, Eq)]
pub struct Lead {
    /// 0 open, 1 closed, 2 refused.
    pub standing: u64,
    /// The number of the refusal where it is refused, else 0.
    pub refusal: u64,
    /// The place of the record to blame; 0 where it is the log, and where it is not refused.
    pub place: usize,
    /// How many records were given.
    pub records: usize,
    /// How many bytes are kept.
    pub length: usize,
    /// The first bytes of the next record, and zeros past their length.
    pub kept: [u8; MOST_KEPT],
}

/// The answer of [`lead_take`].
#[repr(C)]
#[derive(Clone, Copy, Debug, PartialEq, Eq)]
pub struct Taken {
    /// The reader to go on with.
    pub lead: Lead,
    /// 0 or the number of the refusal.
    pub refusal: u64,
    /// If refused, the place of the record to blame, or 0 where it is the log or the reader.
    pub place: usize,
    /// How many bytes of the delivery were used; 0 if refused.
    pub used: usize,
    /// 1, or 0 where no record is given.
    pub given: u64,
    /// The record; all 0 where none is given.
    pub record: LogRecord,
}

/// The answer of [`lead_close`].
#[repr(C)]
#[derive(Clone, Copy, Debug, PartialEq, Eq)]
pub struct Closed {
    /// The reader, closed or refused.
    pub lead: Lead,
    /// 0 or the number of the refusal.
    pub refusal: u64,
    /// If refused, the place of the record to blame, or 0 where it is the log or the reader.
    pub place: usize,
    /// How many records the log has; 0 if refused.
    pub records: usize,
}

mod linked {
    use super::{
        Abi, Activate, Answer, Board, Call, Closed, CpusAt, Event, Fresh, Lead, Prepared, Read,
        Record, Started, Taken, Why, Written,
    };

    // The library's convention: on x86-64 that of System V, also where C has another.
    macro_rules! library {
        ($($functions:tt)*) => {
            #[cfg(target_arch = "x86_64")]
            extern "sysv64" { $($functions)* }
            #[cfg(not(target_arch = "x86_64"))]
            extern "C" { $($functions)* }
        };
    }
    library! {
        pub fn lfa_abi() -> Abi;
        pub fn lfa_describe(buf: *mut u8, buf_length: usize, board: Board) -> Written;
        pub fn lfa_fresh(board: *const u8, board_length: usize) -> Fresh;
        pub fn lfa_step(
            rec: *mut Record,
            e: Event,
            entries: *mut u64,
            entries_length: usize,
            contexts: *mut u64,
            contexts_length: usize,
        ) -> Answer;
        pub fn lfa_log(buf: *mut u8, buf_length: usize, e: Event, a: Answer) -> Written;
        pub fn lfa_read_record(log: *const u8, log_length: usize) -> Read;
        pub fn lfa_prepared(log: *const u8, log_length: usize, place: usize) -> Prepared;
        pub fn lfa_powered(log: *const u8, log_length: usize, place: usize) -> CpusAt;
        pub fn lfa_held(log: *const u8, log_length: usize, place: usize) -> CpusAt;
        pub fn lfa_starts(
            board: *const u8,
            board_length: usize,
            log: *const u8,
            log_length: usize,
            place: usize,
            call: Call,
        ) -> Started;
        pub fn lfa_why(
            board: *const u8,
            board_length: usize,
            log: *const u8,
            log_length: usize,
            place: usize,
            a: Activate,
        ) -> Why;
        pub fn lfa_lead_open() -> Lead;
        pub fn lfa_lead_take(lead: Lead, delivery: *const u8, delivery_length: usize) -> Taken;
        pub fn lfa_lead_close(lead: Lead) -> Closed;
    }
}

/// Which library is linked.
pub fn abi() -> Abi {
    // SAFETY: it takes nothing, and what it gives is the same struct in every library.
    unsafe { linked::lfa_abi() }
}

/// Panics, before anything else crosses, unless the linked library is the one that this wrapper is for; asks it once.
fn ensure_own_library() {
    static ASKED: AtomicBool = AtomicBool::new(false);
    if !ASKED.load(Ordering::Relaxed) {
        abi().check();
        ASKED.store(true, Ordering::Relaxed);
    }
}

/// Writes a board's description from its parts at the start of the buffer; bytes not written stay.
///
/// Refused with 22 for a flag within the count that is neither 0 nor 1, then 26, 23, 24, 25, 27.
pub fn describe(buf: &mut [u8], board: Board) -> Written {
    ensure_own_library();
    // SAFETY: the slice is valid for its length and borrowed mutably.
    unsafe { linked::lfa_describe(buf.as_mut_ptr(), buf.len(), board) }
}

/// The record of a board that was just switched on, from its packed description.
pub fn fresh(board: &[u8]) -> Fresh {
    ensure_own_library();
    // SAFETY: the slice is valid for its length, and the function only reads it.
    unsafe { linked::lfa_fresh(board.as_ptr(), board.len()) }
}

/// One event on a record, in place. In the two tables only the places of CPUs that resume by entry are written.
///
/// Refused with 9 for a record that is not well formed, then 1 for a short table, then 32 for a kind that is none of the four,
/// else 2 to 8.
pub fn step(rec: &mut Record, e: Event, entries: &mut [u64], contexts: &mut [u64]) -> Answer {
    ensure_own_library();
    // SAFETY: the three are valid for their lengths and apart, since each is borrowed mutably.
    unsafe {
        linked::lfa_step(
            rec,
            e,
            entries.as_mut_ptr(),
            entries.len(),
            contexts.as_mut_ptr(),
            contexts.len(),
        )
    }
}

/// Writes the log record of an accepted event at the start of the buffer; bytes not written stay.
pub fn log(buf: &mut [u8], e: Event, a: Answer) -> Written {
    ensure_own_library();
    // SAFETY: the slice is valid for its length and borrowed mutably.
    unsafe { linked::lfa_log(buf.as_mut_ptr(), buf.len(), e, a) }
}

/// The log record that the bytes open with.
pub fn read_record(log: &[u8]) -> Read {
    ensure_own_library();
    // SAFETY: the slice is valid for its length, and the function only reads it.
    unsafe { linked::lfa_read_record(log.as_ptr(), log.len()) }
}

/// Which component is prepared at a place of a log.
pub fn prepared(log: &[u8], place: usize) -> Prepared {
    ensure_own_library();
    // SAFETY: the slice is valid for its length, and the function only reads it.
    unsafe { linked::lfa_prepared(log.as_ptr(), log.len(), place) }
}

/// The CPUs that are powered at a place of a log.
pub fn powered(log: &[u8], place: usize) -> CpusAt {
    ensure_own_library();
    // SAFETY: the slice is valid for its length, and the function only reads it.
    unsafe { linked::lfa_powered(log.as_ptr(), log.len(), place) }
}

/// The CPUs that are held at a place of a log.
pub fn held(log: &[u8], place: usize) -> CpusAt {
    ensure_own_library();
    // SAFETY: the slice is valid for its length, and the function only reads it.
    unsafe { linked::lfa_held(log.as_ptr(), log.len(), place) }
}

/// The component whose rendezvous activation starts at a call made at a place of a log.
pub fn starts(board: &[u8], log: &[u8], place: usize, call: Call) -> Started {
    ensure_own_library();
    // SAFETY: both slices are valid for their lengths, and the function only reads them.
    unsafe {
        linked::lfa_starts(
            board.as_ptr(),
            board.len(),
            log.as_ptr(),
            log.len(),
            place,
            call,
        )
    }
}

/// Why an ACTIVATE made at a place of a log is refused, held or started.
///
/// Refused with the board's number, then 33, then that of the first bad record, then 35 for the first record before the place
/// whose event the rules refuse or answer otherwise, then 2, 3, 4 for the caller.
pub fn why(board: &[u8], log: &[u8], place: usize, a: Activate) -> Why {
    ensure_own_library();
    // SAFETY: both slices are valid for their lengths, and the function only reads them.
    unsafe {
        linked::lfa_why(
            board.as_ptr(),
            board.len(),
            log.as_ptr(),
            log.len(),
            place,
            a,
        )
    }
}

/// A reader of deliveries before the first.
pub fn lead_open() -> Lead {
    ensure_own_library();
    // SAFETY: it takes nothing.
    unsafe { linked::lfa_lead_open() }
}

/// Takes a delivery up to the end of a record, or all of it.
///
/// Refused with 37 for a reader that is none, then 36 for one that is closed or again with what it was refused with before, then
/// 33 for a byte past 1,024 records, 32 or 31 for a record.
pub fn lead_take(lead: Lead, delivery: &[u8]) -> Taken {
    ensure_own_library();
    // SAFETY: the slice is valid for its length, and the function only reads it.
    unsafe { linked::lfa_lead_take(lead, delivery.as_ptr(), delivery.len()) }
}

/// The log has ended.
///
/// Refused with 37, 36 or again as by [`lead_take`], and with 30 where bytes are kept.
pub fn lead_close(lead: Lead) -> Closed {
    ensure_own_library();
    // SAFETY: it takes numbers alone.
    unsafe { linked::lfa_lead_close(lead) }
}
