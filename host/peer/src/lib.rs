//! An agent for live firmware activation: a board's record, the events that
//! change it, and the log of those events.
//!
//! [`Record::step`] takes one event. [`logged`] makes the log record of an
//! accepted one. [`prepared_at`], [`starts_at`], [`powered_at`] and [`held_at`]
//! answer questions from a log alone. [`why_at`] takes a log's events through
//! the rules, and names the rule that an ACTIVATE meets there. [`Lead`] reads a
//! log that comes in deliveries, and [`Stored`] is what a host keeps of it.
//!
//! # Open points
//!
//! What the document leaves open, and what is done here.
//!
//! Events:
//! - Refusal 1 is given for any event with a short table, even one that could
//!   not resume a CPU; both tables count.
//! - Refusal 6 goes by the running job: code 12 in alone, or in together
//!   without may_reset, and code 1 in together are refused.
//! - A successful CPU_ON answers X0 = 0 to the caller and, in the release
//!   part, the target as the one CPU that resumes.
//! - A CANCEL that finds no CPU held releases nobody, not an empty set.
//! - A good entry is judged by its address alone: the bytes after it need not
//!   be in the range.
//! - A successful activation leaves the component's SVN as it is.
//! - PRIME in a state of the -2 or -7 rows gives that status for any id, and
//!   so does ACTIVATE in the -7 rows, even for an id that is no component.
//! - A dead board answers all other calls, and takes images, as an idle one.
//!
//! A preparation that is cancelled while its job runs (request 3):
//! - The CANCEL releases nobody, and the image stays pending. What comes after
//!   the first one changes nothing: the same id gets 0 again, another one -8.
//! - Which of the allowed codes the report has does not matter: the board is
//!   idle, and the held caller goes on with -11 and 0. Then nothing is left of
//!   the CANCEL, and the component can be primed again.
//! - The held caller is on, so the only other CPU may still go off.
//! - Word 6 of a prime report says something of code 0 alone, and by itself: no
//!   CANCEL has to stand before it. With code 1 nothing is decided.
//!
//! Records:
//! - A noted GET_INFO fits any state.
//! - Context ids of held CPUs may be anything, where they are kept.
//! - SVNs and UUIDs of components within the count may be 0.
//!
//! Log records:
//! - Word 6 of an activate report of code 12 is an unused field, since no X0 is
//!   given. With outcome 1 and of all other reports it may be anything.
//! - The CPU of a report or an image is an unused field. So are the six
//!   reserved bits when reading.
//! - A call's outcome is not compared with its function number.
//! - [`logged`] takes the answer that [`Record::step`] gave. For a call with
//!   an answer that has no caller's part it gives outcome 0, which the writer
//!   refuses with 32; a report without a release gets word 6 = 0.
//!
//! Log questions:
//! - Without a deciding record before the place, all records before it were
//!   looked at, and none is prepared.
//! - A bad record is found anywhere in the log, after the place too.
//! - [`starts_at`] gives a board's refusal with place 0. [`powered_at`] and
//!   [`held_at`] take no board.
//! - Only logs that no agent writes are touched by the rest. What becomes of a
//!   caller goes by the outcome alone: held and activation started hold it for
//!   ACTIVATE, prime started for PRIME, gone powers it off. A CPU_ON that
//!   returned 0 powers its target, any number, whatever the board; no record
//!   can say that one of 64 or more became held, so nothing starts after it, and
//!   it is in no set. A CPU that goes off while it is held stays held.
//!   An activation without rendezvous is an outcome 4 with bit 0 of X2 set. A
//!   prepared component that the board does not have never starts. One that it
//!   has need not be capable, since a log is taken at its word.
//!
//! Why an ACTIVATE is refused, held or started (request 1):
//! - The refusals that no record is to blame for have place 0: the board's, 33
//!   and the caller's.
//! - A bad record anywhere, after the place too, comes before one that differs.
//!   Of those that differ only the ones before the place count.
//! - A record differs by its outcome or its word 6, since it has no more of an
//!   answer. Whatever its event is refused with, 35 is given.
//! - Resume tables are long enough for all events: a log does not say how long
//!   the host's were.
//! - The call is an ACTIVATE, whatever X0 would be.
//! - The refusals of the caller come before every rule, also before the -7 of a
//!   row. In together no other answer can come.
//! - [`Reason::OtherComponent`] has the state's component, whatever X1 is, even
//!   a number that is no component.
//! - A flag above bit 0 is named before skip, even where bit 0 is set too.
//! - In alone, no skip (-8) is named before the running activation (-2).
//! - Idle and dead are reasons by themselves, whatever is pending and whatever
//!   led there.
//!
//! Logs in deliveries (request 4):
//! - A delivery may end several records: each call gives one, and the caller
//!   comes back with the rest.
//! - A record is refused when its last byte is there, whatever the first ones
//!   say, and 33 comes before the byte past the last record is looked at. Of a
//!   refused delivery nothing is used, and no byte is kept after it.
//! - An empty delivery is none to an open reader, also one with a full log. Else
//!   it is refused as any other.
//! - 33, 36 and 37 have place 0; a refusal that comes again has its own.
//! - Closing after a refusal gives that refusal too.
//! - Bytes left over are refused with 30 whatever they say.
//! - A log without a byte is one of no records: it closes well.
//! - "Past these limits" is any state that no deliveries lead to ([`Fault`]), but
//!   for what the kept bytes say, and not only over 50 bytes or over 1,024 records.
//! - A state that is refused with 36, 37 or again stays as it was.
//!
//! Of logs that no agent writes, three points follow the project's own choices
//! (docs/DECISIONS.md), so that on them the comparison with the library is no
//! independent evidence: what becomes of a caller goes by the outcome alone;
//! CPU_ON powers any CPU, also one that the board has not; and skip is bit 0 of
//! X2 of an outcome 4, whatever the function. Nor is it on two points of
//! [`why_at`] that follow these choices too: place 0 where no record is to
//! blame, and the component of [`Reason::OtherComponent`]. The list of reasons
//! and the order of its refusals are one wording of request 1 on both sides, and
//! so are the reason of withdrawn and what [`powered_at`] and [`held_at`] refuse,
//! and the list of faults, the used bytes and the places of request 4: that they
//! agree shows no slip, and not that the requests were read right.

mod answer;
mod board;
mod cpus;
mod event;
mod lead;
mod log;
mod reader;
mod record;
mod refusal;
mod step;
mod why;

pub use answer::{status, Answer, Caller, Release};
pub use board::{Board, Component, MAX_COMPONENTS, MAX_CPUS};
pub use cpus::CpuSet;
pub use event::{Call, Event, Function, Image, Report};
pub use lead::{Fault, Lead, Stored, Took, CLOSED, MAX_KEPT, OPEN, REFUSED};
pub use log::{
    logged, prepared_at, Flaw, Log, LogRecord, Prepared, ACTIVATE, ACTIVATION_STARTED, CALL, GONE,
    HELD, IMAGE, MAX_RECORDS, NOTED, PRIME, PRIME_STARTED, RECORD_BYTES, RELEASED, RETURNED,
};
pub use reader::{held_at, powered_at, reading_at, starts_at, Reading};
pub use record::{Record, State};
pub use refusal::Refusal;
pub use why::{why_at, Activate, Reason};
