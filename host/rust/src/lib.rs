//! The live firmware activation agent for a host in Rust: a safe layer over the proved library, which `lfa.h` says in C.
//!
//! A host keeps a [`Record`] of its board, whose description it has packed or writes from its parts ([`describe`]), and tells it
//! every [`Event`]: a call from a CPU, the end of a job, an image that arrived. The [`Answer`] says what becomes of the caller
//! and who else goes on. Each accepted event can be logged ([`write_log`]) and read back ([`read_record`]), and the log alone
//! tells what is prepared ([`prepared_at`]), which CPUs are powered and held ([`powered_at`], [`held_at`]), whether a call
//! starts a rendezvous activation ([`starts_at`]), and why an ACTIVATE is refused, held or started ([`why_at`]). A [`Refusal`]
//! changes nothing.
//!
//! A log that arrives in deliveries goes through a [`Lead`], which gives each record when its last byte is there. With the
//! feature `std`, which is on unless it is switched off, `Records` is the iterator over whatever `std::io::Read` has.
//!
//! A CANCEL that returns 0 while a prime job runs does not end the job: its report still has to come, and only that lets the
//! CPU go that waits for it ([`State::Withdrawn`]).
//!
//! No board, event or log makes a function here panic. A linked library that this wrapper is not for does: one that says so,
//! before anything crosses to it, and one whose answer, state, reason or standing has a number that this wrapper does not know.
//!
//! Of what the library asks of a host (`lfa.h`), the types see to pointers, lengths and one call at a time for a record. The
//! rest is for the host: a stack as deep as `LFA_STACK_` says, and on x86-64 one on which no interrupt is taken, since the red
//! zone is in use, and SSE2 switched on. A program under Linux has all this from the system.
//!
//! ```
//! use lfa::{describe, function, write_log, Board, Call, Caller, Event, Image, Record, State};
//!
//! // One capable component, one CPU, any address.
//! let mut parts = Board { components: 1, cpus: 1, last: u64::MAX, ..Board::default() };
//! parts.component[0].capable = 1;
//! let mut board = [0; 39];
//! assert_eq!(describe(&mut board, &parts)?, 39);
//!
//! let mut record = Record::fresh(&board)?;
//! let (mut entries, mut contexts) = ([0; 1], [0; 1]);
//!
//! let image = Event::Image(Image { component: 0, version: 5 });
//! record.step(&image, &mut entries, &mut contexts)?;
//!
//! let prime = Event::Call(Call { x0: function::PRIME, ..Call::default() });
//! let answer = record.step(&prime, &mut entries, &mut contexts)?;
//! assert_eq!(answer.caller, Caller::PrimeStarted);
//! assert_eq!(record.state(), State::Preparing(0));
//!
//! let mut log = [0; 51];
//! assert_eq!(write_log(&mut log, &prime, &answer)?, 51);
//! # Ok::<(), lfa::Refusal>(())
//! ```

#![no_std]
#![deny(unsafe_code)]
#![warn(missing_docs)]

#[cfg(feature = "std")]
extern crate std;

mod answer;
mod cpus;
mod event;
#[allow(unsafe_code)]
pub mod flat;
mod lead;
mod log;
mod record;
#[cfg(feature = "std")]
mod records;
mod refusal;
mod why;

pub use answer::{status, Answer, Caller, Registers, Release};
pub use event::{code, function, Call, Event, Image, Report};
pub use flat::{Board, Component, Cpus, Freed, LogRecord, MOST_COMPONENTS, MOST_CPUS, MOST_KEPT};
pub use lead::{Lead, Standing, Taken};
pub use log::{
    held_at, powered_at, prepared_at, read_record, starts_at, write_log, Flaw, Prepared,
    MOST_RECORDS, RECORD_BYTES,
};
pub use record::{describe, Record, State};
#[cfg(feature = "std")]
pub use records::{Error, Records};
pub use refusal::Refusal;
pub use why::{why_at, Activate, Reason};
