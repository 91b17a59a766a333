//! The proved library beside the peer, on the same inputs.
//!
//! COMPARE_SEED sets the seed of all tests here, COMPARE_EVENTS the number of
//! events of the walks, which have to be many enough to come by everything.
//! Each test prints its seed, which cargo shows where it fails.

mod boards;
mod clauses;
mod cpus;
mod damage;
mod faults;
mod lead;
mod logs;
mod places;
mod story;
mod tally;
mod walks;
mod why;
