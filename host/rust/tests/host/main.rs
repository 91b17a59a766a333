//! The linked library, as a host in Rust meets it. The peer is told the same,
//! and has to answer the same: `common::host`.

mod damage;
mod describe;
mod examples;
mod layout;
mod lead;
mod logs;
mod records;
mod refusals;
mod rules;
mod update;
mod why;
mod wrapper;
