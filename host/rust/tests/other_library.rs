//! Linked with a library of another ABI number, as `host/run` does it with LFA_LIBRARY: none of its functions is called.

use std::panic::{catch_unwind, AssertUnwindSafe};

use lfa::flat::{
    self, Abi, Activate, Answer, Board, Call, Cpus, Event, Lead, Record, MOST_COMPONENTS,
    MOST_CPUS, MOST_KEPT,
};

/// A record of zeros.
fn zeros() -> Record {
    Record {
        board: Board::default(),
        pending: [0; MOST_COMPONENTS],
        version: [0; MOST_COMPONENTS],
        state: 0,
        subject: 0,
        on: Cpus::default(),
        held: Cpus::default(),
        entry: [0; MOST_CPUS],
        context: [0; MOST_CPUS],
        informed: 0,
    }
}

/// A reader of zeros.
const LEAD: Lead = Lead {
    standing: 0,
    refusal: 0,
    place: 0,
    records: 0,
    length: 0,
    kept: [0; MOST_KEPT],
};

/// Whether it panics with the words for a library that the wrapper is not for.
fn is_refused<T>(call: impl FnOnce() -> T) -> bool {
    let Err(panic) = catch_unwind(AssertUnwindSafe(call)) else {
        return false;
    };
    let said = panic.downcast_ref::<String>().expect("a message");
    said.contains("the linked library is another than this wrapper is for")
}

#[test]
#[ignore = "host/run links the other library"]
fn no_function_of_another_library_is_called() {
    assert_eq!(flat::abi().number, Abi::OWN.number + 1);
    let (event, answer) = (Event::default(), Answer::default());
    let refused = [
        is_refused(|| flat::describe(&mut [], Board::default())),
        is_refused(|| flat::fresh(&[])),
        is_refused(|| flat::step(&mut zeros(), event, &mut [], &mut [])),
        is_refused(|| flat::log(&mut [], event, answer)),
        is_refused(|| flat::read_record(&[])),
        is_refused(|| flat::prepared(&[], 0)),
        is_refused(|| flat::powered(&[], 0)),
        is_refused(|| flat::held(&[], 0)),
        is_refused(|| flat::starts(&[], &[], 0, Call::default())),
        is_refused(|| flat::why(&[], &[], 0, Activate::default())),
        is_refused(flat::lead_open),
        is_refused(|| flat::lead_take(LEAD, &[])),
        is_refused(|| flat::lead_close(LEAD)),
    ];
    assert_eq!(refused, [true; 13]);
}
