//! Sizes and places of the flat structs, as `lfa.h` has them for a 64-bit host.

use core::mem::{align_of, offset_of, size_of};

use lfa::flat::{
    self, Abi, Activate, Answer, Board, Call, Closed, Component, Cpus, CpusAt, Event, Found, Freed,
    Fresh, Image, Lead, LogRecord, Prepared, Read, Record, Registers, Report, Started, Taken, Why,
    Written,
};

#[test]
fn the_library_is_the_one_that_the_wrapper_is_for() {
    let own = Abi {
        number: 4,
        record: 2024,
        event: 88,
        answer: 80,
    };
    assert_eq!((flat::abi(), Abi::OWN), (own, own));
    flat::abi().check();
}

/// The message of a check that fails, if it does.
fn said_of(abi: Abi) -> Option<String> {
    let failed = std::panic::catch_unwind(|| abi.check()).err()?;
    failed.downcast_ref::<String>().cloned()
}

#[test]
fn other_numbers_are_another_library() {
    let changes: [fn(&mut Abi) -> &mut u64; 4] = [
        |abi| &mut abi.number,
        |abi| &mut abi.record,
        |abi| &mut abi.event,
        |abi| &mut abi.answer,
    ];
    for change in changes {
        for other in [0, 3, 5, 81, 89, 2025, u64::MAX] {
            let mut abi = Abi::OWN;
            *change(&mut abi) = other;
            let said = said_of(abi).expect("a message");
            assert!(
                said.contains(&format!("{abi:?} and not {:?}", Abi::OWN)),
                "{said}"
            );
        }
    }
    assert_eq!(said_of(Abi::OWN), None);
}

#[test]
fn sizes() {
    assert_eq!(size_of::<Cpus>(), 8);
    assert_eq!(size_of::<Component>(), 24);
    assert_eq!(size_of::<Board>(), 800);
    assert_eq!(size_of::<Record>(), 2024);
    assert_eq!(size_of::<Call>(), 48);
    assert_eq!(size_of::<Report>(), 16);
    assert_eq!(size_of::<Image>(), 16);
    assert_eq!(size_of::<Event>(), 88);
    assert_eq!(size_of::<Registers>(), 32);
    assert_eq!(size_of::<Freed>(), 24);
    assert_eq!(size_of::<Answer>(), 80);
    assert_eq!(size_of::<Fresh>(), 2032);
    assert_eq!(size_of::<Written>(), 16);
    assert_eq!(size_of::<Found>(), 16);
    assert_eq!(size_of::<Prepared>(), 40);
    assert_eq!(size_of::<CpusAt>(), 24);
    assert_eq!(size_of::<Started>(), 32);
    assert_eq!(size_of::<Activate>(), 40);
    assert_eq!(size_of::<Why>(), 40);
    assert_eq!(size_of::<Abi>(), 32);
    assert_eq!(size_of::<LogRecord>(), 80);
    assert_eq!(size_of::<Read>(), 96);
    assert_eq!(size_of::<Lead>(), 96);
    assert_eq!(size_of::<Taken>(), 208);
    assert_eq!(size_of::<Closed>(), 120);
    assert_eq!(align_of::<Component>(), 4);
    assert_eq!(align_of::<Record>(), 8);
}

#[test]
fn places_in_a_board() {
    assert_eq!(offset_of!(Component, uuid), 0);
    assert_eq!(offset_of!(Component, svn), 16);
    assert_eq!(offset_of!(Component, capable), 20);
    assert_eq!(offset_of!(Component, may_reset), 21);
    assert_eq!(offset_of!(Component, optional), 22);
    assert_eq!(offset_of!(Board, components), 0);
    assert_eq!(offset_of!(Board, cpus), 8);
    assert_eq!(offset_of!(Board, first), 16);
    assert_eq!(offset_of!(Board, last), 24);
    assert_eq!(offset_of!(Board, component), 32);
}

#[test]
fn places_in_a_record() {
    assert_eq!(offset_of!(Record, board), 0);
    assert_eq!(offset_of!(Record, pending), 800);
    assert_eq!(offset_of!(Record, version), 832);
    assert_eq!(offset_of!(Record, state), 960);
    assert_eq!(offset_of!(Record, subject), 968);
    assert_eq!(offset_of!(Record, on), 976);
    assert_eq!(offset_of!(Record, held), 984);
    assert_eq!(offset_of!(Record, entry), 992);
    assert_eq!(offset_of!(Record, context), 1504);
    assert_eq!(offset_of!(Record, informed), 2016);
}

#[test]
fn places_in_events() {
    assert_eq!(offset_of!(Call, cpu), 0);
    assert_eq!(offset_of!(Call, x0), 8);
    assert_eq!(offset_of!(Call, x4), 40);
    assert_eq!(offset_of!(Report, code), 8);
    assert_eq!(offset_of!(Image, version), 8);
    assert_eq!(offset_of!(Event, kind), 0);
    assert_eq!(offset_of!(Event, call), 8);
    assert_eq!(offset_of!(Event, report), 56);
    assert_eq!(offset_of!(Event, image), 72);
    assert_eq!(offset_of!(Activate, cpu), 0);
    assert_eq!(offset_of!(Activate, x1), 8);
    assert_eq!(offset_of!(Activate, x2), 16);
    assert_eq!(offset_of!(Activate, x3), 24);
    assert_eq!(offset_of!(Activate, x4), 32);
}

#[test]
fn places_in_answers() {
    assert_eq!(offset_of!(Answer, refusal), 0);
    assert_eq!(offset_of!(Answer, caller), 8);
    assert_eq!(offset_of!(Answer, returned), 16);
    assert_eq!(offset_of!(Answer, release), 48);
    assert_eq!(offset_of!(Answer, freed), 56);
    assert_eq!(offset_of!(Freed, x0), 8);
    assert_eq!(offset_of!(Freed, x1), 16);
    assert_eq!(offset_of!(Fresh, rec), 8);
    assert_eq!(offset_of!(Written, bytes), 8);
    assert_eq!(offset_of!(Found, component), 8);
    assert_eq!(offset_of!(Prepared, place), 8);
    assert_eq!(offset_of!(Prepared, prepared), 16);
    assert_eq!(offset_of!(Prepared, looked), 32);
    assert_eq!(offset_of!(CpusAt, refusal), 0);
    assert_eq!(offset_of!(CpusAt, place), 8);
    assert_eq!(offset_of!(CpusAt, cpus), 16);
    assert_eq!(offset_of!(Started, place), 8);
    assert_eq!(offset_of!(Started, started), 16);
    assert_eq!(offset_of!(Why, refusal), 0);
    assert_eq!(offset_of!(Why, place), 8);
    assert_eq!(offset_of!(Why, reason), 16);
    assert_eq!(offset_of!(Why, component), 24);
    assert_eq!(offset_of!(Why, missing), 32);
    assert_eq!(offset_of!(Read, bytes), 8);
    assert_eq!(offset_of!(Read, record), 16);
    assert_eq!(offset_of!(LogRecord, outcome), 24);
    assert_eq!(offset_of!(LogRecord, w6), 72);
}

#[test]
fn places_in_readers() {
    assert_eq!(offset_of!(Lead, standing), 0);
    assert_eq!(offset_of!(Lead, refusal), 8);
    assert_eq!(offset_of!(Lead, place), 16);
    assert_eq!(offset_of!(Lead, records), 24);
    assert_eq!(offset_of!(Lead, length), 32);
    assert_eq!(offset_of!(Lead, kept), 40);
    assert_eq!(offset_of!(Taken, lead), 0);
    assert_eq!(offset_of!(Taken, refusal), 96);
    assert_eq!(offset_of!(Taken, place), 104);
    assert_eq!(offset_of!(Taken, used), 112);
    assert_eq!(offset_of!(Taken, given), 120);
    assert_eq!(offset_of!(Taken, record), 128);
    assert_eq!(offset_of!(Closed, lead), 0);
    assert_eq!(offset_of!(Closed, refusal), 96);
    assert_eq!(offset_of!(Closed, place), 104);
    assert_eq!(offset_of!(Closed, records), 112);
}
