//! Document 01's bench examples, at this boundary, and its traps.

use common::boards::{described, usual, FIRST, OPTIONAL, PLAIN, RESETS, SVN};
use common::events::*;
use common::host::{cpus_at, fresh, prepared_at, returned, Host, UNTOUCHED};
use lfa::{
    function, status, Caller, Component, Cpus, Flaw, Freed, Refusal, Registers, Release, State,
    RECORD_BYTES,
};

#[test]
fn a_fresh_board_answers_version() {
    let mut host = Host::usual();
    host.returns(0, VERSION, 65536);
    let high_bits_do_not_count = 0xFFFF_FFFF_0000_0000 | function::VERSION;
    host.returns(0, [high_bits_do_not_count, 0, 0, 0, 0], 65536);
}

#[test]
fn an_unknown_number_is_not_supported() {
    let mut host = Host::usual();
    host.returns(0, [0xC400_02E7, 0, 0, 0, 0], status(1));
    host.returns(0, [0, 0, 0, 0, 0], status(1));
}

#[test]
fn features_are_the_seven_of_lfa() {
    let mut host = Host::usual();
    for number in function::VERSION..=function::CANCEL {
        host.returns(0, [function::FEATURES, number, 0, 0, 0], 0);
    }
    for number in [
        function::CPU_OFF,
        function::CPU_ON,
        0xC400_02DF,
        0xC400_02E7,
        1 << 32 | 0xC400_02E0,
    ] {
        host.returns(0, [function::FEATURES, number, 0, 0, 0], status(1));
    }
}

#[test]
fn uuid_words_have_the_lowest_byte_first() {
    let mut host = Host::usual();
    host.call(0, GET_INFO);
    let described = Caller::Returned(Registers {
        x0: 0,
        x1: 0x0706_0504_0302_0100,
        x2: 0x0F0E_0D0C_0B0A_0908,
        x3: 0b0001,
    });
    assert_eq!(host.call(0, inventory(PLAIN)), described);
}

#[test]
fn the_inventory_has_the_four_flags() {
    let mut host = Host::usual();
    host.take(image(RESETS, 1));
    host.call(0, GET_INFO);
    let flags = [0, 1, 2, 3].map(|component| match host.call(0, inventory(component)) {
        Caller::Returned(Registers { x0: 0, x3, .. }) => x3,
        other => panic!("{other:?}"),
    });
    assert_eq!(flags, [0b0001, 0b0111, 0b1001, 0b0000]);
}

#[test]
fn the_inventory_needs_info_first() {
    let mut host = Host::usual();
    let too_large = [inventory(4), inventory(1 << 32)];
    for x in too_large {
        host.returns(0, x, status(7));
    }
    host.returns(0, [function::GET_INFO, 1, 0, 0, 0], status(8));
    host.returns(0, inventory(PLAIN), status(7));
    let count = Caller::Returned(Registers {
        x1: 4,
        ..Registers::default()
    });
    assert_eq!(host.call(0, GET_INFO), count);
    assert!(host.record.is_informed());
    for x in too_large {
        host.returns(0, x, status(8));
    }
}

#[test]
fn an_old_version_is_not_primed() {
    let mut host = Host::usual();
    host.take(image(PLAIN, SVN - 1));
    assert_eq!(host.record.pending(PLAIN), Some(SVN - 1));
    host.returns(0, prime(PLAIN), status(3));
    host.take(image(PLAIN, SVN));
    assert_eq!(host.call(0, prime(PLAIN)), Caller::PrimeStarted);
    assert_eq!(host.record.held(), Cpus::of(&[0]));
}

#[test]
fn one_cpu_on_starts_at_once() {
    let mut host = Host::usual().ready(PLAIN);
    assert_eq!(host.activate(0, PLAIN), Caller::ActivationStarted);
    assert_eq!(host.record.state(), State::Together(PLAIN));
}

#[test]
fn two_on_of_four_do_not_wait_for_the_others() {
    let mut host = Host::usual().gathering(PLAIN);
    assert_eq!(host.record.state(), State::Gathering(PLAIN));
    assert_eq!(host.activate(1, PLAIN), Caller::ActivationStarted);
    assert_eq!(host.record.held(), Cpus::of(&[0, 1]));
}

#[test]
fn the_incident_a_cpu_is_not_switched_on_in_gathering() {
    let mut host = Host::usual().gathering(PLAIN);
    let before = *host.record.as_flat();
    let tables = (host.entries.clone(), host.contexts.clone());
    host.returns(1, cpu_on(2), status(6));
    assert_eq!(host.record.on(), Cpus::of(&[0, 1]));
    assert_eq!(*host.record.as_flat(), before);
    assert_eq!((host.entries, host.contexts), tables);
}

#[test]
fn cancel_looks_at_the_id_only_where_there_is_one() {
    let mut host = Host::usual();
    host.returns(0, cancel(99), 0);
    let mut host = host.ready(RESETS);
    host.returns(0, cancel(99), status(8));
    assert_eq!(host.record.state(), State::Ready(RESETS));
    host.returns(0, cancel(RESETS), 0);
    assert_eq!(host.record.state(), State::Idle);
}

#[test]
fn call_again_is_not_for_a_rendezvous() {
    let mut host = Host::usual().together(OPTIONAL);
    assert_eq!(host.tell(activate_report(OPTIONAL, 1)), Err(Refusal::CODE));
}

#[test]
fn entries_are_multiples_of_four_in_the_range() {
    for (entry, good) in [
        (0x1000, true),
        (0x1FFC, true),
        (0xFFC, false),
        (0x1FFE, false),
        (0x2000, false),
        (0x1002, false),
    ] {
        let x0 = if good { 0 } else { status(9) };
        let caller = Host::usual().call(0, [function::CPU_ON, 1, entry, 0, 0]);
        assert_eq!(caller, returned(x0), "CPU_ON at {entry:#x}");
        let caller = Host::usual()
            .ready(RESETS)
            .call(0, [function::ACTIVATE, RESETS, 0, entry, 0]);
        let started = match good {
            true => Caller::ActivationStarted,
            false => returned(status(10)),
        };
        assert_eq!(caller, started, "ACTIVATE at {entry:#x}");
    }
}

#[test]
fn a_log_has_1024_records_at_most() {
    let mut host = Host::usual();
    host.take(image(PLAIN, 5));
    let log = host.log.repeat(1024);
    assert_eq!(log.len(), 52_224);
    assert_eq!(prepared_at(&log, 1024).expect("a log").looked, 1024);
    let cpus = [Ok(Cpus::of(&[0])), Ok(Cpus::default())];
    assert_eq!(cpus_at(&log, 1024), cpus);
    let longer = host.log.repeat(1025);
    assert_eq!(longer.len(), 52_275);
    let flaw = Flaw {
        refusal: Refusal::LOG,
        place: 0,
    };
    assert_eq!(prepared_at(&longer, 0), Err(flaw));
    assert_eq!(cpus_at(&longer, 0), [Err(flaw); 2]);
}

#[test]
fn two_components_and_four_cpus_open_a_board() {
    let board = described(&usual(2, 4));
    assert_eq!(board[..2], [0x08, 0x60]);
    assert_eq!(board.len(), 60);
    let record = fresh(&board).expect("a board");
    assert_eq!((record.board().components, record.board().cpus), (2, 4));
}

#[test]
fn log_records_open_as_document_01_says() {
    let mut host = Host::of(&usual(2, 8));
    host.power(5);
    host.take(image(1, 5));
    assert_eq!(host.call(5, prime(1)), Caller::PrimeStarted);
    assert_eq!(host.log[RECORD_BYTES..][..3], [0x80, 0x01, 0xC0]);
    assert_eq!(host.log[2 * RECORD_BYTES..][..3], [0x22, 0x80, 0xC0]);
}

#[test]
fn after_a_postponement_earlier_arrivals_do_not_count() {
    let mut host = Host::usual().together(PLAIN);
    let answer = host.take(activate_report(PLAIN, 2));
    let both = Freed {
        cpus: Cpus::of(&[0, 1]),
        x0: status(2),
        x1: 0,
    };
    assert_eq!(answer.release, Release::Returned(both));
    assert_eq!(host.record.state(), State::Ready(PLAIN));
    assert_eq!(host.activate(1, PLAIN), Caller::Held);
    assert_eq!(host.activate(0, PLAIN), Caller::ActivationStarted);
}

#[test]
fn after_a_cancel_earlier_arrivals_do_not_count() {
    for component in [PLAIN, RESETS] {
        let mut host = Host::usual().powered(3).ready(component);
        assert_eq!(host.activate(0, component), Caller::Held);
        assert_eq!(host.activate(1, component), Caller::Held);
        let answer = host.take(call(2, cancel(component)));
        let both = Freed {
            cpus: Cpus::of(&[0, 1]),
            x0: status(11),
            x1: 0,
        };
        assert_eq!(answer.caller, returned(0));
        assert_eq!(answer.release, Release::Returned(both));
        assert_eq!(host.record.state(), State::Idle);
        assert!(host.record.held().is_empty());
        assert_eq!(host.record.pending(component), Some(SVN));
        let mut host = host.ready(component);
        assert_eq!(host.activate(2, component), Caller::Held);
    }
}

#[test]
fn cancel_is_no_way_out_of_dead() {
    let mut host = Host::usual().dead();
    for id in [PLAIN, 99] {
        host.returns(0, cancel(id), 0);
    }
    host.returns(0, prime(PLAIN), status(7));
    assert_eq!(host.record.state(), State::Dead);
    assert_eq!(host.record.pending(PLAIN), Some(SVN));
}

#[test]
fn a_failed_activation_stays_pending() {
    let mut host = Host::usual().together(PLAIN);
    host.take(activate_report(PLAIN, 11));
    assert_eq!(host.record.state(), State::Idle);
    assert_eq!(host.record.pending(PLAIN), Some(SVN));
}

#[test]
fn a_successful_activation_forgets_info_and_image() {
    let mut host = Host::usual();
    host.call(0, GET_INFO);
    let mut host = host.together(PLAIN);
    assert!(host.record.is_informed());
    host.take(activate_report(PLAIN, 0));
    assert!(!host.record.is_informed());
    assert_eq!(host.record.pending(PLAIN), None);
}

#[test]
fn only_the_target_of_cpu_on_is_written_into_the_tables() {
    let mut host = Host::usual();
    let answer = host.take(call(0, [function::CPU_ON, 2, 0x1234, 77, 0]));
    assert_eq!(answer.caller, returned(0));
    assert_eq!(answer.release, Release::Resumed(Cpus::of(&[2])));
    assert_eq!(host.entries, [UNTOUCHED, UNTOUCHED, 0x1234, UNTOUCHED]);
    assert_eq!(host.contexts, [UNTOUCHED, UNTOUCHED, 77, UNTOUCHED]);
}

#[test]
fn held_cpus_resume_by_entry_after_a_reset() {
    let mut host = Host::usual().together(RESETS);
    host.entries.fill(UNTOUCHED);
    host.contexts.fill(UNTOUCHED);
    let answer = host.take(activate_report(RESETS, 12));
    assert_eq!(answer.caller, Caller::Nothing);
    assert_eq!(answer.release, Release::Resumed(Cpus::of(&[0, 1])));
    assert_eq!(host.entries, [FIRST, FIRST + 4, UNTOUCHED, UNTOUCHED]);
    assert_eq!(host.contexts, [100, 101, UNTOUCHED, UNTOUCHED]);
    assert_eq!(host.log[host.log.len() - 8..], [0; 8], "word 6");
}

#[test]
fn a_fresh_record_is_idle_with_cpu_0_on() {
    let record = Host::usual().record;
    assert_eq!(record.state(), State::Idle);
    assert_eq!(record.on(), Cpus::of(&[0]));
    assert!(record.held().is_empty());
    assert!(!record.is_informed());
    assert!((0..32).all(|c| record.pending(c).is_none()));
    let optional = Component {
        uuid: core::array::from_fn(|i| i as u8 ^ 0x10),
        svn: SVN,
        capable: 1,
        may_reset: 0,
        optional: 1,
    };
    assert_eq!(record.board().component[OPTIONAL as usize], optional);
}

#[test]
fn the_replay_example() {
    let mut host = Host::usual().preparing(1);
    host.take(prime_report(1, 0));
    let found: Vec<_> = (0..=3)
        .map(|k| prepared_at(&host.log, k).expect("a log"))
        .map(|p| (p.component, p.looked))
        .collect();
    assert_eq!(found, [(None, 0), (None, 1), (None, 2), (Some(1), 1)]);
}

#[test]
fn a_full_board_gathers() {
    let mut host = Host::of(&usual(32, 64)).powered(64);
    host.take(image(1, SVN));
    assert_eq!(host.call(63, prime(1)), Caller::PrimeStarted);
    host.take(prime_report(1, 0));
    for cpu in (1..64).rev() {
        assert_eq!(host.activate(cpu, 1), Caller::Held);
    }
    assert_eq!(host.activate(0, 1), Caller::ActivationStarted);
    let answer = host.take(activate_report(1, 12));
    assert_eq!(answer.release, Release::Resumed((0..64).collect()));
    for cpu in 0..64 {
        assert_eq!(host.entries[cpu as usize], FIRST + 4 * cpu);
        assert_eq!(host.contexts[cpu as usize], 100 + cpu);
    }
}
