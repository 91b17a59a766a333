//! Records that are not well formed: refused with 9, and nothing changes.

use common::boards::{FIRST, OPTIONAL, PLAIN, RESETS};
use common::convert::peer_record;
use common::events::{call, VERSION};
use common::host::{in_every_state, Host};
use lfa::{flat, Cpus, Record, Refusal};

/// With this change the record is refused, whatever the tables are.
fn damaged(host: &Host, what: &str, change: impl FnOnce(&mut flat::Record)) {
    let mut rec = *host.record.as_flat();
    change(&mut rec);
    let before = rec;
    let peer = peer_record(&rec);
    assert!(!peer.is_some_and(|peer| peer.is_well_formed()), "{what}");
    assert_eq!(
        Record::from_flat(rec),
        Err(Refusal::NOT_WELL_FORMED),
        "{what}"
    );
    for length in [4, 0] {
        let (mut entries, mut contexts) = (vec![1; length], vec![2; length]);
        let event = call(0, VERSION).into();
        let answer = flat::step(&mut rec, event, &mut entries, &mut contexts);
        assert_eq!(answer.refusal, 9, "{what}");
        assert_eq!(rec, before, "{what}");
        assert_eq!(
            (entries, contexts),
            (vec![1; length], vec![2; length]),
            "{what}"
        );
    }
}

#[test]
fn a_kept_record_comes_back() {
    for host in in_every_state(RESETS) {
        assert_eq!(Record::from_flat(*host.record.as_flat()), Ok(host.record));
    }
}

#[test]
fn flags_are_0_or_1() {
    let host = Host::usual();
    for value in [2, 3, 128, 255] {
        for i in 0..32 {
            damaged(&host, "pending", |r| r.pending[i] = value);
            damaged(&host, "capable", |r| r.board.component[i].capable = value);
            damaged(&host, "may_reset", |r| {
                r.board.component[i].may_reset = value
            });
            damaged(&host, "optional", |r| r.board.component[i].optional = value);
        }
    }
    for value in [2, 256, 1 << 32, u64::MAX] {
        damaged(&host, "informed", |r| r.informed = value);
    }
}

#[test]
fn states_are_0_to_9() {
    for state in [10, 11, 255, 256, 1 << 32, u64::MAX] {
        damaged(&Host::usual(), "idle", |r| r.state = state);
        damaged(&Host::usual().ready(PLAIN), "ready", |r| r.state = state);
        damaged(&Host::usual().dead(), "dead", |r| r.state = state);
    }
}

#[test]
fn idle_and_dead_have_no_component() {
    for subject in [1, 31, 32, u64::MAX] {
        damaged(&Host::usual(), "idle", |r| r.subject = subject);
        damaged(&Host::usual().dead(), "dead", |r| r.subject = subject);
    }
}

#[test]
fn the_states_component_is_pending() {
    let withdrawn = Host::usual().powered(2).withdrawn(PLAIN);
    for host in [Host::usual().ready(PLAIN), withdrawn] {
        for subject in [RESETS, 31, 32, u64::MAX] {
            damaged(&host, "subject", |r| r.subject = subject);
        }
        damaged(&host, "version below the SVN", |r| r.version[0] = 4);
    }
}

#[test]
fn counts_are_in_limits() {
    let host = Host::usual();
    for count in [0, 3, 6, 33, u64::MAX] {
        damaged(&host, "components", |r| r.board.components = count);
    }
    for count in [0, 65, 1 << 32, u64::MAX] {
        damaged(&host, "cpus", |r| r.board.cpus = count);
    }
}

#[test]
fn a_board_stays_a_board() {
    let host = Host::usual();
    damaged(&host, "range", |r| r.board.first = r.board.last + 1);
    damaged(&host, "both flags", |r| r.board.component[1].optional = 1);
    damaged(&host, "UUID twice", |r| {
        r.board.component[1].uuid = r.board.component[0].uuid
    });
    damaged(&host, "SVN past the count", |r| {
        r.board.component[4].svn = 1
    });
    damaged(&host, "UUID past the count", |r| {
        r.board.component[31].uuid[15] = 1
    });
}

#[test]
fn only_capable_components_are_pending() {
    let host = Host::usual();
    damaged(&host, "not capable", |r| r.pending[3] = 1);
    damaged(&host, "past the count", |r| r.pending[4] = 1);
    damaged(&host, "version of none", |r| r.version[0] = 1);
}

#[test]
fn only_existing_cpus_are_on() {
    let host = Host::usual();
    damaged(&host, "none on", |r| r.on = Cpus::default());
    damaged(&host, "past the count", |r| r.on = Cpus::of(&[0, 4]));
}

#[test]
fn held_cpus_fit_the_state() {
    let held = |cpus: &'static [u64]| move |r: &mut flat::Record| r.held = Cpus::of(cpus);
    damaged(&Host::usual(), "idle", held(&[0]));
    damaged(&Host::usual().preparing(PLAIN), "preparing", held(&[]));
    damaged(&Host::usual().preparing(PLAIN), "preparing", held(&[1]));
    let withdrawn = Host::usual().powered(2).withdrawn(PLAIN);
    damaged(&withdrawn, "withdrawn", held(&[]));
    damaged(&withdrawn, "withdrawn", held(&[2]));
    damaged(&withdrawn, "withdrawn", held(&[0, 1]));
    damaged(&Host::usual().gathering(PLAIN), "gathering", held(&[]));
    damaged(&Host::usual().gathering(PLAIN), "gathering", held(&[0, 1]));
    damaged(&Host::usual().gathering(PLAIN), "gathering", held(&[2]));
    damaged(&Host::usual().together(PLAIN), "together", held(&[0]));
    damaged(&Host::usual().alone(), "alone", held(&[0, 1]));
}

#[test]
fn entries_are_kept_only_where_they_count() {
    let gathering = Host::usual().gathering(RESETS);
    damaged(&gathering, "bad entry", |r| r.entry[0] = FIRST + 2);
    damaged(&gathering, "no entry", |r| r.entry[0] = 0);
    damaged(&gathering, "entry of another", |r| r.entry[1] = FIRST);
    damaged(&gathering, "context of another", |r| r.context[63] = 1);
    damaged(&Host::usual().gathering(PLAIN), "no reset", |r| {
        r.context[0] = 1
    });
}

#[test]
fn alone_needs_optional() {
    damaged(&Host::usual().alone(), "alone", |r| {
        r.board.component[OPTIONAL as usize].optional = 0;
    });
    damaged(&Host::usual().half_activated(), "half-activated", |r| {
        r.board.component[OPTIONAL as usize].optional = 0;
    });
}
