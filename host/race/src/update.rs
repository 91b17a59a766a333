//! The work of a real host: one whole update of each component, again and
//! again, and the log of it.

use common::boards::{usual, SVN};
use common::convert::peer_event;
use common::dice::Dice;
use common::events::*;
use common::host::Host;
use lfa::{flat, Call, Event};
use peer::{Board, MAX_RECORDS, RECORD_BYTES};

/// A board and the events that bring it back to where they found it.
pub struct Update {
    /// The packed description.
    pub board: Vec<u8>,
    /// The library's record with every CPU on and nothing pending.
    pub library_record: flat::Record,
    /// The peer's.
    pub peer_record: peer::Record,
    /// One update of each component, as the library takes it.
    pub library_events: Vec<flat::Event>,
    /// The same, as the peer does.
    pub peer_events: Vec<peer::Event>,
    /// The first records of a log of this work, as many as a log can have.
    pub log: Vec<u8>,
}

impl Update {
    pub fn new(components: u64, cpus: u64) -> Self {
        let board = board(components, cpus);
        let mut host = Host::of(&board).powered(cpus);
        let powered = host.peer.clone();
        let events = update_of_each(&board);
        while host.records() < MAX_RECORDS {
            for &event in &events {
                host.take(event);
            }
            assert_eq!(host.peer, powered, "an update leads back");
        }
        host.log.truncate(RECORD_BYTES * MAX_RECORDS);
        let library_events: Vec<flat::Event> = events.into_iter().map(Into::into).collect();
        let peer_events = library_events.iter().map(peer_event);
        Self {
            board: host.board,
            library_record: *host.record.as_flat(),
            peer_record: host.peer,
            peer_events: peer_events.map(|event| event.expect("a kind")).collect(),
            library_events,
            log: host.log,
        }
    }

    /// The call to ask the log about.
    pub fn question(&self) -> Call {
        from_cpu(0, activate(0, 0))
    }
}

/// The usual board with random UUIDs, on which every component can be updated.
fn board(components: u64, cpus: u64) -> Board {
    let mut board = usual(components, cpus);
    let mut dice = Dice::of(1, 0);
    for component in &mut board.component[..components as usize] {
        dice.fill(&mut component.uuid);
        component.capable = true;
    }
    board
}

fn update_of_each(board: &Board) -> Vec<Event> {
    (0..board.components)
        .flat_map(|id| update_of(board, id))
        .collect()
}

/// A host looks around, updates one component and powers a CPU off and on.
fn update_of(board: &Board, id: u64) -> Vec<Event> {
    let next = (id + 1) % board.components;
    let last = board.cpus - 1;
    let mut events = vec![
        call(0, VERSION),
        call(0, GET_INFO),
        call(0, inventory(id)),
        call(0, inventory(next)),
        image(id, SVN),
        call(0, prime(id)),
        prime_report(id, 0),
    ];
    if last != 0 {
        events.push(call(last, CPU_OFF));
        events.push(call(0, cpu_on(last)));
    }
    events.extend((0..board.cpus).map(|cpu| call(cpu, activate(cpu, id))));
    let by_reset = board.component[id as usize].may_reset;
    events.push(activate_report(id, if by_reset { 12 } else { 0 }));
    events
}
