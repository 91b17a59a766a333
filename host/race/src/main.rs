//! The library beside the peer: events, replayed records and log bytes a
//! second, as a Markdown table. With the argument `quick`, few short rounds.

mod turns;
mod update;

use common::convert::peer_call;
use lfa::flat;
use peer::{prepared_at, starts_at, MAX_CPUS, MAX_RECORDS};
use std::hint::black_box;
use std::time::Duration;
use turns::{race, Pace, Times};
use update::Update;

const FULL: Pace = Pace {
    rounds: 40,
    slice: Duration::from_millis(2),
};
const QUICK: Pace = Pace {
    rounds: 3,
    slice: Duration::from_millis(1),
};

const SIZES_OF_CPUS: [u64; 3] = [1, 8, 64];
const SIZES_OF_COMPONENTS: [u64; 3] = [1, 8, 32];

fn main() {
    let pace = match std::env::args().nth(1).as_deref() {
        None => FULL,
        Some("quick") => QUICK,
        Some(other) => panic!("no such argument: {other}"),
    };
    println!(
        "The least time of {} rounds. A ratio is the library's time over the peer's.\n",
        pace.rounds
    );
    print_head();
    for cpus in SIZES_OF_CPUS {
        for components in SIZES_OF_COMPONENTS {
            let update = Update::new(components, cpus);
            let events = events(pace, &update);
            let records = records(pace, &update);
            let bytes = bytes(pace, &update);
            print_row(cpus, components, [events, records, bytes]);
        }
    }
}

/// Events of whole updates. Both records lie where the run before left them,
/// which is where the events start.
fn events(pace: Pace, update: &Update) -> Times {
    let mut flat_record = update.library_record;
    let mut record = update.peer_record.clone();
    let (mut entries, mut contexts) = ([0; MAX_CPUS], [0; MAX_CPUS]);
    let (mut flat_entries, mut flat_contexts) = (entries, contexts);
    let library = || {
        for &event in &update.library_events {
            let (entries, contexts) = (&mut flat_entries, &mut flat_contexts);
            let answer = flat::step(&mut flat_record, black_box(event), entries, contexts);
            assert_eq!(black_box(answer).refusal, 0);
        }
    };
    let peer = || {
        for event in &update.peer_events {
            let answer = record.step(black_box(event), &mut entries, &mut contexts);
            assert!(black_box(answer).is_ok());
        }
    };
    race(pace, update.peer_events.len(), library, peer)
}

/// Records of a full log, replayed to tell what starts at its end.
fn records(pace: Pace, update: &Update) -> Times {
    let call = update.question();
    let (board, log) = (&update.board[..], &update.log[..]);
    let library = || {
        let started = flat::starts(board, black_box(log), MAX_RECORDS, call);
        assert_eq!(black_box(started).refusal, 0);
    };
    let peer = || {
        let started = starts_at(board, black_box(log), MAX_RECORDS, &peer_call(&call));
        assert!(black_box(started).is_ok());
    };
    race(pace, MAX_RECORDS, library, peer)
}

/// Bytes of a full log, read to tell what is prepared at its end.
fn bytes(pace: Pace, update: &Update) -> Times {
    let log = &update.log[..];
    let library = || {
        let prepared = flat::prepared(black_box(log), MAX_RECORDS);
        assert_eq!(black_box(prepared).refusal, 0);
    };
    let peer = || {
        let prepared = prepared_at(black_box(log), MAX_RECORDS);
        assert!(black_box(prepared).is_ok());
    };
    race(pace, log.len(), library, peer)
}

fn print_head() {
    print!("| CPUs | Components |");
    for what in ["Events/s", "Records replayed/s", "Log bytes read/s"] {
        print!(" {what}, library | {what}, peer | Ratio |");
    }
    println!("\n|{}", "---:|".repeat(11));
}

fn print_row(cpus: u64, components: u64, columns: [Times; 3]) {
    print!("| {cpus} | {components} |");
    for times in columns {
        let (library, peer) = (rate(times.library), rate(times.peer));
        print!(" {library} | {peer} | {:.2} |", times.ratio());
    }
    println!();
}

/// How often in a second, in millions.
fn rate(seconds: f64) -> String {
    format!("{:.2} M", 1e-6 / seconds)
}
