//! Two sides timed in turns.

use std::time::{Duration, Instant};

/// How long to measure.
#[derive(Clone, Copy)]
pub struct Pace {
    /// Rounds, each of which times both sides.
    pub rounds: usize,
    /// The least time of one side in a round.
    pub slice: Duration,
}

/// Seconds for one unit of work, of each side.
#[derive(Clone, Copy)]
pub struct Times {
    pub library: f64,
    pub peer: f64,
}

impl Times {
    /// The library's time over the peer's.
    pub fn ratio(self) -> f64 {
        self.library / self.peer
    }
}

/// The least time of each side, which says most on a machine that does other
/// things too. The sides take turns at going first, so that these fall on both.
pub fn race(pace: Pace, units: usize, mut library: impl FnMut(), mut peer: impl FnMut()) -> Times {
    let mut least = Times {
        library: f64::INFINITY,
        peer: f64::INFINITY,
    };
    for round in 0..pace.rounds {
        if round % 2 == 0 {
            least.library = least.library.min(timed(pace.slice, &mut library));
            least.peer = least.peer.min(timed(pace.slice, &mut peer));
        } else {
            least.peer = least.peer.min(timed(pace.slice, &mut peer));
            least.library = least.library.min(timed(pace.slice, &mut library));
        }
    }
    Times {
        library: least.library / units as f64,
        peer: least.peer / units as f64,
    }
}

/// Seconds for one run, over as many runs as fill the slice. The first run
/// brings things into the caches and is not timed.
fn timed(slice: Duration, run: &mut impl FnMut()) -> f64 {
    run();
    let start = Instant::now();
    let mut runs = 0.0;
    loop {
        run();
        runs += 1.0;
        let elapsed = start.elapsed();
        if elapsed >= slice {
            return elapsed.as_secs_f64() / runs;
        }
    }
}
