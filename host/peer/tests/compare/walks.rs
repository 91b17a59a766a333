//! Long walks over all states, each event on both sides.

use crate::tally::Tally;
use common::boards::{any, any_of, described, packed};
use common::convert::*;
use common::dice::{from_env, Dice};
use common::generate::{self, junk_event, Mood};
use common::pair::{
    ask_prepared, ask_starts, ask_why, check_cpus, check_why, log, prepared_in, question,
    refused_step, same, started_by, without_x0, Pair, Tables,
};
use lfa::flat;
use peer::*;

/// A board on its way, with the log of what it accepted.
pub struct Walk {
    pub pair: Pair,
    pub board: Vec<u8>,
    pub log: Vec<u8>,
    mood: Mood,
    steps_when_dead: u64,
}

impl Walk {
    /// A walk on a board of any size.
    pub fn new(dice: &mut Dice) -> Self {
        let board = any(dice);
        Self::on(dice, board)
    }

    /// A walk on a board of the size that comes after so many walks, so that
    /// each size has its turn.
    fn in_turn(dice: &mut Dice, walks: u64) -> Self {
        let board = any_of(dice, 1 + walks / 2 % 32, 1 + walks % 64);
        Self::on(dice, board)
    }

    fn on(dice: &mut Dice, mut board: Board) -> Self {
        // Without a capable component a walk goes nowhere: seldom.
        if !dice.one_in(32) {
            let place = dice.below(board.components) as usize;
            board.component[place].capable = true;
        }
        let described = described(&board);
        let fresh = flat::fresh(&described);
        same(dice, "fresh", &fresh, &flat_fresh(Ok(board.clone())));
        Self {
            mood: Mood::any(dice, &board),
            pair: Pair {
                library: fresh.rec,
                peer: Record::fresh(board),
            },
            board: described,
            log: Vec::new(),
            steps_when_dead: dice.below(60),
        }
    }

    pub fn records(&self) -> usize {
        self.log.len() / RECORD_BYTES
    }

    /// Whether the log is full or the board has been dead for long.
    pub fn is_over(&self) -> bool {
        self.records() == MAX_RECORDS || self.steps_when_dead == 0
    }

    /// One event on both sides, counted and logged.
    pub fn step(&mut self, dice: &mut Dice, tally: &mut Tally) {
        dice.next_step();
        let before = self.pair.peer.state;
        if before == State::Dead {
            self.steps_when_dead = self.steps_when_dead.saturating_sub(1);
        }
        self.read_cpus(dice, tally);
        let event = generate::event(dice, &self.pair.peer, &self.mood);
        let read = self.read_ahead(dice, &event);
        let tables = Tables::mostly_long(dice, self.pair.peer.board.cpus);
        let (answer, form) = self.pair.step(dice, &event, &tables);
        tally.count(before, &event, &answer, self.pair.peer.state);
        if let Some(read) = read {
            // A short table is no matter of the log.
            if answer != Err(Refusal::ShortTable) {
                let started = started_by(&answer, self.pair.peer.state);
                same(dice, "starts and step", &read, &started);
                tally.count_read(read);
            }
        }
        if let Ok(answer) = answer {
            self.write(dice, &event, form, answer);
        }
    }

    /// Who is powered and held, by the log as by the record: now and then, and
    /// less often as the log grows.
    fn read_cpus(&self, dice: &mut Dice, tally: &mut Tally) {
        let (peer, place) = (&self.pair.peer, self.records());
        if dice.below(place as u64 + 2) < 2 {
            check_cpus(dice, peer, &self.log, place);
            tally.count_cpus_read(peer.state);
        }
    }

    /// What the log says, now and then, of a call that is about to come; more
    /// often where the call could start an activation, and less often as the
    /// log grows, since all of it is read each time.
    fn read_ahead(&self, dice: &mut Dice, event: &Event) -> Option<Option<u64>> {
        let Event::Call(call) = event else {
            return None;
        };
        let peer = &self.pair.peer;
        let last = matches!(peer.state, State::Ready(_) | State::Gathering(_))
            && peer.on.without(peer.held).count() == 1;
        let share = if last { 6 } else { 1 };
        if dice.below(self.records() as u64 + 2) >= share {
            return None;
        }
        let (board, log, place) = (&self.board, &self.log, self.records());
        if Function::from_x0(call.x0) == Some(Function::Activate) {
            let ask = without_x0(call);
            let why = ask_why(dice, board, log, place, &ask);
            check_why(dice, peer, log, place, &ask, why);
        }
        let read = ask_starts(dice, board, log, place, call);
        Some(read.expect("a good log"))
    }

    /// Writes the log record on both sides and keeps it.
    fn write(&mut self, dice: &mut Dice, event: &Event, form: flat::Event, answer: Answer) {
        let flat = flat_answer(&Ok(answer));
        let record = logged(event, &answer);
        // Where there was no room it is written again.
        let bytes = log(dice, form, flat, Some(record)).unwrap_or_else(|| packed(&record));
        self.log.extend_from_slice(&bytes);
    }

    /// An event of a kind that is none changes nothing, whatever else it says;
    /// a short table comes before it.
    fn unknown_kind(&self, dice: &mut Dice) {
        let event = junk_event(dice);
        let cpus = self.pair.peer.board.cpus;
        let tables = if dice.one_in(4) {
            Tables::short(dice, cpus)
        } else {
            Tables::long(dice, cpus)
        };
        let refusal = unknown_refusal(tables.refusal(cpus));
        refused_step(dice, &self.pair.library, event, &tables, refusal);
        log(dice, event, flat::Answer::default(), None);
    }

    /// The log at its end beside the state.
    fn check_log(&self, dice: &mut Dice) {
        let place = self.records();
        let prepared = ask_prepared(dice, &self.log, place).expect("a good log");
        let ready = prepared_in(self.pair.peer.state);
        same(dice, "prepared and state", &prepared.component, &ready);
        let mut longer = self.log.clone();
        longer.extend_from_within(..RECORD_BYTES.min(self.log.len()));
        let call = question(dice, &self.pair.peer);
        let _ = ask_starts(dice, &self.board, &longer, place, &call);
    }
}

#[test]
fn walks() {
    let mut dice = Dice::new(1);
    let mut tally = Tally::default();
    let events = from_env("COMPARE_EVENTS", 1_000_000);
    for walks in 0.. {
        if tally.events >= events {
            break;
        }
        let mut walk = match walks % 2 {
            0 => Walk::in_turn(&mut dice, walks / 2),
            _ => Walk::new(&mut dice),
        };
        tally.count_board(&walk.pair.peer.board);
        let length = 1 + dice.below(2500);
        for _ in 0..length {
            walk.step(&mut dice, &mut tally);
            if dice.one_in(200) {
                walk.unknown_kind(&mut dice);
            }
            if walk.is_over() {
                break;
            }
        }
        walk.check_log(&mut dice);
    }
    tally.check();
}
