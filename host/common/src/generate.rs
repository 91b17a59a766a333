//! Events: mostly with a meaning, sometimes without.

use crate::boards::count;
use crate::dice::Dice;
use lfa::flat;
use peer::*;

/// The nine function numbers.
pub const FUNCTIONS: [Function; 9] = [
    Function::Version,
    Function::Features,
    Function::GetInfo,
    Function::GetInventory,
    Function::Prime,
    Function::Activate,
    Function::Cancel,
    Function::CpuOff,
    Function::CpuOn,
];

/// The codes of prime reports.
pub const PRIME_CODES: [u64; 6] = [0, 1, 3, 4, 6, 11];
/// The codes of activate reports.
pub const ACTIVATE_CODES: [u64; 10] = [0, 1, 2, 3, 4, 5, 6, 9, 11, 12];

/// An event with every field filled at random; the kind is unknown.
pub fn junk_event(dice: &mut Dice) -> flat::Event {
    let kind = match dice.below(4) {
        0 => 0,
        1 => 5 + dice.below(4),
        2 => 1 << 32 | dice.below(5),
        _ => dice.word() | 8,
    };
    let call = flat::Call {
        cpu: dice.word(),
        x0: dice.word(),
        x1: dice.word(),
        x2: dice.word(),
        x3: dice.word(),
        x4: dice.word(),
    };
    let report = flat::Report {
        component: dice.word(),
        code: dice.word(),
    };
    let image = flat::Image {
        component: dice.word(),
        version: dice.word() as u32,
    };
    flat::Event {
        kind,
        call,
        report,
        image,
    }
}

/// How a walk goes.
pub struct Mood {
    /// How many CPUs should be on.
    crew: u64,
    /// One event in so many does not try to move on.
    noise: u64,
}

impl Mood {
    pub fn any(dice: &mut Dice, board: &Board) -> Self {
        Self {
            crew: count(dice, board.cpus).min(board.cpus),
            noise: dice.one_of(&[1, 2, 2, 4, 4, 8, 32, 128]),
        }
    }
}

/// The next event of a walk.
pub fn event(dice: &mut Dice, record: &Record, mood: &Mood) -> Event {
    if dice.one_in(mood.noise) {
        noise(dice, record)
    } else {
        onward(dice, record, mood)
    }
}

/// Any event, with or without a meaning. Where a job runs, more of them are
/// reports, since calls do not end it.
pub fn noise(dice: &mut Dice, record: &Record) -> Event {
    let job = match record.state {
        State::Preparing(_) | State::Withdrawn(_) => 0,
        State::Together(_) | State::Alone(_) => 1,
        _ => 15,
    };
    let kind = if dice.one_in(8) { job } else { dice.below(16) };
    match kind {
        0 => Event::Prime(report(dice, record)),
        1 => Event::Activate(report(dice, record)),
        2 => Event::Image(image(dice, record)),
        _ => Event::Call(any_call(dice, record)),
    }
}

/// An event that moves the state on.
fn onward(dice: &mut Dice, record: &Record, mood: &Mood) -> Event {
    let free = record.on.without(record.held);
    let short = record.on.count() < mood.crew;
    let own = record.state.component().unwrap_or(0);
    match record.state {
        State::Idle | State::Ready(_) if short && dice.one_in(2) => power_on(dice, record, free),
        State::Idle => match pending(dice, record) {
            Some(id) if !dice.one_in(8) => simple(dice, free, Function::Prime, id),
            _ => Event::Image(image(dice, record)),
        },
        State::HalfPrepared(_) => simple(dice, free, Function::Prime, own),
        State::Preparing(_) if !free.is_empty() && dice.one_in(8) => {
            simple(dice, free, Function::Cancel, own)
        }
        // Few come here, so there is time to try calls.
        State::Alone(_) | State::HalfActivated(_) | State::Withdrawn(_) if dice.one_in(2) => {
            Event::Call(any_call(dice, record))
        }
        State::Preparing(_) | State::Withdrawn(_) => Event::Prime(Report {
            component: own,
            code: prime_code(dice, record.state),
        }),
        State::Together(_) | State::Alone(_) => Event::Activate(Report {
            component: own,
            code: activate_code(dice),
        }),
        State::Ready(_) | State::Gathering(_) | State::HalfActivated(_) => {
            arrive(dice, record, free)
        }
        State::Dead => noise(dice, record),
    }
}

/// One of the pending components.
fn pending(dice: &mut Dice, record: &Record) -> Option<u64> {
    dice.member((0..record.board.components).filter(|&id| record.pending[id as usize]))
}

/// Mostly done, so that walks get on. Where it was withdrawn, each as often.
fn prime_code(dice: &mut Dice, state: State) -> u64 {
    match state {
        State::Preparing(_) if !dice.one_in(4) => 0,
        _ => dice.one_of(&PRIME_CODES),
    }
}

/// Dead is the end of a walk: come to it seldom.
fn activate_code(dice: &mut Dice) -> u64 {
    match dice.one_of(&ACTIVATE_CODES) {
        5 if !dice.one_in(4) => 1,
        code => code,
    }
}

fn simple(dice: &mut Dice, from: CpuSet, function: Function, id: u64) -> Event {
    Event::Call(Call {
        cpu: dice.member(from.members()).unwrap_or(0),
        x0: function.number(),
        x1: id,
        ..Call::default()
    })
}

fn power_on(dice: &mut Dice, record: &Record, from: CpuSet) -> Event {
    let off = CpuSet::below(record.board.cpus).without(record.on);
    Event::Call(Call {
        cpu: dice.member(from.members()).unwrap_or(0),
        x0: Function::CpuOn.number(),
        x1: dice.member(off.members()).unwrap_or(0),
        x2: good_entry(dice, &record.board),
        x3: dice.word(),
        x4: 0,
    })
}

/// ACTIVATE from a CPU that has not arrived yet.
fn arrive(dice: &mut Dice, record: &Record, from: CpuSet) -> Event {
    let own = record.state.component().unwrap_or(0);
    let optional = record.board.component[own as usize].optional;
    let skip = match record.state {
        State::Ready(_) => optional && dice.one_in(2),
        State::HalfActivated(_) => true,
        _ => false,
    };
    Event::Call(Call {
        cpu: dice.member(from.members()).unwrap_or(0),
        x0: Function::Activate.number(),
        x1: own,
        x2: skip.into(),
        x3: good_entry(dice, &record.board),
        x4: dice.word(),
    })
}

/// A valid entry, if the range has one.
fn good_entry(dice: &mut Dice, board: &Board) -> u64 {
    let size = board.last - board.first;
    let offset = match size.checked_add(1) {
        Some(end) => dice.below(end),
        None => dice.word(),
    };
    let entry = (board.first + offset) & !3;
    match entry.checked_add(4) {
        Some(next) if entry < board.first => next,
        _ => entry,
    }
}

/// An entry at or past the limits, or a valid one.
pub fn entry(dice: &mut Dice, board: &Board) -> u64 {
    match dice.below(16) {
        0 => board.first.wrapping_sub(dice.below(9)),
        1 => board.first.wrapping_add(dice.below(9)),
        2 => board.last.wrapping_sub(dice.below(9)),
        3 => board.last.wrapping_add(dice.below(9)),
        4 => good_entry(dice, board) | dice.below(4),
        5 => dice.word(),
        6 => 0,
        _ => good_entry(dice, board),
    }
}

/// The number, or one that is equal in its low part only.
fn whole_or_high(dice: &mut Dice, number: u64) -> u64 {
    match dice.below(32) {
        0 => number | 1 << 32,
        1 => number | 1 << 63,
        2 => number | dice.word() << 32,
        3 => number + 256,
        _ => number,
    }
}

/// A component's number: the state's, any, or one that is none.
pub fn id(dice: &mut Dice, record: &Record) -> u64 {
    let board = &record.board;
    let number = match (dice.below(16), record.state.component()) {
        (0, _) => board.components + dice.below(3),
        (1, _) => dice.below(34),
        (2, _) => return dice.word(),
        (3..=10, Some(own)) => own,
        _ => dice.below(board.components),
    };
    whole_or_high(dice, number)
}

/// A CPU's number, mostly of one that may call.
fn cpu(dice: &mut Dice, record: &Record) -> u64 {
    let free = dice.member(record.on.without(record.held).members());
    match (dice.below(32), free) {
        (0, _) => record.board.cpus + dice.below(3),
        (1, _) => 60 + dice.below(8),
        (2, _) => dice.word(),
        (3, Some(cpu)) => whole_or_high(dice, cpu),
        (4..=24, Some(cpu)) => cpu,
        _ => dice.below(record.board.cpus),
    }
}

/// A function number in the low half, now and then a neighbour of one.
fn function_number(dice: &mut Dice) -> u64 {
    let number = dice.one_of(&FUNCTIONS).number();
    match dice.below(32) {
        0 => number + 1,
        1 => number - 1,
        2 => number ^ 0x4000_0000,
        3 => dice.below(1 << 32),
        _ => number,
    }
}

/// A call with arguments that mostly suit its function.
pub fn any_call(dice: &mut Dice, record: &Record) -> Call {
    let number = function_number(dice);
    let high = match dice.below(8) {
        0 => dice.word() << 32,
        1 => 1 << 32,
        _ => 0,
    };
    let mut call = Call {
        cpu: cpu(dice, record),
        x0: number | high,
        ..Call::default()
    };
    if dice.one_in(2) {
        call.x1 = dice.word();
        call.x2 = dice.word();
        call.x3 = dice.word();
        call.x4 = dice.word();
    }
    if !dice.one_in(32) {
        set_arguments(dice, record, &mut call);
    }
    call
}

/// An ACTIVATE that mostly gets past the first rules.
pub fn any_activate(dice: &mut Dice, record: &Record) -> Activate {
    let flags = dice.one_of(&[0, 0, 0, 1, 1, 1, 2, 3]);
    Activate {
        cpu: cpu(dice, record),
        x1: id(dice, record),
        x2: whole_or_high(dice, flags),
        x3: entry(dice, &record.board),
        x4: dice.word(),
    }
}

/// Gives a call the arguments of its function.
fn set_arguments(dice: &mut Dice, record: &Record, call: &mut Call) {
    let Some(function) = Function::from_x0(call.x0) else {
        return;
    };
    match function {
        Function::Version | Function::CpuOff => {}
        Function::Features => {
            let number = function_number(dice);
            call.x1 = whole_or_high(dice, number);
        }
        Function::GetInfo => {
            let selector = dice.below(8) / 6;
            call.x1 = whole_or_high(dice, selector);
        }
        Function::GetInventory | Function::Prime | Function::Cancel => {
            call.x1 = id(dice, record);
        }
        Function::Activate => {
            call.x1 = id(dice, record);
            let flags = dice.one_of(&[0, 0, 0, 1, 1, 1, 2, 3]);
            call.x2 = whole_or_high(dice, flags);
            call.x3 = entry(dice, &record.board);
        }
        Function::CpuOn => {
            let target = dice.below(record.board.cpus + 1);
            call.x1 = whole_or_high(dice, target);
            call.x2 = entry(dice, &record.board);
        }
    }
}

fn report(dice: &mut Dice, record: &Record) -> Report {
    let code = match dice.below(16) {
        0 => dice.word(),
        1 => dice.below(70),
        2 => activate_code(dice) + 64,
        _ => activate_code(dice),
    };
    Report {
        component: id(dice, record),
        code: whole_or_high(dice, code),
    }
}

/// An image, mostly at or above the SVN.
fn image(dice: &mut Dice, record: &Record) -> Image {
    let component = id(dice, record);
    let place = (component % record.board.components) as usize;
    let svn = record.board.component[place].svn;
    let version = match dice.below(16) {
        0 => 0,
        1 => u32::MAX,
        2 => dice.word() as u32,
        3 => svn.wrapping_sub(1),
        4 => svn.wrapping_add(1),
        _ => svn,
    };
    Image { component, version }
}
