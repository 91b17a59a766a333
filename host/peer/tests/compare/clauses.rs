//! Every clause of a well-formed record, each with what breaks it.

use common::convert::{flat_cpus, peer_cpus, STATES};
use common::dice::Dice;
use lfa::flat;
use peer::{CpuSet, MAX_COMPONENTS, MAX_CPUS};
use std::ops::Range;

/// Breaks a record so that it is not well formed, where it can.
pub type Breaker = fn(&mut Dice, &mut flat::Record) -> Option<()>;

/// Every clause of a well formed record, by name.
pub const CLAUSES: [(&str, Breaker); 47] = [
    ("no component", |_, r| {
        r.board.components = 0;
        Some(())
    }),
    ("too many components", |dice, r| {
        r.board.components = large(dice, 32);
        Some(())
    }),
    ("no CPU", |_, r| {
        r.board.cpus = 0;
        Some(())
    }),
    ("too many CPUs", |dice, r| {
        r.board.cpus = large(dice, 64);
        Some(())
    }),
    ("first above last", |dice, r| {
        r.board.last = r.board.last.min(u64::MAX - 1);
        r.board.first = r.board.last + 1 + dice.below(u64::MAX - r.board.last);
        Some(())
    }),
    ("version where nothing is pending", |dice, r| {
        let place = dice.member(existing(r, 0))?;
        r.version[place as usize] = nonzero(dice) as u32 | 1;
        Some(())
    }),
    ("entry of a CPU that is not held", |dice, r| {
        let cpu = dice.member(cpus(r).without(held(r)).members())?;
        r.entry[cpu as usize] = good_entry(r)?.max(4);
        Some(())
    }),
    ("context of a CPU that is not held", |dice, r| {
        let cpu = dice.member(cpus(r).without(held(r)).members())?;
        r.context[cpu as usize] = nonzero(dice);
        Some(())
    }),
    ("entry of a CPU held without may_reset", |dice, r| {
        let cpu = held_without_entry(dice, r)?;
        r.entry[cpu] = good_entry(r)?.max(4);
        Some(())
    }),
    ("context of a CPU held without may_reset", |dice, r| {
        let cpu = held_without_entry(dice, r)?;
        r.context[cpu] = nonzero(dice);
        Some(())
    }),
    ("entry past the CPUs", |dice, r| {
        let cpu = dice.member(past_cpus(r))?;
        r.entry[cpu as usize] = nonzero(dice);
        Some(())
    }),
    ("context past the CPUs", |dice, r| {
        let cpu = dice.member(past_cpus(r))?;
        r.context[cpu as usize] = nonzero(dice);
        Some(())
    }),
    ("UUID past the components", |dice, r| {
        let byte = dice.place(16);
        past(dice, r)?.uuid[byte] = 1;
        Some(())
    }),
    ("SVN past the components", |dice, r| {
        let svn = 1 << dice.below(32);
        past(dice, r)?.svn = svn;
        Some(())
    }),
    ("capable past the components", |dice, r| {
        past(dice, r)?.capable = 1;
        Some(())
    }),
    ("may_reset past the components", |dice, r| {
        past(dice, r)?.may_reset = 1;
        Some(())
    }),
    ("optional past the components", |dice, r| {
        past(dice, r)?.optional = 1;
        Some(())
    }),
    ("pending past the components", |dice, r| {
        let place = past_place(dice, r)?;
        r.pending[place] = 1;
        Some(())
    }),
    ("version past the components", |dice, r| {
        let place = past_place(dice, r)?;
        r.version[place] = 1 << dice.below(32);
        Some(())
    }),
    ("optional with may_reset", |dice, r| {
        let component = any_component(dice, r);
        component.optional = 1;
        component.may_reset = 1;
        Some(())
    }),
    ("UUID twice", |dice, r| {
        let one = dice.below(r.board.components) as usize;
        let others = (0..r.board.components).filter(|&other| other != one as u64);
        let other = dice.member(others)? as usize;
        r.board.component[one].uuid = r.board.component[other].uuid;
        Some(())
    }),
    ("CPU on that does not exist", |dice, r| {
        r.on = flat_cpus(on(r).with(dice.member(past_cpus(r))?));
        Some(())
    }),
    ("no CPU on", |_, r| {
        r.on = flat::Cpus::default();
        hold(r, CpuSet::default());
        Some(())
    }),
    ("pending without capable", |dice, r| {
        let place = dice.member(existing(r, 1))?;
        r.board.component[place as usize].capable = 0;
        Some(())
    }),
    ("not capable but pending", |dice, r| {
        let place = dice.below(r.board.components) as usize;
        r.board.component[place].capable = 0;
        r.pending[place] = 1;
        Some(())
    }),
    ("state's component does not exist", |dice, r| {
        subject(r)?;
        r.subject = large(dice, r.board.components - 1);
        Some(())
    }),
    ("state's component is not pending", |_, r| {
        let place = subject(r)?;
        r.pending[place] = 0;
        r.version[place] = 0;
        Some(())
    }),
    ("state's image is below the SVN", |_, r| {
        let place = subject(r)?;
        let svn = &mut r.board.component[place].svn;
        *svn = (*svn).max(1);
        r.version[place] = *svn - 1;
        Some(())
    }),
    ("CPU held in a state that holds none", |dice, r| {
        let cpu = dice.member(on(r).members())?;
        let none = matches!(r.state, 0 | 2 | 3 | 7 | 8);
        none.then(|| hold(r, CpuSet::only(cpu)))
    }),
    ("no CPU held in preparing", |_, r| none_held(r, 1)),
    ("no CPU held in gathering", |_, r| none_held(r, 4)),
    ("no CPU held in together", |_, r| none_held(r, 5)),
    ("no CPU held in alone", |_, r| none_held(r, 6)),
    ("no CPU held in withdrawn", |_, r| none_held(r, 9)),
    ("two CPUs held in preparing", |dice, r| two_held(dice, r, 1)),
    ("two CPUs held in alone", |dice, r| two_held(dice, r, 6)),
    ("two CPUs held in withdrawn", |dice, r| two_held(dice, r, 9)),
    ("all CPUs held in gathering", |_, r| {
        (r.state == 4).then(|| hold(r, on(r)))
    }),
    ("not all CPUs held in together", |dice, r| {
        let free = dice.member(on(r).members())?;
        (r.state == 5).then(|| hold(r, held(r).without(CpuSet::only(free))))
    }),
    ("held CPU is off", |dice, r| {
        let off = dice.member(cpus(r).without(on(r)).members())?;
        let held = match r.state {
            1 | 6 | 9 => CpuSet::default(),
            4 | 5 => held(r),
            _ => return None,
        };
        hold(r, held.with(off));
        Some(())
    }),
    ("alone without optional", |_, r| {
        r.board.component[subject(r)?].optional = 0;
        (r.state == 6).then_some(())
    }),
    ("half-activated without optional", |_, r| {
        r.board.component[subject(r)?].optional = 0;
        (r.state == 7).then_some(())
    }),
    ("entry of a held CPU is bad", |dice, r| {
        let cpu = dice.member(held(r).members())? as usize;
        r.entry[cpu] = bad_entry(dice, r);
        keeps_entries(r).then_some(())
    }),
    ("flag of 2 or more", |dice, r| {
        let flag = 2 + dice.below(254) as u8;
        let component = any_component(dice, r);
        *dice_flag(dice, component) = flag;
        Some(())
    }),
    ("pending or noted GET_INFO of 2 or more", |dice, r| {
        if dice.one_in(2) {
            r.informed = large(dice, 1);
        } else {
            r.pending[dice.place(MAX_COMPONENTS)] = 2 + dice.below(254) as u8;
        }
        Some(())
    }),
    ("state of 10 or more", |dice, r| {
        r.state = large(dice, STATES as u64 - 1);
        Some(())
    }),
    ("component in idle or dead", |dice, r| {
        r.subject = nonzero(dice);
        matches!(r.state, 0 | 8).then_some(())
    }),
];

/// A number above the limit, near or far.
pub fn large(dice: &mut Dice, limit: u64) -> u64 {
    match dice.below(4) {
        0 => limit + 1,
        1 => limit + 1 + dice.below(100),
        2 => 1 << 32 | dice.below(limit + 1),
        _ => limit.saturating_add(dice.word()).max(limit + 1),
    }
}

/// A small or large number other than 0.
pub fn nonzero(dice: &mut Dice) -> u64 {
    match dice.below(3) {
        0 => 1 << dice.below(64),
        1 => 1 + dice.below(64),
        _ => dice.word() | 1,
    }
}

/// The CPUs that the board has.
fn cpus(r: &flat::Record) -> CpuSet {
    CpuSet::below(r.board.cpus)
}

/// The CPUs that the board has not.
fn past_cpus(r: &flat::Record) -> Range<u64> {
    r.board.cpus..MAX_CPUS as u64
}

fn on(r: &flat::Record) -> CpuSet {
    peer_cpus(r.on)
}

fn held(r: &flat::Record) -> CpuSet {
    peer_cpus(r.held)
}

/// The components that the board has with this number as their pending flag.
fn existing(r: &flat::Record, pending: u8) -> impl Iterator<Item = u64> + Clone + '_ {
    (0..r.board.components).filter(move |&place| r.pending[place as usize] == pending)
}

pub fn any_component<'r>(dice: &mut Dice, r: &'r mut flat::Record) -> &'r mut flat::Component {
    &mut r.board.component[dice.below(r.board.components) as usize]
}

pub fn dice_flag<'c>(dice: &mut Dice, component: &'c mut flat::Component) -> &'c mut u8 {
    match dice.below(3) {
        0 => &mut component.capable,
        1 => &mut component.may_reset,
        _ => &mut component.optional,
    }
}

/// A place past the components, if there is one.
fn past_place(dice: &mut Dice, r: &flat::Record) -> Option<usize> {
    let place = dice.member(r.board.components..MAX_COMPONENTS as u64)?;
    Some(place as usize)
}

fn past<'r>(dice: &mut Dice, r: &'r mut flat::Record) -> Option<&'r mut flat::Component> {
    let place = past_place(dice, r)?;
    Some(&mut r.board.component[place])
}

/// The state's component, if it has one.
fn subject(r: &flat::Record) -> Option<usize> {
    matches!(r.state, 1..=7 | 9).then_some(r.subject as usize)
}

/// Whether held CPUs have entries.
pub fn keeps_entries(r: &flat::Record) -> bool {
    let may_reset = subject(r).is_some_and(|place| r.board.component[place].may_reset == 1);
    may_reset && matches!(r.state, 4 | 5)
}

fn held_without_entry(dice: &mut Dice, r: &flat::Record) -> Option<usize> {
    let cpu = dice.member(held(r).members())?;
    (!keeps_entries(r)).then_some(cpu as usize)
}

/// The lowest valid entry, if there is one.
pub fn good_entry(r: &flat::Record) -> Option<u64> {
    let entry = r.board.first.checked_next_multiple_of(4)?;
    (entry <= r.board.last).then_some(entry)
}

/// An entry that is not valid.
fn bad_entry(dice: &mut Dice, r: &flat::Record) -> u64 {
    let board = &r.board;
    let unaligned = dice.word() | 1 << dice.below(2);
    match dice.below(4) {
        0 if board.first > 0 => (board.first - 1) & !3,
        1 => match board.last.checked_add(1) {
            Some(next) => next.checked_next_multiple_of(4).unwrap_or(unaligned),
            None => unaligned,
        },
        2 => board.first & !3 | 1 << dice.below(2),
        _ => unaligned,
    }
}

/// In this state, nobody held.
fn none_held(r: &mut flat::Record, state: u64) -> Option<()> {
    (r.state == state).then(|| hold(r, CpuSet::default()))
}

/// In this state, which holds one CPU, another one held as well.
fn two_held(dice: &mut Dice, r: &mut flat::Record, state: u64) -> Option<()> {
    let other = dice.member(on(r).without(held(r)).members())?;
    (r.state == state).then(|| hold(r, held(r).with(other)))
}

/// Sets who is held, with nothing else wrong: entries are kept just for them.
fn hold(r: &mut flat::Record, held: CpuSet) {
    r.held = flat_cpus(held);
    let entry = good_entry(r).unwrap_or(0);
    let keeps = keeps_entries(r);
    for cpu in 0..MAX_CPUS {
        if keeps && held.has(cpu as u64) {
            r.entry[cpu] = entry;
        } else {
            r.entry[cpu] = 0;
            r.context[cpu] = 0;
        }
    }
}
