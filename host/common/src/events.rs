//! Events, and the registers of calls.

use crate::boards::FIRST;
use lfa::{function, Call, Event, Image, Report};

/// A call with X0 to X4.
pub fn from_cpu(cpu: u64, [x0, x1, x2, x3, x4]: [u64; 5]) -> Call {
    Call {
        cpu,
        x0,
        x1,
        x2,
        x3,
        x4,
    }
}

pub fn call(cpu: u64, x: [u64; 5]) -> Event {
    Event::Call(from_cpu(cpu, x))
}

/// The registers of a VERSION, which always returns.
pub const VERSION: [u64; 5] = [function::VERSION, 0, 0, 0, 0];

/// The registers of a GET_INFO that is noted.
pub const GET_INFO: [u64; 5] = [function::GET_INFO, 0, 0, 0, 0];

/// The registers of a CPU_OFF.
pub const CPU_OFF: [u64; 5] = [function::CPU_OFF, 0, 0, 0, 0];

pub fn inventory(component: u64) -> [u64; 5] {
    [function::GET_INVENTORY, component, 0, 0, 0]
}

pub fn prime(component: u64) -> [u64; 5] {
    [function::PRIME, component, 0, 0, 0]
}

/// ACTIVATE without skip, to resume at the CPU's own address with its own context id.
pub fn activate(cpu: u64, component: u64) -> [u64; 5] {
    let own = cpu % 64;
    [function::ACTIVATE, component, 0, FIRST + 4 * own, 100 + own]
}

/// ACTIVATE with skip.
pub fn skip(component: u64) -> [u64; 5] {
    [function::ACTIVATE, component, 1, 0, 0]
}

pub fn cancel(component: u64) -> [u64; 5] {
    [function::CANCEL, component, 0, 0, 0]
}

pub fn cpu_on(target: u64) -> [u64; 5] {
    [function::CPU_ON, target, FIRST, 77, 0]
}

pub fn image(component: u64, version: u32) -> Event {
    Event::Image(Image { component, version })
}

pub fn prime_report(component: u64, code: u64) -> Event {
    Event::Prime(Report { component, code })
}

pub fn activate_report(component: u64, code: u64) -> Event {
    Event::Activate(Report { component, code })
}
