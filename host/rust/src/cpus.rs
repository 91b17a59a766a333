//! Sets of CPUs.

use crate::flat::{Cpus, MOST_CPUS};

impl Cpus {
    /// The set of these CPUs; a number that there is no room for is in no set.
    pub fn of(cpus: &[u64]) -> Cpus {
        cpus.iter().copied().collect()
    }

    /// Whether a CPU is in the set.
    pub fn has(self, cpu: u64) -> bool {
        self.bits & bit(cpu) != 0
    }

    /// How many CPUs are in the set.
    pub fn count(self) -> u32 {
        self.bits.count_ones()
    }

    /// Whether no CPU is in the set.
    pub fn is_empty(self) -> bool {
        self.bits == 0
    }

    /// The CPUs of the set, upwards.
    pub fn iter(self) -> impl Iterator<Item = u64> + Clone {
        (0..MOST_CPUS as u64).filter(move |&cpu| self.has(cpu))
    }
}

impl FromIterator<u64> for Cpus {
    fn from_iter<I: IntoIterator<Item = u64>>(cpus: I) -> Cpus {
        Cpus {
            bits: cpus.into_iter().fold(0, |bits, cpu| bits | bit(cpu)),
        }
    }
}

/// The bit of a CPU; 0 where there is no room for it.
fn bit(cpu: u64) -> u64 {
    if cpu < MOST_CPUS as u64 {
        1 << cpu
    } else {
        0
    }
}
