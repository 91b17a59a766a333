//! Sets of CPUs.

use crate::board::MAX_CPUS;
use std::fmt;

/// A set of CPUs, by their numbers. The empty one is the default.
#[derive(Clone, Copy, PartialEq, Eq, Default)]
pub struct CpuSet {
    /// Bit n is CPU n.
    word: u64,
}

impl CpuSet {
    /// Whether sets have room for a CPU of this number.
    #[inline]
    pub const fn has_room(cpu: u64) -> bool {
        cpu < MAX_CPUS as u64
    }

    /// The set of one CPU.
    #[inline]
    pub fn only(cpu: u64) -> Self {
        Self::default().with(cpu)
    }

    /// The CPUs below this count, which is 1 to 64.
    #[inline]
    pub const fn below(count: u64) -> Self {
        Self {
            word: u64::MAX >> (MAX_CPUS as u64 - count),
        }
    }

    /// Whether the set has this CPU.
    #[inline]
    pub const fn has(self, cpu: u64) -> bool {
        Self::has_room(cpu) && self.word >> cpu & 1 == 1
    }

    /// Whether the set has no CPU.
    #[inline]
    pub const fn is_empty(self) -> bool {
        self.word == 0
    }

    /// How many CPUs the set has.
    #[inline]
    pub const fn count(self) -> u64 {
        self.word.count_ones() as u64
    }

    /// The set with this CPU, which there has to be room for.
    #[inline]
    pub const fn with(self, cpu: u64) -> Self {
        Self {
            word: self.word | 1 << cpu,
        }
    }

    /// The CPUs of this set that the other has not.
    #[inline]
    pub const fn without(self, other: Self) -> Self {
        Self {
            word: self.word & !other.word,
        }
    }

    /// The CPUs of both sets together.
    #[inline]
    pub const fn union(self, other: Self) -> Self {
        Self {
            word: self.word | other.word,
        }
    }

    /// Whether the whole has every CPU of this set.
    #[inline]
    pub const fn is_part_of(self, whole: Self) -> bool {
        self.without(whole).is_empty()
    }

    /// Whether this is a part of the whole and not all of it.
    #[inline]
    pub fn is_proper_part_of(self, whole: Self) -> bool {
        self.is_part_of(whole) && self != whole
    }

    /// The CPUs of the set, lowest first.
    #[inline]
    pub fn members(self) -> impl Iterator<Item = u64> + Clone {
        let mut word = self.word;
        std::iter::from_fn(move || {
            let cpu = word.trailing_zeros();
            word &= word.checked_sub(1)?;
            Some(u64::from(cpu))
        })
    }
}

impl FromIterator<u64> for CpuSet {
    fn from_iter<I: IntoIterator<Item = u64>>(cpus: I) -> Self {
        cpus.into_iter().fold(Self::default(), Self::with)
    }
}

impl fmt::Debug for CpuSet {
    fn fmt(&self, f: &mut fmt::Formatter) -> fmt::Result {
        f.debug_set().entries(self.members()).finish()
    }
}
