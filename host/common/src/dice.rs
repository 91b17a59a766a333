//! Repeatable random numbers that know how far a test has come.

use std::fmt::{self, Display};

/// A generator that counts the steps of its test, for the failure messages.
pub struct Dice {
    seed: u64,
    state: u64,
    step: u64,
}

impl Display for Dice {
    fn fmt(&self, f: &mut fmt::Formatter) -> fmt::Result {
        write!(f, "COMPARE_SEED={} step {}", self.seed, self.step)
    }
}

impl Dice {
    /// The seed of COMPARE_SEED or the usual one. The salt sets tests apart.
    pub fn new(salt: u64) -> Self {
        let seed = from_env("COMPARE_SEED", 1);
        // Not every failure has the dice at hand.
        println!("COMPARE_SEED={seed}");
        Self::of(seed, salt)
    }

    /// The dice of a seed.
    pub fn of(seed: u64, salt: u64) -> Self {
        Self {
            seed,
            state: seed ^ salt << 56,
            step: 0,
        }
    }

    /// Counts one more step.
    pub fn next_step(&mut self) {
        self.step += 1;
    }

    /// Any 64-bit number (splitmix64).
    pub fn word(&mut self) -> u64 {
        self.state = self.state.wrapping_add(0x9E37_79B9_7F4A_7C15);
        let mut word = self.state;
        word = (word ^ word >> 30).wrapping_mul(0xBF58_476D_1CE4_E5B9);
        word = (word ^ word >> 27).wrapping_mul(0x94D0_49BB_1331_11EB);
        word ^ word >> 31
    }

    /// A number below the end, which is not 0.
    pub fn below(&mut self, end: u64) -> u64 {
        ((u128::from(self.word()) * u128::from(end)) >> 64) as u64
    }

    /// A place below the end.
    pub fn place(&mut self, end: usize) -> usize {
        self.below(end as u64) as usize
    }

    /// Whether a chance of one in so many came true.
    pub fn one_in(&mut self, many: u64) -> bool {
        self.below(many) == 0
    }

    /// One of a list.
    pub fn one_of<T: Copy>(&mut self, list: &[T]) -> T {
        list[self.place(list.len())]
    }

    /// One of the members of a set, if it has any.
    pub fn member(&mut self, mut members: impl Iterator<Item = u64> + Clone) -> Option<u64> {
        match members.clone().count() {
            0 => None,
            size => members.nth(self.place(size)),
        }
    }

    /// Fills bytes at random.
    pub fn fill(&mut self, bytes: &mut [u8]) {
        for part in bytes.chunks_mut(8) {
            let word = self.word().to_le_bytes();
            part.copy_from_slice(&word[..part.len()]);
        }
    }
}

/// A number that the environment may set.
pub fn from_env(name: &str, usual: u64) -> u64 {
    match std::env::var(name) {
        Ok(text) => text
            .parse()
            .unwrap_or_else(|_| panic!("{name} is no number")),
        Err(_) => usual,
    }
}
