//! A small source of random numbers (splitmix64): one seed, one sequence.

use std::env;
use std::ops::RangeInclusive;
use std::time::{Instant, SystemTime, UNIX_EPOCH};

/// A test from its seed, which is printed first so that it can be repeated;
/// last comes the time it took.
pub fn seeded(test: impl FnOnce(u64)) {
    let start = Instant::now();
    let seed = seed();
    println!("seed {seed} (LINDUVAR_SEED={seed} repeats this run)");
    test(seed);
    println!("no difference, {:.1} s", start.elapsed().as_secs_f64());
}

/// The seed in LINDUVAR_SEED if it is set, else one from the clock.
pub fn seed() -> u64 {
    match env::var("LINDUVAR_SEED") {
        Ok(text) => text.parse().expect("LINDUVAR_SEED is a decimal number"),
        Err(_) => {
            let now = SystemTime::now().duration_since(UNIX_EPOCH);
            now.expect("a clock set after 1970").as_nanos() as u64
        }
    }
}

pub struct Random {
    state: u64,
}

impl Random {
    pub fn new(seed: u64) -> Random {
        Random { state: seed }
    }

    pub fn number(&mut self) -> u64 {
        self.state = self.state.wrapping_add(0x9E37_79B9_7F4A_7C15);
        let mut z = self.state;
        z = (z ^ (z >> 30)).wrapping_mul(0xBF58_476D_1CE4_E5B9);
        z = (z ^ (z >> 27)).wrapping_mul(0x94D0_49BB_1331_11EB);
        z ^ (z >> 31)
    }

    /// A number from 0 to one less than `bound`.
    pub fn below(&mut self, bound: usize) -> usize {
        (self.number() % bound as u64) as usize
    }

    pub fn within(&mut self, range: RangeInclusive<usize>) -> usize {
        range.start() + self.below(range.end() - range.start() + 1)
    }

    pub fn pick<T: Copy>(&mut self, choices: &[T]) -> T {
        choices[self.below(choices.len())]
    }

    /// True once in `n` times.
    pub fn one_in(&mut self, n: usize) -> bool {
        self.below(n) == 0
    }
}
