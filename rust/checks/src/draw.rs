//! Fixed pseudo-random numbers (splitmix64): the same seed draws the same
//! numbers everywhere.

use crate::shape::{Settings, Stretch, LARGEST_N, PLACES};

/// A stream of numbers that depends only on its seed.
#[derive(Clone, Debug)]
pub struct Draw {
    state: u64,
}

impl Draw {
    /// Starts the stream of a seed.
    pub fn new(seed: u64) -> Draw {
        Draw { state: seed }
    }

    /// The next 64 bits.
    pub fn bits(&mut self) -> u64 {
        self.state = self.state.wrapping_add(0x9E37_79B9_7F4A_7C15);
        let mut z = self.state;
        z = (z ^ (z >> 30)).wrapping_mul(0xBF58_476D_1CE4_E5B9);
        z = (z ^ (z >> 27)).wrapping_mul(0x94D0_49BB_1331_11EB);
        z ^ (z >> 31)
    }

    /// A number from `low` to `high`, both included.
    pub fn from_to(&mut self, low: u32, high: u32) -> u32 {
        let width = u64::from(high - low) + 1;
        low + (self.bits() % width) as u32
    }

    /// True once in `times`.
    pub fn once_in(&mut self, times: u32) -> bool {
        self.from_to(1, times) == 1
    }

    /// One of the given choices.
    pub fn choose<T: Copy>(&mut self, choices: &[T]) -> T {
        choices[self.from_to(0, choices.len() as u32 - 1) as usize]
    }

    /// A stretch lo..hi within 1..n of at most `longest` cells.
    pub fn stretch(&mut self, n: u32, longest: u32) -> Stretch {
        let lo = self.from_to(1, n);
        let furthest = lo.saturating_add(longest - 1).min(n);
        (lo, self.from_to(lo, furthest))
    }

    /// A row of so many such stretches.
    pub fn row(&mut self, count: u32, n: u32, longest: u32) -> Vec<Stretch> {
        (0..count).map(|_| self.stretch(n, longest)).collect()
    }

    /// The same items in another order, each order equally likely.
    pub fn shuffle<T>(&mut self, items: &mut [T]) {
        for last in (1..items.len()).rev() {
            items.swap(last, self.from_to(0, last as u32) as usize);
        }
    }

    /// Good settings for a given n. Values of a near the ends of its rule and
    /// near simple fractions of p come up often: they are the hard folds.
    pub fn settings(&mut self, n: u32) -> Settings {
        assert!((1..=LARGEST_N).contains(&n));
        let p = match self.from_to(0, 5) {
            0 => 10 * n,
            1 => 20 * n,
            _ => self.from_to(10 * n, 20 * n),
        };
        let b = match self.from_to(0, 5) {
            0 => 0,
            1 => p - 1,
            _ => self.from_to(0, p - 1),
        };
        let capacity = match self.from_to(0, 3) {
            0 => self.from_to(1, 3),
            1 => PLACES as u32,
            _ => self.from_to(1, PLACES as u32),
        };
        loop {
            let a = self.difference(p);
            let settings = Settings {
                n,
                p,
                a,
                b,
                capacity,
            };
            if settings.check().is_ok() {
                return settings;
            }
        }
    }

    /// A candidate for a, from 1 to p-1.
    fn difference(&mut self, p: u32) -> u32 {
        let drawn = match self.from_to(0, 7) {
            0 => self.from_to(1, 20),
            1 => p - self.from_to(1, 20).min(p - 1),
            2 => p / self.from_to(2, 9) + self.from_to(0, 3),
            3 => p / 2 + self.from_to(0, 10),
            _ => self.from_to(1, p - 1),
        };
        drawn.clamp(1, p - 1)
    }
}
