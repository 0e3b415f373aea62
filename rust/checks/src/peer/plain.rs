//! The plain engine. It is told from the first by its limit alone, so here it has
//! the same folds behind it, and the limit before or between their refusals.

use crate::shape::{demand, Refusal, Settings, Sketch, PLAIN_LIMIT};

impl Settings {
    /// The range count. Refusals: 1, also for n above the limit, 3, 2.
    pub fn plain_count(&self, level: u32, lo: u32, hi: u32) -> Result<u32, Refusal> {
        self.check_limit()?;
        self.range_count(level, lo, hi)
    }

    /// The next hit. Refusals: 1, also for n above the limit, 3, 2.
    pub fn plain_next_hit(&self, level: u32, from: u32) -> Result<Option<u32>, Refusal> {
        self.check_limit()?;
        self.next_hit(level, from)
    }

    fn check_limit(&self) -> Result<(), Refusal> {
        demand(self.n <= PLAIN_LIMIT, Refusal::SETTING)
    }
}

impl Sketch {
    /// The sketch with the cells lo..hi added. Refusals: 4, 1 for n above the
    /// limit, 2.
    pub fn plain_add(self, lo: u32, hi: u32) -> Result<Sketch, Refusal> {
        self.check()?;
        self.settings.check_limit()?;
        self.add(lo, hi)
    }
}
