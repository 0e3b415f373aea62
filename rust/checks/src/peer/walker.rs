//! The walker, built by value.

use crate::shape::{demand, Refusal, Settings, Walker};

impl Walker {
    /// A walker over lo..hi at a level. Refusals: 1, 3, 2.
    pub fn open(settings: Settings, level: u32, lo: u32, hi: u32) -> Result<Walker, Refusal> {
        settings.check()?;
        settings.region_of(level)?;
        settings.check_stretch(lo, hi)?;
        Ok(Walker {
            settings,
            level,
            hi,
            position: lo,
        })
    }

    /// The next passing cell, or none for ever. A hit moves the position just
    /// behind it; none and a refusal change nothing. Refusal: 4.
    pub fn next_hit(&mut self) -> Result<Option<u32>, Refusal> {
        demand(self.is_good(), Refusal::SHAPE)?;
        if self.position > self.hi {
            return Ok(None);
        }
        let region = self.settings.p >> self.level;
        let hit = self.settings.first_hit(region, self.position, self.hi);
        if let Some(cell) = hit {
            self.position = cell + 1;
        }
        Ok(hit)
    }

    /// Whether this is a walker that `open` and `next_hit` can lead to.
    pub fn is_good(&self) -> bool {
        self.settings.are_good()
            && self.level <= self.settings.top_level()
            && (1..=self.settings.n).contains(&self.hi)
            && (1..=self.hi + 1).contains(&self.position)
    }
}
