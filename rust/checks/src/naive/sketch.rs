//! Sketches, with their samples as sets.

use super::fraction::Fraction;
use super::settings::{passes, region, settings_are_good, top};
use crate::shape::{demand, Refusal, Settings, Sketch, PLACES};
use std::collections::BTreeSet;

/// A sketch with its sample as a set.
#[derive(Clone, Debug, PartialEq, Eq)]
pub struct Pot {
    pub settings: Settings,
    pub level: u32,
    pub cells: BTreeSet<u32>,
}

impl Pot {
    /// The sketch of this shape. Refusal: 4.
    pub fn of(sketch: &Sketch) -> Result<Pot, Refusal> {
        demand(is_sketch(sketch), Refusal::SHAPE)?;
        Ok(Pot {
            settings: sketch.settings,
            level: sketch.level,
            cells: sketch.cells[..sketch.count as usize]
                .iter()
                .copied()
                .collect(),
        })
    }

    /// Level 0, no cells; expects good settings.
    pub fn open(settings: Settings) -> Pot {
        Pot {
            settings,
            level: 0,
            cells: BTreeSet::new(),
        }
    }

    /// The sample of a set of cells: the lowest level, not below `level`, at
    /// which the passing ones number at most the capacity.
    pub fn sample(settings: Settings, level: u32, set: &BTreeSet<u32>) -> Pot {
        for level in level..=top(&settings) {
            let cells: BTreeSet<u32> = set
                .iter()
                .copied()
                .filter(|&cell| passes(&settings, level, cell))
                .collect();
            if cells.len() <= settings.capacity as usize {
                return Pot {
                    settings,
                    level,
                    cells,
                };
            }
        }
        unreachable!("at the top at most one cell passes")
    }

    /// Adds lo..hi, a good stretch.
    pub fn add(&self, lo: u32, hi: u32) -> Pot {
        let set = self.cells.iter().copied().chain(lo..=hi).collect();
        Pot::sample(self.settings, self.level, &set)
    }

    /// Adds lo..hi by testing each cell of it, for the benchmark: one cell after
    /// the other leads to the same sample as all of them at once.
    pub fn add_each(&self, lo: u32, hi: u32) -> Pot {
        let mut next = self.clone();
        for cell in lo..=hi {
            if passes(&next.settings, next.level, cell) {
                next.cells.insert(cell);
                if next.cells.len() > next.settings.capacity as usize {
                    next = Pot::sample(next.settings, next.level, &next.cells);
                }
            }
        }
        next
    }

    /// Merges with a sketch of the same settings.
    pub fn merge(&self, other: &Pot) -> Pot {
        let set = self.cells.union(&other.cells).copied().collect();
        Pot::sample(self.settings, self.level.max(other.level), &set)
    }

    /// The number of cells times p, over the size of the level's region.
    pub fn estimate(&self) -> Fraction {
        Fraction {
            top: self.cells.len() as u128 * u128::from(self.settings.p),
            bottom: region(&self.settings, self.level).into(),
        }
    }

    /// The sketch in its shape of 511 numbers.
    pub fn shape(&self) -> Sketch {
        let mut sketch = Sketch {
            settings: self.settings,
            level: self.level,
            count: self.cells.len() as u32,
            cells: [0; PLACES],
        };
        for (place, &cell) in self.cells.iter().enumerate() {
            sketch.cells[place] = cell;
        }
        sketch
    }
}

/// Whether a value of the sketch's shape is a sketch.
pub fn is_sketch(sketch: &Sketch) -> bool {
    let Sketch {
        settings,
        level,
        count,
        cells,
    } = sketch;
    if !settings_are_good(settings) || *level > top(settings) || *count > settings.capacity {
        return false;
    }
    for place in 0..PLACES {
        let cell = cells[place];
        if place >= *count as usize {
            if cell != 0 {
                return false;
            }
            continue;
        }
        let rises = place == 0 || cells[place - 1] < cell;
        let in_kitchen = cell >= 1 && cell <= settings.n;
        if !rises || !in_kitchen || !passes(settings, *level, cell) {
            return false;
        }
    }
    true
}
