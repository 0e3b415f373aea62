//! The pot of docs/RULES.md taken sentence by sentence: it tests each cell, keeps
//! samples as sets, and tries one level after another. Slow and plain on
//! purpose.

mod fraction;
mod image;
mod potcount;
mod settings;
mod sketch;

pub use fraction::Fraction;
pub use image::{image, read, seal};
pub use potcount::potcount;
pub use settings::{
    greatest_common_divisor, hash, is_small, is_walker, next_hit, passes, range_count, region,
    settings_are_good, settings_call_refusal, top,
};
pub use sketch::{is_sketch, Pot};

use crate::shape::{demand, Estimate, Refusal, Settings, Sketch, Stretch, Walker};
use crate::version::Version;

/// The naive version's calls.
pub struct Naive;

impl Version for Naive {
    fn count(settings: &Settings, level: u32, lo: u32, hi: u32) -> Result<u32, Refusal> {
        settings_call_refusal(settings, level, lo, hi)?;
        Ok(range_count(settings, level, lo, hi))
    }

    fn next_hit(settings: &Settings, level: u32, from: u32) -> Result<Option<u32>, Refusal> {
        settings_call_refusal(settings, level, from, settings.n)?;
        Ok(next_hit(settings, level, from, settings.n))
    }

    fn walker(settings: &Settings, level: u32, lo: u32, hi: u32) -> Result<Walker, Refusal> {
        settings_call_refusal(settings, level, lo, hi)?;
        Ok(Walker {
            settings: *settings,
            level,
            position: lo,
            hi,
        })
    }

    fn step(walker: &Walker) -> (Result<Option<u32>, Refusal>, Walker) {
        if !is_walker(walker) {
            return (Err(Refusal::SHAPE), *walker);
        }
        let hit = next_hit(&walker.settings, walker.level, walker.position, walker.hi);
        let position = hit.map_or(walker.position, |cell| cell + 1);
        (
            Ok(hit),
            Walker {
                position,
                ..*walker
            },
        )
    }

    fn open(settings: &Settings) -> Result<Sketch, Refusal> {
        demand(settings_are_good(settings), Refusal::SETTING)?;
        Ok(Pot::open(*settings).shape())
    }

    fn add(sketch: &Sketch, lo: u32, hi: u32) -> Result<Sketch, Refusal> {
        let pot = Pot::of(sketch)?;
        settings_call_refusal(&sketch.settings, 0, lo, hi)?;
        Ok(pot.add(lo, hi).shape())
    }

    /// One add after the other, given up at the first bad stretch.
    fn add_row(sketch: &Sketch, row: &[Stretch]) -> Result<Sketch, Refusal> {
        let mut pot = Pot::of(sketch)?;
        for (place, &(lo, hi)) in (0..).zip(row) {
            settings_call_refusal(&sketch.settings, 0, lo, hi)
                .map_err(|refusal| Refusal { place, ..refusal })?;
            pot = pot.add(lo, hi);
        }
        Ok(pot.shape())
    }

    fn merge(sketch: &Sketch, other: &Sketch) -> Result<Sketch, Refusal> {
        let (pot, other) = (Pot::of(sketch)?, Pot::of(other)?);
        demand(pot.settings == other.settings, Refusal::UNEQUAL)?;
        Ok(pot.merge(&other).shape())
    }

    fn estimate(sketch: &Sketch) -> Result<Estimate, Refusal> {
        let pot = Pot::of(sketch)?;
        Ok(match pot.level {
            0 => Estimate::Exact(pot.cells.len() as u32),
            _ => Estimate::About(pot.estimate().nearest_float()),
        })
    }

    fn write(sketch: &Sketch, room: &mut [u8]) -> Result<usize, Refusal> {
        Pot::of(sketch)?;
        let image = image(sketch);
        demand(image.len() <= room.len(), Refusal::ROOM)?;
        room[..image.len()].copy_from_slice(&image);
        Ok(image.len())
    }

    fn read(image: &[u8]) -> Result<Sketch, Refusal> {
        read(image)
    }

    /// This version tests each cell anyhow: the plain engine only has a limit.
    fn plain_count(settings: &Settings, level: u32, lo: u32, hi: u32) -> Result<u32, Refusal> {
        demand(is_small(settings), Refusal::SETTING)?;
        Naive::count(settings, level, lo, hi)
    }

    fn plain_next_hit(settings: &Settings, level: u32, from: u32) -> Result<Option<u32>, Refusal> {
        demand(is_small(settings), Refusal::SETTING)?;
        Naive::next_hit(settings, level, from)
    }

    /// What is no sketch comes before the limit.
    fn plain_add(sketch: &Sketch, lo: u32, hi: u32) -> Result<Sketch, Refusal> {
        Pot::of(sketch)?;
        demand(is_small(&sketch.settings), Refusal::SETTING)?;
        Naive::add(sketch, lo, hi)
    }
}
