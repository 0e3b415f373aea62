//! The pot of docs/RULES.md, complete and fast.
//!
//! A sketch stands for a set of cells from 1 to n. It keeps a level and those
//! of its cells that pass at that level. Counting the passing cells of a
//! stretch takes a difference of two floor sums, and finding the next one takes
//! Euclid's steps, so neither depends on how many cells the stretch has.
//!
//! Every call is total: forged settings, sketches, walkers and images are
//! refused with the numbers and in the order of RULES: Refusals.

mod folds;
mod image;
mod plain;
mod potcount;
mod settings;
mod sketch;
mod walker;

pub use potcount::Potcount;

use crate::shape::{Estimate, Refusal, Settings, Sketch, Stretch, Walker};
use crate::version::Version;

/// The peer's calls, which are methods of the shapes.
pub struct Peer;

impl Version for Peer {
    fn count(settings: &Settings, level: u32, lo: u32, hi: u32) -> Result<u32, Refusal> {
        settings.range_count(level, lo, hi)
    }

    fn next_hit(settings: &Settings, level: u32, from: u32) -> Result<Option<u32>, Refusal> {
        settings.next_hit(level, from)
    }

    fn walker(settings: &Settings, level: u32, lo: u32, hi: u32) -> Result<Walker, Refusal> {
        Walker::open(*settings, level, lo, hi)
    }

    fn step(walker: &Walker) -> (Result<Option<u32>, Refusal>, Walker) {
        let mut after = *walker;
        (after.next_hit(), after)
    }

    fn open(settings: &Settings) -> Result<Sketch, Refusal> {
        Sketch::open(*settings)
    }

    fn add(sketch: &Sketch, lo: u32, hi: u32) -> Result<Sketch, Refusal> {
        sketch.add(lo, hi)
    }

    fn add_row(sketch: &Sketch, row: &[Stretch]) -> Result<Sketch, Refusal> {
        sketch.add_row(row)
    }

    fn merge(sketch: &Sketch, other: &Sketch) -> Result<Sketch, Refusal> {
        sketch.merge(other)
    }

    fn estimate(sketch: &Sketch) -> Result<Estimate, Refusal> {
        sketch.estimate()
    }

    fn write(sketch: &Sketch, room: &mut [u8]) -> Result<usize, Refusal> {
        sketch.write(room)
    }

    fn read(image: &[u8]) -> Result<Sketch, Refusal> {
        Sketch::read(image)
    }

    fn plain_count(settings: &Settings, level: u32, lo: u32, hi: u32) -> Result<u32, Refusal> {
        settings.plain_count(level, lo, hi)
    }

    fn plain_next_hit(settings: &Settings, level: u32, from: u32) -> Result<Option<u32>, Refusal> {
        settings.plain_next_hit(level, from)
    }

    fn plain_add(sketch: &Sketch, lo: u32, hi: u32) -> Result<Sketch, Refusal> {
        sketch.plain_add(lo, hi)
    }
}
