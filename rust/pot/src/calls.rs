//! The calls of `libhost.a` as they are: on rows of numbers, good or not. This
//! is the only file with unsafe code.
//!
//! A call's number is 0 where it is answered, and otherwise a refusal's
//! ([`Refusal::from_number`](crate::Refusal::from_number)). Values are 0 with a
//! refusal, but for the block that 7 names and the place that 2 names in a row,
//! and then no lent memory has changed, but for the row that opening or reading
//! hands back as zeros.

use crate::{Settings, Stretch};

// Rows of five numbers and of two, without gaps.
const _: () = assert!(std::mem::size_of::<Settings>() == 5 * 4);
const _: () = assert!(std::mem::size_of::<Stretch>() == 2 * 4);

/// The numbers in a sketch's row: the settings, the level, the number of cells,
/// and 504 places.
pub const SKETCH: usize = 511;
/// The numbers in a walker's row: the settings, the level, the position, hi.
pub const WALKER: usize = 8;

/// What [`add_row`] answers.
#[repr(C)]
#[derive(Clone, Copy, Debug, PartialEq, Eq)]
pub struct Placed {
    /// 0, or the refusal's number.
    pub number: u32,
    /// With 2, the place of the first bad stretch, counted from 0.
    pub place: usize,
}

/// What [`count`] and [`next_hit`] answer, and the same by the plain engine.
#[repr(C)]
#[derive(Clone, Copy, Debug, PartialEq, Eq)]
pub struct Told {
    /// 0, or the refusal's number.
    pub number: u32,
    /// How many cells pass; or the cell found, 0 where there is none.
    pub value: u32,
}

/// What [`walker_next`] answers.
#[repr(C)]
#[derive(Clone, Copy, Debug, PartialEq, Eq)]
pub struct Found {
    /// 0, or the refusal's number.
    pub number: u32,
    /// The cell, or 0 where there is none.
    pub cell: u32,
}

/// What [`estimate`] answers.
#[repr(C)]
#[derive(Clone, Copy, Debug, PartialEq)]
pub struct Estimated {
    /// 0, or the refusal's number.
    pub number: u32,
    /// 1 where the value is exact, and otherwise 0.
    pub exact: u32,
    /// How many cells the sketch stands for.
    pub value: f64,
}

/// What [`write()`] answers.
#[repr(C)]
#[derive(Clone, Copy, Debug, PartialEq, Eq)]
pub struct Written {
    /// 0, or the refusal's number.
    pub number: u32,
    /// The bytes of the image.
    pub length: usize,
}

/// What [`read`] answers.
#[repr(C)]
#[derive(Clone, Copy, Debug, PartialEq, Eq)]
pub struct Taken {
    /// 0, or the refusal's number.
    pub number: u32,
    /// With 7, the first block whose check is wrong.
    pub block: u32,
}

/// Opens a sketch with no cells. Refusal: 1, and the sketch is all zeros.
#[inline]
pub fn open(settings: &Settings, sketch: &mut [u32; SKETCH]) -> u32 {
    // SAFETY: both are rows of the lengths that the library expects, lent for
    // the call, and what is lent to be changed is lent to nobody else. The same
    // holds below.
    unsafe { linked::pot_open(settings, sketch) }
}

/// Adds lo..hi. Refusals: 4, 2, and the sketch is unchanged.
#[inline]
pub fn add(sketch: &mut [u32; SKETCH], lo: u32, hi: u32) -> u32 {
    // SAFETY: as in `open`.
    unsafe { linked::pot_add(sketch, lo, hi) }
}

/// Adds a row of stretches, as [`add`] does one after the other. Refusals: 4, 2
/// for the first bad stretch, and the sketch is unchanged.
#[inline]
pub fn add_row(sketch: &mut [u32; SKETCH], row: &[Stretch]) -> Placed {
    // SAFETY: as in `open`; the row passes with its own length.
    unsafe { linked::pot_add_row(sketch, row.as_ptr(), row.len()) }
}

/// Adds what the other sketch stands for. Refusals: 4, 5, and the sketch is
/// unchanged.
#[inline]
pub fn merge(sketch: &mut [u32; SKETCH], other: &[u32; SKETCH]) -> u32 {
    // SAFETY: as in `open`.
    unsafe { linked::pot_merge(sketch, other) }
}

/// How many cells the sketch stands for. Refusal: 4.
#[inline]
pub fn estimate(sketch: &[u32; SKETCH]) -> Estimated {
    // SAFETY: as in `open`.
    unsafe { linked::pot_estimate(sketch) }
}

/// How many cells of lo..hi pass at a level. Refusals: 1, 3, 2.
#[inline]
pub fn count(settings: &Settings, level: u32, lo: u32, hi: u32) -> Told {
    // SAFETY: as in `open`.
    unsafe { linked::pot_count(settings, level, lo, hi) }
}

/// The least cell from `from` up to n that passes at a level. Refusals: 1, 3, 2.
#[inline]
pub fn next_hit(settings: &Settings, level: u32, from: u32) -> Told {
    // SAFETY: as in `open`.
    unsafe { linked::pot_next_hit(settings, level, from) }
}

/// Opens a walker over lo..hi. Refusals: 1, 3, 2, and the walker is all zeros.
#[inline]
pub fn walker_open(
    settings: &Settings,
    level: u32,
    lo: u32,
    hi: u32,
    walker: &mut [u32; WALKER],
) -> u32 {
    // SAFETY: as in `open`.
    unsafe { linked::pot_walker_open(settings, level, lo, hi, walker) }
}

/// The walker's next cell, and the walker moved past it. Refusal: 4, and the
/// walker is unchanged.
#[inline]
pub fn walker_next(walker: &mut [u32; WALKER]) -> Found {
    // SAFETY: as in `open`.
    unsafe { linked::pot_walker_next(walker) }
}

/// Writes the sketch's image at the start of the room. Refusals: 4, 6, and the
/// room is untouched.
#[inline]
pub fn write(sketch: &[u32; SKETCH], room: &mut [u8]) -> Written {
    // SAFETY: as in `open`; the room passes with its own length.
    unsafe { linked::pot_write(sketch, room.as_mut_ptr(), room.len()) }
}

/// Reads an image. Refusals: 8 for the length, 7, 8 for the first four bytes, 1,
/// 8 for all else, and the sketch is all zeros.
#[inline]
pub fn read(image: &[u8], sketch: &mut [u32; SKETCH]) -> Taken {
    // SAFETY: as in `open`; the image passes with its own length.
    unsafe { linked::pot_read(image.as_ptr(), image.len(), sketch) }
}

/// [`count`] by the plain engine. Refusals: 1, also for n above the limit, 3, 2.
#[inline]
pub fn plain_count(settings: &Settings, level: u32, lo: u32, hi: u32) -> Told {
    // SAFETY: as in `open`.
    unsafe { linked::pot_plain_count(settings, level, lo, hi) }
}

/// [`next_hit`] by the plain engine. Refusals: 1, also for n above the limit, 3,
/// 2.
#[inline]
pub fn plain_next_hit(settings: &Settings, level: u32, from: u32) -> Told {
    // SAFETY: as in `open`.
    unsafe { linked::pot_plain_next_hit(settings, level, from) }
}

/// [`add`] by the plain engine. Refusals: 4, 1 for n above the limit, 2, and the
/// sketch is unchanged.
#[inline]
pub fn plain_add(sketch: &mut [u32; SKETCH], lo: u32, hi: u32) -> u32 {
    // SAFETY: as in `open`.
    unsafe { linked::pot_plain_add(sketch, lo, hi) }
}

/// The declarations of the library's functions. Nothing checks them against the
/// library, so they stand side by side with `include/pot.h`.
mod linked {
    use super::{
        Estimated, Found, Placed, Settings, Stretch, Taken, Told, Written, SKETCH, WALKER,
    };

    extern "C" {
        pub fn pot_open(settings: &Settings, sketch: &mut [u32; SKETCH]) -> u32;
        pub fn pot_add(sketch: &mut [u32; SKETCH], lo: u32, hi: u32) -> u32;
        pub fn pot_add_row(sketch: &mut [u32; SKETCH], row: *const Stretch, count: usize)
            -> Placed;
        pub fn pot_merge(sketch: &mut [u32; SKETCH], other: &[u32; SKETCH]) -> u32;
        pub fn pot_estimate(sketch: &[u32; SKETCH]) -> Estimated;
        pub fn pot_count(settings: &Settings, level: u32, lo: u32, hi: u32) -> Told;
        pub fn pot_next_hit(settings: &Settings, level: u32, from: u32) -> Told;
        pub fn pot_walker_open(
            settings: &Settings,
            level: u32,
            lo: u32,
            hi: u32,
            walker: &mut [u32; WALKER],
        ) -> u32;
        pub fn pot_walker_next(walker: &mut [u32; WALKER]) -> Found;
        pub fn pot_write(sketch: &[u32; SKETCH], room: *mut u8, room_length: usize) -> Written;
        pub fn pot_read(bytes: *const u8, length: usize, sketch: &mut [u32; SKETCH]) -> Taken;
        pub fn pot_plain_count(settings: &Settings, level: u32, lo: u32, hi: u32) -> Told;
        pub fn pot_plain_next_hit(settings: &Settings, level: u32, from: u32) -> Told;
        pub fn pot_plain_add(sketch: &mut [u32; SKETCH], lo: u32, hi: u32) -> u32;
    }
}
