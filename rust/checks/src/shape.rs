//! The shapes of settings, stretches, sketches, walkers, refusals and estimates:
//! all that the versions share. Any numbers may stand in them.

/// Places for cells in a sketch.
pub const PLACES: usize = 504;
/// The largest n of good settings.
pub const LARGEST_N: u32 = 200_000_000;
/// The largest n of the plain engine.
pub const PLAIN_LIMIT: u32 = 4_096;
/// Bytes of one block of an image.
pub const BLOCK_BYTES: usize = 512;
/// Bytes of the largest image.
pub const LARGEST_IMAGE: usize = 2_560;

/// The five settings of a sketch.
#[derive(Clone, Copy, Debug, Default, PartialEq, Eq)]
pub struct Settings {
    pub n: u32,
    pub p: u32,
    pub a: u32,
    pub b: u32,
    pub capacity: u32,
}

/// A stretch: lo and hi.
pub type Stretch = (u32, u32);

/// A walker over the passing cells of a stretch, from `position` to `hi`.
#[derive(Clone, Copy, Debug, Default, PartialEq, Eq)]
pub struct Walker {
    pub settings: Settings,
    pub level: u32,
    pub position: u32,
    pub hi: u32,
}

/// A sketch: its settings, its level, how many cells it keeps, and those cells.
#[derive(Clone, Copy, Debug, PartialEq, Eq)]
pub struct Sketch {
    pub settings: Settings,
    pub level: u32,
    pub count: u32,
    pub cells: [u32; PLACES],
}

impl Default for Sketch {
    /// The all-zero value, which isn't a sketch.
    fn default() -> Sketch {
        Sketch {
            settings: Settings::default(),
            level: 0,
            count: 0,
            cells: [0; PLACES],
        }
    }
}

/// The number of cells a sketch stands for.
#[derive(Clone, Copy, Debug, PartialEq)]
pub enum Estimate {
    Exact(u32),
    About(f64),
}

/// A refusal: its number, and the place that it names, counted from zero: the
/// block for number 7, the stretch for number 2 in a row (zero for all others).
#[derive(Clone, Copy, Debug, PartialEq, Eq)]
pub struct Refusal {
    pub number: u32,
    pub place: u32,
}

impl Refusal {
    pub const SETTING: Refusal = Refusal::numbered(1);
    pub const RANGE: Refusal = Refusal::numbered(2);
    pub const LEVEL: Refusal = Refusal::numbered(3);
    pub const SHAPE: Refusal = Refusal::numbered(4);
    pub const UNEQUAL: Refusal = Refusal::numbered(5);
    pub const ROOM: Refusal = Refusal::numbered(6);
    pub const IMAGE: Refusal = Refusal::numbered(8);
    pub const LINE: Refusal = Refusal::numbered(9);

    const fn numbered(number: u32) -> Refusal {
        Refusal { number, place: 0 }
    }

    /// Refusal 2 for the first bad stretch of a row.
    pub const fn stretch_at(place: u32) -> Refusal {
        Refusal { number: 2, place }
    }

    /// Refusal 7 for the first block whose check is wrong.
    pub const fn check_of(block: u32) -> Refusal {
        Refusal {
            number: 7,
            place: block,
        }
    }
}

/// Refuses unless the condition holds.
pub(crate) fn demand(holds: bool, refusal: Refusal) -> Result<(), Refusal> {
    if holds {
        Ok(())
    } else {
        Err(refusal)
    }
}
