use crate::calls;
use crate::refusal::{refused, unless_refused};
use crate::{Refusal, Settings, Stretch, LARGEST_IMAGE};
use std::fmt;
use std::ops::RangeInclusive;

/// The place of the level in a sketch's row, of the number of cells, and of the
/// first cell.
const LEVEL: usize = 5;
const COUNT: usize = 6;
const CELLS: usize = 7;

/// A level, and a sample of the cells that were added: those that pass at it.
///
/// Two sketches are equal exactly where their settings, levels and cells are.
#[derive(Clone, PartialEq, Eq, Hash)]
pub struct Sketch {
    // Always a sketch's: it comes from `open`, or was tested.
    row: [u32; calls::SKETCH],
}

/// How many cells a sketch stands for.
///
/// It shows as whole cells, rounded down, like what `potcount` prints: `4`, or
/// `about 4`.
#[derive(Clone, Copy, Debug, PartialEq)]
pub enum Estimate {
    /// Just as many: the sketch is at level 0.
    Exact(u32),
    /// About as many: the number of cells kept times p, divided by the size of the
    /// level's region, which is p / 2^level rounded down. The division is rounded
    /// once, to the nearest float: it is off by at most one part in 2^53, and its
    /// whole part is the true one.
    About(f64),
}

impl Sketch {
    /// A sketch with no cells.
    ///
    /// Refused with [`Refusal::BadSettings`].
    pub fn open(settings: Settings) -> Result<Sketch, Refusal> {
        let mut row = [0; calls::SKETCH];
        let number = calls::open(&settings, &mut row);
        unless_refused(number, Sketch { row })
    }

    /// Adds cells. Where they do not fit the capacity the level rises as far as
    /// it must. It does not walk over them.
    ///
    /// Refused with [`Refusal::BadRange`].
    ///
    /// ```
    /// # use pot::{Refusal, Settings, Sketch};
    /// let settings = Settings { n: 10, p: 101, a: 37, b: 5, capacity: 3 };
    /// let mut sketch = Sketch::open(settings)?;
    /// sketch.add(1..=2)?;
    /// assert_eq!((sketch.level(), sketch.cells()), (0, &[1, 2][..]));
    /// sketch.add(2..=4)?;
    /// assert_eq!((sketch.level(), sketch.cells()), (1, &[1, 3][..]));
    /// assert_eq!(sketch.add(0..=3), Err(Refusal::BadRange));
    /// # Ok::<(), Refusal>(())
    /// ```
    #[inline]
    pub fn add(&mut self, cells: RangeInclusive<u32>) -> Result<(), Refusal> {
        let (lo, hi) = cells.into_inner();
        unless_refused(calls::add(&mut self.row, lo, hi), ())
    }

    /// Adds a row of stretches, as [`add`](Sketch::add) does one after the other,
    /// but tests the sketch once. An empty row adds nothing.
    ///
    /// Refused with [`Refusal::BadStretch`], and then nothing of the row is added.
    ///
    /// ```
    /// # use pot::{Refusal, Settings, Sketch, Stretch};
    /// # let settings = Settings { n: 10, p: 101, a: 37, b: 5, capacity: 3 };
    /// let mut sketch = Sketch::open(settings)?;
    /// let mut queued: Vec<Stretch> = vec![(1..=2).into(), (2..=4).into()];
    /// sketch.add_all(&queued)?;
    /// assert_eq!((sketch.level(), sketch.cells()), (1, &[1, 3][..]));
    /// queued.push(Stretch { lo: 6, hi: 11 });
    /// assert_eq!(sketch.add_all(&queued), Err(Refusal::BadStretch { place: 2 }));
    /// # Ok::<(), Refusal>(())
    /// ```
    #[inline]
    pub fn add_all(&mut self, row: &[Stretch]) -> Result<(), Refusal> {
        let told = calls::add_row(&mut self.row, row);
        match told.number {
            0 => Ok(()),
            2 => Err(Refusal::BadStretch { place: told.place }),
            number => Err(refused(number, 0)),
        }
    }

    /// [`add`](Sketch::add) by the plain engine, which tests each cell of 1..n:
    /// the same sketch, for n up to [`PLAIN_LIMIT`](crate::PLAIN_LIMIT).
    ///
    /// Refused with [`Refusal::BadSettings`] for n above the limit,
    /// [`Refusal::BadRange`], in this order.
    ///
    /// ```
    /// # use pot::{Refusal, Settings, Sketch};
    /// # let settings = Settings { n: 10, p: 101, a: 37, b: 5, capacity: 3 };
    /// let mut sketch = Sketch::open(settings)?;
    /// sketch.plain_add(1..=4)?;
    /// assert_eq!((sketch.level(), sketch.cells()), (1, &[1, 3][..]));
    /// # Ok::<(), Refusal>(())
    /// ```
    #[inline]
    pub fn plain_add(&mut self, cells: RangeInclusive<u32>) -> Result<(), Refusal> {
        let (lo, hi) = cells.into_inner();
        unless_refused(calls::plain_add(&mut self.row, lo, hi), ())
    }

    /// Adds what the other sketch stands for.
    ///
    /// Refused with [`Refusal::Unequal`].
    #[inline]
    pub fn merge(&mut self, other: &Sketch) -> Result<(), Refusal> {
        unless_refused(calls::merge(&mut self.row, &other.row), ())
    }

    /// How many cells the sketch stands for: exactly at level 0, and about as many
    /// above it.
    ///
    /// ```
    /// # use pot::{Estimate, Refusal, Settings, Sketch};
    /// # let settings = Settings { n: 10, p: 101, a: 37, b: 5, capacity: 3 };
    /// let mut sketch = Sketch::open(settings)?;
    /// sketch.add(1..=2)?;
    /// assert_eq!(sketch.estimate(), Estimate::Exact(2));
    /// sketch.add(2..=4)?;
    /// // Two cells at level 1, where the region has 50 of the 101 hashes: 202 / 50.
    /// assert_eq!(sketch.estimate(), Estimate::About(4.04));
    /// assert_eq!(sketch.estimate().to_string(), "about 4");
    /// # Ok::<(), Refusal>(())
    /// ```
    #[inline]
    pub fn estimate(&self) -> Estimate {
        let told = calls::estimate(&self.row);
        match told.exact {
            // At most 504 cells: nothing is lost on the way back.
            1 => Estimate::Exact(told.value as u32),
            _ => Estimate::About(told.value),
        }
    }

    /// The settings that it was opened with.
    pub fn settings(&self) -> Settings {
        Settings::of_row(&self.row)
    }

    /// The level: 0 as long as all cells added fit the capacity.
    pub fn level(&self) -> u32 {
        self.row[LEVEL]
    }

    /// The cells kept, rising.
    pub fn cells(&self) -> &[u32] {
        &self.row[CELLS..][..self.row[COUNT] as usize]
    }

    /// The sketch as 511 numbers: n, p, a, b, capacity, level, number of cells,
    /// then 504 places. `Sketch::try_from` takes such a row.
    pub fn as_row(&self) -> &[u32; calls::SKETCH] {
        &self.row
    }

    /// Writes the image at the start of the room, and answers its length; what
    /// follows it is untouched.
    ///
    /// Refused with [`Refusal::NoRoom`]. [`LARGEST_IMAGE`] bytes always do.
    ///
    /// ```
    /// # use pot::{Refusal, Settings, Sketch};
    /// # let settings = Settings { n: 10, p: 101, a: 37, b: 5, capacity: 3 };
    /// let sketch = Sketch::open(settings)?;
    /// let mut room = [0; pot::LARGEST_IMAGE];
    /// let length = sketch.write(&mut room)?;
    /// assert_eq!(room[..length], sketch.to_image());
    /// assert_eq!(sketch.write(&mut room[..511]), Err(Refusal::NoRoom));
    /// # Ok::<(), Refusal>(())
    /// ```
    #[inline]
    pub fn write(&self, room: &mut [u8]) -> Result<usize, Refusal> {
        let told = calls::write(&self.row, room);
        unless_refused(told.number, told.length)
    }

    /// The image: 512 bytes, and 512 more for every 126 cells or part of them.
    /// `Sketch::try_from` reads it.
    pub fn to_image(&self) -> Vec<u8> {
        let mut image = vec![0; LARGEST_IMAGE];
        let length = self.write(&mut image).expect("the largest image has room");
        image.truncate(length);
        image
    }
}

/// Reads an image of just this length.
///
/// Refused with [`Refusal::BadImage`] for the length, [`Refusal::BadCheck`],
/// [`Refusal::BadImage`] for the first four bytes, [`Refusal::BadSettings`],
/// [`Refusal::BadImage`] for all else, in this order.
///
/// ```
/// # use pot::{Refusal, Settings, Sketch};
/// # let settings = Settings { n: 10, p: 101, a: 37, b: 5, capacity: 3 };
/// let mut image = Sketch::open(settings)?.to_image();
/// assert!(Sketch::try_from(&image[..]).is_ok());
/// image[40] ^= 1;
/// assert_eq!(Sketch::try_from(&image[..]), Err(Refusal::BadCheck { block: 0 }));
/// # Ok::<(), Refusal>(())
/// ```
impl TryFrom<&[u8]> for Sketch {
    type Error = Refusal;

    fn try_from(image: &[u8]) -> Result<Sketch, Refusal> {
        let mut row = [0; calls::SKETCH];
        let told = calls::read(image, &mut row);
        match told.number {
            0 => Ok(Sketch { row }),
            number => Err(refused(number, told.block)),
        }
    }
}

/// Takes the row of a sketch, wherever it comes from.
///
/// Refused with [`Refusal::NotOne`].
///
/// ```
/// # use pot::{Refusal, Settings, Sketch};
/// # let settings = Settings { n: 10, p: 101, a: 37, b: 5, capacity: 3 };
/// let mut row = *Sketch::open(settings)?.as_row();
/// assert!(Sketch::try_from(row).is_ok());
/// row[510] = 1;
/// assert_eq!(Sketch::try_from(row), Err(Refusal::NotOne));
/// # Ok::<(), Refusal>(())
/// ```
impl TryFrom<[u32; calls::SKETCH]> for Sketch {
    type Error = Refusal;

    fn try_from(row: [u32; calls::SKETCH]) -> Result<Sketch, Refusal> {
        // Every call on a sketch tests it first, and this one does nothing else.
        unless_refused(calls::estimate(&row).number, Sketch { row })
    }
}

impl fmt::Debug for Sketch {
    fn fmt(&self, f: &mut fmt::Formatter) -> fmt::Result {
        f.debug_struct("Sketch")
            .field("settings", &self.settings())
            .field("level", &self.level())
            .field("cells", &self.cells())
            .finish()
    }
}

impl Estimate {
    /// The number of cells, exact or not.
    pub fn value(&self) -> f64 {
        match *self {
            Estimate::Exact(cells) => f64::from(cells),
            Estimate::About(cells) => cells,
        }
    }
}

impl fmt::Display for Estimate {
    fn fmt(&self, f: &mut fmt::Formatter) -> fmt::Result {
        match self {
            Estimate::Exact(cells) => write!(f, "{cells}"),
            Estimate::About(cells) => write!(f, "about {}", cells.trunc()),
        }
    }
}
