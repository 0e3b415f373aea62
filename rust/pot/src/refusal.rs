use std::error::Error;
use std::fmt;

/// Why a call was refused. What it was given is unchanged.
#[derive(Clone, Copy, Debug, PartialEq, Eq, Hash)]
#[non_exhaustive]
pub enum Refusal {
    /// 1: a setting is outside its rule, or n above
    /// [`PLAIN_LIMIT`](crate::PLAIN_LIMIT) where the plain engine is called.
    BadSettings,
    /// 2: a stretch begins below cell 1, ends above cell n, or begins above its
    /// end.
    BadRange,
    /// 2, in a row: a stretch of it is such a one. Nothing of the row was added.
    BadStretch {
        /// The first such stretch, counted from 0.
        place: usize,
    },
    /// 3: the level is above the top.
    BadLevel,
    /// 4: a row of numbers is not a sketch.
    NotOne,
    /// 5: two sketches have a setting unequal.
    Unequal,
    /// 6: the room is shorter than the image.
    NoRoom,
    /// 7: the check of a block of an image is wrong.
    BadCheck {
        /// The first such block, counted from 0.
        block: u32,
    },
    /// 8: any other fault of an image.
    BadImage,
}

impl Refusal {
    /// The refusal's number, as it is in every edition of the library.
    ///
    /// ```
    /// # use pot::Refusal;
    /// assert_eq!(Refusal::BadCheck { block: 2 }.number(), 7);
    /// ```
    pub fn number(&self) -> u32 {
        match self {
            Refusal::BadSettings => 1,
            Refusal::BadRange | Refusal::BadStretch { .. } => 2,
            Refusal::BadLevel => 3,
            Refusal::NotOne => 4,
            Refusal::Unequal => 5,
            Refusal::NoRoom => 6,
            Refusal::BadCheck { .. } => 7,
            Refusal::BadImage => 8,
        }
    }

    /// The refusal of a number, with the block for 7; none where no refusal has
    /// the number. For 2 it is that of a call with one stretch: only a row has a
    /// place to name.
    ///
    /// ```
    /// # use pot::Refusal;
    /// assert_eq!(Refusal::from_number(5, 0), Some(Refusal::Unequal));
    /// assert_eq!(Refusal::from_number(0, 0), None);
    /// ```
    pub fn from_number(number: u32, block: u32) -> Option<Refusal> {
        Some(match number {
            1 => Refusal::BadSettings,
            2 => Refusal::BadRange,
            3 => Refusal::BadLevel,
            4 => Refusal::NotOne,
            5 => Refusal::Unequal,
            6 => Refusal::NoRoom,
            7 => Refusal::BadCheck { block },
            8 => Refusal::BadImage,
            _ => return None,
        })
    }
}

impl fmt::Display for Refusal {
    fn fmt(&self, f: &mut fmt::Formatter) -> fmt::Result {
        match self {
            Refusal::BadSettings => f.write_str("a setting is outside its rule"),
            Refusal::BadRange => f.write_str("the cells are not a stretch of 1..n"),
            Refusal::BadStretch { place } => {
                write!(f, "stretch {place} of the row is not a stretch of 1..n")
            }
            Refusal::BadLevel => f.write_str("the level is above the top"),
            Refusal::NotOne => f.write_str("the numbers are not a sketch"),
            Refusal::Unequal => f.write_str("the settings of the two sketches are not equal"),
            Refusal::NoRoom => f.write_str("the room is shorter than the image"),
            Refusal::BadCheck { block } => write!(f, "the check of block {block} is wrong"),
            Refusal::BadImage => f.write_str("the bytes are not an image"),
        }
    }
}

impl Error for Refusal {}

/// The value, unless the number is a refusal's.
#[inline]
pub(crate) fn unless_refused<T>(number: u32, value: T) -> Result<T, Refusal> {
    match number {
        0 => Ok(value),
        _ => Err(refused(number, 0)),
    }
}

/// The refusal of a number that the library has answered.
#[cold]
pub(crate) fn refused(number: u32, block: u32) -> Refusal {
    Refusal::from_number(number, block).unwrap_or_else(|| panic!("no refusal has number {number}"))
}
