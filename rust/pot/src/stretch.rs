use std::ops::RangeInclusive;

/// The cells lo, lo+1, .., hi, in a row that is added at once: see
/// [`Sketch::add_all`](crate::Sketch::add_all).
///
/// Any numbers may stand in it. Whether it is a stretch of 1..n shows where it is
/// added.
#[repr(C)]
#[derive(Clone, Copy, Debug, PartialEq, Eq, Hash)]
pub struct Stretch {
    /// The first cell.
    pub lo: u32,
    /// The last cell.
    pub hi: u32,
}

impl From<RangeInclusive<u32>> for Stretch {
    #[inline]
    fn from(cells: RangeInclusive<u32>) -> Stretch {
        let (lo, hi) = cells.into_inner();
        Stretch { lo, hi }
    }
}
