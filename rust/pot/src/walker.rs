use crate::calls;
use crate::refusal::unless_refused;
use crate::settings::unless_none;
use crate::{Refusal, Settings};
use std::iter::FusedIterator;
use std::ops::RangeInclusive;

/// The passing cells of a stretch, rising: see [`Settings::walk`]. It does not
/// walk over the cells between them.
#[derive(Clone, Debug, PartialEq, Eq)]
pub struct Walker {
    row: [u32; calls::WALKER],
}

impl Walker {
    pub(crate) fn open(
        settings: &Settings,
        level: u32,
        cells: RangeInclusive<u32>,
    ) -> Result<Walker, Refusal> {
        let mut row = [0; calls::WALKER];
        let (lo, hi) = cells.into_inner();
        let number = calls::walker_open(settings, level, lo, hi, &mut row);
        unless_refused(number, Walker { row })
    }
}

impl Iterator for Walker {
    type Item = u32;

    #[inline]
    fn next(&mut self) -> Option<u32> {
        let told = calls::walker_next(&mut self.row);
        // It was opened, and only the library has moved it.
        debug_assert_eq!(told.number, 0);
        unless_none(told.cell)
    }
}

impl FusedIterator for Walker {}
