//! Settings, hash, regions and passing; the range count and the next hit.

use super::folds::{floor_sum_difference, least_multiple_in};
use crate::shape::{demand, Refusal, Settings, Stretch, LARGEST_N, PLACES};

impl Settings {
    /// Refuses with 1 unless every setting obeys its rule.
    pub fn check(&self) -> Result<(), Refusal> {
        demand(self.are_good(), Refusal::SETTING)
    }

    /// How many cells of lo..hi pass at a level. Refusals: 1, 3, 2.
    pub fn range_count(&self, level: u32, lo: u32, hi: u32) -> Result<u32, Refusal> {
        self.check()?;
        let region = self.region_of(level)?;
        self.check_stretch(lo, hi)?;
        Ok(self.count_hits(region, lo, hi))
    }

    /// The least cell from `from` up to n that passes at a level.
    /// Refusals: 1, 3, 2.
    pub fn next_hit(&self, level: u32, from: u32) -> Result<Option<u32>, Refusal> {
        self.check()?;
        let region = self.region_of(level)?;
        self.check_stretch(from, self.n)?;
        Ok(self.first_hit(region, from, self.n))
    }

    pub(super) fn are_good(&self) -> bool {
        (1..=LARGEST_N).contains(&self.n)
            && (10 * self.n..=20 * self.n).contains(&self.p)
            && (1..self.p).contains(&self.a)
            && self.b < self.p
            && (1..=PLACES as u32).contains(&self.capacity)
            && are_coprime(self.a, self.p)
    }

    pub(super) fn check_stretch(&self, lo: u32, hi: u32) -> Result<(), Refusal> {
        demand(self.has_stretch(lo, hi), Refusal::RANGE)
    }

    /// Refuses with 2 for the first bad stretch of a row.
    pub(super) fn check_row(&self, row: &[Stretch]) -> Result<(), Refusal> {
        let mut stretches = row.iter();
        match stretches.position(|&(lo, hi)| !self.has_stretch(lo, hi)) {
            Some(place) => Err(Refusal::stretch_at(place as u32)),
            None => Ok(()),
        }
    }

    fn has_stretch(&self, lo: u32, hi: u32) -> bool {
        1 <= lo && lo <= hi && hi <= self.n
    }

    // The functions below expect good settings and cells in 1..n.

    /// The greatest T with 2^T not above p.
    pub(super) fn top_level(&self) -> u32 {
        self.p.ilog2()
    }

    pub(super) fn region_of(&self, level: u32) -> Result<u32, Refusal> {
        demand(level <= self.top_level(), Refusal::LEVEL)?;
        Ok(self.p >> level)
    }

    pub(super) fn hash_of(&self, cell: u32) -> u32 {
        let product = u64::from(self.a) * u64::from(cell) + u64::from(self.b);
        (product % u64::from(self.p)) as u32
    }

    /// How many cells of lo..hi have a hash below the region's size.
    ///
    /// A value y has y mod p below r exactly when ⌊(y+p)/p⌋ is one more than
    /// ⌊(y+p-r)/p⌋, and the two are equal otherwise. Summed over the stretch,
    /// the count is a difference of two floor sums.
    pub(super) fn count_hits(&self, region: u32, lo: u32, hi: u32) -> u32 {
        let cells = hi - lo + 1;
        if region == self.p {
            return cells;
        }
        let first = u64::from(self.hash_of(lo));
        let lap = u64::from(self.p);
        floor_sum_difference(
            u64::from(cells),
            u64::from(self.a),
            lap,
            first + lap,
            first + lap - u64::from(region),
        ) as u32
    }

    /// The least cell of from..last with a hash below the region's size.
    ///
    /// From a hash h not below r, the first d with (h + a·d) mod p below r is
    /// the first d for which a·d mod p lies in p-h..p-h+r-1.
    pub(super) fn first_hit(&self, region: u32, from: u32, last: u32) -> Option<u32> {
        let hash = self.hash_of(from);
        if hash < region {
            return Some(from);
        }
        let low = self.p - hash;
        let distance = least_multiple_in(self.a, self.p, low, low + (region - 1));
        (distance <= last - from).then(|| from + distance)
    }
}

/// Stein's method: shifts and differences in place of divisions, because
/// settings are checked at every call. Both numbers are above zero.
fn are_coprime(a: u32, p: u32) -> bool {
    if (a | p) & 1 == 0 {
        return false;
    }
    let mut odd = a >> a.trailing_zeros();
    let mut other = p >> p.trailing_zeros();
    while odd != other {
        let difference = odd.abs_diff(other);
        odd = odd.min(other);
        other = difference >> difference.trailing_zeros();
    }
    odd == 1
}

/// The hash with division by p replaced by a product, for whole samples.
pub(super) struct SampleHash {
    a: u64,
    b: u64,
    p: u64,
    /// At most one below 2^64 over p.
    reciprocal: u64,
}

impl SampleHash {
    pub(super) fn new(settings: &Settings) -> SampleHash {
        let p = u64::from(settings.p);
        SampleHash {
            a: u64::from(settings.a),
            b: u64::from(settings.b),
            p,
            reciprocal: u64::MAX / p,
        }
    }

    /// The products stay below 2^60, so the quotient taken by the reciprocal is
    /// the true one or one less.
    pub(super) fn of(&self, cell: u32) -> u32 {
        let product = self.a * u64::from(cell) + self.b;
        let quotient = ((u128::from(product) * u128::from(self.reciprocal)) >> 64) as u64;
        let rest = product - quotient * self.p;
        (if rest >= self.p { rest - self.p } else { rest }) as u32
    }

    /// The highest level at which a cell passes: the greatest L with
    /// (hash+1)·2^L not above p.
    pub(super) fn reach(&self, cell: u32) -> u32 {
        let above = u64::from(self.of(cell)) + 1;
        let level = above.leading_zeros() - self.p.leading_zeros();
        level - u32::from(above << level > self.p)
    }
}
