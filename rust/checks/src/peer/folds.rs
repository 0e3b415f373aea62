//! Floor sums, multiples in a window, and the gaps between passing cells.

use crate::shape::Settings;

/// A sum of ⌊(difference·i + offset) / modulus⌋ over i from 0 to terms-1, of
/// which `total` has been worked out already.
struct FloorSum {
    terms: u64,
    offset: u64,
    total: u64,
}

impl FloorSum {
    fn new(terms: u64, offset: u64) -> FloorSum {
        FloorSum {
            terms,
            offset,
            total: 0,
        }
    }

    /// Takes out the whole laps, then counts the lattice points that are left
    /// by rows in place of columns: the sum that remains has difference and
    /// modulus exchanged. `laps` is what the caller took out of the difference.
    fn fold(&mut self, laps: u64, difference: u64, modulus: u64) {
        let pairs = self.terms * self.terms.wrapping_sub(1) / 2;
        let base = self.offset / modulus;
        self.total += pairs * laps + self.terms * base;
        let reach = difference * self.terms + (self.offset - base * modulus);
        self.terms = reach / modulus;
        self.offset = reach % modulus;
    }
}

/// The floor sum with the upper offset less the one with the lower offset.
/// Both run through the same differences and moduli, so they share the loop.
pub(super) fn floor_sum_difference(
    terms: u64,
    mut difference: u64,
    mut modulus: u64,
    upper_offset: u64,
    lower_offset: u64,
) -> u64 {
    let mut upper = FloorSum::new(terms, upper_offset);
    let mut lower = FloorSum::new(terms, lower_offset);
    while upper.terms > 0 || lower.terms > 0 {
        let laps = difference / modulus;
        difference -= laps * modulus;
        upper.fold(laps, difference, modulus);
        lower.fold(laps, difference, modulus);
        std::mem::swap(&mut difference, &mut modulus);
    }
    upper.total - lower.total
}

/// The least d for which step·d mod modulus lies in low..high.
///
/// Expects 0 < low <= high < modulus, 0 < step < modulus, and no common divisor
/// of step and modulus, so that there is such a d, and it is below modulus.
///
/// Each round asks for the least d with step·d - modulus·laps in the window. If
/// the first lap jumps over the window, a lap hits it exactly when the first
/// value of the lap does so modulo step; the number of laps is then the d of a
/// smaller job over the modulus step. The d first asked for stays a fixed sum
/// per_step·d + per_lap·laps + fixed of the d and laps of the present round, so
/// there is nothing to do on the way back.
pub(super) fn least_multiple_in(step: u32, modulus: u32, low: u32, high: u32) -> u32 {
    let [mut step, mut modulus] = [i64::from(step), i64::from(modulus)];
    let [mut low, mut high] = [i64::from(low), i64::from(high)];
    let (mut per_step, mut per_lap, mut fixed) = (1, 0, 0);
    loop {
        if 2 * step > modulus {
            // Run downward: the same d with step and window mirrored, which
            // takes d - laps - 1 laps.
            step = modulus - step;
            (low, high) = (modulus - high, modulus - low);
            per_step += per_lap;
            fixed -= per_lap;
            per_lap = -per_lap;
        }
        let short = (low - 1) / step;
        let value = short * step;
        if value + step <= high {
            return (per_step * (short + 1) + fixed) as u32;
        }
        let steps = modulus / step;
        let rest = modulus - steps * step;
        fixed += per_step * short;
        (per_step, per_lap) = (per_step * (steps + 1) + per_lap, -per_step);
        (low, high) = (low - value, high - value);
        (step, modulus) = (step - rest, step);
    }
}

/// The gaps between passing cells. The two shortest ways from one to a later one
/// are `up_cells`, which raises the hash by `up`, and `down_cells`, which lowers
/// it by `down`. Because neither is longer than it must be, up + down is at least
/// the region's size. So from any hash at most one of them stays within the
/// region, and where none does the next passing cell is both together.
pub(super) struct Gaps {
    region: u32,
    up_cells: u32,
    up: u32,
    down_cells: u32,
    down: u32,
}

impl Gaps {
    /// Expects good settings and a region of at least two residues.
    pub(super) fn new(settings: &Settings, region: u32) -> Gaps {
        let &Settings { p, a, .. } = settings;
        let residue = |cells| (u64::from(a) * u64::from(cells) % u64::from(p)) as u32;
        let up_cells = least_multiple_in(a, p, 1, region - 1);
        let down_cells = least_multiple_in(a, p, p - (region - 1), p - 1);
        Gaps {
            region,
            up_cells,
            up: residue(up_cells),
            down_cells,
            down: p - residue(down_cells),
        }
    }

    /// The passing cell after the given one, and its hash.
    pub(super) fn next(&self, cell: u32, hash: u32) -> (u32, u32) {
        if hash < self.region - self.up {
            (cell + self.up_cells, hash + self.up)
        } else if hash >= self.down {
            (cell + self.down_cells, hash - self.down)
        } else {
            let cells = self.up_cells + self.down_cells;
            (cell + cells, hash + self.up - self.down)
        }
    }
}
