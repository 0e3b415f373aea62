//! The sketch: opening, adding, merging, the estimate.

use super::folds::Gaps;
use super::settings::SampleHash;
use crate::shape::{demand, Estimate, Refusal, Settings, Sketch, Stretch, PLACES};

impl Sketch {
    /// An empty sketch at level 0. Refusal: 1.
    pub fn open(settings: Settings) -> Result<Sketch, Refusal> {
        settings.check()?;
        Ok(Sketch::empty(settings, 0))
    }

    /// Refuses with 4 unless this is a sketch.
    pub fn check(&self) -> Result<(), Refusal> {
        demand(
            self.settings.are_good() && self.keeps_a_sample(),
            Refusal::SHAPE,
        )
    }

    /// The sketch with the cells lo..hi added. Refusals: 4, 2.
    pub fn add(mut self, lo: u32, hi: u32) -> Result<Sketch, Refusal> {
        self.check()?;
        self.settings.check_stretch(lo, hi)?;
        self.insert(lo, hi);
        Ok(self)
    }

    /// The sketch with a row of stretches added. Refusals: 4, 2.
    pub fn add_row(mut self, row: &[Stretch]) -> Result<Sketch, Refusal> {
        self.check()?;
        self.settings.check_row(row)?;
        for &(lo, hi) in row {
            self.insert(lo, hi);
        }
        Ok(self)
    }

    /// The sketch with the cells of another one added. Refusals: 4, 5.
    pub fn merge(self, other: &Sketch) -> Result<Sketch, Refusal> {
        self.check()?;
        other.check()?;
        demand(self.settings == other.settings, Refusal::UNEQUAL)?;
        // Below the higher level the other sample has lost cells.
        let start = self.level.max(other.level);
        let mut row = [0; 2 * PLACES];
        let union = unite(
            self.raise(start).kept(),
            other.raise(start).kept(),
            &mut row,
        );
        let mut next = Sketch::empty(self.settings, start);
        if union.len() <= self.settings.capacity as usize {
            next.push_all(union);
        } else {
            let hash = SampleHash::new(&self.settings);
            let reaches = Reaches::of(union, &hash);
            next.level = lowest_level(start + 1, self.settings.top_level(), |level| {
                reaches.at_least(level) <= self.settings.capacity
            });
            next.push_passing(union, &hash);
        }
        Ok(next)
    }

    /// How many cells the sketch stands for. Refusal: 4.
    pub fn estimate(&self) -> Result<Estimate, Refusal> {
        self.check()?;
        Ok(if self.level == 0 {
            Estimate::Exact(self.count)
        } else {
            let (top, bottom) = self.fraction();
            Estimate::About(top as f64 / bottom as f64)
        })
    }

    pub(super) fn empty(settings: Settings, level: u32) -> Sketch {
        Sketch {
            settings,
            level,
            count: 0,
            cells: [0; PLACES],
        }
    }

    /// Whether level, count and cells are right for good settings.
    pub(super) fn keeps_a_sample(&self) -> bool {
        if self.level > self.settings.top_level() || self.count > self.settings.capacity {
            return false;
        }
        let (kept, unused) = self.cells.split_at(self.count as usize);
        let hash = SampleHash::new(&self.settings);
        let region = self.region();
        // The order comes before the hashes: it puts every kept cell in 1..n,
        // where the products fit.
        all(unused.iter(), |&cell| cell == 0)
            && rise_within(kept, self.settings.n)
            && kept.iter().all(|&cell| hash.of(cell) < region)
    }

    // The functions below expect a sketch.

    /// The cells in use.
    pub(super) fn kept(&self) -> &[u32] {
        &self.cells[..self.count as usize]
    }

    fn region(&self) -> u32 {
        self.settings.p >> self.level
    }

    /// The estimate as a fraction, its top and its bottom: the number of cells times
    /// p, and the region's size. Both are below 2^53, so 64-bit floats hold them with
    /// nothing lost.
    pub(super) fn fraction(&self) -> (u64, u64) {
        let cells = u64::from(self.count);
        (cells * u64::from(self.settings.p), self.region().into())
    }

    /// The kept cells below lo, in lo..hi, and above hi.
    fn split(&self, lo: u32, hi: u32) -> [&[u32]; 3] {
        let kept = self.kept();
        let (below, rest) = kept.split_at(kept.partition_point(|&cell| cell < lo));
        let (inside, above) = rest.split_at(rest.partition_point(|&cell| cell <= hi));
        [below, inside, above]
    }

    /// The sketch with only the cells that pass at a level not below its own.
    fn raise(&self, level: u32) -> Sketch {
        if level == self.level {
            return *self;
        }
        let mut next = Sketch::empty(self.settings, level);
        next.push_passing(self.kept(), &SampleHash::new(&self.settings));
        next
    }

    /// Adds lo..hi, a good stretch, where the sketch stands.
    fn insert(&mut self, lo: u32, hi: u32) {
        let hits = self.settings.count_hits(self.region(), lo, hi);
        if hits == 0 {
            return;
        }
        let [below, inside, above] = self.split(lo, hi).map(<[u32]>::len);
        if hits as usize == inside {
            // The kept cells inside are passing cells, so they are all of them.
            return;
        }
        let end = below + hits as usize;
        if end + above > self.settings.capacity as usize {
            *self = self.add_higher(lo, hi);
            return;
        }
        // There are more hits than kept cells inside, so those above move up.
        let old_end = below + inside;
        self.cells.copy_within(old_end..old_end + above, end);
        self.count = below as u32;
        self.push_hits(lo, hi, hits);
        self.count += above as u32;
    }

    /// Adds lo..hi where the present level has too many cells for the capacity.
    /// One long stretch may need many raises, so the level is found by halving.
    fn add_higher(&self, lo: u32, hi: u32) -> Sketch {
        let settings = &self.settings;
        let [below, _, above] = self.split(lo, hi);
        let hash = SampleHash::new(settings);
        let outside = [below, above].map(|cells| Reaches::of(cells, &hash));
        let hits_at = |level| settings.count_hits(settings.p >> level, lo, hi);
        let level = lowest_level(self.level + 1, settings.top_level(), |level| {
            let [below, above] = &outside;
            below.at_least(level) + hits_at(level) + above.at_least(level) <= settings.capacity
        });
        let mut next = Sketch::empty(*settings, level);
        next.push_passing(below, &hash);
        next.push_hits(lo, hi, hits_at(level));
        next.push_passing(above, &hash);
        next
    }

    fn push(&mut self, cell: u32) {
        self.cells[self.count as usize] = cell;
        self.count += 1;
    }

    fn push_all(&mut self, cells: &[u32]) {
        let used = self.count as usize;
        self.cells[used..used + cells.len()].copy_from_slice(cells);
        self.count += cells.len() as u32;
    }

    /// Appends those of the given cells that pass at the level.
    fn push_passing(&mut self, cells: &[u32], hash: &SampleHash) {
        let region = self.region();
        for &cell in cells {
            if hash.of(cell) < region {
                self.push(cell);
            }
        }
    }

    /// Appends the passing cells of lo..hi, which are known to number `hits`.
    fn push_hits(&mut self, lo: u32, hi: u32, hits: u32) {
        let region = self.region();
        let Some(mut cell) = self.settings.first_hit(region, lo, hi) else {
            return;
        };
        self.push(cell);
        if hits == 1 {
            return;
        }
        // Two hits in 1..n have different hashes, so there are two residues.
        let gaps = Gaps::new(&self.settings, region);
        let mut hash = self.settings.hash_of(cell);
        for _ in 1..hits {
            (cell, hash) = gaps.next(cell, hash);
            self.push(cell);
        }
    }
}

/// Whether cells rise strictly within 1..n.
fn rise_within(cells: &[u32], n: u32) -> bool {
    match cells {
        [] => true,
        [first, .., last] if *first < 1 || *last > n => false,
        [only] => (1..=n).contains(only),
        [_, rest @ ..] => all(cells.iter().zip(rest), |(cell, next)| cell < next),
    }
}

/// Whether all items have a property. No early end: the usual answer is yes,
/// and without branches the loop runs on vectors.
pub(super) fn all<T>(items: impl Iterator<Item = T>, property: impl Fn(T) -> bool) -> bool {
    items.fold(true, |so_far, item| so_far & property(item))
}

/// The lowest level from `start` that fits. What fits at a level fits at every
/// higher one, and the top always fits.
fn lowest_level(start: u32, top: u32, fits: impl Fn(u32) -> bool) -> u32 {
    let (mut low, mut high) = (start, top);
    while low < high {
        let middle = (low + high) / 2;
        if fits(middle) {
            high = middle;
        } else {
            low = middle + 1;
        }
    }
    low
}

/// How many cells have each level as the highest one at which they pass.
struct Reaches([u32; 32]);

impl Reaches {
    fn of(cells: &[u32], hash: &SampleHash) -> Reaches {
        let mut reaches = Reaches([0; 32]);
        for &cell in cells {
            reaches.0[hash.reach(cell) as usize] += 1;
        }
        reaches
    }

    /// How many of the cells pass at a level.
    fn at_least(&self, level: u32) -> u32 {
        self.0[level as usize..].iter().sum()
    }
}

/// Puts the cells of two rising rows into one, those in common once, and hands
/// back the part of it in use.
fn unite<'a>(one: &[u32], two: &[u32], row: &'a mut [u32; 2 * PLACES]) -> &'a [u32] {
    let (mut i, mut j, mut used) = (0, 0, 0);
    while i < one.len() && j < two.len() {
        let cell = one[i].min(two[j]);
        i += usize::from(one[i] == cell);
        j += usize::from(two[j] == cell);
        row[used] = cell;
        used += 1;
    }
    for rest in [&one[i..], &two[j..]] {
        row[used..used + rest.len()].copy_from_slice(rest);
        used += rest.len();
    }
    &row[..used]
}
