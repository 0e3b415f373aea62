use crate::calls;
use crate::refusal::unless_refused;
use crate::{Refusal, Walker, LARGEST_N, PLACES};
use std::ops::RangeInclusive;

/// The five settings, which all sketches that are to be merged share.
///
/// They are good where n is 1 to 200,000,000, p is 10n to 20n, a is 1 to p-1 and
/// has no divisor in common with p but 1, b is 0 to p-1, and the capacity is 1 to
/// 504. Others are refused where they are used.
///
/// What a sketch estimates is worth something only where p is prime and a and b
/// were drawn at random: see [`Settings::draw`].
#[repr(C)]
#[derive(Clone, Copy, Debug, PartialEq, Eq, Hash)]
pub struct Settings {
    /// The last cell; the first is 1.
    pub n: u32,
    /// The number of hashes.
    pub p: u32,
    /// How far the hashes of two neighbouring cells are apart.
    pub a: u32,
    /// The hash of cell 0, if there were one.
    pub b: u32,
    /// How many cells a sketch keeps at most.
    pub capacity: u32,
}

impl Settings {
    /// Good settings for cells up to `n` and a capacity, with a prime p, and a
    /// and b drawn. `random` hands out 64 random bits at each call, of which this
    /// makes three.
    ///
    /// Draw once, and give all handhelds the same settings.
    ///
    /// Refused with [`Refusal::BadSettings`] where n or the capacity is outside
    /// its rule.
    ///
    /// ```
    /// use std::collections::hash_map::RandomState;
    /// use std::hash::{BuildHasher, Hasher};
    ///
    /// let random = || RandomState::new().build_hasher().finish();
    /// let settings = pot::Settings::draw(86_400, 504, random)?;
    /// assert!((864_000..=1_728_000).contains(&settings.p));
    /// assert!(pot::Sketch::open(settings).is_ok());
    /// # Ok::<(), pot::Refusal>(())
    /// ```
    pub fn draw(
        n: u32,
        capacity: u32,
        mut random: impl FnMut() -> u64,
    ) -> Result<Settings, Refusal> {
        if !(1..=LARGEST_N).contains(&n) || !(1..=PLACES as u32).contains(&capacity) {
            return Err(Refusal::BadSettings);
        }
        // A remainder of 64 bits prefers no number by more than one in 2^32.
        let mut below = |bound: u32| (random() % u64::from(bound)) as u32;
        let p = prime_from(10 * n + below(10 * n), 10 * n..=20 * n);
        Ok(Settings {
            n,
            p,
            a: 1 + below(p - 1),
            b: below(p),
            capacity,
        })
    }

    /// How many of the cells pass at a level. It does not walk over them: many
    /// millions take little longer than a few.
    ///
    /// Refused with [`Refusal::BadSettings`], [`Refusal::BadLevel`],
    /// [`Refusal::BadRange`], in this order.
    ///
    /// ```
    /// # use pot::Settings;
    /// let settings = Settings { n: 10, p: 101, a: 37, b: 5, capacity: 16 };
    /// assert_eq!(settings.count(1, 1..=10), Ok(4));
    /// ```
    #[inline]
    pub fn count(&self, level: u32, cells: RangeInclusive<u32>) -> Result<u32, Refusal> {
        let told = calls::count(self, level, *cells.start(), *cells.end());
        unless_refused(told.number, told.value)
    }

    /// The least cell from `from` up to n that passes at a level.
    ///
    /// Refused with [`Refusal::BadSettings`], [`Refusal::BadLevel`],
    /// [`Refusal::BadRange`], in this order.
    ///
    /// ```
    /// # use pot::Settings;
    /// let settings = Settings { n: 10, p: 101, a: 37, b: 5, capacity: 16 };
    /// assert_eq!(settings.next_hit(1, 4), Ok(Some(6)));
    /// assert_eq!(settings.next_hit(2, 4), Ok(None));
    /// ```
    #[inline]
    pub fn next_hit(&self, level: u32, from: u32) -> Result<Option<u32>, Refusal> {
        let told = calls::next_hit(self, level, from);
        unless_refused(told.number, unless_none(told.value))
    }

    /// [`count`](Settings::count) by the plain engine, which tests each cell: the
    /// same answer, for n up to [`PLAIN_LIMIT`](crate::PLAIN_LIMIT).
    ///
    /// Refused with [`Refusal::BadSettings`], also for n above the limit,
    /// [`Refusal::BadLevel`], [`Refusal::BadRange`], in this order.
    ///
    /// ```
    /// # use pot::{Refusal, Settings};
    /// let settings = Settings { n: 10, p: 101, a: 37, b: 5, capacity: 16 };
    /// assert_eq!(settings.plain_count(1, 1..=10), Ok(4));
    /// let large = Settings { n: 5_000, p: 50_021, ..settings };
    /// assert!(large.count(1, 1..=10).is_ok());
    /// assert_eq!(large.plain_count(1, 1..=10), Err(Refusal::BadSettings));
    /// ```
    #[inline]
    pub fn plain_count(&self, level: u32, cells: RangeInclusive<u32>) -> Result<u32, Refusal> {
        let told = calls::plain_count(self, level, *cells.start(), *cells.end());
        unless_refused(told.number, told.value)
    }

    /// [`next_hit`](Settings::next_hit) by the plain engine, which tests each
    /// cell: the same answer, for n up to [`PLAIN_LIMIT`](crate::PLAIN_LIMIT).
    ///
    /// Refused with [`Refusal::BadSettings`], also for n above the limit,
    /// [`Refusal::BadLevel`], [`Refusal::BadRange`], in this order.
    ///
    /// ```
    /// # use pot::Settings;
    /// let settings = Settings { n: 10, p: 101, a: 37, b: 5, capacity: 16 };
    /// assert_eq!(settings.plain_next_hit(1, 4), Ok(Some(6)));
    /// assert_eq!(settings.plain_next_hit(2, 4), Ok(None));
    /// ```
    #[inline]
    pub fn plain_next_hit(&self, level: u32, from: u32) -> Result<Option<u32>, Refusal> {
        let told = calls::plain_next_hit(self, level, from);
        unless_refused(told.number, unless_none(told.value))
    }

    /// The cells that pass at a level, one after the other.
    ///
    /// Refused with [`Refusal::BadSettings`], [`Refusal::BadLevel`],
    /// [`Refusal::BadRange`], in this order.
    ///
    /// ```
    /// # use pot::Settings;
    /// let settings = Settings { n: 10, p: 101, a: 37, b: 5, capacity: 16 };
    /// let cells: Vec<u32> = settings.walk(1, 1..=10)?.collect();
    /// assert_eq!(cells, [1, 3, 6, 9]);
    /// # Ok::<(), pot::Refusal>(())
    /// ```
    pub fn walk(&self, level: u32, cells: RangeInclusive<u32>) -> Result<Walker, Refusal> {
        Walker::open(self, level, cells)
    }

    pub(crate) fn of_row(row: &[u32]) -> Settings {
        Settings {
            n: row[0],
            p: row[1],
            a: row[2],
            b: row[3],
            capacity: row[4],
        }
    }
}

/// The cell of an answer that says none with a zero.
#[inline]
pub(crate) fn unless_none(cell: u32) -> Option<u32> {
    (cell != 0).then_some(cell)
}

/// The next prime from `start`, beginning anew behind the range's end. There is
/// a prime in every range from a number to its double. Some primes come up more
/// often than others, which does no harm: the chance is in a and b.
fn prime_from(start: u32, range: RangeInclusive<u32>) -> u32 {
    let mut p = start;
    while !is_prime(p) {
        p = if p == *range.end() {
            *range.start()
        } else {
            p + 1
        };
    }
    p
}

/// For numbers above 2.
fn is_prime(number: u32) -> bool {
    let below_root = |&divisor: &u32| u64::from(divisor) * u64::from(divisor) <= u64::from(number);
    number % 2 == 1
        && (3..)
            .step_by(2)
            .take_while(below_root)
            .all(|divisor| number % divisor != 0)
}

#[cfg(test)]
mod tests {
    use super::{is_prime, Settings};
    use crate::{Refusal, Sketch, LARGEST_N, PLACES};

    #[test]
    fn primes_are_told_from_others() {
        let primes: Vec<u32> = (10..60).filter(|&number| is_prime(number)).collect();
        assert_eq!(primes, [11, 13, 17, 19, 23, 29, 31, 37, 41, 43, 47, 53, 59]);
        assert!(is_prime(3_999_999_979));
        // A square, and a product of two primes near the root.
        assert!(!is_prime(63_241 * 63_241));
        assert!(!is_prime(63_197 * 63_241));
    }

    /// Whatever the source hands out, also the same number for ever.
    #[test]
    fn drawn_settings_are_good_with_a_prime_p() {
        for n in [1, 2, 10, 1_000, 86_400, LARGEST_N] {
            for bits in [0, 1, 7, u64::MAX - 1, u64::MAX, 0x9E37_79B9_7F4A_7C15] {
                let mut random = bits;
                let draws = [0, 1, 0x2545_F491_4F6C_DD1D].map(|step: u64| {
                    Settings::draw(n, 504, || {
                        random = random.wrapping_mul(step | 1).wrapping_add(step);
                        random
                    })
                });
                for settings in draws.map(Result::unwrap) {
                    assert!((10 * n..=20 * n).contains(&settings.p) && is_prime(settings.p));
                    assert!(Sketch::open(settings).is_ok(), "{settings:?}");
                }
            }
        }
    }

    #[test]
    fn nothing_is_drawn_outside_the_rules() {
        let draw = |n, capacity| Settings::draw(n, capacity, || 1).map(|_| ());
        assert_eq!(draw(1, PLACES as u32), Ok(()));
        for (n, capacity) in [(0, 1), (LARGEST_N + 1, 1), (u32::MAX, 1), (1, 0), (1, 505)] {
            assert_eq!(draw(n, capacity), Err(Refusal::BadSettings));
        }
    }
}
