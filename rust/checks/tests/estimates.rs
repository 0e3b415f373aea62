//! The estimate (RULES: Estimate): near the top, at every level of small kitchens,
//! at its greatest, just between two floats, of sketches with a history, and as
//! potcount prints it. What the floats must be is worked out here as well, in whole
//! numbers and from their bits.

use checks::cases::{any_size, drawing, passing};
use checks::draw::Draw;
use checks::naive::{self, Pot};
use checks::peer::Potcount;
use checks::shape::{Estimate, Refusal, Settings, Sketch, LARGEST_N, PLACES};
use checks::version::Version;
use std::collections::BTreeSet;

checks::beside_naive!(
    p_127_up_to_the_top,
    every_number_of_cells_in_small_kitchens,
    any_hashes_in_small_kitchens,
    regions_that_divide_and_regions_that_do_not,
    the_greatest_products,
    just_between_two_floats,
    histories,
    any_kitchen,
);

const LARGEST_P: u32 = 20 * LARGEST_N;

/// The largest kitchen for p in which the hash of each cell x is x - 1, so that the
/// first cells pass.
fn simple_kitchen(p: u32) -> Settings {
    Settings {
        n: (p / 10).min(LARGEST_N),
        p,
        a: 1,
        b: p - 1,
        capacity: PLACES as u32,
    }
}

/// The most cells that a sketch of a simple kitchen can keep at a level.
fn most_cells(settings: &Settings, level: u32) -> u32 {
    let region = settings.p >> level;
    region.min(settings.n).min(settings.capacity)
}

/// A sketch of the first cells. A lower level might do for them as well: that makes
/// it no less a sketch.
fn first_cells(settings: Settings, level: u32, count: u32) -> Sketch {
    let mut sketch = Sketch {
        settings,
        level,
        count,
        ..Sketch::default()
    };
    for (place, cell) in sketch.cells.iter_mut().zip(1..=count) {
        *place = cell;
    }
    sketch
}

/// What so many cells at a level stand for, as a top and a bottom: their number times
/// p, and the region's size.
fn fraction(p: u32, level: u32, count: u32) -> (u128, u128) {
    (u128::from(count) * u128::from(p), (p >> level).into())
}

/// A float times 2^52, from its bits. That is a whole number for 0 and from 1 on. No
/// estimate is above p, for a region has no more cells than hashes.
fn times_2_to_52(float: f64) -> u128 {
    let bits = float.to_bits();
    if bits == 0 {
        return 0;
    }
    // With the sign bit in front, so that nothing below 0 is taken.
    let exponent = bits >> 52;
    assert!((1_023..1_023 + 32).contains(&exponent), "{float}");
    let digits = 1 << 52 | bits & ((1 << 52) - 1);
    u128::from(digits) << (exponent - 1_023)
}

/// The estimate, exact at level 0 and right above it.
fn estimate<V: Version>(sketch: &Sketch) -> f64 {
    match V::estimate(sketch).unwrap() {
        Estimate::Exact(cells) => {
            assert_eq!((0, sketch.count), (sketch.level, cells), "{sketch:?}");
            f64::from(cells)
        }
        Estimate::About(float) => {
            assert!(sketch.level > 0, "about {float}: {sketch:?}");
            let stands_for = fraction(sketch.settings.p, sketch.level, sketch.count);
            assert_right(float, stands_for);
            float
        }
    }
}

/// The float's whole part is the fraction rounded down, its error is within the
/// bound, and no other float is as near.
fn assert_right(float: f64, (top, bottom): (u128, u128)) {
    let shown = || format!("{float:?} for {top} / {bottom}");
    assert!(times_2_to_52(float) >> 52 == top / bottom, "{}", shown());
    // So much off, times 2^52 and the bottom.
    let off = |float| (times_2_to_52(float) * bottom).abs_diff(top << 52);
    // The bound is off * 2^53 <= top * 2^52, here divided by 2^52.
    assert!(2 * off(float) <= top, "{}", shown());
    if top > 0 {
        // Above level 0 that makes 2 at least, so the float below is 1 at least.
        let bits = float.to_bits();
        for other in [bits - 1, bits + 1].map(f64::from_bits) {
            assert!(off(float) < off(other), "{} beside {other:?}", shown());
        }
    }
}

fn p_127_up_to_the_top<V: Version>() {
    for n in 10..=12 {
        let settings = Settings {
            n,
            ..simple_kitchen(127)
        };
        let about = |level, count| estimate::<V>(&first_cells(settings, level, count));
        for level in 0..=3 {
            for count in 0..=most_cells(&settings, level) {
                about(level, count);
            }
        }
        let regions_of_7_and_3_and_1 = [
            (0..=7).map(|count| about(4, count)).collect::<Vec<_>>(),
            (0..=3).map(|count| about(5, count)).collect(),
            (0..=1).map(|count| about(6, count)).collect(),
        ];
        let sevenths = [
            0.0,
            18.142857142857142,
            36.285714285714285,
            54.42857142857143,
            72.57142857142857,
            90.71428571428571,
            108.85714285714286,
            127.0,
        ];
        let thirds = [0.0, 42.333333333333336, 84.66666666666667, 127.0];
        assert_eq!(
            regions_of_7_and_3_and_1,
            [&sevenths[..], &thirds, &[0.0, 127.0]]
        );
        // One cell more than the region is no sketch.
        for (level, count) in [(4, 8), (5, 4), (6, 2)] {
            let none = first_cells(settings, level, count);
            assert_eq!(V::estimate(&none), Err(Refusal::SHAPE));
        }
    }
}

/// Whole fractions and others come up often, above level 0.
fn every_number_of_cells_in_small_kitchens<V: Version>() {
    let mut seen = [0; 2];
    for p in 10..=200 {
        let settings = simple_kitchen(p);
        for level in 0..=naive::top(&settings) {
            for count in 0..=most_cells(&settings, level) {
                let about = estimate::<V>(&first_cells(settings, level, count));
                if level > 0 {
                    seen[usize::from(about.fract() == 0.0)] += 1;
                }
            }
        }
    }
    assert!(seen.iter().all(|&times| times > 1_000), "{seen:?}");
}

/// Every level with some of the cells that pass there, from none to all of them.
fn any_hashes_in_small_kitchens<V: Version>() {
    let mut draw = drawing(901);
    for _ in 0..300 {
        let n = draw.from_to(1, 60);
        let settings = draw.settings(n);
        for level in 0..=naive::top(&settings) {
            let mut cells = passing(&settings, level, 1, n);
            draw.shuffle(&mut cells);
            cells.truncate(settings.capacity as usize);
            for count in 0..=cells.len() {
                let cells: BTreeSet<u32> = cells[..count].iter().copied().collect();
                let pot = Pot {
                    settings,
                    level,
                    cells,
                };
                estimate::<V>(&pot.shape());
            }
        }
    }
}

fn regions_that_divide_and_regions_that_do_not<V: Version>() {
    let about = |p, level, count| estimate::<V>(&first_cells(simple_kitchen(p), level, count));
    // Regions of 512, 256, .. hashes: the factor is a power of 2 and all is whole.
    for level in 1..=10 {
        for count in 0..=100.min(1_024 >> level) {
            assert_eq!(about(1_024, level, count), f64::from(count << level));
        }
    }
    // 125 divides 1,000.
    assert_eq!(about(1_000, 3, 99), 792.0);
    // Regions of 25 and 50 hashes, by p 101.
    assert_eq!(about(101, 2, 1), 4.04);
    assert_eq!(about(101, 1, 7), 14.14);
    // A region's hashes all together stand for p.
    for p in [1_009, 1_023, 1_999, 19_997] {
        let settings = simple_kitchen(p);
        for level in (1..=naive::top(&settings)).rev() {
            let region = p >> level;
            if region > most_cells(&settings, level) {
                break;
            }
            assert_eq!(about(p, level, region), f64::from(p));
        }
    }
    // A prime p has no whole factor, but at the top, which is 14.
    for level in 1..=13 {
        assert_ne!(about(19_997, level, 1).fract(), 0.0);
    }
}

fn the_greatest_products<V: Version>() {
    for p in LARGEST_P - 30..=LARGEST_P {
        let settings = simple_kitchen(p);
        // 504 cells can stand up to level 22, with a region of 953 hashes. That of 23
        // has 476.
        for level in 0..=22 {
            for count in [504, 503, 502, 1] {
                estimate::<V>(&first_cells(settings, level, count));
            }
        }
        for level in 23..=31 {
            let region = p >> level;
            let full = first_cells(settings, level, region);
            assert_eq!(estimate::<V>(&full), f64::from(p));
            let over = first_cells(settings, level, region + 1);
            assert_eq!(V::estimate(&over), Err(Refusal::SHAPE));
        }
    }
    let about = |level, count| {
        let settings = simple_kitchen(LARGEST_P);
        estimate::<V>(&first_cells(settings, level, count))
    };
    assert_eq!(about(0, 504), 504.0);
    assert_eq!(about(1, 504), 1_008.0);
    assert_eq!(about(22, 504), 2_115_424_973.7670515);
    assert_eq!(about(31, 1), 4_000_000_000.0);
    assert_eq!(about(31, 0), 0.0);
}

/// Whether a fraction, which is 1 at least, lies just above the middle between two
/// neighbouring floats (true) or just below it (false). None for all others.
///
/// Doubled until its whole part has 53 binary digits, it lies between two whole
/// numbers that are neighbouring floats, and the rest says where. It never lies in the
/// very middle. There it would be an odd number of 54 digits over a power of 2; that
/// odd number would divide the top, which has at most 41 digits. The nearest to it are
/// the rests beside half the bottom, where the bottom is odd.
fn above_the_middle((top, bottom): (u128, u128)) -> Option<bool> {
    let doublings = 52 - (top / bottom).ilog2();
    let rest = (top << doublings) % bottom;
    if 2 * rest + 1 == bottom {
        Some(false)
    } else if 2 * rest == bottom + 1 {
        Some(true)
    } else {
        None
    }
}

/// Any p and level with an odd region of so many binary digits.
fn with_odd_region(draw: &mut Draw, digits: u32) -> (u32, u32) {
    let level = draw.from_to(1, 31 - digits);
    let region = draw.from_to(1 << (digits - 1), (1 << digits) - 1) | 1;
    let rest = draw.from_to(0, (1 << level) - 1);
    (region << level | rest, level)
}

/// Some on each side for regions of each size: the larger, the nearer to the middle.
fn just_between_two_floats<V: Version>() {
    let mut draw = drawing(902);
    for digits in 4..=22 {
        let mut found = [0; 2];
        while found.iter().any(|&times| times < 4) {
            let (p, level) = with_odd_region(&mut draw, digits);
            let settings = simple_kitchen(p);
            for count in 1..=most_cells(&settings, level) {
                let (top, bottom) = fraction(p, level, count);
                if let Some(above) = above_the_middle((top, bottom)) {
                    let about = estimate::<V>(&first_cells(settings, level, count));
                    let rounded_up = times_2_to_52(about) * bottom > top << 52;
                    assert_eq!(rounded_up, above, "{about:?} for {top} / {bottom}");
                    found[usize::from(above)] += 1;
                }
            }
        }
    }
}

/// What adds and merges lead to, at level 0 and above it.
fn histories<V: Version>() {
    let mut draw = drawing(903);
    let mut seen = [0; 2];
    for _ in 0..400 {
        let n = draw.from_to(1, 2_000);
        let mut settings = draw.settings(n);
        settings.capacity = draw.from_to(1, 60);
        let empty = V::open(&settings).unwrap();
        let mut sketch = empty;
        for (lo, hi) in draw.row(6, n, n / 8 + 1) {
            let other = V::add(&empty, lo, hi).unwrap();
            sketch = V::merge(&sketch, &other).unwrap();
            for sketch in [&sketch, &other] {
                estimate::<V>(sketch);
                seen[usize::from(sketch.level > 0)] += 1;
            }
        }
    }
    assert!(seen.iter().all(|&times| times > 500), "{seen:?}");
}

/// The samples of long stretches, and what is left of them at each higher level.
fn any_kitchen<V: Version>() {
    let mut draw = drawing(904);
    for _ in 0..2_000 {
        let n = any_size(&mut draw);
        let settings = draw.settings(n);
        let (lo, hi) = draw.stretch(n, n);
        let sketch = Sketch::open(settings).unwrap().add(lo, hi).unwrap();
        let cells = Pot::of(&sketch).unwrap().cells;
        for level in sketch.level..=naive::top(&settings) {
            estimate::<V>(&Pot::sample(settings, level, &cells).shape());
        }
    }
}

/// What potcount writes, the peer's and the naive one.
fn potcount(input: &str) -> String {
    let mut output = Vec::new();
    let mut program = Potcount::new();
    program.feed(input.as_bytes(), &mut output);
    program.finish(&mut output);
    let [peer, naive] = [output, naive::potcount(input.as_bytes())]
        .map(|answers| String::from_utf8(answers).expect("letters and numbers"));
    assert_eq!(peer, naive, "{input}");
    peer
}

#[test]
fn potcount_rounds_down() {
    let evenings = [
        // 127; 127 / 3; 254 / 3; 762 / 7; and none at the top.
        ("12 127 1 126 1", "1 12", "K 6 1", "E about 127"),
        ("12 127 1 1 1", "1 12", "K 5 1", "E about 42"),
        ("12 127 1 0 3", "1 12", "K 5 2", "E about 84"),
        ("12 127 1 0 6", "1 12", "K 4 6", "E about 108"),
        ("12 127 1 0 1", "1 12", "K 6 0", "E about 0"),
        // All fit; 606 / 6; 101 / 25, 101 / 50 and 202 / 50.
        ("10 101 1 100 10", "1 10", "K 0 10", "E exact 10"),
        ("10 101 1 100 9", "1 10", "K 4 6", "E about 101"),
        ("10 101 37 5 3", "1 10", "K 2 1", "E about 4"),
        ("10 101 37 5 1", "8 9", "K 1 1", "E about 2"),
        ("10 101 37 5 2", "1 4", "K 1 2", "E about 4"),
        // 65,536 / 64, and almost the greatest: 475 * 4,000,000,000 / 476.
        ("100 1024 1 1023 99", "1 100", "K 4 64", "E about 1024"),
        (
            "200000000 4000000000 1 0 504",
            "1 600",
            "K 23 475",
            "E about 3991596638",
        ),
    ];
    for (settings, cells, kept, told) in evenings {
        let answers = potcount(&format!("S {settings}\nA {cells}\nE\n"));
        assert_eq!(answers, format!("K 0 0\n{kept}\n{told}\n"), "{settings}");
    }
}

/// What it tells of the sketch, level and number of cells, says what its estimate is.
#[test]
fn potcount_prints_the_whole_part() {
    let mut draw = drawing(905);
    let mut cut = 0;
    for _ in 0..3_000 {
        let n = any_size(&mut draw);
        let (lo, hi) = draw.stretch(n, 3_000);
        let Settings {
            n,
            p,
            a,
            b,
            capacity,
        } = draw.settings(n);
        let answers = potcount(&format!("S {n} {p} {a} {b} {capacity}\nA {lo} {hi}\nE\n"));
        let lines: Vec<&str> = answers.lines().collect();
        let kept: Vec<u32> = lines[1][2..]
            .split(' ')
            .map(|number| number.parse().unwrap())
            .collect();
        let [level, count] = kept[..] else {
            panic!("{answers}")
        };
        let (top, bottom) = fraction(p, level, count);
        let kind = if level == 0 { "exact" } else { "about" };
        assert_eq!(lines[2], format!("E {kind} {}", top / bottom), "{answers}");
        cut += u32::from(top % bottom > 0);
    }
    assert!(cut > 500, "{cut} of the fractions are not whole");
}
