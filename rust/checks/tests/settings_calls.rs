//! Count, next hit, and opening, which take settings. The plain engine has tests
//! of its own.

use checks::cases::{
    all_settings, all_stretches, any_size, count_by_both, drawing, extreme_settings,
    next_hit_by_both, passing, walk_all, LARGEST, Q,
};
use checks::draw::Draw;
use checks::library::Library;
use checks::naive::{self, Pot};
use checks::peer::Peer;
use checks::shape::{Settings, LARGEST_N};
use checks::version::{Beside, Version};
use std::collections::BTreeSet;

checks::beside_naive!(
    every_small_setting,
    large_settings,
    refusals_in_order,
    kitchens_up_to_5_cells,
    kitchens_with_10_cells_and_p_101,
    kitchens_of_middle_size,
    short_stretches_of_kitchens_of_any_size,
);
checks::beside_peer!(extreme_numbers, long_stretches_and_their_parts);

/// Every small value of every setting, the bad ones too.
fn every_small_setting<V: Version>() {
    let mut good = 0;
    for n in 0..=3 {
        for p in 0..=62 {
            for a in 0..=p + 1 {
                for b in [0, 1, p.max(1) - 1, p, p + 1] {
                    for capacity in [0, 1, 504, 505] {
                        good += u32::from(
                            V::open(&Settings {
                                n,
                                p,
                                a,
                                b,
                                capacity,
                            })
                            .is_ok(),
                        );
                    }
                }
            }
        }
    }
    assert!(good > 1_000, "{good} good settings");
}

fn large_settings<V: Version>() {
    let mut draw = drawing(301);
    let good = (0..30_000).filter(|_| V::open(&extreme_settings(&mut draw)).is_ok());
    assert!(good.count() > 1_000);
}

fn refusals_in_order<V: Version>() {
    let bad = Settings { a: 0, ..Q };
    let numbers = [0, 1, 2, 5, 6, 7, 9, 10, 11, 31, 32, 64, u32::MAX];
    for settings in [Q, bad, Settings::default()] {
        for level in numbers {
            for lo in numbers {
                let _ = next_hit_by_both::<V>(&settings, level, lo);
                for hi in numbers {
                    let _ = count_by_both::<V>(&settings, level, lo, hi);
                    let _ = V::walker(&settings, level, lo, hi);
                }
            }
        }
    }
}

/// Every cell, level and stretch, and just beyond them.
fn whole_kitchen<V: Version>(settings: Settings) {
    let n = settings.n;
    for level in 0..=naive::top(&settings) + 1 {
        for lo in 0..=n + 1 {
            let _ = V::next_hit(&settings, level, lo);
        }
        for (lo, hi) in all_stretches(n) {
            let _ = V::count(&settings, level, lo, hi);
        }
    }
    for level in 0..=naive::top(&settings) {
        let cells = passing(&settings, level, 1, n);
        assert_eq!(walk_all::<V>(&settings, level, 1, n), cells);
    }
}

fn kitchens_up_to_5_cells<V: Version>() {
    for n in 1..=5 {
        all_settings(n, 1).for_each(whole_kitchen::<V>);
    }
}

fn kitchens_with_10_cells_and_p_101<V: Version>() {
    for a in 1..=100 {
        for b in 0..=100 {
            whole_kitchen::<V>(Settings { a, b, ..Q });
        }
    }
}

fn kitchens_of_middle_size<V: Version>() {
    let mut draw = drawing(302);
    for _ in 0..300 {
        let n = draw.from_to(5, 60);
        whole_kitchen::<V>(draw.settings(n));
    }
    for _ in 0..800 {
        let n = draw.from_to(100, 5_000);
        compare_stretch::<V>(&mut draw, n, n);
    }
}

fn short_stretches_of_kitchens_of_any_size<V: Version>() {
    let mut draw = drawing(303);
    for _ in 0..30_000 {
        let n = any_size(&mut draw);
        compare_stretch::<V>(&mut draw, n, 1_000);
    }
}

/// A stretch at a level where some of its cells pass.
fn compare_stretch<V: Version>(draw: &mut Draw, n: u32, longest: u32) {
    let settings = draw.settings(n);
    let level = draw.from_to(0, naive::top(&settings).min(14));
    let (lo, hi) = draw.stretch(n, longest);
    let cells = passing(&settings, level, lo, hi);
    assert_eq!(V::count(&settings, level, lo, hi), Ok(cells.len() as u32));
    if let Some(&cell) = cells.first() {
        assert_eq!(V::next_hit(&settings, level, lo), Ok(Some(cell)));
    }
    if cells.len() <= 100 {
        assert_eq!(walk_all::<V>(&settings, level, lo, hi), cells);
    }
}

/// Settings, levels and stretches at the ends of what 32 bits hold.
fn extreme_numbers<V: Version>() {
    let mut draw = drawing(304);
    for _ in 0..50_000 {
        let settings = extreme_settings(&mut draw);
        let level = draw.from_to(0, 33);
        let (lo, hi) = (draw.from_to(0, 3), draw.from_to(0, LARGEST_N + 1));
        let _ = V::open(&settings);
        let _ = count_by_both::<V>(&settings, level, lo, hi);
        let _ = next_hit_by_both::<V>(&settings, level, hi);
        let _ = V::walker(&settings, level, lo, hi);
    }
}

/// Stretches of any length at every level: the parts of a count sum to the
/// whole, and the first hit passes with no passing cell before it.
fn long_stretches_and_their_parts<V: Version>() {
    let mut draw = drawing(305);
    for _ in 0..800_000 {
        let n = any_size(&mut draw);
        let settings = draw.settings(n);
        let level = draw.from_to(0, naive::top(&settings));
        let (lo, hi) = draw.stretch(n, n);
        let count = |lo, hi| V::count(&settings, level, lo, hi).unwrap();
        let whole = count(lo, hi);
        let middle = draw.from_to(lo, hi);
        if middle < hi {
            assert_eq!(count(lo, middle) + count(middle + 1, hi), whole);
        }
        let walker = V::walker(&settings, level, lo, hi).unwrap();
        let hit = V::next_hit(&settings, level, lo).unwrap();
        let first = hit.filter(|&cell| cell <= hi);
        assert_eq!(V::step(&walker).0, Ok(first));
        match first {
            None => assert_eq!(whole, 0, "{settings:?} {level} {lo} {hi}"),
            Some(cell) => {
                assert!(naive::passes(&settings, level, cell));
                assert_eq!(count(lo, cell), 1, "{settings:?} {level} {lo} {hi}");
            }
        }
    }
}

/// One pass over all cells of the largest kitchen: the count and the next hit at
/// every level, and the sample of one add that raises the level many times.
#[test]
fn largest_kitchen_cell_by_cell() {
    type Both = Beside<Library, Peer>;
    let top = naive::top(&LARGEST);
    let regions: Vec<u32> = (0..=top)
        .map(|level| naive::region(&LARGEST, level))
        .collect();
    let mut counts = vec![0u32; regions.len()];
    let mut few = BTreeSet::new();
    for cell in 1..=LARGEST_N {
        let hash = naive::hash(&LARGEST, cell);
        let passed = regions.iter().take_while(|&&region| hash < region).count();
        counts[passed - 1] += 1;
        if passed > 14 {
            few.insert(cell);
        }
    }
    for level in (0..top as usize).rev() {
        counts[level] += counts[level + 1];
    }
    for (level, &count) in (0..).zip(&counts) {
        assert_eq!(Both::count(&LARGEST, level, 1, LARGEST_N), Ok(count));
        let _ = Both::next_hit(&LARGEST, level, 1);
    }
    let lowest = counts.iter().position(|&count| count <= 504).unwrap() as u32;
    let sketch = Both::add(&Both::open(&LARGEST).unwrap(), 1, LARGEST_N).unwrap();
    assert_eq!(sketch, Pot::sample(LARGEST, lowest, &few).shape());
    assert_eq!(sketch.level, lowest);
    let cells = walk_all::<Both>(&LARGEST, lowest, 1, LARGEST_N);
    assert_eq!(cells, sketch.cells[..sketch.count as usize]);
}
