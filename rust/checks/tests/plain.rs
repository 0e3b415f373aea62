//! The plain engine: beside the other versions, beside the first engine, at its
//! limit, and refused. Histories and forged sketches of kitchens of every size meet
//! it in the tests of sketches.

use checks::cases::{
    add_by_both, all_settings, all_sketches, bad_settings, bad_stretches, count_by_both, drawing,
    forge, forgeries, next_hit_by_both, plainly,
};
use checks::draw::Draw;
use checks::naive::{self, Pot};
use checks::shape::{Refusal, Settings, Stretch, LARGEST_N};
use checks::version::Version;
use std::collections::BTreeMap;
use std::iter::once;

checks::beside_naive!(
    every_count_and_next_hit_of_kitchens_up_to_3_cells,
    every_add_of_kitchens_up_to_2_cells,
    every_add_of_some_kitchens_of_4_cells,
    counts_and_next_hits_up_to_the_limit,
    adds_up_to_the_limit,
    one_add_raises_the_level_often,
    the_last_cell_at_the_limit,
    all_is_refused_above_the_limit,
    counts_and_next_hits_with_every_fault,
    adds_with_every_fault,
);
checks::beside_peer!(forged_sketches_about_the_limit);

/// Every stretch, and those with an end just beyond the kitchen.
fn stretches_and_beyond(n: u32) -> impl Iterator<Item = Stretch> {
    (0..=n + 1).flat_map(move |lo| (0..=n + 1).map(move |hi| (lo, hi)))
}

/// Every level and stretch, and just beyond them.
fn whole_kitchen<V: Version>(settings: Settings) {
    for level in 0..=naive::top(&settings) + 1 {
        for from in 0..=settings.n + 1 {
            let _ = next_hit_by_both::<V>(&settings, level, from);
        }
        for (lo, hi) in stretches_and_beyond(settings.n) {
            let _ = count_by_both::<V>(&settings, level, lo, hi);
        }
    }
}

fn every_count_and_next_hit_of_kitchens_up_to_3_cells<V: Version>() {
    for n in 1..=3 {
        all_settings(n, 1).for_each(whole_kitchen::<V>);
    }
}

/// Every add to every sketch, also at levels higher than its cells need.
fn every_add<V: Version>(settings: Settings) {
    for sketch in all_sketches(settings).iter().map(Pot::shape) {
        for (lo, hi) in stretches_and_beyond(settings.n) {
            let _ = add_by_both::<V>(&sketch, lo, hi);
        }
    }
}

fn every_add_of_kitchens_up_to_2_cells<V: Version>() {
    for (n, capacity) in [(1, 1), (2, 1), (2, 2)] {
        all_settings(n, capacity).for_each(every_add::<V>);
    }
}

fn every_add_of_some_kitchens_of_4_cells<V: Version>() {
    let mut draw = drawing(801);
    for _ in 0..100 {
        let capacity = draw.from_to(1, 4);
        let settings = draw.settings(4);
        every_add::<V>(Settings {
            capacity,
            ..settings
        });
    }
}

/// A size that the plain engine takes, often one of its largest.
fn small_size(draw: &mut Draw) -> u32 {
    let any = draw.from_to(1, 4_096);
    draw.choose(&[any, any, 4_095, 4_096])
}

fn counts_and_next_hits_up_to_the_limit<V: Version>() {
    let mut draw = drawing(802);
    for _ in 0..100 {
        let n = draw.from_to(5, 40);
        whole_kitchen::<V>(draw.settings(n));
    }
    for _ in 0..5_000 {
        let n = small_size(&mut draw);
        let settings = draw.settings(n);
        let level = draw.from_to(0, naive::top(&settings));
        let (lo, hi) = draw.stretch(n, n);
        assert!(count_by_both::<V>(&settings, level, lo, hi).is_ok());
        assert!(next_hit_by_both::<V>(&settings, level, lo).is_ok());
    }
}

fn adds_up_to_the_limit<V: Version>() {
    let mut draw = drawing(803);
    for _ in 0..150 {
        let n = small_size(&mut draw);
        let settings = draw.settings(n);
        let mut sketch = V::open(&settings).unwrap();
        let longest = draw.choose(&[1, 300, n]);
        for (lo, hi) in draw.row(6, n, longest) {
            sketch = add_by_both::<V>(&sketch, lo, hi).unwrap();
            assert!(V::plain_add(&sketch, lo, hi) == Ok(sketch));
        }
    }
}

fn one_add_raises_the_level_often<V: Version>() {
    for capacity in [1, 2, 10, 504] {
        let settings = Settings {
            n: 4_096,
            p: 65_537,
            a: 40_503,
            b: 1_000,
            capacity,
        };
        let empty = V::open(&settings).unwrap();
        let sketch = add_by_both::<V>(&empty, 1, 4_096).unwrap();
        assert!(sketch.level >= 3, "{sketch:?}");
    }
}

fn the_last_cell_at_the_limit<V: Version>() {
    let mut draw = drawing(804);
    for n in [4_095, 4_096] {
        for _ in 0..20 {
            let settings = draw.settings(n);
            assert_eq!(V::plain_count(&settings, 0, 1, n), Ok(n));
            assert_eq!(V::plain_count(&settings, 0, n, n), Ok(1));
            assert_eq!(V::plain_next_hit(&settings, 0, n), Ok(Some(n)));
            let sketch = add_by_both::<V>(&V::open(&settings).unwrap(), n, n).unwrap();
            assert_eq!((sketch.level, sketch.count, sketch.cells[0]), (0, 1, n));
            for level in 0..=naive::top(&settings) + 1 {
                let _ = count_by_both::<V>(&settings, level, 1, n);
                let _ = next_hit_by_both::<V>(&settings, level, n - 1);
            }
        }
    }
}

/// Whatever the cells: what the first engine answers is refused, with 1.
fn all_is_refused_above_the_limit<V: Version>() {
    let mut draw = drawing(805);
    for n in [4_097, 4_098, 8_192, 65_536, 65_536 + 4_096, LARGEST_N] {
        let settings = draw.settings(n);
        let empty = V::open(&settings).unwrap();
        let full = V::add(&empty, 1, 4_097).unwrap();
        for (lo, hi) in [(1, 1), (1, 10), (4_096, 4_096), (4_097, 4_097), (n, n)] {
            assert!(count_by_both::<V>(&settings, 0, lo, hi).is_ok());
            assert!(next_hit_by_both::<V>(&settings, 0, lo).is_ok());
            let refusals = [
                V::plain_count(&settings, 0, lo, hi).err(),
                V::plain_next_hit(&settings, 0, lo).err(),
                V::plain_add(&empty, lo, hi).err(),
                V::plain_add(&full, lo, hi).err(),
            ];
            assert_eq!(refusals, [Some(Refusal::SETTING); 4]);
        }
    }
}

/// The refusal of the first cause that holds.
fn first_cause(causes: &[(bool, Refusal)]) -> Option<Refusal> {
    let mut held = causes.iter().filter(|(holds, _)| *holds);
    held.next().map(|&(_, refusal)| refusal)
}

/// Kitchens below, at and above the limit.
fn simple_kitchens() -> [Settings; 5] {
    [10, 4_095, 4_096, 4_097, LARGEST_N].map(|n| Settings {
        n,
        p: 20 * n,
        a: 1,
        b: 0,
        capacity: 5,
    })
}

/// Bad settings or too many cells, a bad level, a bad stretch: each of them with
/// and without the others.
fn counts_and_next_hits_with_every_fault<V: Version>() {
    for good in simple_kitchens() {
        let n = good.n;
        let top = naive::top(&good);
        for settings in once(good).chain(bad_settings(good)) {
            let unfit = (settings != good || n > 4_096, Refusal::SETTING);
            for level in [0, top, top + 1, u32::MAX] {
                let high = (level > top, Refusal::LEVEL);
                for (lo, hi) in once((1, n)).chain(bad_stretches(n)) {
                    let bad = ((lo, hi) != (1, n), Refusal::RANGE);
                    let refusal = V::plain_count(&settings, level, lo, hi).err();
                    assert_eq!(refusal, first_cause(&[unfit, high, bad]));
                }
                for from in [1, n, 0, n + 1, u32::MAX] {
                    let bad = (from == 0 || from > n, Refusal::RANGE);
                    let refusal = V::plain_next_hit(&settings, level, from).err();
                    assert_eq!(refusal, first_cause(&[unfit, high, bad]));
                }
            }
        }
    }
}

/// No sketch, too many cells, a bad stretch: each with and without the others.
fn adds_with_every_fault<V: Version>() {
    for settings in simple_kitchens() {
        let n = settings.n;
        let good = V::add(&V::open(&settings).unwrap(), 2, 4).unwrap();
        for sketch in once(good).chain(forgeries(&good)) {
            let forged = (sketch != good, Refusal::SHAPE);
            let large = (n > 4_096, Refusal::SETTING);
            for (lo, hi) in once((3, 5)).chain(bad_stretches(n)) {
                let bad = ((lo, hi) != (3, 5), Refusal::RANGE);
                let refusal = V::plain_add(&sketch, lo, hi).err();
                assert_eq!(refusal, first_cause(&[forged, large, bad]), "{sketch:?}");
            }
        }
    }
}

/// Forged sketches, some of which are still good, and stretches good and bad: all
/// four answers come up.
fn forged_sketches_about_the_limit<V: Version>() {
    let mut draw = drawing(806);
    let mut seen: BTreeMap<u32, u32> = BTreeMap::new();
    for _ in 0..8_000 {
        let any = draw.from_to(1, 6_000);
        let n = draw.choose(&[any, 4_096, 4_097]);
        let settings = draw.settings(n);
        let (lo, hi) = draw.stretch(n, n);
        let good = V::add(&V::open(&settings).unwrap(), lo, hi).unwrap();
        let forged = forge(&mut draw, &good);
        let bad = draw.choose(&bad_stretches(n));
        let (lo, hi) = draw.choose(&[(lo, hi), (1, n), bad]);
        let plain = V::plain_add(&forged, lo, hi);
        assert!(plain == plainly(&forged.settings, V::add(&forged, lo, hi)));
        let number = plain.err().map_or(0, |refusal| refusal.number);
        *seen.entry(number).or_default() += 1;
    }
    let often = seen.values().all(|&times| times > 100);
    assert!(often && seen.keys().eq(&[0, 1, 2, 4]), "{seen:?}");
}
