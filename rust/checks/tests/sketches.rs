//! Sketches, good and forged: opening, adding by both engines, merging,
//! estimating. Rows of stretches and the plain engine have tests of their own.

use checks::cases::{
    add_by_both, all_settings, all_sketches, all_stretches, any_size, drawing, forge,
    forged_number, image_of, sketches_of_every_length, walk_all, Q,
};
use checks::draw::Draw;
use checks::naive::{self, Pot};
use checks::shape::{Refusal, Settings, Sketch, LARGEST_IMAGE, PLACES};
use checks::version::Version;
use std::collections::BTreeSet;

checks::beside_naive!(
    every_add_and_merge_of_kitchens_up_to_2_cells,
    every_add_and_merge_of_some_kitchens_of_4_cells,
    histories_in_small_kitchens,
    histories_in_middle_kitchens,
    histories_in_large_kitchens,
    refusals_in_order,
);
checks::beside_peer!(
    long_adds_and_merges,
    forged_sketches_at_every_place,
    forged_sketches_of_any_kitchen,
);

fn every_add_and_merge_of_kitchens_up_to_2_cells<V: Version>() {
    for (n, capacity) in [(1, 1), (2, 1), (2, 2)] {
        all_settings(n, capacity).for_each(every_add_and_merge::<V>);
    }
}

fn every_add_and_merge_of_some_kitchens_of_4_cells<V: Version>() {
    let mut draw = drawing(501);
    for _ in 0..150 {
        let capacity = draw.from_to(1, 3);
        let settings = draw.settings(4);
        every_add_and_merge::<V>(Settings {
            capacity,
            ..settings
        });
    }
}

/// Each add to each sketch, and each merge of two.
fn every_add_and_merge<V: Version>(settings: Settings) {
    let sketches: Vec<Sketch> = all_sketches(settings).iter().map(Pot::shape).collect();
    for sketch in &sketches {
        for (lo, hi) in all_stretches(settings.n) {
            assert!(V::add(sketch, lo, hi).is_ok());
        }
        for other in &sketches {
            assert!(V::merge(sketch, other).is_ok());
        }
    }
}

/// A sketch, and all cells that were ever added to it.
#[derive(Clone)]
struct Kept {
    sketch: Sketch,
    cells: BTreeSet<u32>,
}

/// A long history of adds, rows, merges and images over a few sketches. In the end
/// each sketch is the sample of all cells that were ever added to it.
fn history<V: Version>(draw: &mut Draw, settings: Settings, longest: u32, steps: u32) {
    let empty = Kept {
        sketch: V::open(&settings).unwrap(),
        cells: BTreeSet::new(),
    };
    let mut row = [empty.clone(), empty.clone(), empty.clone()];
    for _ in 0..steps {
        let [i, j] = [0; 2].map(|_| draw.from_to(0, 2) as usize);
        match draw.from_to(0, 11) {
            0 | 1 => {
                let other = row[j].clone();
                row[i].sketch = V::merge(&row[i].sketch, &other.sketch).unwrap();
                row[i].cells.extend(other.cells);
            }
            2 | 3 => row[i].sketch = V::read(&image_of::<V>(&row[i].sketch)).unwrap(),
            4 if draw.once_in(4) => row[i] = empty.clone(),
            5 => {
                let count = draw.from_to(0, 4);
                let stretches = draw.row(count, settings.n, longest);
                row[i].sketch = V::add_row(&row[i].sketch, &stretches).unwrap();
                for (lo, hi) in stretches {
                    row[i].cells.extend(lo..=hi);
                }
            }
            _ => {
                let (lo, hi) = draw.stretch(settings.n, longest);
                let each = Pot::of(&row[i].sketch).unwrap().add_each(lo, hi);
                row[i].sketch = add_by_both::<V>(&row[i].sketch, lo, hi).unwrap();
                assert!(row[i].sketch == each.shape(), "{each:?}");
                row[i].cells.extend(lo..=hi);
            }
        }
        assert!(V::estimate(&row[i].sketch).is_ok());
    }
    for Kept { sketch, cells } in &row {
        assert!(
            *sketch == Pot::sample(settings, 0, cells).shape(),
            "{sketch:?}"
        );
    }
}

fn histories_in_small_kitchens<V: Version>() {
    let mut draw = drawing(502);
    for _ in 0..5_000 {
        let n = draw.from_to(1, 40);
        let mut settings = draw.settings(n);
        settings.capacity = draw.from_to(1, 12);
        history::<V>(&mut draw, settings, n, 20);
    }
}

fn histories_in_middle_kitchens<V: Version>() {
    let mut draw = drawing(503);
    for _ in 0..150 {
        let n = draw.from_to(600, 6_000);
        let settings = draw.settings(n);
        let longest = draw.choose(&[3, 60, n]);
        history::<V>(&mut draw, settings, longest, 40);
    }
}

fn histories_in_large_kitchens<V: Version>() {
    let mut draw = drawing(504);
    for _ in 0..100 {
        let n = any_size(&mut draw);
        let settings = draw.settings(n);
        history::<V>(&mut draw, settings, 3_000, 25);
    }
}

/// Adds of any length and the merges of what they lead to. The walker and the
/// count, which have their own tests, say what the samples must be.
fn long_adds_and_merges<V: Version>() {
    let mut draw = drawing(505);
    for _ in 0..30_000 {
        let n = any_size(&mut draw);
        let settings = draw.settings(n);
        let [first, (lo, hi)] = [0; 2].map(|_| draw.stretch(n, n));
        let empty = V::open(&settings).unwrap();
        let before = V::add(&empty, first.0, first.1).unwrap();
        let after = V::add(&before, lo, hi).unwrap();
        let kept_at = |level| {
            let kept = before.cells[..before.count as usize].iter().copied();
            kept.filter(move |&cell| naive::passes(&settings, level, cell))
        };
        let mut cells: BTreeSet<u32> = kept_at(after.level).collect();
        cells.extend(walk_all::<V>(&settings, after.level, lo, hi));
        let level = after.level;
        assert!(
            after
                == Pot {
                    settings,
                    level,
                    cells
                }
                .shape()
        );
        if level > before.level {
            // One level lower there are too many.
            let outside = kept_at(level - 1).filter(|&cell| cell < lo || cell > hi);
            let hits = V::count(&settings, level - 1, lo, hi).unwrap();
            assert!(outside.count() as u32 + hits > settings.capacity);
        }
        let other = V::add(&empty, lo, hi).unwrap();
        assert!(V::merge(&before, &other) == Ok(after));
        assert!(V::merge(&other, &before) == Ok(after));
        assert!(V::merge(&after, &before) == Ok(after));
        assert!(V::merge(&after, &after) == Ok(after));
    }
}

fn refusals_in_order<V: Version>() {
    let sketch = V::add(&V::open(&Q).unwrap(), 2, 7).unwrap();
    let zero = Sketch::default();
    let numbers = [0, 1, 2, 3, 6, 7, 10, 11, u32::MAX];
    for lo in numbers {
        for hi in numbers {
            let _ = add_by_both::<V>(&sketch, lo, hi);
            assert_eq!(add_by_both::<V>(&zero, lo, hi), Err(Refusal::SHAPE));
        }
    }
    let others = [
        Settings { n: 9, ..Q },
        Settings { p: 103, ..Q },
        Settings { a: 36, ..Q },
        Settings { b: 6, ..Q },
        Settings { capacity: 17, ..Q },
    ];
    for other in others.map(|settings| V::open(&settings).unwrap()) {
        assert_eq!(V::merge(&sketch, &other), Err(Refusal::UNEQUAL));
        assert_eq!(V::merge(&other, &sketch), Err(Refusal::UNEQUAL));
        assert_eq!(V::merge(&other, &zero), Err(Refusal::SHAPE));
    }
    for (one, two) in [(&zero, &sketch), (&sketch, &zero), (&zero, &zero)] {
        assert_eq!(V::merge(one, two), Err(Refusal::SHAPE));
    }
    assert_eq!(V::open(&Settings::default()), Err(Refusal::SETTING));
}

/// All calls on a value of a sketch's shape, with a good sketch beside it; they
/// refuse it exactly where it isn't a sketch.
fn all_calls<V: Version>(forged: &Sketch, good: &Sketch, lo: u32, hi: u32) -> bool {
    let is_sketch = naive::is_sketch(forged);
    let mut room = [0xA5; LARGEST_IMAGE];
    assert_eq!(V::estimate(forged).is_ok(), is_sketch, "{forged:?}");
    assert_eq!(V::write(forged, &mut room).is_ok(), is_sketch);
    let _ = add_by_both::<V>(forged, lo, hi);
    let _ = add_by_both::<V>(forged, hi, 0);
    let [good_one, bad] = [(lo, hi), (hi, 0)];
    for row in [&[][..], &[good_one], &[bad], &[good_one, bad]] {
        let refused = V::add_row(forged, row).err() == Some(Refusal::SHAPE);
        assert_eq!(refused, !is_sketch, "{forged:?} {row:?}");
    }
    let _ = V::merge(forged, good);
    let _ = V::merge(good, forged);
    let _ = V::write(forged, &mut room[..511]);
    is_sketch
}

fn forged_sketches_at_every_place<V: Version>() {
    let mut draw = drawing(506);
    for good in sketches_of_every_length().into_iter().step_by(2) {
        for place in 0..7 + PLACES {
            for _ in 0..3 {
                let mut forged = good;
                let number = place_of(&mut forged, place);
                *number = forged_number(&mut draw, *number);
                all_calls::<V>(&forged, &good, 1, good.settings.n);
            }
        }
    }
}

/// A place of a sketch's row.
fn place_of(sketch: &mut Sketch, place: usize) -> &mut u32 {
    let settings = &mut sketch.settings;
    match place {
        0 => &mut settings.n,
        1 => &mut settings.p,
        2 => &mut settings.a,
        3 => &mut settings.b,
        4 => &mut settings.capacity,
        5 => &mut sketch.level,
        6 => &mut sketch.count,
        _ => &mut sketch.cells[place - 7],
    }
}

fn forged_sketches_of_any_kitchen<V: Version>() {
    let mut draw = drawing(507);
    let mut still_good = 0;
    for round in 0..50_000 {
        let n = match round % 2 {
            0 => any_size(&mut draw),
            _ => draw.from_to(1, 600),
        };
        let settings = draw.settings(n);
        let (lo, hi) = draw.stretch(n, n);
        let good = V::add(&V::open(&settings).unwrap(), lo, hi).unwrap();
        let forged = forge(&mut draw, &good);
        still_good += u32::from(all_calls::<V>(&forged, &good, lo, hi));
    }
    assert!(still_good > 100, "{still_good} were still good");
}
