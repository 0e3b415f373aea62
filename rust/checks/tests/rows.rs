//! Rows of stretches, each added at once: good, bad and empty. Forged sketches
//! meet rows in the tests of sketches.

use checks::cases::{
    all_sketches, all_stretches, any_size, bad_stretches, drawing, spoil, LARGEST, Q,
};
use checks::draw::Draw;
use checks::naive::Pot;
use checks::shape::{Refusal, Settings, Sketch, Stretch, LARGEST_N};
use checks::version::Version;
use std::collections::BTreeSet;

checks::beside_naive!(
    every_row_of_2_stretches_in_some_kitchens_of_3_cells,
    every_bad_stretch_at_every_place,
    refusals_in_order,
    rows_in_small_kitchens,
    rows_in_middle_kitchens,
    rows_in_large_kitchens,
    long_rows,
);
checks::beside_peer!(
    rows_of_any_stretches,
    long_rows_of_any_stretches,
    a_row_that_raises_the_level_often,
);

/// One add after the other.
fn singly<V: Version>(sketch: &Sketch, row: &[Stretch]) -> Sketch {
    row.iter().fold(*sketch, |sketch, &(lo, hi)| {
        V::add(&sketch, lo, hi).unwrap()
    })
}

/// A good row gives what single adds give, in one part or in two, and in any
/// order; with bad stretches in it, it is refused for the first of them.
fn good_and_bad<V: Version>(draw: &mut Draw, sketch: &Sketch, mut row: Vec<Stretch>) {
    let after = singly::<V>(sketch, &row);
    for cut in 0..=row.len() {
        let (first, second) = row.split_at(cut);
        let between = V::add_row(sketch, first).unwrap();
        assert!(V::add_row(&between, second) == Ok(after), "{cut} {row:?}");
    }
    draw.shuffle(&mut row);
    assert!(V::add_row(sketch, &row) == Ok(after), "{row:?}");
    assert!(V::add_row(sketch, &[]) == Ok(*sketch));
    if !row.is_empty() {
        first_bad_is_named::<V>(draw, sketch, row);
    }
}

fn first_bad_is_named<V: Version>(draw: &mut Draw, sketch: &Sketch, mut row: Vec<Stretch>) {
    let place = spoil(draw, sketch.settings.n, &mut row);
    let refusal = V::add_row(sketch, &row).err();
    assert_eq!(refusal, Some(Refusal::stretch_at(place)), "{row:?}");
}

/// Each sketch, also at levels higher than its cells need, and each row of two
/// stretches, good and bad.
fn every_row_of_2_stretches_in_some_kitchens_of_3_cells<V: Version>() {
    let mut draw = drawing(701);
    let bad = bad_stretches(3);
    let stretches: Vec<Stretch> = all_stretches(3).chain(bad).collect();
    for _ in 0..40 {
        let capacity = draw.from_to(1, 3);
        let settings = draw.settings(3);
        let settings = Settings {
            capacity,
            ..settings
        };
        for sketch in all_sketches(settings).iter().map(Pot::shape) {
            for &one in &stretches {
                for &two in &stretches {
                    let first_bad = [one, two].iter().position(|stretch| bad.contains(stretch));
                    let expected = match first_bad {
                        Some(place) => Err(Refusal::stretch_at(place as u32)),
                        None => Ok(singly::<V>(&sketch, &[one, two])),
                    };
                    assert!(V::add_row(&sketch, &[one, two]) == expected);
                }
            }
        }
    }
}

/// Alone among good ones, and with bad ones after it.
fn every_bad_stretch_at_every_place<V: Version>() {
    for n in [1, 2, 10] {
        let settings = Settings {
            n,
            p: 10 * n + 1,
            a: 1,
            b: 0,
            capacity: 2,
        };
        let sketch = V::open(&settings).unwrap();
        for bad in bad_stretches(n) {
            for count in 1..=8 {
                for place in 0..count {
                    let mut row = vec![(1, n); count];
                    let expected = Err(Refusal::stretch_at(place as u32));
                    row[place] = bad;
                    assert_eq!(V::add_row(&sketch, &row), expected);
                    row[place + 1..].fill(bad);
                    assert_eq!(V::add_row(&sketch, &row), expected);
                }
            }
        }
    }
}

/// What is no sketch comes before every row, also one that has no stretch.
fn refusals_in_order<V: Version>() {
    let sketch = V::add(&V::open(&Q).unwrap(), 2, 7).unwrap();
    let zero = Sketch::default();
    let numbers = [0, 1, 2, 3, 6, 7, 10, 11, u32::MAX];
    assert_eq!(V::add_row(&zero, &[]), Err(Refusal::SHAPE));
    for lo in numbers {
        for hi in numbers {
            let row = [(2, 7), (lo, hi)];
            let single = V::add(&sketch, lo, hi);
            let at_place = |refusal| Refusal {
                place: 1,
                ..refusal
            };
            assert_eq!(V::add_row(&sketch, &row), single.map_err(at_place));
            assert_eq!(V::add_row(&sketch, &row[1..]), single);
            assert_eq!(V::add_row(&zero, &row), Err(Refusal::SHAPE));
        }
    }
}

/// Rows of up to so many stretches, to an opened sketch and to one with cells.
fn rows_of<V: Version>(draw: &mut Draw, settings: Settings, longest: u32, most: u32) {
    let empty = V::open(&settings).unwrap();
    let (lo, hi) = draw.stretch(settings.n, longest);
    for sketch in [empty, V::add(&empty, lo, hi).unwrap()] {
        let count = draw.from_to(0, most);
        let row = draw.row(count, settings.n, longest);
        good_and_bad::<V>(draw, &sketch, row);
    }
}

fn rows_in_small_kitchens<V: Version>() {
    let mut draw = drawing(702);
    for _ in 0..2_000 {
        let n = draw.from_to(1, 40);
        let mut settings = draw.settings(n);
        settings.capacity = draw.from_to(1, 12);
        rows_of::<V>(&mut draw, settings, n, 8);
    }
}

fn rows_in_middle_kitchens<V: Version>() {
    let mut draw = drawing(703);
    for _ in 0..60 {
        let n = draw.from_to(600, 6_000);
        let settings = draw.settings(n);
        let longest = draw.choose(&[3, 60, n]);
        rows_of::<V>(&mut draw, settings, longest, 8);
    }
}

fn rows_in_large_kitchens<V: Version>() {
    let mut draw = drawing(704);
    for _ in 0..60 {
        let n = any_size(&mut draw);
        let settings = draw.settings(n);
        rows_of::<V>(&mut draw, settings, 3_000, 8);
    }
}

/// A thousand stretches and more: the sample of all their cells.
fn long_rows<V: Version>() {
    let mut draw = drawing(705);
    for _ in 0..12 {
        let n = draw.from_to(600, 6_000);
        let settings = draw.settings(n);
        let empty = V::open(&settings).unwrap();
        let [count, longest] = [draw.from_to(1_000, 3_000), draw.choose(&[1, 3, 60])];
        let row = draw.row(count, n, longest);
        let cells: BTreeSet<u32> = row.iter().flat_map(|&(lo, hi)| lo..=hi).collect();
        let sample = Pot::sample(settings, 0, &cells).shape();
        assert!(V::add_row(&empty, &row) == Ok(sample));
        assert!(V::add_row(&sample, &row) == Ok(sample));
        first_bad_is_named::<V>(&mut draw, &empty, row);
    }
}

fn rows_of_any_stretches<V: Version>() {
    let mut draw = drawing(706);
    for _ in 0..3_000 {
        let n = any_size(&mut draw);
        let settings = draw.settings(n);
        let longest = draw.choose(&[1, 1_000.min(n), n]);
        rows_of::<V>(&mut draw, settings, longest, 12);
    }
}

fn long_rows_of_any_stretches<V: Version>() {
    let mut draw = drawing(707);
    for _ in 0..200 {
        let n = any_size(&mut draw);
        let settings = draw.settings(n);
        let empty = V::open(&settings).unwrap();
        let [count, longest] = [draw.from_to(1_000, 5_000), draw.choose(&[10.min(n), n])];
        let row = draw.row(count, n, longest);
        assert!(V::add_row(&empty, &row) == Ok(singly::<V>(&empty, &row)));
        first_bad_is_named::<V>(&mut draw, &empty, row);
    }
}

/// Each stretch is twice as long as the one before, and has it inside.
fn a_row_that_raises_the_level_often<V: Version>() {
    let empty = V::open(&LARGEST).unwrap();
    let mut row: Vec<Stretch> = (0..=27).map(|power| (1, 1 << power)).collect();
    row.push((1, LARGEST_N));
    let after = V::add(&empty, 1, LARGEST_N);
    assert!(after.is_ok_and(|sketch| sketch.level == 19));
    for start in 0..row.len() {
        assert!(V::add_row(&empty, &row[start..]) == after);
    }
}
