//! The methods as somebody who depends on them meets them. What the calls behind
//! them answer is tested in `checks`, against other versions.

use pot::{calls, Estimate, Refusal, Settings, Sketch, Stretch, LARGEST_IMAGE, PLAIN_LIMIT};
use std::error::Error;

const Q: Settings = Settings {
    n: 10,
    p: 101,
    a: 37,
    b: 5,
    capacity: 16,
};

fn sketch_of(cells: std::ops::RangeInclusive<u32>) -> Sketch {
    let mut sketch = Sketch::open(Q).unwrap();
    sketch.add(cells).unwrap();
    sketch
}

#[test]
fn a_sketch_shows_its_parts() {
    let sketch = sketch_of(3..=5);
    assert_eq!(sketch.settings(), Q);
    assert_eq!((sketch.level(), sketch.cells()), (0, &[3, 4, 5][..]));
    assert_eq!(sketch.estimate(), Estimate::Exact(3));
    let shown = format!("{sketch:?}");
    assert!(shown.ends_with("level: 0, cells: [3, 4, 5] }"), "{shown}");
}

#[test]
fn estimates_say_which_kind_they_are() {
    let mut sketch = Sketch::open(Settings { capacity: 3, ..Q }).unwrap();
    sketch.add(1..=4).unwrap();
    assert_eq!(sketch.estimate(), Estimate::About(4.04));
    assert_eq!(sketch.estimate().value(), 4.04);
    assert_eq!(sketch.estimate().to_string(), "about 4");
    let two_thirds = Estimate::About(84.66666666666667);
    assert_eq!(two_thirds.to_string(), "about 84");
    assert_eq!(sketch_of(1..=4).estimate().to_string(), "4");
    assert_eq!(sketch_of(1..=4).estimate().value(), 4.0);
}

#[test]
fn a_refusal_changes_nothing() {
    let mut sketch = sketch_of(2..=7);
    let before = sketch.clone();
    let other = Sketch::open(Settings { b: 6, ..Q }).unwrap();
    assert_eq!(sketch.merge(&other), Err(Refusal::Unequal));
    assert_eq!(sketch.add(0..=3), Err(Refusal::BadRange));
    // Just what a call with lo above hi would be.
    #[allow(clippy::reversed_empty_ranges)]
    let backward = 4..=3;
    assert_eq!(sketch.add(backward), Err(Refusal::BadRange));
    let mut room = [0xA5; LARGEST_IMAGE];
    assert_eq!(sketch.write(&mut room[..1_023]), Err(Refusal::NoRoom));
    assert_eq!((sketch, room), (before, [0xA5; LARGEST_IMAGE]));
}

#[test]
fn a_row_is_added_whole_or_not_at_all() {
    let mut sketch = sketch_of(2..=3);
    let before = sketch.clone();
    assert_eq!(sketch.add_all(&[]), Ok(()));
    assert_eq!(sketch, before);
    let good = Stretch::from(5..=6);
    let bad = [(0, 3), (9, 11), (4, 3)].map(|(lo, hi)| Stretch { lo, hi });
    for stretch in bad {
        let row = [good, good, stretch, bad[0]];
        for cut in 0..3 {
            let first_bad = Refusal::BadStretch { place: 2 - cut };
            assert_eq!(sketch.add_all(&row[cut..]), Err(first_bad));
            assert_eq!(sketch, before);
        }
    }
    let row = [good, Stretch::from(4..=4), good];
    assert_eq!(sketch.add_all(&row), Ok(()));
    assert_eq!(sketch, sketch_of(2..=6));
}

#[test]
fn merges_are_the_same_in_any_order() {
    let [mut one, mut two] = [sketch_of(1..=4), sketch_of(3..=9)];
    let first = one.clone();
    one.merge(&two).unwrap();
    two.merge(&first).unwrap();
    assert_eq!(one, two);
    one.merge(&two).unwrap();
    assert_eq!((one, two), (sketch_of(1..=9), sketch_of(1..=9)));
}

#[test]
fn images_and_rows_come_back() {
    let sketch = sketch_of(1..=10);
    let mut image = sketch.to_image();
    assert_eq!(image.len(), 1_024);
    assert_eq!(Sketch::try_from(&image[..]).unwrap(), sketch);
    assert_eq!(Sketch::try_from(*sketch.as_row()).unwrap(), sketch);
    image[700] ^= 1;
    let damaged = Sketch::try_from(&image[..]);
    assert_eq!(damaged, Err(Refusal::BadCheck { block: 1 }));
    assert_eq!(Sketch::try_from(&[][..] as &[u8]), Err(Refusal::BadImage));
    assert_eq!(Sketch::try_from([0; calls::SKETCH]), Err(Refusal::NotOne));
}

#[test]
fn settings_calls_are_refused_by_cause() {
    let bad = Settings { a: 0, ..Q };
    assert_eq!(bad.count(7, 0..=11), Err(Refusal::BadSettings));
    assert_eq!(Q.count(7, 0..=11), Err(Refusal::BadLevel));
    assert_eq!(Q.count(6, 0..=11), Err(Refusal::BadRange));
    assert_eq!(bad.next_hit(7, 0), Err(Refusal::BadSettings));
    assert_eq!(Q.walk(7, 1..=10), Err(Refusal::BadLevel));
    assert_eq!(Q.walk(1, 1..=11), Err(Refusal::BadRange));
}

#[test]
fn the_plain_engine_answers_the_same() {
    for level in 0..=7 {
        assert_eq!(Q.plain_count(level, 2..=9), Q.count(level, 2..=9));
        assert_eq!(Q.plain_next_hit(level, 2), Q.next_hit(level, 2));
    }
    let mut one = Sketch::open(Settings { capacity: 3, ..Q }).unwrap();
    let mut two = one.clone();
    for cells in [1..=2, 2..=4, 6..=6, 9..=10, 0..=3] {
        assert_eq!(one.plain_add(cells.clone()), two.add(cells));
        assert_eq!(one, two);
    }
    assert_eq!((one.level(), one.cells()), (2, &[3][..]));
}

#[test]
fn the_plain_engine_has_a_limit() {
    let at = Settings {
        n: PLAIN_LIMIT,
        p: 65_537,
        ..Q
    };
    assert_eq!(at.plain_count(0, 1..=PLAIN_LIMIT), Ok(PLAIN_LIMIT));
    assert_eq!(at.plain_next_hit(0, PLAIN_LIMIT), Ok(Some(PLAIN_LIMIT)));
    let mut sketch = Sketch::open(at).unwrap();
    assert_eq!(sketch.plain_add(PLAIN_LIMIT..=PLAIN_LIMIT), Ok(()));
    assert_eq!(sketch.cells(), [PLAIN_LIMIT]);
    let above = Settings { n: at.n + 1, ..at };
    let mut sketch = Sketch::open(above).unwrap();
    let before = sketch.clone();
    let refusals = [
        above.plain_count(0, 1..=1).unwrap_err(),
        above.plain_next_hit(0, 1).unwrap_err(),
        sketch.plain_add(1..=1).unwrap_err(),
    ];
    assert_eq!(refusals.map(|refusal| refusal.number()), [1; 3]);
    assert_eq!(sketch, before);
}

#[test]
fn a_walker_is_an_iterator_that_ends_for_ever() {
    let mut walker = Q.walk(1, 2..=8).unwrap();
    assert_eq!(walker.by_ref().collect::<Vec<_>>(), [3, 6]);
    assert_eq!((walker.next(), walker.next()), (None, None));
    let tens: Vec<u32> = Q.walk(0, 1..=10).unwrap().map(|cell| 10 * cell).collect();
    assert_eq!(tens, [10, 20, 30, 40, 50, 60, 70, 80, 90, 100]);
}

#[test]
fn refusals_have_numbers_and_words() {
    for number in 1..=8 {
        let refusal = Refusal::from_number(number, 3).unwrap();
        assert_eq!(refusal.number(), number);
        let error: Box<dyn Error> = refusal.into();
        assert_eq!(error.to_string().contains('3'), number == 7, "{error}");
    }
    assert_eq!(Refusal::from_number(9, 0), None);
    let third = Refusal::BadStretch { place: 3 };
    assert_eq!(third.number(), Refusal::BadRange.number());
    assert!(third.to_string().starts_with("stretch 3 "), "{third}");
}
