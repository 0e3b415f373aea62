//! The kitchen tests (RULES: Kitchen tests): counts, next hits and adds by both
//! engines.

use checks::cases::{add_by_both, count_by_both, next_hit_by_both, walk_all, Q};
use checks::naive;
use checks::shape::{Estimate, Refusal, Settings, BLOCK_BYTES, LARGEST_IMAGE};
use checks::version::Version;

checks::beside_naive!(passing, samples, check_words, limits);

#[test]
fn hashes_and_regions() {
    let hashes: Vec<u32> = (1..=10).map(|cell| naive::hash(&Q, cell)).collect();
    assert_eq!(hashes, [42, 79, 15, 52, 89, 25, 62, 99, 35, 72]);
    let regions: Vec<u32> = (0..=6).map(|level| naive::region(&Q, level)).collect();
    assert_eq!(regions, [101, 50, 25, 12, 6, 3, 1]);
    assert_eq!(naive::top(&Q), 6);
    assert!(!naive::passes(&Q, 2, 6));
}

/// Tests 3 to 6.
fn passing<V: Version>() {
    assert_eq!(walk_all::<V>(&Q, 1, 1, 10), [1, 3, 6, 9]);
    assert_eq!(walk_all::<V>(&Q, 2, 1, 10), [3]);
    assert_eq!(count_by_both::<V>(&Q, 3, 1, 10), Ok(0));
    let down = Settings { a: 100, b: 0, ..Q };
    assert_eq!(count_by_both::<V>(&down, 1, 1, 10), Ok(0));
    assert_eq!(next_hit_by_both::<V>(&down, 1, 1), Ok(None));
    let up = Settings { a: 1, b: 0, ..Q };
    assert_eq!(walk_all::<V>(&up, 4, 1, 10), [1, 2, 3, 4, 5]);
}

/// Tests 7 and 8.
fn samples<V: Version>() {
    let one_place = Settings {
        a: 1,
        capacity: 1,
        ..Q
    };
    let add_all = |b| {
        let empty = V::open(&Settings { b, ..one_place }).unwrap();
        add_by_both::<V>(&empty, 1, 10).unwrap()
    };
    let none = add_all(0);
    assert_eq!((none.level, none.count), (6, 0));
    assert_eq!(V::estimate(&none), Ok(Estimate::About(0.0)));
    let one = add_all(100);
    assert_eq!((one.level, one.count, one.cells[0]), (6, 1, 1));
    assert_eq!(V::estimate(&one), Ok(Estimate::About(101.0)));
}

/// Test 9.
fn check_words<V: Version>() {
    let sketch = V::add(&V::open(&Q).unwrap(), 1, 1).unwrap();
    assert_eq!(V::estimate(&sketch), Ok(Estimate::Exact(1)));
    let mut room = [0; LARGEST_IMAGE];
    assert_eq!(V::write(&sketch, &mut room), Ok(2 * BLOCK_BYTES));
    let check = [3, 0, (759 % 256) as u8, (759 / 256) as u8];
    assert_eq!(room[512 + 508..1_024], check);
}

/// Tests 10 and 11.
fn limits<V: Version>() {
    let opens = |settings: Settings| V::open(&settings).map(|_| ());
    for p in [99, 201] {
        assert_eq!(opens(Settings { p, ..Q }), Err(Refusal::SETTING));
    }
    assert_eq!(opens(Settings { p: 100, a: 3, ..Q }), Ok(()));
    let shared = Settings { p: 100, a: 50, ..Q };
    assert_eq!(opens(shared), Err(Refusal::SETTING));
    assert_eq!(count_by_both::<V>(&Q, 7, 1, 10), Err(Refusal::LEVEL));
    assert_eq!(opens(Settings { capacity: 504, ..Q }), Ok(()));
    let over = Settings { capacity: 505, ..Q };
    assert_eq!(opens(over), Err(Refusal::SETTING));
    let empty = V::open(&Q).unwrap();
    assert_eq!(V::write(&empty, &mut [0; 511]), Err(Refusal::ROOM));
    assert_eq!(V::write(&empty, &mut [0; 512]), Ok(512));
}
