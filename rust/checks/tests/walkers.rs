//! Walkers, good and forged.

use checks::cases::{any_size, drawing, forged_number, Q};
use checks::naive;
use checks::shape::{Settings, Walker};
use checks::version::Version;

checks::beside_naive!(forged_walkers_of_one_kitchen);
checks::beside_peer!(forged_walkers_of_any_kitchen);

fn forged_walkers_of_one_kitchen<V: Version>() {
    let bad_settings = Settings { b: 101, ..Q };
    let numbers = [0, 1, 2, 5, 6, 7, 9, 10, 11, 12, 32, u32::MAX - 1, u32::MAX];
    for settings in [Q, bad_settings, Settings::default()] {
        for level in numbers {
            for hi in numbers {
                for position in numbers {
                    let (answer, after) = V::step(&Walker {
                        settings,
                        level,
                        hi,
                        position,
                    });
                    // None and a refusal change nothing.
                    let moved = answer.is_ok_and(|hit| hit.is_some());
                    assert_eq!(after.position != position, moved);
                }
            }
        }
    }
}

fn forged_walkers_of_any_kitchen<V: Version>() {
    let mut draw = drawing(401);
    let mut still_good = 0;
    for _ in 0..100_000 {
        let n = any_size(&mut draw);
        let settings = draw.settings(n);
        let level = draw.from_to(0, naive::top(&settings));
        let (lo, hi) = draw.stretch(n, n);
        let mut walker = V::walker(&settings, level, lo, hi).unwrap();
        for _ in 0..draw.from_to(1, 2) {
            let place = draw.from_to(0, 7) as usize;
            let number = &mut places(&mut walker)[place];
            **number = forged_number(&mut draw, **number);
        }
        let good = naive::is_walker(&walker);
        assert_eq!(V::step(&walker).0.is_ok(), good, "{walker:?}");
        still_good += u32::from(good);
    }
    assert!(still_good > 1_000, "{still_good} were still good");
}

/// The places of a walker's row.
fn places(walker: &mut Walker) -> [&mut u32; 8] {
    let Walker {
        settings:
            Settings {
                n,
                p,
                a,
                b,
                capacity,
            },
        level,
        position,
        hi,
    } = walker;
    [n, p, a, b, capacity, level, position, hi]
}
