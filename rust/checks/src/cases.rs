//! Settings, stretches, sketches, forgeries and damaged images that the tests
//! run through, and the calls that they make by both engines.

use crate::draw::Draw;
use crate::naive::{self, Pot};
use crate::shape::{
    Refusal, Settings, Sketch, Stretch, BLOCK_BYTES, LARGEST_IMAGE, LARGEST_N, PLACES, PLAIN_LIMIT,
};
use crate::version::Version;
use std::collections::BTreeSet;

/// The settings Q of the kitchen tests.
pub const Q: Settings = Settings {
    n: 10,
    p: 101,
    a: 37,
    b: 5,
    capacity: 16,
};

/// Settings of the largest kitchen.
pub const LARGEST: Settings = Settings {
    n: LARGEST_N,
    p: 3_999_999_979,
    a: 2_718_281_828,
    b: 3_141_592_653,
    capacity: 504,
};

/// The stream of a seed, which it prints.
pub fn drawing(seed: u64) -> Draw {
    println!("seed {seed}");
    Draw::new(seed)
}

/// All good settings of a kitchen with n cells.
pub fn all_settings(n: u32, capacity: u32) -> impl Iterator<Item = Settings> {
    (10 * n..=20 * n).flat_map(move |p| {
        let coprime =
            (1..p).filter(move |&a| naive::greatest_common_divisor(a.into(), p.into()) == 1);
        coprime.flat_map(move |a| {
            (0..p).map(move |b| Settings {
                n,
                p,
                a,
                b,
                capacity,
            })
        })
    })
}

/// Good settings made bad in each way. Expects an even p, a 1 and b 0, so that just
/// one rule is broken, or with n that of p too.
pub fn bad_settings(good: Settings) -> [Settings; 11] {
    let Settings { n, p, .. } = good;
    let [none, too_many, most] = [0, LARGEST_N + 1, u32::MAX].map(|n| Settings { n, ..good });
    let [low, high] = [10 * n - 1, 20 * n + 1].map(|p| Settings { p, ..good });
    let [zero, shared, over] = [0, 2, p].map(|a| Settings { a, ..good });
    let [no_place, beyond] = [0, 505].map(|capacity| Settings { capacity, ..good });
    let lap = Settings { b: p, ..good };
    [
        none, too_many, most, low, high, zero, shared, over, lap, no_place, beyond,
    ]
}

/// All stretches of a kitchen with n cells.
pub fn all_stretches(n: u32) -> impl Iterator<Item = Stretch> {
    (1..=n).flat_map(move |lo| (lo..=n).map(move |hi| (lo, hi)))
}

/// Bad stretches of a kitchen with n cells: three of each kind, lo below 1, hi
/// above n, lo above hi, and three with several faults.
pub fn bad_stretches(n: u32) -> [Stretch; 12] {
    let below = [(0, 1), (0, n), (0, 0)];
    let above = [(1, n + 1), (n, n + 1), (1, u32::MAX)];
    let backward = [(2, 1), (n + 1, n), (u32::MAX, 1)];
    let several = [(n + 1, n + 1), (0, u32::MAX), (u32::MAX, 0)];
    let mut kinds = [below, above, backward, several].into_iter().flatten();
    std::array::from_fn(|_| kinds.next().expect("four times three"))
}

/// Makes one stretch or several of a row bad, which has one at least, and answers
/// the place of the first.
pub fn spoil(draw: &mut Draw, n: u32, row: &mut [Stretch]) -> u32 {
    let last = row.len() as u32 - 1;
    let places = match draw.from_to(0, 3) {
        0 => vec![0],
        1 => vec![last],
        2 => vec![draw.from_to(0, last)],
        _ => (0..5).map(|_| draw.from_to(0, last)).collect(),
    };
    for &place in &places {
        row[place as usize] = draw.choose(&bad_stretches(n));
    }
    places.into_iter().min().expect("one at least")
}

/// All sketches under given settings: each level with each set of at most
/// capacity passing cells. For small n.
pub fn all_sketches(settings: Settings) -> Vec<Pot> {
    let mut pots = Vec::new();
    for level in 0..=naive::top(&settings) {
        for chosen in 0..1u32 << settings.n {
            let cells: BTreeSet<u32> = (1..=settings.n)
                .filter(|cell| chosen >> (cell - 1) & 1 == 1)
                .collect();
            let pass = cells
                .iter()
                .all(|&cell| naive::passes(&settings, level, cell));
            if pass && cells.len() <= settings.capacity as usize {
                pots.push(Pot {
                    settings,
                    level,
                    cells,
                });
            }
        }
    }
    pots
}

/// The passing cells of a stretch, by testing each cell.
pub fn passing(settings: &Settings, level: u32, lo: u32, hi: u32) -> Vec<u32> {
    (lo..=hi)
        .filter(|&cell| naive::passes(settings, level, cell))
        .collect()
}

/// A size from 1 to the largest, each number of digits equally likely.
pub fn any_size(draw: &mut Draw) -> u32 {
    let digits = draw.from_to(1, 9);
    let high = 10u32.pow(digits).min(LARGEST_N + 1) - 1;
    if draw.once_in(3) {
        LARGEST_N
    } else {
        draw.from_to(10u32.pow(digits - 1), high)
    }
}

/// Settings near and beyond the ends of their rules, about one in ten good.
pub fn extreme_settings(draw: &mut Draw) -> Settings {
    let ends = [0, 1, 2, LARGEST_N - 1, LARGEST_N, LARGEST_N + 1, u32::MAX];
    let n = match draw.from_to(0, 3) {
        0 => draw.choose(&ends),
        _ => draw.from_to(1, LARGEST_N),
    };
    let lowest_p = n.min(LARGEST_N) * 10;
    let p = match draw.from_to(0, 3) {
        0 => near(draw, n.wrapping_mul(10)),
        1 => near(draw, n.wrapping_mul(20)),
        _ => draw.from_to(lowest_p, 2 * lowest_p),
    };
    Settings {
        n,
        p,
        a: up_to_about(draw, p),
        b: up_to_about(draw, p),
        capacity: draw.choose(&[0, 1, 2, 503, 504, 504, 504, 505, u32::MAX]),
    }
}

fn near(draw: &mut Draw, number: u32) -> u32 {
    draw.choose(&[number.wrapping_sub(1), number, number.wrapping_add(1)])
}

/// A number from 0 to p, or one time in four one at the ends or beyond.
fn up_to_about(draw: &mut Draw, p: u32) -> u32 {
    if draw.once_in(4) {
        draw.choose(&[0, 1, p.wrapping_sub(1), p, p.wrapping_add(1), u32::MAX])
    } else {
        draw.from_to(0, p)
    }
}

/// The passing cells that a walker gives before its first none.
pub fn walk_all<V: Version>(settings: &Settings, level: u32, lo: u32, hi: u32) -> Vec<u32> {
    let mut walker = V::walker(settings, level, lo, hi).unwrap();
    let mut cells = Vec::new();
    loop {
        let (hit, after) = V::step(&walker);
        let Some(cell) = hit.unwrap() else {
            assert_eq!(after, walker);
            return cells;
        };
        walker.position = cell + 1;
        assert_eq!(after, walker);
        cells.push(cell);
    }
}

/// The image of a sketch.
pub fn image_of<V: Version>(sketch: &Sketch) -> Vec<u8> {
    let mut room = [0; LARGEST_IMAGE];
    let length = V::write(sketch, &mut room).unwrap();
    room[..length].to_vec()
}

/// A number for a place: near to what stands there, at the ends, or any.
pub fn forged_number(draw: &mut Draw, present: u32) -> u32 {
    let any = draw.bits() as u32;
    let near = [present.wrapping_sub(1), present.wrapping_add(1)];
    draw.choose(&[0, 1, near[0], near[1], any, u32::MAX])
}

/// A few changes to a good sketch, some of which leave it good.
pub fn forge(draw: &mut Draw, sketch: &Sketch) -> Sketch {
    let mut forged = *sketch;
    for _ in 0..draw.from_to(1, 2) {
        let used = forged.count.min(PLACES as u32);
        let place = match draw.from_to(0, 2) {
            0 => used.saturating_sub(1),
            1 => used.min(PLACES as u32 - 1),
            _ => draw.from_to(0, PLACES as u32 - 1),
        } as usize;
        let settings = &mut forged.settings;
        let any = draw.bits() as u32;
        match draw.from_to(0, 14) {
            0 => settings.n = draw.choose(&[0, settings.n.wrapping_sub(1), any, u32::MAX]),
            1 => settings.p = draw.choose(&[0, settings.p.wrapping_add(1), any, u32::MAX]),
            2 => settings.a = draw.choose(&[0, settings.a.wrapping_add(1), any, u32::MAX]),
            3 => settings.b = draw.choose(&[0, settings.b.wrapping_add(1), any, u32::MAX]),
            4 => settings.capacity = draw.choose(&[0, settings.capacity.wrapping_sub(1), 504, 505]),
            5 => forged.level = draw.choose(&[0, 1, 31, 32, 33, 63, 64, u32::MAX]),
            6 => forged.level = forged.level.wrapping_add(1),
            7 => forged.count = draw.choose(&[0, 503, 504, 505, any, u32::MAX]),
            8 => forged.count = forged.count.wrapping_add(1),
            9 => forged.count = forged.count.wrapping_sub(1),
            10 => forged.cells[place] = draw.choose(&[0, 1, any, u32::MAX]),
            11 => forged.cells[place] = forged.cells[place].wrapping_add(1),
            12 => forged.cells[place] = forged.cells[place.saturating_sub(1)],
            13 => forged
                .cells
                .swap(place, draw.from_to(0, PLACES as u32 - 1) as usize),
            _ => forged.cells[place] = settings.n.wrapping_add(draw.from_to(0, 1)),
        }
    }
    forged
}

/// A sketch forged in each way that makes it none. Expects the settings that
/// [`bad_settings`] does, level 0, a place to spare, and three cells.
pub fn forgeries(good: &Sketch) -> Vec<Sketch> {
    let Settings { n, capacity, .. } = good.settings;
    let top = naive::top(&good.settings);
    let settings = bad_settings(good.settings).map(|settings| Sketch { settings, ..*good });
    // At the top at most one of the cells passes.
    let levels = [top, top + 1, 32, u32::MAX].map(|level| Sketch { level, ..*good });
    let counts = [0, 2, 4, capacity + 1, u32::MAX].map(|count| Sketch { count, ..*good });
    let unordered = [(0, good.cells[1]), (1, good.cells[2]), (0, good.cells[2])];
    let outside = [(0, 0), (2, n + 1), (2, u32::MAX)];
    let behind = [(3, n), (3, u32::MAX), (PLACES - 1, 1)];
    let cells = [unordered, outside, behind].concat();
    let changed: Vec<Sketch> = cells
        .into_iter()
        .map(|(place, cell)| {
            let mut forged = *good;
            forged.cells[place] = cell;
            forged
        })
        .collect();
    [
        &[Sketch::default()],
        &settings[..],
        &levels,
        &counts,
        &changed,
    ]
    .concat()
}

/// What the plain engine must answer where the first answers this: the same, or 1
/// for n above the limit. Only what is no sketch comes before that.
pub fn plainly<T: PartialEq>(settings: &Settings, first: Result<T, Refusal>) -> Result<T, Refusal> {
    if settings.n <= PLAIN_LIMIT || first == Err(Refusal::SHAPE) {
        first
    } else {
        Err(Refusal::SETTING)
    }
}

/// The count by the first engine. The plain one must answer as [`plainly`] says.
pub fn count_by_both<V: Version>(
    settings: &Settings,
    level: u32,
    lo: u32,
    hi: u32,
) -> Result<u32, Refusal> {
    let first = V::count(settings, level, lo, hi);
    let plain = V::plain_count(settings, level, lo, hi);
    assert_eq!(
        plain,
        plainly(settings, first),
        "{settings:?} {level} {lo} {hi}"
    );
    first
}

/// The same for the next hit.
pub fn next_hit_by_both<V: Version>(
    settings: &Settings,
    level: u32,
    from: u32,
) -> Result<Option<u32>, Refusal> {
    let first = V::next_hit(settings, level, from);
    let plain = V::plain_next_hit(settings, level, from);
    assert_eq!(
        plain,
        plainly(settings, first),
        "{settings:?} {level} {from}"
    );
    first
}

/// The same for an add.
pub fn add_by_both<V: Version>(sketch: &Sketch, lo: u32, hi: u32) -> Result<Sketch, Refusal> {
    let first = V::add(sketch, lo, hi);
    let plain = V::plain_add(sketch, lo, hi);
    assert!(
        plain == plainly(&sketch.settings, first),
        "{sketch:?} {lo} {hi}"
    );
    first
}

/// Sketches with images of every length, at level 0 and above.
pub fn sketches_of_every_length() -> Vec<Sketch> {
    let settings = Settings {
        n: 200_000,
        p: 2_000_003,
        a: 1_234_567,
        b: 89,
        capacity: 504,
    };
    let empty = Sketch::open(settings).unwrap();
    let mut sketches = vec![empty];
    for last in [1, 100, 126, 127, 200, 252, 253, 300, 378, 379, 503, 504] {
        sketches.push(empty.add(1, last).unwrap());
    }
    for last in [505, 10_000, 200_000] {
        sketches.push(empty.add(1, last).unwrap());
    }
    let largest = Settings {
        n: LARGEST_N,
        p: 4_000_000_000,
        a: 3_999_999_999,
        b: 3_999_999_998,
        capacity: 504,
    };
    sketches.push(Sketch::open(largest).unwrap().add(1, LARGEST_N).unwrap());
    sketches
}

/// The weights of a block's words w1 to w254 in its two sums.
pub const WEIGHTS: [fn(u32) -> u32; 2] = [|_| 1, |i| 255 - i];

/// A block whose words, each times its weight, have this sum; its check isn't
/// filled in. Expects a sum that words of 16 bits reach.
pub fn block_of_sum(weight: fn(u32) -> u32, sum: u32) -> [u8; BLOCK_BYTES] {
    let mut block = [0; BLOCK_BYTES];
    let mut rest = sum;
    for (place, i) in block.chunks_exact_mut(2).zip(1..=254) {
        let word = (rest / weight(i)).min(65_535);
        rest -= weight(i) * word;
        place.copy_from_slice(&(word as u16).to_le_bytes());
    }
    assert_eq!(rest, 0, "{sum} is too much for a block");
    block
}

/// One change to an image; its checks are left as they are.
pub fn change_image(draw: &mut Draw, image: &mut Vec<u8>) {
    let byte = draw.bits() as u8;
    let small = draw.choose(&[0, 1, 2, 3, byte]);
    let last = image.len() as u32 - 1;
    match draw.from_to(0, 7) {
        // A number of the head: the four bytes, a setting, level, count.
        0 | 1 => image[draw.from_to(0, 25) as usize] = small,
        2 => image[draw.from_to(20, 25) as usize] = small,
        3 => image[draw.from_to(26, 507) as usize] = small,
        // A cell block: its number, its cells in use, a cell, the rest.
        4 if last > 511 => {
            let block = draw.from_to(1, last / 512);
            image[(512 * block + draw.from_to(0, 7)) as usize] = small;
        }
        5 => image[draw.from_to(0, last) as usize] = small,
        // One block more or less.
        6 if last < 2_048 && draw.once_in(3) => image.extend([0; BLOCK_BYTES]),
        6 if last > 511 && draw.once_in(3) => image.truncate(image.len() - BLOCK_BYTES),
        // Two cells exchanged.
        7 if last > 511 => {
            for i in 516..520 {
                image.swap(i, i + 4);
            }
        }
        _ => {}
    }
}
