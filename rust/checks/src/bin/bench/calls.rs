//! The calls, timed one after the other.

use crate::arguments::{
    both_rows, both_settings, both_sketches, empty, exact_sketch, full_high_sketch, high_sketch,
    largest_sample, shown, stretch, BothRows, BothSettings, BothSketches,
};
use crate::timing::{cells_shown, with_commas, Line};
use checks::cases::LARGEST;
use checks::draw::Draw;
use checks::naive::{self, Pot};
use checks::shape::{Sketch, Walker, BLOCK_BYTES, LARGEST_IMAGE, LARGEST_N};
use std::hint::black_box;

pub const ARGUMENTS: usize = 500;
/// Rows, and the stretches of each.
const ROWS: usize = 50;
const ROW: u32 = 1_000;
/// Low, middle and high: of these levels about one cell in 2, in 4,096 and in
/// 67,108,864 passes.
pub const LEVELS: [(&str, u32); 3] = [("low", 1), ("middle", 12), ("high", 26)];
const LENGTHS: [u32; 4] = [100, 10_000, 1_000_000, 100_000_000];

pub fn time_counts(draw: &mut Draw) {
    for (name, level) in LEVELS {
        for cells in LENGTHS {
            let arguments: Vec<(BothSettings, (u32, u32))> = (0..ARGUMENTS)
                .map(|_| (both_settings(draw), stretch(draw, cells)))
                .collect();
            Line::time(
                format!("count, {name} level, {}", cells_shown(cells)),
                &arguments,
                |((_, settings), (lo, hi))| settings.count(level, *lo..=*hi),
                |((settings, _), (lo, hi))| settings.range_count(level, *lo, *hi),
            )
            .beside_each_cell(cells, &arguments, |((settings, _), (lo, hi))| {
                naive::range_count(settings, level, *lo, *hi)
            })
            .print();
        }
    }
}

/// The search runs from the cell that leaves so many cells up to n, so on short
/// stretches and high levels there is often none.
pub fn time_next_hits(draw: &mut Draw) {
    for (name, level) in LEVELS {
        for cells in LENGTHS {
            let from = LARGEST_N - cells + 1;
            let arguments: Vec<BothSettings> =
                (0..ARGUMENTS).map(|_| both_settings(draw)).collect();
            let tested = cells.min(1 << level);
            Line::time(
                format!("next hit, {name} level, {}", cells_shown(cells)),
                &arguments,
                |(_, settings)| settings.next_hit(level, from),
                |(settings, _)| settings.next_hit(level, from),
            )
            .beside_each_cell(tested, &arguments, |(settings, _)| {
                naive::next_hit(settings, level, from, LARGEST_N)
            })
            .print();
        }
    }
}

/// Each request goes on from the hit before. At the high level there are few
/// hits, so that most requests answer none.
pub fn time_walkers() {
    for (name, level) in LEVELS {
        let mut peer = Walker::open(LARGEST, level, 1, LARGEST_N).expect("a good stretch");
        let mut library = LARGEST
            .for_library()
            .walk(level, 1..=LARGEST_N)
            .expect("a good stretch");
        let mut position = 1;
        let requests = [(); ARGUMENTS];
        Line::time(
            format!("walker, {name} level"),
            &requests,
            |_| library.next(),
            |_| peer.next_hit(),
        )
        .beside_each_cell(1 << level, &requests, |_| {
            let hit = naive::next_hit(&LARGEST, level, position, LARGEST_N);
            position = hit.map_or(position, |cell| cell + 1);
            hit
        })
        .print();
    }
}

/// What the library answers on a fresh copy of a sketch, and the copy after it
/// looked at where it is.
pub fn on_copy<R>(sketch: &pot::Sketch, call: impl FnOnce(&mut pot::Sketch) -> R) -> R {
    let mut next = sketch.clone();
    let answer = call(&mut next);
    black_box(&next);
    answer
}

pub fn time_adds(draw: &mut Draw) {
    for sketch in [empty(), exact_sketch(), high_sketch()] {
        for cells in [1, 100, 10_000, 1_000_000, 100_000_000] {
            time_add(draw, sketch, cells);
        }
    }
}

fn time_add(draw: &mut Draw, sketch: Sketch, cells: u32) {
    let stretches: Vec<(u32, u32)> = (0..ARGUMENTS).map(|_| stretch(draw, cells)).collect();
    let (peer, library) = both_sketches(sketch);
    let pot = Pot {
        settings: LARGEST,
        level: sketch.level,
        cells: sketch.cells[..sketch.count as usize]
            .iter()
            .copied()
            .collect(),
    };
    Line::time(
        format!("add, {}, to {}", cells_shown(cells), shown(&sketch)),
        &stretches,
        |&(lo, hi)| on_copy(&library, |next| next.add(lo..=hi)),
        |&(lo, hi)| peer.add(lo, hi),
    )
    .beside_each_cell(cells, &stretches, |&(lo, hi)| pot.add_each(lo, hi))
    .print();
}

pub fn time_rows(draw: &mut Draw) {
    let sketch = full_high_sketch();
    for cells in [10, 10_000] {
        time_row(draw, sketch, cells);
    }
}

/// Beside the peer's rows, and beside single adds of the library.
fn time_row(draw: &mut Draw, sketch: Sketch, cells: u32) {
    let rows: Vec<BothRows> = (0..ROWS).map(|_| both_rows(draw, ROW, cells)).collect();
    let (peer, library) = both_sketches(sketch);
    let add_row = |(_, row): &BothRows| on_copy(&library, |next| next.add_all(row));
    let add_each = |(_, row): &BothRows| {
        on_copy(&library, |next| {
            row.iter()
                .try_for_each(|stretch| next.add(stretch.lo..=stretch.hi))
        })
    };
    let [count, cells] = [with_commas(ROW), cells_shown(cells)];
    let name = format!("row, {count} stretches of {cells}");
    Line::time_long(
        format!("{name}, to {}", shown(&sketch)),
        &rows,
        add_row,
        |(row, _)| peer.add_row(row),
    )
    .print();
    Line::time_long(
        format!("{name}, beside single adds"),
        &rows,
        add_row,
        add_each,
    )
    .print();
}

pub fn time_merges(draw: &mut Draw) {
    let high: Vec<BothSketches> = (0..ARGUMENTS)
        .map(|_| {
            let (lo, hi) = stretch(draw, 70_000_000);
            both_sketches(empty().add(lo, hi).expect("a good stretch"))
        })
        .collect();
    let exact = vec![both_sketches(exact_sketch()); ARGUMENTS];
    let none = vec![both_sketches(empty()); ARGUMENTS];
    time_merge("merge, two at a high level", &high, &high[1..]);
    time_merge("merge, one at a high level with itself", &high, &high);
    time_merge(
        "merge, one at level 0 with one at a high level",
        &exact,
        &high,
    );
    time_merge("merge, one at level 0 with an empty one", &exact, &none);
    time_merge("merge, two empty ones", &none, &none);
}

fn time_merge(name: &str, ones: &[BothSketches], twos: &[BothSketches]) {
    let pairs: Vec<_> = ones.iter().zip(twos).collect();
    Line::time(
        name.to_string(),
        &pairs,
        |((_, one), (_, two))| on_copy(one, |next| next.merge(two)),
        |((one, _), (two, _))| one.merge(two),
    )
    .print();
}

/// The check of a block by itself: how much longer a read takes that ends at the
/// check of its fifth block than one that ends at its first, for each block more.
pub fn time_checks() {
    let mut image = [0; LARGEST_IMAGE];
    let written = largest_sample().write(&mut image);
    assert_eq!(written, Ok(LARGEST_IMAGE));
    let [five, one] = [LARGEST_IMAGE, BLOCK_BYTES].map(|length| {
        let mut image = image[..length].to_vec();
        image[length - 1] ^= 1;
        let images = vec![image; ARGUMENTS];
        Line::time(
            "check of a block".to_string(),
            &images,
            |image| pot::Sketch::try_from(&image[..]),
            |image| Sketch::read(image),
        )
    });
    five.each_beyond(&one, LARGEST_IMAGE / BLOCK_BYTES - 1)
        .print();
}

pub fn time_images() {
    for sketch in [empty(), exact_sketch(), high_sketch(), largest_sample()] {
        let sketches = vec![both_sketches(sketch); ARGUMENTS];
        let mut rooms = [[0; LARGEST_IMAGE]; 2];
        let [library_room, peer_room] = &mut rooms;
        Line::time(
            format!("write, {}", shown(&sketch)),
            &sketches,
            |(_, sketch)| sketch.write(library_room),
            |(sketch, _)| sketch.write(peer_room),
        )
        .print();
        let length = sketch.write(&mut rooms[1]).expect("room enough");
        let images = vec![rooms[1][..length].to_vec(); ARGUMENTS];
        Line::time(
            format!("read, {}", shown(&sketch)),
            &images,
            |image| pot::Sketch::try_from(&image[..]),
            |image| Sketch::read(image),
        )
        .print();
        Line::time(
            format!("estimate, {}", shown(&sketch)),
            &sketches,
            |(_, sketch)| sketch.estimate(),
            |(sketch, _)| sketch.estimate(),
        )
        .print();
    }
}
