//! The plain engine, timed beside the first in the largest kitchen that it takes.

use crate::arguments::{both_sketches, shown, spread, stretch_within, typical_settings, SMALL};
use crate::calls::{on_copy, ARGUMENTS, LEVELS};
use crate::timing::{cells_shown, Line};
use checks::draw::Draw;
use checks::shape::{Sketch, Stretch};

/// Stretches to add: each takes the plain engine a millisecond or two.
const ADDS: usize = 50;
/// A far hit lies behind this cell.
const FAR: u32 = 4_000;

pub fn time_plain(draw: &mut Draw) {
    for cells in [100, SMALL.n] {
        time_count(draw, cells);
    }
    time_next_hit(draw);
    for count in [SMALL.capacity / 2, SMALL.capacity] {
        time_add(draw, spread(SMALL, count), 100);
    }
}

fn time_count(draw: &mut Draw, cells: u32) {
    let (name, level) = LEVELS[0];
    let arguments: Vec<(pot::Settings, Stretch)> = (0..ARGUMENTS)
        .map(|_| {
            let settings = typical_settings(draw, SMALL).for_library();
            (settings, stretch_within(draw, SMALL.n, cells))
        })
        .collect();
    let cells = cells_shown(cells);
    Line::time(
        format!("plain count, {name} level, {cells}, beside the first"),
        &arguments,
        |(settings, (lo, hi))| settings.plain_count(level, *lo..=*hi),
        |(settings, (lo, hi))| settings.count(level, *lo..=*hi),
    )
    .print();
}

fn time_next_hit(draw: &mut Draw) {
    let (name, level) = LEVELS[1];
    let arguments: Vec<pot::Settings> = (0..ARGUMENTS).map(|_| with_far_hit(draw, level)).collect();
    Line::time(
        format!("plain next hit, {name} level, a far one, beside the first"),
        &arguments,
        |settings| settings.plain_next_hit(level, 1),
        |settings| settings.next_hit(level, 1),
    )
    .print();
}

fn with_far_hit(draw: &mut Draw, level: u32) -> pot::Settings {
    loop {
        let settings = typical_settings(draw, SMALL);
        let hit = settings.next_hit(level, 1).expect("good settings");
        if hit.is_some_and(|cell| cell > FAR) {
            return settings.for_library();
        }
    }
}

fn time_add(draw: &mut Draw, sketch: Sketch, cells: u32) {
    let stretches: Vec<Stretch> = (0..ADDS)
        .map(|_| stretch_within(draw, SMALL.n, cells))
        .collect();
    let (_, library) = both_sketches(sketch);
    let [cells, kept] = [cells_shown(cells), shown(&sketch)];
    Line::time_long(
        format!("plain add, {cells}, to {kept}, beside the first"),
        &stretches,
        |&(lo, hi)| on_copy(&library, |next| next.plain_add(lo..=hi)),
        |&(lo, hi)| on_copy(&library, |next| next.add(lo..=hi)),
    )
    .print();
}
