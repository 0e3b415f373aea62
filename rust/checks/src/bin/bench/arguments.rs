//! What the calls are timed on, in the types of the peer and of the library.

use checks::cases::LARGEST;
use checks::draw::Draw;
use checks::library::for_library;
use checks::shape::{Settings, Sketch, Stretch, Walker, LARGEST_N, PLAIN_LIMIT};

/// Settings of the plain engine's largest kitchen.
pub const SMALL: Settings = Settings {
    n: PLAIN_LIMIT,
    p: 65_537,
    a: 40_503,
    b: 31_415,
    capacity: 504,
};

/// The settings with another a and b, so that figures don't hang on one fold.
pub fn typical_settings(draw: &mut Draw, settings: Settings) -> Settings {
    loop {
        let drawn = Settings {
            a: draw.from_to(1, settings.p - 1),
            b: draw.from_to(0, settings.p - 1),
            ..settings
        };
        if drawn.check().is_ok() {
            return drawn;
        }
    }
}

/// Settings in the types of the peer and of the library.
pub type BothSettings = (Settings, pot::Settings);

pub fn both_settings(draw: &mut Draw) -> BothSettings {
    let settings = typical_settings(draw, LARGEST);
    (settings, settings.for_library())
}

pub fn stretch(draw: &mut Draw, cells: u32) -> Stretch {
    stretch_within(draw, LARGEST_N, cells)
}

pub fn stretch_within(draw: &mut Draw, n: u32, cells: u32) -> Stretch {
    let lo = draw.from_to(1, n - cells + 1);
    (lo, lo + cells - 1)
}

/// A row of stretches in the types of the peer and of the library.
pub type BothRows = (Vec<Stretch>, Vec<pot::Stretch>);

pub fn both_rows(draw: &mut Draw, count: u32, cells: u32) -> BothRows {
    let row: Vec<Stretch> = (0..count).map(|_| stretch(draw, cells)).collect();
    let library = for_library(&row);
    (row, library)
}

/// A sketch in the types of the peer and of the library.
pub type BothSketches = (Sketch, pot::Sketch);

pub fn both_sketches(sketch: Sketch) -> BothSketches {
    let library = pot::Sketch::try_from(sketch.row());
    (sketch, library.expect("a sketch"))
}

pub fn empty() -> Sketch {
    Sketch::open(LARGEST).expect("good settings")
}

pub fn exact_sketch() -> Sketch {
    spread(LARGEST, 250)
}

/// So many cells at level 0, far from each other.
pub fn spread(settings: Settings, count: u32) -> Sketch {
    let empty = Sketch::open(settings).expect("good settings");
    (1..=count).fold(empty, |sketch, i| {
        let cell = i * (settings.n / count);
        sketch.add(cell, cell).expect("a cell in 1..n")
    })
}

/// The sketch of half of all cells, at a high level.
pub fn high_sketch() -> Sketch {
    empty().add(1, LARGEST_N / 2).expect("a good stretch")
}

/// As many cells as the capacity, at a high level: those up to the last hit that
/// there is a place for.
pub fn full_high_sketch() -> Sketch {
    let level = high_sketch().level;
    let mut walker = Walker::open(LARGEST, level, 1, LARGEST_N).expect("a good stretch");
    let hits = (0..LARGEST.capacity).map(|_| walker.next_hit().expect("a walker"));
    let last = hits.last().flatten().expect("more hits than places");
    empty().add(1, last).expect("a good stretch")
}

pub fn shown(sketch: &Sketch) -> String {
    match sketch.count {
        0 => "an empty sketch".to_string(),
        count => format!("{count} cells at level {}", sketch.level),
    }
}

/// As many cells as the capacity.
pub fn largest_sample() -> Sketch {
    empty().add(1, LARGEST.capacity).expect("a good stretch")
}
