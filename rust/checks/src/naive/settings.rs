//! Settings, hash, levels and passing; counting and finding; what a walker is.

use crate::shape::{Refusal, Settings, Walker};

/// Whether every setting is allowed.
pub fn settings_are_good(settings: &Settings) -> bool {
    let [n, p, a, b, capacity] = [
        settings.n,
        settings.p,
        settings.a,
        settings.b,
        settings.capacity,
    ]
    .map(u64::from);
    (1..=200_000_000).contains(&n)
        && (10 * n..=20 * n).contains(&p)
        && (1..=p - 1).contains(&a)
        && (0..=p - 1).contains(&b)
        && (1..=504).contains(&capacity)
        && greatest_common_divisor(a, p) == 1
}

/// Whether the plain engine takes a kitchen of this size.
pub fn is_small(settings: &Settings) -> bool {
    settings.n <= 4_096
}

/// Euclid's.
pub fn greatest_common_divisor(a: u64, b: u64) -> u64 {
    match a {
        0 => b,
        _ => greatest_common_divisor(b % a, a),
    }
}

/// h(x) = (a·x + b) mod p.
pub fn hash(settings: &Settings, cell: u32) -> u32 {
    let [a, b, p, x] = [settings.a, settings.b, settings.p, cell].map(u64::from);
    ((a * x + b) % p) as u32
}

/// p divided by 2^level, rounded down.
pub fn region(settings: &Settings, level: u32) -> u32 {
    (u64::from(settings.p) / 2u64.pow(level)) as u32
}

/// The greatest T with 2^T not above p.
pub fn top(settings: &Settings) -> u32 {
    let mut level = 0;
    while 2u64.pow(level + 1) <= u64::from(settings.p) {
        level += 1;
    }
    level
}

/// Whether the hash is below the region's size.
pub fn passes(settings: &Settings, level: u32, cell: u32) -> bool {
    hash(settings, cell) < region(settings, level)
}

/// How many cells of lo..hi pass.
pub fn range_count(settings: &Settings, level: u32, lo: u32, hi: u32) -> u32 {
    (lo..=hi)
        .filter(|&cell| passes(settings, level, cell))
        .count() as u32
}

/// The least passing cell of from..last.
pub fn next_hit(settings: &Settings, level: u32, from: u32, last: u32) -> Option<u32> {
    (from..=last).find(|&cell| passes(settings, level, cell))
}

/// Which refusal a settings call gets for its settings, level and stretch.
pub fn settings_call_refusal(
    settings: &Settings,
    level: u32,
    lo: u32,
    hi: u32,
) -> Result<(), Refusal> {
    if !settings_are_good(settings) {
        Err(Refusal::SETTING)
    } else if level > top(settings) {
        Err(Refusal::LEVEL)
    } else if lo < 1 || hi > settings.n || lo > hi {
        Err(Refusal::RANGE)
    } else {
        Ok(())
    }
}

/// Whether this is a good walker.
pub fn is_walker(walker: &Walker) -> bool {
    settings_are_good(&walker.settings)
        && walker.level <= top(&walker.settings)
        && walker.hi >= 1
        && walker.hi <= walker.settings.n
        && walker.position >= 1
        && walker.position <= walker.hi + 1
}
