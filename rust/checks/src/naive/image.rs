//! Images, byte by byte.

use super::settings::settings_are_good;
use super::sketch::is_sketch;
use crate::shape::{Refusal, Settings, Sketch, PLACES};

/// The check bytes of a block, from its two sums.
fn block_check(block: &[u8]) -> [u8; 4] {
    let mut sum: u128 = 0;
    let mut weighted: u128 = 0;
    for i in 1..=254 {
        let word = u128::from(block[2 * i - 2]) + 256 * u128::from(block[2 * i - 1]);
        sum += word;
        weighted += (255 - i as u128) * word;
    }
    let [sum, weighted] = [sum % 65_535, weighted % 65_535];
    [sum % 256, sum / 256, weighted % 256, weighted / 256].map(|byte| byte as u8)
}

/// Puts the right check at the end of a block.
pub fn seal(block: &mut [u8]) {
    let check = block_check(block);
    block[508..512].copy_from_slice(&check);
}

fn little_endian(number: u32, bytes: usize) -> Vec<u8> {
    (0..bytes as u32)
        .map(|place| (u64::from(number) / 256u64.pow(place) % 256) as u8)
        .collect()
}

fn number_at(image: &[u8], place: usize, bytes: usize) -> u32 {
    (0..bytes).fold(0, |number, i| {
        number + u32::from(image[place + i]) * 256u32.pow(i as u32)
    })
}

fn block(parts: &[Vec<u8>]) -> Vec<u8> {
    let mut block = parts.concat();
    block.resize(512, 0);
    seal(&mut block);
    block
}

/// The image of a sketch.
pub fn image(sketch: &Sketch) -> Vec<u8> {
    let settings = &sketch.settings;
    let mut image = block(&[
        vec![0x50, 0x4F, 0x54, 0x31],
        little_endian(settings.n, 4),
        little_endian(settings.p, 4),
        little_endian(settings.a, 4),
        little_endian(settings.b, 4),
        little_endian(settings.capacity, 2),
        little_endian(sketch.level, 2),
        little_endian(sketch.count, 2),
    ]);
    let kept = &sketch.cells[..sketch.count as usize];
    for (before, cells) in kept.chunks(126).enumerate() {
        let mut parts = vec![
            little_endian(before as u32 + 1, 2),
            little_endian(cells.len() as u32, 2),
        ];
        parts.extend(cells.iter().map(|&cell| little_endian(cell, 4)));
        image.extend(block(&parts));
    }
    image
}

/// Reads an image. The last rule, "all else", is taken as: these bytes are not
/// the image of the sketch that they name.
pub fn read(image: &[u8]) -> Result<Sketch, Refusal> {
    if image.is_empty() || image.len() > 2_560 || image.len() % 512 != 0 {
        return Err(Refusal::IMAGE);
    }
    for (number, block) in image.chunks(512).enumerate() {
        if block[508..] != block_check(block) {
            return Err(Refusal::check_of(number as u32));
        }
    }
    if image[..4] != [0x50, 0x4F, 0x54, 0x31] {
        return Err(Refusal::IMAGE);
    }
    let settings = Settings {
        n: number_at(image, 4, 4),
        p: number_at(image, 8, 4),
        a: number_at(image, 12, 4),
        b: number_at(image, 16, 4),
        capacity: number_at(image, 20, 2),
    };
    if !settings_are_good(&settings) {
        return Err(Refusal::SETTING);
    }
    match named_sketch(settings, image) {
        Some(sketch) if is_sketch(&sketch) && self::image(&sketch) == image => Ok(sketch),
        _ => Err(Refusal::IMAGE),
    }
}

/// The sketch that an image names, if all its cells have a place in the image.
fn named_sketch(settings: Settings, image: &[u8]) -> Option<Sketch> {
    let count = number_at(image, 24, 2);
    let mut sketch = Sketch {
        settings,
        level: number_at(image, 22, 2),
        count,
        cells: [0; PLACES],
    };
    for i in 0..count as usize {
        let place = 512 * (1 + i / 126) + 4 + 4 * (i % 126);
        if place >= image.len() {
            return None;
        }
        sketch.cells[i] = number_at(image, place, 4);
    }
    Some(sketch)
}
