//! Images: the writer and the reader.

use super::sketch::all;
use crate::shape::{demand, Refusal, Settings, Sketch, BLOCK_BYTES, LARGEST_IMAGE};

/// Cells a full block holds.
const CELLS_PER_BLOCK: usize = 126;
const FIRST_FOUR: [u8; 4] = *b"POT1";
/// Bytes of a block that its check covers.
const CHECKED_BYTES: usize = 508;
/// Bytes of block 0 in use before its check.
const HEAD_BYTES: usize = 26;
/// Bytes of a cell block before its cells.
const LABEL_BYTES: usize = 4;
/// The weights 254 down to 1 of a block's words.
const WEIGHTS: [u16; CHECKED_BYTES / 2] = {
    let mut weights = [0; CHECKED_BYTES / 2];
    let mut i = 0;
    while i < weights.len() {
        weights[i] = (weights.len() - i) as u16;
        i += 1;
    }
    weights
};

impl Sketch {
    /// Writes the image to the front of the room and answers its length; what
    /// follows the image stays untouched. Refusals: 4, 6.
    pub fn write(&self, room: &mut [u8]) -> Result<usize, Refusal> {
        self.check()?;
        let length = image_length(self.count as usize);
        let image = room.get_mut(..length).ok_or(Refusal::ROOM)?;
        let (head, cell_blocks) = image.split_at_mut(BLOCK_BYTES);
        self.write_head(head);
        let blocks = cell_blocks.chunks_exact_mut(BLOCK_BYTES);
        for ((block, cells), number) in blocks.zip(self.kept().chunks(CELLS_PER_BLOCK)).zip(1..) {
            write_cells(block, number, cells);
        }
        Ok(length)
    }

    /// The sketch of an image. Refusals: 8 for the length, 7, 8 for the first
    /// four bytes, 1, 8 for all else.
    pub fn read(image: &[u8]) -> Result<Sketch, Refusal> {
        let length = image.len();
        demand(
            (1..=LARGEST_IMAGE).contains(&length) && length % BLOCK_BYTES == 0,
            Refusal::IMAGE,
        )?;
        let mut blocks = image.chunks_exact(BLOCK_BYTES);
        if let Some(block) = blocks.position(|block| block[CHECKED_BYTES..] != check_of(block)) {
            return Err(Refusal::check_of(block as u32));
        }
        let (head, cell_blocks) = image.split_at(BLOCK_BYTES);
        demand(head[..4] == FIRST_FOUR, Refusal::IMAGE)?;
        let settings = read_settings(head);
        settings.check()?;
        read_sample(settings, head, cell_blocks).ok_or(Refusal::IMAGE)
    }

    fn write_head(&self, block: &mut [u8]) {
        let Settings {
            n,
            p,
            a,
            b,
            capacity,
        } = self.settings;
        block.fill(0);
        block[..4].copy_from_slice(&FIRST_FOUR);
        for (place, number) in [(4, n), (8, p), (12, a), (16, b)] {
            put_four(block, place, number);
        }
        for (place, number) in [(20, capacity), (22, self.level), (24, self.count)] {
            put_two(block, place, number);
        }
        seal(block);
    }
}

/// The length of an image with so many cells.
fn image_length(cells: usize) -> usize {
    BLOCK_BYTES * (1 + cells.div_ceil(CELLS_PER_BLOCK))
}

fn write_cells(block: &mut [u8], number: u32, cells: &[u32]) {
    block.fill(0);
    put_two(block, 0, number);
    put_two(block, 2, cells.len() as u32);
    for (place, cell) in block[LABEL_BYTES..].chunks_exact_mut(4).zip(cells) {
        place.copy_from_slice(&cell.to_le_bytes());
    }
    seal(block);
}

fn read_settings(head: &[u8]) -> Settings {
    Settings {
        n: four_at(head, 4),
        p: four_at(head, 8),
        a: four_at(head, 12),
        b: four_at(head, 16),
        capacity: two_at(head, 20),
    }
}

/// The sketch of an image that is good as far as the settings, if all the rest
/// is good.
fn read_sample(settings: Settings, head: &[u8], cell_blocks: &[u8]) -> Option<Sketch> {
    let mut sketch = Sketch::empty(settings, two_at(head, 22));
    sketch.count = two_at(head, 24);
    // A length that fits the count also keeps the count within the places.
    let fits = image_length(sketch.count as usize) == BLOCK_BYTES + cell_blocks.len();
    if !fits || !all_zero(&head[HEAD_BYTES..CHECKED_BYTES]) {
        return None;
    }
    let places = sketch.cells[..sketch.count as usize].chunks_mut(CELLS_PER_BLOCK);
    let blocks = cell_blocks.chunks_exact(BLOCK_BYTES);
    for ((block, cells), number) in blocks.zip(places).zip(1..) {
        read_cells(block, number, cells)?;
    }
    sketch.keeps_a_sample().then_some(sketch)
}

/// Reads a cell block that must hold exactly as many cells as asked for.
fn read_cells(block: &[u8], number: u32, cells: &mut [u32]) -> Option<()> {
    if two_at(block, 0) != number || two_at(block, 2) != cells.len() as u32 {
        return None;
    }
    let (used, unused) = block[LABEL_BYTES..CHECKED_BYTES].split_at(4 * cells.len());
    for (cell, place) in cells.iter_mut().zip(used.chunks_exact(4)) {
        *cell = four_at(place, 0);
    }
    all_zero(unused).then_some(())
}

/// The four check bytes of a block. Both sums fit 32 bits before they are
/// reduced: 65535 times the sum of 1..254 is below 2^32.
fn check_of(block: &[u8]) -> [u8; 4] {
    // Two plain passes, since the compiler runs each of them on vectors.
    let words = || {
        let pairs = block[..CHECKED_BYTES].chunks_exact(2);
        pairs.map(|pair| u32::from(u16::from_le_bytes([pair[0], pair[1]])))
    };
    let sum: u32 = words().sum();
    let weighted: u32 = words()
        .zip(WEIGHTS)
        .map(|(word, weight)| u32::from(weight) * word)
        .sum();
    let [a, b] = ((sum % 65_535) as u16).to_le_bytes();
    let [c, d] = ((weighted % 65_535) as u16).to_le_bytes();
    [a, b, c, d]
}

fn seal(block: &mut [u8]) {
    let check = check_of(block);
    block[CHECKED_BYTES..].copy_from_slice(&check);
}

fn all_zero(bytes: &[u8]) -> bool {
    all(bytes.iter(), |&byte| byte == 0)
}

fn two_at(block: &[u8], place: usize) -> u32 {
    u32::from(u16::from_le_bytes([block[place], block[place + 1]]))
}

fn four_at(block: &[u8], place: usize) -> u32 {
    two_at(block, place) | two_at(block, place + 2) << 16
}

/// Writes a number below 65536.
fn put_two(block: &mut [u8], place: usize, number: u32) {
    block[place..place + 2].copy_from_slice(&(number as u16).to_le_bytes());
}

fn put_four(block: &mut [u8], place: usize, number: u32) {
    block[place..place + 4].copy_from_slice(&number.to_le_bytes());
}
