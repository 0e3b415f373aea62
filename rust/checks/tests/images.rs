//! Images: written and read, torn, damaged, and never an image.

use checks::cases::{
    block_of_sum, change_image, drawing, image_of, sketches_of_every_length, LARGEST, WEIGHTS,
};
use checks::naive;
use checks::shape::{Refusal, Settings, BLOCK_BYTES, LARGEST_IMAGE};
use checks::version::Version;

checks::beside_naive!(
    written_and_read,
    writer_keeps_to_its_room,
    torn_images,
    changed_bytes_are_seen_in_their_block,
    sums_where_the_remainder_turns,
    sums_that_leave_0,
    changed_and_sealed_images,
    noise,
);
checks::beside_peer!(every_value_of_every_byte);

fn written_and_read<V: Version>() {
    for sketch in sketches_of_every_length() {
        let image = image_of::<V>(&sketch);
        assert!(image == naive::image(&sketch));
        assert!(V::read(&image) == Ok(sketch));
    }
}

/// Rooms shorter than the image, exact, and longer.
fn writer_keeps_to_its_room<V: Version>() {
    for sketch in sketches_of_every_length() {
        let image = naive::image(&sketch);
        for length in (0..=LARGEST_IMAGE + 40).chain([1_000_000]) {
            let mut room = vec![0xA5; length];
            let written = V::write(&sketch, &mut room);
            let used = written.unwrap_or(0);
            assert_eq!(written.is_ok(), length >= image.len());
            assert!(room[..used] == image[..used]);
            assert!(room[used..].iter().all(|&byte| byte == 0xA5));
        }
    }
}

fn torn_images<V: Version>() {
    for sketch in sketches_of_every_length() {
        let mut bytes = image_of::<V>(&sketch);
        let whole = bytes.len();
        for length in 0..whole {
            let read = V::read(&bytes[..length]);
            assert_eq!(read.err(), Some(Refusal::IMAGE), "{length} of {whole}");
        }
        // Too long: zeros, whose check is right, or the last block once more.
        let last_block = bytes[whole - BLOCK_BYTES..].to_vec();
        for more in [vec![0; 6 * BLOCK_BYTES], last_block, vec![0; 1_000_000]] {
            bytes.truncate(whole);
            bytes.extend(more);
            for length in (whole + 1..=bytes.len()).take(3_500) {
                assert!(V::read(&bytes[..length]).is_err());
            }
            assert!(V::read(&bytes).is_err());
        }
    }
}

/// Each byte of each image, changed in some way.
fn changed_bytes_are_seen_in_their_block<V: Version>() {
    let mut draw = drawing(601);
    for sketch in sketches_of_every_length() {
        let mut image = image_of::<V>(&sketch);
        for place in 0..image.len() {
            let change = draw.from_to(1, 255) as u8;
            image[place] ^= change;
            let expected = Refusal::check_of((place / BLOCK_BYTES) as u32);
            assert_eq!(V::read(&image).err(), Some(expected), "{place}");
            image[place] ^= change;
        }
    }
}

fn every_value_of_every_byte<V: Version>() {
    for sketch in sketches_of_every_length().into_iter().step_by(4) {
        let mut image = image_of::<V>(&sketch);
        for place in 0..image.len() {
            let expected = Refusal::check_of((place / BLOCK_BYTES) as u32);
            for change in 1..=255 {
                image[place] ^= change;
                assert_eq!(V::read(&image).err(), Some(expected), "{place}");
                image[place] ^= change;
            }
        }
    }
}

/// Blocks in which a sum is a multiple of 65535 or of 65536, or near one: with the
/// right check, and with either check word one less or one more, so that 65535 is
/// stored where 0 or 65534 is right.
fn sums_where_the_remainder_turns<V: Version>() {
    for weight in WEIGHTS {
        let most = 65_535 * (1..=254).map(weight).sum::<u32>();
        // Some 250 multiples of each, and the greatest sum.
        let between = (most / 65_535).div_ceil(254);
        for factor in [65_535, 65_536] {
            let multiples = (1..=most / factor).step_by(between as usize);
            let near = multiples.flat_map(|times| times * factor - 2..=times * factor + 2);
            let ends = [0, 1, 2, most - 1, most];
            for sum in near.chain(ends).filter(|&sum| sum <= most) {
                reads_one_check_only::<V>(block_of_sum(weight, sum));
            }
        }
    }
}

/// Of a block that is no image: its own check is right, and those beside it wrong.
fn reads_one_check_only<V: Version>(mut block: [u8; BLOCK_BYTES]) {
    naive::seal(&mut block);
    assert_eq!(V::read(&block).err(), Some(Refusal::IMAGE));
    for place in [508, 510] {
        let right = u16::from_le_bytes([block[place], block[place + 1]]);
        for stored in [right.wrapping_sub(1), right.wrapping_add(1)] {
            let mut wrong = block;
            wrong[place..place + 2].copy_from_slice(&stored.to_le_bytes());
            assert_eq!(V::read(&wrong).err(), Some(Refusal::check_of(0)));
        }
    }
}

/// Images written for b 0, 1, .. up to the first in which a check word of block 0
/// is 0, for each of the two. A stored 65535 is wrong there too.
fn sums_that_leave_0<V: Version>() {
    for place in [508, 510] {
        let (sketch, mut image) = (0..LARGEST.p)
            .map(|b| V::open(&Settings { b, ..LARGEST }).unwrap())
            .map(|sketch| (sketch, image_of::<V>(&sketch)))
            .find(|(_, image)| image[place..place + 2] == [0, 0])
            .expect("such a b");
        assert!(V::read(&image) == Ok(sketch));
        image[place..place + 2].fill(0xFF);
        assert_eq!(V::read(&image).err(), Some(Refusal::check_of(0)));
    }
}

/// Images with several changes, most of them sealed again, so that the rules
/// behind the check decide.
fn changed_and_sealed_images<V: Version>() {
    let mut draw = drawing(602);
    let sketches = sketches_of_every_length();
    let mut seen = [0; 10];
    for round in 0..60_000 {
        let sketch = if round % 2 == 0 {
            draw.choose(&sketches)
        } else {
            let n = draw.from_to(1, 500);
            let settings = draw.settings(n);
            let (lo, hi) = draw.stretch(n, n);
            V::add(&V::open(&settings).unwrap(), lo, hi).unwrap()
        };
        let mut image = naive::image(&sketch);
        for _ in 0..draw.from_to(1, 2) {
            change_image(&mut draw, &mut image);
        }
        if !draw.once_in(6) {
            image.chunks_exact_mut(BLOCK_BYTES).for_each(naive::seal);
        }
        let number = V::read(&image).map_or_else(|refusal| refusal.number, |_| 0);
        seen[number as usize] += 1;
    }
    println!("read, then refusals 1 to 9: {seen:?}");
    assert!([0, 1, 7, 8]
        .map(|number| seen[number])
        .iter()
        .all(|&times| times > 500));
}

/// Bytes that were never an image, of lengths good and bad.
fn noise<V: Version>() {
    let mut draw = drawing(603);
    for _ in 0..20_000 {
        let blocks = draw.from_to(0, 6) as usize;
        let length = match draw.from_to(0, 3) {
            0 => draw.from_to(0, 4_000) as usize,
            _ => blocks * BLOCK_BYTES,
        };
        let mut noise: Vec<u8> = (0..length).map(|_| draw.bits() as u8).collect();
        if draw.once_in(2) {
            noise.chunks_exact_mut(BLOCK_BYTES).for_each(naive::seal);
        }
        assert!(V::read(&noise).is_err());
    }
}
