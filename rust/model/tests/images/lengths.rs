//! Files of every short length, and of those around the longest, with each of
//! the endings.

use crank_model::cover::Cover;
use crank_model::image::KINDS;
use crank_model::rng::Rng;

use super::{by_callers, demand_loads, image_of, same_load, sized, ENDINGS};

/// The last `length` bytes of a file, or all of it after so many bytes that it
/// has this length.
fn of_length(rng: &mut Rng, file: &[u8], length: usize) -> Vec<u8> {
    match file.len().checked_sub(length) {
        Some(cut) => file[cut..].to_vec(),
        None => [rng.bytes(length - file.len()), file.to_vec()].concat(),
    }
}

/// The smallest images, 96 bytes of kind 1 and 104 of kind 2, and the second
/// with an end that is of neither kind.
fn smallest(rng: &mut Rng) -> [Vec<u8>; 3] {
    let machine = sized(rng, 1, 1, 0);
    let [first, second] = KINDS.map(|kind| image_of(kind, &machine, &[]));
    assert_eq!((first.len(), second.len()), (96, 104));
    let mut wrong = second.clone();
    wrong[103] = 0x33;
    [first, second, wrong]
}

/// The length, and the refusals with each of the endings.
const SHORT: [(usize, [u32; 3]); 18] = [
    (4, [1, 1, 1]),
    (90, [1, 1, 1]),
    (91, [1, 1, 1]),
    (92, [5, 1, 2]),
    (93, [5, 1, 2]),
    (94, [5, 1, 2]),
    (95, [5, 1, 2]),
    (96, [0, 1, 2]),
    (97, [0, 1, 2]),
    (98, [0, 1, 2]),
    (99, [0, 1, 2]),
    (100, [0, 5, 2]),
    (101, [0, 5, 2]),
    (102, [0, 5, 2]),
    (103, [0, 5, 2]),
    (104, [0, 0, 2]),
    (105, [0, 0, 2]),
    (110, [0, 0, 2]),
];

const LONG: [(usize, [u32; 3]); 5] = [
    (65_535, [0, 0, 2]),
    (65_536, [0, 0, 2]),
    (65_537, [1, 1, 1]),
    (65_544, [1, 1, 1]),
    (70_000, [1, 1, 1]),
];

#[test]
fn by_hand() {
    let mut rng = Rng::new(62);
    let mut cover = Cover::default();
    let files = smallest(&mut rng);
    let (mem, table) = (rng.words(3), rng.words(9));
    for (length, refusals) in SHORT.into_iter().chain(LONG) {
        for (file, expected) in files.iter().zip(refusals) {
            let file = of_length(&mut rng, file, length);
            let (refusal, _) = same_load(&file, &mem, &table, &mut cover);
            assert_eq!(refusal, expected, "{length} bytes");
        }
    }
    cover.summary(&by_callers("file lengths by hand"));
}

/// The refusal where what stands before the end is an image of this kind.
fn expected(ending: usize, length: usize) -> u32 {
    let (trailer, image) = if ending == 0 { (92, 96) } else { (100, 104) };
    match length {
        0..92 => 1,
        _ if ending == 2 => 2,
        _ if length < trailer => 1,
        _ if length < image => 5,
        _ => 0,
    }
}

/// Every length from 0 to 110 and each ending, after the rest of an image,
/// after zeros and after noise.
#[test]
fn every_short_length() {
    let mut rng = Rng::new(65);
    let mut cover = Cover::default();
    let (mem, table) = (rng.words(3), rng.words(9));
    for length in 0..=110 {
        for (ending, file) in smallest(&mut rng).iter().enumerate() {
            let file = of_length(&mut rng, file, length);
            let (refusal, _) = same_load(&file, &mem, &table, &mut cover);
            assert_eq!(refusal, expected(ending, length), "{length} bytes");
            // With zeros before the end M is 0.
            let end = length.saturating_sub(4);
            let zeros = [&vec![0; end][..], &file[end..]].concat();
            let (refusal, _) = same_load(&zeros, &mem, &table, &mut cover);
            let early = expected(ending, length);
            let of_zeros = if early == 0 || early == 5 { 3 } else { early };
            assert_eq!(refusal, of_zeros, "{length} bytes with zeros");
            let noise = [&rng.bytes(end)[..], &file[end..]].concat();
            same_load(&noise, &mem, &table, &mut cover);
        }
    }
    cover.summary(&by_callers("every length to 110"));
    demand_loads(&cover, ENDINGS[0], &[0, 1, 3, 5]);
    demand_loads(&cover, ENDINGS[1], &[0, 1, 3, 5]);
    demand_loads(&cover, ENDINGS[2], &[1, 2]);
}

/// Each of the last four bytes with every other value: 2, or 1 below 92 bytes;
/// but the last one changes one kind into the other.
#[test]
fn every_wrong_end() {
    let mut rng = Rng::new(66);
    let mut cover = Cover::default();
    let (mem, table) = (rng.words(3), rng.words(9));
    let mut wrong = 0;
    for file in &smallest(&mut rng)[..2] {
        for length in [91, 92, 95, 96, 99, 100, 103, 104, 108] {
            for (place, value) in (1..=4).flat_map(|place| (0..=255).map(move |v| (place, v))) {
                let mut file = of_length(&mut rng, file, length);
                file[length - place] = value;
                let (refusal, _) = same_load(&file, &mem, &table, &mut cover);
                if !KINDS.iter().any(|kind| file.ends_with(&kind.mark)) {
                    let expected = if length < 92 { 1 } else { 2 };
                    assert_eq!(refusal, expected, "{length} bytes, {value} at {place}");
                    wrong += 1;
                }
            }
        }
    }
    cover.summary(&by_callers("every wrong end"));
    assert_eq!(wrong, 2 * 9 * (3 * 255 + 254));
}

/// Noise of every short length, and with the end of either kind.
#[test]
fn noise() {
    let mut rng = Rng::new(67);
    let mut cover = Cover::default();
    let (mem, table) = (rng.words(3), rng.words(9));
    for length in 0..200 {
        let mut file = rng.bytes(length);
        same_load(&file, &mem, &table, &mut cover);
        for kind in KINDS.iter().filter(|_| length >= 4) {
            file[length - 4..].copy_from_slice(&kind.mark);
            same_load(&file, &mem, &table, &mut cover);
        }
    }
    cover.summary(&by_callers("noise of every length to 199"));
    demand_loads(&cover, ENDINGS[0], &[1, 3]);
    demand_loads(&cover, ENDINGS[1], &[1, 3]);
    demand_loads(&cover, ENDINGS[2], &[1, 2]);
}
