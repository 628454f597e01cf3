//! Random samples: a wheel that is turned to and fro, and samples that no
//! wheel gives.

use crate::rng::Rng;
use crate::state::{Way, WAYS};
use crate::wheel::named;

/// The sample beside another on the cycle.
pub fn beside(sample: u8, way: Way) -> u8 {
    let is_beside = |other: &u8| named(sample, *other) == Ok(Some(way));
    (0..4).find(is_beside).expect("a sample from 0 to 3")
}

/// Adds `turns` steps in one direction from the sample `at`, with equal
/// samples and bounces on the way; gives the sample at their end.
pub fn drive(rng: &mut Rng, mut at: u8, way: Way, turns: u32, samples: &mut Vec<u8>) -> u8 {
    for _ in 0..turns {
        match rng.below(12) {
            0 => samples.push(at),
            1 => samples.extend([beside(at, way.reverse()), at]),
            2 => samples.extend([beside(at, way), at]),
            _ => {}
        }
        at = beside(at, way);
        samples.push(at);
    }
    at
}

/// At least `len` samples of a wheel from the sample `at`, with changes of
/// direction.
pub fn walk(rng: &mut Rng, mut at: u8, len: usize) -> Vec<u8> {
    let mut samples = Vec::new();
    let longest = rng.pick(&[2, 10, 100, 1_000]);
    let mut way = rng.pick(&WAYS);
    while samples.len() < len {
        let turns = rng.below(longest) + 1;
        at = drive(rng, at, way, turns, &mut samples);
        way = way.reverse();
    }
    samples
}

/// A number that is no sample.
fn above(rng: &mut Rng) -> u8 {
    let any = rng.between(4, 255) as u8;
    rng.pick(&[4, 128, 255, any])
}

/// Puts a step over two samples, or a number above 3, at a random place.
fn spoil(rng: &mut Rng, given: u8, samples: &mut [u8]) {
    if samples.is_empty() {
        return;
    }
    let at = rng.index(samples.len());
    let before = if at == 0 { given } else { samples[at - 1] };
    samples[at] = if rng.chance(1, 2) {
        beside(beside(before, Way::Forward), Way::Forward)
    } else {
        above(rng)
    };
    if rng.chance(1, 2) {
        let behind = rng.bytes(samples.len() - at - 1);
        samples[at + 1..].copy_from_slice(&behind);
    }
}

/// A sample and a list behind it, `longest` or fewer: mostly a walk, in some
/// cases spoilt, in a few of any bytes.
pub fn random_samples(rng: &mut Rng, longest: u32) -> (u8, Vec<u8>) {
    let given = rng.below(4) as u8;
    let few = rng.below(6);
    let many = rng.below(longest + 1);
    let len = rng.pick(&[few, many, many, many]).min(longest) as usize;
    if rng.chance(1, 20) {
        return (given, rng.bytes(len));
    }
    let mut samples = walk(rng, given, len);
    samples.truncate(len);
    if rng.chance(1, 30) {
        return (above(rng), samples);
    }
    if rng.chance(1, 3) {
        spoil(rng, given, &mut samples);
    }
    (given, samples)
}
