//! Random positions of every kind, and those a few turns from an end.

use crate::rng::Rng;

/// Positions at the ends and around them, around 0, and where the low one of
/// the two words in an image passes over into the high one.
pub const EDGES: [i64; 18] = [
    0,
    1,
    -1,
    i64::MAX,
    i64::MAX - 1,
    i64::MIN,
    i64::MIN + 1,
    0x7FFF_FFFF,
    0x8000_0000,
    0xFFFF_FFFF,
    0x1_0000_0000,
    -0x8000_0000,
    -0x8000_0001,
    -0x1_0000_0000,
    -0x1_0000_0001,
    // The low word of one end with the high word of the other.
    0x7FFF_FFFF_0000_0000,
    -0x7FFF_FFFF_0000_0001,
    0x0123_4567_89AB_CDEF,
];

/// A position of any kind.
pub fn any(rng: &mut Rng) -> i64 {
    let small = i64::from(rng.below(1_000));
    match rng.below(8) {
        0 => 0,
        1 => small,
        2 => -small,
        3 | 4 => rng.pick(&EDGES),
        5 => near_end(rng, 300),
        _ => rng.next_u64() as i64,
    }
}

/// A position at one of the ends or fewer than `most` turns from it.
pub fn near_end(rng: &mut Rng, most: u32) -> i64 {
    let far = rng.below(most);
    let turns = i64::from(rng.pick(&[0, 1, 2, far, far]));
    if rng.chance(1, 2) {
        i64::MAX - turns
    } else {
        i64::MIN + turns
    }
}
