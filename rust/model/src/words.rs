//! Random words: valid instructions of each kind, and values at the edges.

use crate::instruction::{word_i, word_o, word_r, FINISH, PC, START};
use crate::rng::Rng;

/// Words at the edges of the range and around the sizes.
pub const EXTREMES: [u32; 14] = [
    0,
    1,
    2,
    3,
    511,
    512,
    0x7FFF,
    0x8000,
    0xFFFF,
    0x7FFF_FFFF,
    0x8000_0000,
    0xFFFF_FFFE,
    0xFFFF_FFFF,
    8192,
];

/// A register that is neither pc nor br.
fn plain(rng: &mut Rng) -> usize {
    rng.between(2, 15) as usize
}

/// A register other than br and those in `not`, sometimes pc.
fn source(rng: &mut Rng, not: &[usize]) -> usize {
    loop {
        let reg = if rng.chance(1, 8) { PC } else { plain(rng) };
        if !not.contains(&reg) {
            return reg;
        }
    }
}

/// A plain register other than `not`.
fn other(rng: &mut Rng, not: usize) -> usize {
    loop {
        let reg = plain(rng);
        if reg != not {
            return reg;
        }
    }
}

/// A valid word of the given kind; `k` and `m` steer addresses.
pub fn word_of(rng: &mut Rng, kind: (u32, u32), k: u32, m: u32) -> u32 {
    let (opcode, para) = kind;
    let a = plain(rng);
    let any = rng.word();
    match opcode {
        1 if m > k && rng.chance(7, 8) => word_i(1, a, rng.between(k, m - 1)),
        1 => word_i(1, a, rng.pick(&[0, k.wrapping_sub(1), m, any])),
        5 => word_i(5, 0, offset(rng)),
        6 | 7 => word_i(opcode, a, offset(rng)),
        2..=4 => word_i(opcode, a, any),
        17 if rng.chance(1, 4) => word_r(17, a, PC),
        18 => word_r(18, a, other(rng, a)),
        16..=21 => word_r(opcode, a, source(rng, &[a])),
        22..=25 => word_r(opcode, a, 0),
        26 | 27 => word_r(opcode, 0, 0),
        32 => word_o(32, para, a, 0, 0),
        33 => word_o(33, para, a, other(rng, a), 0),
        34 => word_o(34, para, a, source(rng, &[a]), 0),
        _ => {
            let b = source(rng, &[a]);
            word_o(35, para, a, b, source(rng, &[a, b]))
        }
    }
}

/// A word beside the instructions: start, finish, or any.
pub fn constant(rng: &mut Rng) -> u32 {
    let any = rng.word();
    rng.pick(&[START, FINISH, 0, any])
}

/// An address in code or data, at an edge of them, or outside; the sizes may be
/// any words.
pub fn address(rng: &mut Rng, k: u32, m: u32) -> u32 {
    let data = k.wrapping_add(rng.below(m.wrapping_sub(k)));
    let any = rng.word();
    match rng.below(8) {
        0..=2 => rng.below(k),
        3 => data,
        4 | 5 => rng.pick(&[0, k.wrapping_sub(1), k, m.wrapping_sub(1)]),
        6 => m,
        _ => rng.pick(&[m.wrapping_add(1), u32::MAX, any]),
    }
}

/// A branch offset, mostly near.
pub fn offset(rng: &mut Rng) -> u32 {
    if rng.chance(1, 12) {
        return rng.word();
    }
    rng.below(13).wrapping_sub(6)
}
