//! Sizes at and past their limits, with back right, of the other kind, wrapped
//! and one off.

use crank_model::cover::Cover;
use crank_model::image::{Kind, KINDS};
use crank_model::machine::NODE;

use super::{by_callers, demand_loads, same_load, ENDINGS};

/// A file of zeros that ends in a trailer with the given fields.
fn with_trailer(kind: Kind, length: usize, fields: [u32; 4]) -> Vec<u8> {
    let mut file = vec![0; length.max(kind.trailer())];
    let at = file.len() - kind.trailer();
    for (i, field) in fields.iter().enumerate() {
        file[at + 4 * i..at + 4 * i + 4].copy_from_slice(&field.to_le_bytes());
    }
    let end = file.len();
    file[end - 4..].copy_from_slice(&kind.mark);
    file
}

const M_VALUES: [u32; 10] = [
    0,
    1,
    2,
    8191,
    8192,
    8193,
    1 << 30,
    (1 << 30) + 1,
    1 << 31,
    u32::MAX,
];

/// 36 times the two before the last wraps to 32 and to 4.
const N_VALUES: [u32; 9] = [
    0,
    1,
    510,
    511,
    512,
    1 << 30,
    119_304_648,
    954_437_177,
    u32::MAX,
];

/// The back that a kind's formula gives, wrapped where it is too large.
fn back_of(kind: Kind, m: u32, n: u32) -> u32 {
    let words = m.wrapping_mul(4).wrapping_add(n.wrapping_mul(36));
    words.wrapping_add(kind.trailer() as u32)
}

/// Loads files with one M and N and all K and back worth trying.
fn one_size(kind: Kind, m: u32, n: u32, cover: &mut Cover) {
    let (mem, table) = (vec![5; 8192], vec![6; NODE * 511]);
    let [first, second] = KINDS.map(|kind| back_of(kind, m, n));
    let back = back_of(kind, m, n);
    let backs = [
        first,
        second,
        back.wrapping_add(1),
        back.wrapping_sub(1),
        back.wrapping_add(8),
        back.wrapping_sub(8),
        92,
        100,
    ];
    for k in [0, 1, 2, m.wrapping_sub(1), m, m.wrapping_add(1), u32::MAX] {
        for given in backs {
            let length = (given as usize).min(52_000);
            let file = with_trailer(kind, length, [given, m, k, n]);
            let (refusal, _) = same_load(&file, &mem, &table, cover);
            let in_range = (1..=8192).contains(&m) && (1..=m).contains(&k) && n <= 511;
            let expected = match (in_range, given == back) {
                (false, _) => 3,
                (true, false) => 4,
                (true, true) => 0,
            };
            assert_eq!(refusal, expected, "{kind:?} {given}, {m} {k} {n}");
        }
    }
}

#[test]
fn fields() {
    let mut cover = Cover::default();
    for kind in KINDS {
        for m in M_VALUES {
            for n in N_VALUES {
                one_size(kind, m, n, &mut cover);
            }
        }
    }
    cover.summary(&by_callers("size fields"));
    for ending in &ENDINGS[..2] {
        demand_loads(&cover, ending, &[0, 3, 4]);
    }
}
