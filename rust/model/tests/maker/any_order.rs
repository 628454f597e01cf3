//! A few words in any order around a start: most are refused, in nearly every way
//! there is, and those that are not are walked over.

use super::followed::Most;
use super::programs::{compare, demand_at_least};
use super::proved::by_callers;
use super::{machine, Case, FINISH, START};
use crank_model::cover::Cover;
use crank_model::instruction::{word_i, word_o, word_r, PC};
use crank_model::rng::{rounds, Rng};

/// The registers that the words are about.
const REGS: [usize; 2] = [4, 5];

/// A word, mostly a qif or fiq, for code with so many words; its data is one word.
fn word(rng: &mut Rng, k: u32) -> u32 {
    let (a, b) = rng.pick(&[(4, 5), (5, 4)]);
    let offset = rng.below(9).wrapping_sub(4);
    let near = rng.below(3);
    match rng.below(24) {
        0..=4 => word_r(24, a, 0),
        5..=9 => word_r(25, a, 0),
        10 | 11 => word_o(32, 1, a, 0, 0),
        12 => word_o(33, rng.between(1, 2), a, b, 0),
        13 => word_i(rng.between(2, 4), a, near),
        14 => word_i(5, 0, offset),
        15 | 16 => word_i(rng.between(6, 7), a, offset),
        17 => word_i(1, a, k + near / 2),
        18 => word_r(rng.between(16, 17), a, 6),
        19 => word_r(rng.between(18, 21), a, b),
        20 => word_r(rng.between(22, 23), a, 0),
        21 => word_r(17, a, PC),
        22 => rng.pick(&[START, FINISH, FINISH, 0]),
        _ => rng.word(),
    }
}

fn any_order(rng: &mut Rng) -> Case {
    let k = rng.between(2, 10);
    let mut code: Vec<u32> = (0..k).map(|_| word(rng, k)).collect();
    code[k as usize - 1] = FINISH;
    if k > 4 && rng.chance(1, 2) {
        (code[1], code[k as usize - 2]) = (word_r(24, 4, 0), word_r(25, 4, 0));
    }
    let at = if rng.chance(3, 4) { 0 } else { rng.below(k) };
    code[at as usize] = START;
    let mut at_start = machine(&code, &[rng.below(2)]);
    let record = &mut at_start.record;
    record.regs[PC] = at;
    record.regs[1] = rng.pick(&[0, 0, 0, 0, 0, 1, 2, u32::MAX]);
    for reg in REGS {
        record.regs[reg] = rng.below(3);
    }
    record.regs[6] = rng.pick(&[k, k, 0, k + 1]);
    let some = rng.below(30);
    Case::new(at_start, rng.pick(&[some, 300, 300, 300]))
}

/// What short programs must come to; the rest needs more words.
const REACHED: [&str; 23] = [
    "11 turn at a word",
    "12 turn at a word",
    "13 turn at a word",
    "15 turn at a word",
    "17 turn at a word",
    "18 turn at a word",
    "18 turn at a qif",
    "18 turn at fiq 0",
    "23 limit at a word",
    "23 limit at a qif",
    "23 limit at fiq 0",
    "23 limit at fiq 1",
    "24 name at fiq 0",
    "24 name at fiq 1",
    "24 coin at fiq 0",
    "24 coin at fiq 1",
    "24 pc at fiq 1",
    "24 br at fiq 1",
    "24 registers at fiq 1",
    "24 memory at fiq 1",
    "nesting 0",
    "nesting 1",
    "nesting 2",
];

#[test]
fn in_any_order() {
    let mut rng = Rng::new(147);
    let mut cover = Cover::default();
    for _ in 0..rounds(200_000) {
        let case = any_order(&mut rng);
        compare(&case, &Most::default(), &mut rng, &mut cover);
    }
    cover.summary(&by_callers("words in any order"));
    cover.demand(&REACHED);
    demand_at_least(
        &cover,
        &[
            ("accepted", 30_000),
            ("all choices", 30_000),
            ("a loop", 5),
            ("a qif again", 200),
        ],
    );
}
