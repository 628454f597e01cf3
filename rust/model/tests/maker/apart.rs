//! Branches that differ in one bit of one register or of one memory word: 24, and
//! no refusal where the branch takes the difference back.

use super::{machine, Case, FINISH, START};
use crank_model::instruction::{word_i, word_r};

const BITS: [u32; 4] = [0, 15, 16, 31];

/// Code in which coin 1 alone executes some words, with so many data words, all 0.
fn with_coin_1(coin: usize, words: &[u32], data: usize) -> Case {
    let skip = word_i(6, coin, words.len() as u32 + 1);
    let mut code = vec![START, word_r(24, coin, 0), skip];
    code.extend(words);
    code.extend([skip, word_r(25, coin, 0), FINISH]);
    Case::new(machine(&code, &vec![0; data]), u32::MAX)
}

/// Refused by 24, or made and walked over with either coin.
fn answers(case: &Case, refusal: u32) {
    match refusal {
        0 => case.walked().all_of(2),
        _ => case.refused(refusal),
    }
}

/// xor of a register with one bit into any other, once and twice.
#[test]
fn registers() {
    let mut calls = 0;
    for coin in 2..16 {
        for other in (2..16).filter(|reg| *reg != coin) {
            let third = (2..16).find(|reg| ![coin, other].contains(reg));
            let bits = third.expect("there are fourteen");
            let xor = word_r(19, other, bits);
            for (words, refusal) in [(vec![xor], 24), (vec![xor; 2], 0)] {
                for bit in BITS {
                    let mut case = with_coin_1(coin, &words, 0);
                    case.machine.record.regs[coin] = 5;
                    case.machine.record.regs[bits] = 1 << bit;
                    answers(&case, refusal);
                    calls += 1;
                }
            }
        }
    }
    println!("registers apart: {calls} answers");
    assert_eq!(calls, 14 * 13 * 2 * 4);
}

/// xor r2,r4 and ldr r2,r3 put the bit in r4 into a data word and leave r2 at 0;
/// behind them they are undone, or not.
#[test]
fn memory() {
    let (xor, ldr) = (word_r(19, 5, 7), word_r(16, 5, 6));
    let mut calls = 0;
    for data in [1, 2, 5] {
        for at in 0..data {
            for (words, refusal) in [(vec![xor, ldr], 24), (vec![xor, ldr, ldr, xor], 0)] {
                for bit in BITS {
                    let mut case = with_coin_1(4, &words, data);
                    case.machine.record.regs[6] = case.machine.record.k + at as u32;
                    case.machine.record.regs[7] = 1 << bit;
                    answers(&case, refusal);
                    calls += 1;
                }
            }
        }
    }
    println!("memory apart: {calls} answers");
    assert_eq!(calls, 8 * 2 * 4);
}
