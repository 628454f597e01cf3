//! pc in a less is the turn's own and never negative, also where br leads pc to a
//! word from 2^31 on.

use super::callers::there_and_back;
use super::{answer, EXTREMES, LESS, PARAS};
use crank_model::instruction::{word_o, BR, PC};
use crank_model::machine::Record;
use crank_model::state::Machine;

const R1: usize = 4;
const R2: usize = 5;

/// What r1 is before.
const OLD: u32 = 6;

/// r2, and r1 after a less of pc and r2, and of r2 and pc, at address 1.
const AT_ONE: [(u32, [u32; 2]); 8] = [
    (0, [6, 7]),
    (1, [6, 6]),
    (2, [7, 6]),
    (2_147_483_647, [7, 6]),
    (2_147_483_648, [6, 7]),
    (2_147_483_649, [6, 7]),
    (4_294_967_294, [6, 7]),
    (4_294_967_295, [6, 7]),
];

/// br, which the word keeps; pc moves by it, or by 1 where it is 0.
const BRS: [u32; 7] = [
    0,
    1,
    3,
    2_147_483_647,
    2_147_483_648,
    4_294_967_294,
    4_294_967_295,
];

/// A word at `at`, among words that are no instructions.
fn machine(at: u32, word: u32, br: u32, r2: u32) -> Machine {
    let mut mem = vec![0; (at as usize + 6).min(8192)];
    mem[at as usize] = word;
    let mut record = Record {
        k: mem.len() as u32,
        m: mem.len() as u32,
        ..Record::default()
    };
    record.regs[PC] = at;
    record.regs[BR] = br;
    record.regs[R1] = OLD;
    record.regs[R2] = r2;
    Machine {
        record,
        mem,
        table: Vec::new(),
    }
}

/// The word at `at` with each br; gives how many answers.
fn jumps(at: u32, word: u32, r2: u32, r1: u32) -> usize {
    let mut answers = 0;
    for br in BRS {
        let before = machine(at, word, br, r2);
        let mut after = before.clone();
        after.record.regs[PC] = at.wrapping_add(br.max(1));
        after.record.regs[R1] = r1;
        after.record.position = 1;
        answers += there_and_back(&[before, after]);
    }
    answers
}

#[test]
fn by_hand() {
    let mut answers = 0;
    for (r2, [pc_first, pc_second]) in AT_ONE {
        answers += jumps(1, word_o(35, LESS, R1, PC, R2), r2, pc_first);
        answers += jumps(1, word_o(35, LESS, R1, R2, PC), r2, pc_second);
    }
    println!("pc by hand: {answers} answers");
    assert_eq!(answers, 8 * 2 * 7 * 28);
}

/// From the first address to the last that there can be.
#[test]
fn by_address() {
    let mut answers = 0;
    for at in [0, 1, 2, 100, 8191] {
        for r2 in EXTREMES.into_iter().chain([at, at + 1]) {
            for para in PARAS {
                let (first, second) = (answer(para, at, r2), answer(para, r2, at));
                answers += jumps(at, word_o(35, para, R1, PC, R2), r2, OLD ^ first);
                answers += jumps(at, word_o(35, para, R1, R2, PC), r2, OLD ^ second);
            }
        }
    }
    println!("pc by address: {answers} answers");
    assert_eq!(answers, 5 * 8 * 3 * 2 * 7 * 28);
}
