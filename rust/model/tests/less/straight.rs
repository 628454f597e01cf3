//! Straight code over two words: quotient, equal and less of both and of each
//! with pc, in either order, each into a register of its own.

use super::{answer, EQUAL, LESS, QUOTIENT};
use crank_model::instruction::{word_o, PC};
use crank_model::machine::Record;
use crank_model::state::Machine;

const R2: usize = 5;
const R3: usize = 6;

pub const WORDS: usize = 12;

/// The para, reg1, reg2 and reg3.
const CODE: [(u32, usize, usize, usize); WORDS] = [
    (LESS, 2, R2, R3),
    (LESS, 3, R3, R2),
    (LESS, 4, PC, R2),
    (LESS, 7, R2, PC),
    (EQUAL, 8, R2, R3),
    (EQUAL, 9, R3, R2),
    (EQUAL, 10, PC, R2),
    (EQUAL, 11, R2, PC),
    (QUOTIENT, 12, R2, R3),
    (QUOTIENT, 13, R3, R2),
    (QUOTIENT, 14, PC, R2),
    (QUOTIENT, 15, R2, PC),
];

/// Before the first word: r2 and r3, and what is in the registers of the answers.
/// A data word and a word behind it are lent, and some of a table.
fn first(r2: u32, r3: u32, old: [u32; WORDS]) -> Machine {
    let mut mem = CODE
        .map(|(para, a, b, c)| word_o(35, para, a, b, c))
        .to_vec();
    mem.extend([77, 99]);
    let mut record = Record {
        k: 12,
        m: 13,
        ..Record::default()
    };
    record.regs[R2] = r2;
    record.regs[R3] = r3;
    for ((_, a, ..), old) in CODE.into_iter().zip(old) {
        record.regs[a] = old;
    }
    Machine {
        record,
        mem,
        table: vec![7; 3],
    }
}

/// The states of a run over all words, by the rule in numbers.
pub fn states(r2: u32, r3: u32, old: [u32; WORDS]) -> Vec<Machine> {
    let mut states = vec![first(r2, r3, old)];
    for (at, (para, a, b, c)) in (0..).zip(CODE) {
        let read = |reg| match reg {
            R2 => r2,
            R3 => r3,
            _ => at,
        };
        let mut next = states[at as usize].clone();
        next.record.regs[PC] = at + 1;
        next.record.regs[a] ^= answer(para, read(b), read(c));
        next.record.position += 1;
        states.push(next);
    }
    states
}
