//! Every way to name three registers, those that no instruction names included.

use super::callers::{refused, there_and_back};
use super::signs::Signs;
use super::{answer, LESS, PARAS};
use crank_model::instruction::{word_o, BR, PC};
use crank_model::machine::Record;
use crank_model::rng::Rng;
use crank_model::state::{Machine, Way};

/// Where the word is.
const AT: u32 = 1;

/// The registers that an arib may name: pc but as reg1, br nowhere, none twice.
fn allowed(a: usize, b: usize, c: usize) -> bool {
    a != PC && ![a, b, c].contains(&BR) && a != b && a != c && b != c
}

/// The word among two that are no instructions, and any words in the registers.
fn at_word(rng: &mut Rng, word: u32) -> Machine {
    let mut record = Record {
        k: 3,
        m: 3,
        ..Record::default()
    };
    for reg in record.regs.iter_mut().skip(2) {
        *reg = rng.word();
    }
    record.regs[PC] = AT;
    Machine {
        record,
        mem: vec![0, word, 0],
        table: Vec::new(),
    }
}

/// The words in reg2 and reg3: any, with one alone below 0, or the same.
#[derive(Clone, Copy)]
enum Pair {
    Any,
    FirstBelow,
    SecondBelow,
    Same,
}

const PAIRS: [Pair; 4] = [Pair::Any, Pair::FirstBelow, Pair::SecondBelow, Pair::Same];

const TOP: u32 = 1 << 31;

/// Makes reg2 and reg3 such a pair; pc, which is never below 0, stays.
fn make_pair(regs: &mut [u32; 16], pair: Pair, b: usize, c: usize) {
    match pair {
        Pair::Any => {}
        Pair::FirstBelow if b != PC => (regs[b], regs[c]) = (regs[b] | TOP, regs[c] & !TOP),
        Pair::SecondBelow if c != PC => (regs[b], regs[c]) = (regs[b] & !TOP, regs[c] | TOP),
        Pair::FirstBelow => regs[c] |= TOP,
        Pair::SecondBelow => regs[b] |= TOP,
        Pair::Same if c != PC => regs[c] = regs[b],
        Pair::Same => regs[b] = regs[c],
    }
}

fn behind(mut machine: Machine) -> Machine {
    machine.record.regs[PC] = AT + 1;
    machine
}

/// The word that is an instruction, with each pair; gives how many answers.
fn with_pairs(rng: &mut Rng, para: u32, [a, b, c]: [usize; 3], signs: &mut Signs) -> usize {
    let mut answers = 0;
    for pair in PAIRS {
        let mut before = at_word(rng, word_o(35, para, a, b, c));
        make_pair(&mut before.record.regs, pair, b, c);
        let [reg2, reg3] = [b, c].map(|reg| before.record.regs[reg]);
        let mut after = behind(before.clone());
        after.record.regs[a] ^= answer(para, reg2, reg3);
        after.record.position = 1;
        answers += there_and_back(&[before, after]);
        if para == LESS {
            signs.count(reg2, reg3);
        }
    }
    answers
}

#[test]
fn all_registers() {
    let mut rng = Rng::new(102);
    let mut signs = Signs::default();
    let (mut done, mut refusals, mut answers) = (0, 0, 0);
    for name in 0..PARAS.len() * 16 * 16 * 16 {
        let [a, b, c] = [name >> 8, name >> 4, name].map(|reg| reg & 15);
        let para = PARAS[name >> 12];
        if allowed(a, b, c) {
            done += 1;
            answers += with_pairs(&mut rng, para, [a, b, c], &mut signs);
            continue;
        }
        refusals += 1;
        let before = at_word(&mut rng, word_o(35, para, a, b, c));
        answers += refused(Way::Forward, &before, 13);
        answers += refused(Way::Back, &behind(before), 13);
    }
    println!("names: {done} done, {refusals} refused, {answers} answers, {signs:?}");
    assert_eq!((done, refusals), (3 * 14 * 14 * 13, 3 * 4_096 - 7_644));
    assert_eq!(answers, (PAIRS.len() * done + refusals) * 28);
    // Two of the pairs of each less have one word alone below 0.
    assert!(signs.apart() >= 2 * (done / 3) as u64);
    signs.demand();
}
