//! Random programs whose qif table can be made: the two branches of each qif do the
//! same to registers and memory, each in its own words and its own time.
//!
//! Nearly every part leaves all as it was. The others add to one register and to
//! one data word, which nothing else looks at; the branches add the same.

use crate::instruction::{word_i, word_o, word_r, BR, FINISH, PC, START};
use crate::machine::Record;
use crate::positions;
use crate::rng::Rng;
use crate::state::Machine;

/// Registers for coins and arithmetic, with any words.
const FREE: [usize; 6] = [2, 3, 4, 5, 6, 7];
/// The address of a data word, or without data of a code word; nothing changes it.
const ADDRESS: usize = 8;
/// Loop counter, loop end and the flag that the end is reached, for a loop and
/// for one in it; 0 outside of their loop.
const LOOPS: [[usize; 3]; 2] = [[9, 10, 11], [12, 13, 14]];
/// The register that parts add to.
const SUM: usize = 15;

/// Where the data begins until the code is complete; its first word is the one
/// that parts add to.
const DATA: u32 = 0x4000;

/// Words, and what they add to the register and the data word.
#[derive(Clone, Default)]
struct Code {
    words: Vec<u32>,
    sums: [u32; 2],
}

impl Code {
    /// Words that leave all as it was.
    fn neutral(words: Vec<u32>) -> Code {
        let sums = [0; 2];
        Code { words, sums }
    }

    fn append(&mut self, other: &Code) {
        self.words.extend(&other.words);
        for (sum, more) in self.sums.iter_mut().zip(other.sums) {
            *sum = sum.wrapping_add(more);
        }
    }

    /// The same with words before and behind it.
    fn within(mut self, before: &[u32], behind: &[u32]) -> Code {
        self.words = [before, &self.words, behind].concat();
        self
    }
}

/// How a program is to be.
#[derive(Clone, Copy, Debug)]
pub struct Plan {
    /// The qifs that stand in each other, at least.
    pub nesting: u32,
    /// The parts beside them, and the rounds of a loop, at most.
    pub parts: u32,
    pub rounds: u32,
}

struct Writer<'a> {
    rng: &'a mut Rng,
    data: u32,
    parts: u32,
    rounds: u32,
    /// The loops around the present place.
    loops: usize,
}

/// The offset of a jump back over so many words.
fn back_over(words: usize) -> u32 {
    (words as u32).wrapping_neg()
}

/// Words that add a number: to the sum, or to a register with the data word in it.
fn adding(reg: usize, number: u32) -> Vec<u32> {
    let (opcode, mut rest) = match number as i32 {
        0.. => (3, number),
        _ => (4, number.wrapping_neg()),
    };
    let mut words = Vec::new();
    while rest > 0 {
        let part = rest.min(0xFFFF);
        words.push(word_i(opcode, reg, part));
        rest -= part;
    }
    words
}

/// Two branches behind a qif on `reg`, and its fiq. With bnz (7) coin 1 jumps to
/// the second one, with bez (6) coin 0; the first jumps to the landing behind it.
fn fork(opcode: u32, reg: usize, first: Code, second: Code) -> Code {
    let over_first = first.words.len() as u32 + 2;
    let over_second = second.words.len() as u32 + 2;
    let mut words = vec![word_r(24, reg, 0), word_i(opcode, reg, over_first)];
    words.extend(&first.words);
    words.extend([word_i(5, 0, over_second), word_i(5, 0, over_first)]);
    words.extend(&second.words);
    words.extend([word_i(13 - opcode, reg, over_second), word_r(25, reg, 0)]);
    let sums = first.sums;
    Code { words, sums }
}

impl Writer<'_> {
    fn free(&mut self) -> usize {
        self.rng.pick(&FREE)
    }

    /// Three different free registers.
    fn free_three(&mut self) -> [usize; 3] {
        let mut free = FREE;
        for i in 0..3 {
            free.swap(i, i + self.rng.index(FREE.len() - i));
        }
        [free[0], free[1], free[2]]
    }

    /// A gate on any registers: it is idle.
    fn gate(&mut self) -> u32 {
        let a = self.rng.between(2, 15) as usize;
        let b = (a - 2 + self.rng.between(1, 13) as usize) % 14 + 2;
        match self.rng.below(3) {
            0 => word_o(32, 1, a, 0, 0),
            para => word_o(33, para, a, b, 0),
        }
    }

    /// Two words, of which the second undoes the first if all else is as it was.
    fn pair(&mut self) -> [u32; 2] {
        let [a, b, c] = self.free_three();
        let held = self.rng.between(ADDRESS as u32, 14) as usize;
        let from = self.rng.pick(&[b, b, held]);
        let third = self.rng.pick(&[c, held]);
        let imm = self.rng.word();
        let twice = |word| [word, word];
        match self.rng.below(15) {
            0 | 1 if self.data > 0 => {
                twice(word_i(1, a, DATA + self.rng.between(1, self.data - 1)))
            }
            2 if self.data > 0 => twice(word_r(16, a, ADDRESS)),
            3 => twice(word_r(17, a, ADDRESS)),
            4 => twice(word_r(17, a, PC)),
            5 => [word_i(3, a, imm), word_i(4, a, imm)],
            6 => [word_i(4, a, imm), word_i(3, a, imm)],
            7 => [word_r(20, a, from), word_r(21, a, from)],
            8 => [word_r(21, a, from), word_r(20, a, from)],
            9 => twice(word_r(22, a, 0)),
            10 => twice(word_r(18, a, b)),
            11 => twice(word_o(34, self.rng.between(1, 2), a, from, 0)),
            12 => twice(word_o(35, self.rng.between(1, 5), a, b, third)),
            13 => twice(word_r(19, a, from)),
            _ => twice(word_i(2, a, imm)),
        }
    }

    /// Words without a jump, which leave all as it was; some are qifs, with at
    /// most `nest` in each other.
    fn straight(&mut self, nest: u32) -> Vec<u32> {
        let mut words = Vec::new();
        for _ in 0..self.rng.below(3) {
            let inner = self.rng.below(nest.min(2) + 1);
            let around = match self.rng.below(4) {
                0 if nest > 0 => {
                    let reg = self.free();
                    [word_r(24, reg, 0), word_r(25, reg, 0)]
                }
                1 => self.pair(),
                _ => {
                    words.push(self.gate());
                    continue;
                }
            };
            words.push(around[0]);
            words.extend(self.straight(inner.min(nest.saturating_sub(1))));
            words.push(around[1]);
        }
        words
    }

    /// Straight words with a br that is not 0 all along.
    fn strided(&mut self, nest: u32) -> Vec<u32> {
        let words = self.straight(nest);
        match self.rng.below(3) {
            0 => backward(&words),
            way => {
                let stride = self.rng.between(1, 4) as usize;
                let spread = self.spread(&words, stride);
                self.set_br(way == 1, stride as u32, spread)
            }
        }
    }

    /// The words so far apart, with any words between that are never walked.
    fn spread(&mut self, words: &[u32], stride: usize) -> Vec<u32> {
        let mut spread = self.rng.words(stride - 1);
        for word in words {
            spread.push(*word);
            spread.extend(self.rng.words(stride - 1));
        }
        // What looks like a load is moved with the data, and must not be below it.
        for word in &mut spread {
            if *word >> 24 == 1 && *word & 0xFFFF < DATA {
                *word = 0;
            }
        }
        spread
    }

    /// Sets br around the words, by bra or by an exchange with a loop's end.
    fn set_br(&mut self, by_bra: bool, br: u32, words: Vec<u32>) -> Vec<u32> {
        let (mut before, mut behind) = (vec![word_i(5, 0, br)], vec![word_i(5, 0, br)]);
        if let (false, Some([_, end, _])) = (by_bra, LOOPS.get(self.loops)) {
            let (set, swbr) = (word_i(2, *end, br), word_r(23, *end, 0));
            (before, behind) = (vec![set, swbr], vec![swbr, set]);
        }
        [before, words, behind].concat()
    }

    /// Words that are skipped if a register is 0, or is not, and leave it.
    fn condition(&mut self, nest: u32) -> Code {
        let inner = self.parts(nest, true);
        let reg = self.rng.pick(&[2, 3, 4, 5, 6, 7, 9, 12]);
        let word = word_i(self.rng.between(6, 7), reg, inner.words.len() as u32 + 1);
        inner.within(&[word], &[word])
    }

    /// A loop that leaves its three registers at 0; no loop where both are taken.
    fn repeat(&mut self, body: impl FnOnce(&mut Self) -> Code) -> Code {
        let Some(&[count, end, done]) = LOOPS.get(self.loops) else {
            return body(self);
        };
        let rounds = self.rng.between(1, self.rounds);
        self.loops += 1;
        let mut body = body(self);
        self.loops -= 1;
        let offset = back_over(body.words.len() + 3);
        let (set, compare) = (word_i(2, end, rounds), word_o(35, 4, done, count, end));
        body.sums = body.sums.map(|sum| sum.wrapping_mul(rounds));
        body.within(
            &[set, word_i(7, count, offset), word_i(3, count, 1)],
            &[
                compare,
                word_i(6, done, offset),
                compare,
                word_r(21, count, end),
                set,
            ],
        )
    }

    /// Adds to the sum, or to the data word if there is data.
    fn add(&mut self, to: usize, number: u32) -> Code {
        let mut sums = [0; 2];
        sums[to] = number;
        if to == 0 {
            let words = adding(SUM, number);
            return Code { words, sums };
        }
        let reg = self.free();
        let exchange = word_i(1, reg, DATA);
        let words = adding(reg, number);
        Code { words, sums }.within(&[exchange], &[exchange])
    }

    fn add_some(&mut self) -> Code {
        let to = usize::from(self.data > 0 && self.rng.chance(1, 2));
        let number = self.rng.below(41).wrapping_sub(20);
        self.add(to, number)
    }

    /// Makes the branch add what is asked for.
    fn even_out(&mut self, branch: &mut Code, sums: [u32; 2]) {
        for (to, sum) in sums.into_iter().enumerate() {
            let lacks = sum.wrapping_sub(branch.sums[to]);
            if lacks != 0 {
                let more = self.add(to, lacks);
                branch.append(&more);
            }
        }
    }

    /// A qif with these branches, in which both add the same.
    fn forked(&mut self, mut first: Code, mut second: Code) -> Code {
        let sums = self.rng.pick(&[first.sums, second.sums]);
        self.even_out(&mut first, sums);
        self.even_out(&mut second, sums);
        let (opcode, reg) = (self.rng.between(6, 7), self.free());
        fork(opcode, reg, first, second)
    }

    /// A qif whose branches are the same words.
    fn flat(&mut self, inner: Code) -> Code {
        let reg = self.free();
        inner.within(&[word_r(24, reg, 0)], &[word_r(25, reg, 0)])
    }

    /// Any part, with at most `nest` qifs in each other.
    fn part(&mut self, nest: u32, neutral: bool) -> Code {
        match self.rng.below(12) {
            0 => {
                let around = self.pair();
                self.parts(nest, neutral).within(&around[..1], &around[1..])
            }
            1 => Code::neutral(self.strided(nest)),
            2 => self.condition(nest),
            3 => self.repeat(|writer| writer.parts(nest, neutral)),
            4 | 5 if !neutral => self.add_some(),
            6 if nest > 0 => {
                let inner = self.parts(nest - 1, neutral);
                self.flat(inner)
            }
            7 | 8 if nest > 0 => {
                let first = self.parts(nest - 1, neutral);
                let second = self.parts(nest - 1, neutral);
                self.forked(first, second)
            }
            9 => Code::neutral(self.pair().to_vec()),
            _ => Code::neutral(vec![self.gate()]),
        }
    }

    /// Parts one after the other, while there are any left.
    fn parts(&mut self, nest: u32, neutral: bool) -> Code {
        let mut code = Code::default();
        for _ in 0..self.rng.below(4) {
            if self.parts == 0 {
                break;
            }
            self.parts -= 1;
            let part = self.part(nest, neutral);
            code.append(&part);
        }
        code
    }

    /// So many qifs in each other, with parts around them.
    fn nest(&mut self, nesting: u32) -> Code {
        // Elsewhere there are few in each other, or the nodes would be too many.
        let beside = nesting.min(2);
        let mut code = self.parts(beside, false);
        if nesting > 0 {
            let nested = match self.rng.below(16) {
                0 => self.repeat(|writer| writer.level(nesting)),
                _ => self.level(nesting),
            };
            code.append(&nested);
            code.append(&self.parts(beside, false));
        }
        code
    }

    /// A qif with the others of a nest in one branch, or in both.
    fn level(&mut self, nesting: u32) -> Code {
        let inner = self.nest(nesting - 1);
        let other = self.parts(nesting.min(2) - 1, false);
        match self.rng.below(9) {
            0 => self.flat(inner),
            1..=4 => self.forked(inner, other),
            _ => self.forked(other, inner),
        }
    }
}

/// The words walked from the last to the first, with br -1, between a jump
/// behind them and one from before them to the end.
fn backward(words: &[u32]) -> Vec<u32> {
    let over = words.len() as u32 + 2;
    let (jump, turn) = (word_i(5, 0, over), word_i(5, 0, !over));
    let mut code = vec![jump, turn];
    code.extend(words.iter().rev());
    code.extend([turn, jump]);
    code
}

/// The start, also behind other words or with a br that leads over some, and the
/// code to the finish.
fn around(rng: &mut Rng, code: &[u32]) -> (Vec<u32>, u32, u32) {
    let [before, br] = [rng.below(8), rng.below(8)].map(|some| some.saturating_sub(4));
    let mut words = vec![FINISH; before as usize];
    words.push(START);
    if br > 0 {
        words.extend(vec![0; br as usize - 1]);
        words.push(word_i(5, 0, br));
    }
    words.extend(code);
    words.push(FINISH);
    let behind = rng.below(3) as usize;
    words.extend(vec![START; behind]);
    (words, before, br)
}

fn first_registers(rng: &mut Rng, k: u32, data: u32) -> [u32; 16] {
    let mut regs = [0; 16];
    for reg in FREE {
        let any = rng.word();
        regs[reg] = rng.pick(&[0, 1, 2, any, any]);
    }
    regs[SUM] = rng.word();
    regs[ADDRESS] = match data {
        0 => rng.below(k),
        _ => k + rng.between(1, data - 1),
    };
    regs
}

/// A program at its start, without a table, as planned.
pub fn program(rng: &mut Rng, plan: Plan) -> Machine {
    let some = rng.between(2, 9);
    let data = if rng.chance(1, 8) { 0 } else { some };
    let mut writer = Writer {
        rng,
        data,
        parts: plan.parts,
        rounds: plan.rounds,
        loops: 0,
    };
    let code = writer.nest(plan.nesting);
    let (mut mem, pc, br) = around(rng, &code.words);
    let k = mem.len() as u32;
    for word in mem.iter_mut().filter(|word| **word >> 24 == 1) {
        *word = *word - DATA + k;
    }
    mem.extend(rng.words(data as usize));
    let mut regs = first_registers(rng, k, data);
    (regs[PC], regs[BR]) = (pc, br);
    let any = rng.word();
    let record = Record {
        regs,
        qifv: rng.pick(&[0, 1, 2, any]),
        qifw: 0,
        k,
        m: k + data,
        n: 0,
        position: positions::any(rng),
    };
    Machine {
        record,
        mem,
        table: Vec::new(),
    }
}
