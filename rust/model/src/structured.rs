//! Random programs that run long: arithmetic, data words, constants beside the
//! code, jumps, nested qifs and loops, with the table that belongs to them.

use crate::instruction::{word_i, word_o, word_r, BR, FINISH, PC, START};
use crate::machine::{forward, Record, NODE, PR};
use crate::nodes::Nodes;
use crate::rng::Rng;
use crate::state::Machine;
use crate::words::constant;

/// Loop counter, loop end and the flag that the end is reached.
const COUNT: usize = 4;
const END: usize = 5;
const DONE: usize = 6;
/// Registers with coins; nothing changes them.
const COINS: [usize; 3] = [7, 8, 9];
/// A data address, if there is data, and a code address; nothing changes them.
const ADDRESS: usize = 10;
const CODE: usize = 14;
/// Holds 0 but where it leads to a constant.
const POINTER: usize = 13;
/// Holds 1, an offset for swbr.
const ONE: usize = 15;
/// Registers for arithmetic.
const FREE: [usize; 4] = [2, 3, 11, 12];

enum Part {
    Words(Vec<u32>),
    Qif { coin: usize, body: Vec<Part> },
}

/// The data words, in some programs none: they follow the code, whose length is
/// known only at the end, so addresses start from a stand-in until then.
struct Data {
    first: u32,
    count: u32,
}

fn read_only(rng: &mut Rng) -> usize {
    rng.pick(&[PC, COUNT, END, 7, 8, 9, ADDRESS, CODE, ONE])
}

/// Three free registers.
fn free_three(rng: &mut Rng) -> [usize; 3] {
    let mut free = FREE;
    for i in 0..3 {
        free.swap(i, i + rng.index(FREE.len() - i));
    }
    [free[0], free[1], free[2]]
}

/// One word that changes only free registers and data.
fn plain_word(rng: &mut Rng, data: &Data) -> u32 {
    let [a, b, c] = free_three(rng);
    let from = if rng.chance(1, 2) { b } else { read_only(rng) };
    // What is read only is small and never negative to a less.
    let third = if rng.chance(1, 2) { c } else { read_only(rng) };
    let imm = rng.word();
    match rng.below(17) {
        0..=2 if data.count == 0 => word_r(17, a, CODE),
        0 | 1 => word_i(1, a, data.first + rng.below(data.count)),
        2 => word_r(16, a, ADDRESS),
        3 | 16 => word_r(17, a, rng.pick(&[ADDRESS, CODE, PC])),
        4 => word_i(2, a, imm),
        5 => word_i(3, a, imm),
        6 => word_i(4, a, imm),
        7 => word_r(18, a, b),
        8 => word_r(19, a, from),
        9 => word_r(20, a, from),
        10 => word_r(21, a, from),
        11 => word_r(22, a, 0),
        12 => word_o(32, 1, a, 0, 0),
        13 => word_o(33, rng.between(1, 2), a, b, 0),
        14 => word_o(34, rng.between(1, 2), a, from, 0),
        _ => word_o(35, rng.between(1, 5), a, b, third),
    }
}

/// A jump that lands on a word which leaves br, and then on one which clears it.
fn slow_jump(rng: &mut Rng, data: &Data) -> Vec<u32> {
    let words = [plain_word(rng, data), word_r(17, rng.pick(&FREE), PC)];
    let skipped = plain_word(rng, data);
    let branch = word_i(5, 0, 2);
    vec![branch, skipped, rng.pick(&words), skipped, branch]
}

/// A jump that lands on a word which clears br again.
fn jump_words(rng: &mut Rng, data: &Data) -> Vec<u32> {
    let coin = rng.pick(&COINS);
    let skipped = plain_word(rng, data);
    match rng.below(5) {
        0 => vec![word_r(23, ONE, 0); 2],
        1 => vec![word_i(5, 0, 2), skipped, word_i(5, 0, 2)],
        2 => slow_jump(rng, data),
        3 => vec![word_i(6, coin, 2), skipped, word_i(6, coin, 2)],
        _ => vec![word_i(7, coin, 2), skipped, word_i(7, coin, 2)],
    }
}

/// Reads a constant that is jumped over, or one of the words around it, by its
/// distance from the first of these words.
fn constant_words(rng: &mut Rng, data: &Data) -> Vec<u32> {
    let words = [constant(rng), plain_word(rng, data)];
    let any = rng.below(8);
    let distance = rng.pick(&[6, any]);
    // The last word that names pc stands 4 behind the first.
    let clear = match distance.checked_sub(4) {
        Some(rest) => word_i(4, POINTER, rest),
        None => word_i(3, POINTER, 4 - distance),
    };
    vec![
        word_r(20, POINTER, PC),
        word_i(3, POINTER, distance),
        word_r(17, rng.pick(&FREE), POINTER),
        clear,
        word_r(21, POINTER, PC),
        word_i(5, 0, 2),
        rng.pick(&words),
        word_i(5, 0, 2),
    ]
}

fn parts(rng: &mut Rng, data: &Data, depth: u32, qifs: u32) -> Vec<Part> {
    let mut list = Vec::new();
    for _ in 0..rng.below(5) {
        list.push(Part::Words(match rng.below(8) {
            0 | 1 => jump_words(rng, data),
            2 => constant_words(rng, data),
            _ => vec![plain_word(rng, data)],
        }));
    }
    for _ in 0..rng.between(u32::from(depth == 0), qifs) {
        let at = rng.index(list.len() + 1);
        let coin = rng.pick(&COINS);
        let inner = if depth < 2 { 2 } else { 0 };
        let body = parts(rng, data, depth + 1, inner);
        list.insert(at, Part::Qif { coin, body });
    }
    list
}

fn emit(parts: &[Part], code: &mut Vec<u32>) {
    for part in parts {
        match part {
            Part::Words(words) => code.extend(words),
            Part::Qif { coin, body } => {
                code.push(word_r(24, *coin, 0));
                emit(body, code);
                code.push(word_r(25, *coin, 0));
            }
        }
    }
}

/// Adds the nodes that the parts walk from `v`; gives the node at the end.
fn walk(parts: &[Part], mut v: u32, nodes: &mut Nodes, rng: &mut Rng) -> u32 {
    for part in parts {
        if let Part::Qif { body, .. } = part {
            for coin in 0..2 {
                let child = nodes.add(rng.below(5));
                nodes.first_child(v, coin, child);
                let last = walk(body, child, nodes, rng);
                nodes.last_child(v, coin, last);
            }
            let next = nodes.add(rng.below(5));
            nodes.next(v, next);
            v = next;
        }
    }
    v
}

/// start, a loop of END rounds over the body, finish. A branch sets br where
/// it jumps and clears it where it lands.
fn loop_code(body: &[u32]) -> Vec<u32> {
    let bottom = body.len() as u32 + 4;
    let offset = 1u32.wrapping_sub(bottom);
    let mut code = vec![START, word_i(7, COUNT, offset), word_i(3, COUNT, 1)];
    code.extend(body);
    code.push(word_o(35, 4, DONE, COUNT, END));
    code.push(word_i(6, DONE, offset));
    code.push(FINISH);
    code
}

/// A program at its start: `rounds` times the body, or once without a loop.
pub fn program(rng: &mut Rng, rounds: Option<u32>) -> Machine {
    let some = rng.between(1, 12);
    let data = Data {
        first: 0x4000,
        count: if rng.chance(1, 8) { 0 } else { some },
    };
    let body = parts(rng, &data, 0, 3);
    let mut nodes = Nodes::default();
    let first = nodes.add(rng.below(5));
    let last = walk(&body, first, &mut nodes, rng);
    if rounds.is_some() && last != first {
        close_cycle(&mut nodes, first, last);
    }
    let mut words = Vec::new();
    emit(&body, &mut words);
    let code = match rounds {
        Some(_) => loop_code(&words),
        None => [&[START][..], &words, &[FINISH]].concat(),
    };
    assemble(rng, &code, &data, &nodes, first, rounds.unwrap_or(0))
}

/// Replaces the node after the last top-level qif by the first node, so that
/// each round walks the same nodes.
fn close_cycle(nodes: &mut Nodes, first: u32, last: u32) {
    let before = nodes.get(last, PR);
    nodes.set(last, PR, 0);
    nodes.next(before, first);
}

/// The registers at the start of a program with `k` code words.
fn first_registers(rng: &mut Rng, k: u32, data: &Data, rounds: u32) -> [u32; 16] {
    let mut regs: [u32; 16] = std::array::from_fn(|_| rng.word());
    for reg in [PC, BR, COUNT, DONE, POINTER] {
        regs[reg] = 0;
    }
    regs[END] = rounds;
    for coin in COINS {
        regs[coin] = rng.below(2);
    }
    let (in_data, in_code) = (rng.below(data.count), rng.below(k));
    regs[CODE] = rng.pick(&[0, k - 1, in_code]);
    regs[ADDRESS] = match data.count {
        0 => regs[CODE],
        count => k + rng.pick(&[0, count - 1, in_data]),
    };
    regs[ONE] = 1;
    regs
}

/// Puts code, data, table and first record together; the data addresses in
/// the code move down to follow it.
fn assemble(
    rng: &mut Rng,
    code: &[u32],
    data: &Data,
    nodes: &Nodes,
    first: u32,
    rounds: u32,
) -> Machine {
    let k = code.len() as u32;
    let mut mem: Vec<u32> = code
        .iter()
        .map(|word| match word >> 24 {
            1 => word - data.first + k,
            _ => *word,
        })
        .collect();
    mem.extend(rng.words(data.count as usize));
    let (table, number) = nodes.shuffled(rng);
    let regs = first_registers(rng, k, data, rounds);
    let record = Record {
        regs,
        qifv: number[first as usize],
        qifw: 0,
        k,
        m: k + data.count,
        n: (table.len() / NODE) as u32,
        position: 0,
    };
    Machine { record, mem, table }
}

/// A program after a random number of turns, `most` at most.
pub fn running(rng: &mut Rng, most: u32) -> Machine {
    let rounds = rng.chance(2, 3).then(|| rng.between(1, 60));
    let mut machine = program(rng, rounds);
    machine.lend_excess(rng);
    for _ in 0..rng.below(most) {
        let (refusal, record) = forward(machine.record, &mut machine.mem, &machine.table);
        if refusal != 0 {
            break;
        }
        machine.record = record;
    }
    machine
}
