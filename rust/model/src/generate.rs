//! Random states: valid ones, noise, damaged ones, and programs in mid-run.

use crate::damage::{damage, damage_address};
use crate::instruction::Instruction::*;
use crate::instruction::{decode, BR, FINISH, KINDS, PC, START};
use crate::machine::{step, Record, CF, CL, FC, LC, NODE, PR, W};
use crate::nodes::random_table;
use crate::positions;
use crate::rng::Rng;
use crate::state::{Machine, Way};
use crate::structured;
use crate::words::{address, constant, offset, word_of, EXTREMES};

fn register_value(rng: &mut Rng, k: u32, m: u32) -> u32 {
    match rng.below(8) {
        0..=2 => rng.below(2),
        3 | 4 if m > k => rng.between(k, m - 1),
        5 => rng.pick(&EXTREMES),
        6 => rng.below(16),
        _ => rng.word(),
    }
}

/// Code of valid words, with start and finish now and then.
fn random_code(rng: &mut Rng, k: u32, m: u32) -> Vec<u32> {
    let word = |rng: &mut Rng| loop {
        let kind = match rng.below(8) {
            0 => (24, 0),
            1 => (25, 0),
            _ => rng.pick(&KINDS),
        };
        // Start and finish end runs, so they are kept rarer than the rest.
        if !(kind.0 == 26 || kind.0 == 27) || rng.chance(1, 2) {
            return word_of(rng, kind, k, m);
        }
    };
    (0..k).map(|_| word(rng)).collect()
}

/// Valid code, paired table, and a record that mostly fits them.
pub fn valid(rng: &mut Rng) -> Machine {
    let k = rng.between(1, 24);
    let m = k + rng.below(12);
    let mut mem = random_code(rng, k, m);
    for _ in k..m {
        let word = rng.pick(&[START, FINISH, 0, 1]);
        mem.push(if rng.chance(1, 4) { word } else { rng.word() });
    }
    let table = if rng.chance(1, 12) {
        Vec::new()
    } else {
        random_table(rng, 8)
    };
    let n = (table.len() / NODE) as u32;
    let mut regs = [0; 16];
    for reg in regs.iter_mut().skip(2) {
        *reg = register_value(rng, k, m);
    }
    regs[PC] = rng.below(k);
    let record = Record {
        regs,
        qifv: rng.between(u32::from(n > 0), n),
        qifw: 0,
        k,
        m,
        n,
        position: positions::any(rng),
    };
    let mut machine = Machine { record, mem, table };
    machine.lend_excess(rng);
    machine
}

/// Nodes whose link in `field` is not 0.
fn linked(machine: &Machine, field: usize) -> Vec<u32> {
    (1..=machine.record.n)
        .filter(|v| machine.table[NODE * (*v as usize - 1) + field] != 0)
        .collect()
}

fn field(machine: &Machine, node: u32, field: usize) -> u32 {
    machine.table[NODE * (node as usize - 1) + field]
}

/// Sets node and coin so that a forward qif at pc is accepted.
fn aim_qif(rng: &mut Rng, machine: &mut Machine, coin: usize) {
    let nodes = linked(machine, FC);
    if !nodes.is_empty() {
        machine.record.qifv = rng.pick(&nodes);
        machine.record.regs[coin] = rng.below(2);
    }
}

/// Sets node and coin to those after a qif, with wait count 0.
fn aim_child(rng: &mut Rng, machine: &mut Machine, coin: usize) {
    let nodes = linked(machine, CF);
    if !nodes.is_empty() {
        let u = rng.pick(&nodes);
        let v = field(machine, u, CF);
        machine.record.qifv = u;
        machine.record.regs[coin] = u32::from(field(machine, v, FC) != u);
    }
}

/// As `aim_child`, with a wait count up to w.
fn aim_wait(rng: &mut Rng, machine: &mut Machine, coin: usize) {
    aim_child(rng, machine, coin);
    if linked(machine, CF).is_empty() {
        return;
    }
    let w = field(machine, machine.record.qifv, W);
    machine.record.qifw = rng.between(w.min(1), w);
}

/// Sets node and coin so that a fiq is accepted.
fn aim_fiq(rng: &mut Rng, machine: &mut Machine, coin: usize, way: Way) {
    let nodes = linked(machine, if way == Way::Forward { CL } else { PR });
    if nodes.is_empty() {
        return;
    }
    let v = rng.pick(&nodes);
    machine.record.qifv = v;
    machine.record.regs[coin] = match way {
        Way::Forward => u32::from(field(machine, field(machine, v, CL), LC) != v),
        Way::Back => rng.below(2),
    };
}

/// Sets a register that a word reads, unless it is pc.
fn aim_source(machine: &mut Machine, reg: u8, value: u32) {
    if usize::from(reg) != PC {
        machine.record.regs[usize::from(reg)] = value;
    }
}

/// Sets the address of the fetr at `at`, in many cases to that of a constant in
/// the code.
fn aim_copy(rng: &mut Rng, machine: &mut Machine, at: u32, reg: u8) {
    let address = address(rng, machine.record.k, machine.record.m);
    aim_source(machine, reg, address);
    if address < machine.record.k && address != at && rng.chance(1, 2) {
        machine.mem[address as usize] = constant(rng);
    }
}

/// Sets registers and node so that a turn over the word at `at` is likely to
/// be accepted; the table must be paired.
pub fn aim(rng: &mut Rng, machine: &mut Machine, way: Way) {
    let (k, m) = (machine.record.k, machine.record.m);
    let at = rng.below(k);
    let word = machine.mem[at as usize];
    machine.record.qifw = 0;
    machine.record.regs[BR] = if rng.chance(1, 3) { offset(rng) } else { 0 };
    match decode(word) {
        Some(Ldr { b, .. }) if m > k && rng.chance(3, 4) => {
            aim_source(machine, b, rng.between(k, m - 1));
        }
        Some(Ldr { b, .. }) => aim_source(machine, b, address(rng, k, m)),
        Some(Fetr { b, .. }) => aim_copy(rng, machine, at, b),
        Some(Qif { a }) if rng.chance(1, 2) => aim_wait(rng, machine, a.into()),
        Some(Qif { a }) if way == Way::Forward => aim_qif(rng, machine, a.into()),
        Some(Qif { a }) => aim_child(rng, machine, a.into()),
        Some(Fiq { a }) => aim_fiq(rng, machine, a.into(), way),
        // Most registers are small, so they have the same order unsigned.
        Some(AribLess { b, c, .. }) if rng.chance(1, 2) => {
            aim_source(machine, b, rng.word());
            aim_source(machine, c, rng.word());
        }
        Some(Swbr { a }) if rng.chance(1, 2) => machine.record.regs[usize::from(a)] = offset(rng),
        _ => {}
    }
    let waits = machine.record.qifw > 0;
    machine.record.regs[PC] = if way == Way::Forward || waits {
        at
    } else {
        at.wrapping_add(step(machine.record.regs[BR]))
    };
}

/// Noise in every word; the sizes fit in most cases so that more than their
/// check is reached.
pub fn noise(rng: &mut Rng) -> Machine {
    let mem_len = rng.below(40) as usize;
    let table_len = rng.below(60) as usize;
    let mut record = Record {
        regs: std::array::from_fn(|_| rng.word()),
        qifv: rng.word(),
        qifw: rng.word(),
        k: rng.word(),
        m: rng.word(),
        n: rng.word(),
        position: positions::any(rng),
    };
    if rng.chance(7, 8) {
        record.m = rng.between(0, mem_len as u32);
        record.k = rng.between(0, record.m);
        record.n = rng.between(0, (table_len / NODE) as u32);
        record.regs[PC] = rng.below(record.k + 2);
    }
    Machine {
        record,
        mem: rng.words(mem_len),
        table: rng.words(table_len),
    }
}

/// A machine for a single turn in the given direction.
pub fn for_turn(rng: &mut Rng, way: Way) -> Machine {
    let kind = rng.below(16);
    if kind == 0 {
        return noise(rng);
    }
    let mut machine = valid(rng);
    aim(rng, &mut machine, way);
    if kind >= 8 {
        for _ in 0..rng.between(1, 3) {
            damage(rng, &mut machine);
        }
    }
    machine
}

/// Leaves the position or sets it to any other, in many cases so near an end
/// that a run comes to it.
fn place(rng: &mut Rng, machine: &mut Machine) {
    match rng.below(4) {
        0 => machine.record.position = positions::near_end(rng, 300),
        1 => machine.record.position = positions::any(rng),
        _ => {}
    }
}

/// A machine for many turns, in the middle of its run.
pub fn for_run(rng: &mut Rng, way: Way) -> Machine {
    let kind = rng.below(10);
    if kind < 2 {
        return for_turn(rng, way);
    }
    let turns = if kind < 4 { 400 } else { 2_000 };
    let mut machine = structured::running(rng, turns);
    place(rng, &mut machine);
    match kind {
        2 | 3 => damage(rng, &mut machine),
        4 => damage_address(rng, &mut machine),
        _ => {}
    }
    machine
}
