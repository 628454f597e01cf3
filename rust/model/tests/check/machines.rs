//! Machines to check, and the nodes to ask about.

use crank_model::cover::Cover;
use crank_model::damage::damage;
use crank_model::generate::{noise, valid};
use crank_model::machine::{sizes_fit, MAX_N, NODE};
use crank_model::nodes::Nodes;
use crank_model::rng::{rounds, Rng};
use crank_model::state::Machine;
use crank_model::structured::running;

/// A machine with paired table and at least one link of each kind.
pub fn sound(rng: &mut Rng) -> Machine {
    loop {
        let machine = valid(rng);
        if machine.record.n >= 7 {
            return machine;
        }
    }
}

/// Any machine, with up to three damages.
pub fn any(rng: &mut Rng) -> Machine {
    let mut machine = match rng.below(16) {
        0 => noise(rng),
        1 | 2 => running(rng, 20),
        _ => valid(rng),
    };
    for _ in 0..rng.below(4) {
        damage(rng, &mut machine);
    }
    machine
}

/// A machine whose sizes fit and whose table has these words.
fn with_table(rng: &mut Rng, words: Vec<u32>) -> Machine {
    let mut machine = valid(rng);
    machine.record.n = (words.len() / NODE) as u32;
    machine.table = words;
    machine.lend_excess(rng);
    machine
}

/// As many nodes as there can be, paired: 170 qifs of three nodes behind a first.
fn largest(rng: &mut Rng) -> Machine {
    let mut nodes = Nodes::default();
    let mut ends = vec![nodes.add(0)];
    while nodes.count() < MAX_N {
        let at = rng.index(ends.len());
        let v = ends.swap_remove(at);
        for coin in 0..2 {
            let child = nodes.add(rng.word());
            nodes.first_child(v, coin, child);
            nodes.last_child(v, coin, child);
            ends.push(child);
        }
        let next = nodes.add(rng.word());
        nodes.next(v, next);
        ends.push(next);
    }
    let (words, _) = nodes.shuffled(rng);
    with_table(rng, words)
}

/// Changes a word of the largest table, mostly a link.
fn damage_largest(rng: &mut Rng, machine: &mut Machine) {
    let at = rng.index(NODE * MAX_N as usize);
    let node = rng.between(1, MAX_N);
    machine.table[at] = rng.pick(&[0, node, node, MAX_N + 1, u32::MAX]);
}

/// Puts words that are noise in place of one code word or of all.
fn spoil_code(rng: &mut Rng, machine: &mut Machine) {
    let k = machine.mem.len().min(machine.record.k as usize);
    let from = rng.index(k);
    let code = if rng.chance(1, 2) {
        0..k
    } else {
        from..k.min(from + 1)
    };
    machine.mem[code].fill_with(|| rng.word());
}

/// All of 0 to N + 1, the largest word, and any. Wrong sizes leave N free, and
/// with them a few nodes stand for all.
fn asked(rng: &mut Rng, machine: &Machine) -> Vec<u32> {
    let r = &machine.record;
    let mut nodes: Vec<u32> = (0..=r.n.min(MAX_N) + 1).collect();
    if !sizes_fit(r, &machine.mem, &machine.table) {
        nodes.truncate(3);
        nodes.extend([r.n, r.n.wrapping_add(1)]);
    }
    nodes.extend([u32::MAX, r.qifv]);
    nodes.extend(rng.words(3));
    nodes
}

/// Machines of every kind with the nodes to ask about, each also with spoilt
/// code in every other case.
pub fn each(seed: u64, mut visit: impl FnMut(&Machine, &[u32])) {
    let mut rng = Rng::new(seed);
    let mut visit = |rng: &mut Rng, mut machine: Machine| {
        let nodes = asked(rng, &machine);
        visit(&machine, &nodes);
        if rng.chance(1, 2) {
            spoil_code(rng, &mut machine);
            visit(&machine, &nodes);
        }
    };
    for _ in 0..rounds(30_000) {
        let machine = any(&mut rng);
        visit(&mut rng, machine);
    }
    for _ in 0..rounds(300) {
        let machine = with_table(&mut rng, Vec::new());
        visit(&mut rng, machine);
    }
    for _ in 0..rounds(20) {
        let mut machine = largest(&mut rng);
        visit(&mut rng, machine.clone());
        for _ in 0..5 {
            damage_largest(&mut rng, &mut machine);
            visit(&mut rng, machine.clone());
        }
    }
}

/// One word of a sound table changed to every node's number, to N + 1 and to
/// the largest word, in every place; with the node and the field of it.
pub fn every_link(seed: u64, count: u32, mut visit: impl FnMut(&Machine, u32, usize)) {
    let mut rng = Rng::new(seed);
    for _ in 0..rounds(count) {
        let mut machine = sound(&mut rng);
        let n = machine.record.n;
        for at in 0..NODE * n as usize {
            let old = machine.table[at];
            for value in (0..=n + 1).chain([u32::MAX]) {
                machine.table[at] = value;
                visit(&machine, (at / NODE) as u32 + 1, at % NODE);
            }
            machine.table[at] = old;
        }
    }
}

/// Counts the ends of the range of N, where the sizes fit.
pub fn count_ends(machine: &Machine, cover: &mut Cover) {
    let r = &machine.record;
    if sizes_fit(r, &machine.mem, &machine.table) {
        match r.n {
            0 => cover.count("N 0"),
            MAX_N => cover.count("N 511"),
            _ => {}
        }
    }
}
