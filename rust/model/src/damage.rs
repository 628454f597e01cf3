//! Damage to single fields of a machine.

use crate::instruction::Instruction::{Fetr, Fiq, Ldr, Qif};
use crate::instruction::{decode, BR, FINISH, PC, START};
use crate::machine::{MAX_M, MAX_N, NODE};
use crate::positions::near_end;
use crate::rng::Rng;
use crate::state::Machine;
use crate::words::{address, EXTREMES};
use std::iter;

fn damage_size(rng: &mut Rng, machine: &mut Machine) {
    let r = &mut machine.record;
    let (k, m) = (r.k, r.m);
    match rng.below(9) {
        0 => r.k = rng.pick(&[0, m, m.wrapping_add(1), u32::MAX]),
        1 => r.m = rng.pick(&[0, k, k.wrapping_sub(1), MAX_M, MAX_M + 1, u32::MAX]),
        2 => r.n = rng.pick(&[0, r.n.wrapping_add(1), MAX_N, MAX_N + 1, u32::MAX]),
        3 => r.n = rng.pick(&[0x1000_0000, 0x8000_0000, 477_218_589, 954_437_177]),
        4 => r.k = rng.between(0, m.min(40) + 2),
        5 => r.m = rng.between(0, 40),
        6 => machine.mem.truncate((m as usize).saturating_sub(1)),
        7 => {
            let words = NODE * r.n.min(MAX_N) as usize;
            machine.table.truncate(words.saturating_sub(1));
        }
        _ => {
            let len = rng.index(machine.mem.len() + 1);
            machine.mem.truncate(len);
        }
    }
}

fn damage_link(rng: &mut Rng, machine: &mut Machine) {
    if machine.table.is_empty() {
        return;
    }
    let at = rng.index(machine.table.len());
    let n = machine.record.n;
    let one_off = machine.table[at].wrapping_add(1);
    let noise = rng.word();
    let near = rng.below(n.min(MAX_N) + 2);
    machine.table[at] = rng.pick(&[0, one_off, noise, near, n, n.wrapping_add(1), u32::MAX]);
}

fn damage_code(rng: &mut Rng, machine: &mut Machine) {
    if machine.mem.is_empty() {
        return;
    }
    let at = rng.index(machine.mem.len());
    let noise = rng.word();
    let stray = machine.mem[at] ^ (1 << rng.below(32));
    machine.mem[at] = rng.pick(&[stray, stray, noise, START, FINISH, 0]);
}

/// Puts start or finish at pc or around it.
fn damage_near_pc(rng: &mut Rng, machine: &mut Machine) {
    let pc = machine.record.regs[PC];
    let br = machine.record.regs[BR];
    let at = rng.pick(&[
        pc,
        pc.wrapping_add(1),
        pc.wrapping_sub(1),
        pc.wrapping_add(br),
        pc.wrapping_sub(br),
    ]);
    if let Some(word) = machine.mem.get_mut(at as usize) {
        *word = rng.pick(&[START, FINISH]);
    }
}

/// Sets a register that some instruction names to a value out of place.
fn damage_register(rng: &mut Rng, machine: &mut Machine) {
    let reg = rng.index(16);
    let noise = rng.word();
    let (k, m) = (machine.record.k, machine.record.m);
    let edge = rng.pick(&[k.wrapping_sub(1), k, m, m.wrapping_sub(1)]);
    let extreme = rng.pick(&EXTREMES);
    machine.record.regs[reg] = rng.pick(&[noise, edge, extreme, 2]);
}

/// Sets the register with the address of some ldr or fetr to another one.
pub fn damage_address(rng: &mut Rng, machine: &mut Machine) {
    let len = machine.mem.len();
    let words = machine.mem.iter().cycle().skip(rng.index(len)).take(len);
    let mut named = words.filter_map(|word| match decode(*word) {
        Some(Ldr { b, .. } | Fetr { b, .. }) => Some(usize::from(b)),
        _ => None,
    });
    if let Some(reg) = named.find(|reg| *reg != PC) {
        let (k, m) = (machine.record.k, machine.record.m);
        machine.record.regs[reg] = address(rng, k, m);
    }
}

/// Sets the coin of the qif or fiq at pc to another value.
fn damage_coin(rng: &mut Rng, machine: &mut Machine) {
    let pc = machine.record.regs[PC];
    let at = rng.pick(&[pc, pc.wrapping_sub(1)]) as usize;
    if let Some(Qif { a } | Fiq { a }) = machine.mem.get(at).and_then(|word| decode(*word)) {
        let noise = rng.word();
        let coin = &mut machine.record.regs[usize::from(a)];
        let flipped = *coin ^ 1;
        *coin = rng.pick(&[2, noise, flipped, u32::MAX]);
    }
}

fn damage_wait(rng: &mut Rng, machine: &mut Machine) {
    let r = &mut machine.record;
    let noise = rng.word();
    let up = r.qifw.wrapping_add(1);
    match rng.below(3) {
        0 => r.qifv = rng.pick(&[0, r.n, r.n.wrapping_add(1), noise, u32::MAX]),
        _ => r.qifw = rng.pick(&[0, 1, 2, up, 5, noise, u32::MAX]),
    }
}

/// Sets the position to another one, mostly at an end or next to it.
fn damage_position(rng: &mut Rng, machine: &mut Machine) {
    let position = machine.record.position;
    let noise = rng.next_u64() as i64;
    let end = near_end(rng, 3);
    machine.record.position = rng.pick(&[end, end, noise, !position]);
}

type Damage = fn(&mut Rng, &mut Machine);

/// The kinds of damage, by name, and how many of twelve are of each.
pub const DAMAGES: [(&str, Damage, usize); 9] = [
    ("damaged size", damage_size, 1),
    ("damaged link", damage_link, 2),
    ("damaged code", damage_code, 1),
    ("damaged near pc", damage_near_pc, 2),
    ("damaged register", damage_register, 1),
    ("damaged address", damage_address, 1),
    ("damaged coin", damage_coin, 1),
    ("damaged wait", damage_wait, 2),
    ("damaged position", damage_position, 1),
];

/// Damages one field of the machine.
pub fn damage(rng: &mut Rng, machine: &mut Machine) {
    let mut kinds = DAMAGES
        .iter()
        .flat_map(|(_, kind, times)| iter::repeat_n(kind, *times));
    let total: usize = DAMAGES.iter().map(|(.., times)| times).sum();
    let kind = kinds.nth(rng.index(total)).expect("a kind");
    kind(rng, machine);
}

/// Sizes out of range or lent slices too short, one at a time; the machine has
/// a node.
pub fn wrong_sizes(good: &Machine) -> [Machine; 9] {
    let with = |change: fn(&mut Machine)| {
        let mut machine = good.clone();
        change(&mut machine);
        machine
    };
    [
        with(|machine| machine.record.k = 0),
        with(|machine| machine.record.k = machine.record.m + 1),
        with(|machine| machine.record.m = 0),
        with(|machine| machine.record.m = 8_193),
        with(|machine| machine.record.m = u32::MAX),
        with(|machine| machine.record.n = 512),
        with(|machine| machine.record.n = u32::MAX),
        with(|machine| machine.mem.truncate(machine.record.m as usize - 1)),
        with(|machine| machine.table.truncate(9 * machine.record.n as usize - 1)),
    ]
}
