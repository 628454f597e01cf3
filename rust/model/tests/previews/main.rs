//! Previews: library, lesson bench and model agree, and the turn made on a copy,
//! by library or model, is as it was shown.

#[path = "../proved/mod.rs"]
mod proved;

mod exchanges;
mod lent;
mod machines;
mod runs;
mod waits;

use crank_model::compare::{same_preview, turn_as_shown};
use crank_model::cover::{access_at, word_at, Cover};
use crank_model::instruction::Instruction::{self, *};
use crank_model::instruction::{decode, Access};
use crank_model::machine::Record;
use crank_model::preview::Preview;
use crank_model::rng::Rng;
use crank_model::state::{Machine, Turn, Way, WAYS};
use proved::PREVIEWS;

const TURNS: [Turn; 2] = [proved::forward, proved::back];

/// Compares a preview by every caller with the model's, with the turns that follow
/// it, and with what the word at pc does. Gives also what the turn leads to.
fn one_preview(way: Way, machine: &Machine, cover: &mut Cover) -> (Preview, Machine) {
    let [_, library, bench] = PREVIEWS.map(|(_, calls)| calls[way as usize]);
    let shown = same_preview(way, machine, library);
    let on_bench = same_preview(way, machine, bench);
    assert_eq!(on_bench, shown, "{way:?} preview of {machine:?}");
    let after = turn_as_shown(way, machine, &shown, TURNS[way as usize]);
    turn_as_shown(way, machine, &shown, way.model());
    let change = match shown.refusal {
        0 => changed(way, machine),
        _ => (0, 0, 0),
    };
    let found = (shown.changes, shown.address, shown.value);
    assert_eq!(found, change, "{way:?} preview of {machine:?}");
    cover.turn(way, &machine.record, shown.refusal, &after);
    cover.count(&case(way, machine, &shown));
    count_excess(machine, shown.refusal, cover);
    (shown, after)
}

/// A refused preview gives the record as given and no change.
fn refused(refusal: u32, r: &Record) -> Preview {
    Preview {
        refusal,
        changes: 0,
        address: 0,
        value: 0,
        record: *r,
    }
}

fn count_excess(machine: &Machine, refusal: u32, cover: &mut Cover) {
    let (mem, table) = machine.counted();
    if refusal == 0 && mem.len() < machine.mem.len() {
        cover.count("memory longer than M");
    }
    if refusal == 0 && table.len() < machine.table.len() {
        cover.count("table longer than 9N");
    }
}

fn instruction(way: Way, machine: &Machine) -> Option<Instruction> {
    word_at(&machine.record, &machine.mem, way).and_then(decode)
}

/// The address of an ld or ldr, and what its register holds.
fn exchange(way: Way, machine: &Machine) -> Option<(u32, u32)> {
    let regs = &machine.record.regs;
    match instruction(way, machine)? {
        Ld { a, imm } => Some((imm, regs[usize::from(a)])),
        Ldr { a, b } => Some((regs[usize::from(b)], regs[usize::from(a)])),
        _ => None,
    }
}

/// The change that an accepted turn makes, said without a turn: an ld or ldr
/// puts its register into the word at its address, and nothing else writes.
fn changed(way: Way, machine: &Machine) -> (u32, u32, u32) {
    match exchange(way, machine) {
        Some((address, new)) if machine.mem[address as usize] != new => (1, address, new),
        _ => (0, 0, 0),
    }
}

/// Makes the word of an ld or ldr equal to its register, in every third case.
fn level(rng: &mut Rng, way: Way, machine: &mut Machine) {
    if let Some((address, value)) = exchange(way, machine) {
        let word = machine.mem.get_mut(address as usize);
        if let Some(word) = word.filter(|_| address >= machine.record.k && rng.chance(1, 3)) {
            *word = value;
        }
    }
}

/// The kinds of previews, in each direction.
const CASES: [&str; 12] = [
    "ld changes a word",
    "ld changes none",
    "ld refused",
    "ldr changes a word",
    "ldr changes none",
    "ldr refused",
    "fetr changes none",
    "fetr refused",
    "fetr in code changes none",
    "fetr in code refused",
    "other word changes none",
    "other word refused",
];

fn copies_code(way: Way, machine: &Machine) -> bool {
    let access = access_at(&machine.record, &machine.mem, way);
    matches!(access, Some(Access::Copy(address)) if address < machine.record.k)
}

fn case(way: Way, machine: &Machine, shown: &Preview) -> String {
    let kind = match instruction(way, machine) {
        Some(Ld { .. }) => "ld",
        Some(Ldr { .. }) => "ldr",
        Some(Fetr { .. }) if copies_code(way, machine) => "fetr in code",
        Some(Fetr { .. }) => "fetr",
        _ => "other word",
    };
    let what = match (shown.refusal, shown.changes) {
        (0, 0) => "changes none",
        (0, _) => "changes a word",
        _ => "refused",
    };
    format!("{way:?} {kind} {what}")
}

/// Fails if one of the `wanted` kinds was not met in one of the directions.
fn demand_cases(cover: &Cover, wanted: fn(&&str) -> bool) {
    for way in WAYS {
        for case in CASES.into_iter().filter(wanted) {
            cover.demand(&[&format!("{way:?} {case}")]);
        }
    }
}

/// Fails if an instruction, a refusal or a kind of preview was not met in one
/// of the directions. Each refusal from 10 to 18 and 21 can occur in both: 12
/// is finish forward and start back, 18 the other way round.
fn demand_all(cover: &Cover) {
    cover.demand_turns();
    cover.demand(&["memory longer than M", "table longer than 9N"]);
    demand_cases(cover, |_| true);
}
