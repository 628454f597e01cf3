//! Tiny machines, all states from small sets of values: no two of them lead
//! to the same state, forward or back, and what is reached leads back.

use std::collections::HashMap;

use crank_model::cover::access_at;
use crank_model::instruction::{
    decode, word_i, word_r, Access, Instruction, FINISH, KINDS, PC, START,
};
use crank_model::machine::{Record, NODE};
use crank_model::rng::{rounds, Rng};
use crank_model::state::{Machine, Way, WAYS};
use crank_model::words::word_of;

const R1: usize = 4;
const R2: usize = 5;

/// Nodes 1 to 3: a qif from 1 to 2 or 3 and back to 1, with waits 0 and 2.
/// The broken one has both coins lead to node 2.
fn table(broken: bool) -> Vec<u32> {
    let other = if broken { 2 } else { 3 };
    let nodes: [[u32; NODE]; 3] = [
        [2, other, 2, other, 0, 0, 1, 1, 0],
        [0, 0, 0, 0, 1, 1, 0, 0, 2],
        [0, 0, 0, 0, 1, 1, 0, 0, 0],
    ];
    nodes.concat()
}

/// Keeps only r1, r2 and pc as the registers a word names.
fn small_registers(word: u32) -> bool {
    use Instruction::*;
    let small = |reg: u8| [0, R1, R2].contains(&reg.into());
    match decode(word) {
        None => false,
        Some(Bra { .. } | Start | Finish) => true,
        Some(Ld { a, .. } | Xori { a, .. } | Addi { a, .. } | Subi { a, .. }) => small(a),
        Some(Bez { a, .. } | Bnz { a, .. }) => small(a),
        Some(Neg { a } | Swbr { a } | Qif { a } | Fiq { a } | UniFlip { a }) => small(a),
        Some(_) => small(((word >> 20) & 15) as u8) && small(((word >> 16) & 15) as u8),
    }
}

fn small_word(rng: &mut Rng, kind: (u32, u32)) -> u32 {
    loop {
        let word = word_of(rng, kind, 2, 3);
        if kind.0 == 35 || small_registers(word) {
            return word;
        }
    }
}

/// All states over small sets of values.
fn states(code: [u32; 2], table: &[u32]) -> Vec<Machine> {
    let mut all = Vec::new();
    let uses_nodes = code.iter().any(|word| matches!(word >> 24, 24 | 25));
    let nodes: &[u32] = if uses_nodes { &[0, 1, 2, 3, 4] } else { &[1] };
    let waits: &[u32] = if uses_nodes { &[0, 1, 2, 3] } else { &[0, 1] };
    let values = [0, 1, 2, u32::MAX];
    for pc in [0, 1, 2, u32::MAX] {
        for br in [0, 1, u32::MAX, 2] {
            for (r1, r2) in values.iter().flat_map(|a| values.map(|b| (*a, b))) {
                for (qifv, qifw) in nodes.iter().flat_map(|v| waits.iter().map(|w| (*v, *w))) {
                    for data in [0, 1] {
                        let mut record = Record {
                            qifv,
                            qifw,
                            k: 2,
                            m: 3,
                            n: 3,
                            ..Record::default()
                        };
                        record.regs[0] = pc;
                        record.regs[1] = br;
                        record.regs[R1] = r1;
                        record.regs[R2] = r2;
                        all.push(Machine {
                            record,
                            mem: vec![code[0], code[1], data],
                            table: table.to_vec(),
                        });
                    }
                }
            }
        }
    }
    all
}

/// Three positions in a row: around 0 and at either end.
const POSITIONS: [[i64; 3]; 3] = [
    [-1, 0, 1],
    [i64::MAX - 2, i64::MAX - 1, i64::MAX],
    [i64::MIN, i64::MIN + 1, i64::MIN + 2],
];

/// Each state at each of the positions.
fn at_positions(states: &[Machine], positions: [i64; 3]) -> Vec<Machine> {
    let at = |state: &Machine, position| {
        let mut state = state.clone();
        state.record.position = position;
        state
    };
    let of_state = |state| positions.map(|position| at(state, position));
    states.iter().flat_map(of_state).collect()
}

/// Turns every state; gives the accepted ones, and those that copy from code.
fn injective(way: Way, states: &[Machine]) -> [usize; 2] {
    let mut reached: HashMap<(Record, u32), usize> = HashMap::new();
    let mut copies = 0;
    for (i, start) in states.iter().enumerate() {
        let mut m = start.clone();
        let refusal = m.turn(way.model());
        if refusal != 0 {
            assert_eq!(m, *start);
            continue;
        }
        if let Some(j) = reached.insert((m.record, m.mem[2]), i) {
            panic!("{way:?}: {:?} and {start:?} lead to {m:?}", states[j]);
        }
        assert_eq!(m.turn(way.reverse().model()), 0, "{way:?} {start:?}");
        assert_eq!(m, *start);
        let access = access_at(&start.record, &start.mem, way);
        copies += usize::from(matches!(access, Some(Access::Copy(0 | 1))));
    }
    [reached.len(), copies]
}

/// A word of every kind, and fetr by each register that the states set.
fn words(rng: &mut Rng) -> Vec<u32> {
    let copies = [(R1, R2), (R2, R1), (R1, PC), (R2, PC)];
    let copies = copies.map(|(a, b)| word_r(17, a, b));
    let each = KINDS.into_iter().map(|kind| small_word(rng, kind));
    each.chain(copies).collect()
}

#[test]
fn no_two_states_lead_to_the_same() {
    let mut rng = Rng::new(51);
    let mut accepted = [[0usize; 2]; 2];
    let mut machines = 0;
    for _ in 0..rounds(6) {
        for word in words(&mut rng) {
            let others = [
                START,
                FINISH,
                word_r(24, R1, 0),
                word_i(5, 0, 1),
                word_r(23, R2, 0),
            ];
            let other = rng.pick(&others);
            for code in [[word, other], [other, word], [word, word]] {
                let all = states(code, &table(rng.chance(1, 3)));
                let all = at_positions(&all, rng.pick(&POSITIONS));
                machines += 1;
                for way in WAYS {
                    let [all, copies] = injective(way, &all);
                    accepted[0][way as usize] += all;
                    accepted[1][way as usize] += copies;
                }
            }
        }
    }
    let [all, copies] = accepted;
    println!("tiny: {machines} machines, accepted forward and back {all:?}, copies {copies:?}");
    assert!(accepted.as_flattened().iter().all(|count| *count > 10_000));
}
