//! 10 and 22, after which nothing is written.

use super::{machine, Case, FINISH, FIQ, NONE, OTHER, QIF, START};
use crank_model::damage::wrong_sizes;
use crank_model::maker::{SCRATCH, TABLE};
use crank_model::state::Machine;

/// A start in the code, one in the data, and one lent behind it.
fn good() -> Case {
    let mut at_start = machine(&[START, QIF, FIQ, FINISH], &[5, START]);
    at_start.mem.push(START);
    at_start.table = vec![OTHER; TABLE];
    let scratch = vec![OTHER; SCRATCH * 6];
    let limit = 4;
    Case {
        machine: at_start,
        limit,
        scratch,
    }
}

type Change = fn(&mut Case);

/// What is changed of a good call.
const REFUSED_22: [(&str, Change); 16] = [
    ("pc at a qif", |case| case.machine.record.regs[0] = 1),
    ("pc at finish", |case| case.machine.record.regs[0] = 3),
    ("pc at K", |case| case.machine.record.regs[0] = 4),
    ("pc at a start in the data", |case| {
        case.machine.record.regs[0] = 5
    }),
    ("pc at a start behind M", |case| {
        case.machine.record.regs[0] = 6
    }),
    ("pc behind the lent words", |case| {
        case.machine.record.regs[0] = 7
    }),
    ("pc far off", |case| case.machine.record.regs[0] = u32::MAX),
    ("no start there", |case| case.machine.mem[0] = NONE),
    ("one node", |case| case.machine.record.n = 1),
    ("all nodes", |case| case.machine.record.n = 511),
    ("a wait", |case| case.machine.record.qifw = 1),
    ("a long wait", |case| case.machine.record.qifw = u32::MAX),
    ("a table too short by one", |case| {
        case.machine.table.truncate(4_598)
    }),
    ("no table", |case| case.machine.table.clear()),
    ("scratch too short by one", |case| case.scratch.truncate(95)),
    ("no scratch", |case| case.scratch.clear()),
];

#[test]
fn as_said_but_for_one() {
    good().gives(3, &nodes()).all_of(2);
    for (name, change) in REFUSED_22 {
        println!("22: {name}");
        for limit in [0, 4, u32::MAX] {
            let mut case = good().limited(limit);
            change(&mut case);
            case.refused(22);
        }
    }
}

fn nodes() -> [[u32; 9]; 4] {
    [
        [2, 3, 2, 3, 0, 0, 4, 0, 0],
        [0, 0, 0, 0, 1, 1, 0, 0, 0],
        [0, 0, 0, 0, 1, 1, 0, 0, 0],
        [0, 0, 0, 0, 0, 0, 0, 1, 0],
    ]
}

/// What the call does not look at: node, position, and registers but pc and br.
#[test]
fn anything_else() {
    let mut answers = 0;
    for position in [i64::MIN, -1, 0, i64::MAX - 1, i64::MAX] {
        for word in [0, 1, 2, 511, 512, u32::MAX] {
            let mut case = good();
            case.machine.record.position = position;
            case.machine.record.qifv = word;
            case.machine.record.regs[2..].fill(word);
            case.gives(3, &nodes()).all_of(2);
            answers += 1;
        }
    }
    println!("anything else: {answers} calls");
}

/// 10 as a turn gives it, before 22: N nodes need 9 N words though none are left
/// to be made.
#[test]
fn sizes() {
    let mut rows = 0;
    let mut refused = |machine: &Machine, scratch: usize, refusal: u32| {
        let case = Case {
            machine: machine.clone(),
            limit: 9,
            scratch: vec![OTHER; scratch],
        };
        case.refused(refusal);
        rows += 1;
    };
    let mut with_node = good().machine;
    with_node.record.n = 1;
    for wrong in wrong_sizes(&with_node) {
        refused(&wrong, 96, 10);
        refused(&wrong, 0, 10);
    }
    for (n, words, refusal) in [
        (0, 0, 22),
        (1, 8, 10),
        (1, 9, 22),
        (511, 4_598, 10),
        (511, 4_599, 22),
        (512, 4_608, 10),
    ] {
        let mut machine = good().machine;
        machine.record.n = n;
        machine.table = vec![OTHER; words];
        refused(&machine, 96, refusal);
    }
    println!("sizes: {rows} rows");
}

/// The largest memory, whose scratch has 131,072 words.
#[test]
fn largest_memory() {
    for k in [4, 8_191, 8_192] {
        let mut case = good();
        case.machine.mem = vec![NONE; 8_192];
        case.machine.mem[..4].copy_from_slice(&[START, QIF, FIQ, FINISH]);
        (case.machine.record.k, case.machine.record.m) = (k, 8_192);
        case.scratch = vec![OTHER; 131_072];
        case.gives(3, &nodes()).all_of(2);
        case.scratch.truncate(131_071);
        case.refused(22);
    }
    println!("largest memory: 3 calls, and 3 refused");
}
