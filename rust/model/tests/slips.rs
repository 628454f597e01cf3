//! The five ways in which a crank slips, on the model and on the library.

mod proved;

use crank_model::instruction::{word_i, word_r, START};
use crank_model::machine::{self, Record, CF, FC, NODE, W};
use crank_model::state::{Machine, Turn};

const R1: usize = 4;

fn machine_of(code: &[u32], data: &[u32]) -> Machine {
    let mem = [code, data].concat();
    let record = Record {
        k: code.len() as u32,
        m: mem.len() as u32,
        ..Record::default()
    };
    Machine {
        record,
        mem,
        table: Vec::new(),
    }
}

/// A wait stays at the qif's address until it ends.
fn wait_stays(forward: Turn) {
    let mut m = machine_of(&[word_r(24, R1, 0), word_i(2, R1, 1)], &[]);
    m.table = vec![0; 2 * NODE];
    m.table[FC] = 2;
    m.table[NODE + CF] = 1;
    m.table[NODE + W] = 3;
    m.record.n = 2;
    m.record.qifv = 1;
    let mut places = Vec::new();
    for _ in 0..4 {
        assert_eq!(m.turn(forward), 0);
        places.push((m.record.regs[0], m.record.qifw));
    }
    assert_eq!(places, [(0, 3), (0, 2), (0, 1), (1, 0)]);
}

/// pc moves by the br that the word leaves, and back by the same.
fn new_br_moves(forward: Turn, back: Turn) {
    let start = machine_of(&[word_i(5, 0, 3), 0, 0, 0], &[]);
    let mut m = start.clone();
    assert_eq!(m.turn(forward), 0);
    assert_eq!((m.record.regs[0], m.record.regs[1]), (3, 3));
    assert_eq!(m.turn(back), 0);
    assert_eq!(m, start);
    let mut m = machine_of(&[word_i(5, 0, 3), 0, 0, 0], &[]);
    m.record.regs[1] = 3;
    assert_eq!(m.turn(forward), 0);
    assert_eq!((m.record.regs[0], m.record.regs[1]), (1, 0));
}

/// Refusal 18 leaves the data word as it was.
fn refused_swap_writes_nothing(forward: Turn) {
    for word in [word_i(1, R1, 2), word_r(16, R1, 5)] {
        let mut start = machine_of(&[word, START], &[99]);
        start.record.regs[5] = 2;
        let mut m = start.clone();
        assert_eq!(m.turn(forward), 18);
        assert_eq!(m, start);
    }
}

/// sub(r, pc) reads the turn's own pc both ways.
fn sub_pc(forward: Turn, back: Turn) {
    let mut start = machine_of(&[0, 0, word_r(21, R1, 0)], &[]);
    start.record.regs[0] = 2;
    start.record.regs[R1] = 10;
    let mut m = start.clone();
    assert_eq!(m.turn(forward), 0);
    assert_eq!((m.record.regs[0], m.record.regs[R1]), (3, 8));
    assert_eq!(m.turn(back), 0);
    assert_eq!(m, start);
}

/// add, addi, sub and subi wrap.
fn wrapping(forward: Turn, back: Turn) {
    let cases = [
        (word_i(3, R1, 2), u32::MAX, 1),
        (word_i(4, R1, 2), 1, u32::MAX),
        (word_r(20, R1, 5), u32::MAX - 1, 3),
        (word_r(21, R1, 5), 3, u32::MAX - 1),
        (word_r(22, R1, 0), 1, u32::MAX),
    ];
    for (word, before, after) in cases {
        let mut start = machine_of(&[word], &[]);
        start.record.regs[R1] = before;
        start.record.regs[5] = 5;
        let mut m = start.clone();
        assert_eq!(m.turn(forward), 0);
        assert_eq!(m.record.regs[R1], after, "{word:#010x}");
        assert_eq!(m.turn(back), 0);
        assert_eq!(m, start);
    }
}

fn slips(forward: Turn, back: Turn) {
    wait_stays(forward);
    new_br_moves(forward, back);
    refused_swap_writes_nothing(forward);
    sub_pc(forward, back);
    wrapping(forward, back);
}

#[test]
fn model() {
    slips(machine::forward, machine::back);
}

#[test]
fn library() {
    slips(proved::forward, proved::back);
}

#[test]
fn previews() {
    for (name, [forward, back]) in proved::AS_SHOWN {
        println!("by {name}:");
        slips(forward, back);
    }
}
