//! The twelve bench marks, and those of a fetr and of signs (document 02, #106 and
//! #108), on the model and on the library.

mod proved;

use crank_model::instruction::{decode, word_i, word_o, word_r, Instruction, START};
use crank_model::machine::{self, Record, CF, FC, NODE, W};
use crank_model::state::{Machine, Turn};

const R1: usize = 4;
const R2: usize = 5;
const R3: usize = 6;

/// Code followed by data words; pc 0 and no table.
fn machine_of(code: &[u32], data: &[u32]) -> Machine {
    let mem = [code, data].concat();
    let record = Record {
        k: code.len() as u32,
        m: mem.len() as u32,
        ..Record::default()
    };
    Machine {
        record,
        mem,
        table: Vec::new(),
    }
}

/// A machine with one word at address `pc` among starts.
fn one_word(pc: u32, word: u32) -> Machine {
    let mut code = vec![START; pc as usize];
    code.push(word);
    let mut machine = machine_of(&code, &[]);
    machine.record.regs[0] = pc;
    machine
}

fn b_add_wraps(forward: Turn) {
    let mut m = one_word(0, 0x1445_0000);
    m.record.regs[R1] = 4_294_967_295;
    m.record.regs[R2] = 1;
    assert_eq!(m.turn(forward), 0);
    assert_eq!(m.record.regs[R1], 0);
}

fn d_e_pc_moves(forward: Turn) {
    let mut m = one_word(7, word_i(2, R1, 5));
    assert_eq!(m.turn(forward), 0);
    assert_eq!(m.record.regs[0], 8);
    let mut m = one_word(7, word_i(2, R1, 5));
    m.mem[5] = word_i(2, R1, 5);
    m.record.regs[1] = 4_294_967_294;
    assert_eq!(m.turn(forward), 0);
    assert_eq!(m.record.regs[0], 5);
}

fn f_g_branches(forward: Turn) {
    let mut m = one_word(0, 0x0500_FFFE);
    assert_eq!(m.turn(forward), 0);
    assert_eq!(m.record.regs[1], 4_294_967_294);
    for (coin, br) in [(0, 9), (1, 0)] {
        let mut m = one_word(0, word_i(6, R1, 9));
        m.record.regs[R1] = coin;
        assert_eq!(m.turn(forward), 0);
        assert_eq!(m.record.regs[1], br);
    }
}

fn h_data_addresses(forward: Turn, back: Turn) {
    for (address, refusal) in [(0, 15), (1, 0), (2, 15)] {
        let start = machine_of(&[word_i(1, R1, address)], &[77]);
        let mut m = start.clone();
        assert_eq!(m.turn(forward), refusal);
        if refusal != 0 {
            assert_eq!(m, start);
            continue;
        }
        assert_eq!((m.record.regs[R1], m.mem[1]), (77, 0));
        assert_eq!(m.turn(back), 0);
        assert_eq!(m, start);
    }
}

/// A fetr at K-1 reads the code word there, and is undone; at M it is 15, with a
/// word lent there, too.
fn fetr_addresses(forward: Turn, back: Turn) {
    let mut start = machine_of(&[word_r(17, R1, R2), 0xC0DE_C0DE], &[77]);
    start.mem.push(99);
    start.record.regs[R1] = 0x0000_0001;
    for (address, refusal, r1) in [(1, 0, 0xC0DE_C0DF), (3, 15, 1)] {
        start.record.regs[R2] = address;
        let mut m = start.clone();
        assert_eq!(m.turn(forward), refusal);
        assert_eq!(m.record.regs[R1], r1);
        assert_eq!(m.mem, [0x1145_0000, 0xC0DE_C0DE, 77, 99]);
        if refusal == 0 {
            assert_eq!(m.record.regs[0], 1);
            assert_eq!(m.turn(back), 0);
        }
        assert_eq!(m, start);
    }
}

/// Quotient 0 leaves r1; another quotient shows that the word does something.
fn i_division_by_zero(forward: Turn) {
    for (divisor, r1) in [(0, 9), (7, 8), (2, 10)] {
        let mut m = one_word(0, word_o(35, 3, R1, R2, R3));
        m.record.regs[R1] = 9;
        m.record.regs[R2] = 7;
        m.record.regs[R3] = divisor;
        assert_eq!(m.turn(forward), 0);
        assert_eq!(m.record.regs[R1], r1);
    }
}

/// 4,294,967,295 is -1 to a less, and the largest word to equal and quotient. Each
/// of these is undone.
fn signs(forward: Turn, back: Turn) {
    // The para, r2 and r3, and r1 from 6.
    for (para, r2, r3, r1) in [
        (5, 4_294_967_295, 0, 7),
        (5, 0, 4_294_967_295, 6),
        (4, 4_294_967_295, 1, 6),
        (3, 4_294_967_295, 2, 6 ^ 2_147_483_647),
    ] {
        let mut start = one_word(0, word_o(35, para, R1, R2, R3));
        start.record.regs[R1] = 6;
        start.record.regs[R2] = r2;
        start.record.regs[R3] = r3;
        let mut m = start.clone();
        assert_eq!(m.turn(forward), 0);
        assert_eq!(m.record.regs[R1], r1, "arib {para} of {r2} and {r3}");
        assert_eq!(m.turn(back), 0);
        assert_eq!(m, start);
    }
}

/// A qif from node 1 to node 2 (coin 0, w = 2) or 3 (coin 1, w = 0).
fn qif_machine(coin: u32) -> Machine {
    let mut m = one_word(0, word_r(24, R1, 0));
    m.table = vec![0; 3 * NODE];
    m.table[FC] = 2;
    m.table[FC + 1] = 3;
    m.table[NODE + CF] = 1;
    m.table[2 * NODE + CF] = 1;
    m.table[NODE + W] = 2;
    m.record.n = 3;
    m.record.qifv = 1;
    m.record.regs[R1] = coin;
    m
}

fn j_qif_waits(forward: Turn, back: Turn) {
    let start = qif_machine(0);
    let mut m = start.clone();
    for (pc, wait) in [(0, 2), (0, 1), (1, 0)] {
        assert_eq!(m.turn(forward), 0);
        assert_eq!(
            (m.record.regs[0], m.record.qifw, m.record.qifv),
            (pc, wait, 2)
        );
    }
    for (wait, node) in [(1, 2), (2, 2), (0, 1)] {
        assert_eq!(m.turn(back), 0);
        assert_eq!((m.record.qifw, m.record.qifv), (wait, node));
    }
    assert_eq!(m, start);
}

fn k_l_refusals(forward: Turn, back: Turn) {
    let start = one_word(0, START);
    let mut m = start.clone();
    assert_eq!(m.turn(back), 12);
    assert_eq!(m, start);
    let start = qif_machine(2);
    let mut m = start.clone();
    assert_eq!(m.turn(forward), 16);
    assert_eq!(m, start);
}

fn marks(forward: Turn, back: Turn, is_instruction: fn(u32) -> bool) {
    assert!(is_instruction(0x0240_0005)); // (a)
    assert!(!is_instruction(0x1444_0000)); // (c)
    let mut m = one_word(0, 0x0240_0005);
    m.record.regs[R1] = 12;
    assert_eq!(m.turn(forward), 0);
    assert_eq!(m.record.regs[R1], 12 ^ 5);
    b_add_wraps(forward);
    d_e_pc_moves(forward);
    f_g_branches(forward);
    h_data_addresses(forward, back);
    fetr_addresses(forward, back);
    i_division_by_zero(forward);
    signs(forward, back);
    j_qif_waits(forward, back);
    k_l_refusals(forward, back);
    println!("marks: (a) to (l), a fetr at K-1 and M, and signs");
}

#[test]
fn model() {
    let xori = Instruction::Xori { a: 4, imm: 5 };
    assert_eq!(decode(0x0240_0005), Some(xori));
    marks(machine::forward, machine::back, |word| {
        decode(word).is_some()
    });
}

#[test]
fn library() {
    marks(proved::forward, proved::back, proved::is_instruction);
}

#[test]
fn previews() {
    for (name, [forward, back]) in proved::AS_SHOWN {
        println!("by {name}:");
        marks(forward, back, proved::is_instruction);
    }
}
