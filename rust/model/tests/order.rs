//! The order of refusals: machines that give cause for many of them at once,
//! mended one by one until the turn is accepted. At each step the position is
//! also at its end, where 21 comes before all but 10.

mod proved;

use crank_model::instruction::{word_i, FINISH, START};
use crank_model::machine::{self, Record, CF, CL, FC, LC, NODE, NX, PR, W};
use crank_model::state::{Machine, Turn, Way, WAYS};

const R1: usize = 4;
const R2: usize = 5;
const QIF: u32 = word(24);
const FIQ: u32 = word(25);
/// fetr r1,r2; r2 is M until it is mended.
const FETR: u32 = word(17) | ((R2 as u32) << 16);
/// fetr r1,pc: its own word is a good address, so 15 never comes.
const OWN_WORD: u32 = word(17);
/// A word that gives no cause for refusal.
const XORI: u32 = 0x0250_0001;

const fn word(opcode: u32) -> u32 {
    (opcode << 24) | ((R1 as u32) << 20)
}

type Mend = fn(&mut Machine);
type Step = (u32, Mend);

/// A single turn and its direction.
type Turning = (Way, Turn);

/// How often each refusal was met, forward and back.
type Seen = [[u32; 22]; 2];

/// The same machine at another position.
fn at(machine: &Machine, position: i64) -> Machine {
    let mut machine = machine.clone();
    machine.record.position = position;
    machine
}

/// A turn that is refused and changes nothing.
fn refused(turn: Turn, machine: &Machine, refusal: u32, step: &str) {
    let mut after = machine.clone();
    assert_eq!(after.turn(turn), refusal, "{step}: {machine:?}");
    assert_eq!(after, *machine, "{step}");
}

/// Each refusal in turn, before its cause is mended; then none.
fn ladder((way, turn): Turning, mut machine: Machine, steps: &[Step], seen: &mut Seen) {
    let (last, first) = (way.last_position(), way.reverse().last_position());
    for (i, (refusal, mend)) in steps.iter().enumerate() {
        let at_last = if *refusal == 10 { 10 } else { 21 };
        for (position, refusal) in [(0, *refusal), (first, *refusal), (last, at_last)] {
            let step = format!("step {i} at {position}");
            refused(turn, &at(&machine, position), refusal, &step);
        }
        seen[way as usize][*refusal as usize] += 1;
        mend(&mut machine);
    }
    refused(turn, &at(&machine, last), 21, "after all steps");
    for position in [0, first] {
        let mut machine = at(&machine, position);
        assert_eq!(machine.turn(turn), 0, "after all steps");
        let counted = way.position_after(position, 1);
        assert_eq!(Some(machine.record.position), counted);
    }
}

/// Five code words and one data word: start, start, `word`, start, finish; a
/// word behind them is lent, too. M is 0, pc and coin are out of range, links
/// are missing, qifw is 9, r2 is the M that it will have.
fn broken(word: u32) -> Machine {
    let mut record = Record {
        qifv: 2,
        qifw: 9,
        k: 5,
        m: 0,
        n: 3,
        ..Record::default()
    };
    record.regs[0] = 7;
    record.regs[R1] = 2;
    record.regs[R2] = 6;
    Machine {
        record,
        mem: vec![START, START, word, START, FINISH, 77, 99],
        table: vec![0; 3 * NODE],
    }
}

fn mend_size(m: &mut Machine) {
    m.record.m = 6;
}

fn mend_pc(m: &mut Machine) {
    m.record.regs[0] = 2;
}

fn mend_coin(m: &mut Machine) {
    m.record.regs[R1] = 0;
}

fn mend_waiting(m: &mut Machine) {
    m.record.qifw = 0;
}

fn mend_word(m: &mut Machine) {
    m.mem[2] = XORI;
}

fn mend_start_behind(m: &mut Machine) {
    m.mem[3] = XORI;
}

/// An ld in place of one whose address is not in the data.
fn mend_ld(m: &mut Machine) {
    m.mem[2] = word_i(1, R1, 5);
}

/// From M to K-1, which is good for a fetr.
fn mend_fetr(m: &mut Machine) {
    m.record.regs[R2] = 4;
}

/// Words that are refused by 15 and nothing before it, and how each is mended:
/// ld at K-1 and M, ldr with M and with pc, fetr at M.
const ACCESSES: [(u32, Mend); 5] = [
    (0x0140_0004, mend_ld),
    (0x0140_0006, mend_ld),
    (0x1045_0000, mend_ld),
    (0x1040_0000, mend_ld),
    (FETR, mend_fetr),
];

/// A qif from node 1 to 2 without wait, then to its end and to node 3.
fn mend_links(m: &mut Machine) {
    m.table[FC] = 2;
    m.table[LC] = 2;
    m.table[NX] = 3;
    m.table[NODE + CF] = 1;
    m.table[NODE + CL] = 1;
    m.table[2 * NODE + PR] = 1;
    m.table[NODE + W] = 0;
}

fn mend_count(m: &mut Machine) {
    m.table[NODE + W] = 9;
}

/// A wait of 1, which ends on the start behind the qif.
fn last_wait(m: &mut Machine) {
    m.table[NODE + W] = 9;
    m.record.qifw = 1;
}

/// A ladder over `word`, from its sizes and pc on.
fn climb_to(turning: Turning, word: u32, steps: &[Step], seen: &mut Seen) {
    let to_word: [Step; 2] = [(10, mend_size), (11, mend_pc)];
    let steps = [&to_word[..], steps].concat();
    ladder(turning, broken(word), &steps, seen);
}

fn forward_ladders(turn: Turn, seen: &mut Seen) {
    let mut climb = |word, steps: &[Step]| climb_to((Way::Forward, turn), word, steps, seen);
    let waits: [Step; 4] = [
        (16, mend_coin),
        (17, mend_links),
        (14, last_wait),
        (18, mend_start_behind),
    ];
    climb(QIF, &waits);
    let fiq: [Step; 4] = [
        (14, mend_waiting),
        (16, mend_coin),
        (17, mend_links),
        (18, mend_start_behind),
    ];
    climb(FIQ, &fiq);
    // Finish and no instruction come before the wait.
    for (word, refusal) in [(FINISH, 12), (0, 13)] {
        let other: [Step; 3] = [
            (refusal, mend_word),
            (14, mend_waiting),
            (18, mend_start_behind),
        ];
        climb(word, &other);
    }
}

/// Words that name an address; and all that comes before the 15 of a fetr, one
/// by one.
fn forward_accesses(turn: Turn, seen: &mut Seen) {
    let mut climb = |word, steps: &[Step]| climb_to((Way::Forward, turn), word, steps, seen);
    for (bad, mend_access) in ACCESSES {
        let access: [Step; 3] = [
            (14, mend_waiting),
            (15, mend_access),
            (18, mend_start_behind),
        ];
        climb(bad, &access);
    }
    let fetr: [Step; 5] = [
        (12, |m| m.mem[2] = FETR | 1),
        (13, |m| m.mem[2] = FETR),
        (14, mend_waiting),
        (15, mend_fetr),
        (18, mend_start_behind),
    ];
    climb(FINISH, &fetr);
    climb(OWN_WORD, &[(14, mend_waiting), (18, mend_start_behind)]);
}

/// Back turns that wait: the start at pc and the word before don't matter.
fn back_waiting_ladders(turn: Turn, seen: &mut Seen) {
    let mut climb = |word, steps: &[Step]| climb_to((Way::Back, turn), word, steps, seen);
    let waits: [Step; 3] = [(16, mend_coin), (17, mend_links), (14, mend_count)];
    climb(QIF, &waits);
    // A finish is no reason of its own here. Without the wait the turn steps back
    // over the start at 1.
    let other: [Step; 3] = [
        (13, |m| m.mem[2] = FINISH),
        (14, mend_word),
        (14, mend_waiting),
    ];
    climb(0, &other);
    // Neither is an address, good or bad.
    for (bad, _) in ACCESSES {
        climb(bad, &[(14, mend_waiting)]);
    }
    climb(OWN_WORD, &[(14, mend_waiting)]);
}

/// Back turns with qifw 0, from pc 3 that holds start; br 9 shrinks it too far
/// until it is mended.
fn climb_back(turn: Turn, word: u32, steps: &[Step], seen: &mut Seen) {
    let mut machine = broken(word);
    machine.record.qifw = 0;
    machine.record.regs[1] = 9;
    machine.record.regs[0] = 3;
    let to_word: [Step; 3] = [
        (10, mend_size),
        (12, mend_start_behind),
        (11, |m| m.record.regs[1] = 0),
    ];
    let steps = [&to_word[..], steps].concat();
    ladder((Way::Back, turn), machine, &steps, seen);
}

fn back_ladders(turn: Turn, seen: &mut Seen) {
    let mut climb = |word, steps: &[Step]| climb_back(turn, word, steps, seen);
    climb(QIF, &[(16, mend_coin), (17, mend_links)]);
    let fiq: [Step; 2] = [
        (16, mend_coin),
        (17, |m| {
            mend_links(m);
            m.record.qifv = 3;
        }),
    ];
    climb(FIQ, &fiq);
    for (bad, mend_access) in ACCESSES {
        climb(bad, &[(15, mend_access)]);
    }
    let fetr: [Step; 3] = [
        (18, |m| m.mem[2] = FETR | 1),
        (13, |m| m.mem[2] = FETR),
        (15, mend_fetr),
    ];
    climb(FINISH, &fetr);
    climb(FINISH, &[(18, mend_word)]);
    climb(0, &[(13, mend_word)]);
    climb(OWN_WORD, &[]);
}

fn all(forward: Turn, back: Turn) {
    let mut seen = [[0; 22]; 2];
    forward_ladders(forward, &mut seen);
    forward_accesses(forward, &mut seen);
    back_waiting_ladders(back, &mut seen);
    back_ladders(back, &mut seen);
    for way in WAYS {
        let met = &seen[way as usize][10..=18];
        assert!(met.iter().all(|times| *times > 0), "{way:?} {met:?}");
        println!("order: {way:?} steps by refusal, from 10 to 18: {met:?}");
    }
}

#[test]
fn model() {
    all(machine::forward, machine::back);
}

#[test]
fn library() {
    all(proved::forward, proved::back);
}

#[test]
fn previews() {
    for (name, [forward, back]) in proved::AS_SHOWN {
        println!("by {name}:");
        all(forward, back);
    }
}
