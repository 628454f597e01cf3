//! Every refusal of a turn, and 24, at the first and at the last word that it can be
//! at, in code worked out by hand; 23 is in nodes.rs and limits.rs.

use super::{bez, bnz, bra, machine, Case, FINISH, FIQ, FIQ2, GATE, NONE, QIF, QIF2, START};
use crank_model::maker::walk;

/// The code; the refusal, what it is for and where; and the cycles counted before
/// it, a qif's or fiq's own among them if the refusal is 24.
type Row = (&'static [u32], &'static str, u32);

/// ld r2 from the first code word; ldr r2,r3 with 0 in r3; fetr r2,r6 with -1 in r6.
const LD: u32 = 0x0150_0000;
const LDR: u32 = 0x1056_0000;
const FETR: u32 = 0x1159_0000;

#[rustfmt::skip] // one program a line
const TURNS: [Row; 43] = [
    (&[START], "11 turn at a word", 1),
    (&[START, QIF], "11 turn at a word", 2),
    (&[START, QIF, bnz(9), FIQ, FINISH], "11 turn at a word", 5),
    (&[START, QIF, GATE, FIQ], "11 turn at a word", 6),
    (&[START, bra(!7)], "11 turn at a word", 2),
    (&[START, QIF, FINISH], "12 turn at a word", 2),
    (&[START, QIF, QIF2, FINISH], "12 turn at a word", 3),
    (&[START, QIF, GATE, GATE, FINISH, FIQ, FINISH], "12 turn at a word", 4),
    (&[START, QIF, bnz(2), FIQ, FINISH], "12 turn at a word", 5),
    (&[START, QIF, QIF2, FIQ2, FINISH], "12 turn at a word", 5),
    (&[START, NONE], "13 turn at a word", 1),
    // uni with para 2, unib 1,r2,r2, and qif and fiq of pc and br.
    (&[START, 0x2070_0200], "13 turn at a word", 1),
    (&[START, 0x2155_0100], "13 turn at a word", 1),
    (&[START, 0x1800_0000], "13 turn at a word", 1),
    (&[START, 0x1810_0000], "13 turn at a word", 1),
    (&[START, 0x1900_0000], "13 turn at a word", 1),
    (&[START, QIF, 0x1910_0000], "13 turn at a word", 2),
    (&[START, QIF, NONE], "13 turn at a word", 2),
    (&[START, QIF, bnz(2), FIQ, NONE], "13 turn at a word", 5),
    (&[START, QIF, FIQ, NONE], "13 turn at a word", 4),
    (&[START, LD, FINISH], "15 turn at a word", 1),
    (&[START, LD, START], "15 turn at a word", 1),
    // ld r2 from M.
    (&[START, 0x0150_0006, FINISH], "15 turn at a word", 1),
    (&[START, LDR, FINISH], "15 turn at a word", 1),
    (&[START, FETR, FINISH], "15 turn at a word", 1),
    (&[START, QIF, LD, FIQ, FINISH], "15 turn at a word", 2),
    (&[START, QIF, bnz(2), FIQ, LDR], "15 turn at a word", 5),
    (&[START, QIF, FIQ, FETR], "15 turn at a word", 4),
    (&[START, FIQ, FINISH], "17 turn at a word", 1),
    (&[START, FIQ, START], "17 turn at a word", 1),
    (&[START, FIQ], "17 turn at a word", 1),
    (&[START, QIF, FIQ, FIQ2, FINISH], "17 turn at a word", 4),
    (&[START, START, FINISH], "18 turn at a word", 0),
    (&[START, GATE, START], "18 turn at a word", 1),
    (&[START, bra(!0)], "18 turn at a word", 1),
    (&[START, QIF, FIQ, GATE, START], "18 turn at a word", 4),
    (&[START, QIF, START], "18 turn at a qif", 1),
    (&[START, QIF, FIQ, QIF2, START], "18 turn at a qif", 4),
    (&[START, QIF, FIQ, START], "18 turn at fiq 0", 2),
    (&[START, QIF, QIF2, FIQ2, START], "18 turn at fiq 0", 3),
    // Branch 1 would come to no instruction.
    (&[START, QIF, bnz(3), FIQ, START, NONE], "18 turn at fiq 0", 3),
    // With coin 1 br is 2 at the fiq.
    (&[START, QIF, bnz(2), GATE, FIQ, FINISH, START], "18 turn at fiq 1", 6),
    (&[START, QIF, bnz(2), GATE, FIQ, QIF2, START], "18 turn at fiq 1", 6),
];

#[rustfmt::skip] // one program a line
const APART: [Row; 13] = [
    (&[START, QIF, FIQ2, FINISH], "24 name at fiq 0", 3),
    (&[START, QIF, QIF2, FIQ, FIQ2, FINISH], "24 name at fiq 0", 4),
    (&[START, QIF, bnz(2), FIQ, bra(2), FIQ2, FINISH], "24 name at fiq 1", 7),
    // xori r1,1, and with coin 1 alone xori r1,2.
    (&[START, QIF, 0x0240_0001, FIQ, FINISH], "24 coin at fiq 0", 4),
    (&[START, QIF, bez(2), 0x0240_0002, bez(2), FIQ, FINISH], "24 coin at fiq 1", 9),
    // ld r1 from the first data word, which is 0.
    (&[START, QIF, 0x0140_0005, FIQ, FINISH], "24 coin at fiq 1", 6),
    (&[START, QIF, bnz(2), FIQ, bra(2), FIQ, FINISH], "24 pc at fiq 1", 7),
    (&[START, QIF, bnz(2), GATE, FIQ, FINISH, FINISH], "24 br at fiq 1", 7),
    // With coin 1 addi r2,1; with either coin xor r2,r1.
    (&[START, QIF, bez(2), 0x0350_0001, bez(2), FIQ, FINISH], "24 registers at fiq 1", 9),
    (&[START, QIF, 0x1354_0000, FIQ, FINISH], "24 registers at fiq 1", 6),
    (&[START, QIF, FIQ, QIF2, 0x1345_0000, FIQ2, FINISH], "24 registers at fiq 1", 9),
    // With coin 1 the first data word, or the last, becomes 1.
    (&[START, QIF, bez(3), 0x0350_0001, 0x0150_0008, bez(3), FIQ, FINISH], "24 memory at fiq 1", 10),
    (&[START, QIF, bez(3), 0x0350_0001, 0x0150_000A, bez(3), FIQ, FINISH], "24 memory at fiq 1", 10),
];

/// Three data words.
fn case(code: &[u32]) -> Case {
    let mut at_start = machine(code, &[0, 0, 0]);
    at_start.record.regs[9] = u32::MAX;
    Case::new(at_start, u32::MAX)
}

/// A cycle less and the limit is exceeded before, or at the same word.
fn all(rows: &[Row]) {
    for (code, stop, walked) in rows {
        let case = case(code);
        let (end, found) = walk(case.machine.record, u32::MAX, &case.machine.mem);
        let name = end.expect_err("it is refused").name();
        assert_eq!((&name[..], found.walked), (*stop, *walked), "{code:x?}");
        let refusal = stop[..2].parse().expect("a number");
        for limit in [*walked, walked + 1, u32::MAX] {
            case.limited(limit).refused(refusal);
        }
        for limit in 0..*walked {
            case.limited(limit).refused(23);
        }
    }
    println!("refused at a word: {} programs", rows.len());
}

#[test]
fn turns() {
    all(&TURNS);
}

#[test]
fn branches_apart() {
    all(&APART);
}
