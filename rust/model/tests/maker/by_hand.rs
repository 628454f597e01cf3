//! Small programs with their tables, worked out by hand.

use super::{
    bez, bnz, bra, machine, Case, CNOT, FINISH, FIQ, FIQ2, FIQ3, GATE, GATE1, NONE, QIF, QIF2,
    QIF3, START,
};
use crank_model::machine::{NODE, W};

/// A program: what it shows, its code, the cycles that the limit counts, the
/// cycles of each walk over its table, how many walks there are, and the nodes:
/// fc0 fc1 lc0 lc1 cf cl nx pr w.
type Worked = (
    &'static str,
    &'static [u32],
    [u32; 3],
    &'static [[u32; NODE]],
);

/// The first and last child of a node, with no qif of its own.
const fn child(of: u32) -> [u32; NODE] {
    waits(of, 0)
}

/// The same with cycles to wait.
const fn waits(of: u32, w: u32) -> [u32; NODE] {
    [0, 0, 0, 0, of, of, 0, 0, w]
}

/// The last node of the program, or of a branch of the node `of`.
const fn last(of: u32, pr: u32) -> [u32; NODE] {
    [0, 0, 0, 0, 0, of, 0, pr, 0]
}

#[rustfmt::skip] // one node a line
const PROGRAMS: [Worked; 15] = [
    ("start and finish", &[START, FINISH], [1, 1, 1], &[[0; NODE]]),
    ("no qif", &[START, 0x0240_0005, GATE, FINISH], [3, 3, 1], &[[0; NODE]]),
    ("a qif and its fiq", &[START, QIF, FIQ, FINISH], [4, 3, 2], &[
        [2, 3, 2, 3, 0, 0, 4, 0, 0],
        child(1),
        child(1),
        last(0, 1),
    ]),
    // Coin 0: the words at 2, 3, 4, 9 and the fiq. Coin 1: 2, 5 to 9 and the fiq.
    ("branch 0 is shorter", &[
        START, QIF, bnz(3), GATE, bra(5), bra(3), GATE, CNOT, GATE1, bez(5), FIQ, FINISH,
    ], [14, 9, 2], &[
        [2, 3, 2, 3, 0, 0, 4, 0, 0],
        waits(1, 2),
        child(1),
        last(0, 1),
    ]),
    ("branch 1 is shorter", &[
        START, QIF, bez(3), GATE, bra(5), bra(3), GATE, CNOT, GATE1, bnz(5), FIQ, FINISH,
    ], [14, 9, 2], &[
        [2, 3, 2, 3, 0, 0, 4, 0, 0],
        child(1),
        waits(1, 2),
        last(0, 1),
    ]),
    // The exercise qif_nested: the inner qif takes 1 + 6 with either coin, of them
    // 1 wait with coin 0. Branch 0 takes 5, branch 1 2 and 7 and 2.
    ("a qif in branch 1", &[
        START, QIF, bnz(3), GATE, bra(11), bra(3),
        QIF2, 0x0750_0003, GATE, bra(4), bra(3), GATE, GATE, 0x0650_0004, FIQ2,
        bez(11), FIQ, FINISH,
    ], [23, 13, 3], &[
        [2, 3, 2, 6, 0, 0, 7, 0, 0],
        waits(1, 6),
        [4, 5, 4, 5, 1, 0, 6, 0, 0],
        waits(3, 1),
        child(3),
        last(1, 3),
        last(0, 1),
    ]),
    // Branch 0 has the qif, on the same register, and is shorter all the same: 6
    // to 10. Its wait is at its first node, 2, and not at its last, 6.
    ("a wait at the first child", &[
        START, QIF, bnz(4), QIF, FIQ, bra(8), bra(4), GATE1, GATE1, GATE1, GATE1, GATE1, GATE1,
        bez(8), FIQ, FINISH,
    ], [19, 12, 3], &[
        [2, 3, 6, 3, 0, 0, 7, 0, 0],
        [4, 5, 4, 5, 1, 0, 6, 0, 4],
        child(1),
        child(2),
        child(2),
        last(1, 2),
        last(0, 1),
    ]),
    // Both branches walk the same two qifs, each on its own nodes.
    ("two qifs in both branches", &[
        START, QIF, QIF2, FIQ2, QIF3, FIQ3, FIQ, FINISH,
    ], [16, 7, 8], &[
        [2, 3, 9, 15, 0, 0, 16, 0, 0],
        [4, 5, 4, 5, 1, 0, 6, 0, 0],
        [10, 11, 10, 11, 1, 0, 12, 0, 0],
        child(2),
        child(2),
        [7, 8, 7, 8, 0, 0, 9, 2, 0],
        child(6),
        child(6),
        last(1, 6),
        child(3),
        child(3),
        [13, 14, 13, 14, 0, 0, 15, 3, 0],
        child(12),
        child(12),
        last(1, 12),
        last(0, 1),
    ]),
    // bnz r2,-5; addi r2,1; the qif; arib equal r4,r2,r3; bez r4,-5: two rounds.
    ("a qif in a loop", &[
        START, 0x0750_FFFB, 0x0350_0001, QIF, FIQ, 0x2375_6400, 0x0670_FFFB, FINISH,
    ], [15, 13, 4], &[
        [2, 3, 2, 3, 0, 0, 4, 0, 0],
        child(1),
        child(1),
        [5, 6, 5, 6, 0, 0, 7, 1, 0],
        child(4),
        child(4),
        last(0, 4),
    ]),
    // uni 1,r2, and bez r2 over a word that is none: r2 is 0 all along.
    ("a gate that would turn the walk", &[START, 0x2050_0100, 0x0650_0002, NONE, 0x0650_0002, FINISH],
     [4, 4, 1], &[[0; NODE]]),
    // unib 2,r1,r3, which would exchange the coin with a 0, and unib 1,r1,r2, which
    // would copy it.
    ("gates on the coin", &[START, QIF, 0x2146_0200, 0x2145_0100, GATE1, FIQ, FINISH], [10, 6, 2], &[
        [2, 3, 2, 3, 0, 0, 4, 0, 0],
        child(1),
        child(1),
        last(0, 1),
    ]),
    // ld r2 from the first data word, in both branches and then once more.
    ("a word exchanged in both branches", &[START, QIF, 0x0150_0006, FIQ, 0x0150_0006, FINISH], [7, 5, 2], &[
        [2, 3, 2, 3, 0, 0, 4, 0, 0],
        child(1),
        child(1),
        last(0, 1),
    ]),
    // ld r1 from the first data word before an inner qif on r1 and behind it: the
    // coin is put away and comes back.
    ("a coin put away", &[
        START, QIF, 0x0140_0008, QIF, FIQ, 0x0140_0008, FIQ, FINISH,
    ], [14, 7, 4], &[
        [2, 3, 6, 9, 0, 0, 10, 0, 0],
        [4, 5, 4, 5, 1, 0, 6, 0, 0],
        [7, 8, 7, 8, 1, 0, 9, 0, 0],
        child(2),
        child(2),
        last(1, 2),
        child(3),
        child(3),
        last(1, 3),
        last(0, 1),
    ]),
    ("br 2 at the qif and at the fiq", &[
        START, bra(2), NONE, QIF, NONE, GATE, NONE, FIQ, NONE, bra(2), FINISH,
    ], [8, 6, 2], &[
        [2, 3, 2, 3, 0, 0, 4, 0, 0],
        child(1),
        child(1),
        last(0, 1),
    ]),
    // 0 to 6, then back to 1 with br -1, and from there to 7.
    ("br -1 at the qif and at the fiq", &[
        START, bra(5), bra(!5), FIQ, GATE, QIF, bra(!5), bra(5), FINISH,
    ], [10, 8, 2], &[
        [2, 3, 2, 3, 0, 0, 4, 0, 0],
        child(1),
        child(1),
        last(0, 1),
    ]),
];

/// The programs in which a walk executes a word twice, and a qif is at two nodes.
const LOOP: &str = "a qif in a loop";
const AGAIN: [&str; 3] = [LOOP, "two qifs in both branches", "a coin put away"];

/// The registers: the loop's end in r3, and any words in the others.
fn case(code: &[u32], coins: [u32; 2]) -> Case {
    let mut at_start = machine(code, &[11, 12]);
    at_start.record.regs[4] = coins[0];
    at_start.record.regs[6] = 2;
    at_start.record.regs[8] = coins[1];
    at_start.record.qifv = coins[1];
    Case::new(at_start, u32::MAX)
}

/// What the coin's register holds before is of no account.
const COINS: [[u32; 2]; 4] = [[0, 0], [1, 9], [2, 1], [u32::MAX, 0x8000_0000]];

/// Every limit: one less than the cycles walked is refused, and all before it.
#[test]
fn every_limit() {
    let mut answers = 0;
    for (name, code, [walked, cycles, walks], nodes) in PROGRAMS {
        println!(
            "{name}: {walked} walked, {cycles} cycles, {} nodes",
            nodes.len()
        );
        for coins in COINS {
            let case = case(code, coins);
            for limit in 0..walked {
                case.limited(limit).refused(23);
            }
            for limit in [walked, walked + 1, u32::MAX] {
                let walked = case.limited(limit).gives(cycles, nodes);
                walked.all_of(walks as usize);
                assert_eq!(walked.looped, name == LOOP, "{name}");
                assert_eq!(walked.again, AGAIN.contains(&name), "{name}");
                assert_eq!(walked.waited, nodes.iter().any(|node| node[W] > 0));
            }
            answers += walked + 3;
        }
    }
    println!("by hand: {answers} answers");
}

/// A coin's register is an address before its qif, and behind its fiq, where ldr
/// r2,r1 needs it.
#[test]
fn coin_restored() {
    let mut at_start = machine(&[START, QIF, FIQ, 0x1054_0000, FINISH], &[11, 12]);
    let nodes = [[2, 3, 2, 3, 0, 0, 4, 0, 0], child(1), child(1), last(0, 1)];
    for r1 in [0, 1, 4, 5, 6, 7, u32::MAX] {
        at_start.record.regs[4] = r1;
        let case = Case::new(at_start.clone(), 5);
        if [5, 6].contains(&r1) {
            case.gives(4, &nodes).all_of(2);
        } else {
            case.refused(15);
        }
    }
    println!("coin restored: 2 addresses, and 5 refused");
}

/// A br that leads back to the code before the start.
#[test]
fn start_behind_finish() {
    let mut at_start = machine(&[bra(!3), QIF, FIQ, FINISH, START], &[]);
    at_start.record.regs[1] = !3;
    let case = Case::new(at_start, 5);
    let nodes = [[2, 3, 2, 3, 0, 0, 4, 0, 0], child(1), child(1), last(0, 1)];
    case.gives(4, &nodes).all_of(2);
    case.limited(4).refused(23);
    println!("start behind finish: {} nodes", nodes.len());
}
