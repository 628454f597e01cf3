//! What a fetr reads in code: start, finish, instructions and words that are
//! none, before it, behind it and further on. None of them is executed by it.

use super::{read, refused, Around, FETR};
use crank_model::state::Way::{Back, Forward};

const START: u32 = 0x1A00_0000;
const FINISH: u32 = 0x1B00_0000;

/// The word and r1 after it is read.
const READ: [(u32, u32); 10] = [
    (START, 0x1A00_0005),
    (FINISH, 0x1B00_0005),
    (0, 5),
    (5, 0),
    (0xFFFF_FFFF, 0xFFFF_FFFA),
    (0x8000_0000, 0x8000_0005),
    // add r1,r1, which is no instruction, and xori r1,5, which is one.
    (0x1444_0000, 0x1444_0005),
    (0x0240_0005, 0x0240_0000),
    // qif r1 and fetr r1,r2.
    (0x1840_0000, 0x1840_0005),
    (FETR, 0x1145_0005),
];

/// Around the fetr at 1: the word is at 0, 2, 3 or 4. br leads past them.
#[test]
fn of_every_kind() {
    let (mut cases, mut answers) = (0, 0);
    for (word, r1) in READ {
        for r2 in [0, 2, 3, 4] {
            let mut mem = [0x70, FETR, 0x72, 0x73, 0x74, 0x75];
            mem[r2 as usize] = word;
            let around = Around {
                k: 6,
                m: 6,
                mem: &mem,
                br: 4,
                next: 5,
                r2,
            };
            cases += 1;
            answers += around.both_ways(&read(r1));
        }
    }
    println!("words read: {cases} cases, {answers} answers");
    assert_eq!((cases, answers), (40, 40 * 16));
}

/// The word behind, on which pc then stands: start is refused there, and finish
/// is not.
#[test]
fn behind_it() {
    let around = |mem| Around {
        k: 3,
        m: 3,
        mem,
        br: 0,
        next: 2,
        r2: 2,
    };
    let start = around(&[0x70, FETR, START]);
    let finish = around(&[0x70, FETR, FINISH]);
    let answers = start.one_way(Forward, &refused(18))
        + start.one_way(Back, &refused(12))
        + finish.both_ways(&read(0x1B00_0005));
    println!("the word behind: {answers} answers");
    assert_eq!(answers, 4 * 8);
}

/// The start before it, where a back turn from 1 would be refused.
#[test]
fn before_it() {
    let around = Around {
        k: 2,
        m: 2,
        mem: &[START, FETR],
        br: 0,
        next: 2,
        r2: 0,
    };
    let answers = around.both_ways(&read(0x1A00_0005));
    println!("the word before: {answers} answers");
    assert_eq!(answers, 16);
}
