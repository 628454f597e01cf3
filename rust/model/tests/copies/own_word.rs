//! fetr with pc reads its own word, also where br leads pc far away; ldr with pc
//! is always refused, as its own word is code.

use super::{read, Answer, Around, REFUSED_15};

/// br, and where pc is on the other side of the instruction at 1. K is 5: the
/// data word at 5 is one of these places, and some are no address at all.
const JUMPS: [(u32, u32); 10] = [
    (0, 2),
    (1, 2),
    (2, 3),
    (3, 4),
    (4, 5),
    (5, 6),
    (100, 101),
    (4_294_967_295, 0),
    (4_294_967_294, 4_294_967_295),
    (0x8000_0000, 0x8000_0001),
];

/// The word, and what it gives in every case: fetr r1,pc and ldr r1,pc.
const WORDS: [(u32, Answer); 2] = [(0x1140_0000, read(0x1140_0005)), (0x1040_0000, REFUSED_15)];

#[test]
fn by_pc() {
    let (mut cases, mut answers) = (0, 0);
    for (word, answer) in WORDS {
        for (br, next) in JUMPS {
            let around = Around {
                k: 5,
                m: 6,
                mem: &[0x1111, word, 0x2222, 0x3333, 0x4444, 0x5555, 0x6666],
                br,
                next,
                // A register that neither of them names.
                r2: 3,
            };
            cases += 1;
            answers += around.both_ways(&answer);
        }
    }
    println!("by pc: {cases} cases, {answers} answers");
    assert_eq!((cases, answers), (20, 20 * 16));
}

/// Without data, and with nothing but the word itself before K.
#[test]
fn no_data() {
    let mut answers = 0;
    for (word, answer) in WORDS {
        for (br, next) in [(0, 2), (7, 8), (4_294_967_295, 0)] {
            let around = Around {
                k: 2,
                m: 2,
                mem: &[0x1111, word],
                br,
                next,
                r2: 3,
            };
            answers += around.both_ways(&answer);
        }
    }
    println!("by pc without data: {answers} answers");
    assert_eq!(answers, 6 * 16);
}
