//! All pairs of the extremes, with the answers written by hand.

use super::callers::there_and_back;
use super::signs::Signs;
use super::straight::{states, WORDS};
use super::{answer, EQUAL, EXTREMES, LESS, QUOTIENT};

/// The largest number, and the words one and two behind it.
const A: u32 = 2_147_483_647;
const B: u32 = 2_147_483_648;
const C: u32 = 2_147_483_649;
/// The largest word, -1 to a less.
const D: u32 = 4_294_967_295;

/// The answers for each extreme in reg2, and then in reg3.
const ANSWERS: [(u32, [[u32; 6]; 6]); 3] = [
    (
        LESS,
        [
            [0, 1, 1, 0, 0, 0],
            [0, 0, 1, 0, 0, 0],
            [0, 0, 0, 0, 0, 0],
            [1, 1, 1, 0, 1, 1],
            [1, 1, 1, 0, 0, 1],
            [1, 1, 1, 0, 0, 0],
        ],
    ),
    (
        EQUAL,
        [
            [1, 0, 0, 0, 0, 0],
            [0, 1, 0, 0, 0, 0],
            [0, 0, 1, 0, 0, 0],
            [0, 0, 0, 1, 0, 0],
            [0, 0, 0, 0, 1, 0],
            [0, 0, 0, 0, 0, 1],
        ],
    ),
    (
        QUOTIENT,
        [
            [0, 0, 0, 0, 0, 0],
            [0, 1, 0, 0, 0, 0],
            [0, A, 1, 0, 0, 0],
            [0, B, 1, 1, 0, 0],
            [0, C, 1, 1, 1, 0],
            [0, D, 2, 1, 1, 1],
        ],
    ),
];

/// The rule in numbers, which the other tests go by.
#[test]
fn by_hand() {
    for (para, answers) in ANSWERS {
        let found = EXTREMES.map(|reg2| EXTREMES.map(|reg3| answer(para, reg2, reg3)));
        assert_eq!(found, answers, "arib {para}");
    }
}

/// What reg1 is before each of the words.
const OLD: [u32; 6] = [0, 1, 6, B, 0x5A5A_5A5A, D];

#[test]
fn by_every_caller() {
    let (mut signs, mut answers) = (Signs::default(), 0);
    for reg2 in EXTREMES {
        for reg3 in EXTREMES {
            signs.count(reg2, reg3);
            for old in OLD {
                answers += there_and_back(&states(reg2, reg3, [old; WORDS]));
            }
        }
    }
    println!(
        "extremes: {signs:?}, {} apart, {answers} answers",
        signs.apart()
    );
    assert_eq!(signs, Signs([[[6, 3], [9, 0]], [[0, 9], [6, 3]]]));
    assert_eq!((signs.apart(), answers), (18, 36 * 6 * 204));
}
