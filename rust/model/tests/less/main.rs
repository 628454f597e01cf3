//! less compares signed, equal and quotient do not (document 02, #108): the words
//! of arib with operands of every sign, against a rule in numbers; both ways, by
//! the model, the library, the lesson bench and the previews.

#[path = "../proved/mod.rs"]
mod proved;

mod callers;
mod extremes;
mod lengths;
mod names;
mod own_pc;
mod pairs;
mod signs;
mod straight;

const QUOTIENT: u32 = 3;
const EQUAL: u32 = 4;
const LESS: u32 = 5;
const PARAS: [u32; 3] = [QUOTIENT, EQUAL, LESS];

/// 0, 1, the largest number, the smallest, the one above it, and -1.
const EXTREMES: [u32; 6] = [
    0,
    1,
    2_147_483_647,
    2_147_483_648,
    2_147_483_649,
    4_294_967_295,
];

/// The number that a word is to a less: from 2^31 on, itself less 2^32.
fn number(word: u32) -> i64 {
    match i64::from(word) {
        small @ ..2_147_483_648 => small,
        large => large - 4_294_967_296,
    }
}

/// How often the divisor goes into a word, both as they are; 0 for divisor 0.
fn quotient(word: u32, divisor: u32) -> u32 {
    let (word, divisor) = (u64::from(word), u64::from(divisor));
    if divisor == 0 {
        return 0;
    }
    let times = word / divisor;
    assert!(times * divisor <= word && word < (times + 1) * divisor);
    times as u32
}

/// What an arib xors into reg1, of the words in reg2 and reg3.
fn answer(para: u32, reg2: u32, reg3: u32) -> u32 {
    match para {
        QUOTIENT => quotient(reg2, reg3),
        EQUAL => (reg2 == reg3).into(),
        LESS => (number(reg2) < number(reg3)).into(),
        _ => panic!("arib {para} is not tested here"),
    }
}
