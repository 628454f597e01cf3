//! Instruction words: decoding, and words built from their fields.

/// The register that holds the address of the current word.
pub const PC: usize = 0;
/// The register that holds the branch offset.
pub const BR: usize = 1;

/// The only word that is `start`.
pub const START: u32 = 26 << 24;
/// The only word that is `finish`.
pub const FINISH: u32 = 27 << 24;

/// One variant for each instruction; a listed para has its own variant.
#[derive(Clone, Copy, Debug, PartialEq, Eq)]
pub enum Instruction {
    Ld { a: u8, imm: u32 },
    Xori { a: u8, imm: u32 },
    Addi { a: u8, imm: u32 },
    Subi { a: u8, imm: u32 },
    Bra { imm: u32 },
    Bez { a: u8, imm: u32 },
    Bnz { a: u8, imm: u32 },
    Ldr { a: u8, b: u8 },
    Fetr { a: u8, b: u8 },
    Swap { a: u8, b: u8 },
    Xor { a: u8, b: u8 },
    Add { a: u8, b: u8 },
    Sub { a: u8, b: u8 },
    Neg { a: u8 },
    Swbr { a: u8 },
    Qif { a: u8 },
    Fiq { a: u8 },
    Start,
    Finish,
    UniFlip { a: u8 },
    UnibFlip { a: u8, b: u8 },
    UnibExchange { a: u8, b: u8 },
    AriNegation { a: u8, b: u8 },
    AriComplement { a: u8, b: u8 },
    AribSum { a: u8, b: u8, c: u8 },
    AribProduct { a: u8, b: u8, c: u8 },
    AribQuotient { a: u8, b: u8, c: u8 },
    AribEqual { a: u8, b: u8, c: u8 },
    AribLess { a: u8, b: u8, c: u8 },
}

use Instruction::*;

/// What an instruction does with the word at an address.
#[derive(Clone, Copy, Debug, PartialEq, Eq)]
pub enum Access {
    /// Reads it alone: fetr.
    Copy(u32),
    /// Swaps it with a register: ld and ldr.
    Exchange(u32),
}

impl Access {
    pub fn address(self) -> u32 {
        match self {
            Access::Copy(address) | Access::Exchange(address) => address,
        }
    }
}

/// Every opcode and para that is an instruction; para 0 outside type O.
pub const KINDS: [(u32, u32); 29] = [
    (1, 0),
    (2, 0),
    (3, 0),
    (4, 0),
    (5, 0),
    (6, 0),
    (7, 0),
    (16, 0),
    (17, 0),
    (18, 0),
    (19, 0),
    (20, 0),
    (21, 0),
    (22, 0),
    (23, 0),
    (24, 0),
    (25, 0),
    (26, 0),
    (27, 0),
    (32, 1),
    (33, 1),
    (33, 2),
    (34, 1),
    (34, 2),
    (35, 1),
    (35, 2),
    (35, 3),
    (35, 4),
    (35, 5),
];

/// The instruction that a word is, if it is one.
pub fn decode(word: u32) -> Option<Instruction> {
    match opcode(word) {
        1..=7 => decode_i(word),
        16..=27 => decode_r(word),
        32..=35 => decode_o(word),
        _ => None,
    }
}

pub fn opcode(word: u32) -> u32 {
    word >> 24
}

pub fn para(word: u32) -> u32 {
    (word >> 8) & 15
}

fn reg1(word: u32) -> u8 {
    ((word >> 20) & 15) as u8
}

fn reg2(word: u32) -> u8 {
    ((word >> 16) & 15) as u8
}

fn reg3(word: u32) -> u8 {
    ((word >> 12) & 15) as u8
}

/// Neither pc nor br: a register that any instruction may name.
fn plain(reg: u8) -> bool {
    reg as usize != PC && reg as usize != BR
}

/// Not br: a register that an instruction which only reads it may name.
fn source(reg: u8) -> bool {
    reg as usize != BR
}

fn decode_i(word: u32) -> Option<Instruction> {
    if reg2(word) != 0 {
        return None;
    }
    let a = reg1(word);
    let imm = word & 0xFFFF;
    let offset = imm as u16 as i16 as i32 as u32;
    let (allowed, instruction) = match opcode(word) {
        1 => (plain(a), Ld { a, imm }),
        2 => (plain(a), Xori { a, imm }),
        3 => (plain(a), Addi { a, imm }),
        4 => (plain(a), Subi { a, imm }),
        5 => (a == 0, Bra { imm: offset }),
        6 => (plain(a), Bez { a, imm: offset }),
        7 => (plain(a), Bnz { a, imm: offset }),
        _ => return None,
    };
    allowed.then_some(instruction)
}

fn decode_r(word: u32) -> Option<Instruction> {
    if word & 0xFFFF != 0 {
        return None;
    }
    let (a, b) = (reg1(word), reg2(word));
    let reads_b = plain(a) && source(b) && a != b;
    let both_plain = plain(a) && plain(b) && a != b;
    let only_a = plain(a) && b == 0;
    let none = a == 0 && b == 0;
    let (allowed, instruction) = match opcode(word) {
        16 => (reads_b, Ldr { a, b }),
        17 => (reads_b, Fetr { a, b }),
        18 => (both_plain, Swap { a, b }),
        19 => (reads_b, Xor { a, b }),
        20 => (reads_b, Add { a, b }),
        21 => (reads_b, Sub { a, b }),
        22 => (only_a, Neg { a }),
        23 => (only_a, Swbr { a }),
        24 => (only_a, Qif { a }),
        25 => (only_a, Fiq { a }),
        26 => (none, Start),
        27 => (none, Finish),
        _ => return None,
    };
    allowed.then_some(instruction)
}

fn decode_o(word: u32) -> Option<Instruction> {
    if word & 0xFF != 0 {
        return None;
    }
    let (a, b, c) = (reg1(word), reg2(word), reg3(word));
    let only_a = plain(a) && b == 0 && c == 0;
    let both_plain = plain(a) && plain(b) && a != b && c == 0;
    let reads_b = plain(a) && source(b) && a != b && c == 0;
    let reads_both = plain(a) && source(b) && source(c) && a != b && a != c && b != c;
    let (allowed, instruction) = match (opcode(word), para(word)) {
        (32, 1) => (only_a, UniFlip { a }),
        (33, 1) => (both_plain, UnibFlip { a, b }),
        (33, 2) => (both_plain, UnibExchange { a, b }),
        (34, 1) => (reads_b, AriNegation { a, b }),
        (34, 2) => (reads_b, AriComplement { a, b }),
        (35, 1) => (reads_both, AribSum { a, b, c }),
        (35, 2) => (reads_both, AribProduct { a, b, c }),
        (35, 3) => (reads_both, AribQuotient { a, b, c }),
        (35, 4) => (reads_both, AribEqual { a, b, c }),
        (35, 5) => (reads_both, AribLess { a, b, c }),
        _ => return None,
    };
    allowed.then_some(instruction)
}

impl Instruction {
    /// Its access to memory, if it has one.
    pub fn access(self, regs: &[u32; 16]) -> Option<Access> {
        match self {
            Ld { imm, .. } => Some(Access::Exchange(imm)),
            Ldr { b, .. } => Some(Access::Exchange(regs[b as usize])),
            Fetr { b, .. } => Some(Access::Copy(regs[b as usize])),
            _ => None,
        }
    }

    /// The coin of a qif or fiq.
    pub fn coin(self, regs: &[u32; 16]) -> Option<u32> {
        match self {
            Qif { a } | Fiq { a } => Some(regs[a as usize]),
            _ => None,
        }
    }

    pub fn is_qif(self) -> bool {
        matches!(self, Qif { .. })
    }

    /// The instruction whose effect undoes this one; qif and fiq undo their
    /// links elsewhere.
    pub fn inverse(self) -> Instruction {
        match self {
            Add { a, b } => Sub { a, b },
            Sub { a, b } => Add { a, b },
            Addi { a, imm } => Subi { a, imm },
            Subi { a, imm } => Addi { a, imm },
            other => other,
        }
    }
}

/// A word of type I from its fields, valid or not.
pub fn word_i(opcode: u32, reg: usize, imm: u32) -> u32 {
    (opcode << 24) | ((reg as u32 & 15) << 20) | (imm & 0xFFFF)
}

/// A word of type R from its fields, valid or not.
pub fn word_r(opcode: u32, a: usize, b: usize) -> u32 {
    (opcode << 24) | ((a as u32 & 15) << 20) | ((b as u32 & 15) << 16)
}

/// A word of type O from its fields, valid or not.
pub fn word_o(opcode: u32, para: u32, a: usize, b: usize, c: usize) -> u32 {
    word_r(opcode, a, b) | ((c as u32 & 15) << 12) | ((para & 15) << 8)
}
