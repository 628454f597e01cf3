//! Words and numbers as they are printed.

use crank::{Call, Direction};
use crank_assembler::instruction_text;

/// A word in decimal; a large one in hexadecimal too, and signed where it may be meant so.
pub fn word(value: u32) -> String {
    match value {
        0..0x1_0000 => value.to_string(),
        0x1_0000..0x8000_0000 => format!("{value} ({value:#x})"),
        _ => format!("{value} ({value:#x}, {})", value as i32),
    }
}

/// A code word as an instruction.
pub fn code_word(value: u32) -> String {
    format!("{} ({value:#010x})", instruction(value))
}

/// The instruction that a word is; of a constant in the code the number.
pub fn instruction(value: u32) -> String {
    instruction_text(value).unwrap_or_else(|| format!("{value}, no instruction"))
}

/// A direction in words, and the call that turns so.
pub fn way(direction: Direction) -> (&'static str, Call) {
    match direction {
        Direction::Forward => ("forward", Call::Forward),
        Direction::Back => ("back", Call::Back),
    }
}

/// A number with its noun: `1 turn`, `2 turns`.
pub fn counted(number: u64, noun: &str) -> String {
    match number {
        1 => format!("1 {noun}"),
        _ => format!("{number} {noun}s"),
    }
}
