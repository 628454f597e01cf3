//! Turns with uni and unib idle and the position still (document 02, #107).

use crate::instruction::Instruction::{UniFlip, UnibExchange, UnibFlip};
use crate::instruction::{decode, PC, START};
use crate::machine::Record;
use crate::state::Turn;

/// Whether a word is a uni or a unib.
fn is_gate(word: u32) -> bool {
    matches!(
        decode(word),
        Some(UniFlip { .. } | UnibFlip { .. } | UnibExchange { .. })
    )
}

/// A turn with the position still, wherever it is.
fn still(turn: Turn, r: Record, mem: &mut [u32], table: &[u32]) -> (u32, Record) {
    let (refusal, mut new) = turn(Record { position: 0, ..r }, mem, table);
    new.position = r.position;
    (refusal, new)
}

/// A turn in which the word at pc, which must be lent, only moves pc, by br as
/// ever. A start does so and stands for it; as no turn moves pc to where it is,
/// that start is never the next word.
pub fn pass(turn: Turn, r: Record, mem: &mut [u32], table: &[u32]) -> (u32, Record) {
    let pc = r.regs[PC] as usize;
    let word = std::mem::replace(&mut mem[pc], START);
    let answer = still(turn, r, mem, table);
    mem[pc] = word;
    answer
}

/// A turn with uni and unib idle and the position still, made by `turn`.
pub fn turn(turn: Turn, r: Record, mem: &mut [u32], table: &[u32]) -> (u32, Record) {
    match mem.get(r.regs[PC] as usize) {
        Some(word) if is_gate(*word) => pass(turn, r, mem, table),
        _ => still(turn, r, mem, table),
    }
}
