//! Walks over a finished qif table with chosen coins (document 02, #107): uni and
//! unib idle, the position still, and a coin register set at its qif and restored
//! behind its fiq.

use crate::idle;
use crate::instruction::Instruction::{self, Fiq, Qif};
use crate::instruction::{decode, PC};
use crate::state::{Machine, Turn};

/// A word that a walk executes, waits apart: its address, its node, and whether it
/// is a qif.
#[derive(Clone, Copy, Debug, PartialEq, Eq)]
pub struct Executed {
    pub pc: u32,
    pub node: u32,
    pub qif: bool,
}

/// How a walk went: the turns accepted, the refusal that ended it, 0 for none,
/// the coins chosen, the words executed, the qifs without their fiq, and where it
/// stands.
#[derive(Clone, Debug)]
pub struct Followed {
    pub cycles: u32,
    pub refusal: u32,
    pub coins: Vec<u32>,
    pub words: Vec<Executed>,
    pub open: usize,
    pub end: Machine,
}

/// Walks from a machine that does not wait until a turn is refused or `most` are
/// accepted; `choose` gives the coin of each qif, which it is told by its number
/// on this walk.
pub fn follow(start: &Machine, turn: Turn, most: u32, choose: impl Fn(usize) -> u32) -> Followed {
    let mut at = start.clone();
    let (mut cycles, mut refusal, mut coins) = (0, 0, Vec::new());
    let mut words = Vec::new();
    // The registers of the qifs without their fiq, with what they held before.
    let mut held = Vec::new();
    while cycles < most {
        let ins = instruction_at(&at);
        let (pc, node) = (at.record.regs[PC], at.record.qifv);
        let waits = at.record.qifw > 0;
        if let (Some(Qif { a }), false) = (ins, waits) {
            let coin = choose(coins.len());
            let reg = &mut at.record.regs[usize::from(a)];
            held.push((usize::from(a), std::mem::replace(reg, coin)));
            coins.push(coin);
        }
        (refusal, at.record) = idle::turn(turn, at.record, &mut at.mem, &at.table);
        if refusal != 0 {
            break;
        }
        cycles += 1;
        if !waits {
            let qif = matches!(ins, Some(Qif { .. }));
            words.push(Executed { pc, node, qif });
        }
        if matches!(ins, Some(Fiq { .. })) {
            if let Some((reg, before)) = held.pop() {
                at.record.regs[reg] = before;
            }
        }
    }
    Followed {
        cycles,
        refusal,
        coins,
        words,
        open: held.len(),
        end: at,
    }
}

fn instruction_at(machine: &Machine) -> Option<Instruction> {
    let word = machine.mem.get(machine.record.regs[PC] as usize)?;
    decode(*word)
}

/// The choice behind this one, where a walk takes 0 for each qif that its list
/// does not reach: from the empty list on, every walk comes once.
pub fn next_choice(coins: &[u32]) -> Option<Vec<u32>> {
    let last_zero = coins.iter().rposition(|coin| *coin == 0)?;
    let mut next = coins[..last_zero].to_vec();
    next.push(1);
    Some(next)
}
