//! The next turn, shown and not made (document 02, #102).

use crate::machine::{self, Record};
use crate::state::{Machine, Turn, Way};

/// What a turn would do: its refusal; whether a memory word would change, 1 or
/// 0, with its address and new value, both 0 if none would; and the record
/// after it, as given if it is refused.
#[derive(Clone, Copy, Debug, PartialEq, Eq)]
pub struct Preview {
    pub refusal: u32,
    pub changes: u32,
    pub address: u32,
    pub value: u32,
    pub record: Record,
}

/// A preview, of the model or of the library.
pub type PreviewCall = fn(Record, &[u32], &[u32]) -> Preview;

/// Makes the turn on a copy of the memory, and looks which word it changed.
fn shown(turn: Turn, r: Record, mem: &[u32], table: &[u32]) -> Preview {
    let mut copy = mem.to_vec();
    let (refusal, record) = turn(r, &mut copy, table);
    let changed: Vec<usize> = (0..mem.len()).filter(|a| copy[*a] != mem[*a]).collect();
    let (changes, address, value) = match changed[..] {
        [] => (0, 0, 0),
        [address] => (1, address as u32, copy[address]),
        _ => panic!("a turn changes the words at {changed:?}, from {r:?}"),
    };
    Preview {
        refusal,
        changes,
        address,
        value,
        record,
    }
}

pub fn forward(r: Record, mem: &[u32], table: &[u32]) -> Preview {
    shown(machine::forward, r, mem, table)
}

pub fn back(r: Record, mem: &[u32], table: &[u32]) -> Preview {
    shown(machine::back, r, mem, table)
}

impl Way {
    /// The model's preview in this direction.
    pub fn model_preview(self) -> PreviewCall {
        match self {
            Way::Forward => forward,
            Way::Back => back,
        }
    }
}

impl Preview {
    /// Makes the turn as it is shown.
    pub fn make(&self, mem: &mut [u32]) -> (u32, Record) {
        if self.changes == 1 {
            mem[self.address as usize] = self.value;
        }
        (self.refusal, self.record)
    }
}

impl Machine {
    /// What a preview of this state gives.
    pub fn preview(&self, call: PreviewCall) -> Preview {
        call(self.record, &self.mem, &self.table)
    }
}
