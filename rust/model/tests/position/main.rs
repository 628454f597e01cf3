//! The position (document 02, #104): counted by every accepted turn, left by
//! every refused one, and 21 at its two ends; by the model, the library, the
//! lesson bench and the previews.

#[path = "../proved/mod.rs"]
mod proved;

mod batches;
mod ends;
mod papers;
mod samples;
mod waits;

use crank_model::instruction::{word_i, BR, PC};
use crank_model::machine::Record;
use crank_model::state::Machine;
use proved::{BATCHES, SAMPLES, TURNS};

/// Two branches that jump to each other, so that no turn either way ends it:
/// after every other turn only the position is another.
fn endless(position: i64) -> Machine {
    let mut record = Record {
        k: 2,
        m: 2,
        position,
        ..Record::default()
    };
    record.regs[PC] = 1;
    Machine {
        record,
        mem: vec![word_i(5, 0, 0xFFFF); 2],
        table: Vec::new(),
    }
}

/// What it is after so many turns in either direction, at the position where
/// they end.
fn endless_after(turns: u64, position: i64) -> Machine {
    let mut machine = endless(position);
    if turns % 2 == 1 {
        machine.record.regs[PC] = 0;
        machine.record.regs[BR] = u32::MAX;
    }
    machine
}
