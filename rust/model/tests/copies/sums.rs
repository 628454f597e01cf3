//! A long run over a constant that stands behind the finish, forward and back.

use super::proved::{BATCHES, PREVIEWS, TURNS};
use crank_model::machine::Record;
use crank_model::state::{Machine, Way};

/// A thousand rounds add the constant to r6; there is no data. r1 counts, r2 is
/// where it ends, r3 says so, r4 leads to the constant, and r5 has it for a turn.
const MEM: [u32; 12] = [
    0x1A00_0000, //  0 start
    0x0740_FFF8, //  1 bnz r1,-8
    0x0340_0001, //  2 addi r1,1
    0x0270_000B, //  3 xori r4,11
    0x1187_0000, //  4 fetr r5,r4
    0x1498_0000, //  5 add r6,r5
    0x1187_0000, //  6 fetr r5,r4
    0x0270_000B, //  7 xori r4,11
    0x2364_5400, //  8 arib equal r3,r1,r2
    0x0660_FFF8, //  9 bez r3,-8
    0x1B00_0000, // 10 finish
    0xDEAD_BEEF, // 11
];

/// The start, and nine turns in each round.
const TURNS_TO_FINISH: u32 = 9_001;

/// Registers r1 to r6.
fn machine(pc: u32, registers: [u32; 6], position: i64) -> Machine {
    let mut record = Record {
        k: 12,
        m: 12,
        position,
        ..Record::default()
    };
    record.regs[0] = pc;
    record.regs[4..10].copy_from_slice(&registers);
    Machine {
        record,
        mem: MEM.to_vec(),
        table: Vec::new(),
    }
}

fn at_start() -> Machine {
    machine(0, [0, 1_000, 0, 0, 0, 0], 0)
}

/// 3,735,928,559,000 modulo 4,294,967,296 in r6.
fn at_finish() -> Machine {
    machine(10, [1_000, 1_000, 1, 0, 0, 3_601_978_776], 9_001)
}

#[test]
fn in_one_batch() {
    for (name, [forward, back]) in BATCHES {
        let mut machine = at_start();
        for (call, end) in [(forward, at_finish()), (back, at_start())] {
            let batch = machine.batch(u32::MAX, call);
            let made = (batch.turns, batch.refusal);
            assert_eq!(made, (TURNS_TO_FINISH, 12), "{name}");
            assert_eq!(machine, end, "{name}");
        }
    }
    println!("sum in one batch: {} callers", BATCHES.len());
}

#[test]
fn turn_by_turn() {
    for (name, turns) in TURNS {
        let mut machine = at_start();
        for (way, end) in [(Way::Forward, at_finish()), (Way::Back, at_start())] {
            for turn in 0..TURNS_TO_FINISH {
                let refusal = machine.turn(turns[way as usize]);
                assert_eq!(refusal, 0, "{name} {way:?} {turn}");
            }
            assert_eq!(machine, end, "{name} {way:?}");
        }
    }
    println!("sum turn by turn: {} callers", TURNS.len());
}

/// No preview along the run shows a change of memory.
#[test]
fn nothing_changes() {
    for (name, previews) in PREVIEWS {
        let mut machine = at_start();
        for (way, end) in [(Way::Forward, at_finish()), (Way::Back, at_start())] {
            for turn in 0..TURNS_TO_FINISH {
                let shown = machine.preview(previews[way as usize]);
                let found = (shown.refusal, shown.changes, shown.address, shown.value);
                assert_eq!(found, (0, 0, 0, 0), "{name} {way:?} {turn}");
                machine.record = shown.record;
            }
            assert_eq!(machine, end, "{name} {way:?}");
        }
    }
    println!("sum as shown: {} callers", PREVIEWS.len());
}
