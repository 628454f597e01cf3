//! Previews of words that stand where nothing can be written: one that made the
//! turn and took it back would end this file's tests.

use crank_model::machine::{Record, NODE};
use crank_model::preview::PreviewCall;
use crank_model::state::WAYS;

use super::PREVIEWS;

/// ld r1,6; ldr r1,r2; qif r3; fetr r1,pc; fetr r1,r3, which is 0; finish; and
/// the data word 77.
static MEM: [u32; 7] = [
    0x0140_0006,
    0x1045_0000,
    0x1860_0000,
    0x1140_0000,
    0x1146_0000,
    0x1B00_0000,
    77,
];
/// Node 2 is the first child of node 1 for coin 0, and waits for 1 cycle.
static TABLE: [u32; 2 * NODE] = [2, 0, 0, 0, 0, 0, 0, 0, 0, 0, 0, 0, 0, 1, 0, 0, 0, 1];

fn record(pc: u32, qifv: u32, qifw: u32) -> Record {
    let mut regs = [0; 16];
    regs[0] = pc;
    regs[4] = 5;
    regs[5] = 6;
    Record {
        regs,
        qifv,
        qifw,
        k: 6,
        m: 7,
        n: 2,
        position: 0,
    }
}

/// Compares each preview with the model's; counts, in each direction, those of a
/// change, of a qif or wait, and of a copy of code.
fn counts(calls: [PreviewCall; 2]) -> [[u32; 2]; 3] {
    let (mut changes, mut walks, mut copies) = ([0; 2], [0; 2], [0; 2]);
    for pc in 0..=7 {
        for (qifv, qifw) in [(1, 0), (2, 0), (2, 1)] {
            for way in WAYS {
                let r = record(pc, qifv, qifw);
                let shown = calls[way as usize](r, &MEM, &TABLE);
                assert_eq!(shown, way.model_preview()(r, &MEM, &TABLE), "{r:?}");
                changes[way as usize] += shown.changes;
                let walked = [shown.record.qifv, shown.record.qifw] != [qifv, qifw];
                walks[way as usize] += u32::from(walked);
                let copied = [5 ^ MEM[3], 5 ^ MEM[0]].contains(&shown.record.regs[4]);
                copies[way as usize] += u32::from(copied);
            }
        }
    }
    [changes, walks, copies]
}

#[test]
fn only_read() {
    for (name, calls) in PREVIEWS {
        let counts = counts(calls);
        println!("only read by {name}: changes, qifs and waits, copies {counts:?}");
        // Two exchanges and two copies of code, with either node; a qif and a wait.
        assert_eq!(counts, [[4; 2], [2; 2], [4; 2]], "{name}");
    }
}
