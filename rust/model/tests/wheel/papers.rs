//! Examples worked out by hand from the text of #101.

use crank_model::machine::Record;
use crank_model::state::Machine;
use crank_model::wheel::{self, SampleCall, Wheeled};

use super::CALLS;

/// start, xori r1,5, finish and a data word: two turns forward from its start.
fn two_turns() -> Machine {
    let record = Record {
        k: 3,
        m: 4,
        ..Record::default()
    };
    Machine {
        record,
        mem: vec![0x1A00_0000, 0x0240_0005, 0x1B00_0000, 0],
        table: Vec::new(),
    }
}

/// The given sample, the list, the turns accepted forward, accepted back and
/// refused, the last sample and the refusal, and then pc and r1.
type Example = (u8, &'static [u8], [u64; 3], [u32; 2], [u32; 2]);

const EXAMPLES: [Example; 27] = [
    // Nothing turns.
    (0, &[], [0, 0, 0], [0, 0], [0, 0]),
    (3, &[3], [0, 0, 0], [3, 0], [0, 0]),
    (2, &[2, 2, 2], [0, 0, 0], [2, 0], [0, 0]),
    // Along the cycle: past the finish every turn is refused and counted.
    (0, &[1], [1, 0, 0], [1, 0], [1, 0]),
    (0, &[1, 3], [2, 0, 0], [3, 0], [2, 5]),
    (3, &[2, 0], [2, 0, 0], [0, 0], [2, 5]),
    (0, &[1, 3, 2, 0, 1], [2, 0, 3], [1, 0], [2, 5]),
    (2, &[0, 0, 1, 1], [2, 0, 0], [1, 0], [2, 5]),
    // Against it: refused at the start, and the wheel goes on.
    (0, &[2], [0, 0, 1], [2, 0], [0, 0]),
    (0, &[2, 3, 1, 0], [0, 0, 4], [0, 0], [0, 0]),
    (0, &[2, 0], [1, 0, 1], [0, 0], [1, 0]),
    // To and fro.
    (0, &[1, 0], [1, 1, 0], [0, 0], [0, 0]),
    (0, &[1, 3, 1, 0], [2, 2, 0], [0, 0], [0, 0]),
    (1, &[3, 2, 0, 2, 3, 1], [2, 2, 2], [1, 0], [0, 0]),
    (1, &[3, 1, 3, 1, 3], [3, 2, 0], [3, 0], [1, 0]),
    // Two steps: the sample before is the last, the turns before stand.
    (0, &[3], [0, 0, 0], [0, 19], [0, 0]),
    (0, &[0, 3, 9], [0, 0, 0], [0, 19], [0, 0]),
    (0, &[1, 3, 0, 1], [2, 0, 0], [3, 19], [2, 5]),
    (0, &[1, 3, 3, 1, 2, 0], [2, 1, 0], [1, 19], [1, 0]),
    (1, &[3, 2, 0, 3, 2], [2, 0, 1], [0, 19], [2, 5]),
    // Above 3: the same, and a sample above 3 is never two steps away.
    (0, &[4], [0, 0, 0], [0, 20], [0, 0]),
    (0, &[1, 255, 3], [1, 0, 0], [1, 20], [1, 0]),
    (2, &[2, 7, 1], [0, 0, 0], [2, 20], [0, 0]),
    // The given one above 3: before any sample, and without one.
    (4, &[], [0, 0, 0], [4, 20], [0, 0]),
    (255, &[255], [0, 0, 0], [255, 20], [0, 0]),
    (9, &[0, 1, 3], [0, 0, 0], [9, 20], [0, 0]),
    (4, &[0, 3], [0, 0, 0], [4, 20], [0, 0]),
];

fn examples(call: SampleCall) -> usize {
    for (given, samples, counts, ends, [pc, r1]) in EXAMPLES {
        let mut machine = two_turns();
        let answer = machine.samples(given, samples, call);
        let mut expected = two_turns();
        expected.record.regs[0] = pc;
        expected.record.regs[4] = r1;
        expected.record.position = counts[0] as i64 - counts[1] as i64;
        let wheeled = Wheeled {
            forward: counts[0],
            back: counts[1],
            refused: counts[2],
            last: ends[0],
            refusal: ends[1],
            record: expected.record,
        };
        assert_eq!(answer, wheeled, "{samples:?} after {given}");
        assert_eq!(machine, expected, "{samples:?} after {given}");
    }
    EXAMPLES.len()
}

/// Each sample after each, in the middle of the program: pc tells the turn.
fn sixteen(call: SampleCall) -> usize {
    const STILL: Option<u32> = Some(1);
    const FORWARD: Option<u32> = Some(2);
    const BACK: Option<u32> = Some(0);
    const TWO: Option<u32> = None;
    let turned = [
        [STILL, FORWARD, BACK, TWO], // 0, then 0, 1, 2, 3
        [BACK, STILL, TWO, FORWARD], // 1
        [FORWARD, TWO, STILL, BACK], // 2
        [TWO, BACK, FORWARD, STILL], // 3
    ];
    let mut pairs = 0;
    for (given, row) in (0u8..).zip(turned) {
        for (sample, pc) in (0u8..).zip(row) {
            pairs += 1;
            let mut machine = two_turns();
            machine.record.regs[0] = 1;
            let answer = machine.samples(given, &[sample], call);
            let last = if pc.is_some() { sample } else { given };
            let expected = (
                pc.unwrap_or(1),
                if pc.is_some() { 0 } else { 19 },
                last.into(),
            );
            let found = (machine.record.regs[0], answer.refusal, answer.last);
            assert_eq!(found, expected, "{sample} after {given}");
            assert_eq!(answer.refused, 0);
        }
    }
    pairs
}

fn by_hand(call: SampleCall) {
    let covered = (examples(call), sixteen(call));
    println!("by hand: {} lists, {} pairs", covered.0, covered.1);
    assert_eq!(covered, (27, 16));
}

#[test]
fn model() {
    by_hand(wheel::samples);
}

#[test]
fn library() {
    CALLS.into_iter().for_each(by_hand);
}
