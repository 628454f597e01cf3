//! A length that falls until it is below a mark, through 0 and below it.

use super::callers::Turned;
use super::proved::TURNS;
use crank_model::machine::Record;
use crank_model::state::{Machine, Way};

/// r1 is the length, r2 the mark, r3 says that the length is below it, and r4
/// counts the rounds.
const MEM: [u32; 7] = [
    0x1A00_0000, // 0 start
    0x0770_FFFC, // 1 bnz r4,-4
    0x0440_012C, // 2 subi r1,300
    0x0370_0001, // 3 addi r4,1
    0x2364_5500, // 4 arib less r3,r1,r2
    0x0660_FFFC, // 5 bez r3,-4
    0x1B00_0000, // 6 finish
];

/// The length, the mark, the rounds and the length at the end.
type Row = (u32, u32, u32, u32);

const ROWS: [Row; 8] = [
    // 1,000 to 0: it ends at -200.
    (1_000, 0, 4, 4_294_967_096),
    // 900 to 0: at 0 it is not below 0 yet; it ends at -300.
    (900, 0, 4, 4_294_966_996),
    // 1,000 to -500: at -500 it goes on; it ends at -800.
    (1_000, 4_294_966_796, 6, 4_294_966_496),
    // -1 to 0, -1 to 1,000 and -100 to -1,000: they end at -301, -301 and -1,300.
    (4_294_967_295, 0, 1, 4_294_966_995),
    (4_294_967_295, 1_000, 1, 4_294_966_995),
    (4_294_967_196, 4_294_966_296, 4, 4_294_965_996),
    // 5,000 to 4,000.
    (5_000, 4_000, 4, 3_800),
    // 700 above the smallest number, to 200 above it.
    (2_147_484_348, 2_147_483_848, 2, 2_147_483_748),
];

fn machine(pc: u32, registers: [u32; 4], position: i64) -> Machine {
    let mut record = Record {
        k: 7,
        m: 7,
        position,
        ..Record::default()
    };
    record.regs[0] = pc;
    record.regs[4..8].copy_from_slice(&registers);
    Machine {
        record,
        mem: MEM.to_vec(),
        table: Vec::new(),
    }
}

/// The start, the finish, and the turns between them: one, and five each round.
fn ends((length, mark, rounds, end): Row) -> (Machine, Machine, u32) {
    let turns = 1 + 5 * rounds;
    let start = machine(0, [length, mark, 0, 0], 0);
    let finish = machine(6, [end, mark, 1, rounds], turns.into());
    (start, finish, turns)
}

/// To the finish and back to the start, with a turn more, which is refused there.
#[test]
fn at_once() {
    let mut answers = 0;
    for row in ROWS {
        let (start, finish, accepted) = ends(row);
        for (way, from, to) in [
            (Way::Forward, &start, &finish),
            (Way::Back, &finish, &start),
        ] {
            let turned = Turned {
                way,
                from,
                accepted,
                refusal: 12,
                to,
            };
            answers += turned.at_once();
        }
    }
    println!("lengths: {} rows, {answers} answers", ROWS.len());
    assert_eq!(answers, 8 * 12);
}

#[test]
fn turn_by_turn() {
    for row in ROWS {
        let (start, finish, turns) = ends(row);
        for (name, calls) in TURNS {
            let mut machine = start.clone();
            for (way, end) in [(Way::Forward, &finish), (Way::Back, &start)] {
                for turn in 0..turns {
                    let refusal = machine.turn(calls[way as usize]);
                    assert_eq!(refusal, 0, "{name} {way:?} {turn} {row:?}");
                }
                assert_eq!(machine, *end, "{name} {way:?} {row:?}");
            }
        }
    }
    println!("lengths turn by turn: {} callers", TURNS.len());
}
