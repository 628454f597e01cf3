//! Turns worked out by hand from the text of #104.

use crank_model::machine::Record;
use crank_model::state::Machine;
use crank_model::state::Way::{self, Back, Forward};

use super::{endless, endless_after, TURNS};

const LARGEST: i64 = 9_223_372_036_854_775_807;
const SMALLEST: i64 = -9_223_372_036_854_775_808;

/// The position, the direction, the refusal and the position after it.
const STEPS: [(i64, Way, u32, i64); 18] = [
    (0, Forward, 0, 1),
    (0, Back, 0, -1),
    (-1, Forward, 0, 0),
    (1, Back, 0, 0),
    (41, Forward, 0, 42),
    (-41, Back, 0, -42),
    (2_147_483_647, Forward, 0, 2_147_483_648),
    (-2_147_483_648, Back, 0, -2_147_483_649),
    (4_294_967_295, Forward, 0, 4_294_967_296),
    (4_294_967_296, Back, 0, 4_294_967_295),
    (-4_294_967_296, Back, 0, -4_294_967_297),
    (-4_294_967_297, Forward, 0, -4_294_967_296),
    (LARGEST - 1, Forward, 0, LARGEST),
    (LARGEST, Forward, 21, LARGEST),
    (LARGEST, Back, 0, LARGEST - 1),
    (SMALLEST + 1, Back, 0, SMALLEST),
    (SMALLEST, Back, 21, SMALLEST),
    (SMALLEST, Forward, 0, SMALLEST + 1),
];

#[test]
fn one_turn() {
    for (name, turns) in TURNS {
        for (position, way, refusal, after) in STEPS {
            let mut machine = endless(position);
            let found = machine.turn(turns[way as usize]);
            assert_eq!(found, refusal, "{name} {way:?} at {position}");
            let made = u64::from(refusal == 0);
            assert_eq!(machine, endless_after(made, after), "{name} {way:?}");
        }
    }
    println!("by hand: {} turns, {} callers", STEPS.len(), TURNS.len());
}

/// start, xori r1,5, finish, at one of its three places.
fn exercise(place: usize, position: i64) -> Machine {
    let mut record = Record {
        k: 3,
        m: 3,
        position,
        ..Record::default()
    };
    record.regs[0] = place as u32;
    record.regs[4] = [0, 0, 5][place];
    Machine {
        record,
        mem: vec![0x1A00_0000, 0x0240_0005, 0x1B00_0000],
        table: Vec::new(),
    }
}

/// The place and the position, the direction, the refusals one after the other
/// of turns that are all tried, and the place and the position at their end.
type Run = (usize, i64, Way, &'static [u32], usize, i64);

/// At the end of the position finish and start are refused by 21, not 12.
const RUNS: [Run; 12] = [
    (0, 0, Forward, &[0, 0, 12, 12], 2, 2),
    (0, -1, Forward, &[0, 0, 12], 2, 1),
    (0, LARGEST - 3, Forward, &[0, 0, 12], 2, LARGEST - 1),
    (0, LARGEST - 2, Forward, &[0, 0, 21, 21], 2, LARGEST),
    (0, LARGEST - 1, Forward, &[0, 21, 21], 1, LARGEST),
    (0, LARGEST, Forward, &[21, 21], 0, LARGEST),
    (2, 2, Back, &[0, 0, 12, 12], 0, 0),
    (2, 0, Back, &[0, 0, 12], 0, -2),
    (2, SMALLEST + 3, Back, &[0, 0, 12], 0, SMALLEST + 1),
    (2, SMALLEST + 2, Back, &[0, 0, 21, 21], 0, SMALLEST),
    (2, SMALLEST + 1, Back, &[0, 21, 21], 1, SMALLEST),
    (2, SMALLEST, Back, &[21, 21], 2, SMALLEST),
];

#[test]
fn start_to_finish_and_back() {
    for (name, turns) in TURNS {
        for (place, position, way, refusals, to, after) in RUNS {
            let start = exercise(place, position);
            let mut machine = start.clone();
            let mut found = Vec::new();
            for _ in refusals {
                found.push(machine.turn(turns[way as usize]));
            }
            assert_eq!(found, refusals, "{name} {way:?} from {position}");
            assert_eq!(machine, exercise(to, after), "{name} {way:?}");
            // A back turn's earlier state has its position, too.
            for _ in refusals.iter().filter(|refusal| **refusal == 0) {
                assert_eq!(machine.turn(turns[way.reverse() as usize]), 0);
            }
            assert_eq!(machine, start, "{name} {way:?} and back");
        }
    }
    println!("by hand: {} runs, {} callers", RUNS.len(), TURNS.len());
}
