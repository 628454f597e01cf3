//! Waits count: a qif into a node with w takes w + 1 turns, each one more.

use crank_model::instruction::{word_i, word_r, PC};
use crank_model::machine::{Record, CF, FC, NODE, W};
use crank_model::state::{Machine, Turn, Way};

use super::TURNS;

const R1: usize = 4;

/// A qif from node 1 to 2, and a word behind it, after so many turns of w + 1.
fn qif(w: u32, turns: u32, position: i64) -> Machine {
    let mut table = vec![0; 2 * NODE];
    table[FC] = 2;
    table[NODE + CF] = 1;
    table[NODE + W] = w;
    let mut record = Record {
        qifv: if turns == 0 { 1 } else { 2 },
        qifw: if turns == 0 { 0 } else { w + 1 - turns },
        k: 2,
        m: 2,
        n: 2,
        position,
        ..Record::default()
    };
    record.regs[PC] = u32::from(turns == w + 1);
    Machine {
        record,
        mem: vec![word_r(24, R1, 0), word_i(2, R1, 0)],
        table,
    }
}

/// Goes through the qif from the position, and back.
fn there_and_back(turns: [Turn; 2], w: u32, start: i64) {
    let mut machine = qif(w, 0, start);
    for made in 1..=w + 1 {
        assert_eq!(machine.turn(turns[0]), 0);
        assert_eq!(machine, qif(w, made, start + i64::from(made)));
    }
    for made in (0..=w).rev() {
        assert_eq!(machine.turn(turns[1]), 0);
        assert_eq!(machine, qif(w, made, start + i64::from(made)));
    }
}

/// Comes to the end of the position after so many turns, where all further ones
/// are refused and leave what there is.
fn ends_inside(turns: [Turn; 2], way: Way, w: u32, left: u32) {
    let last = way.last_position();
    let start = way.reverse().position_after(last, left.into());
    let stand = |made: u32| match way {
        Way::Forward => made,
        Way::Back => w + 1 - made,
    };
    let mut machine = qif(w, stand(0), start.expect("a position"));
    for _ in 0..left {
        assert_eq!(machine.turn(turns[way as usize]), 0);
    }
    for _ in 0..3 {
        assert_eq!(machine.turn(turns[way as usize]), 21);
        assert_eq!(machine, qif(w, stand(left), last));
    }
}

#[test]
fn count() {
    let mut seen = (0, 0);
    for (_, turns) in TURNS {
        for w in [0, 1, 2, 3, 10, 300] {
            for start in [0, -2, i64::MIN, 0xFFFF_FFFE, -0x1_0000_0002] {
                there_and_back(turns, w, start);
                seen.0 += 1;
            }
            let to_the_end = i64::MAX - i64::from(w) - 1;
            there_and_back(turns, w, to_the_end);
            for left in (0..=w).filter(|left| *left < 4 || left + 4 > w) {
                for way in [Way::Forward, Way::Back] {
                    ends_inside(turns, way, w, left);
                    seen.1 += 1;
                }
            }
        }
    }
    println!("waits: {} whole, {} with the end inside", seen.0, seen.1);
    assert!(seen.0 > 0 && seen.1 > 0);
}
