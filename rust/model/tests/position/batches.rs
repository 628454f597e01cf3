//! Batches that come to the end of the position.

use std::cmp::Ordering;

use crank_model::damage::wrong_sizes;
use crank_model::instruction::{word_i, FINISH, START};
use crank_model::machine::{Batch, Record, NODE};
use crank_model::state::{BatchCall, Machine, Way, WAYS};

use super::{endless, endless_after, BATCHES};

/// The position so many turns before the end.
fn before_end(way: Way, turns: u32) -> i64 {
    let position = way
        .reverse()
        .position_after(way.last_position(), turns.into());
    position.expect("a position")
}

/// A batch of `n` where `left` turns are left to the end of the position.
fn endless_batch(way: Way, call: BatchCall, left: u32, n: u32) {
    let mut machine = endless(before_end(way, left));
    let batch = machine.batch(n, call);
    let turns = n.min(left);
    let after = endless_after(turns.into(), before_end(way, left - turns));
    let expected = Batch {
        turns,
        refusal: if n > left { 21 } else { 0 },
        record: after.record,
    };
    assert_eq!(batch, expected, "{way:?} {n} of {left}");
    assert_eq!(machine, after, "{way:?} {n} of {left}");
}

/// Only the end of the position ends these.
#[test]
fn to_the_end() {
    let mut made = 0;
    for (_, calls) in BATCHES {
        for way in WAYS {
            for left in [0u32, 1, 2, 3, 255, 256, 257, 1_000, 70_000] {
                let less = left.saturating_sub(1);
                for n in [0, 1, less, left, left + 1, 2 * left + 5, u32::MAX] {
                    endless_batch(way, calls[way as usize], left, n);
                    made += 1;
                }
            }
        }
    }
    println!("batches to the end of the position: {made}");
    assert_eq!(made, 3 * 2 * 9 * 7);
}

/// From the other end, and where the low word passes over: as far as asked.
#[test]
fn past_the_words() {
    const FAR: u32 = 100_000;
    let mut made = 0;
    for (name, calls) in BATCHES {
        for way in WAYS {
            let other_end = way.reverse().last_position();
            for start in [other_end, 0, 0xFFFF_0000, -0xFFFF_0000] {
                let mut machine = endless(start);
                let batch = machine.batch(FAR, calls[way as usize]);
                assert_eq!((batch.turns, batch.refusal), (FAR, 0), "{name} {way:?}");
                let after = way.position_after(start, FAR.into()).expect("a position");
                assert_eq!(machine, endless_after(FAR.into(), after), "{name}");
                made += 1;
            }
        }
    }
    println!("batches of {FAR} past the words of the position: {made}");
    assert_eq!(made, 3 * 2 * 4);
}

/// start, addi r1,1 `words` times, finish, with some of its turns made.
fn straight(words: u32, made: u32, position: i64) -> Machine {
    let mut mem = vec![START];
    mem.extend(vec![word_i(3, 4, 1); words as usize]);
    mem.push(FINISH);
    let mut record = Record {
        k: words + 2,
        m: words + 2,
        position,
        ..Record::default()
    };
    record.regs[0] = made;
    record.regs[4] = made.saturating_sub(1);
    Machine {
        record,
        mem,
        table: Vec::new(),
    }
}

/// The turns of the code below, from its start to its finish.
const ALL: u32 = 6;

/// A batch with so many turns to the end of the code and to that of the
/// position; gives its refusal.
fn two_ends(way: Way, call: BatchCall, code: u32, left: u32) -> u32 {
    let stand = |turns: u32| {
        let to_go = code - turns;
        let made = match way {
            Way::Forward => ALL - to_go,
            Way::Back => to_go,
        };
        straight(ALL - 1, made, before_end(way, left - turns))
    };
    let mut machine = stand(0);
    let batch = machine.batch(u32::MAX, call);
    assert_eq!(batch.turns, code.min(left), "{way:?}, {code} and {left}");
    assert_eq!(machine, stand(batch.turns), "{way:?}, {code} and {left}");
    batch.refusal
}

/// The end of the code and that of the position, each before the other and both
/// at once: the first ends the batch, and 21 comes before 12.
#[test]
fn against_the_end_of_the_code() {
    let mut by = [0; 3];
    for (name, calls) in BATCHES {
        for way in WAYS {
            for (code, left) in (0..ALL).flat_map(|code| (0..ALL).map(move |p| (code, p))) {
                let (kind, expected) = match code.cmp(&left) {
                    Ordering::Less => (0, 12),
                    Ordering::Greater => (1, 21),
                    Ordering::Equal => (2, 21),
                };
                let refusal = two_ends(way, calls[way as usize], code, left);
                assert_eq!(refusal, expected, "{name} {way:?}, {code} and {left}");
                by[kind] += 1;
            }
        }
    }
    println!("ended by the code, by the position, by both: {by:?}");
    assert_eq!(by, [90, 90, 36]);
}

/// With wrong sizes 10 comes before the end, and a batch of 0 is never refused.
#[test]
fn wrong_sizes_at_the_end() {
    let mut made = 0;
    for (name, calls) in BATCHES {
        for way in WAYS {
            let mut good = endless(way.last_position());
            good.table = vec![0; NODE];
            good.record.n = 1;
            for start in wrong_sizes(&good) {
                for (n, refusal) in [(0, 0), (1, 10), (2, 10), (u32::MAX, 10)] {
                    let mut machine = start.clone();
                    let batch = machine.batch(n, calls[way as usize]);
                    assert_eq!((batch.turns, batch.refusal), (0, refusal), "{name}");
                    assert_eq!(machine, start, "{name}");
                    made += 1;
                }
            }
        }
    }
    println!("batches with wrong sizes at the end of the position: {made}");
    assert_eq!(made, 3 * 2 * 9 * 4);
}
