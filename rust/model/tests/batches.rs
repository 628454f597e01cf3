//! Batches: library, lesson bench and model agree, and the turns are the single
//! turns before the first refusal among n.

mod proved;

use crank_model::compare::{batch_size, follow, same_batch};
use crank_model::cover::Cover;
use crank_model::damage::wrong_sizes;
use crank_model::generate::{for_run, for_turn};
use crank_model::image::check;
use crank_model::instruction::{word_i, PC};
use crank_model::machine::{Batch, Record};
use crank_model::rng::{rounds, Rng};
use crank_model::state::{BatchCall, Machine, Way, WAYS};
use crank_model::structured::running;

/// The proved batches by value and on the lesson bench, forward and back.
const CALLS: [[BatchCall; 2]; 2] = [
    [proved::forward_batch, proved::back_batch],
    [proved::bench::forward_batch, proved::bench::back_batch],
];

/// Makes both proved batches and compares them with the model's, and that with
/// its single turns. `machine` becomes the result.
fn one_batch(way: Way, machine: &mut Machine, n: u32, cover: &mut Cover) -> Batch {
    let mut single = machine.clone();
    let [by_value, on_bench] = CALLS.map(|calls| calls[way as usize]);
    same_batch(way, &mut machine.clone(), n, by_value);
    let batch = same_batch(way, machine, n, on_bench);
    let next = follow(way, &mut single, n, batch, cover);
    assert_eq!(*machine, single, "{way:?} batch of {n} gave {batch:?}");
    count(cover, way, &cases(n, batch.turns, next));
    batch
}

/// The kinds of batches; `k` turns of `n` are made, and `next` is the refusal
/// of the turn behind them.
fn cases(n: u32, k: u32, next: u32) -> [(&'static str, bool); 15] {
    let all = n > 0 && k == n;
    [
        ("n 0", n == 0),
        ("n 0, next refused", n == 0 && next != 0),
        ("n 0, next refused by 10", n == 0 && next == 10),
        ("n 0, next refused by 21", n == 0 && next == 21),
        ("n 1", n == 1),
        ("n largest", n == u32::MAX),
        ("first refused", k == 0 && n > 0),
        ("first refused by 21", k == 0 && n > 0 && next == 21),
        ("later refused", k > 0 && k < n),
        ("later refused by 21", k > 0 && k < n && next == 21),
        ("last refused", k > 0 && n - k == 1),
        ("all n", all),
        ("all n, next refused", all && next != 0),
        ("all n, next refused by 21", all && next == 21),
        ("all n, above 256", all && n > 256),
    ]
}

fn count(cover: &mut Cover, way: Way, cases: &[(&str, bool)]) {
    for (name, _) in cases.iter().filter(|(_, met)| *met) {
        cover.count(&format!("{way:?} {name}"));
    }
}

/// Fails if one of the cases was not met in one of the directions.
fn demand(cover: &Cover, names: &[&str]) {
    for way in WAYS {
        for name in names {
            cover.demand(&[&format!("{way:?} {name}")]);
        }
    }
}

/// What a machine is by the check, and whether it is lent more than it counts.
fn kinds(machine: &Machine) -> [(&'static str, bool); 4] {
    let (refusal, _) = check(machine.record, &machine.mem, &machine.table);
    let (mem, table) = machine.counted();
    [
        ("whole machine", refusal == 0),
        ("damaged machine", refusal != 0),
        ("memory longer than M", mem.len() < machine.mem.len()),
        ("table longer than 9N", table.len() < machine.table.len()),
    ]
}

#[test]
fn machines() {
    let mut rng = Rng::new(31);
    let mut cover = Cover::default();
    for round in 0..rounds(60_000) {
        for way in WAYS {
            let mut machine = if round % 6 == 0 {
                for_run(&mut rng, way)
            } else {
                for_turn(&mut rng, way)
            };
            count(&mut cover, way, &kinds(&machine));
            let n = batch_size(&mut rng, way, &machine);
            one_batch(way, &mut machine, n, &mut cover);
        }
    }
    cover.summary("batches");
    cover.demand_turns();
    demand(&cover, &cases(0, 0, 0).map(|(name, _)| name));
    demand(&cover, &["whole machine", "damaged machine"]);
    demand(&cover, &["memory longer than M", "table longer than 9N"]);
}

/// With wrong sizes a batch of 0 gives no refusal, and every other gives 10.
#[test]
fn sizes() {
    let mut rng = Rng::new(32);
    let mut cover = Cover::default();
    for _ in 0..rounds(100) {
        let good = running(&mut rng, 100);
        for start in wrong_sizes(&good) {
            for (n, refusal) in [(0, 0), (1, 10), (2, 10), (u32::MAX, 10)] {
                for way in WAYS {
                    let mut machine = start.clone();
                    let batch = one_batch(way, &mut machine, n, &mut cover);
                    assert_eq!((batch.turns, batch.refusal), (0, refusal));
                    assert_eq!(machine, start);
                }
            }
        }
    }
    cover.summary("batches with wrong sizes");
    demand(&cover, &["n 0, next refused by 10", "first refused"]);
}

/// Code of 400 words addi r1,1, turned from either end; worked out by hand. The
/// position passes 0 on the way.
#[test]
fn straight_code() {
    let at = |turns: u32| {
        let mut record = Record {
            k: 400,
            m: 400,
            position: i64::from(turns) - 100,
            ..Record::default()
        };
        record.regs[PC] = turns;
        record.regs[4] = turns;
        record
    };
    for (n, turns, refusal) in [
        (0, 0, 0),
        (1, 1, 0),
        (256, 256, 0),
        (257, 257, 0),
        (400, 400, 0),
        (401, 400, 11),
        (u32::MAX, 400, 11),
    ] {
        for (way, from, to) in [(Way::Forward, 0, turns), (Way::Back, 400, 400 - turns)] {
            let mut machine = Machine {
                record: at(from),
                mem: vec![word_i(3, 4, 1); 400],
                table: Vec::new(),
            };
            let expected = Batch {
                turns,
                refusal,
                record: at(to),
            };
            let batch = one_batch(way, &mut machine, n, &mut Cover::default());
            assert_eq!(batch, expected, "{way:?} batch of {n}");
        }
    }
}

/// A batch of `i` and then one of n - i, with their turns added up.
fn in_two(start: &Machine, n: u32, i: u32, call: BatchCall) -> (Batch, Machine) {
    let mut machine = start.clone();
    let first = machine.batch(i, call);
    assert_eq!(
        (first.turns, first.refusal),
        (i, 0),
        "{n} in two: {start:?}"
    );
    let second = machine.batch(n - i, call);
    let turns = i + second.turns;
    (Batch { turns, ..second }, machine)
}

/// The kinds of cuts of a batch of `n` with `k` turns.
fn cuts(n: u32, k: u32, i: u32) -> [(&'static str, bool); 6] {
    [
        ("first of 0", i == 0),
        ("second of 0", i == n),
        ("both turn", i > 0 && i < k),
        ("second refused at once", i == k && k < n),
        ("second refused later", i < k && k < n),
        ("all n", k == n),
    ]
}

/// A batch cut anywhere among its turns gives the same in two.
#[test]
fn cut_in_two() {
    let mut rng = Rng::new(33);
    let mut cover = Cover::default();
    for _ in 0..rounds(4_000) {
        for way in WAYS {
            let start = for_run(&mut rng, way);
            let n = batch_size(&mut rng, way, &start);
            for calls in CALLS {
                let call = calls[way as usize];
                let mut whole = start.clone();
                let batch = whole.batch(n, call);
                let any = rng.between(0, batch.turns);
                let i = rng.pick(&[0, any, any, batch.turns]);
                let found = in_two(&start, n, i, call);
                assert_eq!(found, (batch, whole), "{way:?} {n} cut at {i}: {start:?}");
                count(&mut cover, way, &cuts(n, batch.turns, i));
            }
        }
    }
    cover.summary("batches cut in two");
    demand(&cover, &cuts(0, 0, 0).map(|(name, _)| name));
}
