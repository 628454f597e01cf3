//! A whole year's hand-ins in a list.

use crate::scratch::Folder;
use crank::{Direction, Machine};
use crank_model::rng::Rng;
use crank_model::structured;
use std::time::{Duration, Instant};

const HAND_INS: usize = 1_000;
const TURNS: u64 = 100_000;
/// Different ones; the list repeats them.
const FILES: usize = 8;

/// An exercise that runs for longer than the turns.
fn long_exercise(rng: &mut Rng) -> Machine {
    let made = structured::program(rng, Some(1_000_000));
    let mut machine = Machine::new(made.record.k, made.mem, made.table);
    machine.record.regs = made.record.regs;
    machine.record.qifv = made.record.qifv;
    machine
}

#[test]
fn thousand_hand_ins() {
    let folder = Folder::new("speed");
    let exercise = long_exercise(&mut Rng::new(103));
    folder.write("exercise.img", exercise.save().expect("an image"));
    let mut hand_in = exercise.clone();
    for file in 0..FILES {
        // Each a turn further than the one before.
        let turns = if file == 0 { TURNS } else { 1 };
        assert_eq!(hand_in.turns(Direction::Forward, turns).turns, turns);
        folder.write(format!("{file}.img"), hand_in.save().expect("an image"));
    }
    let lines =
        (0..HAND_INS).map(|i| format!("{}.img, {}, 0\n", i % FILES, TURNS + (i % FILES) as u64));
    folder.write("list", lines.collect::<String>());
    let began = Instant::now();
    let ran = folder.mark(&["--list", "list", "--from", "exercise.img"]);
    let took = began.elapsed();
    println!("speed: {HAND_INS} hand-ins of {TURNS} turns in {took:.2?}");
    assert_eq!((ran.status, &ran.err[..]), (0, ""));
    let summary = format!("{HAND_INS} hand-ins: {HAND_INS} fit, 0 do not fit, 0 cannot be marked");
    assert_eq!(ran.out.lines().last(), Some(&summary[..]));
    assert!(took < Duration::from_secs(60));
}
