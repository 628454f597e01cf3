//! Exercises as they are given out, and students who turn them to and fro.

use crate::records::given;
use crate::scratch::all_examples;
use crank::{Direction, Kind, Machine};
use crank_model::rng::Rng;
use crank_model::structured;

/// The counts that a student hands in, and the refused calls, which do not count.
#[derive(Clone, Copy, Default)]
pub struct Counts {
    pub forward: u64,
    pub back: u64,
    pub refused: u64,
}

/// All examples, and as many generated exercises.
pub fn exercises(rng: &mut Rng, generated: u32) -> Vec<Machine> {
    let mut list = all_examples();
    list.extend((0..generated).map(|_| generated_exercise(rng)));
    list
}

fn generated_exercise(rng: &mut Rng) -> Machine {
    let rounds = rng.chance(2, 3).then(|| rng.between(1, 60));
    let made = structured::program(rng, rounds);
    Machine {
        record: given(made.record),
        mem: made.mem,
        table: made.table,
    }
}

/// The exercise as it is given out, at start or in the middle of its run and at any position, and the
/// file that it is given out in.
pub fn beginning(rng: &mut Rng, exercise: &Machine) -> (Machine, Vec<u8>) {
    let mut beginning = exercise.clone();
    if rng.chance(1, 2) {
        let turns = rng.below(100);
        beginning.turns(Direction::Forward, turns.into());
    }
    if rng.chance(1, 2) {
        let any = rng.next_u64() as i64;
        beginning.record.position = rng.pick(&[-7, i64::MIN, i64::MAX, i64::MAX - 20, any]);
    }
    let kind = kind(rng);
    let file = file(rng, kind, &beginning);
    // As it is opened: one of kind 1 has no position any more.
    (Machine::load(&file).expect("an image"), file)
}

pub fn kind(rng: &mut Rng) -> Kind {
    rng.pick(&[Kind::One, Kind::Two])
}

/// Turns the machine to and fro by single turns and batches.
pub fn play(rng: &mut Rng, machine: &mut Machine) -> Counts {
    let mut counts = Counts::default();
    for _ in 0..rng.below(12) {
        let direction = rng.pick(&[Direction::Forward, Direction::Back]);
        let (turns, refusal) = if rng.chance(1, 2) {
            let refusal = machine.turn(direction);
            (u64::from(refusal == 0), refusal)
        } else {
            let most = rng.pick(&[5, 50, 2_000]);
            let made = machine.turns(direction, rng.below(most).into());
            (made.turns, made.refusal)
        };
        counts.refused += u64::from(refusal != 0);
        match direction {
            Direction::Forward => counts.forward += turns,
            Direction::Back => counts.back += turns,
        }
    }
    counts
}

/// The image, now and then behind a preface.
pub fn file(rng: &mut Rng, kind: Kind, machine: &Machine) -> Vec<u8> {
    let preface = rng.pick(&[0, 0, 1, 300]);
    let image = machine.save_as(kind).expect("its sizes are in order");
    [rng.bytes(preface), image].concat()
}
