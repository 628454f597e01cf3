//! What a turn does depends on the position at its end alone: there it is 21,
//! wherever it is not 10, and elsewhere the position counts and nothing else
//! differs.

use crank_model::cover::Cover;
use crank_model::generate::{for_run, for_turn, noise};
use crank_model::positions::{any, EDGES};
use crank_model::rng::{rounds, Rng};
use crank_model::state::{Machine, Turn, Way, WAYS};

use super::TURNS;

fn at(machine: &Machine, position: i64) -> Machine {
    let mut machine = machine.clone();
    machine.record.position = position;
    machine
}

/// The refusal of a turn, and what it leaves.
fn turned(turn: Turn, start: &Machine, position: i64) -> (u32, Machine) {
    let mut machine = at(start, position);
    let refusal = machine.turn(turn);
    (refusal, machine)
}

/// What the turn at position 0 says of that at another.
fn expected(way: Way, start: &Machine, position: i64, at_0: &(u32, Machine)) -> (u32, Machine) {
    let (refusal, after) = at_0;
    match way.position_after(position, 1) {
        None if *refusal != 10 => (21, at(start, position)),
        Some(next) if *refusal == 0 => (0, at(after, next)),
        _ => (*refusal, at(start, position)),
    }
}

/// Turns a machine at 0, at all edges and at some other positions.
fn one_machine(rng: &mut Rng, way: Way, start: &Machine, turn: Turn, cover: &mut Cover) {
    let at_0 = turned(turn, start, 0);
    let counted = way.position_after(0, u64::from(at_0.0 == 0));
    assert_eq!(Some(at_0.1.record.position), counted, "{way:?} {start:?}");
    let others = [any(rng), any(rng), any(rng)];
    for position in EDGES.into_iter().chain(others) {
        let found = turned(turn, start, position);
        let expected = expected(way, start, position, &at_0);
        assert_eq!(found, expected, "{way:?} at {position}: {start:?}");
    }
    cover.count(&at_the_end(way, at_0.0));
}

/// The refusal that the end of the position stood against.
fn at_the_end(way: Way, refusal: u32) -> String {
    match refusal {
        0 => format!("{way:?} 21 alone"),
        10 => format!("{way:?} 21 behind 10"),
        _ => format!("{way:?} 21 before {refusal}"),
    }
}

#[test]
fn at_any_position() {
    let mut rng = Rng::new(91);
    for (name, turns) in TURNS {
        let mut cover = Cover::default();
        for round in 0..rounds(30_000) {
            for way in WAYS {
                let start = match round % 16 {
                    0 => noise(&mut rng),
                    1 => for_run(&mut rng, way),
                    _ => for_turn(&mut rng, way),
                };
                one_machine(&mut rng, way, &start, turns[way as usize], &mut cover);
            }
        }
        cover.summary(&format!("{name} at any position"));
        for way in WAYS {
            for refusal in [0, 10, 11, 12, 13, 14, 15, 16, 17, 18] {
                cover.demand(&[&at_the_end(way, refusal)]);
            }
        }
    }
}
