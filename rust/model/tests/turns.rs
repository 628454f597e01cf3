//! Single turns both ways: library and model agree.

mod proved;

use crank_model::compare::same_turn;
use crank_model::cover::Cover;
use crank_model::generate::{for_run, for_turn};
use crank_model::rng::{rounds, Rng};
use crank_model::state::WAYS;

#[test]
fn one_turn() {
    let mut rng = Rng::new(21);
    let mut cover = Cover::default();
    for _ in 0..rounds(400_000) {
        for way in WAYS {
            let mut machine = for_turn(&mut rng, way);
            let turn = [proved::forward, proved::back][way as usize];
            same_turn(way, &mut machine, turn, &mut cover);
        }
    }
    cover.summary("one turn");
    cover.demand_turns();
}

/// Runs of single turns, also past a refusal, with changes of direction.
#[test]
fn runs_of_turns() {
    let mut rng = Rng::new(22);
    let mut cover = Cover::default();
    for _ in 0..rounds(3_000) {
        let mut way = rng.pick(&WAYS);
        let mut machine = for_run(&mut rng, way);
        for _ in 0..rng.below(300) {
            let turn = [proved::forward, proved::back][way as usize];
            let refusal = same_turn(way, &mut machine, turn, &mut cover);
            if refusal != 0 || rng.chance(1, 40) {
                way = rng.pick(&WAYS);
            }
        }
    }
    cover.summary("runs of turns");
    cover.demand_turns();
}
