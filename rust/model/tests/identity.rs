//! Forward then back, and back then forward, return exactly.

mod proved;

use crank_model::compare::returns;
use crank_model::cover::Cover;
use crank_model::generate::{for_run, for_turn};
use crank_model::machine;
use crank_model::rng::{rounds, Rng};
use crank_model::state::{Turn, WAYS};

fn identity(title: &str, seed: u64, turns: [Turn; 2]) {
    let mut rng = Rng::new(seed);
    let mut cover = Cover::default();
    for _ in 0..rounds(200_000) {
        for way in WAYS {
            returns(way, &for_turn(&mut rng, way), turns, &mut cover);
        }
    }
    for _ in 0..rounds(2_000) {
        for way in WAYS {
            returns(way, &for_run(&mut rng, way), turns, &mut cover);
        }
    }
    cover.summary(title);
    cover.demand_turns();
}

#[test]
fn model() {
    identity("model identity", 11, [machine::forward, machine::back]);
}

#[test]
fn library() {
    identity("library identity", 12, [proved::forward, proved::back]);
}
